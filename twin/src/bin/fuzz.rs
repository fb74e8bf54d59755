//! fuzz [--self] [COUNT] [SEED]: compares the twin with the proved code on generated files.
//!
//! Every case is a feeder and a report. The study is run with buffers of many lengths, filled beforehand and with guard
//! bytes around them, and the answer with its sweeps and every byte are compared; then the check. The first difference
//! ends the run, and its files are written to the folder named by FUZZ_OUT (or here). A line that comes with a refusal must
//! also be the first of all that have the fault, which are sought row by row. The study's own report must pass, and without
//! its table of taps too where no regulator sets its taps; else that meets 50. For every report that passes, the power
//! account must hold and no line have 56. How often each answer was met is printed at the end: for all feeders, for those
//! with a load row between two phases, for those with a P row below 70 per cent of vn (the study's answers if in any sweep,
//! the check's if in the report), for those with a regulator that sets its taps, and for those where two rows or more have
//! the fault that was answered; then how often 54 passed over a row that is fed through one that is off, by where that row
//! stands, and what the studies and reports were like where regulators set their taps.
//!
//! `--self` compares the twin with itself by the same calls. There TWIN_WRONG=KIND:N spoils the N-th call on the other
//! side, to show that the fuzzer notices: KIND is `answer`, `sweeps`, `byte` (in the report), `behind` (a byte behind
//! it), `before` (a guard byte), `feeder` (writes into the feeder's bytes) or `check`.

use std::collections::BTreeMap;
use std::sync::atomic::{AtomicU64, Ordering};
use twin::equations::Phases;
use twin::faults::{lines_with, passed_over};
use twin::generate::{any_feeder, any_report, at_last_taps, Random};
use twin::generate_taps::without_table;
use twin::outside::{twin_check, twin_study, Calls, PROVED};
use twin::relay::MOST_TAP;
use twin::report::{read_report, sweeps_told};
use twin::rounds::{settle_taps_watched, ROUNDS};
use twin::{account, parts, read_feeder, Answer, Feeder, MAX_FILE};

const GUARD: usize = 64;

/// The N-th call of that kind is to be spoiled.
static WRONG_AT: AtomicU64 = AtomicU64::new(0);
static WRONG_KIND: AtomicU64 = AtomicU64::new(0);
static STUDIES: AtomicU64 = AtomicU64::new(0);
static CHECKS: AtomicU64 = AtomicU64::new(0);
const KINDS: [&str; 8] = ["", "answer", "sweeps", "byte", "behind", "before", "feeder", "check"];

unsafe extern "C" fn self_study(feeder: *const u8, feeder_len: usize, out: *mut u8, out_len: usize) -> u64 {
    let word = twin_study(feeder, feeder_len, out, out_len);
    if STUDIES.fetch_add(1, Ordering::Relaxed) + 1 < WRONG_AT.load(Ordering::Relaxed) {
        return word;
    }
    let length = if parts(word).number == 0 { parts(word).value as usize } else { 0 };
    match KINDS[WRONG_KIND.load(Ordering::Relaxed) as usize] {
        "answer" => return word ^ 1,
        "sweeps" => return word ^ 1 << 48,
        "byte" if length > 0 => *out.add(length / 2) ^= 1,
        "behind" if length < out_len => *out.add(length) ^= 1,
        "before" => *out.sub(1) ^= 1,
        "feeder" if feeder_len > 0 => *feeder.cast_mut() ^= 1,
        _ => {}
    }
    word
}

unsafe extern "C" fn self_check(feeder: *const u8, feeder_len: usize, report: *const u8, report_len: usize) -> u64 {
    let word = twin_check(feeder, feeder_len, report, report_len);
    let nth = CHECKS.fetch_add(1, Ordering::Relaxed) + 1;
    let spoiled =
        KINDS[WRONG_KIND.load(Ordering::Relaxed) as usize] == "check" && nth >= WRONG_AT.load(Ordering::Relaxed);
    if spoiled {
        word ^ 1 << 32
    } else {
        word
    }
}

/// A buffer with guard bytes on both sides, all filled with a pattern.
struct Guarded {
    bytes: Vec<u8>,
}

impl Guarded {
    fn new(length: usize, salt: u8) -> Self {
        Guarded { bytes: (0..length + 2 * GUARD).map(|at| (at as u8).wrapping_mul(31) ^ salt).collect() }
    }

    fn middle(&mut self) -> &mut [u8] {
        let end = self.bytes.len() - GUARD;
        &mut self.bytes[GUARD..end]
    }

    /// The middle as a pointer that may also reach the guard bytes, so that a call which does is noticed.
    fn pointer(&mut self) -> *mut u8 {
        // SAFETY: there are at least 2·GUARD bytes.
        unsafe { self.bytes.as_mut_ptr().add(GUARD) }
    }
}

/// The number that an answer is counted under: report, pass or the refusal's.
fn label(answer: Answer) -> String {
    match answer {
        Answer::Report { .. } => "report".to_string(),
        Answer::Pass => "pass".to_string(),
        Answer::Refused { number, .. } => number.to_string(),
    }
}

/// How often each answer was met.
#[derive(Default)]
struct Met {
    studies: BTreeMap<String, u64>,
    checks: BTreeMap<String, u64>,
}

#[derive(Default)]
struct Counts {
    all: Met,
    /// Those of feeders with a load row between two phases.
    delta: Met,
    /// Whether the feeder in hand is one.
    has_delta: bool,
    /// Those where a P row counts as an impedance.
    low: Met,
    /// Whether the case in hand is one.
    has_low: bool,
    /// Those of feeders with a regulator that sets its taps.
    relays: Met,
    /// Whether the feeder in hand is one.
    has_relay: bool,
    /// What their studies and reports were like.
    taps: BTreeMap<&'static str, u64>,
    /// Those where two rows or more have the fault that was answered.
    several: Met,
    /// Whether the answer in hand is one.
    has_several: bool,
    /// Answers 54 by where a row stands that is off and is fed through one that is off.
    passed_over: BTreeMap<&'static str, u64>,
    calls: u64,
}

impl Counts {
    fn study(&mut self, answer: Answer) {
        for met in self.now() {
            *met.studies.entry(label(answer)).or_default() += 1;
        }
    }

    fn check(&mut self, answer: Answer) {
        for met in self.now() {
            *met.checks.entry(label(answer)).or_default() += 1;
        }
    }

    /// Where the feeder in hand is counted.
    fn now(&mut self) -> impl Iterator<Item = &mut Met> {
        let delta = self.has_delta.then_some(&mut self.delta);
        let low = self.has_low.then_some(&mut self.low);
        let relays = self.has_relay.then_some(&mut self.relays);
        let several = self.has_several.then_some(&mut self.several);
        std::iter::once(&mut self.all).chain(delta).chain(low).chain(relays).chain(several)
    }

    /// Counts an answer 54 with this line once for each kind of row that it passed over.
    fn pass_over(&mut self, line: u64, feeder: &[u8], report: &[u8]) {
        let rows = passed_over(feeder, report);
        for (kind, met) in [
            ("before the answer's line", rows.iter().any(|row| row.line < line)),
            ("behind it", rows.iter().any(|row| row.line > line)),
            ("with the node above it within tol, before", rows.iter().any(|row| row.parent_within && row.line < line)),
            ("with the node above it within tol, behind", rows.iter().any(|row| row.parent_within && row.line > line)),
        ] {
            *self.passed_over.entry(kind).or_default() += u64::from(met);
        }
    }

    fn taps(&mut self, kind: &'static str) {
        *self.taps.entry(kind).or_default() += 1;
    }

    /// Counts what the study was like, if the feeder has a regulator that sets its taps.
    fn rounds(&mut self, answer: Answer, rounds: u32) {
        match (answer, rounds) {
            _ if !self.has_relay => {}
            (Answer::Report { .. }, 1) => self.taps("report after 1 round"),
            (Answer::Report { .. }, ROUNDS) => self.taps("report after 32 rounds"),
            (Answer::Report { .. }, _) => self.taps("report after 2 to 31 rounds"),
            (Answer::Refused { number: 30..=34, .. }, 2..) => self.taps("30 to 34 in a later round"),
            _ => {}
        }
    }

    /// Counts what a report that passes is like, if the feeder has a regulator that sets its taps.
    fn rested(&mut self, feeder: &[u8], report: &[u8]) {
        let Ok(feeder) = read_feeder(feeder) else { return };
        let Ok(report) = read_report(&feeder, report) else { return };
        if !self.has_relay {
            return;
        }
        if report.taps != at_last_taps(&feeder).taps() {
            self.taps("pass with other taps than the study's");
        }
        let at_end = feeder.regulators().zip(&report.taps).any(|((row, regulator), taps)| {
            let (v, i) = (&report.voltages[row + 1], &report.currents[row]);
            let present = |k: usize| feeder.branches[row].phases & 1 << k != 0;
            let wants = |k: usize| regulator.relay.as_ref().map_or(0, |relay| relay.wants(v[k], i[k]));
            (0..3).any(|k| present(k) && (taps[k] + wants(k)).abs() > MOST_TAP)
        });
        if at_end {
            self.taps("pass with a tap at its end that is wanted beyond it");
        }
    }
}

/// Whether two rows or more have the fault that was answered; an error where the answer's line is not the first of them.
fn has_several(answer: Answer, feeder: &[u8], report: &[u8]) -> Result<bool, String> {
    let Answer::Refused { number, value } = answer else { return Ok(false) };
    let Some(lines) = lines_with(number, feeder, report) else { return Ok(false) };
    if lines.first() != Some(&value) {
        return Err(format!("the twin says {answer:?}, and lines {lines:?} have that fault"));
    }
    Ok(lines.len() > 1)
}

/// Whether the file has a line like a load row between two phases. It need not be a good feeder.
fn has_delta(feeder: &[u8]) -> bool {
    feeder.split(|b| *b == b'\n').any(|line| {
        let fields: Vec<&[u8]> = line.split(|b| *b == b',').collect();
        fields.len() == 6 && [&b"AB"[..], b"BC", b"CA"].contains(&fields[1])
    })
}

/// Whether a P row counts as an impedance at these voltages.
fn has_low(feeder: &Feeder, v: &[Phases]) -> bool {
    feeder.loads.iter().any(|load| load.is_low(v))
}

/// Whether one does so in any sweep of the study, and the rounds that it takes.
fn low_in_study(feeder: &[u8]) -> (bool, u32) {
    let Ok(feeder) = read_feeder(feeder) else { return (false, 0) };
    let (mut low, mut rounds) = (false, 0);
    // Its answer is compared elsewhere.
    let _ = settle_taps_watched(&mut feeder.clone(), |round, v| {
        low |= has_low(&feeder, v);
        rounds = round;
    });
    (low, rounds)
}

/// Whether the file has a line like that of a regulator with a level. It need not be a good feeder.
fn has_relay(feeder: &[u8]) -> bool {
    feeder.split(|b| *b == b'\n').any(|line| {
        let fields: Vec<&[u8]> = line.split(|b| *b == b',').collect();
        fields.len() == 16 && fields[3] == b"R" && fields[7] != b"0"
    })
}

/// Whether one does so in the report, if that can be read.
fn low_in_report(feeder: &[u8], report: &[u8]) -> bool {
    let Ok(feeder) = read_feeder(feeder) else { return false };
    read_report(&feeder, report).is_ok_and(|report| has_low(&feeder, &report.voltages))
}

/// Runs both sides on one case, in all buffers and with the report; the error says what differs.
fn compare(far: &Calls, feeder: &[u8], report: &[u8], salt: u8, counts: &mut Counts) -> Result<(), String> {
    let mut large = Guarded::new(MAX_FILE, salt);
    let first = twin::study(feeder, large.middle());
    let (low, rounds) = low_in_study(feeder);
    counts.has_delta = has_delta(feeder);
    counts.has_low = low;
    counts.has_relay = has_relay(feeder);
    counts.has_several = has_several(first, feeder, &[])?;
    counts.study(first);
    counts.rounds(first, rounds);

    let mut lengths = vec![MAX_FILE, 0, 1];
    if let Answer::Report { length: needed, .. } = first {
        lengths.extend(needed.saturating_sub(2)..=needed + 2);
        lengths.extend([needed / 2, needed + 1000, 2 * needed]);
    } else {
        lengths.push(300);
    }
    let mut own_feeder = feeder.to_vec();
    let mut own_report = report.to_vec();
    for length in lengths {
        let (mut near, mut away) = (Guarded::new(length, salt), Guarded::new(length, salt));
        let answer = twin::study(feeder, near.middle());
        // SAFETY: the regions are valid for their lengths; the feeder's too is lent from a `mut`, as the comparison
        // below is there to notice a call that writes to it.
        let word = unsafe { (far.study)(own_feeder.as_mut_ptr(), own_feeder.len(), away.pointer(), length) };
        counts.calls += 1;
        if word != answer.word() {
            return Err(format!("study, buffer of {length}: the twin says {answer:?}, the other {:?}", parts(word)));
        }
        if matches!(answer, Answer::Refused { .. }) {
            if near.bytes != Guarded::new(length, salt).bytes {
                return Err(format!("study, buffer of {length}: {answer:?}, and the twin's buffer is changed"));
            }
            if let Answer::Refused { number: 40, .. } = answer {
                counts.study(answer);
            }
        }
        if let Some(at) = near.bytes.iter().zip(&away.bytes).position(|(a, b)| a != b) {
            let at = at as i64 - GUARD as i64;
            return Err(format!("study, buffer of {length}: {answer:?}, and byte {at} differs"));
        }
        if let Answer::Report { length: written, sweeps } = answer {
            if sweeps_told(&away.middle()[..written]) != Some(sweeps) {
                return Err(format!("study, buffer of {length}: {answer:?}, and the report tells other sweeps"));
            }
        }
    }

    // The study's own report must pass, on both sides.
    if let Answer::Report { length, .. } = first {
        let mut own = large.middle()[..length].to_vec();
        compare_check(far, &mut own_feeder, &mut own, counts, Some(Answer::Pass))?;
        let due = if counts.has_relay { Answer::Refused { number: 50, value: 0 } } else { Answer::Pass };
        compare_check(far, &mut own_feeder, &mut without_table(&own), counts, Some(due))?;
    }
    compare_check(far, &mut own_feeder, &mut own_report, counts, None)?;
    if own_feeder != feeder || own_report != report {
        return Err("the feeder's or the report's bytes are changed".to_string());
    }
    Ok(())
}

fn compare_check(
    far: &Calls,
    feeder: &mut [u8],
    report: &mut [u8],
    counts: &mut Counts,
    due: Option<Answer>,
) -> Result<(), String> {
    let answer = twin::check(feeder, report);
    counts.has_low = low_in_report(feeder, report);
    counts.has_several = has_several(answer, feeder, report)?;
    counts.check(answer);
    if let Answer::Refused { number: 54, value } = answer {
        counts.pass_over(value, feeder, report);
    }
    counts.calls += 1;
    if due.is_some_and(|due| due != answer) {
        return Err(format!("check: the twin says {answer:?} of its own report"));
    }
    // SAFETY: as in the study.
    let word = unsafe { (far.check)(feeder.as_mut_ptr(), feeder.len(), report.as_mut_ptr(), report.len()) };
    if word != answer.word() {
        return Err(format!("check: the twin says {answer:?}, the other {:?}", parts(word)));
    }
    // Demand 3, for every report that passes.
    if answer == Answer::Pass && !account::account_of(feeder, report).is_some_and(|account| account.holds()) {
        return Err("check: a pass, but the power account does not hold".to_string());
    }
    if answer == Answer::Pass {
        let lines = lines_with(56, feeder, report).unwrap_or_default();
        if !lines.is_empty() {
            return Err(format!("check: a pass, and lines {lines:?} have 56"));
        }
        counts.rested(feeder, report);
    }
    Ok(())
}

fn line(name: &str, counts: &BTreeMap<String, u64>) {
    let mut list: Vec<_> = counts.iter().collect();
    list.sort_by_key(|(label, _)| label.parse::<u32>().unwrap_or(0));
    let list: Vec<String> = list.iter().map(|(label, count)| format!("{label}: {count}")).collect();
    println!("{name}  {}", list.join(", "));
}

fn main() {
    let mut numbers = Vec::new();
    let mut with_self = false;
    for word in std::env::args().skip(1) {
        match (word.as_str(), word.parse::<u64>()) {
            ("--self", _) => with_self = true,
            (_, Ok(number)) => numbers.push(number),
            _ => {
                eprintln!("usage: fuzz [--self] [COUNT] [SEED]");
                std::process::exit(2);
            }
        }
    }
    let count = numbers.first().copied().unwrap_or(20_000);
    let seed = numbers.get(1).copied().unwrap_or(1);

    let far = if with_self {
        if let Some((kind, at)) = std::env::var("TWIN_WRONG").ok().as_deref().and_then(|text| text.split_once(':')) {
            let kind = KINDS.iter().position(|known| *known == kind).expect("a kind of TWIN_WRONG");
            WRONG_KIND.store(kind as u64, Ordering::Relaxed);
            WRONG_AT.store(at.parse().expect("a number in TWIN_WRONG"), Ordering::Relaxed);
        }
        Calls { study: self_study, check: self_check }
    } else {
        PROVED.unwrap_or_else(|| {
            eprintln!("the proved library is not linked: build with --features proved, or run with --self");
            std::process::exit(2);
        })
    };

    let mut counts = Counts::default();
    for case in 0..count {
        // Each case has its own seed, so that one can be made again alone.
        let mut random =
            Random::new(seed.wrapping_mul(0x2545_F491_4F6C_DD1D) ^ case.wrapping_mul(0x9E6C_63D0_876A_3F6B));
        let feeder = any_feeder(&mut random);
        let report = any_report(&mut random, &feeder);
        let salt = random.word() as u8;
        if let Err(difference) = compare(&far, &feeder, &report, salt, &mut counts) {
            let folder = std::env::var("FUZZ_OUT").unwrap_or_else(|_| ".".to_string());
            let stem = format!("{folder}/difference-{seed}-{case}");
            std::fs::write(format!("{stem}.feeder"), &feeder).expect("the feeder's file");
            std::fs::write(format!("{stem}.report"), &report).expect("the report's file");
            println!("case {case} of seed {seed}: {difference}");
            println!("written to {stem}.feeder and .report");
            std::process::exit(1);
        }
    }
    line("study", &counts.all.studies);
    line("check", &counts.all.checks);
    line("study, with delta loads", &counts.delta.studies);
    line("check, with delta loads", &counts.delta.checks);
    line("study, with low voltage", &counts.low.studies);
    line("check, with low voltage", &counts.low.checks);
    line("study, with regulators that set their taps", &counts.relays.studies);
    line("check, with regulators that set their taps", &counts.relays.checks);
    line("study, several rows with the fault", &counts.several.studies);
    line("check, several rows with the fault", &counts.several.checks);
    let passed_over: Vec<String> = counts.passed_over.iter().map(|(kind, count)| format!("{kind}: {count}")).collect();
    println!("check, 54 with a row that is off and fed through one that is off  {}", passed_over.join(", "));
    let taps: Vec<String> = counts.taps.iter().map(|(kind, count)| format!("{kind}: {count}")).collect();
    println!("regulators that set their taps  {}", taps.join(", "));
    println!("{count} cases of seed {seed}, {} calls on each side, 0 differences", counts.calls);
}
