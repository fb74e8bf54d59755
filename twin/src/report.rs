//! The report: writing it, and reading one back against its feeder.

use crate::equations::{Pair, Phases, NONE, ZERO};
use crate::feeder::Feeder;
use crate::ladder::{any_beyond, Powers, Settled};
use crate::relay::{Taps, MOST_TAP};
use crate::text::{Reader, Writer};
use crate::Refusal;

pub const NODE_HEADER: &str = "node,va_re,va_im,vb_re,vb_im,vc_re,vc_im";
pub const FLOW_HEADER: &str = "from,to,ia_re,ia_im,ib_re,ib_im,ic_re,ic_im,loss_p,loss_q";
pub const TOTAL_HEADER: &str = "sweeps,source_p,source_q,drawn_p,drawn_q,lost_p,lost_q";
pub const TAP_HEADER: &str = "to,tap_a,tap_b,tap_c";

/// A report as it stands: `currents` and `powers.losses` by branch row, `voltages` by node, `taps` by regulator.
pub struct Reported {
    pub voltages: Vec<Phases>,
    pub currents: Vec<Phases>,
    pub powers: Powers,
    pub sweeps: i64,
    pub taps: Vec<Taps>,
}

/// The report line of a node.
pub fn line_of_node(node: usize) -> u64 {
    2 + node as u64
}

/// The report line of a branch row.
pub fn line_of_branch(feeder: &Feeder, row: usize) -> u64 {
    line_of_node(feeder.branches.len()) + 3 + row as u64
}

/// The report line of the totals.
pub fn line_of_totals(feeder: &Feeder) -> u64 {
    line_of_branch(feeder, feeder.branches.len()) + 2
}

/// The report line of the taps of the n-th regulator, counted from 0.
pub fn line_of_taps(feeder: &Feeder, n: usize) -> u64 {
    line_of_totals(feeder) + 3 + n as u64
}

/// The sweeps that a report tells, if it has such a line: the number that its totals begin with.
pub fn sweeps_told(report: &[u8]) -> Option<u32> {
    let mut lines = report.split(|b| *b == b'\n').skip_while(|line| *line != TOTAL_HEADER.as_bytes());
    let totals = lines.nth(1)?;
    std::str::from_utf8(totals.split(|b| *b == b',').next()?).ok()?.parse().ok()
}

/// The text of the study's report; the feeder has the taps of the last round.
pub fn write_report(feeder: &Feeder, settled: &Settled) -> Vec<u8> {
    let powers = settled.currents.powers(feeder, &settled.voltages);
    let i = &settled.currents.nodes[1..];
    write_rows(feeder, &settled.voltages, i, &powers, i64::from(settled.sweeps))
}

/// The text of a report with these numbers and the taps that the feeder has in use.
pub fn write_rows(feeder: &Feeder, voltages: &[Phases], currents: &[Phases], powers: &Powers, sweeps: i64) -> Vec<u8> {
    let mut w = Writer::with_room(300 + 220 * feeder.branches.len());
    w.text(NODE_HEADER);
    w.end_of_line();
    let names = std::iter::once(feeder.source).chain(feeder.branches.iter().map(|branch| branch.to));
    for (name, v) in names.zip(voltages) {
        w.name(name);
        write_phases(&mut w, v);
        w.end_of_line();
    }
    w.end_of_line();

    w.text(FLOW_HEADER);
    w.end_of_line();
    for ((branch, i), loss) in feeder.branches.iter().zip(currents).zip(&powers.losses) {
        w.name(branch.from);
        w.comma();
        w.name(branch.to);
        write_phases(&mut w, i);
        write_pair(&mut w, *loss);
        w.end_of_line();
    }
    w.end_of_line();

    w.text(TOTAL_HEADER);
    w.end_of_line();
    w.number(sweeps);
    for total in [powers.source, powers.drawn, powers.lost] {
        write_pair(&mut w, total);
    }
    w.end_of_line();
    w.end_of_line();

    w.text(TAP_HEADER);
    w.end_of_line();
    for (row, regulator) in feeder.regulators() {
        w.name(feeder.branches[row].to);
        for tap in regulator.taps {
            w.next_number(tap);
        }
        w.end_of_line();
    }
    w.into_bytes()
}

fn write_pair(w: &mut Writer, pair: Pair) {
    w.next_number(pair.re);
    w.next_number(pair.im);
}

fn write_phases(w: &mut Writer, phases: &Phases) {
    for pair in phases {
        write_pair(w, *pair);
    }
}

/// Reads a report of at most MAX_FILE bytes, or answers the first of the refusals 50 to 52 that it has.
pub fn read_report(feeder: &Feeder, bytes: &[u8]) -> Result<Reported, Refusal> {
    let mut faults = Faults::default();
    let report = read_tables(feeder, &mut Reader::new(bytes), &mut faults).ok_or((50, 0))?;
    if let Some(line) = faults.name {
        return Err((51, line));
    }
    if let Some(line) = faults.voltage {
        return Err((52, line));
    }
    Ok(report)
}

/// The first lines with a wrong name, and with a source voltage or an absent phase's voltage that is not the due one.
#[derive(Default)]
struct Faults {
    name: Option<u64>,
    voltage: Option<u64>,
}

/// `None` is refusal 50.
fn read_tables(feeder: &Feeder, reader: &mut Reader, faults: &mut Faults) -> Option<Reported> {
    let rows = feeder.branches.len();
    reader.header(NODE_HEADER)?;
    let mut voltages = Vec::with_capacity(rows + 1);
    for node in 0..=rows {
        let line = reader.line();
        let due = if node == 0 { feeder.source } else { feeder.branches[node - 1].to };
        if reader.name()? != due {
            faults.name.get_or_insert(line);
        }
        let v = read_phases(reader)?;
        reader.end_of_line()?;
        let off = if node == 0 { v != feeder.source_v } else { !absent_zero(&v, feeder.phases(node)) };
        if off {
            faults.voltage.get_or_insert(line);
        }
        voltages.push(v);
    }
    reader.end_of_line()?;

    reader.header(FLOW_HEADER)?;
    let mut currents = Vec::with_capacity(rows);
    let mut losses = Vec::with_capacity(rows);
    for branch in &feeder.branches {
        let line = reader.line();
        let from = reader.name()?;
        reader.comma()?;
        let to = reader.name()?;
        if from != branch.from || to != branch.to {
            faults.name.get_or_insert(line);
        }
        currents.push(read_phases(reader)?);
        losses.push(read_pair(reader)?);
        reader.end_of_line()?;
    }
    reader.end_of_line()?;

    reader.header(TOTAL_HEADER)?;
    let sweeps = reader.number()?;
    let source = read_pair(reader)?;
    let drawn = read_pair(reader)?;
    let lost = read_pair(reader)?;
    reader.end_of_line()?;

    let taps = read_taps(feeder, reader, faults)?;
    if !reader.at_end() || !(1..=feeder.limit).contains(&sweeps) {
        return None;
    }
    Some(Reported { voltages, currents, powers: Powers { losses, source, drawn, lost }, sweeps, taps })
}

/// The taps of all regulators. A report may end before its last table where no regulator has a relay: then they are the
/// feeder's. A row belongs to the regulator at its place, whatever its name.
fn read_taps(feeder: &Feeder, reader: &mut Reader, faults: &mut Faults) -> Option<Vec<Taps>> {
    if reader.at_end() {
        let fixed = feeder.regulators().all(|(_, regulator)| regulator.relay.is_none());
        return fixed.then(|| feeder.taps());
    }
    reader.end_of_line()?;
    reader.header(TAP_HEADER)?;
    let mut all = Vec::new();
    for (row, _) in feeder.regulators() {
        let branch = &feeder.branches[row];
        let line = reader.line();
        if reader.name()? != branch.to {
            faults.name.get_or_insert(line);
        }
        let taps: Taps = reader.next_numbers()?;
        reader.end_of_line()?;
        let most = |k: usize| if branch.phases & 1 << k != 0 { MOST_TAP } else { 0 };
        if (0..3).any(|k| taps[k].abs() > most(k)) {
            return None;
        }
        all.push(taps);
    }
    Some(all)
}

fn read_pair(reader: &mut Reader) -> Option<Pair> {
    let [re, im] = reader.next_numbers()?;
    Some(Pair { re, im })
}

/// Three voltages or currents within the limit.
fn read_phases(reader: &mut Reader) -> Option<Phases> {
    let mut phases = NONE;
    for pair in &mut phases {
        *pair = read_pair(reader)?;
    }
    (!any_beyond(&phases)).then_some(phases)
}

fn absent_zero(v: &Phases, phases: u8) -> bool {
    v.iter().enumerate().all(|(k, v)| phases & 1 << k != 0 || *v == ZERO)
}
