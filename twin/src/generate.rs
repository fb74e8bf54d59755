//! A seeded generator of feeders and reports: sound, mangled, at the limits, at low voltage, with one fault in several rows,
//! and edited. What it draws for regulators that set their taps stands in `generate_taps`.

use crate::equations::{drop, voltage, Pair, Phases, LIMIT, NONE, ZERO};
use crate::feeder::{
    read_feeder, Feeder, Kind, Load, BRANCH_HEADER, LOAD_HEADER, MAX_BRANCHES, MAX_LOADS, SOURCE_HEADER,
};
use crate::generate_taps::{give_relays, regulators, rested_elsewhere, tap_report, without_table};
use crate::ladder::{settle, Currents, Powers};
use crate::place::Place;
use crate::report::{line_of_branch, line_of_node, line_of_taps, write_rows, TOTAL_HEADER};
use crate::rounds::settle_taps;
use crate::MAX_FILE;
use std::ops::Range;

/// Splitmix64.
#[derive(Clone)]
pub struct Random(u64);

impl Random {
    pub fn new(seed: u64) -> Self {
        Random(seed)
    }

    pub fn word(&mut self) -> u64 {
        self.0 = self.0.wrapping_add(0x9E37_79B9_7F4A_7C15);
        let mut z = self.0;
        z = (z ^ (z >> 30)).wrapping_mul(0xBF58_476D_1CE4_E5B9);
        z = (z ^ (z >> 27)).wrapping_mul(0x94D0_49BB_1331_11EB);
        z ^ (z >> 31)
    }

    /// 0 to n − 1; 0 for n = 0.
    pub fn below(&mut self, n: usize) -> usize {
        (self.word() % n.max(1) as u64) as usize
    }

    /// low to high, both met.
    pub fn between(&mut self, low: i64, high: i64) -> i64 {
        low + (self.word() % (high - low + 1).max(1) as u64) as i64
    }

    /// True once in n times.
    pub fn once_in(&mut self, n: usize) -> bool {
        self.below(n) == 0
    }

    pub fn pick<'a, T>(&mut self, list: &'a [T]) -> &'a T {
        &list[self.below(list.len())]
    }

    /// 0 to 1, the end left out.
    pub fn share(&mut self) -> f64 {
        (self.word() >> 11) as f64 / (1u64 << 53) as f64
    }

    pub fn shuffle<T>(&mut self, list: &mut [T]) {
        for k in (1..list.len()).rev() {
            list.swap(k, self.below(k + 1));
        }
    }
}

/// Which kinds of load a feeder has.
#[derive(Clone, Copy, Debug, PartialEq, Eq)]
pub enum Mix {
    Power,
    Current,
    Mixed,
}

/// A feeder file in fields, to be edited before it is written.
#[derive(Clone, Default)]
pub struct Draft {
    pub source: Vec<String>,
    pub branches: Vec<Vec<String>>,
    pub loads: Vec<Vec<String>>,
}

impl Draft {
    pub fn text(&self) -> Vec<u8> {
        let mut text = format!("{SOURCE_HEADER}\n{}\n\n{BRANCH_HEADER}\n", self.source.join(","));
        for row in &self.branches {
            text += &row.join(",");
            text.push('\n');
        }
        text += "\n";
        text += LOAD_HEADER;
        text.push('\n');
        for row in &self.loads {
            text += &row.join(",");
            text.push('\n');
        }
        text.into_bytes()
    }
}

struct Node {
    name: String,
    phases: u8,
    /// Roughly its voltage, in V.
    volts: f64,
    depth: usize,
}

/// A row of strings from anything that can be printed.
macro_rules! row {
    ($($field:expr),* $(,)?) => { vec![$($field.to_string()),*] };
}
pub(crate) use row;

fn phases_word(phases: u8) -> String {
    "ABC".chars().enumerate().filter(|(k, _)| phases & 1 << k != 0).map(|(_, letter)| letter).collect()
}

fn fresh_name(random: &mut Random, taken: &[Node]) -> String {
    const LETTERS: &[u8] = b"ABCDEFGHIJKLMNOPQRSTUVWXYZ0123456789";
    loop {
        let length = random.between(1, 8) as usize;
        let name: String = (0..length).map(|_| *random.pick(LETTERS) as char).collect();
        if taken.iter().all(|node| node.name != name) {
            return name;
        }
    }
}

/// The fields of a source row at this voltage, with tol and sweeps.
pub fn source_row(name: &str, cv: i64, tol: i64, sweeps: i64) -> Vec<String> {
    let (half, side) = (-cv / 2, (cv as f64 * 0.866_025_403_784).round() as i64);
    row![name, cv, 0, half, -side, half, side, tol, sweeps]
}

/// A feeder with nothing wrong, whose parameters settle as a rule. Rows come in the order of work or shuffled.
pub fn sound(random: &mut Random, branches: usize, loads: usize, mix: Mix) -> Draft {
    let cv = *random.pick(&[240_000, 719_956, 720_000, 1_443_376]);
    let tol = *random.pick(&[0, 1, 1, 2, 5, 100, 1000]);
    let name = fresh_name(random, &[]);
    let mut draft = Draft { source: source_row(&name, cv, tol, random.between(20, 100)), ..Draft::default() };
    let mut nodes = vec![Node { name, phases: 7, volts: cv as f64 / 100.0, depth: 0 }];

    // The tree: a chain (reach 1), a bush (large reach), or a star.
    let reach = *random.pick(&[1, 2, 4, 10, 1000, 1000]);
    let star = random.once_in(8);
    let lines_only = random.once_in(4);
    for _ in 0..branches {
        let back = random.below(reach).min(nodes.len() - 1);
        let parent = &nodes[if star { 0 } else { nodes.len() - 1 - back }];
        let (from, above, mut volts, depth) = (parent.name.clone(), parent.phases, parent.volts, parent.depth + 1);
        let to = fresh_name(random, &nodes);
        let mut phases = above;
        if !random.once_in(3) {
            // Mostly all phases go on; now and then fewer.
            phases = match above & random.between(1, 7) as u8 {
                0 => above,
                some if random.once_in(3) => some,
                _ => above,
            };
        }
        let kind = match random.below(if lines_only { 1 } else { 10 }) {
            7 => 'R',
            8 if above == 7 => 'Y',
            9 if above == 7 => 'D',
            _ => 'L',
        };
        let mut p = [0i64; 12];
        match kind {
            'R' => {
                let (low, high) = if volts > 12_000.0 {
                    (-16, 0)
                } else if volts < 200.0 {
                    (0, 16)
                } else {
                    (-16, 16)
                };
                let mut most = -16;
                for (k, tap) in p[..3].iter_mut().enumerate() {
                    if phases & 1 << k != 0 {
                        *tap = random.between(low, high);
                        most = most.max(*tap);
                    }
                }
                volts *= 160.0 / (160.0 - most as f64);
            }
            'Y' | 'D' => {
                phases = 7;
                let wanted = if volts > 8_000.0 {
                    0.1 + 0.5 * random.share()
                } else if volts < 400.0 {
                    1.0 + 3.0 * random.share()
                } else {
                    0.4 + random.share()
                };
                let most = *random.pick(&[100, 20_000, 1_000_000]);
                let n = random.between(1, most);
                let gain = if kind == 'D' { 3f64.sqrt() } else { 1.0 };
                p[0] = n;
                p[1] = ((wanted * n as f64 / gain).round() as i64).clamp(1, 1_000_000);
                volts *= gain * p[1] as f64 / n as f64;
            }
            _ => {}
        }
        let mut fields = row![from, to, phases_word(phases), kind];
        fields.extend(p.iter().map(|p| p.to_string()));
        draft.branches.push(fields);
        nodes.push(Node { name: to, phases, volts, depth });
    }

    // What the feeder can carry: at most some hundred A at the lowest voltage, a few per cent of drop to the deepest node.
    let lowest = nodes.iter().map(|node| node.volts).fold(f64::MAX, f64::min).max(1.0);
    let deepest = nodes.iter().map(|node| node.depth).max().unwrap_or(0).max(1) as f64;
    let carried = lowest * 600.0 * (0.01 + 0.99 * random.share());
    for (row, node) in draft.branches.iter_mut().zip(&nodes[1..]) {
        let most = (0.03 * node.volts * node.volts / (carried * deepest) * 1e6).clamp(1.0, 30_000_000.0);
        let mut impedance = |part: f64| ((0.2 + 0.8 * random.share()) * part * most).round() as i64;
        let has = |bits: u8| node.phases & bits == bits;
        match row[3].as_str() {
            "L" => {
                for (k, owners) in [1u8, 3, 5, 2, 6, 4].into_iter().enumerate() {
                    if has(owners) {
                        let part = if owners.count_ones() == 1 { 1.0 } else { 0.3 };
                        row[4 + 2 * k] = impedance(0.4 * part).to_string();
                        row[5 + 2 * k] = impedance(part).to_string();
                    }
                }
            }
            "R" => {}
            _ => {
                for k in 0..3 {
                    row[6 + 2 * k] = impedance(0.1).to_string();
                    row[7 + 2 * k] = impedance(0.6).to_string();
                }
            }
        }
    }

    for _ in 0..loads {
        let node =
            if nodes.len() == 1 || random.once_in(40) { &nodes[0] } else { &nodes[1 + random.below(nodes.len() - 1)] };
        let phases: Vec<char> = phases_word(node.phases).chars().collect();
        let phase = *random.pick(&phases);
        let each = 3.0 * carried / loads as f64 * random.share();
        let (mut p, mut q) = ((each * 0.9) as i64, (each * (0.6 * random.share() - 0.1)) as i64);
        let kind = match mix {
            Mix::Power => 'P',
            Mix::Current => 'I',
            Mix::Mixed => *random.pick(&['P', 'P', 'I', 'I', 'Z', 'C']),
        };
        if kind == 'C' {
            (p, q) = (0, -(each * 0.3) as i64);
        }
        let kind = if kind == 'C' { 'Z' } else { kind };
        let vn = ((node.volts * 100.0) as i64).clamp(1, LIMIT);
        let (p, q) = (p.clamp(-3_000_000, 3_000_000), q.clamp(-3_000_000, 3_000_000));
        draft.loads.push(row![node.name, phase, kind, vn, p, q]);
    }
    if random.once_in(2) {
        random.shuffle(&mut draft.branches);
        random.shuffle(&mut draft.loads);
    }
    draft
}

/// The words of the loads between two phases.
const DELTA_WORDS: [&str; 3] = ["AB", "BC", "CA"];

/// Those of them that may stand at a node with these phases.
fn delta_words(phases: &str) -> Vec<&'static str> {
    DELTA_WORDS.into_iter().filter(|word| word.chars().all(|letter| phases.contains(letter))).collect()
}

/// Puts load rows between two phases of their nodes, one in n, where the node has two. vn grows with the voltage there, by
/// the root of 3 where the phases stand 120° apart.
pub fn between_phases(random: &mut Random, draft: &mut Draft, n: usize) {
    for row in &mut draft.loads {
        let phases = draft.branches.iter().find(|branch| branch[1] == row[0]).map_or("ABC", |branch| &branch[2]);
        let words = delta_words(phases);
        if !words.is_empty() && random.once_in(n) {
            let vn = row[3].parse().unwrap_or(1.0) * 3f64.sqrt();
            row[1] = random.pick(&words).to_string();
            row[3] = (vn as i64).clamp(1, 2 * LIMIT).to_string();
        }
    }
}

/// Sizes as a fuzzer wants them: mostly small, now and then full. Half of them have loads between two phases, and in one of
/// four some regulators set their taps.
pub fn some_sound(random: &mut Random) -> Draft {
    let most = *random.pick(&[1, 3, 3, 6, 6, 12, 30, MAX_BRANCHES]);
    let least = if random.once_in(20) { 0 } else { 1 };
    let branches = random.between(least, most as i64) as usize;
    let loads = random.below((branches * 3 / 2 + 3).min(MAX_LOADS + 1));
    let mix = *random.pick(&[Mix::Power, Mix::Current, Mix::Mixed, Mix::Mixed]);
    let mut draft = sound(random, branches, loads, mix);
    if random.once_in(2) {
        let n = *random.pick(&[1, 2, 4]);
        between_phases(random, &mut draft, n);
    }
    if random.once_in(4) {
        give_relays(random, &mut draft, 2);
    }
    draft
}

/// A sound feeder pushed until it may not settle: heavy loads, large impedances, little voltage, few sweeps.
pub fn hard(random: &mut Random) -> Draft {
    let mut draft = some_sound(random);
    for _ in 0..random.between(1, 3) {
        match random.below(10) {
            0 => draft.source[8] = random.between(1, 4).to_string(),
            1 => draft.source[7] = "0".into(),
            2 => {
                let k = 1 + 2 * random.below(3);
                draft.source[k] = "0".into();
                draft.source[k + 1] = "0".into();
            }
            3 => {
                for field in &mut draft.source[1..7] {
                    let scaled = field.parse().unwrap_or(0i64) / random.between(2, 1000);
                    *field = scaled.to_string();
                }
            }
            4 => scale(random, &mut draft.branches, 4, 16, 100_000_000, "L"),
            5 => scale(random, &mut draft.loads, 4, 6, 3_000_000, ""),
            6 => {
                if !draft.loads.is_empty() {
                    let row = random.below(draft.loads.len());
                    draft.loads[row][4] = random.between(-3_000_000, 3_000_000).to_string();
                    draft.loads[row][5] = random.between(-3_000_000, 3_000_000).to_string();
                }
            }
            7 => {
                if !draft.loads.is_empty() {
                    let row = random.below(draft.loads.len());
                    draft.loads[row][3] = random.between(1, 100).to_string();
                }
            }
            8 => {
                // Two phases of the source alike: no voltage between them, until a line or a regulator makes one.
                let (a, b) = (1 + 2 * random.below(3), 1 + 2 * random.below(3));
                draft.source[b] = draft.source[a].clone();
                draft.source[b + 1] = draft.source[a + 1].clone();
            }
            _ => {
                for row in &mut draft.branches {
                    if matches!(row[3].as_str(), "Y" | "D") && random.once_in(2) {
                        row[4] = random.between(1, 1_000_000).to_string();
                        row[5] = random.between(1, 1_000_000).to_string();
                    }
                }
            }
        }
    }
    draft
}

/// Scales the numbers in some columns of all rows of a kind, within their limit.
fn scale(random: &mut Random, rows: &mut [Vec<String>], from: usize, to: usize, limit: i64, kind: &str) {
    let factor = *random.pick(&[2, 3, 5, 10, 100, 10_000, -1, -3]);
    for row in rows.iter_mut().filter(|row| kind.is_empty() || row[3] == kind) {
        for field in &mut row[from..to] {
            let scaled = field.parse::<i64>().unwrap_or(0).saturating_mul(factor);
            *field = scaled.clamp(-limit, limit).to_string();
        }
    }
}

/// Fields that are no numbers, or numbers at the ends of what is one.
const ODD_FIELDS: [&str; 19] = [
    "",
    "-",
    "-0",
    "00",
    "01",
    "-01",
    "+1",
    " 1",
    "1 ",
    "1\r",
    "1.0",
    "1e3",
    "--1",
    "999999999999999999",
    "-999999999999999999",
    "1000000000000000000",
    "-1000000000000000000",
    "A",
    "0x1",
];

/// Words that are no load's phase, AC, BA and CB above all.
const NO_PLACES: [&str; 12] = ["AC", "BA", "CB", "AC", "BA", "CB", "ABC", "AA", "ABB", "", "D", "ab"];

/// A draft with faults in its values, names and phases: layout mostly right, 11 to 24 mostly met.
pub fn wrong(random: &mut Random) -> Draft {
    let mut draft = some_sound(random);
    for _ in 0..random.between(1, 3) {
        let rows = draft.branches.len();
        let branch = random.below(rows);
        let other = random.below(rows);
        match random.below(16) {
            0 => {
                let k = random.between(1, 8) as usize;
                let value =
                    *random.pick(&[-2_000_001i64, -2_000_000, -1, 0, 1, 100, 101, 1000, 1001, 2_000_000, 2_000_001]);
                draft.source[k] = value.to_string();
            }
            1..=3 if rows > 0 => {
                let k = random.between(4, 15) as usize;
                let value = *random.pick(&[
                    -100_000_001i64,
                    -100_000_000,
                    -17,
                    -16,
                    -1,
                    0,
                    1,
                    16,
                    17,
                    10_000,
                    10_001,
                    20_000,
                    20_001,
                    1_000_000,
                    1_000_001,
                    100_000_000,
                    100_000_001,
                    999_999_999_999_999_999,
                ]);
                draft.branches[branch][k] = value.to_string();
            }
            4 if !draft.loads.is_empty() => {
                let row = random.below(draft.loads.len());
                let k = random.between(3, 5) as usize;
                let value = *random.pick(&[
                    -3_000_001i64,
                    -3_000_000,
                    -1,
                    0,
                    1,
                    2_000_000,
                    2_000_001,
                    3_000_000,
                    3_000_001,
                    4_000_000,
                    4_000_001,
                ]);
                draft.loads[row][k] = value.to_string();
            }
            5 if rows > 0 => draft.branches[branch][0] = random.pick(&["NOBODY", "0", "Q", "ABC"]).to_string(),
            6 if rows > 0 => draft.branches[branch][1] = draft.branches[other][1].clone(),
            7 if rows > 0 => draft.branches[branch][1] = draft.source[0].clone(),
            8 | 9 if rows > 0 => draft.branches[branch][0] = draft.branches[other][1].clone(),
            10 if rows > 0 => {
                draft.branches[branch][2] = random.pick(&["A", "B", "C", "AB", "AC", "BC", "ABC"]).to_string()
            }
            11 if rows > 0 => draft.branches[branch][3] = random.pick(&["L", "R", "Y", "D"]).to_string(),
            12 | 13 if !draft.loads.is_empty() => {
                let row = random.below(draft.loads.len());
                match random.below(5) {
                    0 => draft.loads[row][0] = "NOBODY".into(),
                    1 => draft.loads[row][1] = random.pick(&["A", "B", "C"]).to_string(),
                    2 => draft.loads[row][1] = random.pick(&DELTA_WORDS).to_string(),
                    3 => draft.loads[row][1] = random.pick(&NO_PLACES).to_string(),
                    _ => draft.loads[row][2] = random.pick(&["P", "I", "Z"]).to_string(),
                }
            }
            14 if rows > 0 => {
                let row = draft.branches[branch].clone();
                draft.branches.insert(other, row);
            }
            15 if rows > 0 => {
                draft.branches.remove(branch);
            }
            _ => {
                if random.once_in(2) {
                    draft.source[0] = random.pick(&["S", "A", "ABC", "00000000"]).to_string();
                } else if let Some(row) = draft.branches.get_mut(branch) {
                    let k = random.between(7, 15) as usize;
                    row[k] = random.pick(&ODD_FIELDS).to_string();
                }
            }
        }
    }
    draft
}

/// Damages a text: bytes, fields, lines, its ends.
pub fn mangle(random: &mut Random, text: &[u8]) -> Vec<u8> {
    let mut text = text.to_vec();
    for _ in 0..*random.pick(&[1, 1, 1, 2, 3]) {
        let at = random.below(text.len());
        match random.below(14) {
            0 if !text.is_empty() => text[at] ^= 1 << random.below(8),
            1 if !text.is_empty() => text[at] = *random.pick(b"0123456789-,\n\r ABCDLRYPIZxyz\0\xb2\xff"),
            2 => text.insert(at.min(text.len()), *random.pick(b"0123456789-,\n\r ABCXYZ")),
            3 if !text.is_empty() => {
                text.remove(at);
            }
            4 => text.truncate(at),
            5 => {
                let more =
                    *random.pick(&[&b"\n"[..], b"\r\n", b"A", b",", b"\n\n", b"A,A,P,1,0,0", b"A,A,P,1,0,0\n", b"\0"]);
                text.extend_from_slice(more);
            }
            6 => {
                text = edit_lines(random, &text, |random, lines| {
                    let row = random.below(lines.len());
                    lines.remove(row);
                })
            }
            7 => {
                text = edit_lines(random, &text, |random, lines| {
                    let row = random.below(lines.len());
                    let line = lines[row].clone();
                    let to = random.below(lines.len());
                    lines.insert(to, line);
                })
            }
            8 => {
                text = edit_lines(random, &text, |random, lines| {
                    let (a, b) = (random.below(lines.len()), random.below(lines.len()));
                    lines.swap(a, b);
                })
            }
            9 => {
                text = edit_fields(random, &text, |random, fields| {
                    let (a, b) = (random.below(fields.len()), random.below(fields.len()));
                    fields.swap(a, b);
                })
            }
            10 => {
                text = edit_fields(random, &text, |random, fields| {
                    let k = random.below(fields.len());
                    fields[k] = random.pick(&ODD_FIELDS).as_bytes().to_vec();
                })
            }
            11 => {
                text = edit_fields(random, &text, |random, fields| {
                    let k = random.below(fields.len());
                    if random.once_in(2) {
                        fields.remove(k);
                    } else {
                        fields.insert(k, b"0".to_vec());
                    }
                })
            }
            12 => {
                text = edit_fields(random, &text, |random, fields| {
                    // Names of 8 and 9 bytes, and numbers of 18 and 19 digits.
                    let k = random.below(fields.len());
                    let (fill, most) = (*random.pick(b"A1"), *random.pick(&[8, 9, 18, 19]));
                    fields[k] = vec![fill; most];
                })
            }
            _ => {
                if random.once_in(2) {
                    text = text.iter().flat_map(|b| if *b == b'\n' { vec![b'\r', b'\n'] } else { vec![*b] }).collect();
                } else {
                    text.pop();
                }
            }
        }
    }
    text
}

pub fn edit_lines(random: &mut Random, text: &[u8], edit: impl Fn(&mut Random, &mut Vec<Vec<u8>>)) -> Vec<u8> {
    let mut lines: Vec<Vec<u8>> = text.split(|b| *b == b'\n').map(<[u8]>::to_vec).collect();
    edit(random, &mut lines);
    lines.join(&b'\n')
}

fn edit_fields(random: &mut Random, text: &[u8], edit: impl Fn(&mut Random, &mut Vec<Vec<u8>>)) -> Vec<u8> {
    edit_lines(random, text, |random, lines| {
        let row = random.below(lines.len());
        let mut fields: Vec<Vec<u8>> = lines[row].split(|b| *b == b',').map(<[u8]>::to_vec).collect();
        edit(random, &mut fields);
        lines[row] = fields.join(&b',');
    })
}

/// A feeder at a limit: exactly at it, or one past it.
pub fn boundary(random: &mut Random) -> Vec<u8> {
    match random.below(8) {
        0 => {
            // 199 to 201 branches, 299 to 301 loads.
            let branches = random.between(199, 201) as usize;
            let loads = random.between(299, 301) as usize;
            let mut draft = sound(random, branches, loads, Mix::Mixed);
            if random.once_in(2) {
                between_phases(random, &mut draft, 1);
            }
            draft.text()
        }
        1 => sized(random),
        2 | 3 => transformers(random).text(),
        4 => {
            // One line or load at the ends of its limits.
            let mut draft = Draft { source: source_row("S", 720_000, 1, 100), ..Draft::default() };
            for field in &mut draft.source[1..7] {
                *field = random.pick(&["2000000", "-2000000", "0", "1", "-1", "720000"]).to_string();
            }
            let mut ohms = || random.pick(&["100000000", "-100000000", "0", "1", "-1", "1000000"]).to_string();
            let mut row = row!["S", "N", "ABC", "L"];
            row.extend((0..12).map(|_| ohms()));
            draft.branches.push(row);
            for _ in 0..3 {
                let phase = *random.pick(&["A", "B", "C", "AB", "BC", "CA"]);
                let mut va = || random.pick(&["3000000", "-3000000", "0", "1", "-1", "72000"]).to_string();
                let (p, q) = (va(), va());
                let vn = match phase.len() {
                    1 => random.pick(&["1", "2", "720000", "2000000"]).to_string(),
                    _ => random.pick(&["1", "2", "1247076", "4000000"]).to_string(),
                };
                draft.loads.push(row![random.pick(&["S", "N", "N"]), phase, random.pick(&["P", "I", "Z"]), vn, p, q]);
            }
            draft.text()
        }
        5 => {
            // One load, or two, whose current I or J is near the limit; the device may raise J above I.
            let vn = random.between(6_000, 600_000);
            let at_limit = 2_000_000.0 * vn as f64 * vn as f64 / 720_000.0 / 100_000.0;
            let part = *random.pick(&[1.0, 1.0, 0.5, 0.9]);
            let p = ((at_limit * part) as i64 + random.between(-2, 2)).clamp(-3_000_000, 3_000_000);
            let mut draft = Draft { source: source_row("S", 720_000, 1, 10), ..Draft::default() };
            draft.branches.push(match random.below(4) {
                0 => row!["S", "N", "A", "L", 0, 0, 0, 0, 0, 0, 0, 0, 0, 0, 0, 0],
                1 => row!["S", "N", "A", "R", random.between(-16, 16), 0, 0, 0, 0, 0, 0, 0, 0, 0, 0, 0],
                2 => row!["S", "N", "ABC", "Y", 100, random.between(99, 101), 0, 0, 0, 0, 0, 0, 0, 0, 0, 0],
                _ => row!["S", "N", "ABC", "D", 173, random.between(99, 101), 0, 0, 0, 0, 0, 0, 0, 0, 0, 0],
            });
            for _ in 0..random.between(1, 2) {
                draft.loads.push(row!["N", "A", "Z", vn, p, 0]);
            }
            draft.text()
        }
        6 => {
            // Regulators in a chain up to the voltage limit.
            let cv = random.between(1_000_000, 2_000_000);
            let mut draft = Draft { source: source_row("S", cv, 0, 3), ..Draft::default() };
            let mut from = "S".to_string();
            for k in 0..random.between(1, 12) {
                let to = format!("N{k}");
                let tap = random.between(-16, 16);
                draft.branches.push(row![from, to, "A", "R", tap, 0, 0, 0, 0, 0, 0, 0, 0, 0, 0, 0]);
                from = to;
            }
            draft.loads.push(row![from, "A", "I", cv, random.between(0, 100_000), 0]);
            draft.text()
        }
        _ => {
            // tol and sweeps at their ends.
            let mut draft = some_sound(random);
            draft.source[7] = random.pick(&["0", "1000", "1001", "-1"]).to_string();
            draft.source[8] = random.pick(&["0", "1", "2", "100", "101"]).to_string();
            draft.text()
        }
    }
}

/// A file of 65,535 to 65,537 bytes: well laid out as a rule, with too many rows, or filled up with anything.
fn sized(random: &mut Random) -> Vec<u8> {
    let length = MAX_FILE - 1 + random.below(3);
    let mut text = some_sound(random).text();
    if random.once_in(4) {
        text.resize(length, *random.pick(b"A0\n,"));
        return text;
    }
    let row = b"A,A,P,1,0,0\n";
    while text.len() + 2 * row.len() <= length {
        text.extend_from_slice(row);
    }
    // The last row is as long as it has to be: 12 to 23 bytes, filled up in its name or its numbers.
    let more = length - text.len() - row.len();
    let (name, digits) = (1 + more.min(7), 1 + more.saturating_sub(7));
    let last = format!("{},A,P,{},0,0\n", "A".repeat(name), "1".repeat(digits));
    text.extend_from_slice(last.as_bytes());
    text
}

/// Chains of transformers 1:1,000,000 and back, at little voltage.
pub fn transformers(random: &mut Random) -> Draft {
    let mut draft = Draft {
        source: row!["S", 0, 0, 0, 0, 0, 0, random.pick(&[0, 1, 1000]), random.between(1, 5)],
        ..Draft::default()
    };
    for field in &mut draft.source[1..7] {
        *field = random.pick(&["0", "0", "1", "-1", "2", "-2", "3", "2000000", "-2000000"]).to_string();
    }
    let mut from = "S".to_string();
    for k in 0..random.between(1, 6) {
        let to = format!("T{k}");
        let ends = [1, 1_000_000];
        let (n, m) = (*random.pick(&ends), *random.pick(&ends));
        let z = *random.pick(&[0, 1, 100_000_000]);
        draft.branches.push(row![from, to, "ABC", random.pick(&["Y", "D"]), n, m, z, 0, z, z, 0, -z, 0, 0, 0, 0]);
        if !random.once_in(4) {
            from = to;
        }
    }
    for _ in 0..random.below(3) {
        let kind = random.pick(&["P", "I", "Z", "Z"]);
        let vn = random.pick(&[1, 1_000_000, 2_000_000]);
        draft.loads.push(row![
            from,
            random.pick(&["A", "B", "C", "AB", "BC", "CA"]),
            kind,
            vn,
            random.between(-20, 20),
            random.between(-2, 2)
        ]);
    }
    draft
}

/// Adds one to five branches from node S, mostly of fewer phases than all, half of the time without impedance. Answers
/// the nodes, each with its phases: S, and the to-nodes in row order.
fn few_branches(random: &mut Random, draft: &mut Draft) -> Vec<(String, &'static str)> {
    const WORDS: [&str; 10] = ["A", "B", "C", "AB", "AC", "BC", "AB", "AC", "BC", "ABC"];
    let mut nodes = vec![("S".to_string(), "ABC")];
    let with_ohms = random.once_in(2);
    for k in 0..random.between(1, 5) {
        let (from, above) = random.pick(&nodes).clone();
        let phases = *random.pick(&WORDS);
        // Mostly what the node above can feed.
        let phases =
            if phases.chars().all(|letter| above.contains(letter)) || random.once_in(60) { phases } else { above };
        let kind = *random.pick(if phases == "ABC" { &["L", "L", "R", "Y", "D"] } else { &["L", "L", "L", "R", "R"] });
        let mut row = row![from, format!("N{k}"), phases, kind];
        let mut p = [0i64; 12];
        match kind {
            "L" if with_ohms => {
                for (k, owners) in ["A", "AB", "AC", "B", "BC", "C"].into_iter().enumerate() {
                    if owners.chars().all(|letter| phases.contains(letter)) {
                        let most = *random.pick(&[1_000, 1_000_000, 1_000_000, 100_000_000]);
                        p[2 * k] = random.between(0, most);
                        p[2 * k + 1] = random.between(-most, most);
                    }
                }
            }
            "L" => {}
            "R" => {
                for (tap, letter) in p.iter_mut().zip(['A', 'B', 'C']) {
                    if phases.contains(letter) {
                        *tap = random.between(-16, 16);
                    }
                }
            }
            _ => {
                let n = random.between(50, 200);
                (p[0], p[1]) = (n, (n as f64 * *random.pick(&[0.25, 0.577, 1.0])) as i64);
                if with_ohms {
                    p[2..8].iter_mut().for_each(|p| *p = random.between(0, 100_000));
                }
            }
        }
        row.extend(p.iter().map(|p| p.to_string()));
        draft.branches.push(row);
        nodes.push((format!("N{k}"), phases));
    }
    nodes
}

/// Feeders for loads between two phases: nodes of all phases words, the source's phases balanced, alike, opposite, at 0 or
/// at the limits, rows where a phase is absent, vn at its limit and past it, and currents near theirs.
pub fn deltas(random: &mut Random) -> Draft {
    let tol = *random.pick(&[0, 0, 1, 2, 1000]);
    let mut draft = Draft { source: source_row("S", 720_000, tol, random.between(1, 30)), ..Draft::default() };
    match random.below(6) {
        0 | 1 => {}
        2 => {
            // Two phases alike.
            let (a, b) = (1 + 2 * random.below(3), 1 + 2 * random.below(3));
            draft.source[b] = draft.source[a].clone();
            draft.source[b + 1] = draft.source[a + 1].clone();
        }
        3 => {
            // At the ends, so that a difference has 4,000,000.
            for field in &mut draft.source[1..7] {
                *field = random.pick(&["2000000", "-2000000", "2000000", "-2000000", "1999999", "0"]).to_string();
            }
        }
        _ => {
            for field in &mut draft.source[1..7] {
                *field = random.pick(&["300000", "-300000", "0", "0", "1", "-1"]).to_string();
            }
        }
    }

    let nodes = few_branches(random, &mut draft);

    // One kind of fault at a time, so that what comes behind it is met too.
    let fault = random.below(12);
    for _ in 0..random.between(1, 6) {
        let (name, phases) = random.pick(&nodes).clone();
        let words = delta_words(phases);
        let place = if words.is_empty() || random.once_in(6) {
            let letters: Vec<char> = phases.chars().collect();
            random.pick(&letters).to_string()
        } else {
            random.pick(&words).to_string()
        };
        let kind = *random.pick(&["P", "I", "Z", "Z"]);
        let most = if place.len() == 2 { 2 * LIMIT } else { LIMIT };
        let vn = match random.below(8) {
            0 => most,
            1 => random.between(1, most),
            2 => random.between(1, 100),
            _ => random.between(400_000, 1_300_000),
        };
        let most_va = *random.pick(&[100, 10_000, 10_000, 100_000, 3_000_000]);
        let mut row = row![name, place, kind, vn, random.between(-most_va, most_va), random.between(-most_va, most_va)];
        match fault {
            0 if random.once_in(3) => row[1] = random.pick(&NO_PLACES).to_string(),
            1 if random.once_in(3) => row[3] = (most + random.between(0, 1)).to_string(),
            2 if random.once_in(3) => row[1] = random.pick(&DELTA_WORDS).to_string(),
            3 if random.once_in(6) => row[0] = "NOBODY".into(),
            4 | 5 => {
                // A Z row whose current is near its limit, or half of it, at a difference of 600000 or that of balanced
                // phases: alone it meets 31, two of them 32, and two of opposite signs cancel.
                let volts = *random.pick(&[600_000.0, 300_000.0, 1_247_076.6]);
                let vn = random.between(1_000, 300_000);
                let part = *random.pick(&[1.0, 1.0, 0.5, -1.0, -0.5]);
                let p = part * 2_000_000.0 * vn as f64 * vn as f64 / volts / 100_000.0;
                let p = (p as i64 + random.between(-1, 1)).clamp(-3_000_000, 3_000_000);
                (row[2], row[3], row[4], row[5]) = ("Z".into(), vn.to_string(), p.to_string(), "0".into());
            }
            6 => {
                // The largest numbers.
                row[3] = random.pick(&[1, most]).to_string();
                row[4] = random.pick(&[3_000_000, -3_000_000]).to_string();
                row[5] = random.pick(&[3_000_000, -3_000_000]).to_string();
            }
            _ => {}
        }
        draft.loads.push(row);
    }
    draft
}

/// The greatest vn at which a P row at this voltage is constant power: the voltage is then 70 per cent of vn, or above it
/// by less than one unit of vn. 0 at zero voltage, where there is none.
fn edge_vn(v: Pair) -> i64 {
    (100 * v.square() / 49).isqrt()
}

/// A vn for a row at this voltage: mostly so that the voltage is at 70 per cent or one unit to a side of it.
fn near_edge(random: &mut Random, v: Pair, most: i64) -> i64 {
    let edge = edge_vn(v);
    let vn = match random.below(12) {
        0..=4 => edge,
        5..=7 => edge + 1,
        8 => edge - 1,
        // The voltage is far below 70 per cent; below it, as a rule; and at 100 per cent.
        9 => edge * random.between(2, 100),
        10 => most,
        _ => edge * 7 / 10,
    };
    vn.clamp(1, most)
}

/// Gives P rows, one in n, a vn near the edge at the voltages that the study reports. As a rule a row that was constant
/// power and stays so changes no answer by that; one that becomes an impedance does, and the feeder may then not settle.
fn aim(random: &mut Random, draft: &mut Draft, n: usize) {
    let Ok(mut feeder) = read_feeder(&draft.text()) else { return };
    let Ok(settled) = settle_taps(&mut feeder) else { return };
    for (row, load) in draft.loads.iter_mut().zip(&feeder.loads) {
        if load.kind == Kind::Power && random.once_in(n) {
            let v = load.place.voltage(&settled.voltages[load.node]);
            row[3] = near_edge(random, v, load.place.most_vn()).to_string();
        }
    }
}

/// Feeders for constant power at low voltage: P rows at 70 per cent of vn, one unit to either side, far below it and at
/// zero voltage, and such that step to and fro across it.
pub fn low_voltages(random: &mut Random) -> Draft {
    match random.below(8) {
        0 => {
            let mut draft = some_sound(random);
            let n = *random.pick(&[1, 2, 4]);
            aim(random, &mut draft, n);
            draft
        }
        1 => exact_behind_a_line(random),
        2 => to_and_fro(random),
        3 => to_zero(random),
        _ => at_edges(random),
    }
}

/// Voltages of A, B and C of which all lengths, and those of all differences, are multiples of 7: there a P row can be at
/// exactly 70 per cent. In the last five rows phases are alike or at 0.
const SEVENS: [[i64; 6]; 8] = [
    [21, 0, 0, 28, 0, -28],
    [21, 28, -21, 28, 21, -28],
    [14, 0, -14, 0, 7, 0],
    [7, 0, 7, 0, -7, 0],
    [21, -28, 21, -28, 21, -28],
    [0, 0, 21, 0, 0, 28],
    [-35, 0, 0, 0, 0, 0],
    [0, 35, 0, 35, 0, 0],
];

/// A few nodes, and rows of all kinds and places whose vn goes by their voltage without load, or by the reported one.
fn at_edges(random: &mut Random) -> Draft {
    let tol = *random.pick(&[0, 0, 1, 2, 1000]);
    let mut draft = Draft { source: source_row("S", 720_000, tol, random.between(2, 30)), ..Draft::default() };
    if !random.once_in(5) {
        // 100,000 times the third row has a phase at 1,400,000 and a difference at 2,800,000: 70 per cent of the largest vn.
        let times = match random.below(6) {
            0 => random.between(1, 30),
            1 => 100_000,
            _ => random.between(1_000, 40_000),
        };
        let first = random.below(3);
        for (k, part) in random.pick(&SEVENS).iter().enumerate() {
            draft.source[1 + (k + 2 * first) % 6] = (part * times).clamp(-LIMIT, LIMIT).to_string();
        }
    }
    let nodes = few_branches(random, &mut draft);
    // Where a branch cannot stand, the feeder is refused and any voltages will do.
    let voltages = match read_feeder(&draft.text()) {
        Ok(feeder) => downward_clamped(&feeder),
        Err(_) => vec![NONE; nodes.len()],
    };

    for _ in 0..random.between(1, 6) {
        let node = random.below(nodes.len());
        let (name, phases) = &nodes[node];
        let mut words = delta_words(phases);
        if words.is_empty() || random.once_in(2) {
            words = ["A", "B", "C"].into_iter().filter(|letter| phases.contains(letter)).collect();
        }
        let word = *random.pick(&words);
        let place = Place::of_word(word.as_bytes()).expect("a place's word");
        let v = place.voltage(&voltages[node]);
        // At zero voltage an I row ends the study; mostly none stands there.
        let no_i = v == ZERO && !random.once_in(8);
        let kind = *random.pick(if no_i { &["P", "P", "P", "P", "Z"] } else { &["P", "P", "P", "I", "Z"] });
        let vn = near_edge(random, v, place.most_vn());
        // As constant power at most about 2,000,000 mA in re and im, mostly far less. At zero voltage any power will do.
        let length = if v == ZERO { 150_000.0 } else { (v.square() as f64).sqrt() };
        let part = *random.pick(&[0.001, 0.001, 0.01, 0.1, 1.0]);
        let most_va = ((part * 20.0 * length) as i64).clamp(1, 3_000_000);
        let mut va = || random.between(-most_va, most_va);
        draft.loads.push(row![name, word, kind, vn, va(), va()]);
    }
    if random.once_in(2) {
        aim(random, &mut draft, 2);
    }
    draft
}

/// A P row behind one line, on A or between A and B, all voltages real: the source's grow by 1 cV until the reported one is
/// a multiple of 7, and vn is ten sevenths of that, or one off it.
fn exact_behind_a_line(random: &mut Random) -> Draft {
    let delta = random.once_in(2);
    let place = if delta { Place::AB } else { Place::A };
    let word = if delta { "AB" } else { "A" };
    let cv = random.between(10_000, 1_300_000);
    let ohms = random.between(1_000, 3_000_000);
    // A drop of up to a tenth: r·p/(100·V²) of V on a line, by the units of 01.
    let p = 0.1 * random.share() * 100.0 * cv as f64 * cv as f64 / ohms as f64;
    let p = (p as i64).clamp(1, 3_000_000);
    let tol = *random.pick(&[0, 1, 1, 5]);
    let mut draft = Draft { source: row!["S", 0, 0, 0, 0, 0, 0, tol, random.between(20, 100)], ..Draft::default() };
    let on_b = if delta { ohms } else { 0 };
    draft.branches.push(row!["S", "N", word, "L", ohms, 0, 0, 0, 0, 0, on_b, 0, 0, 0, 0, 0]);
    // With this vn it is constant power at any voltage but 0.
    draft.loads.push(row!["N", word, "P", 1, p, 0]);
    for more in 0..20 {
        draft.source[1] = (cv + more).to_string();
        draft.source[3] = (-cv - more).to_string();
        let Ok(feeder) = read_feeder(&draft.text()) else { break };
        let Ok(settled) = settle(&feeder) else { break };
        let v = place.voltage(&settled.voltages[1]).re;
        if v % 7 == 0 {
            let off = *random.pick(&[0, 0, 0, 0, 1, -1]);
            draft.loads[0][3] = (v / 7 * 10 + off).clamp(1, place.most_vn()).to_string();
            break;
        }
    }
    draft
}

/// A P row behind one line whose drop leads below 70 per cent as constant power and, mostly, back above it as an impedance:
/// then the study meets 34, unless tol is as large as its steps.
fn to_and_fro(random: &mut Random) -> Draft {
    let delta = random.once_in(2);
    let vn = random.between(10_000, 1_200_000);
    // Without load the voltage is above 70 per cent by this part. There an impedance takes 0.49 times the current of
    // constant power, so that a drop of constant power of 1 to 2 times the part leads below and back; 0.9 to 2.2 are drawn.
    let above = 0.01 + 0.3 * random.share();
    let drop = above * (0.9 + 1.3 * random.share());
    let edge = 0.7 * vn as f64;
    let cv = edge * (1.0 + above) / if delta { 3f64.sqrt() } else { 1.0 };
    let ohms = random.between(1_000_000, 20_000_000);
    // r·p/(100·V²) of V, and twice that where the current goes out and back.
    let p = drop * 100.0 * edge * edge / ohms as f64 / if delta { 2.0 } else { 1.0 };
    let p = (p as i64).clamp(1, 3_000_000);
    let q = if random.once_in(2) { 0 } else { random.between(-p / 8, p / 8) };
    let tol = *random.pick(&[0, 1, 10, 100, 1000]);
    let mut draft =
        Draft { source: source_row("S", cv.round() as i64, tol, random.between(2, 100)), ..Draft::default() };
    let reactance = if random.once_in(2) { 0 } else { random.between(-ohms / 4, ohms / 4) };
    let z = [ohms, reactance];
    draft.branches.push(row!["S", "N", "ABC", "L", z[0], z[1], 0, 0, 0, 0, z[0], z[1], 0, 0, z[0], z[1]]);
    let word = *random.pick(if delta { &DELTA_WORDS } else { &["A", "B", "C"] });
    draft.loads.push(row!["N", word, "P", vn, p, q]);
    // More rows at the node, of any kind, with little power.
    for _ in 0..random.below(3) {
        let word = *random.pick(&["A", "B", "C", "AB", "BC", "CA"]);
        let kind = *random.pick(&["P", "I", "Z"]);
        draft.loads.push(row!["N", word, kind, vn, random.between(0, p / 50), random.between(-p / 50, p / 50)]);
    }
    draft
}

/// A P row on A, or between A and B, whose current as constant power drops all of the voltage: the second sweep has it at
/// zero voltage, where an I row beside it meets 30.
fn to_zero(random: &mut Random) -> Draft {
    // At 100·n cV n² VA take 1000·n mA, which drop 100·n cV over 1 Ω; between two phases half of that on each line.
    let n = random.between(1, 1_000);
    let delta = random.once_in(2);
    let (phases, word, parts, ohms) = if delta {
        ("AB", "AB", [50 * n, -50 * n], [500_000, 500_000])
    } else {
        ("A", "A", [100 * n, 0], [1_000_000, 0])
    };
    let tol = *random.pick(&[0, 1, 1000]);
    let mut draft =
        Draft { source: row!["S", parts[0], 0, parts[1], 0, 0, 0, tol, random.between(1, 20)], ..Draft::default() };
    draft.branches.push(row!["S", "N", phases, "L", ohms[0], 0, 0, 0, 0, 0, ohms[1], 0, 0, 0, 0, 0]);
    let most = edge_vn(Pair { re: 100 * n, im: 0 });
    let vn = if random.once_in(4) { most + random.between(0, 1) } else { random.between(1, most) };
    draft.loads.push(row!["N", word, "P", vn, n * n, 0]);
    if random.once_in(2) {
        draft.loads.push(row!["N", word, random.pick(&["P", "I", "Z"]), vn, 0, 0]);
    }
    draft
}

/// Feeders with one fault, 11 or one of 20 to 24, in two rows or more; now and then another fault stands beside it.
pub fn several_faults(random: &mut Random) -> Draft {
    const NUMBERS: [u32; 7] = [11, 11, 20, 21, 22, 23, 24];
    let most = *random.pick(&[4, 4, 8, 8, 20, MAX_BRANCHES as i64]);
    let branches = random.between(2, most) as usize;
    let loads = random.between(1, (most * 3 / 2).min(MAX_LOADS as i64)) as usize;
    let mut draft = sound(random, branches, loads, Mix::Mixed);
    if random.once_in(2) {
        between_phases(random, &mut draft, 2);
    }
    let number = *random.pick(&NUMBERS);
    for _ in 0..random.between(2, 5) {
        add_fault(random, &mut draft, number);
    }
    if random.once_in(3) {
        let other = *random.pick(&NUMBERS);
        add_fault(random, &mut draft, other);
    }
    draft
}

/// The columns of a regulator row that have limits, with values past them: taps, twice, and level; then what has limits only
/// where a level is above 0.
const BEYOND_OF_REGULATORS: [(Range<i64>, [i64; 2]); 6] = [
    (4..7, [17, -17]),
    (4..7, [17, -17]),
    (7..8, [-1, 20_001]),
    (8..9, [-1, 20_001]),
    (9..11, [0, 10_001]),
    (11..13, [100_000_001, -100_000_001]),
];

/// Puts a fault of this number into a row, and none of a lower number as a rule.
fn add_fault(random: &mut Random, draft: &mut Draft, number: u32) {
    let branch = random.below(draft.branches.len());
    let load = random.below(draft.loads.len());
    match number {
        11 => match random.below(8) {
            0 => {
                let (column, value) = *random.pick(&[
                    (1, LIMIT + 1),
                    (4, -LIMIT - 1),
                    (6, 3 * LIMIT),
                    (7, -1),
                    (7, 1_001),
                    (8, 0),
                    (8, 101),
                ]);
                draft.source[column] = value.to_string();
            }
            1 if random.once_in(3) => overfill(random, draft),
            1..=4 => {
                let row = &mut draft.branches[branch];
                // Without a level only taps and level have limits.
                let of_regulators = if row[7] == "0" { &BEYOND_OF_REGULATORS[..3] } else { &BEYOND_OF_REGULATORS };
                let (columns, beyond) = match row[3].as_str() {
                    "L" => (4..16, [100_000_001, -100_000_001]),
                    "R" => random.pick(of_regulators).clone(),
                    _ => (4..6, [0, 1_000_001]),
                };
                row[random.between(columns.start, columns.end - 1) as usize] = random.pick(&beyond).to_string();
            }
            _ => {
                let row = &mut draft.loads[load];
                let most = if row[1].len() == 2 { 2 * LIMIT } else { LIMIT };
                let (column, value) = *random.pick(&[(3, 0), (3, most + 1), (4, 3_000_001), (5, -3_000_001)]);
                row[column] = value.to_string();
            }
        },
        20 => draft.branches[branch][0] = random.pick(&["NOBODY", "0", "Q", "ABC"]).to_string(),
        21 => {
            // A row more, so that no row below it loses its node.
            if draft.branches.len() < MAX_BRANCHES {
                let mut row = draft.branches[branch].clone();
                if random.once_in(3) {
                    row[1] = draft.source[0].clone();
                }
                let at = random.below(draft.branches.len() + 1);
                draft.branches.insert(at, row);
            }
        }
        22 => {
            // Feeds the row from a node behind it, or from its own.
            let mut from = draft.branches[branch][1].clone();
            for _ in 0..random.below(4) {
                let behind: Vec<&Vec<String>> = draft.branches.iter().filter(|row| row[0] == from).collect();
                if !behind.is_empty() {
                    from = random.pick(&behind)[1].clone();
                }
            }
            draft.branches[branch][0] = from;
        }
        23 => match random.below(6) {
            0 => {
                let row = &mut draft.branches[branch];
                row[2] = random.pick(&["A", "B", "C", "AB", "AC", "BC"]).to_string();
                row[3] = random.pick(&["Y", "D"]).to_string();
                row[4..].fill("1".to_string());
            }
            // What the row feeds may lose its phases.
            1 | 2 => draft.branches[branch][2] = random.pick(&["A", "B", "C"]).to_string(),
            3 => draft.branches[branch][2] = "ABC".to_string(),
            4 => draft.loads[load][0] = "NOBODY".to_string(),
            _ => {
                // Of the loads whose node lacks a phase, if there are any.
                let lacks =
                    |row: &Vec<String>| draft.branches.iter().any(|branch| branch[1] == row[0] && branch[2] != "ABC");
                let few: Vec<usize> = (0..draft.loads.len()).filter(|row| lacks(&draft.loads[*row])).collect();
                let row = if few.is_empty() { load } else { *random.pick(&few) };
                draft.loads[row][1] = random.pick(&["A", "B", "C", "AB", "BC", "CA"]).to_string();
            }
        },
        _ => {
            let row = &mut draft.branches[branch];
            if row[3] == "L" && row[2] == "ABC" {
                // No value of such a row is due 0.
                row[3] = "R".to_string();
                row[4..].fill("0".to_string());
            }
            let present = |word: &str| word.chars().all(|letter| row[2].contains(letter));
            let due: Vec<usize> = match row[3].as_str() {
                "L" => (4..16).filter(|k| !present(["A", "AB", "AC", "B", "BC", "C"][(k - 4) / 2])).collect(),
                // p4 is no such column: a level above 0 gives the others their limits.
                "R" => {
                    let first = if row[7] == "0" { 8 } else { 13 };
                    (4..16).filter(|k| *k >= first || *k < 7 && !present(["A", "B", "C"][k - 4])).collect()
                }
                _ => (12..16).collect(),
            };
            row[*random.pick(&due)] = random.pick(&["1", "-1", "16"]).to_string();
        }
    }
}

/// Adds rows until one to four are past the most.
fn overfill(random: &mut Random, draft: &mut Draft) {
    let past = random.between(1, 4) as usize;
    if random.once_in(2) {
        while draft.loads.len() < MAX_LOADS + past {
            let row = random.pick(&draft.loads).clone();
            draft.loads.push(row);
        }
    } else {
        while draft.branches.len() < MAX_BRANCHES + past {
            let to = format!("PAST{}", draft.branches.len());
            draft.branches.push(row![draft.source[0], to, "ABC", "L", 0, 0, 0, 0, 0, 0, 0, 0, 0, 0, 0, 0]);
        }
    }
}

/// A sound feeder of a few branches whose rows stand in no order: what is fed through a node stands before it or behind it.
pub fn unordered(random: &mut Random) -> Draft {
    let (branches, loads) = (random.between(3, 12) as usize, random.below(9));
    let mut draft = sound(random, branches, loads, Mix::Mixed);
    if random.once_in(2) {
        between_phases(random, &mut draft, 1);
    }
    random.shuffle(&mut draft.branches);
    draft
}

/// Any feeder file.
pub fn any_feeder(random: &mut Random) -> Vec<u8> {
    match random.below(27) {
        0..=2 => some_sound(random).text(),
        3 | 4 => hard(random).text(),
        5 | 6 => wrong(random).text(),
        7 => boundary(random),
        8 => {
            let text = some_sound(random).text();
            mangle(random, &text)
        }
        9 => deltas(random).text(),
        10 => {
            let text = deltas(random).text();
            if random.once_in(4) {
                mangle(random, &text)
            } else {
                text
            }
        }
        11..=14 => low_voltages(random).text(),
        15 | 16 => several_faults(random).text(),
        17 | 18 => unordered(random).text(),
        19..=24 => regulators(random).text(),
        25 => {
            let text = regulators(random).text();
            if random.once_in(4) {
                mangle(random, &text)
            } else {
                text
            }
        }
        _ => {
            let text = boundary(random);
            if text.len() < 5_000 {
                mangle(random, &text)
            } else {
                text
            }
        }
    }
}

/// A report for the feeder: its own, an edited one, or one worked from voltages or taps of our choosing, so that names and
/// currents agree and only voltages, totals or taps may not. One in twelve is then filed without the table of taps.
pub fn any_report(random: &mut Random, feeder: &[u8]) -> Vec<u8> {
    let Ok(read) = read_feeder(feeder) else {
        // No report belongs to it; anything will do.
        return match random.below(4) {
            0 => vec![b'x'; MAX_FILE + random.below(2)],
            1 => Vec::new(),
            _ => feeder.to_vec(),
        };
    };
    let with_relay = read.regulators().any(|(_, regulator)| regulator.relay.is_some());
    let mut last = at_last_taps(&read);
    if with_relay && settle(&last).is_err() && !random.once_in(3) {
        // The study has no report there; other taps may have one.
        last = rested_elsewhere(random, &read);
    }
    let own = forge(random, &last, 0);
    let for_taps = if with_relay {
        2
    } else if read.regulators().next().is_some() {
        4
    } else {
        20
    };
    if random.once_in(for_taps) {
        return tap_report(random, &read, &last, &own);
    }
    // The last two kinds, with a fault in several rows, are for feeders that have several.
    let kinds = if read.branches.len() < 3 { 12 } else { 20 };
    let report = match random.below(kinds) {
        0 | 1 => own,
        2 | 3 => mangle(random, &own),
        4 | 5 => edit_digit(random, &own),
        6 => match random.below(3) {
            0 => edit_names(random, &own),
            1 => edit_sweeps(random, &own),
            _ => {
                let mut long = own;
                long.resize(MAX_FILE - 1 + random.below(3), *random.pick(b"0\nA"));
                long
            }
        },
        12..=15 => edit_several(random, &read, &own),
        16..=19 => forge_off(random, &last),
        _ => {
            let moves = random.between(1, 3) as usize;
            forge(random, &last, moves)
        }
    };
    if random.once_in(12) {
        without_table(&report)
    } else {
        report
    }
}

/// The feeder with the taps that its study ends with, refused or not.
pub fn at_last_taps(feeder: &Feeder) -> Feeder {
    let mut feeder = feeder.clone();
    // Its answer is compared elsewhere.
    let _ = settle_taps(&mut feeder);
    feeder
}

/// The voltages and the sweeps of one round with the taps in use; where it is refused, V0 held within the limit, and 1.
pub fn one_round(feeder: &Feeder) -> (Vec<Phases>, i64) {
    match settle(feeder) {
        Ok(settled) => (settled.voltages, i64::from(settled.sweeps)),
        Err(_) => (downward_clamped(feeder), 1),
    }
}

/// A report for the taps in use, worked from the voltages of one round, some of them moved.
pub fn forge(random: &mut Random, feeder: &Feeder, moves: usize) -> Vec<u8> {
    let nodes = feeder.branches.len() + 1;
    let (mut voltages, sweeps) = one_round(feeder);
    let between: Vec<&Load> = feeder.loads.iter().filter(|load| load.place.is_delta()).collect();
    let powers: Vec<&Load> = feeder.loads.iter().filter(|load| load.kind == Kind::Power && load.node != 0).collect();
    for _ in 0..moves {
        if !between.is_empty() && random.once_in(3) {
            let load = *random.pick(&between);
            move_both(random, feeder, load, &mut voltages[load.node]);
            continue;
        }
        if !powers.is_empty() && random.once_in(4) {
            let load = *random.pick(&powers);
            move_to_edge(random, load, &mut voltages[load.node]);
            continue;
        }
        let node = random.below(nodes);
        if node == 0 && !random.once_in(10) {
            continue;
        }
        let tol = feeder.tol;
        let by = *random.pick(&[tol, -tol, tol + 1, -tol - 1, 1, -1, 0, 5, 4_000_000]);
        let phase = random.below(3);
        if feeder.phases(node) & 1 << phase == 0 && !random.once_in(8) {
            continue;
        }
        let v = &mut voltages[node][phase];
        match random.below(12) {
            0 => *v = Pair::default(),
            1..=6 => v.re = (v.re + by).clamp(-LIMIT, LIMIT),
            _ => v.im = (v.im + by).clamp(-LIMIT, LIMIT),
        }
    }
    let mut currents = Currents::of(feeder);
    if currents.work(feeder, &voltages).is_err() {
        // The check will meet 30 to 32 before it compares currents.
        currents = Currents::of(feeder);
    }
    let mut powers: Powers = currents.powers(feeder, &voltages);
    if moves > 0 && random.once_in(6) {
        let total = match random.below(4) {
            0 if !powers.losses.is_empty() => {
                let row = random.below(powers.losses.len());
                &mut powers.losses[row]
            }
            1 => &mut powers.drawn,
            2 => &mut powers.lost,
            _ => &mut powers.source,
        };
        *if random.once_in(2) { &mut total.re } else { &mut total.im } += *random.pick(&[1, -1]);
    }
    let sweeps = if moves > 0 { random.between(1, feeder.limit) } else { sweeps };
    write_rows(feeder, &voltages, &currents.nodes[1..], &powers, sweeps)
}

/// A report whose voltages are off at nodes of our choosing and by as much as we choose, and are the worked ones elsewhere, or
/// within tol of them: reported are the worked voltages moved by a row of their own, worked anew until they stay.
fn forge_off(random: &mut Random, feeder: &Feeder) -> Vec<u8> {
    let moved = some_moves(random, feeder);
    let (mut voltages, sweeps) = one_round(feeder);
    let mut currents = Currents::of(feeder);
    for _ in 0..30 {
        if currents.work(feeder, &voltages).is_err() {
            break;
        }
        let before = std::mem::replace(&mut voltages, worked_and_moved(feeder, &currents, &moved));
        if before == voltages {
            break;
        }
    }
    report_from(feeder, &voltages, sweeps)
}

/// A report for the taps in use with these voltages, and the currents and powers that follow from them.
pub fn report_from(feeder: &Feeder, voltages: &[Phases], sweeps: i64) -> Vec<u8> {
    let mut currents = Currents::of(feeder);
    if currents.work(feeder, voltages).is_err() {
        // The check will meet 30 to 32 before it compares currents.
        currents = Currents::of(feeder);
    }
    let powers = currents.powers(feeder, voltages);
    write_rows(feeder, voltages, &currents.nodes[1..], &powers, sweeps)
}

/// The voltages worked downward from the source with these currents, each then moved, and held within the limit.
fn worked_and_moved(feeder: &Feeder, currents: &Currents, moved: &[Phases]) -> Vec<Phases> {
    let mut worked = vec![feeder.source_v; moved.len()];
    for &row in &feeder.order {
        let branch = &feeder.branches[row];
        let v = voltage(branch, &worked[branch.parent], &drop(&branch.device, &currents.nodes[row + 1]));
        worked[row + 1] = v.map(held);
    }
    worked.iter().zip(moved).map(|(v, by)| std::array::from_fn(|k| held(v[k] + by[k]))).collect()
}

/// By how much the voltages of all nodes are moved. At some of them that is more than tol: any few; nodes of one way to the
/// source, with others between them that are within tol; or a node and all that are fed through it.
fn some_moves(random: &mut Random, feeder: &Feeder) -> Vec<Phases> {
    let rows = feeder.branches.len();
    let mut moved = vec![NONE; rows + 1];
    if random.once_in(2) {
        for (node, moved) in moved.iter_mut().enumerate().skip(1) {
            let by = random.between(-feeder.tol, feeder.tol);
            move_one(random, feeder, node, by, moved);
        }
    }
    // The way of one of a few nodes that has most nodes on it, from the node upward.
    let way = (0..4).map(|_| way_of(feeder, 1 + random.below(rows))).max_by_key(Vec::len).unwrap_or_default();
    let mut chosen: Vec<usize> = Vec::new();
    match random.below(4) {
        0 => chosen.extend((0..random.between(1, 5)).map(|_| 1 + random.below(rows))),
        1 => {
            let top = *random.pick(&way);
            chosen.extend((1..=rows).filter(|node| way_of(feeder, *node).contains(&top)));
        }
        _ => {
            chosen.extend(way.iter().filter(|_| random.once_in(2)));
            // A second place off, on another way as a rule.
            if random.once_in(2) {
                chosen.push(1 + random.below(rows));
            }
        }
    }
    let beyond = feeder.tol + *random.pick(&[1, 1, 2, 100, 5_000]);
    for node in chosen {
        let by = if random.once_in(2) { beyond } else { -beyond };
        moved[node] = NONE;
        move_one(random, feeder, node, by, &mut moved[node]);
    }
    moved
}

/// The nodes on the way from this one up to the source, itself the first and the source left out.
fn way_of(feeder: &Feeder, node: usize) -> Vec<usize> {
    let above = |node: &usize| Some(feeder.branches[*node - 1].parent).filter(|parent| *parent > 0);
    std::iter::successors(Some(node), above).collect()
}

/// Moves re or im of one phase that the node has.
fn move_one(random: &mut Random, feeder: &Feeder, node: usize, by: i64, moved: &mut Phases) {
    let present: Vec<usize> = (0..3).filter(|k| feeder.phases(node) & 1 << k != 0).collect();
    let v = &mut moved[*random.pick(&present)];
    *if random.once_in(2) { &mut v.re } else { &mut v.im } += by;
}

pub fn held(v: Pair) -> Pair {
    Pair { re: v.re.clamp(-LIMIT, LIMIT), im: v.im.clamp(-LIMIT, LIMIT) }
}

/// Moves both phases that the load stands between: apart, together, or to no difference.
fn move_both(random: &mut Random, feeder: &Feeder, load: &Load, v: &mut Phases) {
    let tol = feeder.tol;
    let by = *random.pick(&[tol, tol, -tol, tol + 1, 1, -1, 5, 4_000_000]);
    let by = match random.below(3) {
        0 => Pair { re: by, im: 0 },
        1 => Pair { re: 0, im: by },
        _ => Pair { re: by, im: -by },
    };
    let together = random.once_in(3);
    let alike = random.once_in(8);
    let mut first = None;
    for (v, sign) in v.iter_mut().zip(load.place.signs()).filter(|(_, sign)| *sign != 0) {
        *v = held(*v + by.times(if together { 1 } else { sign }));
        if alike {
            *v = *first.get_or_insert(*v);
        }
    }
}

/// Moves re of the load's first phase so that its voltage is the lowest of that im at which it is constant power, or 1 cV
/// to either side of that.
fn move_to_edge(random: &mut Random, load: &Load, v: &mut Phases) {
    let now = load.place.voltage(v);
    // 100·(re² + im²) is to be at least 49·vn².
    let square = ((49 * load.vn * load.vn + 99) / 100 - now.im * now.im).max(0);
    let root = square.isqrt();
    let lowest = if root * root < square { root + 1 } else { root };
    let re = (lowest + random.between(-1, 1)) * if now.re < 0 { -1 } else { 1 };
    for (v, sign) in v.iter_mut().zip(load.place.signs()).filter(|(_, sign)| *sign > 0) {
        v.re = (v.re + sign * (re - now.re)).clamp(-LIMIT, LIMIT);
    }
}

/// V0, each voltage held within the limit.
pub fn downward_clamped(feeder: &Feeder) -> Vec<Phases> {
    let mut voltages = vec![feeder.source_v; feeder.branches.len() + 1];
    for &row in &feeder.order {
        let branch = &feeder.branches[row];
        let v = voltage(branch, &voltages[branch.parent], &NONE);
        voltages[row + 1] = v.map(held);
    }
    voltages
}

/// Changes one digit.
fn edit_digit(random: &mut Random, text: &[u8]) -> Vec<u8> {
    let mut text = text.to_vec();
    let digits: Vec<usize> = (0..text.len()).filter(|at| text[*at].is_ascii_digit()).collect();
    if !digits.is_empty() {
        text[*random.pick(&digits)] = *random.pick(b"0123456789");
    }
    text
}

/// Changes a name, or exchanges those of two rows.
fn edit_names(random: &mut Random, text: &[u8]) -> Vec<u8> {
    edit_lines(random, text, |random, lines| {
        let (a, b) = (random.below(lines.len()), random.below(lines.len()));
        let name = |line: &[u8]| line.split(|b| *b == b',').next().unwrap_or_default().to_vec();
        let (of_a, of_b) = (name(&lines[a]), name(&lines[b]));
        let rest_a = lines[a][of_a.len()..].to_vec();
        let new =
            if random.once_in(2) { of_b } else { random.pick(&["X", "N1", "", "a", "ABCDEFGHI"]).as_bytes().to_vec() };
        lines[a] = [new, rest_a].concat();
    })
}

/// Puts one fault of 51 to 53 into two rows or more of the report; now and then another of them beside it.
fn edit_several(random: &mut Random, feeder: &Feeder, text: &[u8]) -> Vec<u8> {
    edit_lines(random, text, |random, lines| {
        let number = random.between(51, 53);
        for _ in 0..random.between(2, 5) {
            edit_row(random, feeder, lines, number);
        }
        if random.once_in(3) {
            let other = random.between(51, 53);
            edit_row(random, feeder, lines, other);
        }
    })
}

/// Puts a fault of this number into a row of the report that has one, and none of a lower number.
fn edit_row(random: &mut Random, feeder: &Feeder, lines: &mut [Vec<u8>], number: i64) {
    let rows = feeder.branches.len();
    // The places of the rows among the lines, which are counted from 0.
    let at_node = |node: usize| line_of_node(node) as usize - 1;
    let at_branch = |row: usize| line_of_branch(feeder, row) as usize - 1;
    let by_one = |value: &str, by: i64| {
        let value = value.parse().unwrap_or(0i64);
        (if (value + by).abs() > LIMIT { value - by } else { value + by }).to_string()
    };
    let by = *random.pick(&[1, -1]);
    match number {
        51 => {
            let any = random.below(2 * rows + 1 + feeder.regulators().count());
            let (at, column) = match any {
                any if any <= rows => (at_node(any), 0),
                any if any <= 2 * rows => (at_branch(any - rows - 1), random.below(2)),
                any => (line_of_taps(feeder, any - 2 * rows - 1) as usize - 1, 0),
            };
            let other = at_node(random.below(rows + 1));
            let name = if random.once_in(2) {
                random.pick(&["X", "S", "N1", "NOBODY"]).to_string()
            } else {
                field(&lines[other], 0)
            };
            if random.once_in(4) && any <= rows {
                // Two rows exchanged, so that each has the other's name.
                lines.swap(at, other);
            } else {
                edit_field(&mut lines[at], column, |_| name);
            }
        }
        52 => {
            let few: Vec<usize> = (0..=rows).filter(|node| *node == 0 || feeder.phases(*node) != 7).collect();
            let node = *random.pick(&few);
            let phases: Vec<usize> = (0..3).filter(|k| node == 0 || feeder.phases(node) & 1 << k == 0).collect();
            let column = 1 + 2 * random.pick(&phases) + random.below(2);
            edit_field(&mut lines[at_node(node)], column, |value| by_one(value, by));
        }
        _ => {
            let at = at_branch(random.below(rows));
            edit_field(&mut lines[at], 2 + random.below(6), |value| by_one(value, by));
        }
    }
}

/// The field of a line in this column.
fn field(line: &[u8], column: usize) -> String {
    String::from_utf8_lossy(line.split(|b| *b == b',').nth(column).unwrap_or_default()).into_owned()
}

fn edit_field(line: &mut Vec<u8>, column: usize, edit: impl FnOnce(&str) -> String) {
    let mut fields: Vec<Vec<u8>> = line.split(|b| *b == b',').map(<[u8]>::to_vec).collect();
    fields[column] = edit(&field(line, column)).into_bytes();
    *line = fields.join(&b',');
}

/// Changes the number of sweeps.
fn edit_sweeps(random: &mut Random, text: &[u8]) -> Vec<u8> {
    edit_lines(random, text, |random, lines| {
        let Some(names) = lines.iter().position(|line| line == TOTAL_HEADER.as_bytes()) else { return };
        let row = names + 1;
        let mut fields: Vec<Vec<u8>> = lines[row].split(|b| *b == b',').map(<[u8]>::to_vec).collect();
        fields[0] = random.pick(&["0", "1", "2", "5", "20", "100", "101", "-1", "01"]).as_bytes().to_vec();
        lines[row] = fields.join(&b',');
    })
}

#[cfg(test)]
mod tests {
    use super::*;
    use crate::faults::{lines_with, passed_over};
    use crate::report::read_report;
    use crate::rounds::settle_taps_watched;
    use crate::{check, parts, study, Answer};

    #[test]
    fn sound_ones_are_sound_and_mostly_settle() {
        let mut random = Random::new(1);
        let mut settled = 0;
        for _ in 0..300 {
            let text = some_sound(&mut random).text();
            assert!(read_feeder(&text).is_ok());
            let mut out = vec![0; MAX_FILE];
            if let Answer::Report { length, .. } = study(&text, &mut out) {
                settled += 1;
                assert_eq!(check(&text, &out[..length]), Answer::Pass);
            }
        }
        assert!(settled > 200, "{settled} of 300");
    }

    #[test]
    fn every_number_is_met() {
        let mut studied = std::collections::BTreeSet::new();
        let mut checked = std::collections::BTreeSet::new();
        let mut out = vec![0; MAX_FILE];
        for seed in 0..2000 {
            let mut random = Random::new(seed);
            let feeder = any_feeder(&mut random);
            let report = any_report(&mut random, &feeder);
            let room = if random.once_in(20) { 100 } else { MAX_FILE };
            studied.insert(parts(study(&feeder, &mut out[..room]).word()).number);
            checked.insert(parts(check(&feeder, &report).word()).number);
        }
        let layout = [9, 10, 11, 20, 21, 22, 23, 24];
        let in_study: Vec<u64> = [&[0], &layout[..], &[30, 31, 32, 33, 34, 35, 40]].concat();
        let in_check: Vec<u64> = [&[0], &layout[..], &[30, 31, 32, 50, 51, 52, 53, 54, 55, 56]].concat();
        assert_eq!(studied.into_iter().collect::<Vec<_>>(), in_study);
        assert_eq!(checked.into_iter().collect::<Vec<_>>(), in_check);
    }

    #[test]
    fn every_number_is_met_with_delta_loads() {
        let mut studied = std::collections::BTreeSet::new();
        let mut checked = std::collections::BTreeSet::new();
        let mut out = vec![0; MAX_FILE];
        for seed in 0..3000 {
            let mut random = Random::new(seed);
            let feeder = deltas(&mut random).text();
            let report = any_report(&mut random, &feeder);
            studied.insert(parts(study(&feeder, &mut out).word()).number);
            checked.insert(parts(check(&feeder, &report).word()).number);
        }
        // 20 to 22 and 24 are faults of branch rows, and no regulator sets its taps; 9 comes of a report that is too long.
        let in_reading = [10, 11, 23];
        let in_study: Vec<u64> = [&[0], &in_reading[..], &[30, 31, 32, 33, 34]].concat();
        let in_check: Vec<u64> = [&[0, 9], &in_reading[..], &[30, 31, 32, 50, 51, 52, 53, 54, 55, 56]].concat();
        assert_eq!(studied.into_iter().collect::<Vec<_>>(), in_study);
        assert_eq!(checked.into_iter().collect::<Vec<_>>(), in_check);
    }

    #[test]
    fn delta_loads_are_drawn_at_their_ends() {
        // Each of these must be met among the generated feeders: what a load row of a good feeder has.
        let mut met = std::collections::BTreeSet::new();
        let mut out = vec![0; MAX_FILE];
        for seed in 0..3000 {
            let mut random = Random::new(seed);
            let text = any_feeder(&mut random);
            let Ok(feeder) = read_feeder(&text) else { continue };
            let passes = matches!(study(&text, &mut out), Answer::Report { .. });
            met.insert(if feeder.loads.iter().any(|load| load.place.is_delta()) { "delta" } else { "no delta" });
            for load in feeder.loads.iter().filter(|load| load.place.is_delta()) {
                met.insert(match (load.place, load.kind) {
                    (Place::AB, Kind::Power) => "AB P",
                    (Place::BC, Kind::Power) => "BC P",
                    (Place::CA, Kind::Power) => "CA P",
                    (Place::AB, Kind::Current) => "AB I",
                    (Place::BC, Kind::Current) => "BC I",
                    (Place::CA, Kind::Current) => "CA I",
                    (Place::AB, _) => "AB Z",
                    (Place::BC, _) => "BC Z",
                    _ => "CA Z",
                });
                if load.vn == 4_000_000 {
                    met.insert(if passes { "vn 4,000,000, settled" } else { "vn 4,000,000" });
                }
                if load.node == 0 {
                    met.insert("on the source");
                } else if feeder.phases(load.node) != 7 {
                    met.insert("on two phases");
                }
                if load.node == 0 && load.place.voltage(&feeder.source_v) == Pair::default() {
                    met.insert("no voltage");
                }
                if load.node == 0 && load.place.voltage(&feeder.source_v).re.abs() == 4_000_000 {
                    met.insert("largest voltage");
                }
                if feeder.tol == 0 && passes {
                    met.insert("tol 0, settled");
                }
            }
        }
        assert_eq!(met.len(), 18, "{met:?}");
    }

    /// Where a P row stands at the voltage `v` of the study's report; `dropped` if that is not the one without load.
    fn standing(load: &Load, v: Pair, dropped: bool) -> &'static str {
        let edge = edge_vn(v);
        match (load.kind_at(v), load.place.is_delta()) {
            (Kind::Power, delta) if 100 * v.square() == 49 * load.vn * load.vn => match (delta, dropped) {
                (false, false) => "one phase, at 70 per cent",
                (false, true) => "one phase, at 70 per cent behind a drop",
                (true, false) => "two phases, at 70 per cent",
                (true, true) => "two phases, at 70 per cent behind a drop",
            },
            (Kind::Power, false) if load.vn == edge => "one phase, just above",
            (Kind::Power, true) if load.vn == edge => "two phases, just above",
            (Kind::Power, false) => "one phase, above",
            (Kind::Power, true) => "two phases, above",
            (_, false) if v == ZERO => "one phase, at zero voltage",
            (_, true) if v == ZERO => "two phases, at zero voltage",
            (_, false) if load.vn == edge + 1 => "one phase, just below",
            (_, true) if load.vn == edge + 1 => "two phases, just below",
            (_, false) if load.vn > 2 * edge => "one phase, far below",
            (_, true) if load.vn > 2 * edge => "two phases, far below",
            (_, false) => "one phase, below",
            (_, true) => "two phases, below",
        }
    }

    #[test]
    fn low_voltages_are_drawn() {
        // How often each of these is met: P rows with some power in the study's reports, the study's answers where a P row
        // counts as an impedance in a sweep, and the check's where one does so at the reported voltages.
        let mut met = std::collections::BTreeMap::<_, usize>::new();
        for seed in 0..6000 {
            let mut random = Random::new(seed);
            let text = any_feeder(&mut random);
            let report = any_report(&mut random, &text);
            let Ok(feeder) = read_feeder(&text) else { continue };
            let mut count = |what| *met.entry(what).or_default() += 1;
            let has = |kind| feeder.loads.iter().any(|load| load.kind == kind);

            // Those of the last round.
            let mut sweeps: Vec<Vec<Phases>> = Vec::new();
            let mut last = 0;
            let answer = settle_taps_watched(&mut feeder.clone(), |round, v| {
                if round > last {
                    sweeps.clear();
                    last = round;
                }
                sweeps.push(v.to_vec());
            });
            let low: Vec<Vec<bool>> =
                sweeps.iter().map(|v| feeder.loads.iter().map(|load| load.is_low(v)).collect()).collect();
            let is_low = low.iter().flatten().any(|low| *low);
            match &answer {
                Ok(_) if is_low && has(Kind::Current) && has(Kind::Impedance) => {
                    count("study, all three kinds: report")
                }
                Ok(_) if is_low => count("study: report"),
                Err((30, _)) if is_low => count("study: 30"),
                Err((31..=33, _)) if is_low => count("study: 31 to 33"),
                Err((34, _)) if is_low => {
                    let last = low.len() - 1;
                    count(if low[last] != low[last.saturating_sub(1)] { "study: 34, to and fro" } else { "study: 34" });
                }
                _ => {}
            }
            if let Ok(settled) = &answer {
                for load in feeder.loads.iter().filter(|load| load.kind == Kind::Power && (load.p, load.q) != (0, 0)) {
                    let [first, reported] = [&sweeps[0], &settled.voltages].map(|v| load.place.voltage(&v[load.node]));
                    count(standing(load, reported, reported != first));
                }
            }

            let Ok(read) = read_report(&feeder, &report) else { continue };
            if feeder.loads.iter().any(|load| load.is_low(&read.voltages)) {
                count(match check(&text, &report) {
                    Answer::Pass => "check: pass",
                    Answer::Refused { number: 30, .. } => "check: 30",
                    Answer::Refused { number: 53, .. } => "check: 53",
                    Answer::Refused { number: 54, .. } => "check: 54",
                    Answer::Refused { number: 55, .. } => "check: 55",
                    _ => "check: 31 and 32",
                });
            }
        }
        assert_eq!(met.len(), 28, "{met:#?}");
        assert!(met.values().all(|count| *count >= 10), "{met:#?}");
    }

    #[test]
    fn several_faults_are_drawn() {
        // How often each of these is met: an answer where two rows or more have the fault, and 54 with a row that it passes
        // over, by where that row stands. The line answered is the first in each of them.
        let mut met = std::collections::BTreeMap::<_, usize>::new();
        let mut out = vec![0; MAX_FILE];
        for seed in 0..3000 {
            let mut random = Random::new(seed);
            let feeder = any_feeder(&mut random);
            let report = any_report(&mut random, &feeder);
            for (call, answer) in [("study", study(&feeder, &mut out)), ("check", check(&feeder, &report))] {
                let Answer::Refused { number, value } = answer else { continue };
                let Some(lines) = lines_with(number, &feeder, &report) else { continue };
                assert_eq!(lines.first(), Some(&value), "{call} {number}, seed {seed}");
                if lines.len() > 1 {
                    *met.entry(format!("{call} {number}")).or_default() += 1;
                }
                for row in if number == 54 { passed_over(&feeder, &report) } else { Vec::new() } {
                    let place = if row.line < value { "before" } else { "behind" };
                    let above = if row.parent_within { "within tol" } else { "off" };
                    *met.entry(format!("passed over {place}, the node above {above}")).or_default() += 1;
                }
            }
        }
        // 11 and 20 to 24 of both calls, 51 to 54 and 56, and four kinds that are passed over.
        assert_eq!(met.len(), 12 + 5 + 4, "{met:#?}");
        assert!(met.values().all(|count| *count >= 10), "{met:#?}");
    }

    #[test]
    fn sizes_are_exact() {
        let mut random = Random::new(2);
        for _ in 0..30 {
            let text = sized(&mut random);
            assert!((MAX_FILE - 1..=MAX_FILE + 1).contains(&text.len()));
        }
    }

    #[test]
    fn the_same_seed_makes_the_same_files() {
        let make = |seed| {
            let mut random = Random::new(seed);
            let feeder = any_feeder(&mut random);
            let report = any_report(&mut random, &feeder);
            (feeder, report)
        };
        for seed in 0..50 {
            assert_eq!(make(seed), make(seed));
        }
        assert_ne!(make(1), make(2));
    }
}
