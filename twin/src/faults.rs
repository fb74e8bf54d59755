//! Every line that has the fault which was answered, for 11, 20 to 24, 51 to 54 and 56. The conditions of document 01's
//! table, and those of request S-5 of document 02, stand here a second time, row by row over the text; it need not be fast.
//! By S-4 and S-5 the line answered is the first of these: the fuzzer sees that it is, and counts the calls where there
//! are several.

use crate::equations::{drop, voltage, LIMIT};
use crate::feeder::{read_feeder, Feeder};
use crate::ladder::{differ, Currents};
use crate::report::{line_of_branch, line_of_node, read_report, Reported};
use std::ops::Range;

/// The lines with this fault, in the order of the file; `None` for a number that comes with no line. The number must be the
/// one that the two files are answered with; for those of the feeder any report will do.
pub fn lines_with(number: u32, feeder: &[u8], report: &[u8]) -> Option<Vec<u64>> {
    match number {
        11 | 20..=24 => Some(in_feeder(number, feeder)),
        51 | 52 => Some(in_rows(number, feeder, report)),
        56 => Some(taps_not_at_rest(feeder, report)),
        53 | 54 => {
            let (feeder, report) = with_reported_taps(feeder, report)?;
            Some(if number == 53 { currents_that_differ(&feeder, &report) } else { voltages_off(&feeder, &report) })
        }
        _ => None,
    }
}

/// Both files as read, if they can be, the feeder with the taps of the report.
fn with_reported_taps(feeder: &[u8], report: &[u8]) -> Option<(Feeder, Reported)> {
    let mut feeder = read_feeder(feeder).ok()?;
    let report = read_report(&feeder, report).ok()?;
    feeder.set_taps(&report.taps);
    Some((feeder, report))
}

/// A row of a table: its line in the file, and its fields.
struct Row<'a> {
    line: u64,
    fields: Vec<&'a str>,
}

impl Row<'_> {
    fn number(&self, column: usize) -> i64 {
        self.fields[column].parse().expect("a number")
    }

    /// Whether all numbers of these columns are from `least` to `most`.
    fn within(&self, columns: Range<usize>, least: i64, most: i64) -> bool {
        columns.into_iter().all(|column| (least..=most).contains(&self.number(column)))
    }
}

/// The rows of the tables of a file that is well laid out: three of a feeder, three or four of a report.
fn tables(text: &[u8]) -> [Vec<Row<'_>>; 4] {
    let text = std::str::from_utf8(text).expect("ASCII");
    let mut tables = [const { Vec::new() }; 4];
    let mut table = 0;
    let mut names = true;
    for (before, line) in text.lines().enumerate() {
        if line.is_empty() {
            table += 1;
            names = true;
        } else if names {
            names = false;
        } else {
            tables[table].push(Row { line: before as u64 + 1, fields: line.split(',').collect() });
        }
    }
    tables
}

/// Whether all letters of the word stand in the phases.
fn all_in(word: &str, phases: &str) -> bool {
    word.chars().all(|letter| phases.contains(letter))
}

fn in_feeder(number: u32, text: &[u8]) -> Vec<u64> {
    let [source, branches, loads, _] = tables(text);
    let source = &source[0];
    let feeding = |node: &str| branches.iter().find(|row| row.fields[1] == node);
    let phases_at =
        |node: &str| if node == source.fields[0] { Some("ABC") } else { feeding(node).map(|row| row.fields[2]) };
    let reached = |row: &Row| {
        let mut node = row.fields[0];
        // No way has more steps than there are rows.
        for _ in 0..branches.len() {
            match feeding(node) {
                Some(row) if node != source.fields[0] => node = row.fields[0],
                _ => break,
            }
        }
        node == source.fields[0]
    };

    let of_source = number == 11 && !source_within(source);
    let of_branch = |(before, row): (usize, &Row)| match number {
        11 => before >= 200 || !branch_within(row),
        20 => phases_at(row.fields[0]).is_none(),
        21 => {
            let to = row.fields[1];
            to == source.fields[0] || branches[..before].iter().any(|earlier| earlier.fields[1] == to)
        }
        22 => !reached(row),
        23 => {
            let fed = phases_at(row.fields[0]).is_some_and(|phases| all_in(row.fields[2], phases));
            !fed || matches!(row.fields[3], "Y" | "D") && row.fields[2] != "ABC"
        }
        _ => !zeros_due(row),
    };
    let of_load = |(before, row): (usize, &Row)| match number {
        11 => before >= 300 || !load_within(row),
        23 => !phases_at(row.fields[0]).is_some_and(|phases| all_in(row.fields[1], phases)),
        _ => false,
    };
    let mut lines = Vec::new();
    lines.extend(of_source.then_some(source.line));
    lines.extend(branches.iter().enumerate().filter(|row| of_branch(*row)).map(|(_, row)| row.line));
    lines.extend(loads.iter().enumerate().filter(|row| of_load(*row)).map(|(_, row)| row.line));
    lines
}

fn source_within(row: &Row) -> bool {
    row.within(1..7, -2_000_000, 2_000_000) && row.within(7..8, 0, 1_000) && row.within(8..9, 1, 100)
}

fn branch_within(row: &Row) -> bool {
    match row.fields[3] {
        "L" => row.within(4..16, -100_000_000, 100_000_000),
        "R" => row.within(4..7, -16, 16) && row.within(7..8, 0, 20_000) && (row.number(7) == 0 || relay_within(row)),
        _ => row.within(4..6, 1, 1_000_000) && row.within(6..12, -100_000_000, 100_000_000),
    }
}

/// Whether p5 to p9 of a regulator row are within the limits that they have at a level above 0.
fn relay_within(row: &Row) -> bool {
    row.within(8..9, 0, 20_000) && row.within(9..11, 1, 10_000) && row.within(11..13, -100_000_000, 100_000_000)
}

fn load_within(row: &Row) -> bool {
    let most = if row.fields[1].len() == 2 { 4_000_000 } else { 2_000_000 };
    row.within(3..4, 1, most) && row.within(4..6, -3_000_000, 3_000_000)
}

/// Whether a branch row has 0 wherever 0 is due.
fn zeros_due(row: &Row) -> bool {
    let zero = |columns: Range<usize>| row.within(columns, 0, 0);
    let phases = row.fields[2];
    match row.fields[3] {
        "L" => ["A", "AB", "AC", "B", "BC", "C"]
            .iter()
            .enumerate()
            .all(|(k, owners)| all_in(owners, phases) || zero(4 + 2 * k..6 + 2 * k)),
        "R" => {
            ["A", "B", "C"].iter().enumerate().all(|(k, owner)| all_in(owner, phases) || zero(4 + k..5 + k))
                && (row.number(7) > 0 || zero(7..13))
                && zero(13..16)
        }
        _ => zero(12..16),
    }
}

/// 51 and 52, which compare fields of the two files.
fn in_rows(number: u32, feeder: &[u8], report: &[u8]) -> Vec<u64> {
    let [source, branches, _, _] = tables(feeder);
    let [nodes, flows, _, taps] = tables(report);
    let mut lines = Vec::new();
    if number == 51 {
        let names = std::iter::once(source[0].fields[0]).chain(branches.iter().map(|row| row.fields[1]));
        lines.extend(nodes.iter().zip(names).filter(|(row, name)| row.fields[0] != *name).map(|(row, _)| row.line));
        let pairs = flows.iter().zip(&branches);
        lines.extend(pairs.filter(|(row, due)| row.fields[..2] != due.fields[..2]).map(|(row, _)| row.line));
        let regulators = branches.iter().filter(|row| row.fields[3] == "R");
        let pairs = taps.iter().zip(regulators);
        lines.extend(pairs.filter(|(row, due)| row.fields[0] != due.fields[1]).map(|(row, _)| row.line));
        return lines;
    }
    if nodes[0].fields[1..] != source[0].fields[1..7] {
        lines.push(nodes[0].line);
    }
    for (row, branch) in nodes[1..].iter().zip(&branches) {
        let absent = ["A", "B", "C"].iter().enumerate().filter(|(_, letter)| !branch.fields[2].contains(**letter));
        if absent.into_iter().any(|(k, _)| !row.within(1 + 2 * k..3 + 2 * k, 0, 0)) {
            lines.push(row.line);
        }
    }
    lines
}

/// 56, from the two texts: the rows of the last table with a tap that could still move as wanted, or that is not the feeder's
/// where its level is 0. All numbers are wide enough for any that can be written.
fn taps_not_at_rest(feeder: &[u8], report: &[u8]) -> Vec<u64> {
    let [_, branches, _, _] = tables(feeder);
    let [nodes, flows, _, taps] = tables(report);
    let regulators = branches.iter().zip(nodes[1..].iter().zip(&flows)).filter(|(branch, _)| branch.fields[3] == "R");
    let mut lines = Vec::new();
    for ((branch, (node, flow)), row) in regulators.zip(&taps) {
        let given = branch.number(7) == 0;
        let moves = (0..3).any(|k| {
            let tap = row.number(1 + k);
            if given {
                return tap != branch.number(4 + k);
            }
            let wanted = tap + way_wanted(branch, node, flow, k);
            branch.fields[2].contains(["A", "B", "C"][k]) && wanted != tap && (-16..=16).contains(&wanted)
        });
        if moves {
            lines.push(row.line);
        }
    }
    lines
}

/// 1, −1 or 0: which way a phase's tap is wanted, by the node's row and the branch's row of the report.
fn way_wanted(branch: &Row, node: &Row, flow: &Row, phase: usize) -> i64 {
    let p = |n: usize| i128::from(branch.number(3 + n));
    let (v_re, v_im) = (node.number(1 + 2 * phase).into(), node.number(2 + 2 * phase).into());
    let (i_re, i_im) = (i128::from(flow.number(2 + 2 * phase)), i128::from(flow.number(3 + 2 * phase)));
    // To the nearest whole number, a tie away from zero.
    let nearest = |a: i128, b: i128| (2 * a.abs() + b) / (2 * b) * a.signum();
    let drop = |product: i128| nearest(product, p(7) * 10_000_000);
    let re = nearest(v_re, p(6)) - drop(p(8) * i_re - p(9) * i_im);
    let im = nearest(v_im, p(6)) - drop(p(8) * i_im + p(9) * i_re);
    let twice = (2 * re).pow(2) + (2 * im).pow(2);
    let (low, high) = (2 * p(4) - p(5), 2 * p(4) + p(5));
    if twice > high.pow(2) {
        -1
    } else if low > 0 && twice < low.pow(2) {
        1
    } else {
        0
    }
}

fn currents_that_differ(feeder: &Feeder, report: &Reported) -> Vec<u64> {
    let mut currents = Currents::of(feeder);
    currents.work(feeder, &report.voltages).expect("none of 30 to 32");
    let rows = (0..feeder.branches.len()).filter(|row| report.currents[*row] != currents.nodes[row + 1]);
    rows.map(|row| line_of_branch(feeder, row)).collect()
}

/// How a node stands to the voltages that are worked downward from the source with the reported currents.
#[derive(Clone, Copy, Default)]
struct Standing {
    /// The reported voltage is off.
    off: bool,
    /// The node above it is off.
    parent_off: bool,
    /// Any node above it is off.
    below_off: bool,
}

/// The standing of a node, worked along its own way from the source. A worked voltage of which re or im is beyond twice the
/// limit is off at any reported one and is not worked on from, as a few transformers more would leave 64 bits: what is
/// behind it is fed through a node that is off and is not said to be off itself.
fn standing(feeder: &Feeder, report: &Reported, node: usize) -> Standing {
    let mut way = vec![];
    let mut at = node;
    while at > 0 {
        way.push(at - 1);
        at = feeder.branches[at - 1].parent;
    }
    let mut worked = feeder.source_v;
    let mut now = Standing::default();
    for &row in way.iter().rev() {
        let branch = &feeder.branches[row];
        now.parent_off = now.off;
        now.below_off |= now.off;
        if worked.iter().any(|v| v.beyond(2 * LIMIT)) {
            now.off = false;
            continue;
        }
        worked = voltage(branch, &worked, &drop(&branch.device, &report.currents[row]));
        now.off = differ(&worked, &report.voltages[row + 1], feeder.tol);
    }
    now
}

fn voltages_off(feeder: &Feeder, report: &Reported) -> Vec<u64> {
    let counts = |node: &usize| {
        let standing = standing(feeder, report, *node);
        standing.off && !standing.below_off
    };
    (1..=feeder.branches.len()).filter(counts).map(line_of_node).collect()
}

/// A row that is off and does not count for 54, as it is fed through one that is off.
pub struct PassedOver {
    pub line: u64,
    /// The node right above it is within tol, and one further up is off.
    pub parent_within: bool,
}

/// The rows that 54 passes over in a report that is answered with it.
pub fn passed_over(feeder: &[u8], report: &[u8]) -> Vec<PassedOver> {
    let Some((feeder, report)) = with_reported_taps(feeder, report) else { return Vec::new() };
    let rows = (1..=feeder.branches.len()).map(|node| (node, standing(&feeder, &report, node)));
    rows.filter(|(_, standing)| standing.off && standing.below_off)
        .map(|(node, standing)| PassedOver { line: line_of_node(node), parent_within: !standing.parent_off })
        .collect()
}
