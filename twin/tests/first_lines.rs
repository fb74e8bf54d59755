//! Request S-4, the first line with a fault, on files that have it in several rows.

mod common;

use common::{feeder, studied};
use twin::faults::lines_with;
use twin::{check, Answer};

const SOURCE: &str = "720000,0,-360000,-623538,-360000,623538,1,20";

/// The refusal of a feeder by study and check, and all lines with that fault, the one answered the first of them.
fn refusal(source: &str, branches: &[&str], loads: &[&str]) -> (u32, Vec<u64>) {
    let text = feeder(source, branches, loads);
    let (number, line) = studied(&text).expect_err("a refusal");
    assert_eq!(check(&text, b""), Answer::Refused { number, value: line });
    let lines = lines_with(number, &text, b"").expect("lines");
    assert_eq!(lines[0], line);
    (number, lines)
}

/// A line without impedance.
fn line(from: &str, to: &str, phases: &str) -> String {
    format!("{from},{to},{phases},L,0,0,0,0,0,0,0,0,0,0,0,0")
}

/// The refusal of a feeder of such lines.
fn refusal_of_lines(rows: &[(&str, &str, &str)], loads: &[&str]) -> (u32, Vec<u64>) {
    let rows: Vec<String> = rows.iter().map(|(from, to, phases)| line(from, to, phases)).collect();
    refusal(SOURCE, &rows.iter().map(String::as_str).collect::<Vec<_>>(), loads)
}

#[test]
fn values_out_of_their_limits() {
    let good = line("S", "N1", "A");
    let ohms = good.replace("L,0", "L,100000001").replace("N1", "N2");
    let tap = "S,N3,A,R,17,0,0,0,0,0,0,0,0,0,0,0";
    let (load, vn, power) = ("S,A,P,1,0,0", "S,A,P,0,0,0", "S,A,P,1,3000001,0");
    assert_eq!(refusal(SOURCE, &[&good, &ohms, tap], &[load, vn, power]), (11, vec![6, 7, 11, 12]));
    assert_eq!(refusal(SOURCE, &[&good], &[load, load, power, vn]), (11, vec![10, 11]));
    // The source row stands first, whichever of its values it is.
    for source in
        [SOURCE.replace(",1,20", ",1001,20"), SOURCE.replace(",20", ",101"), SOURCE.replace("0,0,-3", "0,2000001,-3")]
    {
        assert_eq!(refusal(&source, &[&good, &ohms], &[power]), (11, vec![2, 6, 9]));
    }
    // Rows past the most have it too. A value of an earlier row comes before them, one of a later row does not.
    let mut rows: Vec<String> = (0..203).map(|k| line("S", &format!("N{k}"), "A")).collect();
    let refused = |rows: &[String]| refusal(SOURCE, &rows.iter().map(String::as_str).collect::<Vec<_>>(), &[]);
    assert_eq!(refused(&rows), (11, vec![205, 206, 207]));
    rows[201] = rows[201].replace("L,0", "L,-100000001");
    assert_eq!(refused(&rows), (11, vec![205, 206, 207]));
    rows[9] = rows[9].replace("L,0", "L,-100000001");
    assert_eq!(refused(&rows), (11, vec![14, 205, 206, 207]));
    assert_eq!(refusal(SOURCE, &[], &[load; 302]), (11, vec![307, 308]));
}

#[test]
fn names_and_ways() {
    let unknown = [("S", "B", "A"), ("X", "C", "A"), ("B", "D", "A"), ("Y", "E", "A")];
    assert_eq!(refusal_of_lines(&unknown, &[]), (20, vec![6, 8]));
    // The earlier of two rows with one name has no fault.
    let twice = [("S", "B", "A"), ("S", "C", "A"), ("S", "C", "A"), ("S", "B", "A"), ("B", "S", "A")];
    assert_eq!(refusal_of_lines(&twice, &[]), (21, vec![7, 8, 9]));
    // What is fed from a circle is not reached either, and may stand before the circle.
    let circle = [("S", "B", "A"), ("D", "F", "A"), ("F", "G", "A"), ("E", "D", "A"), ("D", "E", "A"), ("B", "C", "A")];
    assert_eq!(refusal_of_lines(&circle, &[]), (22, vec![6, 7, 8, 9]));
}

#[test]
fn phases_and_zeros() {
    let phases = [("S", "B", "A"), ("B", "C", "AB"), ("B", "D", "A"), ("B", "E", "BC")];
    assert_eq!(refusal_of_lines(&phases, &["B,B,P,1,0,0", "X,A,P,1,0,0"]), (23, vec![6, 8, 11, 12]));
    assert_eq!(
        refusal_of_lines(&phases[..1], &["B,A,P,1,0,0", "B,CA,P,1,0,0", "X,A,P,1,0,0", "B,C,P,1,0,0"]),
        (23, vec![9, 10, 11])
    );
    let rows = [
        "S,B,A,L,0,0,0,0,0,0,0,0,0,0,0,0",
        "S,C,A,L,0,0,0,0,0,0,5,0,0,0,0,0",
        "S,D,AB,R,1,1,1,0,0,0,0,0,0,0,0,0",
        "S,E,ABC,Y,1,1,0,0,0,0,0,0,0,0,0,999999999999999999",
        "S,F,ABC,R,1,1,1,0,0,-17,0,0,0,0,0,0",
    ];
    assert_eq!(refusal(SOURCE, &rows, &[]), (24, vec![6, 7, 8, 9]));
}

/// S feeds B feeds C feeds D, and S feeds E, all by lines without impedance and on A and B, with tol 1 and no loads: every
/// worked voltage is the source's. The rows stand in the order of these names.
fn tree(order: [&str; 4]) -> Vec<u8> {
    let from = |to: &str| match to {
        "C" => "B",
        "D" => "C",
        _ => "S",
    };
    let rows = order.map(|to| line(from(to), to, "AB"));
    feeder("720000,0,-360000,-623538,0,0,1,20", &rows.each_ref().map(String::as_str), &[])
}

/// The check's answer for the tree's own report with A's re moved at these nodes, and all lines with that fault.
fn moved(order: [&str; 4], nodes: &[(&str, i64)]) -> (u32, Vec<u64>) {
    let feeder = tree(order);
    let mut report = studied(&feeder).expect("a report");
    for (node, by) in nodes {
        report = report.replace(&format!("\n{node},720000"), &format!("\n{node},{}", 720_000 + by));
    }
    answered(&feeder, &report)
}

fn answered(feeder: &[u8], report: &str) -> (u32, Vec<u64>) {
    let Answer::Refused { number, value } = check(feeder, report.as_bytes()) else { panic!("a refusal is due") };
    let lines = lines_with(number, feeder, report.as_bytes()).expect("lines");
    assert_eq!(lines[0], value);
    (number, lines)
}

#[test]
fn voltages_that_are_off() {
    const DOWNWARD: [&str; 4] = ["B", "C", "D", "E"];
    const UPWARD: [&str; 4] = ["E", "D", "C", "B"];
    // One alone, wherever it stands.
    assert_eq!(moved(DOWNWARD, &[("C", 2)]), (54, vec![4]));
    assert_eq!(moved(UPWARD, &[("C", 2)]), (54, vec![5]));
    // Two of which neither is fed through the other: both have the fault.
    assert_eq!(moved(DOWNWARD, &[("E", -2), ("D", 2)]), (54, vec![5, 6]));
    assert_eq!(moved(UPWARD, &[("E", -2), ("D", 2)]), (54, vec![3, 4]));
    // What is fed through one that is off does not count, behind it or before it, at one step or at two.
    assert_eq!(moved(DOWNWARD, &[("B", 2), ("C", 2)]), (54, vec![3]));
    assert_eq!(moved(UPWARD, &[("B", 2), ("C", 2)]), (54, vec![6]));
    assert_eq!(moved(UPWARD, &[("B", 2), ("C", 2), ("D", 2)]), (54, vec![6]));
    assert_eq!(moved(UPWARD, &[("B", 2), ("D", 2)]), (54, vec![6]), "C is within tol between them");
    assert_eq!(moved(UPWARD, &[("B", 2), ("C", 1), ("D", -2)]), (54, vec![6]), "C is within tol between them");
    assert_eq!(moved(UPWARD, &[("B", 2), ("D", 2), ("E", 2)]), (54, vec![3, 6]));
    // Within tol above it, D counts.
    assert_eq!(moved(UPWARD, &[("B", 1), ("C", -1), ("D", 2)]), (54, vec![4]));
}

#[test]
fn rows_of_the_report() {
    let feeder = tree(["D", "B", "E", "C"]);
    let report = studied(&feeder).expect("a report");
    let edited = |edits: &[(&str, &str)]| {
        let report = edits.iter().fold(report.clone(), |report, (from, to)| {
            assert!(report.contains(from), "{from}");
            report.replacen(from, to, 1)
        });
        answered(&feeder, &report)
    };
    // Names of both tables. The rows of the nodes stand in lines 2 to 6, those of the branches in 9 to 12.
    assert_eq!(edited(&[("\nS,E", "\nB,E"), ("\nB,C,", "\nB,X,")]), (51, vec![11, 12]));
    assert_eq!(edited(&[("\nC,D", "\nX,D"), ("\nE,7", "\nD,7"), ("\nS,7", "\nT,7")]), (51, vec![2, 5, 9]));
    // The source's voltages, and voltages on C, which no node has.
    let absent = |node: &str| format!("\n{node},720000,0,-360000,-623538,0,");
    let with_c = |node: &str| (absent(node) + "0\n", absent(node) + "1\n");
    let (of_d, of_e) = (with_c("D"), with_c("E"));
    assert_eq!(edited(&[(&of_e.0, &of_e.1), (&of_d.0, &of_d.1)]), (52, vec![3, 5]));
    assert_eq!(edited(&[(&of_e.0, &of_e.1), ("\nS,720000", "\nS,720001")]), (52, vec![2, 5]));
    // Currents, on a phase that the branch has and on one that it lacks.
    assert_eq!(edited(&[("\nS,B,0", "\nS,B,1"), ("\nB,C,0,0,0,0,0", "\nB,C,0,0,0,0,-1")]), (53, vec![10, 12]));
    // The lowest number comes first, also where a higher one stands in an earlier line.
    assert_eq!(edited(&[("\nS,720000", "\nS,720001"), ("\nB,C,", "\nB,X,")]), (51, vec![12]));
    assert_eq!(edited(&[("\nD,720000", "\nD,720009"), ("\nB,C,0", "\nB,C,1")]), (53, vec![12]));
}
