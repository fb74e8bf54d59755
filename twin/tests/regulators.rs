//! Request S-5, regulators that set their taps, by numbers worked by hand.

mod common;

use common::{feeder, studied};
use twin::account::{account_of, Account};
use twin::faults::lines_with;
use twin::{check, Answer};

fn refused(number: u32, value: u64) -> Answer {
    Answer::Refused { number, value }
}

/// A regulator from S to N on A alone, fed at 720000 with tol 1, its row from p1 on as given, and these loads.
fn one(p: &str, loads: &[&str]) -> Vec<u8> {
    feeder("720000,0,0,0,0,0,1,20", &[&format!("S,N,A,R,{p}")], loads)
}

/// Its report without loads, with N at this voltage and this tap.
fn report_of(volts: i64, tap: i64) -> String {
    format!(
        "node,va_re,va_im,vb_re,vb_im,vc_re,vc_im\nS,720000,0,0,0,0,0\nN,{volts},0,0,0,0,0\n\n\
         from,to,ia_re,ia_im,ib_re,ib_im,ic_re,ic_im,loss_p,loss_q\nS,N,0,0,0,0,0,0,0,0\n\n\
         sweeps,source_p,source_q,drawn_p,drawn_q,lost_p,lost_q\n1,0,0,0,0,0,0\n\n\
         to,tap_a,tap_b,tap_c\nN,{tap},0,0\n"
    )
}

/// 720000 at these taps: 115,200,000/(160 − tap), and what a potential ratio of 60 leaves of it.
const TAPS: [(i64, i64, i64); 9] = [
    (-2, 711_111, 11_852),
    (-1, 715_528, 11_925),
    (0, 720_000, 12_000),
    (1, 724_528, 12_075),
    (2, 729_114, 12_152),
    (3, 733_758, 12_229),
    (4, 738_462, 12_308),
    (5, 743_226, 12_387),
    (6, 748_052, 12_468),
];

/// The lines of the study's last table.
fn taps(feeder: &[u8]) -> Result<Vec<String>, (u32, u64)> {
    let report = studied(feeder)?;
    Ok(report.lines().skip_while(|line| *line != "to,tap_a,tap_b,tap_c").skip(1).map(str::to_string).collect())
}

#[test]
fn one_step_in_a_round() {
    // 2·12300 ∓ 200 are 24400 and 24800: up below 12200, down above 12400. Three rounds move the tap, the fourth does not.
    let p = |tap: i64| format!("{tap},0,0,12300,200,60,1,0,0,0,0,0");
    assert_eq!(studied(&one(&p(0), &[])), Ok(report_of(733_758, 3)));
    // From above it stops at the first that is not above 12400.
    assert_eq!(studied(&one(&p(9), &[])), Ok(report_of(743_226, 5)));
    assert_eq!(studied(&one(&p(4), &[])), Ok(report_of(738_462, 4)));
    // Each of these taps passes, whatever the feeder's own tap is; no other does.
    for (tap, volts, relay) in TAPS {
        let due = if (12_200..=12_400).contains(&relay) { Answer::Pass } else { refused(56, 12) };
        for own in [0, 9, -16] {
            assert_eq!(check(&one(&p(own), &[]), report_of(volts, tap).as_bytes()), due, "{tap}");
        }
    }
}

#[test]
fn the_edges_of_the_band() {
    // The relay has 12000 at tap 0. It stays at the edges themselves, and moves beyond them.
    for (level, band, row) in [
        (12_100, 200, "N,0,0,0"),
        (12_100, 199, "N,1,0,0"),
        (11_900, 200, "N,0,0,0"),
        (11_900, 199, "N,-1,0,0"),
        (12_000, 0, "N,0,0,0"),
        // Below a negative bracket nothing is wanted: 2·9000 − 18001 is −1, and 2·5000 − 20000 is −10000.
        (9_000, 18_001, "N,0,0,0"),
        (5_000, 20_000, "N,0,0,0"),
    ] {
        let feeder = one(&format!("0,0,0,{level},{band},60,1,0,0,0,0,0"), &[]);
        assert_eq!(taps(&feeder), Ok(vec![row.to_string()]), "{level} {band}");
    }
    // Between tap 0 and tap 1 there is no other: without a band the tap goes to and fro.
    for level in [12_001, 12_040, 12_074] {
        assert_eq!(taps(&one(&format!("0,0,0,{level},0,60,1,0,0,0,0,0"), &[])), Err((35, 32)), "{level}");
    }
    // 35 comes before 40.
    let feeder = one("0,0,0,12040,0,60,1,0,0,0,0,0", &[]);
    assert_eq!(twin::study(&feeder, &mut []), refused(35, 32));
}

#[test]
fn the_ends() {
    let up = |tap: i64| one(&format!("{tap},0,0,20000,0,60,1,0,0,0,0,0"), &[]);
    let down = |tap: i64| one(&format!("{tap},0,0,1,0,60,1,0,0,0,0,0"), &[]);
    // 31 moves are made in 32 rounds, and 32 are not; at the end nothing can move.
    for tap in [-15, -1, 0, 15, 16] {
        assert_eq!(taps(&up(tap)), Ok(vec!["N,16,0,0".to_string()]), "{tap}");
        assert_eq!(taps(&down(-tap)), Ok(vec!["N,-16,0,0".to_string()]), "{tap}");
    }
    assert_eq!(taps(&up(-16)), Err((35, 32)));
    assert_eq!(taps(&down(16)), Err((35, 32)));
    // 115,200,000/144, by 145, by 176 and by 175.
    assert_eq!(check(&up(0), report_of(800_000, 16).as_bytes()), Answer::Pass);
    assert_eq!(check(&up(0), report_of(794_483, 15).as_bytes()), refused(56, 12));
    assert_eq!(check(&down(0), report_of(654_545, -16).as_bytes()), Answer::Pass);
    assert_eq!(check(&down(0), report_of(658_286, -15).as_bytes()), refused(56, 12));
    // At zero voltage up is wanted, and the tap changes nothing.
    let dead = feeder("0,0,0,0,0,0,1,20", &["S,N,A,R,15,0,0,1,1,1,1,0,0,0,0,0"], &[]);
    assert_eq!(taps(&dead), Ok(vec!["N,16,0,0".to_string()]));
}

#[test]
fn all_move_at_once() {
    // M wants 12200 to 12400 and N 12100 to 12500. In the second round M is at tap 1 and 724528, and N at tap 1 and 729085, which
    // is 12151 and stays. In the fourth M is at tap 3 and 733758, and N at 738373. If M moved first, N would stay at tap 0.
    let rows = ["M,N,A,R,0,0,0,12300,400,60,1,0,0,0,0,0", "S,M,A,R,0,0,0,12300,200,60,1,0,0,0,0,0"];
    let feeder = feeder("720000,0,0,0,0,0,1,20", &rows, &[]);
    let report = studied(&feeder).unwrap();
    assert!(report.contains("\nN,738373,0,0,0,0,0\nM,733758,0,0,0,0,0\n"), "{report}");
    assert_eq!(taps(&feeder).unwrap(), ["N,1,0,0", "M,3,0,0"]);
    // With N at tap 0 it has 733758, 12229, and rests too.
    let report = report.replace("N,738373", "N,733758").replace("N,1,0,0", "N,0,0,0");
    assert_eq!(check(&feeder, report.as_bytes()), Answer::Pass);
}

#[test]
fn each_phase_for_itself() {
    // A has 12000, B 12500 and C 12600 by a ratio of 60: up below 12200, down above 12400. B has 12422 at tap −1 and 12346 at
    // −2; C 12522, 12444 and, at tap −3, 12368.
    let source = "720000,0,0,-750000,-756000,0,1,20";
    let regulator = |phases: &str, taps: &str| {
        let row = format!("S,N,{phases},R,{taps},12300,200,60,1,0,0,0,0,0");
        feeder(source, &[&row], &[])
    };
    assert_eq!(taps(&regulator("ABC", "0,0,0")).unwrap(), ["N,3,-2,-3"]);
    assert_eq!(taps(&regulator("BC", "0,0,0")).unwrap(), ["N,0,-2,-3"]);
    assert_eq!(taps(&regulator("B", "0,5,0")).unwrap(), ["N,0,-2,0"]);
    // One phase goes on while another is at its end.
    let high = feeder(source, &["S,N,AC,R,16,0,-16,20000,0,60,1,0,0,0,0,0"], &[]);
    assert_eq!(taps(&high), Err((35, 32)));
    let high = feeder(source, &["S,N,AC,R,16,0,-15,20000,0,60,1,0,0,0,0,0"], &[]);
    assert_eq!(taps(&high).unwrap(), ["N,16,0,16"]);
}

#[test]
fn the_compensator() {
    // 72,000 VA of impedance with vn 720000 take 10000 mA at tap 0: 10 Ω by a ratio of 100 make 100 cV, and 12000 − 100 is
    // 11900, the edge. 10.1 Ω make 101, so that the tap moves: 10063 mA at 724528, 102 (101.6) of 12075 (12075.47).
    let load = ["N,A,Z,720000,72000,0"];
    let with = |z: &str| one(&format!("0,0,0,12000,200,60,100,{z},0,0,0"), &load);
    assert_eq!(taps(&with("10000000,0")).unwrap(), ["N,0,0,0"]);
    let feeder = with("10100000,0");
    // It takes 10126 (10126.3) from the source: 720000·10126. Drawn is 724528·10063.
    let report = studied(&feeder).unwrap();
    assert!(report.contains("\nN,724528,0,0,0,0,0\n") && report.contains("\nS,N,10063,0,0,0,0,0,0,0\n"), "{report}");
    assert!(report.ends_with("\n1,7290720000,0,7290925264,0,0,0\n\nto,tap_a,tap_b,tap_c\nN,1,0,0\n"), "{report}");
    // The account: the rating is 724528²/72 = 7,290,844,760.9. Allowed with tol 1: 2·10063 + 724528 + 1 for the load and
    // 720000 + 2 + 10063 for the regulator.
    let account = account_of(&feeder, report.as_bytes()).unwrap();
    assert_eq!(account, Account { twice_p: 2 * 124_761, twice_q: 0, allowance: 1_474_720 });
    // The other way round: R below 0 raises what is measured, 12101 of 12000 is above the edge.
    assert_eq!(taps(&with("-10000000,0")).unwrap(), ["N,0,0,0"]);
    assert_eq!(taps(&with("-10100000,0")).unwrap(), ["N,-1,0,0"]);
    // X turns the drop: (12000, −100) is longer than 12000, and by less than 1.
    let turned = |level: i64, x: &str| one(&format!("0,0,0,{level},0,60,100,0,{x},0,0,0"), &load);
    assert_eq!(taps(&turned(12_000, "0")).unwrap(), ["N,0,0,0"]);
    assert_eq!(taps(&turned(12_000, "10000000")), Err((35, 32)));
    assert_eq!(taps(&turned(12_000, "-10000000")), Err((35, 32)));
}

#[test]
fn refusals_of_a_later_round() {
    // At tap 1 1990000 becomes 2002516, which is 33 before the first sweep of the second round.
    let row = "S,N,A,R,0,0,0,20000,0,150,1,0,0,0,0,0";
    assert_eq!(studied(&feeder("1990000,0,0,0,0,0,1,20", &[row], &[])), Err((33, 0)));
    // 143,640 VA at 72000 cV take 1,995,000 mA at tap 0 and 2,007,546 at tap 1.
    let row = "0,0,0,20000,0,60,1,0,0,0,0,0";
    assert_eq!(studied(&one(row, &["N,A,Z,72000,143640,0"])), Err((31, 1)));
    // 143,000 VA take 1,998,602 at tap 1, and the regulator 2,011,172.
    assert_eq!(studied(&one(row, &["N,A,Z,72000,143000,0"])), Err((32, 1)));
}

#[test]
fn sweeps_are_those_of_the_last_round() {
    // 72,000 VA of constant power behind 10 Ω, where each mA drops 1 cV, and tol 120. At tap 0: 10000 lead to 710000, 10141 to
    // 709859, which is 141 on, and 10143 to 709857, in the third sweep. At tap 16: 9000 lead from 800000 to 791000, and 9102
    // to 790898, which is 102 on, in the second.
    let rows = |level: i64| {
        let regulator = format!("S,N,A,R,0,0,0,{level},200,60,1,0,0,0,0,0");
        let line = "N,E,A,L,10000000,0,0,0,0,0,0,0,0,0,0,0";
        studied(&feeder("720000,0,0,0,0,0,120,20", &[&regulator, line], &["E,A,P,720000,72000,0"])).unwrap()
    };
    let (first, last) = (rows(12_000), rows(20_000));
    assert!(
        first.contains("\nE,709859,0,0,0,0,0\n") && first.contains("\n3,") && first.ends_with("\nN,0,0,0\n"),
        "{first}"
    );
    assert!(
        last.contains("\nE,791000,0,0,0,0,0\n") && last.contains("\n2,") && last.ends_with("\nN,16,0,0\n"),
        "{last}"
    );
}

#[test]
fn a_report_where_the_first_round_is_refused() {
    // 143,000 VA at 72000 cV take 1,986,111 mA at tap 0. At the feeder's own tap, 16, they are beyond the limit, and so would be
    // what the regulator takes of 1,986,111 mA. The check goes by the reported tap.
    let feeder = one("16,0,0,12000,200,60,1,0,0,0,0,0", &["N,A,Z,72000,143000,0"]);
    assert_eq!(studied(&feeder), Err((31, 1)));
    let report = report_of(720_000, 0)
        .replace("\nS,N,0,0", "\nS,N,1986111,0")
        .replace("\n1,0,0,0,0,", "\n1,1429999920000,0,1429999920000,0,");
    assert_eq!(check(&feeder, report.as_bytes()), Answer::Pass);
    // With tap 16 in the table the regulator takes 2,206,790.
    assert_eq!(check(&feeder, report.replace("\nN,0,0,0\n", "\nN,16,0,0\n").as_bytes()), refused(32, 0));
}

/// Two regulators from S on A and on AC, the first with fixed taps and the second with a relay, and a line that stands between
/// their rows.
fn two() -> Vec<u8> {
    let rows = [
        "S,N1,A,R,2,0,0,0,0,0,0,0,0,0,0,0",
        "S,N2,ABC,L,0,0,0,0,0,0,0,0,0,0,0,0",
        "S,N3,AC,R,0,0,0,12300,200,60,1,0,0,0,0,0",
    ];
    feeder("720000,0,0,0,-720000,0,1,20", &rows, &[])
}

/// Its report, with N1 and N3's two phases at these taps and what goes with them.
fn report_of_two(n1: i64, n3: (i64, i64)) -> String {
    let volts = |tap: i64| TAPS.iter().find(|row| row.0 == tap).expect("one of the taps").1;
    let report = studied(&two()).unwrap();
    report
        .replace("\nN1,729114", &format!("\nN1,{}", volts(n1)))
        .replace("\nN3,733758,0,0,0,-733758", &format!("\nN3,{},0,0,0,-{}", volts(n3.0), volts(n3.1)))
        .replace("\nN1,2,0,0\nN3,3,0,3\n", &format!("\nN1,{n1},0,0\nN3,{},0,{}\n", n3.0, n3.1))
}

/// The check's answer, and all lines with that fault where there are some.
fn answered(report: &str) -> (Answer, Vec<u64>) {
    let answer = check(&two(), report.as_bytes());
    let Answer::Refused { number, value } = answer else { return (answer, Vec::new()) };
    let lines = lines_with(number, &two(), report.as_bytes()).unwrap_or_default();
    assert!(lines.is_empty() || lines[0] == value, "{lines:?}");
    (answer, lines)
}

#[test]
fn taps_that_are_not_at_rest() {
    // Node rows in lines 2 to 5, branch rows in 8 to 10, the totals in 13, the taps in 16 and 17.
    assert_eq!(answered(&report_of_two(2, (3, 3))).0, Answer::Pass);
    assert_eq!(answered(&report_of_two(2, (4, 5))).0, Answer::Pass);
    assert_eq!(answered(&report_of_two(2, (3, 6))), (refused(56, 17), vec![17]));
    assert_eq!(answered(&report_of_two(2, (2, 3))), (refused(56, 17), vec![17]));
    // Fixed taps must be the feeder's.
    assert_eq!(answered(&report_of_two(1, (3, 3))), (refused(56, 16), vec![16]));
    assert_eq!(answered(&report_of_two(1, (3, 2))), (refused(56, 16), vec![16, 17]));
    // A tap without the voltage that goes with it is 54; 55 comes before 56.
    assert_eq!(answered(&report_of_two(2, (3, 3)).replace("N1,2,", "N1,1,")).0, refused(54, 3));
    assert_eq!(answered(&report_of_two(1, (3, 3)).replace("\n1,0,", "\n1,1,")).0, refused(55, 0));
}

#[test]
fn the_table_of_taps() {
    let report = report_of_two(2, (3, 3));
    let edited = |from: &str, to: &str| {
        assert!(report.contains(from), "{from}");
        answered(&report.replacen(from, to, 1))
    };
    let is_50 = |from: &str, to: &str| assert_eq!(edited(from, to).0, refused(50, 0), "{from:?} {to:?}");
    // Taps beyond ±16, on absent phases, and what is no number.
    for tap in ["17", "-17", "999999999999999999", "-0", "03", "", "A"] {
        is_50("N1,2,0,0", &format!("N1,{tap},0,0"));
        is_50("N3,3,0,3", &format!("N3,3,0,{tap}"));
    }
    for tap in ["1", "-1", "16", "17"] {
        is_50("N1,2,0,0", &format!("N1,2,{tap},0"));
        is_50("N3,3,0,3", &format!("N3,3,{tap},3"));
    }
    // Rows missing, added or of another length, a table that ends early or late, other names of columns.
    is_50("N1,2,0,0\n", "");
    is_50("N3,3,0,3\n", "");
    is_50("N3,3,0,3\n", "N3,3,0,3\nN3,3,0,3\n");
    is_50("N3,3,0,3\n", "N3,3,0,3\n\n");
    is_50("N3,3,0,3\n", "N3,3,0,3");
    is_50("N3,3,0,3\n", "N3,3,0\n");
    is_50("N3,3,0,3\n", "N3,3,0,3,0\n");
    is_50("\nto,tap_a", "to,tap_a");
    is_50("tap_c\n", "tap_c,\n");
    is_50("to,tap_a,tap_b,tap_c\n", "");
    is_50("N1,2,0,0\nN3,3,0,3\n", "");
    // A row belongs to the regulator at its place: exchanged, N3's has a tap on a phase that N1's place lacks.
    is_50("N1,2,0,0\nN3,3,0,3\n", "N3,3,0,3\nN1,2,0,0\n");
    is_50("N1,2,0,0", "n1,2,0,0");
    // Names alone are 51, in this table too; the line is the first of all tables.
    assert_eq!(edited("N1,2,0,0", "N3,2,0,0"), (refused(51, 16), vec![16]));
    assert_eq!(edited("N1,2,0,0\nN3,3,0,3\n", "N2,2,0,0\nX,3,0,3\n"), (refused(51, 16), vec![16, 17]));
    let report = report.replace("N3,3,0,3", "N1,3,0,3");
    assert_eq!(answered(&report), (refused(51, 17), vec![17]));
    assert_eq!(answered(&report.replace("\nS,N2,", "\nS,X,")), (refused(51, 9), vec![9, 17]));
    // 51 of this table comes before 52 of the first.
    assert_eq!(answered(&report.replace("\nS,720000", "\nS,720001")), (refused(51, 17), vec![17]));
}

#[test]
fn reports_without_the_table() {
    let cut = |report: &str| report[..report.find("\nto,tap_a").unwrap()].to_string();
    // N3 has a level.
    assert_eq!(check(&two(), cut(&report_of_two(2, (3, 3))).as_bytes()), refused(50, 0));
    // With fixed taps the feeder's are taken.
    let fixed = one("2,0,0,0,0,0,0,0,0,0,0,0", &[]);
    assert_eq!(studied(&fixed), Ok(report_of(729_114, 2)));
    assert_eq!(check(&fixed, report_of(729_114, 2).as_bytes()), Answer::Pass);
    assert_eq!(check(&fixed, cut(&report_of(729_114, 2)).as_bytes()), Answer::Pass);
    // Other taps: with the table 56, without it 54.
    assert_eq!(check(&fixed, report_of(733_758, 3).as_bytes()), refused(56, 12));
    assert_eq!(check(&fixed, cut(&report_of(733_758, 3)).as_bytes()), refused(54, 3));
    assert_eq!(check(&fixed, (cut(&report_of(729_114, 2)) + "\n").as_bytes()), refused(50, 0));
}

#[test]
fn the_relay_goes_by_what_is_reported() {
    // tol 100 and no band: 719970 by 60 is 11999.5, which is 12000; 719969 is 11999, and 720030 is 12001 (12000.5).
    let row = "S,N,A,R,0,0,0,12000,0,60,1,0,0,0,0,0";
    let feeder = feeder("720000,0,0,0,0,0,100,20", &[row], &[]);
    for (volts, due) in [
        (720_000, Answer::Pass),
        (719_970, Answer::Pass),
        (719_969, refused(56, 12)),
        (720_029, Answer::Pass),
        (720_030, refused(56, 12)),
        (720_101, refused(54, 3)),
    ] {
        assert_eq!(check(&feeder, report_of(volts, 0).as_bytes()), due, "{volts}");
    }
}

#[test]
fn limits_and_zeros() {
    // The number that a regulator row with these p4 to p12 is refused with, by both calls; 0 where it is none.
    let number = |p: &str| {
        let text = one(&format!("0,0,0,{p}"), &[]);
        let answer = check(&text, b"");
        match studied(&text) {
            Err((number @ ..=24, line)) => {
                assert_eq!((answer, line), (refused(number, 5), 5), "{p}");
                assert_eq!(lines_with(number, &text, b""), Some(vec![5]), "{p}");
                number
            }
            _ => {
                assert_eq!(answer, refused(50, 0), "{p}");
                0
            }
        }
    };
    // p4 to p9 at a level, one of them replaced.
    let with = |column: usize, value: &str| {
        let mut p: Vec<&str> = "12000,200,60,1,0,0,0,0,0".split(',').collect();
        p[column] = value;
        number(&p.join(","))
    };
    let ends: [(&[&str], &[&str]); 6] = [
        (&["1", "20000"], &["-1", "20001", "999999999999999999"]),
        (&["0", "20000"], &["-1", "20001"]),
        (&["1", "10000"], &["-1", "0", "10001"]),
        (&["1", "10000"], &["-1", "0", "10001"]),
        (&["100000000", "-100000000"], &["100000001", "-100000001"]),
        (&["100000000", "-100000000"], &["100000001", "-100000001"]),
    ];
    for (column, (good, bad)) in ends.iter().enumerate() {
        good.iter().for_each(|value| assert_eq!(with(column, value), 0, "p{} {value}", column + 4));
        bad.iter().for_each(|value| assert_eq!(with(column, value), 11, "p{} {value}", column + 4));
    }
    // Level 0 leaves the others no limit, and they must be 0; p10 to p12 must be so at any level.
    assert_eq!(with(0, "0"), 24);
    assert_eq!(number("0,0,0,0,0,0,0,0,0"), 0);
    for value in ["1", "-1", "20001", "999999999999999999", "-999999999999999999"] {
        for column in 1..9 {
            let mut p = ["0"; 9];
            p[column] = value;
            assert_eq!(number(&p.join(",")), 24, "p{} {value}", column + 4);
        }
        for column in 6..9 {
            assert_eq!(with(column, value), 24, "p{} {value}", column + 4);
        }
    }
    // A level below 0 is 11, whatever stands behind it.
    assert_eq!(number("-1,0,0,0,0,0,0,0,0"), 11);
    assert_eq!(number("-1,1,1,1,0,0,5,0,0"), 11);
}

#[test]
fn every_report_has_the_names() {
    assert_eq!(taps(&feeder("720000,0,0,0,0,0,1,20", &[], &[])).unwrap(), Vec::<String>::new());
    assert!(studied(&feeder("720000,0,0,0,0,0,1,20", &[], &[])).unwrap().ends_with("\n\nto,tap_a,tap_b,tap_c\n"));
}
