//! Request S-1, delta loads, by numbers worked by hand.

mod common;

use common::{feeder, flow, studied};
use twin::account::{account_of, Account};
use twin::{check, Answer};

/// A stands at (300000, 0), B at (−300000, 0), C at 0.
const OPPOSITE: &str = "300000,0,-300000,0,0,0";

/// Two lines of 1 Ω to N, on A and B: 600 VA at 6000 V between them take 100 mA, and each drops 10 cV.
/// V0 has the difference 600000 and V(1) 599980; 60,000,000·599980/600000² is 99.997, so I stays at 100 and V(2) is V(1).
/// Loss: 10·100 + (−10)·(−100). Drawn: 599980·100. Source: 300000·100 + (−300000)·(−100).
fn example(tol: i64) -> (Vec<u8>, String) {
    let feeder = feeder(
        &format!("{OPPOSITE},{tol},20"),
        &["S,N,AB,L,1000000,0,0,0,0,0,1000000,0,0,0,0,0"],
        &["N,AB,Z,600000,600,0"],
    );
    let report = "\
node,va_re,va_im,vb_re,vb_im,vc_re,vc_im
S,300000,0,-300000,0,0,0
N,299990,0,-299990,0,0,0

from,to,ia_re,ia_im,ib_re,ib_im,ic_re,ic_im,loss_p,loss_q
S,N,100,0,-100,0,0,0,2000,0

sweeps,source_p,source_q,drawn_p,drawn_q,lost_p,lost_q
2,60000000,0,59998000,0,2000,0

to,tap_a,tap_b,tap_c
";
    (feeder, report.to_string())
}

#[test]
fn a_load_between_two_lines() {
    for tol in [0, 1, 9] {
        let (feeder, report) = example(tol);
        assert_eq!(studied(&feeder).as_ref(), Ok(&report));
        assert_eq!(check(&feeder, report.as_bytes()), Answer::Pass);
    }
    // V(1) is 10 away from V0: with tol 10 that is no move, and V0 is reported.
    let (feeder, _) = example(10);
    let report = studied(&feeder).unwrap();
    assert!(report.contains("\nN,300000,0,-300000,0,0,0\n") && report.contains("\n1,60000000,0,60000000,0,2000,0\n"));
}

#[test]
fn the_check_of_it() {
    let edited = |from: &str, to: &str| {
        let (feeder, report) = example(1);
        assert!(report.contains(from));
        match check(&feeder, report.replacen(from, to, 1).as_bytes()) {
            Answer::Refused { number, value } => (number, value),
            _ => (0, 0),
        }
    };
    // The current counts into both phases, with the sign changed into the second.
    assert_eq!(edited("100,0,-100,0", "100,0,100,0"), (53, 6));
    assert_eq!(edited("100,0,-100,0", "100,0,0,0"), (53, 6));
    assert_eq!(edited("100,0,-100,0", "-100,0,100,0"), (53, 6));
    // Drawn by the first phase's voltage alone is 299990·100.
    assert_eq!(edited("59998000", "29999000"), (55, 0));
    // A difference of 0 takes 0 in a Z row, and by request S-3 in a P row, so that the current differs; in an I row it is 30.
    assert_eq!(edited("299990,0,-299990,0", "299990,0,299990,0"), (53, 6));
    for (kind, number, value) in [("P", 53, 6), ("I", 30, 0)] {
        let (feeder, report) = example(1);
        let feeder = String::from_utf8(feeder).unwrap().replace("AB,Z", &format!("AB,{kind}"));
        let report = report.replace("299990,0,-299990,0", "299990,0,299990,0");
        assert_eq!(check(feeder.as_bytes(), report.as_bytes()), Answer::Refused { number, value });
    }
    // Phase C is absent at N.
    assert_eq!(edited("-299990,0,0,0", "-299990,0,1,0"), (52, 3));
    // Both phases off by tol, each its own way: the difference is 599982, still 100 mA, drawn 59,998,200.
    let (near, drawn) = ("N,299991,0,-299991,0", "59998200");
    let (feeder, report) = example(1);
    let report = report.replace("N,299990,0,-299990,0", near);
    assert_eq!(check(&feeder, report.as_bytes()), Answer::Refused { number: 55, value: 0 });
    assert_eq!(check(&feeder, report.replace("59998000", drawn).as_bytes()), Answer::Pass);
    // One more on B is 54.
    let report = report.replace("59998000", "59998300").replace("-299991", "-299992");
    assert_eq!(check(&feeder, report.as_bytes()), Answer::Refused { number: 54, value: 3 });
}

#[test]
fn the_account_of_it() {
    // Rating: rnd(60,000,000·599980²/600000²) = 59,996,000; exact losses 2·100²/10 = 2000; the sum is 59,998,000 and the
    // source gives 60,000,000. Allowed: 4·tol·100 + 599980 + 1 for the load and 1 + 200 for the line.
    for (tol, allowance) in [(0, 600_182), (1, 600_582), (9, 603_782)] {
        let (feeder, report) = example(tol);
        let account = account_of(&feeder, report.as_bytes()).unwrap();
        assert_eq!(account, Account { twice_p: 4_000, twice_q: 0, allowance });
        assert!(account.holds());
    }
    // Off by tol as above: the rating is rnd(359,978,400,324/6000) = 59,996,400, and |V| is 599982.
    let (feeder, report) = example(1);
    let report = report.replace("N,299990,0,-299990,0", "N,299991,0,-299991,0").replace("59998000", "59998200");
    let account = account_of(&feeder, report.as_bytes()).unwrap();
    assert_eq!(account, Account { twice_p: 3_200, twice_q: 0, allowance: 600_584 });
}

#[test]
fn each_pair_counts_into_its_two_phases() {
    let is = |loads: &[&str], branch: &str, totals: &str| {
        let (b, t) = flow(OPPOSITE, loads).unwrap();
        assert_eq!((b.as_str(), t.as_str()), (branch, totals));
    };
    // AB is at 600000 and takes 100. BC is at −300000 and CA too; by 300 VA at 300000 cV they take −100.
    let (ab, bc, ca) = ("N,AB,Z,600000,600,0", "N,BC,Z,300000,300,0", "N,CA,Z,300000,300,0");
    is(&[ab], "S,N,100,0,-100,0,0,0,0,0", "1,60000000,0,60000000,0,0,0");
    is(&[bc], "S,N,0,0,-100,0,100,0,0,0", "1,30000000,0,30000000,0,0,0");
    is(&[ca], "S,N,100,0,0,0,-100,0,0,0", "1,30000000,0,30000000,0,0,0");
    is(&[ca, ab, bc], "S,N,200,0,-200,0,0,0,0,0", "1,120000000,0,120000000,0,0,0");
    // With a row on a phase of the same node: A at 300000 takes 100 too.
    is(&[ab, "N,A,Z,300000,300,0"], "S,N,200,0,-100,0,0,0,0,0", "1,90000000,0,90000000,0,0,0");
    // Two rows of opposite power cancel.
    is(&[ab, "N,AB,Z,600000,-600,0"], "S,N,0,0,0,0,0,0,0,0", "1,0,0,0,0,0,0");
    // 100.5 goes to 101, and so does its opposite in B: the sign changes behind the rounding.
    is(&["N,AB,Z,600000,603,0"], "S,N,101,0,-101,0,0,0,0,0", "1,60600000,0,60600000,0,0,0");
    // On the source: counted there alone.
    is(&["S,AB,Z,600000,600,0"], "S,N,0,0,0,0,0,0,0,0", "1,60000000,0,60000000,0,0,0");
}

#[test]
fn weights_go_by_the_difference() {
    // A − B is (300000, 400000), of which the root is 500000: 01's load of kind I takes (12, 16) there, and V·conj(I) is
    // 3,600,000 + 6,400,000 and 0.
    let voltages = "200000,100000,-100000,-300000,5,7";
    let (branch, totals) = flow(voltages, &["N,AB,I,500000,100,0"]).unwrap();
    assert_eq!(branch, "S,N,12,16,-12,-16,0,0,0,0");
    assert_eq!(totals, "1,10000000,0,10000000,0,0,0");
    // P by 250,000,000,000: 10,000,000·(300000, 400000) over it is (12, 16) as well.
    let (branch, totals) = flow(voltages, &["N,AB,P,1,100,0"]).unwrap();
    assert_eq!(branch, "S,N,12,16,-12,-16,0,0,0,0");
    assert_eq!(totals, "1,10000000,0,10000000,0,0,0");
    // Reactive: conj(j·10,000,000)·(300000, 400000) is 10,000,000·(400000, −300000), by vn² (16, −12).
    let (branch, totals) = flow(voltages, &["N,AB,Z,500000,0,100"]).unwrap();
    assert_eq!(branch, "S,N,16,-12,-16,12,0,0,0,0");
    assert_eq!(totals, "1,0,10000000,0,10000000,0,0");
}

#[test]
fn equal_phases_are_zero_voltage() {
    for (voltages, word) in [("5,7,5,7,0,0", "AB"), ("0,0,5,7,5,7", "BC"), ("5,7,0,0,5,7", "CA"), ("0,0,0,0,0,1", "AB")]
    {
        for node in ["N", "S"] {
            assert_eq!(flow(voltages, &[&format!("{node},{word},I,1,0,0")]), Err((30, 1)));
            // A P row counts as an impedance there (request S-3), and takes 0 as a Z row does.
            for kind in ["P", "Z"] {
                let (branch, totals) = flow(voltages, &[&format!("{node},{word},{kind},1,3000000,3000000")]).unwrap();
                assert_eq!((branch.as_str(), totals.as_str()), ("S,N,0,0,0,0,0,0,0,0", "1,0,0,0,0,0,0"));
            }
        }
    }
    // One of the two phases at 0 is no zero voltage.
    assert!(flow("5,7,0,0,0,0", &["N,AB,P,1,0,0", "N,CA,I,1,0,0"]).is_ok());
    assert_eq!(flow("5,7,0,0,0,0", &["N,BC,I,1,0,0"]), Err((30, 1)));
    // 30 of a later row comes before 31.
    assert_eq!(flow("2000000,0,0,0,0,0", &["N,AB,Z,1,3000000,0", "N,BC,I,1,0,0"]), Err((30, 1)));
}

#[test]
fn the_row_s_own_current_is_limited() {
    // 300 VA: 30,000,000·600000/3000² is 2,000,000; 301 VA take 2,006,667.
    let (at, past) = ("AB,Z,3000,300,0", "AB,Z,3000,301,0");
    for (load, due) in
        [(at, "S,N,2000000,0,-2000000,0,0,0,0,0"), ("AB,Z,3000,-300,0", "S,N,-2000000,0,2000000,0,0,0,0,0")]
    {
        assert_eq!(flow(OPPOSITE, &[&format!("N,{load}")]).unwrap().0, due);
    }
    assert_eq!(flow(OPPOSITE, &[&format!("N,{past}")]), Err((31, 1)));
    // 31 also where another row would bring the sums back within the limit.
    assert_eq!(flow(OPPOSITE, &[&format!("N,{past}"), "N,AB,Z,3000,-301,0"]), Err((31, 1)));
    // Two good rows make 4,000,000 in a line, which is 32; on the source they meet no limit.
    assert_eq!(flow(OPPOSITE, &[&format!("N,{at}"), &format!("N,{at}")]), Err((32, 1)));
    let (_, totals) = flow(OPPOSITE, &[&format!("S,{at}"), &format!("S,{at}")]).unwrap();
    assert_eq!(totals, "1,2400000000000,0,2400000000000,0,0,0");
    // CA is at −300000, and 600 VA at 3000 cV take −2,000,000 there: with AB's, A has 4,000,000.
    assert_eq!(flow(OPPOSITE, &[&format!("N,{at}"), "N,CA,Z,3000,600,0"]), Err((32, 1)));
    // The opposite one leaves A with 0, B with −2,000,000 and C with 2,000,000.
    let (branch, _) = flow(OPPOSITE, &[&format!("N,{at}"), "N,CA,Z,3000,-600,0"]).unwrap();
    assert_eq!(branch, "S,N,0,0,-2000000,0,2000000,0,0,0");
}

#[test]
fn the_largest_numbers() {
    // The difference is (4,000,000, 4,000,000); conj(S)·V has 2·3·10^11·4·10^6 = 2.4·10^18 in re (q = p) or im (q = −p).
    let voltages = "2000000,2000000,-2000000,-2000000,0,0";
    let current = |kind: &str, p: &str| flow(voltages, &[&format!("N,AB,{kind},4000000,{p}")]).unwrap().0;
    // Z: by vn² = 1.6·10^13. P: by 3.2·10^13. I: by 5656854·4,000,000, which is 106066.02.
    assert_eq!(current("Z", "3000000,3000000"), "S,N,150000,0,-150000,0,0,0,0,0");
    assert_eq!(current("Z", "3000000,-3000000"), "S,N,0,150000,0,-150000,0,0,0,0");
    assert_eq!(current("P", "3000000,3000000"), "S,N,75000,0,-75000,0,0,0,0,0");
    assert_eq!(current("I", "-3000000,-3000000"), "S,N,-106066,0,106066,0,0,0,0,0");
    // V·conj(I) is (4,000,000 + 4,000,000j)·150000.
    let (_, totals) = flow(voltages, &["N,AB,Z,4000000,3000000,3000000"]).unwrap();
    assert_eq!(totals, "1,600000000000,600000000000,600000000000,600000000000,0,0");
    // 2.4·10^18 mA each: four of them would leave 64 bits.
    assert_eq!(flow(voltages, &["N,AB,Z,1,3000000,3000000"; 20]), Err((31, 1)));
}

#[test]
fn two_phase_nodes() {
    // A regulator raises A alone by 160/144 and 270000 becomes 300000: A − B is 600000 at N and takes 100.
    // It takes rnd(160·100/144) = 111 on A.
    let rows = ["S,M,AB,L,0,0,0,0,0,0,0,0,0,0,0,0", "M,N,AB,R,16,0,0,0,0,0,0,0,0,0,0,0"];
    let feeder = feeder("270000,0,-300000,0,9,9,0,20", &rows, &["N,AB,Z,600000,600,0"]);
    let report = studied(&feeder).unwrap();
    let lines: Vec<&str> = report.lines().collect();
    assert_eq!(lines[2..4], ["M,270000,0,-300000,0,0,0", "N,300000,0,-300000,0,0,0"]);
    assert_eq!(lines[6..8], ["S,M,111,0,-100,0,0,0,0,0", "M,N,100,0,-100,0,0,0,0,0"]);
    // Source: 270000·111 + 300000·100; drawn: 600000·100.
    assert_eq!(lines[10], "1,59970000,0,60000000,0,0,0");
    assert_eq!(lines[12..], ["to,tap_a,tap_b,tap_c", "N,16,0,0"]);
}
