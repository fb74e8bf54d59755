//! Request S-3, constant power at low voltage, by numbers worked by hand.

mod common;

use common::{feeder, flow, studied};
use twin::account::{account_of, Account};
use twin::{check, Answer};

fn refused(number: u32, value: u64) -> Answer {
    Answer::Refused { number, value }
}

/// 72,000 VA of constant power with vn 720000 behind 10 Ω on A, where each mA drops 1 cV: below 504000 cV the load takes V/72
/// mA, else 7,200,000,000/V.
fn behind_ten_ohms(volts: i64, tol: i64) -> Vec<u8> {
    let line = "S,N,A,L,10000000,0,0,0,0,0,0,0,0,0,0,0";
    feeder(&format!("{volts},0,0,0,0,0,{tol},20"), &[line], &["N,A,P,720000,72000,0"])
}

/// A report of that feeder with N at this voltage and the line with this current. Loss: the drop, which is the current,
/// times the current.
fn report_of(volts: i64, at_n: i64, current: i64, sweeps: i64) -> String {
    let loss = current * current;
    let (source, drawn) = (volts * current, at_n * current);
    format!(
        "node,va_re,va_im,vb_re,vb_im,vc_re,vc_im\nS,{volts},0,0,0,0,0\nN,{at_n},0,0,0,0,0\n\n\
         from,to,ia_re,ia_im,ib_re,ib_im,ic_re,ic_im,loss_p,loss_q\nS,N,{current},0,0,0,0,0,{loss},0\n\n\
         sweeps,source_p,source_q,drawn_p,drawn_q,lost_p,lost_q\n{sweeps},{source},0,{drawn},0,{loss},0\n\n\
         to,tap_a,tap_b,tap_c\n"
    )
}

#[test]
fn each_sweep_picks_the_rule_anew() {
    // Above 70 per cent in every sweep: 720000 takes 10000, 710000 10141, 709859 10143, and 709857 again 10143.
    assert_eq!(studied(&behind_ten_ohms(720_000, 1)), Ok(report_of(720_000, 709_857, 10_143, 4)));
    // 510000 takes 14118 as constant power, which leads to 495882; there V/72 is 6887, which leads to 503113, then 6988 to
    // 503012, 6986 to 503014 and 6986 again, in the fifth sweep.
    let feeder = behind_ten_ohms(510_000, 1);
    assert_eq!(studied(&feeder), Ok(report_of(510_000, 503_014, 6_986, 5)));
    assert_eq!(check(&feeder, report_of(510_000, 503_014, 6_986, 5).as_bytes()), Answer::Pass);
    // What was reported before this rule: 495468 takes 14532 as constant power, which leads there. It meets 53 now.
    assert_eq!(check(&feeder, report_of(510_000, 495_468, 14_532, 5).as_bytes()), refused(53, 6));
}

#[test]
fn to_and_fro() {
    // 512000 takes 14063 (14062.5) and leads to 497937; 6916 lead to 505084; 14255 to 497745; 6913 to 505087; 14255 again.
    for tol in [0, 1, 1000] {
        assert_eq!(studied(&behind_ten_ohms(512_000, tol)), Err((34, 20)));
    }
    // At 511999 likewise: 14063, 497936, 6916, 505083, 14255, 497744, 6913, 505086, 14255.
    let feeder = behind_ten_ohms(511_999, 1000);
    assert_eq!(studied(&feeder), Err((34, 20)));
    // Yet a report passes where the worked voltage is off by tol: 503999 takes 7000 as an impedance, and 511999 − 7000 is
    // 504999. As constant power 504000 takes 14286, which leads to 497713.
    let report = report_of(511_999, 503_999, 7_000, 1);
    assert_eq!(check(&feeder, report.as_bytes()), Answer::Pass);
    assert_eq!(check(&feeder, report_of(511_999, 504_000, 7_000, 1).as_bytes()), refused(53, 6));
    assert_eq!(check(&feeder, report_of(511_999, 504_000, 14_286, 1).as_bytes()), refused(54, 3));
    assert_eq!(check(&feeder, report_of(511_999, 503_999, 14_286, 1).as_bytes()), refused(53, 6));
    assert_eq!(check(&behind_ten_ohms(511_999, 999), report.as_bytes()), refused(54, 3));
    // Its account: the rating is 503999²/72 = 3,527,986,000.01 and the exact loss 49,000,000, the source gives
    // 511999·7000 = 3,583,993,000. Allowed: 2·1000·7000 + 503999 + 1 for the load and 1 + 7000 for the line.
    let account = account_of(&feeder, report.as_bytes()).unwrap();
    assert_eq!(account, Account { twice_p: 2 * 7_007_000, twice_q: 0, allowance: 14_511_001 });
    assert!(account.holds());
}

#[test]
fn at_seventy_per_cent_and_below() {
    // 720 VA: 72,000,000/504000 is 142.86, and 503999/7200 is 69.9999.
    let voltages = "504000,0,0,503999,-504001,0";
    for (row, branch, totals) in [
        ("N,A,P,720000,720,0", "S,N,143,0,0,0,0,0,0,0", "1,72072000,0,72072000,0,0,0"),
        ("N,B,P,720000,720,0", "S,N,0,0,0,70,0,0,0,0", "1,35279930,0,35279930,0,0,0"),
        ("N,C,P,720000,720,0", "S,N,0,0,0,0,-143,0,0,0", "1,72072143,0,72072143,0,0,0"),
        // The other kinds go on as they were: S/vn is 100, and 504000/7200 is 70.
        ("N,B,I,720000,720,0", "S,N,0,0,0,100,0,0,0,0", "1,50399900,0,50399900,0,0,0"),
        ("N,A,Z,720000,720,0", "S,N,70,0,0,0,0,0,0,0", "1,35280000,0,35280000,0,0,0"),
        // On the source.
        ("S,B,P,720000,720,0", "S,N,0,0,0,0,0,0,0,0", "1,35279930,0,35279930,0,0,0"),
    ] {
        let (b, t) = flow(voltages, &[row]).unwrap();
        assert_eq!((b.as_str(), t.as_str()), (branch, totals), "{row}");
    }
}

#[test]
fn the_account_goes_by_the_rule() {
    // Ratings 72,000,000 and 35,279,860; the source gives 504000·143 and 503999·70. Allowed with tol 1: 2·|I| + |V| + 1 for
    // the load and 1 + |I| for the line.
    let line = "S,N,A,L,0,0,0,0,0,0,0,0,0,0,0,0";
    for (volts, difference, allowance) in [(504_000, 72_000, 504_431), (503_999, 70, 504_211)] {
        let feeder = feeder(&format!("{volts},0,0,0,0,0,1,20"), &[line], &["N,A,P,720000,720,0"]);
        let report = studied(&feeder).unwrap();
        let account = account_of(&feeder, report.as_bytes()).unwrap();
        assert_eq!(account, Account { twice_p: 2 * difference, twice_q: 0, allowance });
    }
}

#[test]
fn zero_voltage() {
    let zero = ("S,N,0,0,0,0,0,0,0,0".to_string(), "1,0,0,0,0,0,0".to_string());
    // The phases of a row, and voltages at which it has none.
    for (word, voltages) in [
        ("A", "0,0,5,7,5,8"),
        ("C", "5,7,5,8,0,0"),
        ("AB", "5,7,5,7,0,0"),
        ("BC", "5,7,0,0,0,0"),
        ("CA", "5,7,6,7,5,7"),
    ] {
        for node in ["S", "N"] {
            for vn in [1, 2_000_000] {
                let row = |kind: &str| format!("{node},{word},{kind},{vn},3000000,-3000000");
                assert_eq!(flow(voltages, &[&row("P")]), Ok(zero.clone()));
                assert_eq!(flow(voltages, &[&row("P"), &row("I")]), Err((30, 1)));
                assert_eq!(flow(voltages, &[&row("I"), &row("P")]), Err((30, 1)));
            }
        }
    }
    // 10,000 VA at 100 V take 100 A, which drop 100 V over 1 Ω: the second sweep is at 0 and takes nothing, the third is the
    // first again. An I row without power meets 30 in the second.
    let line = "S,N,A,L,1000000,0,0,0,0,0,0,0,0,0,0,0";
    let dropped = |rows: &[&str]| studied(&feeder("10000,0,0,0,0,0,1,20", &[line], rows));
    assert_eq!(dropped(&["N,A,P,10000,10000,0"]), Err((34, 20)));
    assert_eq!(dropped(&["N,A,P,10000,10000,0", "N,A,I,1,0,0"]), Err((30, 2)));
    // With 9999 VA 99990 mA lead to 1 cV, which takes 10 (9.999) as an impedance and leads to 9999; there 100000 lead to 0.
    assert_eq!(dropped(&["N,A,P,10000,9999,0", "N,A,I,1,0,0"]), Err((30, 4)));
}

#[test]
fn two_phases_go_by_their_difference() {
    // A − B is 504000, B − C 503999 and C − A −1007999: 720 VA take 143, 70 and −71 (71.43).
    let voltages = "252000,0,-252000,0,-755999,0";
    for (row, branch, totals) in [
        ("N,AB,P,720000,720,0", "S,N,143,0,-143,0,0,0,0,0", "1,72072000,0,72072000,0,0,0"),
        ("N,BC,P,720000,720,0", "S,N,0,0,70,0,-70,0,0,0", "1,35279930,0,35279930,0,0,0"),
        ("N,CA,P,720000,720,0", "S,N,71,0,0,0,-71,0,0,0", "1,71567929,0,71567929,0,0,0"),
        // Each alone A is below 70 per cent and C is not: 252000/7200 is 35, and 72,000,000/755999 is 95.2.
        ("N,A,P,720000,720,0", "S,N,35,0,0,0,0,0,0,0", "1,8820000,0,8820000,0,0,0"),
        ("N,C,P,720000,720,0", "S,N,0,0,0,0,-95,0,0,0", "1,71819905,0,71819905,0,0,0"),
    ] {
        let (b, t) = flow(voltages, &[row]).unwrap();
        assert_eq!((b.as_str(), t.as_str()), (branch, totals), "{row}");
    }
    // The largest vn: 2,800,000 is 70 per cent of it. 3·10^11/2,800,000 is 107142.9, and 3·10^11·2,799,999/(1.6·10^13) is
    // 52499.98.
    let row = "N,AB,P,4000000,3000000,0";
    assert_eq!(flow("1400000,0,-1400000,0,0,0", &[row]).unwrap().0, "S,N,107143,0,-107143,0,0,0,0,0");
    assert_eq!(flow("1400000,0,-1399999,0,0,0", &[row]).unwrap().0, "S,N,52500,0,-52500,0,0,0,0,0");
    assert_eq!(flow("0,1400000,0,-1399999,0,0", &[row]).unwrap().0, "S,N,0,52500,0,-52500,0,0,0,0");
}
