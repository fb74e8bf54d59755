//! A second study and check for radial feeders, written from documents 01 and 02 (S-1 to S-5) and
//! docs/DECISIONS.md. Nothing here is proved.
//!
//! It is there to be compared with the proved programs (`bin/fuzz`) and to measure them against (`bin/bench`).

pub mod account;
pub mod cases;
pub mod check;
pub mod equations;
pub mod faults;
pub mod feeder;
pub mod generate;
pub mod generate_taps;
pub mod ladder;
pub mod outside;
pub mod place;
pub mod relay;
pub mod report;
pub mod rounds;
pub mod text;

pub use check::check;
pub use feeder::{read_feeder, Feeder};

/// No file has more bytes than this.
pub const MAX_FILE: usize = 65_536;

/// A refusal: its number and the value that comes with it.
pub type Refusal = (u32, u64);

/// What a call answers.
#[derive(Clone, Copy, Debug, PartialEq, Eq)]
pub enum Answer {
    /// The study's report stands in the first `length` bytes of the buffer.
    Report {
        length: usize,
        sweeps: u32,
    },
    /// The check passes the report.
    Pass,
    Refused {
        number: u32,
        value: u64,
    },
}

impl Answer {
    /// The answer in one word: the value in bits 0 to 31, the number in bits 32 to 47, the sweeps in bits 48 to 63. Number
    /// 0 is a report (value: its length) or a pass (value 0). Sweeps are 0 where no report was written.
    pub fn word(self) -> u64 {
        let (number, value, sweeps) = match self {
            Answer::Report { length, sweeps } => (0, length as u64, sweeps),
            Answer::Pass => (0, 0, 0),
            Answer::Refused { number, value } => (number, value, 0),
        };
        u64::from(sweeps) << 48 | u64::from(number) << 32 | value
    }
}

/// The parts of such a word, by the names of c/flarecomb.h.
#[derive(Clone, Copy, Debug, PartialEq, Eq)]
pub struct Parts {
    pub number: u64,
    pub value: u64,
    pub sweeps: u64,
}

pub fn parts(word: u64) -> Parts {
    Parts { number: word >> 32 & 0xFFFF, value: word & 0xFFFF_FFFF, sweeps: word >> 48 }
}

impl From<Refusal> for Answer {
    fn from((number, value): Refusal) -> Answer {
        Answer::Refused { number, value }
    }
}

/// Works the feeder and writes its report to the front of `out`. After a refusal `out` holds what it held.
pub fn study(feeder: &[u8], out: &mut [u8]) -> Answer {
    let mut feeder = match read_feeder(feeder) {
        Ok(feeder) => feeder,
        Err(refusal) => return refusal.into(),
    };
    let settled = match rounds::settle_taps(&mut feeder) {
        Ok(settled) => settled,
        Err(refusal) => return refusal.into(),
    };
    let text = report::write_report(&feeder, &settled);
    let length = text.len();
    match out.get_mut(..length) {
        Some(front) => front.copy_from_slice(&text),
        None => return Answer::Refused { number: 40, value: length as u64 },
    }
    Answer::Report { length, sweeps: settled.sweeps }
}

/// The feeder of 01's 'Files' and its report.
#[cfg(test)]
const EXAMPLE_FEEDER: &str = "\
source,va_re,va_im,vb_re,vb_im,vc_re,vc_im,tol,sweeps
S,720000,0,-360000,-623538,-360000,623538,1,20

from,to,phases,kind,p1,p2,p3,p4,p5,p6,p7,p8,p9,p10,p11,p12
S,N1,A,L,1000000,0,0,0,0,0,0,0,0,0,0,0

node,phase,kind,vn,p,q
N1,A,P,720000,72000,0
";
#[cfg(test)]
const EXAMPLE_REPORT: &str = "\
node,va_re,va_im,vb_re,vb_im,vc_re,vc_im
S,720000,0,-360000,-623538,-360000,623538
N1,719000,0,0,0,0,0

from,to,ia_re,ia_im,ib_re,ib_im,ic_re,ic_im,loss_p,loss_q
S,N1,10014,0,0,0,0,0,10024014,0

sweeps,source_p,source_q,drawn_p,drawn_q,lost_p,lost_q
2,7210080000,0,7200066000,0,10024014,0

to,tap_a,tap_b,tap_c
";

#[cfg(test)]
mod tests {
    use super::*;

    fn refused(number: u32, value: u64) -> Answer {
        Answer::Refused { number, value }
    }

    #[test]
    fn the_example_is_studied() {
        let length = EXAMPLE_REPORT.len();
        for room in [length, length + 1, 1000] {
            let mut out = vec![b'#'; room];
            assert_eq!(study(EXAMPLE_FEEDER.as_bytes(), &mut out), Answer::Report { length, sweeps: 2 });
            assert_eq!(&out[..length], EXAMPLE_REPORT.as_bytes());
            assert!(out[length..].iter().all(|b| *b == b'#'));
        }
        for room in 0..length {
            let mut out = vec![b'#'; room];
            assert_eq!(study(EXAMPLE_FEEDER.as_bytes(), &mut out), refused(40, length as u64));
            assert!(out.iter().all(|b| *b == b'#'));
        }
    }

    #[test]
    fn sweeps_are_counted() {
        let feeder = EXAMPLE_FEEDER.replace(",1,20\n", ",1,1\n");
        assert_eq!(study(feeder.as_bytes(), &mut []), refused(34, 1));
        let feeder = EXAMPLE_FEEDER.replace("720000,72000,0", "1,3000000,0").replace("S,720000,0", "S,1,0");
        assert_eq!(study(feeder.as_bytes(), &mut []), refused(31, 1));
        let feeder = EXAMPLE_FEEDER.replace("A,P", "A,I").replace("S,720000,0", "S,0,0");
        assert_eq!(study(feeder.as_bytes(), &mut []), refused(30, 1));
    }

    #[test]
    fn the_largest_load_currents_are_met() {
        // 1.2·10^18 mA each; eight of them leave 64 bits.
        let rows = "N1,A,Z,1,3000000,3000000\n".repeat(20);
        let feeder = EXAMPLE_FEEDER.replace("S,720000,0", "S,2000000,2000000") + &rows;
        assert_eq!(study(feeder.as_bytes(), &mut []), refused(31, 1));
        // 30 of a later row comes before 31.
        let feeder = feeder + "S,B,I,1,0,0\n";
        let feeder = feeder.replace("-360000,-623538,", "0,0,");
        assert_eq!(study(feeder.as_bytes(), &mut []), refused(30, 1));
    }

    /// The check of the example's report with one text replaced by another.
    fn edited(from: &str, to: &str) -> Answer {
        edited_for(EXAMPLE_FEEDER, from, to)
    }

    /// The same for another feeder.
    fn edited_for(feeder: &str, from: &str, to: &str) -> Answer {
        assert!(EXAMPLE_REPORT.contains(from));
        check(feeder.as_bytes(), EXAMPLE_REPORT.replacen(from, to, 1).as_bytes())
    }

    #[test]
    fn the_example_is_checked() {
        assert_eq!(edited("", ""), Answer::Pass);
        assert_eq!(edited("\n2,721", "\n20,721"), Answer::Pass);
        assert_eq!(edited("\n2,721", "\n21,721"), refused(50, 0));
        assert_eq!(edited("\n2,721", "\n0,721"), refused(50, 0));
        assert_eq!(edited("N1,719000", "N1,2000001"), refused(50, 0));
        assert_eq!(edited("N1,719000", "n1,719000"), refused(50, 0));
        assert_eq!(edited("N1,719000", "N2,719000"), refused(51, 3));
        assert_eq!(edited("S,N1,", "N1,N1,"), refused(51, 6));
        assert_eq!(edited("S,720000", "S,720001"), refused(52, 2));
        assert_eq!(edited("N1,719000,0,0", "N1,719000,0,1"), refused(52, 3));
        // At 0 and at 1 cV a P load counts as an impedance and takes 0; an I load meets 30 at 0, and with vn 1 the P load is
        // constant power at 1 and meets 31.
        assert_eq!(edited("N1,719000,0", "N1,0,0"), refused(53, 6));
        assert_eq!(edited("N1,719000,0", "N1,1,0"), refused(53, 6));
        assert_eq!(edited_for(&EXAMPLE_FEEDER.replace("A,P", "A,I"), "N1,719000,0", "N1,0,0"), refused(30, 0));
        assert_eq!(edited_for(&EXAMPLE_FEEDER.replace("P,720000", "P,1"), "N1,719000,0", "N1,1,0"), refused(31, 0));
        assert_eq!(edited("10014,0", "10015,0"), refused(53, 6));
        assert_eq!(edited("10014,0,0,0", "10014,0,1,0"), refused(53, 6));
        // At 719002 the load still takes 10014; the worked 718999 is 3 away.
        assert_eq!(edited("N1,719000", "N1,719002"), refused(54, 3));
        assert_eq!(edited("10024014,0\n\n", "10024014,1\n\n"), refused(55, 0));
        assert_eq!(edited("7200066000", "7200066001"), refused(55, 0));
        // The table of taps has no rows here, and may be left out whole.
        assert_eq!(edited("\nto,tap_a,tap_b,tap_c\n", ""), Answer::Pass);
        assert_eq!(edited("to,tap_a,tap_b,tap_c\n", ""), refused(50, 0));
        assert_eq!(edited("\nto,tap_a", "to,tap_a"), refused(50, 0));
        assert_eq!(edited("tap_c\n", "tap_c"), refused(50, 0));
        assert_eq!(edited("tap_c\n", "tap_c\n\n"), refused(50, 0));
        assert_eq!(edited("tap_c\n", "tap_c\nN1,0,0,0\n"), refused(50, 0));
        let long = [b'x'; MAX_FILE + 1];
        assert_eq!(check(b"", &long), refused(9, 0));
        assert_eq!(check(b"", &long[1..]), refused(10, 1));
    }

    #[test]
    fn words() {
        assert_eq!(refused(40, 311).word(), 40 << 32 | 311);
        assert_eq!(Answer::Report { length: 311, sweeps: 2 }.word(), 2 << 48 | 311);
        assert_eq!(Answer::Pass.word(), 0);
        assert_eq!(parts(refused(40, 311).word()), Parts { number: 40, value: 311, sweeps: 0 });
        assert_eq!(
            parts(Answer::Report { length: 65_536, sweeps: 100 }.word()),
            Parts { number: 0, value: 65_536, sweeps: 100 }
        );
    }
}
