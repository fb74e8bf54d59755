//! The relay of a regulator that sets its own taps (request S-5 of document 02): what it measures, and which way it wants
//! the tap of a phase to move.

use crate::equations::{Pair, Phases, DROP_SCALE};

/// Taps go from −MOST_TAP to MOST_TAP.
pub const MOST_TAP: i64 = 16;

/// The taps of A, B and C.
pub type Taps = [i64; 3];

/// A regulator: its taps, and its relay where its level is above 0.
#[derive(Clone, Debug)]
pub struct Regulator {
    /// Those in use: p1 to p3, until a round of the study or a report sets others.
    pub taps: Taps,
    pub relay: Option<Relay>,
}

#[derive(Clone, Debug, PartialEq, Eq)]
pub struct Relay {
    pub level: i64,
    pub band: i64,
    pub potential_ratio: i64,
    pub current_ratio: i64,
    /// The compensator's R and X.
    pub compensator: Pair,
}

impl Relay {
    /// The relay voltage of a phase with voltage `v` and current `i` at the to-node. `v` and `i` have parts up to 2·10^6, R
    /// and X up to 10^8: the product has parts up to 4·10^14, and what is left of it by the division at most 4·10^7.
    pub fn voltage(&self, v: Pair, i: Pair) -> Pair {
        v.rnd(self.potential_ratio) - (self.compensator * i).rnd(self.current_ratio * DROP_SCALE)
    }

    /// The step that the phase wants: 1 up, −1 down, 0 none. A negative bracket never wants up. With the bounds above,
    /// 4·(re² + im²) is at most 1.5·10^16; the brackets are at most 60,000.
    pub fn wants(&self, v: Pair, i: Pair) -> i64 {
        let measured = 4 * self.voltage(v, i).square();
        let (low, high) = (2 * self.level - self.band, 2 * self.level + self.band);
        if low >= 0 && measured < low * low {
            1
        } else if measured > high * high {
            -1
        } else {
            0
        }
    }
}

impl Regulator {
    /// The steps that the taps make at these voltages and currents of the to-node: what a present phase wants, where that
    /// stays within the limit, else 0.
    pub fn steps(&self, phases: u8, v: &Phases, i: &Phases) -> Taps {
        let Some(relay) = &self.relay else { return [0; 3] };
        std::array::from_fn(|k| {
            let present = phases & 1 << k != 0;
            let step = if present { relay.wants(v[k], i[k]) } else { 0 };
            if (self.taps[k] + step).abs() > MOST_TAP {
                0
            } else {
                step
            }
        })
    }
}

#[cfg(test)]
mod tests {
    use super::*;
    use crate::equations::{NONE, ZERO};

    fn pair(re: i64, im: i64) -> Pair {
        Pair { re, im }
    }

    fn relay(level: i64, band: i64) -> Relay {
        Relay { level, band, potential_ratio: 1, current_ratio: 1, compensator: ZERO }
    }

    #[test]
    fn relay_voltages() {
        // 720000/60 is 12000; 719999/40 is 17999.975; ties go away from zero.
        let by = |ratio: i64, v: Pair| Relay { potential_ratio: ratio, ..relay(1, 0) }.voltage(v, ZERO);
        assert_eq!(by(60, pair(720_000, -360_000)), pair(12_000, -6_000));
        assert_eq!(by(40, pair(719_999, 20)), pair(18_000, 1));
        assert_eq!(by(10_000, pair(5_000, -5_000)), pair(1, -1));
        assert_eq!(by(10_000, pair(4_999, -4_999)), ZERO);
        // (1.46 + j2.84) Ω times (100 + j10) A is (117.6 + j298.6) V, by a ratio of 200 (0.588 + j1.493) V.
        let line = Relay { compensator: pair(1_460_000, 2_840_000), current_ratio: 200, ..relay(1, 0) };
        assert_eq!(line.voltage(ZERO, pair(100_000, 10_000)), pair(-59, -149));
        assert_eq!(line.voltage(pair(12_000, 0), pair(100_000, 10_000)), pair(11_941, -149));
        // The two parts are rounded apart: 5/10 is 1, and 1 Ω times 5 mA is 0.5 cV, which is 1 too.
        let apart = Relay { compensator: pair(1_000_000, 0), potential_ratio: 10, ..relay(1, 0) };
        assert_eq!(apart.voltage(pair(5, 0), pair(5, 0)), ZERO);
        assert_eq!(apart.voltage(pair(5, 0), pair(4, 0)), pair(1, 0));
        // The drop is rounded once, behind the ratio: 2.5 cV by 2 are 1.25. (3 by 2 would be 2.)
        let once = Relay { compensator: pair(1_000_000, 0), current_ratio: 2, ..relay(1, 0) };
        assert_eq!(once.voltage(ZERO, pair(25, 0)), pair(-1, 0));
    }

    #[test]
    fn wants() {
        // 2·12000 ∓ 200 are 23800 and 24200: from 11900 to 12100 nothing is wanted.
        let at = |re: i64, im: i64| relay(12_000, 200).wants(pair(re, im), ZERO);
        assert_eq!([at(11_899, 0), at(11_900, 0), at(12_100, 0), at(12_101, 0)], [1, 0, 0, -1]);
        assert_eq!([at(0, -11_899), at(0, -11_900), at(0, -12_100), at(0, -12_101)], [1, 0, 0, -1]);
        // 7140² + 9520² is 11900²; 7260² + 9680² is 12100².
        assert_eq!([at(7_140, 9_520), at(7_140, 9_519), at(7_260, 9_680), at(7_260, 9_681)], [0, 1, 0, -1]);
        // An odd band: 23801 and 24199 lie between two whole numbers.
        let odd = |re: i64| relay(12_000, 199).wants(pair(re, 0), ZERO);
        assert_eq!([odd(11_900), odd(11_901), odd(12_099), odd(12_100)], [1, 0, 0, -1]);
        // 4·(11900² + 110²) is 566,488,400, between 23801² and 23802²: half of a band counts, too.
        let odd = |band: i64| relay(12_000, band).wants(pair(11_900, 110), ZERO);
        assert_eq!([odd(198), odd(199), odd(200)], [1, 0, 0]);
        // No band: only the level itself.
        let none = |re: i64| relay(12_000, 0).wants(pair(re, 0), ZERO);
        assert_eq!([none(11_999), none(12_000), none(12_001)], [1, 0, -1]);
    }

    #[test]
    fn negative_brackets_never_want_up() {
        // 2·100 − 200 is 0, and nothing is below its square; 2·100 − 201 is −1, whose square is 1; 2·100 − 20000 is −19800.
        for band in [200, 201, 20_000] {
            assert_eq!(relay(100, band).wants(ZERO, ZERO), 0, "{band}");
            assert_eq!(relay(100, band).wants(pair(9_000, 0), ZERO), if band == 20_000 { 0 } else { -1 }, "{band}");
        }
        assert_eq!(relay(100, 199).wants(ZERO, ZERO), 1);
        assert_eq!(relay(100, 20_000).wants(pair(10_101, 0), ZERO), -1);
    }

    #[test]
    fn the_largest_numbers() {
        let z = pair(100_000_000, -100_000_000);
        let relay = Relay { compensator: z, ..relay(20_000, 20_000) };
        // (10^8 − j10^8)·(2·10^6 + j2·10^6) is 4·10^14.
        assert_eq!(relay.voltage(ZERO, pair(2_000_000, 2_000_000)), pair(-40_000_000, 0));
        let v = pair(-2_000_000, -2_000_000);
        assert_eq!(relay.voltage(v, pair(2_000_000, 2_000_000)), pair(-42_000_000, -2_000_000));
        assert_eq!(relay.wants(v, pair(2_000_000, 2_000_000)), -1);
    }

    #[test]
    fn steps_stay_within_sixteen() {
        let up =
            |taps: Taps, phases: u8| Regulator { taps, relay: Some(relay(12_000, 200)) }.steps(phases, &NONE, &NONE);
        assert_eq!(up([0, 15, 16], 7), [1, 1, 0]);
        assert_eq!(up([0, -16, -16], 6), [0, 1, 1]);
        let high = [pair(20_000, 0); 3];
        let down = |taps: Taps| Regulator { taps, relay: Some(relay(12_000, 200)) }.steps(7, &high, &NONE);
        assert_eq!(down([16, -15, -16]), [-1, -1, 0]);
        assert_eq!(Regulator { taps: [1, 2, 3], relay: None }.steps(7, &high, &NONE), [0; 3]);
    }
}
