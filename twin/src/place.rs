//! What a load row stands between: a phase and ground, or two phases (request S-1 of document 02).

use crate::equations::{Pair, Phases, LIMIT, ZERO};

/// A, B and C stand between the phase and ground; AB, BC and CA between two phases, the first one first.
#[derive(Clone, Copy, Debug, PartialEq, Eq)]
pub enum Place {
    A,
    B,
    C,
    AB,
    BC,
    CA,
}

/// The signs of A, B and C at each place, in the order above. A row's voltage is the sum of the phases' by its signs, and
/// its current counts into the phases by the same signs.
const SIGNS: [[i64; 3]; 6] = [[1, 0, 0], [0, 1, 0], [0, 0, 1], [1, -1, 0], [0, 1, -1], [-1, 0, 1]];

impl Place {
    /// The place that a word of a load row names.
    pub fn of_word(word: &[u8]) -> Option<Place> {
        Some(match word {
            b"A" => Place::A,
            b"B" => Place::B,
            b"C" => Place::C,
            b"AB" => Place::AB,
            b"BC" => Place::BC,
            b"CA" => Place::CA,
            _ => return None,
        })
    }

    pub fn signs(self) -> [i64; 3] {
        SIGNS[self as usize]
    }

    /// The phases that it needs: A 1, B 2, C 4.
    pub fn phases(self) -> u8 {
        let [a, b, c] = self.signs().map(|sign| u8::from(sign != 0));
        a | b << 1 | c << 2
    }

    /// How many phases it needs: 1 or 2.
    pub fn count(self) -> u32 {
        self.phases().count_ones()
    }

    pub fn is_delta(self) -> bool {
        self.count() == 2
    }

    /// The largest vn: that of one phase, or twice that between two, as the voltage there may be twice as large.
    pub fn most_vn(self) -> i64 {
        i64::from(self.count()) * LIMIT
    }

    /// The voltage of a row that stands here, within twice the limit if the phases are within it.
    pub fn voltage(self, v: &Phases) -> Pair {
        v.iter().zip(self.signs()).fold(ZERO, |sum, (v, sign)| sum + v.times(sign))
    }

    /// Counts a row's current into the sums of its node.
    pub fn count_in(self, current: Pair, sums: &mut Phases) {
        for (sum, sign) in sums.iter_mut().zip(self.signs()) {
            *sum += current.times(sign);
        }
    }
}

#[cfg(test)]
mod tests {
    use super::*;
    use crate::equations::NONE;

    #[test]
    fn words() {
        let good = [("A", 1), ("B", 2), ("C", 4), ("AB", 3), ("BC", 6), ("CA", 5)];
        for (word, phases) in good {
            assert_eq!(Place::of_word(word.as_bytes()).map(Place::phases), Some(phases), "{word}");
        }
        for bad in ["", "AC", "BA", "CB", "AA", "ABC", "BCA", "CAB", "D", "ab"] {
            assert_eq!(Place::of_word(bad.as_bytes()), None, "{bad:?}");
        }
    }

    #[test]
    fn first_minus_second() {
        let pair = |re, im| Pair { re, im };
        let v = [pair(7, 1), pair(-20, 30), pair(500, -400)];
        assert_eq!(Place::B.voltage(&v), pair(-20, 30));
        assert_eq!(Place::AB.voltage(&v), pair(27, -29));
        assert_eq!(Place::BC.voltage(&v), pair(-520, 430));
        assert_eq!(Place::CA.voltage(&v), pair(493, -401));
        let i = pair(3, -4);
        let counted = |place: Place| {
            let mut sums = NONE;
            place.count_in(i, &mut sums);
            sums
        };
        assert_eq!(counted(Place::B), [ZERO, i, ZERO]);
        assert_eq!(counted(Place::AB), [i, pair(-3, 4), ZERO]);
        assert_eq!(counted(Place::BC), [ZERO, i, pair(-3, 4)]);
        assert_eq!(counted(Place::CA), [pair(-3, 4), ZERO, i]);
    }

    #[test]
    fn one_phase_or_two() {
        assert_eq!((Place::A.most_vn(), Place::CA.most_vn()), (2_000_000, 4_000_000));
        assert!(Place::BC.is_delta() && !Place::B.is_delta());
    }
}
