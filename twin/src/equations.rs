//! The equations of one load and one branch, in whole numbers.

use crate::feeder::{Branch, Connection, Device, Kind, Load};
use crate::relay::Regulator;

/// Voltages and currents go from −LIMIT to LIMIT, re and im each.
pub const LIMIT: i64 = 2_000_000;

/// µΩ times mA is this many times smaller than a cV.
pub const DROP_SCALE: i64 = 10_000_000;

/// Grains in a VA.
const GRAINS: i64 = 100_000;

/// A voltage, a current, an impedance or a power.
#[derive(Clone, Copy, Debug, Default, PartialEq, Eq)]
pub struct Pair {
    pub re: i64,
    pub im: i64,
}

/// A voltage or a current on A, B and C.
pub type Phases = [Pair; 3];

pub const ZERO: Pair = Pair { re: 0, im: 0 };
pub const NONE: Phases = [ZERO; 3];

impl std::ops::Add for Pair {
    type Output = Pair;
    fn add(self, other: Pair) -> Pair {
        Pair { re: self.re + other.re, im: self.im + other.im }
    }
}

impl std::ops::AddAssign for Pair {
    fn add_assign(&mut self, other: Pair) {
        *self = *self + other;
    }
}

impl std::ops::Sub for Pair {
    type Output = Pair;
    fn sub(self, other: Pair) -> Pair {
        Pair { re: self.re - other.re, im: self.im - other.im }
    }
}

impl std::ops::Mul for Pair {
    type Output = Pair;
    fn mul(self, other: Pair) -> Pair {
        Pair { re: self.re * other.re - self.im * other.im, im: self.re * other.im + self.im * other.re }
    }
}

impl Pair {
    pub fn conj(self) -> Pair {
        Pair { re: self.re, im: -self.im }
    }

    pub fn times(self, factor: i64) -> Pair {
        Pair { re: factor * self.re, im: factor * self.im }
    }

    pub fn rnd(self, divisor: i64) -> Pair {
        Pair { re: rnd(self.re, divisor), im: rnd(self.im, divisor) }
    }

    /// Whether re or im is further than `bound` from 0.
    pub fn beyond(self, bound: i64) -> bool {
        self.re.abs() > bound || self.im.abs() > bound
    }

    /// re² + im²
    pub fn square(self) -> i64 {
        self.re * self.re + self.im * self.im
    }
}

/// a/b to the nearest whole number, a tie going away from zero; b is positive.
pub fn rnd(a: i64, b: i64) -> i64 {
    let (quotient, rest) = (a / b, (a % b).abs());
    if rest >= b - rest {
        quotient + a.signum()
    } else {
        quotient
    }
}

/// The greatest whole m with m·m ≤ n.
pub fn root(n: u64) -> u64 {
    n.isqrt()
}

/// The steps that this root takes: one for each of its own binary digits, none for 0. (Document 02, S-2.)
pub fn steps(root: u64) -> u32 {
    u64::BITS - root.leading_zeros()
}

/// The load's current at voltage `v`; `None` for an I load at zero voltage. Only there is the divisor 0: vn is at least 1,
/// and a P load at zero voltage counts as an impedance. Between two phases `v` has parts up to 4·10^6 and vn goes that
/// far, so re² + im² is at most 3.2·10^13, root·vn 2.3·10^13, and re and im of conj(S)·V are at most
/// 2·3·10^11·4·10^6 = 2.4·10^18, which is within 64 bits (9.2·10^18).
pub fn load_current(load: &Load, v: Pair) -> Option<Pair> {
    let w = match load.kind_at(v) {
        Kind::Power => v.square(),
        Kind::Current => root(v.square() as u64) as i64 * load.vn,
        Kind::Impedance => load.vn * load.vn,
    };
    if w == 0 {
        return None;
    }
    Some((load.s().conj() * v).rnd(w))
}

impl Load {
    /// The rated power in grains.
    pub fn s(&self) -> Pair {
        Pair { re: self.p, im: self.q }.times(GRAINS)
    }

    /// The kind that the load counts as at its voltage `v`: its own, but a P load below 70 per cent of vn counts as an
    /// impedance. (Document 02, S-3.) At exactly 70 per cent it is still constant power, at zero voltage never, as vn is
    /// at least 1. 100·(re² + im²) is at most 3.2·10^15 and 49·vn² at most 7.9·10^14, which is within 64 bits.
    pub fn kind_at(&self, v: Pair) -> Kind {
        match self.kind {
            Kind::Power if 100 * v.square() < 49 * self.vn * self.vn => Kind::Impedance,
            kind => kind,
        }
    }

    /// Whether it is a P load that counts as an impedance at these voltages of the nodes.
    pub fn is_low(&self, v: &[Phases]) -> bool {
        self.kind_at(self.place.voltage(&v[self.node])) != self.kind
    }
}

/// The drop over the branch with current `i` at its to-node.
pub fn drop(device: &Device, i: &Phases) -> Phases {
    match device {
        Device::Line { z } => {
            let [aa, ab, ac, bb, bc, cc] = *z;
            let [a, b, c] = *i;
            [aa * a + ab * b + ac * c, ab * a + bb * b + bc * c, ac * a + bc * b + cc * c]
                .map(|sum| sum.rnd(DROP_SCALE))
        }
        Device::Regulator(_) => NONE,
        Device::Transformer { z, .. } => [z[0] * i[0], z[1] * i[1], z[2] * i[2]].map(|product| product.rnd(DROP_SCALE)),
    }
}

/// The voltage at the branch's to-node, from that at its from-node and the drop.
pub fn voltage(branch: &Branch, v: &Phases, drop: &Phases) -> Phases {
    let mut below = match &branch.device {
        Device::Line { .. } => *v,
        Device::Regulator(Regulator { taps, .. }) => {
            let side = |k: usize| v[k].times(160).rnd(160 - taps[k]);
            [side(0), side(1), side(2)]
        }
        Device::Transformer { connection, n, m, .. } => {
            let [a, b, c] = *v;
            match connection {
                Connection::Wye => [a, b, c],
                Connection::Delta => [a - c, b - a, c - b],
            }
            .map(|av| av.times(*m).rnd(*n))
        }
    };
    for (k, side) in below.iter_mut().enumerate() {
        *side = if branch.phases & 1 << k != 0 { *side - drop[k] } else { ZERO };
    }
    below
}

/// What the branch takes at its from-node, from its current at the to-node.
pub fn taken(device: &Device, i: &Phases) -> Phases {
    match device {
        Device::Line { .. } => *i,
        Device::Regulator(Regulator { taps, .. }) => {
            let side = |k: usize| i[k].times(160).rnd(160 - taps[k]);
            [side(0), side(1), side(2)]
        }
        Device::Transformer { connection, n, m, .. } => {
            let [a, b, c] = *i;
            match connection {
                Connection::Wye => [a, b, c],
                Connection::Delta => [a - b, b - c, c - a],
            }
            .map(|di| di.times(*m).rnd(*n))
        }
    }
}

/// Sum over the phases of V·conj(I).
pub fn power(v: &Phases, i: &Phases) -> Pair {
    v[0] * i[0].conj() + v[1] * i[1].conj() + v[2] * i[2].conj()
}

/// The branch's loss: sum of D·conj(I).
pub fn loss(device: &Device, i: &Phases) -> Pair {
    power(&drop(device, i), i)
}

#[cfg(test)]
mod tests {
    use super::*;
    use crate::place::Place;

    fn pair(re: i64, im: i64) -> Pair {
        Pair { re, im }
    }

    fn load(kind: Kind, vn: i64, p: i64, q: i64) -> Load {
        Load { name: 0, node: 0, place: Place::A, kind, vn, p, q }
    }

    fn regulator(tap: i64) -> Branch {
        let device = Device::Regulator(Regulator { taps: [tap, 0, 0], relay: None });
        Branch { from: 0, to: 0, parent: 0, phases: 1, device }
    }

    #[test]
    fn rounding() {
        assert_eq!(rnd(5, 2), 3);
        assert_eq!(rnd(-5, 2), -3);
        assert_eq!(rnd(4, 3), 1);
        assert_eq!((rnd(0, 7), rnd(1, 3), rnd(2, 3), rnd(-1, 3), rnd(-2, 3)), (0, 0, 1, 0, -1));
        assert_eq!((rnd(1, 2), rnd(-1, 2), rnd(3, 2), rnd(-3, 2), rnd(7, 1)), (1, -1, 2, -2, 7));
        assert_eq!(rnd(i64::MAX, 1), i64::MAX);
        assert_eq!(rnd(-i64::MAX, i64::MAX), -1);
    }

    #[test]
    fn roots() {
        assert_eq!(root(15), 3);
        assert_eq!(root(16), 4);
        for m in [0u64, 1, 2, 3, 719_999, 720_000, 2_828_427, 5_656_854, u32::MAX as u64] {
            assert_eq!(root(m * m), m);
            assert_eq!(root(m * m + 2 * m), m);
        }
    }

    #[test]
    fn a_step_for_each_digit() {
        let digits = |m: u64| if m == 0 { 0 } else { format!("{m:b}").len() as u32 };
        assert_eq!([0, 1, 16].map(|n| steps(root(n))), [0, 1, 3]);
        for m in [0u64, 1, 2, 3, 4, 7, 8, 719_999, 1 << 31, u32::MAX as u64] {
            assert_eq!(steps(m), digits(m));
        }
    }

    #[test]
    fn taps() {
        let v = [pair(720_000, 0), ZERO, ZERO];
        assert_eq!(voltage(&regulator(16), &v, &NONE), [pair(800_000, 0), ZERO, ZERO]);
        assert_eq!(voltage(&regulator(-16), &v, &NONE), [pair(654_545, 0), ZERO, ZERO]);
    }

    #[test]
    fn loads() {
        let p = load(Kind::Power, 720_000, 72_000, 0);
        assert_eq!(load_current(&p, pair(719_000, 0)), Some(pair(10_014, 0)));
        let i = load(Kind::Current, 500_000, 100, 0);
        assert_eq!(load_current(&i, pair(300_000, 400_000)), Some(pair(12, 16)));
        assert_eq!(load_current(&i, ZERO), None);
        let z = load(Kind::Impedance, 720_000, 0, -720);
        assert_eq!(load_current(&z, pair(720_000, 0)), Some(pair(0, 100)));
        assert_eq!(load_current(&z, ZERO), Some(ZERO));
    }

    #[test]
    fn low_voltage() {
        // 70 per cent of 720000 is 504000: 7.2·10^9/504000 is 14285.7. Below it the impedance takes V/72: 503999/72 is
        // 6999.99, and 252000/72 is 3500.
        let p = load(Kind::Power, 720_000, 72_000, 0);
        assert_eq!(load_current(&p, pair(504_001, 0)), Some(pair(14_286, 0)));
        assert_eq!(load_current(&p, pair(504_000, 0)), Some(pair(14_286, 0)));
        assert_eq!(load_current(&p, pair(503_999, 0)), Some(pair(7_000, 0)));
        assert_eq!(load_current(&p, pair(252_000, 0)), Some(pair(3_500, 0)));
        // The same at other angles: 302400² + 403200² is 504000². 7.2·10^9·(302400, 403200)/504000² is (8571.4, 11428.6)
        // and (302400, 403199)/72 is (4200, 5599.99).
        for (v, kind) in [
            (pair(-504_000, 0), Kind::Power),
            (pair(0, 504_000), Kind::Power),
            (pair(0, -503_999), Kind::Impedance),
            (pair(302_400, -403_200), Kind::Power),
            (pair(302_400, -403_199), Kind::Impedance),
            (pair(-302_399, 403_200), Kind::Impedance),
            (pair(-302_400, 403_201), Kind::Power),
        ] {
            assert_eq!(p.kind_at(v), kind, "{v:?}");
        }
        assert_eq!(load_current(&p, pair(302_400, 403_200)), Some(pair(8_571, 11_429)));
        assert_eq!(load_current(&p, pair(302_400, 403_199)), Some(pair(4_200, 5_600)));
        // Reactive power too: conj(j·7.2·10^9)·503999/720000² is −j·6999.99.
        let reactive = load(Kind::Power, 720_000, 0, 72_000);
        assert_eq!(load_current(&reactive, pair(503_999, 0)), Some(pair(0, -7_000)));
        assert_eq!(load_current(&reactive, pair(504_000, 0)), Some(pair(0, -14_286)));
    }

    #[test]
    fn low_voltage_by_small_and_large_numbers() {
        // vn, the greatest voltage below 70 per cent of it, and the least that is not.
        for (vn, below, not_below) in [
            (1, 0, 1),
            (2, 1, 2),
            (3, 2, 3),
            (10, 6, 7),
            (11, 7, 8),
            (719_999, 503_999, 504_000),
            (720_001, 504_000, 504_001),
            (1_999_999, 1_399_999, 1_400_000),
            (2_000_000, 1_399_999, 1_400_000),
            (4_000_000, 2_799_999, 2_800_000),
        ] {
            let p = load(Kind::Power, vn, 1, 1);
            assert_eq!(p.kind_at(pair(below, 0)), Kind::Impedance, "{vn}");
            assert_eq!(p.kind_at(pair(0, -not_below)), Kind::Power, "{vn}");
        }
        // The largest numbers of both sides: 3.2·10^15 is not below 7.84·10^14.
        let p = load(Kind::Power, 4_000_000, 3_000_000, 3_000_000);
        assert_eq!(p.kind_at(pair(-4_000_000, 4_000_000)), Kind::Power);
        assert_eq!(p.kind_at(pair(-2_000_000, 1_959_591)), Kind::Impedance);
        assert_eq!(p.kind_at(pair(-2_000_000, 1_959_592)), Kind::Power);
    }

    #[test]
    fn zero_voltage() {
        for vn in [1, 720_000, 4_000_000] {
            for (p, q) in [(0, 0), (72_000, -1), (3_000_000, 3_000_000)] {
                assert_eq!(load_current(&load(Kind::Power, vn, p, q), ZERO), Some(ZERO));
                assert_eq!(load_current(&load(Kind::Impedance, vn, p, q), ZERO), Some(ZERO));
                assert_eq!(load_current(&load(Kind::Current, vn, p, q), ZERO), None);
            }
        }
    }

    #[test]
    fn other_kinds_have_no_rule() {
        for v in [pair(720_000, 0), pair(504_000, 0), pair(503_999, 0), pair(1, 0), ZERO] {
            assert_eq!(load(Kind::Current, 720_000, 72_000, 0).kind_at(v), Kind::Current);
            assert_eq!(load(Kind::Impedance, 720_000, 72_000, 0).kind_at(v), Kind::Impedance);
        }
        // An I load takes S/vn at any voltage but 0.
        let i = load(Kind::Current, 720_000, 72_000, 0);
        for v in [720_000, 504_000, 503_999, 1] {
            assert_eq!(load_current(&i, pair(v, 0)), Some(pair(10_000, 0)));
        }
    }

    #[test]
    fn between_two_phases_the_difference_counts() {
        let p = Load { place: Place::AB, ..load(Kind::Power, 720_000, 72_000, 0) };
        let at = |a: Pair, b: Pair| load_current(&p, p.place.voltage(&[a, b, pair(720_000, 0)]));
        // Both phases are below 70 per cent of vn, and their difference is not.
        assert_eq!(at(pair(252_000, 0), pair(-252_000, 0)), Some(pair(14_286, 0)));
        assert_eq!(at(pair(252_000, 0), pair(-251_999, 0)), Some(pair(7_000, 0)));
        // Neither phase is below it, and their difference is: 216000/72.
        assert_eq!(at(pair(720_000, 0), pair(504_000, 0)), Some(pair(3_000, 0)));
        assert_eq!(at(pair(720_000, 0), pair(720_000, 0)), Some(ZERO));
    }

    #[test]
    fn delta() {
        let device = Device::Transformer { connection: Connection::Delta, n: 12_470, m: 2_400, z: [ZERO; 3] };
        let branch = Branch { from: 0, to: 0, parent: 0, phases: 7, device };
        let v = [pair(720_000, 0), pair(-360_000, -623_538), pair(-360_000, 623_538)];
        assert_eq!(voltage(&branch, &v, &NONE)[0], pair(207_859, -120_007));
        let j = taken(&branch.device, &[pair(1000, 0), ZERO, ZERO]);
        assert_eq!(j, [pair(192, 0), ZERO, pair(-192, 0)]);
    }
}
