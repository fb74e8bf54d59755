//! Demand 3, the power account of a report that the check passes. The check does not need it; programs try it.

use crate::equations::{load_current, Pair, Phases};
use crate::feeder::{Device, Feeder, Kind, Load};
use crate::report::Reported;

/// Twice the difference, without its sign, and the allowance.
#[derive(Debug, PartialEq, Eq)]
pub struct Account {
    pub twice_p: i128,
    pub twice_q: i128,
    pub allowance: i128,
}

impl Account {
    pub fn holds(&self) -> bool {
        self.twice_p <= self.allowance && self.twice_q <= self.allowance
    }
}

/// A power that may leave 64 bits on the way.
#[derive(Clone, Copy)]
struct Wide {
    re: i128,
    im: i128,
}

impl Wide {
    fn of(pair: Pair) -> Wide {
        Wide { re: pair.re.into(), im: pair.im.into() }
    }

    fn times(self, factor: i128) -> Wide {
        Wide { re: self.re * factor, im: self.im * factor }
    }

    fn plus(self, other: Wide) -> Wide {
        Wide { re: self.re + other.re, im: self.im + other.im }
    }

    fn rnd(self, divisor: i128) -> Wide {
        let rnd = |a: i128| (2 * a.abs() + divisor) / (2 * divisor) * a.signum();
        Wide { re: rnd(self.re), im: rnd(self.im) }
    }
}

fn size(x: Pair) -> i128 {
    i128::from(x.re.abs() + x.im.abs())
}

fn size_on(phases: u8, x: &Phases) -> i128 {
    x.iter().enumerate().filter(|(k, _)| phases & 1 << k != 0).map(|(_, x)| size(*x)).sum()
}

/// The load's rating at voltage `v`, by the kind that its current goes by there.
fn rating(load: &Load, v: Pair) -> Wide {
    let square = i128::from(v.square());
    let vn = i128::from(load.vn);
    let s = Wide::of(load.s());
    match load.kind_at(v) {
        Kind::Power => s,
        Kind::Current => s.times(square).rnd(i128::from(v.square().isqrt()) * vn),
        Kind::Impedance => s.times(square).rnd(vn * vn),
    }
}

/// The account of a report that was read and passed.
pub fn account(feeder: &Feeder, report: &Reported) -> Account {
    let tol = i128::from(feeder.tol);
    let mut sum = Wide { re: 0, im: 0 };
    let mut allowance = 0;

    for load in &feeder.loads {
        let v = load.place.voltage(&report.voltages[load.node]);
        let i = load_current(load, v).unwrap_or_default();
        sum = sum.plus(rating(load, v));
        // 4·tol between two phases, as each of them may be off by tol.
        allowance += 2 * i128::from(load.place.count()) * tol * size(i) + size(v) + 1;
    }

    for (branch, i) in feeder.branches.iter().zip(&report.currents) {
        let count = i128::from(branch.phases.count_ones());
        let v = size_on(branch.phases, &report.voltages[branch.parent]);
        let current = size_on(branch.phases, i);
        let matrix = match &branch.device {
            Device::Line { z: [aa, ab, ac, bb, bc, cc] } => {
                allowance += 1 + current;
                [[*aa, *ab, *ac], [*ab, *bb, *bc], [*ac, *bc, *cc]]
            }
            Device::Regulator(_) => {
                allowance += v + 2 * tol * count + current;
                Default::default()
            }
            Device::Transformer { z: [a, b, c], .. } => {
                allowance += 1 + v + 2 * tol * count + 2 * current;
                let none = Pair::default();
                [[*a, none, none], [none, *b, none], [none, none, *c]]
            }
        };
        let mut loss = Wide { re: 0, im: 0 };
        for (row, i_row) in matrix.iter().zip(i) {
            for (z, i_column) in row.iter().zip(i) {
                // conj(I_i)·I_j is within 64 bits; times z it may not be.
                let (a, z) = (Wide::of(i_row.conj() * *i_column), Wide::of(*z));
                loss = loss.plus(Wide { re: a.re * z.re - a.im * z.im, im: a.re * z.im + a.im * z.re });
            }
        }
        sum = sum.plus(loss.rnd(10_000_000));
    }

    let source = Wide::of(report.powers.source);
    Account { twice_p: 2 * (source.re - sum.re).abs(), twice_q: 2 * (source.im - sum.im).abs(), allowance }
}

/// Reads both files and works the account, if they can be read.
pub fn account_of(feeder: &[u8], report: &[u8]) -> Option<Account> {
    let feeder = crate::read_feeder(feeder).ok()?;
    let report = crate::report::read_report(&feeder, report).ok()?;
    Some(account(&feeder, &report))
}

#[cfg(test)]
mod tests {
    use super::*;
    use crate::place::Place;

    #[test]
    fn ratings() {
        let rated = |kind: Kind, (p, q): (i64, i64), (re, im): (i64, i64)| {
            let load = Load { name: 0, node: 0, place: Place::A, kind, vn: 720_000, p, q };
            let Wide { re, im } = rating(&load, Pair { re, im });
            (re, im)
        };
        // P: S at 70 per cent of vn and above; below it S·503999²/720000² = 503999²/7200 = 35279860.0001.
        assert_eq!(rated(Kind::Power, (720, 0), (720_000, 0)), (72_000_000, 0));
        assert_eq!(rated(Kind::Power, (720, 0), (504_000, 0)), (72_000_000, 0));
        assert_eq!(rated(Kind::Power, (720, 0), (503_999, 0)), (35_279_860, 0));
        assert_eq!(rated(Kind::Power, (0, -720), (302_400, 403_200)), (0, -72_000_000));
        // (302400² + 403199²)/7200 = 254015193601/7200 = 35279888.0001.
        assert_eq!(rated(Kind::Power, (0, -720), (302_400, 403_199)), (0, -35_279_888));
        assert_eq!(rated(Kind::Power, (720, 720), (0, 0)), (0, 0));
        // Z goes by S·(re² + im²)/vn² everywhere, 504000²/7200; I by its root, 72,000,000·503999/720000.
        assert_eq!(rated(Kind::Impedance, (720, 0), (504_000, 0)), (35_280_000, 0));
        assert_eq!(rated(Kind::Impedance, (720, 0), (503_999, 0)), (35_279_860, 0));
        assert_eq!(rated(Kind::Current, (720, 0), (503_999, 0)), (50_399_900, 0));
    }

    #[test]
    fn the_example_of_01() {
        let feeder = crate::EXAMPLE_FEEDER.as_bytes();
        let account = account_of(feeder, crate::EXAMPLE_REPORT.as_bytes()).unwrap();
        assert_eq!(account, Account { twice_p: 103_960, twice_q: 0, allowance: 749_044 });
        assert!(account.holds());
    }
}
