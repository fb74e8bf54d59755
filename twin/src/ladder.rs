//! The modified ladder iteration: currents upward, voltages downward.

use crate::equations::{drop, load_current, loss, power, taken, voltage, Pair, Phases, LIMIT, NONE, ZERO};
use crate::feeder::Feeder;
use crate::Refusal;

/// The currents that follow from the voltages of all nodes.
pub struct Currents {
    /// Of every load row.
    pub loads: Vec<Pair>,
    /// Node i + 1: I of branch row i. Node 0: all current taken at the source.
    pub nodes: Vec<Phases>,
}

/// The losses of the branch rows, and the totals.
#[derive(Debug, PartialEq, Eq)]
pub struct Powers {
    pub losses: Vec<Pair>,
    pub source: Pair,
    pub drawn: Pair,
    pub lost: Pair,
}

/// Where the study stopped.
pub struct Settled {
    pub voltages: Vec<Phases>,
    pub currents: Currents,
    pub sweeps: u32,
}

impl Currents {
    pub fn of(feeder: &Feeder) -> Self {
        Currents { loads: vec![ZERO; feeder.loads.len()], nodes: vec![NONE; feeder.branches.len() + 1] }
    }

    /// Works all currents from the voltages `v` of the nodes. The error is the number that applies: 30, 31 or 32.
    pub fn work(&mut self, feeder: &Feeder, v: &[Phases]) -> Result<(), u32> {
        self.nodes.fill(NONE);
        let mut beyond = false;
        for (load, current) in feeder.loads.iter().zip(&mut self.loads) {
            *current = load_current(load, load.place.voltage(&v[load.node])).ok_or(30u32)?;
            // A current beyond the limit is not summed: a few of them would leave 64 bits.
            if current.beyond(LIMIT) {
                beyond = true;
                continue;
            }
            load.place.count_in(*current, &mut self.nodes[load.node]);
        }
        if beyond {
            return Err(31);
        }
        for &row in feeder.order.iter().rev() {
            let branch = &feeder.branches[row];
            let i = self.nodes[row + 1];
            if any_beyond(&i) {
                return Err(32);
            }
            let j = taken(&branch.device, &i);
            if any_beyond(&j) {
                return Err(32);
            }
            for (sum, j) in self.nodes[branch.parent].iter_mut().zip(j) {
                *sum += j;
            }
        }
        Ok(())
    }

    /// Works the losses and the totals at the voltages that the currents were worked from.
    pub fn powers(&self, feeder: &Feeder, v: &[Phases]) -> Powers {
        let mut lost = ZERO;
        let losses = feeder.branches.iter().zip(&self.nodes[1..]).map(|(branch, i)| {
            let loss = loss(&branch.device, i);
            lost += loss;
            loss
        });
        let losses = losses.collect();
        let mut drawn = ZERO;
        for (load, current) in feeder.loads.iter().zip(&self.loads) {
            drawn += load.place.voltage(&v[load.node]) * current.conj();
        }
        Powers { losses, source: power(&v[0], &self.nodes[0]), drawn, lost }
    }
}

/// Sweeps until no voltage moves more than tol (refusals 30 to 34).
pub fn settle(feeder: &Feeder) -> Result<Settled, Refusal> {
    settle_watched(feeder, |_| {})
}

/// The same, and shows the voltages that each sweep takes its currents from.
pub fn settle_watched(feeder: &Feeder, mut watch: impl FnMut(&[Phases])) -> Result<Settled, Refusal> {
    let mut currents = Currents::of(feeder);
    let mut now = vec![feeder.source_v; feeder.branches.len() + 1];
    let mut next = now.clone();
    // Any `now` will do for V0, as its answer is not asked for.
    downward(feeder, &currents, &now, &mut next).ok_or((33, 0))?;
    std::mem::swap(&mut now, &mut next);
    for sweep in 1..=feeder.limit {
        watch(&now);
        currents.work(feeder, &now).map_err(|number| (number, sweep as u64))?;
        let moved = downward(feeder, &currents, &now, &mut next).ok_or((33, sweep as u64))?;
        if !moved {
            return Ok(Settled { voltages: now, currents, sweeps: sweep as u32 });
        }
        std::mem::swap(&mut now, &mut next);
    }
    Err((34, feeder.limit as u64))
}

/// Works the voltages from the source downward into `next`, and answers whether any moved more than tol from `now`;
/// `None` if one is beyond the limit.
fn downward(feeder: &Feeder, currents: &Currents, now: &[Phases], next: &mut [Phases]) -> Option<bool> {
    let mut moved = false;
    for &row in &feeder.order {
        let branch = &feeder.branches[row];
        let d = drop(&branch.device, &currents.nodes[row + 1]);
        let v = voltage(branch, &next[branch.parent], &d);
        if any_beyond(&v) {
            return None;
        }
        moved |= differ(&v, &now[row + 1], feeder.tol);
        next[row + 1] = v;
    }
    Some(moved)
}

/// Whether re or im of any phase differs by more than `tol`.
pub fn differ(a: &Phases, b: &Phases, tol: i64) -> bool {
    a.iter().zip(b).any(|(a, b)| (*a - *b).beyond(tol))
}

pub fn any_beyond(x: &Phases) -> bool {
    x.iter().any(|pair| pair.beyond(LIMIT))
}
