//! The rounds of a study whose regulators set their taps (request S-5 of document 02). Each round is a study of its own,
//! from V0 on.

use crate::equations::Phases;
use crate::feeder::{Device, Feeder};
use crate::ladder::{settle_watched, Settled};
use crate::Refusal;

/// There are at most this many rounds, and so one move of the taps less.
pub const ROUNDS: u32 = 32;

/// Studies with the taps in use and moves them as wanted, until none can move so (refusals 30 to 35). The feeder then has
/// the taps of the last round, whose voltages, currents and sweeps these are.
pub fn settle_taps(feeder: &mut Feeder) -> Result<Settled, Refusal> {
    settle_taps_watched(feeder, |_, _| {})
}

/// The same, and shows the round, counted from 1, and the voltages that each of its sweeps takes its currents from.
pub fn settle_taps_watched(feeder: &mut Feeder, mut watch: impl FnMut(u32, &[Phases])) -> Result<Settled, Refusal> {
    for round in 1..=ROUNDS {
        let settled = settle_watched(feeder, |v| watch(round, v))?;
        if !move_taps(feeder, &settled) {
            return Ok(settled);
        }
    }
    Err((35, u64::from(ROUNDS)))
}

/// Moves each tap that is wanted elsewhere by one step, all at once, and answers whether any moved.
pub fn move_taps(feeder: &mut Feeder, settled: &Settled) -> bool {
    let mut moved = false;
    for (row, branch) in feeder.branches.iter_mut().enumerate() {
        let Device::Regulator(regulator) = &mut branch.device else { continue };
        let steps = regulator.steps(branch.phases, &settled.voltages[row + 1], &settled.currents.nodes[row + 1]);
        for (tap, step) in regulator.taps.iter_mut().zip(steps) {
            *tap += step;
            moved |= step != 0;
        }
    }
    moved
}
