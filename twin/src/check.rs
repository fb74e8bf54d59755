//! The archive check: a report against its feeder.

use crate::equations::{drop, voltage};
use crate::feeder::{read_feeder, Feeder};
use crate::ladder::{differ, Currents};
use crate::relay::Taps;
use crate::report::{line_of_branch, line_of_node, line_of_taps, read_report, Reported};
use crate::{Answer, Refusal, MAX_FILE};

/// Whether the report meets the equations and limits of its feeder.
pub fn check(feeder: &[u8], report: &[u8]) -> Answer {
    match examine(feeder, report) {
        Ok(()) => Answer::Pass,
        Err(refusal) => refusal.into(),
    }
}

fn examine(feeder: &[u8], report: &[u8]) -> Result<(), Refusal> {
    if report.len() > MAX_FILE {
        return Err((9, 0));
    }
    let mut feeder = read_feeder(feeder)?;
    let report = read_report(&feeder, report)?;
    // From here on all is worked with the taps of the report.
    let given = feeder.taps();
    feeder.set_taps(&report.taps);

    let mut currents = Currents::of(&feeder);
    currents.work(&feeder, &report.voltages).map_err(|number| (number, 0))?;
    if let Some(row) = (0..feeder.branches.len()).find(|&row| report.currents[row] != currents.nodes[row + 1]) {
        return Err((53, line_of_branch(&feeder, row)));
    }
    if let Some(node) = first_off(&feeder, &report) {
        return Err((54, line_of_node(node)));
    }
    if currents.powers(&feeder, &report.voltages) != report.powers {
        return Err((55, 0));
    }
    if let Some(n) = first_not_at_rest(&feeder, &given, &report) {
        return Err((56, line_of_taps(&feeder, n)));
    }
    Ok(())
}

/// The first node in row order that is off and is fed through none that is off. Below a node that is off nothing is
/// worked, so that every worked voltage is near a reported one.
fn first_off(feeder: &Feeder, report: &Reported) -> Option<usize> {
    let mut worked = vec![Some(feeder.source_v); feeder.branches.len() + 1];
    let mut first = None;
    for &row in &feeder.order {
        let branch = &feeder.branches[row];
        worked[row + 1] = worked[branch.parent].and_then(|above| {
            let v = voltage(branch, &above, &drop(&branch.device, &report.currents[row]));
            if !differ(&v, &report.voltages[row + 1], feeder.tol) {
                return Some(v);
            }
            first = Some(first.map_or(row + 1, |first: usize| first.min(row + 1)));
            None
        });
    }
    first
}

/// The first regulator, counted from 0, with a tap that could still move as wanted, at the reported voltages and currents;
/// or, where it has no relay, with a tap that is not the given one of the feeder.
fn first_not_at_rest(feeder: &Feeder, given: &[Taps], report: &Reported) -> Option<usize> {
    feeder.regulators().zip(given).position(|((row, regulator), given)| {
        let steps = regulator.steps(feeder.branches[row].phases, &report.voltages[row + 1], &report.currents[row]);
        steps != [0; 3] || regulator.relay.is_none() && regulator.taps != *given
    })
}
