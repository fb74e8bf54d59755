//! The generator's part for request S-5 of document 02: feeders with regulators that set their taps, and reports for other
//! taps or with other tables of taps.

use crate::equations::{Pair, Phases};
use crate::feeder::{read_feeder, Feeder};
use crate::generate::{
    downward_clamped, edit_lines, forge, held, one_round, report_from, row, sound, source_row, Draft, Mix, Random,
};
use crate::ladder::{settle, Currents};
use crate::relay::{Relay, Taps};
use crate::report::{line_of_totals, TAP_HEADER};
use crate::rounds::{settle_taps, settle_taps_watched};

/// The columns of p1 and p4 of a branch row.
const P1: usize = 4;
const P4: usize = 7;

/// Gives regulator rows of the draft, one in n, a level and what goes with it, by the voltages and currents of the first
/// round.
pub fn give_relays(random: &mut Random, draft: &mut Draft, n: usize) {
    let Ok(feeder) = read_feeder(&draft.text()) else { return };
    let (voltages, currents) = first_round(&feeder);
    for (row, _) in feeder.regulators() {
        if random.once_in(n) {
            let phase = some_phase(random, feeder.branches[row].phases);
            let relay = some_relay(random, voltages[row + 1][phase], currents[row + 1][phase]);
            set_relay(&mut draft.branches[row], &relay);
        }
    }
}

/// The voltages and currents of one round, or V0 held within the limit and no currents where it is refused.
fn first_round(feeder: &Feeder) -> (Vec<Phases>, Vec<Phases>) {
    match settle(feeder) {
        Ok(settled) => (settled.voltages, settled.currents.nodes),
        Err(_) => (downward_clamped(feeder), Currents::of(feeder).nodes),
    }
}

fn some_phase(random: &mut Random, phases: u8) -> usize {
    let present: Vec<usize> = (0..3).filter(|k| phases & 1 << k != 0).collect();
    *random.pick(&present)
}

fn set_relay(row: &mut [String], relay: &Relay) {
    let z = relay.compensator;
    let p = [relay.level, relay.band, relay.potential_ratio, relay.current_ratio, z.re, z.im];
    for (field, p) in row[P4..].iter_mut().zip(p) {
        *field = p.to_string();
    }
}

/// A relay for a phase with this voltage and this current: mostly with a level that some taps away would meet.
fn some_relay(random: &mut Random, v: Pair, i: Pair) -> Relay {
    let length = length(v).max(1.0);
    // Without the compensator the relay voltage is about this, often 120 V.
    let about = *random.pick(&[12_000.0, 12_000.0, 12_000.0, 6_000.0, 18_000.0, 1_000.0, 50.0]);
    let potential_ratio = ((length / about).round() as i64).clamp(1, 10_000);
    let (current_ratio, compensator) = some_compensator(random, length / potential_ratio as f64, i);
    let mut relay = Relay { level: 1, band: 0, potential_ratio, current_ratio, compensator };

    let measured = relay.voltage(v, i);
    if random.once_in(3) {
        (relay.level, relay.band) = edge_at(random, measured);
        return relay;
    }
    let part = match random.below(10) {
        0..=4 => 0.95 + 0.1 * random.share(),
        5 | 6 => 0.85 + 0.3 * random.share(),
        7 => 1.0,
        // Out of reach of any tap.
        _ => *random.pick(&[0.01, 0.5, 0.8, 1.3, 2.0, 100.0]),
    };
    relay.level = ((self::length(measured) * part).round() as i64).clamp(1, 20_000);
    relay.band = some_band(random, relay.level);
    relay
}

/// A level and a band with an edge right at this relay voltage, on one side of it or the other: a relay voltage that is one
/// unit off, as by another rounding, then wants another step.
fn edge_at(random: &mut Random, measured: Pair) -> (i64, i64) {
    // The length of twice the voltage lies from `edge` on, and below `edge` + 1.
    let edge = (4 * measured.square()).isqrt() + random.between(0, 1);
    let half = random.between(1, 1 + edge / 50);
    let (level, band) = if random.once_in(2) {
        let level = edge / 2 + half;
        (level, 2 * level - edge)
    } else {
        let level = edge / 2 - half;
        (level, edge - 2 * level)
    };
    (level.clamp(1, 20_000), band.clamp(0, 20_000))
}

fn length(pair: Pair) -> f64 {
    (pair.square() as f64).sqrt()
}

/// A current ratio, R and X: mostly none, or a drop of up to a tenth of what is measured, at this current.
fn some_compensator(random: &mut Random, measured: f64, i: Pair) -> (i64, Pair) {
    let ratio = *random.pick(&[1, 2, 2, 3, 7, 20, 200, 1_000, 10_000]);
    match random.below(8) {
        0..=3 => (ratio, Pair::default()),
        4..=6 => {
            let most = 0.1 * measured * ratio as f64 * 10_000_000.0 / length(i).max(1.0);
            let most = (most as i64).clamp(1, 100_000_000);
            let least = if random.once_in(3) { -most } else { 0 };
            (ratio, Pair { re: random.between(least, most), im: random.between(least, most) })
        }
        _ => {
            let ends = [100_000_000, -100_000_000, 0, 1, -1];
            (ratio, Pair { re: *random.pick(&ends), im: *random.pick(&ends) })
        }
    }
}

/// A band for this level. One step moves a tap's voltage by about 0.6 per cent: a band of more than that can be met, in a
/// narrower one the tap may go to and fro. From twice the level on the bracket is not above 0.
fn some_band(random: &mut Random, level: i64) -> i64 {
    let part = |random: &mut Random, low: f64, high: f64| (level as f64 * (low + (high - low) * random.share())) as i64;
    let band = match random.below(12) {
        0..=5 => part(random, 0.013, 0.04) + 1,
        6 | 7 => part(random, 0.003, 0.013),
        8 => random.between(0, 3),
        9 => 2 * level + random.between(-1, 1),
        10 => part(random, 2.0, 3.0),
        _ => random.between(0, 20_000),
    };
    band.clamp(0, 20_000)
}

/// Feeders with regulators that set their taps.
pub fn regulators(random: &mut Random) -> Draft {
    match random.below(24) {
        0..=4 => among_lines(random),
        5..=7 => in_a_row(random),
        8..=11 => at_the_edge(random),
        12 | 13 => a_long_way(random),
        14..=17 => beyond_later(random),
        18 => not_settled_later(random),
        19 => zero_later(random),
        _ => faulty(random),
    }
}

/// A sound feeder in which some lines are made regulators, with and without relays.
fn among_lines(random: &mut Random) -> Draft {
    let most = *random.pick(&[3, 6, 12, 30]);
    let branches = random.between(1, most) as usize;
    let loads = random.below(branches * 3 / 2 + 3);
    let mut draft = sound(random, branches, loads, Mix::Mixed);
    let n = *random.pick(&[1, 2, 4]);
    for row in draft.branches.iter_mut().filter(|row| row[3] == "L") {
        // Two or three in a row stay within the limits, as a rule.
        if random.once_in(n + branches / 4) {
            make_regulator(random, row, 4);
        }
    }
    let n = *random.pick(&[1, 1, 2, 3]);
    give_relays(random, &mut draft, n);
    draft
}

/// Makes the row a regulator without a relay, its taps within ±`most`.
fn make_regulator(random: &mut Random, row: &mut [String], most: i64) {
    row[3] = "R".to_string();
    row[P1..].fill("0".to_string());
    for k in 0..3 {
        if row[2].contains(["A", "B", "C"][k]) {
            row[P1 + k] = random.between(-most, most).to_string();
        }
    }
}

/// Two to six regulators, each feeding the next, some lines between them and loads behind.
fn in_a_row(random: &mut Random) -> Draft {
    let phases = *random.pick(&["A", "C", "AB", "BC", "ABC", "ABC"]);
    let cv = *random.pick(&[240_000, 720_000, 720_000, 1_200_000]);
    let tol = *random.pick(&[0, 1, 1, 5, 100]);
    let mut draft = Draft { source: source_row("S", cv, tol, random.between(10, 60)), ..Draft::default() };
    let mut from = "S".to_string();
    for k in 0..random.between(2, 6) {
        if random.once_in(2) {
            draft.branches.push(line_of_ohms(random, &from, &format!("M{k}"), phases, 300_000));
            from = format!("M{k}");
        }
        let mut row = line_of_ohms(random, &from, &format!("N{k}"), phases, 0);
        make_regulator(random, &mut row, 3);
        draft.branches.push(row);
        from = format!("N{k}");
    }
    draft.branches.push(line_of_ohms(random, &from, "E", phases, 300_000));
    for _ in 0..random.between(0, 4) {
        let letters: Vec<char> = phases.chars().collect();
        let va = cv / 10;
        let kind = random.pick(&["P", "I", "Z"]);
        draft.loads.push(row![
            "E",
            random.pick(&letters),
            kind,
            cv,
            random.between(0, va),
            random.between(-va, va) / 4
        ]);
    }
    let n = *random.pick(&[1, 1, 1, 2]);
    give_relays(random, &mut draft, n);
    if random.once_in(3) {
        random.shuffle(&mut draft.branches);
    }
    draft
}

/// A line with these phases and impedances of its own up to `most`, none between phases.
fn line_of_ohms(random: &mut Random, from: &str, to: &str, phases: &str, most: i64) -> Vec<String> {
    let mut row = row![from, to, phases, "L", 0, 0, 0, 0, 0, 0, 0, 0, 0, 0, 0, 0];
    for (letter, column) in [("A", 4), ("B", 10), ("C", 14)] {
        if phases.contains(letter) {
            row[column] = random.between(0, most).to_string();
            row[column + 1] = random.between(0, most).to_string();
        }
    }
    row
}

/// One regulator whose relay is exactly at the edge of its band with the taps of the first round, or one unit to a side.
fn at_the_edge(random: &mut Random) -> Draft {
    // 160·V/(160 − tap) is whole where V is a multiple of 160 − tap, and that by the potential ratio too.
    let tap = random.between(-16, 16);
    let times = random.between(1, 25);
    // A small one, so that some cV more or less are another relay voltage; or any.
    let most = *random.pick(&[2, 20, 2_000_000]);
    let ratio = random.between(1, most.min(2_000_000 / (880 * times)));
    // Each phase at another angle, its relay voltage of the same length: 800 times `times`.
    let unit = times * (160 - tap) * ratio;
    let mut parts = [[5, 0], [0, -5], [-3, 4], [4, 3], [-5, 0]];
    random.shuffle(&mut parts);
    let tol = *random.pick(&[0, 0, 1, 10, 100, 1_000, 1_000]);
    let mut source = row!["S"];
    source.extend(parts[..3].concat().iter().map(|part| (part * unit).to_string()));
    source.extend(row![tol, 20]);
    let mut draft = Draft { source, ..Draft::default() };

    let measured = 800 * times;
    // 2·level − band, or 2·level + band, is twice what is measured, or one or two off that.
    let off = *random.pick(&[0, 0, 0, 1, -1, 1, -1, 2, -2]);
    let most = *random.pick(&[2, 20, 200, measured]);
    let half = random.between(1, most);
    let (level, band) =
        if random.once_in(2) { (measured + half, 2 * half - off) } else { (measured - half, 2 * half + off) };
    let phases = *random.pick(&["A", "B", "C", "AC", "ABC"]);
    let mut row = line_of_ohms(random, "S", "N", phases, 0);
    make_regulator(random, &mut row, 0);
    for k in 0..3 {
        if phases.contains(["A", "B", "C"][k]) {
            row[P1 + k] = tap.to_string();
        }
    }
    let relay = Relay {
        level: level.clamp(1, 20_000),
        band: band.clamp(0, 20_000),
        potential_ratio: ratio,
        current_ratio: random.between(1, 10_000),
        // Without a load no current flows, and any compensator will do.
        compensator: Pair { re: random.between(-1_000, 1_000), im: random.between(-1_000, 1_000) },
    };
    set_relay(&mut row, &relay);
    draft.branches.push(row);
    if random.once_in(4) {
        draft.loads.push(row!["N", &phases[..1], "Z", 2_000_000, random.between(-100, 100), 0]);
    }
    draft
}

/// Regulators with taps near one end and a level that is met near the other, or nowhere: 31 moves are made, 32 are not.
fn a_long_way(random: &mut Random) -> Draft {
    let cv = random.between(100_000, 1_500_000);
    let mut draft = Draft { source: source_row("S", cv, 1, 20), ..Draft::default() };
    for n in 0..random.between(1, 3) {
        let phases = *random.pick(&["A", "B", "AB", "ABC"]);
        let mut row = line_of_ohms(random, "S", &format!("N{n}"), phases, 0);
        make_regulator(random, &mut row, 0);
        let down = random.once_in(2);
        let sign = if down { -1 } else { 1 };
        for k in 0..3 {
            if phases.contains(["A", "B", "C"][k]) {
                row[P1 + k] = (-sign * random.between(13, 16)).to_string();
            }
        }
        let ratio = (cv / 12_000).max(1);
        let level = match random.below(4) {
            0 if down => 1,
            0 => 20_000,
            _ => 160 * cv / (160 - sign * random.between(13, 16)) / ratio,
        };
        let band = level / 125 + random.between(0, 20);
        let relay = Relay {
            level: level.clamp(1, 20_000),
            band,
            potential_ratio: ratio,
            current_ratio: 1,
            compensator: Pair::default(),
        };
        set_relay(&mut row, &relay);
        draft.branches.push(row);
    }
    draft
}

/// A regulator behind which a voltage or a current is beyond its limit from some tap on: 31 to 33 in a later round; or in the
/// first, and then taps further down are at rest, for which a report passes. Below tap 0 a regulator takes less than it
/// gives, so that 31 can come before 32.
fn beyond_later(random: &mut Random) -> Draft {
    // At `tap` the voltage is about 2,000,000, from a source that is within it; or 720,000.
    let near_limit = random.once_in(2);
    let tap = if near_limit { random.between(1, 15) } else { random.between(-13, 10) };
    let (volts, off, ratio) = if near_limit { (2_000_000, random.between(-60, 30), 150) } else { (720_000, 0, 60) };
    let cv = volts * (160 - tap) / 160 + off;
    let (first, level, band) = if random.once_in(3) {
        let level = 160 * cv / (162 - tap) / ratio;
        ((tap + random.between(1, 3)).min(16), level, level / 50)
    } else {
        (tap - random.between(1, 3), 20_000, random.between(0, 2_000))
    };
    let (tol, limit) = (*random.pick(&[0, 1, 10]), random.between(5, 40));
    let mut draft = Draft { source: row!["S", cv, 0, 0, cv, -cv, 0, tol, limit], ..Draft::default() };
    let phases = *random.pick(&["A", "AB", "ABC"]);
    let mut row = line_of_ohms(random, "S", "N", phases, 0);
    make_regulator(random, &mut row, 0);
    for k in 0..phases.len() {
        row[P1 + k] = first.to_string();
    }
    let relay = Relay { level, band, potential_ratio: ratio, current_ratio: 1, compensator: Pair::default() };
    set_relay(&mut row, &relay);
    draft.branches.push(row);
    draft.branches.push(line_of_ohms(random, "N", "E", phases, 1_000));
    // Z loads with about 2,000,000 mA at `tap`, on the side of the regulator that has more, or that give power, which raises
    // the voltage behind the line in a sweep.
    let vn = random.between(100_000, 300_000);
    let at_limit = 20 * vn * vn / volts * (160 - tap.max(0)) / 160;
    let (node, percent) = *random.pick(&[("N", 100), ("E", 100), ("N", 95), ("E", -50), ("E", -90), ("E", -95)]);
    let loads = random.between(1, 2);
    for _ in 0..loads {
        draft.loads.push(row![node, "A", "Z", vn, at_limit * percent / 100 / loads, 0]);
    }
    draft
}

/// A feeder whose limit of sweeps is enough for its first round, or for all but the longest: 34 in a later round.
fn not_settled_later(random: &mut Random) -> Draft {
    let mut draft = in_a_row(random);
    // One load of constant power, so that the sweeps go with the voltage.
    let phase = draft.branches.iter().map(|row| row[2][..1].to_string()).next().unwrap_or_default();
    let cv: i64 = draft.source[1].parse().unwrap_or(1);
    draft.loads.push(row!["E", phase, "P", cv, cv / 4, 0]);
    draft.source[7] = random.pick(&["0", "1"]).to_string();
    draft.source[8] = "100".to_string();
    let Ok(mut feeder) = read_feeder(&draft.text()) else { return draft };
    let mut sweeps = vec![0i64; 40];
    let _ = settle_taps_watched(&mut feeder, |round, _| sweeps[round as usize] += 1);
    let longest = sweeps.iter().max().copied().unwrap_or(1);
    let limit = if random.once_in(2) { sweeps[1] } else { longest - 1 };
    draft.source[8] = limit.max(1).to_string();
    draft
}

/// A regulator that moves until a P load behind a line is constant power and takes so much that all of the voltage drops:
/// then its next sweep is at zero voltage, where an I row meets 30.
fn zero_later(random: &mut Random) -> Draft {
    // At `tap` 16,000·c cV feed the line of 1 Ω; there (160·c)² VA take 160,000·c mA, which drop 16,000·c cV.
    let c = random.between(1, 10);
    let tap = random.between(-15, 16);
    let first = random.between(-16, tap - 1);
    let cv = 100 * c * (160 - tap);
    let mut draft = Draft { source: row!["S", cv, 0, 0, 0, 0, 0, 1, 40], ..Draft::default() };
    let mut row = line_of_ohms(random, "S", "M", "A", 0);
    make_regulator(random, &mut row, 0);
    row[P1] = first.to_string();
    let relay = Relay {
        level: 20_000,
        band: random.between(0, 100),
        potential_ratio: 10,
        current_ratio: 1,
        compensator: Pair::default(),
    };
    set_relay(&mut row, &relay);
    draft.branches.push(row);
    draft.branches.push(row!["M", "N", "A", "L", 1_000_000, 0, 0, 0, 0, 0, 0, 0, 0, 0, 0, 0]);
    // 70 per cent of this vn is 16,000·c or just below it: one tap further down the load is an impedance.
    draft.loads.push(row!["N", "A", "P", 160_000 * c / 7, 160 * c * 160 * c, 0]);
    draft.loads.push(row!["N", "A", random.pick(&["I", "I", "I", "Z"]), 1, 0, 0]);
    draft
}

/// Regulator rows with values past their limits, or not 0 where 0 is due: 11 and 24.
fn faulty(random: &mut Random) -> Draft {
    let mut draft = if random.once_in(2) { among_lines(random) } else { in_a_row(random) };
    let rows: Vec<usize> = (0..draft.branches.len()).filter(|row| draft.branches[*row][3] == "R").collect();
    // One kind of fault at a time, so that what comes behind it is met too.
    let kind = random.below(4);
    for _ in 0..random.between(1, 3) {
        if rows.is_empty() {
            break;
        }
        let row = &mut draft.branches[*random.pick(&rows)];
        let any = *random.pick(&[1i64, -1, 16, 20_001, 999_999_999_999_999_999, -999_999_999_999_999_999]);
        let ends: [(usize, &[i64]); 7] = [
            (P4, &[-1, 20_001]),
            (P4, &[-1, 0, 1, 20_000, 20_001, 999_999_999_999_999_999]),
            (P4 + 1, &[-1, 0, 20_000, 20_001]),
            (P4 + 2, &[-1, 0, 1, 10_000, 10_001]),
            (P4 + 3, &[-1, 0, 1, 10_000, 10_001]),
            (P4 + 4, &[100_000_000, 100_000_001, -100_000_000, -100_000_001]),
            (P4 + 5, &[100_000_000, 100_000_001, -100_000_000, -100_000_001]),
        ];
        match kind {
            // p5 to p9 without a level.
            0 => {
                row[P4..P4 + 6].fill("0".to_string());
                row[P4 + 1 + random.below(5)] = any.to_string();
            }
            // p10 to p12.
            1 => row[P4 + 6 + random.below(3)] = any.to_string(),
            // Ends of the limits, where there is a level and where there is none.
            2 => {
                let (column, values) = random.pick(&ends);
                row[*column] = random.pick(values).to_string();
            }
            // Taps, mostly on phases that are absent.
            _ => {
                let absent = (0..3).find(|k| !row[2].contains(["A", "B", "C"][*k]) && !random.once_in(3));
                row[P1 + absent.unwrap_or(random.below(3))] = random.pick(&[1, -1, 16, -16, 1, -17]).to_string();
            }
        }
    }
    draft
}

/// A report for other taps than those that the study ends with (`last` has these), or with its table of taps changed.
pub fn tap_report(random: &mut Random, feeder: &Feeder, last: &Feeder, own: &[u8]) -> Vec<u8> {
    match random.below(18) {
        0..=3 => {
            let other = rested_elsewhere(random, feeder);
            let moves = random.below(2);
            forge(random, &other, moves)
        }
        4..=7 => {
            let mut other = last.clone();
            for _ in 0..random.between(1, 4) {
                change_tap(random, &mut other);
            }
            forge(random, &other, 0)
        }
        8..=12 => across_an_edge(random, last),
        13 | 14 => edit_table(random, feeder, own),
        15 | 16 => edit_tap(random, feeder, own),
        _ => without_table(own),
    }
}

/// A report for the taps in use in which the voltage of a regulator's phase is moved by at most tol, so that another step is
/// wanted there, if one of some moves leads to that.
fn across_an_edge(random: &mut Random, feeder: &Feeder) -> Vec<u8> {
    let (mut voltages, sweeps) = one_round(feeder);
    let mut currents = Currents::of(feeder);
    let _ = currents.work(feeder, &voltages);
    let tol = feeder.tol;
    for (row, regulator) in feeder.regulators() {
        let Some(relay) = &regulator.relay else { continue };
        let phase = some_phase(random, feeder.branches[row].phases);
        let (v, i) = (&mut voltages[row + 1][phase], currents.nodes[row + 1][phase]);
        let unmoved = relay.wants(*v, i);
        for _ in 0..8 {
            let by = [-tol, 0, tol, random.between(-tol, tol)];
            let moved = held(*v + Pair { re: *random.pick(&by), im: *random.pick(&by) });
            if relay.wants(moved, i) != unmoved {
                *v = moved;
                break;
            }
        }
    }
    report_from(feeder, &voltages, sweeps)
}

/// The feeder with the taps that rounds from other taps than p1 to p3 end with. Where a level is 0 they stay, as a rule.
pub fn rested_elsewhere(random: &mut Random, feeder: &Feeder) -> Feeder {
    let mut feeder = feeder.clone();
    let mut taps = feeder.taps();
    let fixed_too = random.once_in(6);
    for (taps, (row, regulator)) in taps.iter_mut().zip(feeder.regulators()) {
        if regulator.relay.is_some() || fixed_too {
            *taps = some_taps(random, feeder.branches[row].phases);
        }
    }
    feeder.set_taps(&taps);
    // Where it is refused, the taps are those of the round that was.
    let _ = settle_taps(&mut feeder);
    feeder
}

/// Any taps for these phases, half of the time all alike.
fn some_taps(random: &mut Random, phases: u8) -> Taps {
    let alike = random.once_in(2).then(|| random.between(-16, 16));
    std::array::from_fn(|k| if phases & 1 << k != 0 { alike.unwrap_or_else(|| random.between(-16, 16)) } else { 0 })
}

/// Changes the tap of one phase of one regulator.
fn change_tap(random: &mut Random, feeder: &mut Feeder) {
    let rows: Vec<usize> = feeder.regulators().map(|(row, _)| row).collect();
    if rows.is_empty() {
        return;
    }
    let n = random.below(rows.len());
    let phase = some_phase(random, feeder.branches[rows[n]].phases);
    let mut taps = feeder.taps();
    let tap = &mut taps[n][phase];
    *tap = match random.below(6) {
        0 | 1 => *tap + 1,
        2 | 3 => *tap - 1,
        4 => *random.pick(&[16, -16]),
        _ => random.between(-16, 16),
    }
    .clamp(-16, 16);
    feeder.set_taps(&taps);
}

/// Changes one tap of the table and nothing else of the report.
fn edit_tap(random: &mut Random, feeder: &Feeder, text: &[u8]) -> Vec<u8> {
    let first = line_of_totals(feeder) as usize + 2;
    edit_lines(random, text, |random, lines| {
        let rows = lines.len() - 1 - first;
        if rows == 0 {
            return;
        }
        let line = &mut lines[first + random.below(rows)];
        let mut fields: Vec<String> = String::from_utf8_lossy(line).split(',').map(str::to_string).collect();
        let field = &mut fields[1 + random.below(3)];
        let tap: i64 = field.parse().unwrap_or(0);
        *field = match random.below(4) {
            0 => (tap + random.between(-1, 1)).to_string(),
            1 => random.pick(&[16, -16, 17, -17]).to_string(),
            2 => random.pick(&["0", "1", "-1", "-0", "01", "", "+1", "1 "]).to_string(),
            _ => random.pick(&["999999999999999999", "-999999999999999999", "1000000000000000000", "A"]).to_string(),
        };
        *line = fields.join(",").into_bytes();
    })
}

/// Changes the rows of the table, its line of names, or what stands before and behind it.
fn edit_table(random: &mut Random, feeder: &Feeder, text: &[u8]) -> Vec<u8> {
    let totals = line_of_totals(feeder) as usize;
    // Behind the totals: an empty line, the names, the rows, and nothing behind the last LF.
    let (empty, names, first) = (totals, totals + 1, totals + 2);
    edit_lines(random, text, |random, lines| {
        let rows = lines.len() - 1 - first;
        let any = first + random.below(rows);
        let other = first + random.below(rows);
        match random.below(12) {
            0 if rows > 0 => {
                lines.remove(any);
            }
            1 if rows > 0 => lines.insert(other, lines[any].clone()),
            2 | 3 if rows > 1 => lines.swap(any, other),
            4 => lines.truncate(first),
            5 => {
                let behind = *random.pick(&["", "X,0,0,0", "0", "\n"]);
                lines.insert(first + rows, behind.into());
                return;
            }
            6 => {
                lines.remove(names);
            }
            7 => {
                lines.remove(empty);
            }
            8 => {
                let other =
                    ["to,tap_a,tap_b", "to,tap_a,tap_b,tap_c,", "TO,tap_a,tap_b,tap_c", "to,tap_c,tap_b,tap_a", ""];
                lines[names] = random.pick(&other).as_bytes().to_vec();
            }
            9 => {
                // The table stops at its empty line, or in its names.
                lines.truncate(names + random.below(2));
                if lines.len() > names {
                    let part = random.below(TAP_HEADER.len());
                    lines[names].truncate(part);
                    return;
                }
            }
            _ if rows > 0 => {
                // A name that is another row's, or none of the feeder.
                let names =
                    [text_of(&lines[other]), "X,0,0,0".to_string(), "n1,0,0,0".to_string(), ",0,0,0".to_string()];
                let name = random.pick(&names).split(',').next().unwrap_or_default().to_string();
                let line = text_of(&lines[any]);
                let rest = line.split_once(',').map_or("", |(_, rest)| rest);
                lines[any] = format!("{name},{rest}").into_bytes();
            }
            _ => lines.push(b"X,0,0,0".to_vec()),
        }
        if lines.last().is_some_and(|line| !line.is_empty()) {
            lines.push(Vec::new());
        }
    })
}

fn text_of(line: &[u8]) -> String {
    String::from_utf8_lossy(line).into_owned()
}

/// The report as it was filed before there was a table of taps; a text that has none as it is.
pub fn without_table(report: &[u8]) -> Vec<u8> {
    let mark = format!("\n\n{TAP_HEADER}");
    match report.windows(mark.len()).position(|bytes| bytes == mark.as_bytes()) {
        Some(at) => report[..at + 1].to_vec(),
        None => report.to_vec(),
    }
}

#[cfg(test)]
mod tests {
    use super::*;
    use crate::faults::lines_with;
    use crate::feeder::Device;
    use crate::generate::{any_feeder, any_report, at_last_taps};
    use crate::ladder::Settled;
    use crate::relay::MOST_TAP;
    use crate::report::{read_report, Reported};
    use crate::rounds::move_taps;
    use crate::{check, study, Answer, MAX_FILE};
    use std::collections::BTreeMap;

    type Met = BTreeMap<String, usize>;

    fn count(met: &mut Met, what: &str) {
        *met.entry(what.to_string()).or_default() += 1;
    }

    /// What a relay has at this voltage and this current of a present phase with this tap.
    fn count_relay(met: &mut Met, relay: &Relay, tap: i64, v: Pair, i: Pair) {
        let twice = 4 * relay.voltage(v, i).square();
        let (low, high) = (2 * relay.level - relay.band, 2 * relay.level + relay.band);
        let wants = relay.wants(v, i);
        let is = |edge: i64| edge >= 0 && twice == edge * edge;
        let kinds = [
            ("up wanted at 16", wants == 1 && tap == MOST_TAP),
            ("down wanted at -16", wants == -1 && tap == -MOST_TAP),
            ("at the lower edge", is(low)),
            ("at the upper edge", is(high)),
            ("one below the lower edge", is(low - 1)),
            ("one above the upper edge", is(high + 1)),
            ("below a negative bracket", low < 0 && twice < low * low),
            ("the compensator decides", wants != Relay { compensator: Pair::default(), ..relay.clone() }.wants(v, i)),
        ];
        for (kind, _) in kinds.iter().filter(|(_, met)| *met) {
            count(met, &format!("relay: {kind}"));
        }
    }

    fn count_relays(met: &mut Met, feeder: &Feeder, settled: &Settled) {
        for (row, regulator) in feeder.regulators() {
            let Some(relay) = &regulator.relay else { continue };
            for k in (0..3).filter(|k| feeder.branches[row].phases & 1 << k != 0) {
                let (v, i) = (settled.voltages[row + 1][k], settled.currents.nodes[row + 1][k]);
                count_relay(met, relay, regulator.taps[k], v, i);
            }
        }
    }

    /// How many regulators with a relay stand on the way from this node to the source.
    fn relays_above(feeder: &Feeder, mut node: usize) -> usize {
        let mut relays = 0;
        while node > 0 {
            let branch = &feeder.branches[node - 1];
            relays += usize::from(matches!(&branch.device, Device::Regulator(regulator) if regulator.relay.is_some()));
            node = branch.parent;
        }
        relays
    }

    fn count_feeder(met: &mut Met, feeder: &Feeder) {
        let relays = feeder.regulators().filter(|(_, regulator)| regulator.relay.is_some()).count();
        let fixed = feeder.regulators().count() - relays;
        match (relays, fixed) {
            (0, 0) => count(met, "feeder: no regulator"),
            (0, _) => count(met, "feeder: fixed taps alone"),
            (_, 0) => count(met, "feeder: relays alone"),
            _ => count(met, "feeder: relays and fixed taps"),
        }
        for (row, regulator) in feeder.regulators().filter(|(_, regulator)| regulator.relay.is_some()) {
            count(met, &format!("feeder: relay on {} phases", feeder.branches[row].phases.count_ones()));
            if relays_above(feeder, row + 1) > 1 {
                count(met, "feeder: relays in a row");
            }
            let relay = regulator.relay.as_ref().expect("a relay");
            if relay.band == 0 {
                count(met, "feeder: no band");
            }
            if [relay.compensator.re, relay.compensator.im].iter().any(|part| part.abs() == 100_000_000) {
                count(met, "feeder: compensator at its limit");
            }
        }
    }

    /// The rounds once more, one by one. Their answer must be the study's.
    fn count_study(met: &mut Met, feeder: &Feeder) {
        if feeder.regulators().all(|(_, regulator)| regulator.relay.is_none()) {
            return;
        }
        let answer = settle_taps(&mut feeder.clone());
        let mut feeder = feeder.clone();
        let mut taps = vec![feeder.taps()];
        loop {
            let round = taps.len();
            match settle(&feeder) {
                Err(refusal) => {
                    assert_eq!(answer.err(), Some(refusal));
                    if round == 1 {
                        return count(met, "study: 30 to 34 in the first round");
                    }
                    let of_v0 = if refusal == (33, 0) { " of V0" } else { "" };
                    return count(met, &format!("study: {}{of_v0} in a later round", refusal.0));
                }
                Ok(settled) => {
                    count_relays(met, &feeder, &settled);
                    if !move_taps(&mut feeder, &settled) {
                        assert!(answer.is_ok_and(|answer| answer.voltages == settled.voltages));
                        let rounds = if (2..32).contains(&round) { "2 to 31" } else { &round.to_string() };
                        return count(met, &format!("study: report, rounds {rounds}"));
                    }
                    taps.push(feeder.taps());
                    if round == 32 {
                        assert_eq!(answer.err(), Some((35, 32)));
                        return count(
                            met,
                            if to_and_fro(&taps) { "study: 35, to and fro" } else { "study: 35, one way" },
                        );
                    }
                }
            }
        }
    }

    /// Whether a tap moved both up and down.
    fn to_and_fro(rounds: &[Vec<Taps>]) -> bool {
        let moved = |way: i64, n: usize, k: usize| rounds.windows(2).any(|pair| pair[1][n][k] - pair[0][n][k] == way);
        (0..rounds[0].len()).any(|n| (0..3).any(|k| moved(1, n, k) && moved(-1, n, k)))
    }

    /// Which value of a regulator row is beyond its limit (11) or not 0 (24).
    fn count_fault(met: &mut Met, text: &[u8], number: u32, line: u64) {
        let text = String::from_utf8_lossy(text);
        let row: Vec<&str> = text.lines().nth(line as usize - 1).unwrap_or_default().split(',').collect();
        if row.len() != 16 || row[3] != "R" {
            return;
        }
        let beyond = |columns: std::ops::Range<usize>, least: i64, most: i64| {
            columns.into_iter().any(|column| !(least..=most).contains(&row[column].parse().unwrap_or(0)))
        };
        let level = if row[P4] == "0" { "level 0" } else { "a level" };
        match number {
            11 if beyond(P1..P4, -16, 16) => count(met, "11: taps"),
            11 if beyond(P4..P4 + 1, 0, 20_000) => count(met, "11: level"),
            11 => count(met, &format!("11: p5 to p9 at {level}")),
            _ if beyond(P4 + 6..P4 + 9, 0, 0) => count(met, &format!("24: p10 to p12 at {level}")),
            _ if row[P4] == "0" && beyond(P4 + 1..P4 + 6, 0, 0) => count(met, "24: p5 to p9 at level 0"),
            _ => count(met, "24: taps"),
        }
    }

    fn count_check(met: &mut Met, feeder: &Feeder, texts: (&[u8], &[u8])) {
        let relays = feeder.regulators().any(|(_, regulator)| regulator.relay.is_some());
        let (answer, read) = (check(texts.0, texts.1), read_report(feeder, texts.1));
        let told = texts.1.windows(TAP_HEADER.len()).any(|bytes| bytes == TAP_HEADER.as_bytes());
        match answer {
            Answer::Pass if relays && settle(feeder).is_err() => count(met, "check: pass, the first round refused"),
            Answer::Pass if !told => count(met, "check: pass without the table"),
            Answer::Pass if relays && read.is_ok_and(|read| read.taps != at_last_taps(feeder).taps()) => {
                count(met, "check: pass with other taps than the study's")
            }
            Answer::Refused { number: 50, .. } if relays && !told => count(met, "check: 50 without the table"),
            Answer::Refused { number: 51, value } if value > line_of_totals(feeder) => count(met, "check: 51 of taps"),
            Answer::Refused { number: 56, value } => {
                let n = (value - line_of_totals(feeder)) as usize - 3;
                let fixed = feeder.regulators().nth(n).is_some_and(|(_, regulator)| regulator.relay.is_none());
                count(met, if fixed { "check: 56 of a fixed tap" } else { "check: 56 of a tap that can move" });
                if n > 0 {
                    count(met, "check: 56 behind a regulator at rest");
                }
                if lines_with(56, texts.0, texts.1).is_some_and(|lines| lines.len() > 1) {
                    count(met, "check: 56 in several rows");
                }
            }
            _ => {}
        }
        if let (Answer::Pass | Answer::Refused { number: 56, .. }, Ok(read)) = (answer, read_report(feeder, texts.1)) {
            if relays && decided_by_reported(feeder, &read) {
                count(met, "check: the reported voltage decides, not the worked one");
            }
        }
    }

    /// Whether a step would be another at the voltages worked downward with the reported currents, of which those reported
    /// are within tol.
    fn decided_by_reported(feeder: &Feeder, report: &Reported) -> bool {
        let mut feeder = feeder.clone();
        feeder.set_taps(&report.taps);
        let mut worked = report.voltages.clone();
        for &row in &feeder.order {
            let branch = &feeder.branches[row];
            let drop = crate::equations::drop(&branch.device, &report.currents[row]);
            worked[row + 1] = crate::equations::voltage(branch, &worked[branch.parent], &drop);
        }
        let steps = |v: &[Phases]| -> Vec<Taps> {
            let of = |row: usize| (feeder.branches[row].phases, &v[row + 1], &report.currents[row]);
            let steps = feeder.regulators().map(|(row, regulator)| (of(row), regulator));
            steps.map(|((phases, v, i), regulator)| regulator.steps(phases, v, i)).collect()
        };
        steps(&worked) != steps(&report.voltages)
    }

    #[test]
    fn regulators_are_drawn() {
        // How often each of these is met: feeders by their regulators, relays at the study's last round, and answers.
        let mut met = Met::new();
        let mut out = vec![0; MAX_FILE];
        for seed in 0..6000 {
            let mut random = Random::new(seed);
            let text = any_feeder(&mut random);
            let report = any_report(&mut random, &text);
            let feeder = match read_feeder(&text) {
                Ok(feeder) => feeder,
                Err((number @ (11 | 24), line)) => {
                    count_fault(&mut met, &text, number, line);
                    continue;
                }
                Err(_) => continue,
            };
            count_feeder(&mut met, &feeder);
            count_study(&mut met, &feeder);
            count_check(&mut met, &feeder, (&text, &report));
            if let Answer::Report { length, .. } = study(&text, &mut out) {
                assert_eq!(check(&text, &out[..length]), Answer::Pass, "seed {seed}");
            }
        }
        assert_eq!(met.len(), 47, "{met:#?}");
        assert!(met.values().all(|count| *count >= 10), "{met:#?}");
    }
}
