//! bench [ROUNDS]: medians of study, check and reading alone, for generated feeders of three sizes and of five kinds. The
//! first three, by their loads, have none between two phases and are the same feeders as before there were any; the fourth,
//! `delta`, has loads drawn as in `mixed`, half of them put between two phases where their nodes have two. In these four all
//! taps are fixed and a study has one round. The fifth, `taps`, is drawn as `mixed`, and one regulator in three sets its
//! taps: its study has 4 to 8 rounds, which stand in a column beside the sweeps of the last.
//!
//! All in one process, the sides taking turns within each round. The output buffer has 65,536 bytes, is cleared once
//! before the first run and never again. With the feature `proved` the proved code and its ratio to the twin stand beside.
//! Reading alone is measured twice: by the twin's `read_feeder`, and on both sides by a check with an empty report (the
//! feeder is read, then 50 comes at once).

use std::hint::black_box;
use std::time::Instant;
use twin::generate::{between_phases, sound, Mix, Random};
use twin::generate_taps::give_relays;
use twin::outside::{Calls, PROVED, TWIN};
use twin::rounds::settle_taps_watched;
use twin::{read_feeder, Answer, MAX_FILE};

/// Nanoseconds of one run, from a batch of runs.
fn time(batch: u32, mut run: impl FnMut()) -> f64 {
    let start = Instant::now();
    for _ in 0..batch {
        run();
    }
    start.elapsed().as_nanos() as f64 / f64::from(batch)
}

fn median(times: &mut [f64]) -> f64 {
    times.sort_by(f64::total_cmp);
    times[times.len() / 2]
}

/// A feeder, its report, and the rounds and last sweeps of its study.
struct Bench {
    feeder: Vec<u8>,
    report: Vec<u8>,
    rounds: u32,
    sweeps: u32,
}

/// The first generated feeder of that size and kind that settles, with tol 1 and at most 100 sweeps.
fn settling(branches: usize, loads: usize, mix: Mix, kind: &str) -> Bench {
    let mut random = Random::new(2024 + branches as u64);
    loop {
        let mut draft = sound(&mut random, branches, loads, mix);
        draft.source[7] = "1".to_string();
        draft.source[8] = "100".to_string();
        match kind {
            "delta" => between_phases(&mut random, &mut draft, 2),
            "taps" => give_relays(&mut random, &mut draft, 3),
            _ => {}
        }
        let feeder = draft.text();
        let mut out = vec![0; MAX_FILE];
        if let Answer::Report { length, sweeps } = twin::study(&feeder, &mut out) {
            // All three kinds of device and more than the least number of sweeps, so that sizes can be compared.
            let kinds = ["R", "Y", "D"].iter().all(|kind| draft.branches.iter().any(|row| row[3] == *kind));
            let rounds = rounds_of(&feeder);
            let moved = kind != "taps" || (4..=8).contains(&rounds);
            if kinds && moved && (4..=8).contains(&sweeps) {
                out.truncate(length);
                return Bench { feeder, report: out, rounds, sweeps };
            }
        }
    }
}

/// The rounds that the study of a good feeder takes.
fn rounds_of(feeder: &[u8]) -> u32 {
    let mut rounds = 0;
    if let Ok(mut feeder) = read_feeder(feeder) {
        // Its answer is known.
        let _ = settle_taps_watched(&mut feeder, |round, _| rounds = round);
    }
    rounds
}

fn main() {
    let rounds: usize = std::env::args().nth(1).and_then(|n| n.parse().ok()).unwrap_or(301);
    let sides: Vec<Calls> = std::iter::once(TWIN).chain(PROVED).collect();
    println!("medians of {rounds} rounds in microseconds; buffers cleared once at the start, not between runs");
    let more = if PROVED.is_some() { "      proved       ratio" } else { "" };
    let row = format!("{:<10}{:>9}{:>7}{:>8}{:>8}", "kind", "branches", "loads", "rounds", "sweeps");
    println!("{row}  {:<28}{:>10}{more}", "call", "twin");

    let mut out = vec![0; MAX_FILE];
    let mixed = ["mixed", "delta", "taps"].map(|name| (Mix::Mixed, name));
    for (mix, name) in [(Mix::Power, "power"), (Mix::Current, "current")].into_iter().chain(mixed) {
        for (branches, loads) in [(10, 15), (50, 75), (200, 300)] {
            let Bench { feeder, report, rounds: taken, sweeps } = settling(branches, loads, mix, name);
            let row = format!("{name:<10}{branches:>9}{loads:>7}{taken:>8}{sweeps:>8}");
            let mut wrong = false;
            let batch = (400 / branches) as u32;
            let mut times = vec![Vec::with_capacity(rounds); 3 * sides.len() + 1];
            for _ in 0..rounds {
                for (side, calls) in sides.iter().enumerate() {
                    let mut words = [0; 3];
                    let study = time(batch, || words[0] = calls.study(black_box(&feeder), black_box(&mut out)));
                    let check = time(batch, || words[1] = calls.check(black_box(&feeder), black_box(&report)));
                    let empty = time(batch, || words[2] = calls.check(black_box(&feeder), black_box(&[])));
                    let written = Answer::Report { length: report.len(), sweeps };
                    wrong |= words != [written.word(), 0, 50 << 32];
                    times[3 * side].push(study);
                    times[3 * side + 1].push(check);
                    times[3 * side + 2].push(empty);
                }
                let read = time(batch, || drop(black_box(read_feeder(black_box(&feeder)))));
                times[3 * sides.len()].push(read);
            }
            let medians: Vec<f64> = times.iter_mut().map(|times| median(times) / 1000.0).collect();
            for (call, what) in ["study", "check", "check with an empty report"].into_iter().enumerate() {
                print!("{row}  {what:<28}{:>10.2}", medians[call]);
                if sides.len() > 1 {
                    print!("{:>12.2}{:>12.2}", medians[3 + call], medians[3 + call] / medians[call]);
                }
                println!();
            }
            let what = "read_feeder";
            println!("{row}  {what:<28}{:>10.2}", medians[3 * sides.len()]);
            if wrong {
                println!("a side's answers are not the twin's: these times mean nothing");
                std::process::exit(1);
            }
        }
    }
}
