//! The files of test cases: a case to a line of JSON, with its files beside the list or in the folder above it.

use crate::account::account_of;
use crate::equations::{root, steps};
use crate::{Answer, MAX_FILE};
use std::path::{Path, PathBuf};

/// The text behind `"key": ` in a line of JSON as the lists have it: no nested keys of the same name, no escaped quotes
/// in what we look up.
pub fn behind<'a>(line: &'a str, key: &str) -> Option<&'a str> {
    let mark = format!("\"{key}\": ");
    line.find(&mark).map(|at| &line[at + mark.len()..])
}

pub fn word<'a>(line: &'a str, key: &str) -> Option<&'a str> {
    behind(line, key)?.strip_prefix('"')?.split('"').next()
}

pub fn number(line: &str, key: &str) -> Option<u64> {
    let rest = behind(line, key)?;
    let end = rest.find(|c: char| !c.is_ascii_digit()).unwrap_or(rest.len());
    rest[..end].parse().ok()
}

/// Where a file of the folder's cases is.
pub fn path(folder: &Path, name: &str) -> PathBuf {
    let here = folder.join(name);
    if here.exists() {
        here
    } else {
        folder.join("..").join(name)
    }
}

pub fn read(folder: &Path, name: &str) -> Result<Vec<u8>, String> {
    std::fs::read(path(folder, name)).map_err(|e| format!("{name}: {e}"))
}

/// The file that the case names under this key.
pub fn read_named(folder: &Path, line: &str, key: &str) -> Result<Vec<u8>, String> {
    read(folder, word(line, key).ok_or(format!("no {key}"))?)
}

/// What a case is answered with.
#[derive(Debug, PartialEq, Eq)]
pub enum Found {
    Report(Vec<u8>),
    Pass,
    Refused {
        number: u32,
        value: u64,
    },
    /// Sizes of the two differences, and the allowance.
    Account {
        p: i128,
        q: i128,
        allowance: i128,
    },
    Root {
        root: u64,
        steps: u32,
    },
}

/// The twin's answer to a case; the error says why there is none.
pub fn answer(folder: &Path, line: &str) -> Result<Found, String> {
    let call = word(line, "call").ok_or("no call")?;
    if call == "root" {
        let root = root(number(line, "n").ok_or("no n")?);
        return Ok(Found::Root { root, steps: steps(root) });
    }
    let feeder = read_named(folder, line, "feeder")?;
    match call {
        "study" => study(&feeder, number(line, "buffer").map_or(MAX_FILE + 1, |length| length as usize)),
        "check" => Ok(found(crate::check(&feeder, &read_named(folder, line, "report")?), &[])),
        "account" => account(&feeder, &read_named(folder, line, "report")?),
        _ => Err(format!("unknown call {call}")),
    }
}

fn found(answer: Answer, buffer: &[u8]) -> Found {
    match answer {
        Answer::Report { length, .. } => Found::Report(buffer[..length].to_vec()),
        Answer::Pass => Found::Pass,
        Answer::Refused { number, value } => Found::Refused { number, value },
    }
}

/// The byte that a buffer holds beforehand.
fn before(at: usize) -> u8 {
    (at * 7 + 3) as u8
}

/// The study in a buffer of this length, whose bytes behind the report must keep their values.
fn study(feeder: &[u8], length: usize) -> Result<Found, String> {
    let mut buffer: Vec<u8> = (0..length).map(before).collect();
    let answer = crate::study(feeder, &mut buffer);
    let mut written = 0;
    if let Answer::Report { length, sweeps } = answer {
        written = length;
        if crate::report::sweeps_told(&buffer[..length]) != Some(sweeps) {
            return Err("the answer's sweeps are not the report's".to_string());
        }
    }
    if (written..length).any(|at| buffer[at] != before(at)) {
        return Err(format!("{answer:?}, and bytes behind it are changed"));
    }
    Ok(found(answer, &buffer))
}

/// The power account of a report that must pass.
fn account(feeder: &[u8], report: &[u8]) -> Result<Found, String> {
    let answer = crate::check(feeder, report);
    if answer != Answer::Pass {
        return Err(format!("{answer:?}, and an account is due"));
    }
    let account = account_of(feeder, report).ok_or("no account")?;
    if !account.holds() {
        return Err(format!("{account:?} does not hold"));
    }
    Ok(Found::Account { p: account.twice_p / 2, q: account.twice_q / 2, allowance: account.allowance })
}

/// The answer that the case expects.
pub fn expected(folder: &Path, line: &str) -> Result<Found, String> {
    let expected = behind(line, "expected").ok_or("nothing expected")?;
    let due = |key: &str| number(expected, key).ok_or(format!("no {key}"));
    match word(expected, "answer") {
        Some("report") => Ok(Found::Report(read_named(folder, expected, "file")?)),
        Some("pass") => Ok(Found::Pass),
        Some("refuse") => {
            let values = behind(expected, "values").and_then(|text| text.strip_prefix('[')?.split(']').next());
            let value =
                values.and_then(|text| text.parse().ok()).ok_or(format!("values {values:?}, and one is due"))?;
            Ok(Found::Refused { number: due("number")? as u32, value })
        }
        Some("account") => {
            let wide = |key: &str| due(key).map(i128::from);
            Ok(Found::Account { p: wide("p")?, q: wide("q")?, allowance: wide("allowance")? })
        }
        Some("ok") => Ok(Found::Root { root: due("root")?, steps: due("steps")? as u32 }),
        other => Err(format!("unknown answer {other:?}")),
    }
}
