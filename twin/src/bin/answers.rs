//! answers LIST OUT: answers the cases of a list anew, as the twin does now, and writes them to the folder OUT: the list
//! under its own name, and in OUT/f every file that it names. tools/archive.py can pack OUT as it packs the cases as given.
//!
//! A line keeps all that it has but for its expected answer and the places of its files. A case that cannot be answered
//! any more is left out: an account of a report that no longer passes. Printed is what changed, by kind, and each case that is
//! not only a report with the table of taps behind it.

use std::collections::BTreeMap;
use std::path::Path;
use twin::cases::{answer, behind, expected, path, word, Found};
use twin::generate_taps::without_table;

/// A case in its new form, and how its answer changed; `None` for the form where it has no answer any more.
fn anew(folder: &Path, out: &Path, line: &str) -> Result<(Option<String>, String), String> {
    let name = word(line, "name").ok_or("no name")?;
    let due = expected(folder, line)?;
    let found = match answer(folder, line) {
        Ok(found) => found,
        Err(reason) if word(line, "call") == Some("account") => return Ok((None, format!("left out: {reason}"))),
        Err(reason) => return Err(reason),
    };
    let mut line = line.to_string();
    for key in ["feeder", "report"] {
        line = with_file(folder, out, &line, key)?;
    }
    let text = match &found {
        Found::Report(report) => {
            let file = format!("f/{name}.report");
            std::fs::write(out.join(&file), report).map_err(|e| format!("{file}: {e}"))?;
            format!("{{\"answer\": \"report\", \"file\": \"{file}\"}}")
        }
        Found::Pass => "{\"answer\": \"pass\"}".to_string(),
        Found::Refused { number, value } => {
            format!("{{\"answer\": \"refuse\", \"number\": {number}, \"values\": [{value}]}}")
        }
        Found::Account { p, q, allowance } => {
            format!("{{\"answer\": \"account\", \"p\": {p}, \"q\": {q}, \"allowance\": {allowance}}}")
        }
        Found::Root { root, steps } => format!("{{\"answer\": \"ok\", \"root\": {root}, \"steps\": {steps}}}"),
    };
    let old = behind(&line, "expected").and_then(|rest| rest.split_inclusive('}').next()).ok_or("nothing expected")?;
    Ok((Some(line.replace(old, &text)), change(&due, &found)))
}

/// The line with the file of this key copied to OUT/f, if the case has one.
fn with_file(folder: &Path, out: &Path, line: &str, key: &str) -> Result<String, String> {
    let Some(old) = word(line, key) else { return Ok(line.to_string()) };
    let base = old.rsplit('/').next().unwrap_or(old);
    let copied = std::fs::read(path(folder, old)).and_then(|bytes| std::fs::write(out.join("f").join(base), bytes));
    copied.map_err(|e| format!("{old}: {e}"))?;
    Ok(line.replace(&format!("\"{key}\": \"{old}\""), &format!("\"{key}\": \"f/{base}\"")))
}

/// What changed from one answer to the other.
fn change(due: &Found, found: &Found) -> String {
    match (due, found) {
        _ if due == found => "as before".to_string(),
        (Found::Report(old), Found::Report(new)) if without_table(new) == *old => TABLE.to_string(),
        (Found::Report(_), Found::Report(_)) => "another report".to_string(),
        (Found::Refused { number: 40, .. }, Found::Refused { number: 40, .. }) => LENGTH.to_string(),
        (Found::Report(_), Found::Refused { number: 40, .. }) => SHORT.to_string(),
        _ => format!("{} for {}", named(found), named(due)),
    }
}

const TABLE: &str = "the report with its table of taps";
const LENGTH: &str = "40 with another length";
const SHORT: &str = "40 for a report";

fn named(found: &Found) -> String {
    match found {
        Found::Report(_) => "report".to_string(),
        Found::Pass => "pass".to_string(),
        Found::Refused { number, value } => format!("{number} {value}"),
        other => format!("{other:?}"),
    }
}

fn main() {
    let names: Vec<String> = std::env::args().skip(1).collect();
    let [list, out] = names.as_slice() else {
        eprintln!("usage: answers LIST OUT");
        std::process::exit(2);
    };
    let (list, out) = (Path::new(list), Path::new(out));
    let folder = list.parent().expect("a list in a folder");
    std::fs::create_dir_all(out.join("f")).expect("the folder OUT");
    let mut lines = String::new();
    let mut changes: BTreeMap<String, usize> = BTreeMap::new();
    for line in std::fs::read_to_string(list).expect("the list").lines() {
        let name = word(line, "name").unwrap_or("?");
        let (line, change) = anew(folder, out, line).unwrap_or_else(|reason| {
            eprintln!("{name}: {reason}");
            std::process::exit(1);
        });
        if let Some(line) = line {
            lines += &line;
            lines.push('\n');
        }
        if !["as before", TABLE, LENGTH, SHORT].contains(&change.as_str()) {
            println!("{name}: {change}");
        }
        *changes.entry(change).or_default() += 1;
    }
    std::fs::write(out.join(list.file_name().expect("a list's name")), lines).expect("the new list");
    let (all, same) = (changes.values().sum::<usize>(), changes.get("as before").copied().unwrap_or(0));
    for (change, count) in &changes {
        println!("{count} {change}");
    }
    println!("{all} cases, {} answered anew", all - same);
}
