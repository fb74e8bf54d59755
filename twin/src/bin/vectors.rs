//! vectors FOLDER: runs all cases of the folder's index.jsonl, and of its base.jsonl if it has one, and prints the
//! differences. Files are looked for in the folder and, where the requests of document 02 share them, in the one above.
//!
//! The calls are study, check, account and root. For an account the report must pass, and the differences and the allowance
//! of the power account be those expected; for a root of a number n the root and its steps.
//!
//! A refusal comes with one value. The base's own index has several in some cases, from before S-4 of document 02; these
//! are differences here.

use std::path::Path;
use twin::cases::{answer, expected, word, Found};

/// What is wrong with the answer to the case, if anything.
fn run(folder: &Path, line: &str) -> Result<(), String> {
    let found = answer(folder, line)?;
    let due = expected(folder, line)?;
    match (&found, &due) {
        _ if found == due => Ok(()),
        (Found::Report(_), Found::Report(_)) => Err("another report".to_string()),
        _ => Err(format!("{}, due {}", short(&found), short(&due))),
    }
}

/// A report is named by its length alone.
fn short(found: &Found) -> String {
    match found {
        Found::Report(text) => format!("report of {} bytes", text.len()),
        Found::Refused { number, value } => format!("refused {number} {value}"),
        other => format!("{other:?}"),
    }
}

fn main() {
    let Some(folder) = std::env::args().nth(1) else {
        eprintln!("usage: vectors FOLDER");
        std::process::exit(2);
    };
    let folder = Path::new(&folder);
    let mut lists = vec!["index.jsonl"];
    if folder.join("base.jsonl").exists() {
        lists.push("base.jsonl");
    }
    let (mut cases, mut differences) = (0, 0);
    for list in &lists {
        let (cases_before, differences_before) = (cases, differences);
        for line in std::fs::read_to_string(folder.join(list)).expect(list).lines() {
            cases += 1;
            if let Err(reason) = run(folder, line) {
                differences += 1;
                println!("{list}, {}: {reason}", word(line, "name").unwrap_or("?"));
            }
        }
        if lists.len() > 1 {
            println!("{list}: {} cases, {} differences", cases - cases_before, differences - differences_before);
        }
    }
    println!("{cases} cases, {differences} differences");
    if differences > 0 || cases == 0 {
        std::process::exit(1);
    }
}
