//! example FEEDER [BUFFER_LENGTH]: c/example.c in Rust, over the static library (c/run.sh has the command).
//!
//! It writes what c/example.c writes, and ends as it does. What the study answers is compared with the report: its length, and the sweeps that its table of
//! totals tells.

use std::io::{Read, Write};
use std::process::ExitCode;

const MOST_BYTES: usize = 65536;
const BUFFER_SHORT: u64 = 40;

extern "C" {
    fn flarecomb_study(feeder: *const u8, feeder_len: usize, out: *mut u8, out_len: usize) -> u64;
    fn flarecomb_check(feeder: *const u8, feeder_len: usize, report: *const u8, report_len: usize) -> u64;
}

/// An answer's bits 32 to 47, 0 to 31 and 48 to 63.
struct Answer {
    number: u64,
    value: u64,
    sweeps: u64,
}

fn parts(word: u64) -> Answer {
    Answer { number: word >> 32 & 0xffff, value: word & 0xffff_ffff, sweeps: word >> 48 }
}

fn study(feeder: &[u8], out: &mut [u8]) -> Answer {
    // SAFETY: both pointers are of slices, so they are not null and have as many bytes as said; `out` is lent to this call alone.
    parts(unsafe { flarecomb_study(feeder.as_ptr(), feeder.len(), out.as_mut_ptr(), out.len()) })
}

fn check(feeder: &[u8], report: &[u8]) -> Answer {
    // SAFETY: as above; the call only reads.
    parts(unsafe { flarecomb_check(feeder.as_ptr(), feeder.len(), report.as_ptr(), report.len()) })
}

fn refused(answer: &Answer, out: &mut impl Write) -> std::io::Result<u8> {
    writeln!(out, "refused {} {}", answer.number, answer.value)?;
    if answer.number == BUFFER_SHORT {
        eprintln!("the report has {} bytes", answer.value);
    }
    out.flush()?;
    Ok(1)
}

/// Status 0 after a pass, 1 after a refusal.
fn run(feeder: &[u8], length: usize, out: &mut impl Write) -> std::io::Result<u8> {
    let mut buffer = vec![0u8; length];
    let answer = study(feeder, &mut buffer);
    if answer.number != 0 {
        assert_eq!(answer.sweeps, 0);
        return refused(&answer, out);
    }
    let report = &buffer[..answer.value as usize];
    let text = std::str::from_utf8(report).expect("a report is ASCII");
    // the totals are the third table: the empty lines part the tables, and the first line of each has its names
    let totals = text.split("\n\n").nth(2).and_then(|table| table.lines().nth(1)).expect("a report has a row of totals");
    let told = totals.split(',').next().expect("a row has a first value");
    assert_eq!(told, answer.sweeps.to_string());
    write!(out, "{text}sweeps {}\n", answer.sweeps)?;

    let answer = check(feeder, report);
    assert_eq!(answer.sweeps, 0);
    if answer.number != 0 {
        return refused(&answer, out);
    }
    writeln!(out, "pass")?;
    out.flush()?;
    Ok(0)
}

fn main() -> ExitCode {
    let arguments: Vec<String> = std::env::args().skip(1).collect();
    let length = match arguments.get(1) {
        None => Some(MOST_BYTES),
        Some(word) => word.parse().ok().filter(|length| *length <= MOST_BYTES),
    };
    let (1 | 2, Some(length)) = (arguments.len(), length) else {
        eprintln!("usage: example FEEDER [BUFFER_LENGTH]");
        return ExitCode::from(2);
    };
    // one byte more than a feeder may have: of a longer file this much is read, and the study refuses it by its length
    let mut feeder = Vec::new();
    let read = std::fs::File::open(&arguments[0]).and_then(|file| file.take(MOST_BYTES as u64 + 1).read_to_end(&mut feeder));
    if let Err(error) = read {
        eprintln!("{}: {error}", arguments[0]);
        return ExitCode::from(2);
    }
    match run(&feeder, length, &mut std::io::stdout().lock()) {
        Ok(status) => ExitCode::from(status),
        Err(error) => {
            eprintln!("standard output: {error}");
            ExitCode::from(3)
        }
    }
}
