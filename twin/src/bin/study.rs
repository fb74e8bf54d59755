//! study < FEEDER: writes the report, or `refused NUMBER VALUE`.

use std::io::{Read, Write};
use twin::Answer;

fn main() -> std::io::Result<()> {
    // One byte past the largest file is enough to see that a file is too long.
    let mut feeder = Vec::new();
    std::io::stdin().lock().take(twin::MAX_FILE as u64 + 1).read_to_end(&mut feeder)?;
    let mut buffer = vec![0; twin::MAX_FILE];
    let mut out = std::io::stdout().lock();
    match twin::study(&feeder, &mut buffer) {
        Answer::Report { length, .. } => out.write_all(&buffer[..length]),
        Answer::Pass => unreachable!("a study does not pass"),
        Answer::Refused { number, value } => writeln!(out, "refused {number} {value}"),
    }
}
