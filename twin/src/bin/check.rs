//! check FEEDER REPORT: writes `pass`, or `refused NUMBER VALUE`.

use std::io::Read;
use twin::Answer;

fn read(name: &str) -> std::io::Result<Vec<u8>> {
    // One byte past the largest file is enough to see that a file is too long.
    let mut bytes = Vec::new();
    std::fs::File::open(name)?.take(twin::MAX_FILE as u64 + 1).read_to_end(&mut bytes)?;
    Ok(bytes)
}

fn main() -> std::io::Result<()> {
    let names: Vec<String> = std::env::args().skip(1).collect();
    let [feeder, report] = names.as_slice() else {
        eprintln!("usage: check FEEDER REPORT");
        std::process::exit(2);
    };
    match twin::check(&read(feeder)?, &read(report)?) {
        Answer::Refused { number, value } => println!("refused {number} {value}"),
        _ => println!("pass"),
    }
    Ok(())
}
