//! Plays random scripts: `beside [LINES [SEED]]`.

use beside::{Proved, plans, run};
use std::process::ExitCode;

/// As many lines are played if nothing else is asked.
const LINES: u64 = 1_000_000;

fn main() -> ExitCode {
    let numbers: Result<Vec<u64>, _> = std::env::args().skip(1).map(|word| word.parse()).collect();
    let (lines, seed) = match numbers.as_deref() {
        Ok([]) => (LINES, 1),
        Ok([lines]) => (*lines, 1),
        Ok([lines, seed]) => (*lines, *seed),
        _ => {
            eprintln!("beside [LINES [SEED]]");
            return ExitCode::from(2);
        }
    };
    let report = run(&mut Proved, plans(lines, seed), |shown| println!("{shown}"));
    println!("{report}");
    if report.differences == 0 { ExitCode::SUCCESS } else { ExitCode::FAILURE }
}
