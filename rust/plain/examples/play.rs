//! Plays a script from standard input as `dome` does, and prints what came of each line.

use machine::{Capacities, lines_of};
use plain::play_with;
use protocol::Device;
use std::io::{Read, Write};

const DEVICES: [Device; 4] =
    [Device { group: 0, driver: 1 }, Device { group: 0, driver: 1 }, Device { group: 1, driver: 2 }, Device { group: 2, driver: 31 }];

fn main() -> std::io::Result<()> {
    let mut text = Vec::new();
    std::io::stdin().read_to_end(&mut text)?;
    let transcript = play_with(None, 64, &DEVICES, &lines_of(&text), Capacities::of(64, 50_000));
    let mut out = std::io::BufWriter::new(std::io::stdout().lock());
    for outcome in transcript.outcomes.into_iter().flatten() {
        writeln!(out, "{outcome}")?;
    }
    out.flush()
}
