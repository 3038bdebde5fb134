//! Stored scripts, with what `dome` prints for them.

use machine::{Capacities, lines_of};
use plain::play_with;
use protocol::Device;

/// The machine of `dome`.
const DEVICES: [Device; 4] =
    [Device { group: 0, driver: 1 }, Device { group: 0, driver: 1 }, Device { group: 1, driver: 2 }, Device { group: 2, driver: 31 }];

fn printed(script: &str) -> String {
    let transcript = play_with(None, 64, &DEVICES, &lines_of(script.as_bytes()), Capacities::of(64, 50_000));
    transcript.outcomes.iter().flatten().map(|outcome| format!("{outcome}\n")).collect()
}

fn check(script: &str, expected: &str) {
    let printed = printed(script);
    for (k, (is, should)) in printed.lines().zip(expected.lines()).enumerate() {
        assert_eq!(is, should, "printed line {}", k + 1);
    }
    assert_eq!(printed.len(), expected.len());
}

#[test]
fn rows() {
    check(include_str!("../../../scripts/rows.txt"), include_str!("stored/rows.out"));
}

#[test]
fn endings() {
    check(include_str!("../../../scripts/endings.txt"), include_str!("stored/endings.out"));
}

#[test]
fn refusals() {
    check(include_str!("../../../scripts/refusals.txt"), include_str!("stored/refusals.out"));
}

#[test]
fn first_night() {
    check(include_str!("../../../scripts/first-night.txt"), include_str!("stored/first-night.out"));
}

#[test]
fn tricks_of_seeds() {
    check(include_str!("stored/tricks.txt"), include_str!("stored/tricks.out"));
}

#[test]
fn memory_runs_out() {
    check(include_str!("stored/full-memory.txt"), include_str!("stored/full-memory.out"));
}
