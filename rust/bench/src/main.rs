//! What a call costs, beside the plain keeper: prints the table of docs/PERFORMANCE.md.

mod cases;
mod lines;
mod sides;

use cases::{Case, Fill, cases, devices};
use protocol::{Line, Outcome};
use sides::{Alone, EVENTS, Proved, Side, Unproved};
use std::time::Duration;

/// What is timed is long enough for this, where the log has room for it.
const AT_LEAST: Duration = Duration::from_millis(20);

/// A script's lines, so many rounds of a case behind its setting up.
fn script(case: &Case, round: &[Line], rounds: usize) -> Vec<Line> {
    let mut lines = case.setup.clone();
    for _ in 0..rounds {
        lines.extend_from_slice(round);
    }
    lines
}

/// How many nanoseconds a call of a case takes: the shortest of some runs with rounds, less the shortest of as many without.
fn nanoseconds(side: &mut dyn Side, case: &Case, rounds: usize, repeats: usize) -> f64 {
    let mut shortest = |lines: &[Line]| (0..repeats).map(|_| side.time(lines)).min().expect("at least one").as_nanos() as f64;
    let before = if case.besides.is_empty() { shortest(&script(case, &[], 0)) } else { shortest(&script(case, &case.besides, rounds)) };
    let all = shortest(&script(case, &case.round, rounds));
    (all - before) / (rounds * case.calls) as f64
}

/// So many rounds that they take long enough, and that the log has room for them.
fn rounds(side: &mut dyn Side, case: &Case) -> usize {
    if case.once {
        return 1;
    }
    let room = (EVENTS - 2 * case.setup.len() - 4096) / (4 * case.round.len().max(1));
    let mut rounds = room.min(64);
    while rounds < room {
        let took = side.time(&script(case, &case.round, rounds)).saturating_sub(side.time(&script(case, &[], 0)));
        if took >= AT_LEAST {
            break;
        }
        rounds = room.min(4 * rounds);
    }
    rounds
}

/// A case that cannot be repeated is short on a small machine: it is played often.
fn repeats(case: &Case, frames: u32, repeats: usize) -> usize {
    if case.once { (repeats * 64).min(repeats * 65_536 / frames as usize) } else { repeats }
}

/// Nothing is measured unless both keepers say the same, and none of the calls is refused but where that is what is measured.
fn agree(proved: &mut Proved, unproved: &mut Unproved, case: &Case) -> f64 {
    let (none, once) = (script(case, &case.besides, 1), script(case, &case.round, 1));
    let (said, asked) = unproved.outcomes(&once);
    assert_eq!(proved.outcomes(&once), said, "{}", case.name);
    let refused = said.iter().filter(|o| matches!(o, Outcome::No(_) | Outcome::Over)).count();
    assert_eq!(refused, usize::from(case.name.starts_with("refused")), "{}", case.name);
    (asked - unproved.outcomes(&none).1) as f64 / case.calls as f64
}

/// bench [REPEATS [FRAMES [CALLS]]]: how often each script is played, and on which machines and of which calls alone.
fn main() {
    let mut args = std::env::args().skip(1);
    let repeats = args.next().map_or(7, |n| n.parse().expect("how often each script is played"));
    let only_frames: Option<u32> = args.next().map(|n| n.parse().expect("a number of frames"));
    let only_calls = args.next().unwrap_or_default();
    println!("| frames | in use | calls | asks | machine | plain | proved | proved / plain |");
    println!("|---|---|---|---|---|---|---|---|");
    for frames in [64, 4096, 65_536].into_iter().filter(|n| only_frames.is_none_or(|only| only == *n)) {
        for fill in [Fill::Few, Fill::Most] {
            let devices = devices();
            let mut proved = Proved::new(frames, &devices);
            let mut unproved = Unproved::new(frames, &devices);
            let mut alone = Alone::new(frames, &devices);
            for case in cases(frames, fill).into_iter().filter(|case| case.name.contains(&only_calls)) {
                let asks = agree(&mut proved, &mut unproved, &case);
                let rounds = rounds(&mut unproved, &case);
                let cost = |side: &mut dyn Side| nanoseconds(side, &case, rounds, self::repeats(&case, frames, repeats));
                let (machine, plain, ours) = (cost(&mut alone), cost(&mut unproved), cost(&mut proved));
                let fill = if fill == Fill::Few { "few" } else { "most" };
                println!("| {frames} | {fill} | {} | {asks:.1} | {machine:.1} | {plain:.1} | {ours:.1} | {:.2} |", case.name, ours / plain);
            }
        }
    }
}
