//! Lines in which one number is another.

use crate::random::Random;
use crate::script::Text;
use protocol::{PAGES, PLACES, PROGRAMS, WORDS};

const EDGES: [&str; 20] = [
    "0",
    "1",
    "2",
    "31",
    "32",
    "33",
    "511",
    "512",
    "513",
    "1023",
    "1024",
    "262143",
    "262144",
    "4294967295",
    "4294967296",
    "4294967301",
    "18446744073709551615",
    "18446744073709551616",
    "18446744073709551621",
    "340282366920938463463374607431768211461",
];

/// The first numbers that are out of range, beside the number of devices.
const LIMITS: [u32; 4] = [PROGRAMS, PLACES, WORDS, PAGES];

/// The line, with another number for one of its numbers.
pub fn with_edge(random: &mut Random, text: &[u8], devices: usize) -> Text {
    let edge = match random.below(6) {
        0 => devices.to_string(),
        1..4 => random.pick(&LIMITS).to_string(),
        _ => random.pick(&EDGES).to_string(),
    };
    with_number(random, text, |_, _| edge.into_bytes())
}

/// The line, with noughts before one of its numbers: a few, or so many that it is as long as a line may be, or by one longer.
pub fn with_noughts(random: &mut Random, text: &[u8]) -> Text {
    let room = protocol::LONGEST.saturating_sub(text.len());
    with_number(random, text, |random, number| {
        let noughts = match random.below(4) {
            0 => room,
            1 => room + 1,
            _ => random.below(30) as usize,
        };
        let mut word = vec![b'0'; noughts];
        word.extend_from_slice(number);
        word
    })
}

fn with_number(random: &mut Random, text: &[u8], change: impl FnOnce(&mut Random, &[u8]) -> Text) -> Text {
    let mut words: Vec<Text> = text.split(|b| *b == b' ').map(<[u8]>::to_vec).collect();
    let numbers: Vec<usize> = (0..words.len()).filter(|k| words[*k].first().is_some_and(u8::is_ascii_digit)).collect();
    if !numbers.is_empty() {
        let k = random.pick(&numbers);
        words[k] = change(random, &words[k]);
    }
    words.join(&b' ')
}

#[cfg(test)]
mod tests {
    use super::*;
    use protocol::Line;

    #[test]
    fn noughts_change_nothing_up_to_the_longest() {
        let mut random = Random::new(3);
        let line = Line::parse(b"2 lend 5 1 700 w");
        for _ in 0..200 {
            let text = with_noughts(&mut random, b"2 lend 5 1 700 w");
            assert_eq!(Line::parse(&text), line.filter(|_| text.len() <= protocol::LONGEST));
        }
    }
}
