//! Lines that are none, and some that only look so.

use crate::random::Random;
use crate::script::Text;

/// Something near a line, but mostly none.
pub fn nonsense(random: &mut Random, text: &[u8]) -> Text {
    let space = text.iter().position(|b| *b == b' ').unwrap_or(text.len());
    let anywhere = random.below(text.len() as u32 + 1) as usize;
    match random.below(20) {
        0 => Text::new(),
        1 => [b" ", text].concat(),
        2 => [text, b" "].concat(),
        3 => [text, b"\r"].concat(),
        4 => [&text[..space], b" ", &text[space..]].concat(),
        5 => [&text[..space], b"\t", &text[(space + 1).min(text.len())..]].concat(),
        6 => [text, b" 0"].concat(),
        7 => text[..text.iter().rposition(|b| *b == b' ').unwrap_or(0)].to_vec(),
        8 => text.to_ascii_uppercase(),
        9 => [b"+", text].concat(),
        10 => [b"-", text].concat(),
        11 => text[..anywhere].to_vec(),
        12 => [&text[..anywhere], &[byte(random)], &text[anywhere..]].concat(),
        13 => changed(random, text),
        14 => (0..random.below(40)).map(|_| byte(random)).collect(),
        15 => (0..random.below(2000)).map(|_| byte(random)).collect(),
        16 => vec![random.pick(b" 0a"); 200 + random.below(3000) as usize],
        17 => [text, b" ", text].concat(),
        18 => random.pick(&WORDS).as_bytes().to_vec(),
        _ => [text, b" # over"].concat(),
    }
}

fn changed(random: &mut Random, text: &[u8]) -> Text {
    let mut text = text.to_vec();
    if !text.is_empty() {
        let k = random.below(text.len() as u32) as usize;
        text[k] = byte(random);
    }
    text
}

/// Any byte but a line feed.
fn byte(random: &mut Random) -> u8 {
    match random.below(4) {
        0 => random.pick(b"0123456789"),
        1 => random.pick(b" 0wrdenkgt"),
        _ => match random.below(256) as u8 {
            b'\n' => 0,
            other => other,
        },
    }
}

const WORDS: [&str; 14] = [
    "1 lend 5 0 700",
    "1 lend 5 0 700 rw",
    "1 lend 5 0 700 W",
    "kept 0 700 read 0 1",
    "kept 0 700 write 0",
    "keep 0",
    "dev 0 keep 1 0",
    "dev 0 write 1 0",
    "no",
    "seed",
    "new 0",
    "no 18446744073709551616",
    "seed 18446744073709551616",
    "1 sleep 5",
];
