//! A script that shows something, made short.

use crate::script::Text;

/// Some of the lines, in their order, that still show it, and of which none can be left out. `shows` holds of all the lines together.
pub fn shorten(lines: &[Text], mut shows: impl FnMut(&[Text]) -> bool) -> Vec<Text> {
    let mut lines = lines.to_vec();
    let mut size = lines.len().div_ceil(2);
    while size > 0 {
        let shorter = without_chunks(&mut lines, size, &mut shows);
        if size == 1 && !shorter {
            break;
        }
        size = if size == 1 { 1 } else { size.div_ceil(2).min(size - 1) };
    }
    lines
}

/// Leaves out each chunk of that many lines without which the rest still shows it, the last first.
fn without_chunks(lines: &mut Vec<Text>, size: usize, shows: &mut impl FnMut(&[Text]) -> bool) -> bool {
    let before = lines.len();
    let mut end = lines.len();
    while end > 0 {
        let start = end.saturating_sub(size);
        let rest: Vec<Text> = [&lines[..start], &lines[end..]].concat();
        if shows(&rest) {
            *lines = rest;
        }
        end = start;
    }
    lines.len() < before
}

#[cfg(test)]
mod tests {
    use super::*;

    #[test]
    fn what_matters_is_left() {
        let lines: Vec<Text> = (0..1000).map(|k| k.to_string().into_bytes()).collect();
        let has = |lines: &[Text], k: u32| lines.contains(&k.to_string().into_bytes());
        let short = shorten(&lines, |lines| has(lines, 17) && (has(lines, 400) || has(lines, 401)) && has(lines, 999));
        assert_eq!(short, [b"17".to_vec(), b"400".to_vec(), b"999".to_vec()]);
    }

    #[test]
    fn nothing_may_be_enough() {
        assert!(shorten(&[b"new".to_vec(), b"".to_vec()], |_| true).is_empty());
        assert!(shorten(&[], |_| true).is_empty());
    }
}
