//! OFF texts with faults of form, and with panel lines that are no rings.

use crate::off_texts::{self, scattered, triangles, Text};
use crate::random::Random;
use second::LIMIT;

/// Words that are wrong at one place of a text or another: no number, one of too many digits, a minus that may not be there, too large.
#[rustfmt::skip]
pub const WORDS: [&str; 32] = [
    "+1", "1.0", "1.", ".5", "-", "--1", "1-", "-1-", "x", "1x", "0x1", "1e3", "1,", "#", "\u{b}1", "1\0", "\u{e9}", "OFF", "00000001",
    "-00000001", "123456789012345678901", "-1", "-0", "97", "256", "352", "9999999", "-9999999", "1048577", "-1048577", "off", "OFFF",
];

/// Bytes that are put in place of every byte of a text.
pub const BYTES: [u8; 16] = *b"0159-+. \t\r\nO#\x0b\0\xff";

/// A text with one to three faults, of form more often than not.
pub fn any(random: &mut Random) -> Vec<u8> {
    let text = off_texts::any(random);
    let mut words = text.words(random);
    for _ in 0..1 + random.below(3) {
        let at = random.below(words.len().max(1));
        match random.below(6) {
            0 => words.truncate(at),
            1 => words.insert(at, random.pick(&WORDS).to_string()),
            2 => words.push(random.pick(&WORDS).to_string()),
            3 if at < words.len() => drop(words.remove(at)),
            _ if at < words.len() => words[at] = random.pick(&WORDS).to_string(),
            _ => {}
        }
    }
    scattered(random, &words)
}

/// The ways in which a line is no ring, and the refusal of each.
pub const LINES: [(&str, usize); 8] = [
    ("past the count", 5),
    ("256 more", 5),
    ("seven digits", 5),
    ("too long, past", 5),
    ("fewer than three", 7),
    ("corner twice", 7),
    ("too long", 7),
    ("no room", 6),
];

/// A sound text with one line that is no ring in that way, and in what line; after it any lines.
pub fn with_line(random: &mut Random, way: usize) -> (Text, usize) {
    let full = LINES[way].1 == 6;
    let mut text = if full { triangles(32) } else { with_corners(random) };
    let corners = text.points.len() as u32;
    let at = if full { 32 } else { random.below(text.lines.len() + 1) };
    let mut line = if full { vec![94, 1, 95, 50] } else { vec![0, 1, 2] };
    let any = random.below(line.len());
    match way {
        0 => line[any] = corners + random.below(3) as u32,
        1 => line[any] += 256,
        2 => line[any] = 9_999_999 - random.below(2) as u32,
        3 => line = (0..97 + random.below(40) as u32).map(|step| step % (corners + 1)).collect(),
        4 => line.truncate(any),
        5 => line[any] = line[(any + 1) % 3],
        6 => line = (0..97 + random.below(300) as u32).map(|step| step % corners).collect(),
        _ => {}
    }
    text.lines.insert(at, line);
    if random.one_in(2) {
        text.lines.push(random.pick(&[&[][..], &[0, 0, 0], &[200, 1, 2]]).to_vec());
    }
    text.lines.truncate(LIMIT);
    (text, at)
}

/// A text that is accepted, with three corners or more and room for a line.
fn with_corners(random: &mut Random) -> Text {
    loop {
        let text = off_texts::any(random);
        let seams: usize = text.lines.iter().map(Vec::len).sum();
        if text.points.len() >= 3 && seams <= LIMIT && text.lines.len() < LIMIT - 1 {
            return text;
        }
    }
}

/// Every change of one word, every cut, and every change of one byte.
pub fn variants(words: &[String]) -> Vec<Vec<u8>> {
    let text = words.join(" ").into_bytes();
    let mut variants: Vec<Vec<u8>> = (0..=text.len()).map(|end| text[..end].to_vec()).collect();
    for (at, word) in (0..=words.len()).flat_map(|at| WORDS.map(|word| (at, word))) {
        let mut changed = words.to_vec();
        changed.truncate(at);
        changed.push(word.to_string());
        changed.extend(words.iter().skip(at + 1).cloned());
        variants.push(changed.join("\n").into_bytes());
    }
    for (at, byte) in (0..=text.len()).flat_map(|at| BYTES.map(|byte| (at, byte))) {
        variants.push([&text[..at], &[byte], &text[(at + 1).min(text.len())..]].concat());
        variants.push([&text[..at], &[byte], &text[at..]].concat());
    }
    variants
}
