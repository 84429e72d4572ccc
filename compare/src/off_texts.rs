//! OFF texts: corners and rings of chance, and the words and bytes in which they are told.

use crate::random::Random;
use second::LIMIT;

pub const COORDINATE_LIMIT: i32 = 1_048_576;

/// What an OFF text says: where its corners are, and the lines of its panels, which need not be rings.
#[derive(Clone)]
pub struct Text {
    pub points: Vec<[i32; 3]>,
    pub lines: Vec<Vec<u32>>,
}

/// A coordinate in range, often at its limit or 0.
pub fn coordinate(random: &mut Random) -> i32 {
    match random.below(4) {
        0 => random.pick(&[0, 1, -1, 9, 10, COORDINATE_LIMIT, -COORDINATE_LIMIT, 999_999, -1_000_000]),
        _ => random.below(2 * COORDINATE_LIMIT as usize + 1) as i32 - COORDINATE_LIMIT,
    }
}

fn points(random: &mut Random, corners: usize) -> Vec<[i32; 3]> {
    (0..corners).map(|_| [0; 3].map(|_| coordinate(random))).collect()
}

/// So many different corners in an order of chance.
fn ring(random: &mut Random, corners: usize, length: usize) -> Vec<u32> {
    let mut rest: Vec<u32> = (0..corners as u32).collect();
    (0..length).map(|_| rest.swap_remove(random.below(rest.len()))).collect()
}

/// Begun elsewhere and, by chance, the other way round.
fn turned(random: &mut Random, mut line: Vec<u32>) -> Vec<u32> {
    let start = random.below(line.len());
    line.rotate_left(start);
    if random.one_in(2) {
        line.reverse();
    }
    line
}

fn no_lines(random: &mut Random) -> Text {
    let corners = random.pick(&[0, 1, 2, 3, 95, 96]);
    Text { points: points(random, corners), lines: Vec::new() }
}

/// Small rings of few corners, which share many seams.
fn few(random: &mut Random) -> Text {
    let corners = 3 + random.below(7);
    let line = |random: &mut Random| {
        let length = 3 + random.below(corners - 2);
        ring(random, corners, length)
    };
    let lines = (0..random.below(12)).map(|_| line(random)).collect();
    Text { points: points(random, corners), lines }
}

/// One long ring, again and again, and sometimes a small one, for which there may be no room.
fn long(random: &mut Random) -> Text {
    let corners = 3 + random.below(LIMIT - 2);
    let length = 3 + random.below(corners - 2);
    let own = ring(random, corners, length);
    let mut lines: Vec<_> = (0..1 + random.below(LIMIT)).map(|_| turned(random, own.clone())).collect();
    if random.one_in(2) {
        let at = random.below(lines.len());
        lines[at] = ring(random, corners, 3);
    }
    Text { points: points(random, corners), lines }
}

/// Panels of four corners, sewn side by side around a tube; corners have numbers of chance, and some are in no panel.
fn tube(random: &mut Random) -> Text {
    let (around, high) = (3 + random.below(6), 1 + random.below(4));
    let used = around * (high + 1);
    let corners = used + random.below(LIMIT - used + 1);
    let numbers = ring(random, corners, used);
    let at = |row: usize, column: usize| numbers[around * row + column % around];
    let mut lines = Vec::new();
    for (row, column) in (0..high).flat_map(|row| (0..around).map(move |column| (row, column))) {
        let panel = vec![at(row, column), at(row, column + 1), at(row + 1, column + 1), at(row + 1, column)];
        lines.push(turned(random, panel));
    }
    Text { points: points(random, corners), lines }
}

/// A text that is mostly accepted.
pub fn any(random: &mut Random) -> Text {
    match random.below(8) {
        0 => long(random),
        1 => no_lines(random),
        2 => triangles(28 + random.below(8) as u32),
        3 | 4 => tube(random),
        _ => few(random),
    }
}

/// 96 corners, as far out as can be, and 96 panels around all of them.
pub fn largest() -> Text {
    let line = |panel: u32| (0..LIMIT as u32).map(|step| (panel + 35 * step) % LIMIT as u32).collect();
    Text { points: vec![[-COORDINATE_LIMIT; 3]; LIMIT], lines: (0..LIMIT as u32).map(line).collect() }
}

/// Triangles of which no two have a seam in common: 32 of them have 96 seams.
pub fn triangles(number: u32) -> Text {
    Text { points: vec![[0; 3]; LIMIT], lines: (0..number).map(|corner| vec![corner, corner + 1, corner + 3]).collect() }
}

/// The number with zeros in front, at most seven digits.
fn spelled(random: &mut Random, number: u32) -> String {
    let width = random.pick(&[1, 1, 1, 2, 3, 7]);
    format!("{number:0width$}")
}

impl Text {
    /// Its words as any program may write them.
    pub fn words(&self, random: &mut Random) -> Vec<String> {
        let mut words = vec!["OFF".to_string()];
        let seams = random.below(10_000_000) as u32;
        words.extend([self.points.len() as u32, self.lines.len() as u32, seams].map(|count| spelled(random, count)));
        for &value in self.points.iter().flatten() {
            let minus = if value < 0 || value == 0 && random.one_in(4) { "-" } else { "" };
            words.push(minus.to_string() + &spelled(random, value.unsigned_abs()));
        }
        for line in &self.lines {
            words.push(spelled(random, line.len() as u32));
            words.extend(line.iter().map(|&corner| spelled(random, corner)));
        }
        words
    }

    pub fn scattered(&self, random: &mut Random) -> Vec<u8> {
        let words = self.words(random);
        scattered(random, &words)
    }

    /// Every number with all of its seven digits.
    pub fn padded(&self) -> Vec<u8> {
        let mut text = format!("OFF\n{:07} {:07} {:07}\n", self.points.len(), self.lines.len(), 0);
        for [x, y, z] in &self.points {
            text += &[x, y, z].map(|value| format!("{}{:07} ", if *value < 0 { "-" } else { "" }, value.abs())).concat();
        }
        for line in &self.lines {
            let words: String = line.iter().map(|corner| format!(" {corner:07}")).collect();
            text += &format!("{:07}{words}\n", line.len());
        }
        text.into_bytes()
    }
}

/// The words with runs of separators between them, and sometimes before and after.
pub fn scattered(random: &mut Random, words: &[String]) -> Vec<u8> {
    let mut text = Vec::new();
    for (at, word) in words.iter().enumerate() {
        if at > 0 || random.one_in(4) {
            text.extend(separators(random));
        }
        text.extend(word.bytes());
    }
    if random.one_in(2) {
        text.extend(separators(random));
    }
    text
}

fn separators(random: &mut Random) -> Vec<u8> {
    let length = random.pick(&[1, 1, 1, 2, 3, 9]);
    (0..length).map(|_| random.pick(b" \t\r\n")).collect()
}

/// The panel lines of a text that is accepted.
pub fn lines_of(text: &[u8]) -> Vec<Vec<u32>> {
    let text = String::from_utf8_lossy(text);
    let mut numbers = text.split_ascii_whitespace().skip(1).map(|word| word.parse::<i64>().expect("a number"));
    let mut next = || numbers.next().expect("a number") as u32;
    let (corners, panels, _) = (next(), next(), next());
    for _ in 0..3 * corners {
        next();
    }
    (0..panels).map(|_| (0..next()).map(|_| next()).collect()).collect()
}

/// Whether two lines are one ring, up to the corner that they begin at.
pub fn same_ring(one: &[u32], other: &[u32]) -> bool {
    let twice = [one, one].concat();
    one.len() == other.len() && twice.windows(one.len().max(1)).any(|turned| turned == other)
}

#[cfg(test)]
mod tests {
    use super::*;
    use mbyasoka::limits::OFF_BYTES;

    #[test]
    fn a_ring_has_one_way_round_and_any_start() {
        for (other, same) in [([0, 1, 2, 3], true), ([2, 3, 0, 1], true), ([3, 2, 1, 0], false), ([0, 2, 1, 3], false)] {
            assert_eq!(same_ring(&[0, 1, 2, 3], &other), same, "{other:?}");
        }
        assert!(!same_ring(&[0, 1, 2], &[0, 1, 2, 0]) && !same_ring(&[0, 1, 2, 0], &[0, 1, 2]));
    }

    #[test]
    fn a_text_is_read_as_it_was_told() {
        let mut random = Random::new(3);
        for _ in 0..100 {
            let text = any(&mut random);
            assert_eq!(lines_of(&text.scattered(&mut random)), text.lines);
            assert_eq!(lines_of(&text.padded()), text.lines);
        }
    }

    #[test]
    fn the_longest_text_has_the_length_of_the_limits() {
        let (mut matrices, mut coordinates) = ([0; 3].map(|entry| vec![entry; LIMIT * LIMIT]), vec![0; 3 * LIMIT]);
        let [m1, m2, m3] = &mut matrices;
        assert_eq!(second::import_off(&largest().padded(), m1, m2, m3, &mut coordinates), (0, [96, 96, 96, 0]));
        let mut out = vec![0; OFF_BYTES + 1];
        assert_eq!(second::export_off([96, 96, 96, 0], m1, m2, m3, &coordinates, &mut out[..OFF_BYTES - 1]), (15, 0));
        assert_eq!(second::export_off([96, 96, 96, 0], m1, m2, m3, &coordinates, &mut out), (0, OFF_BYTES));
        assert!(largest().padded().len() > 1 << 16);
    }
}
