//! Buffers lent alike to both implementations, and how they are shown.

use std::fmt::{Debug, LowerHex};

/// Entries before and after each lent buffer, which no call may touch; odd, so that lent bytes are
/// not aligned.
const MARGIN: usize = 5;

/// The same entries twice, each between margins.
pub struct Twice<T> {
    both: [Vec<T>; 2],
}

impl<T: Copy + From<bool> + PartialEq + Debug> Twice<T> {
    pub fn of(entries: &[T]) -> Self {
        let margin = [true, false, true, false, true].map(T::from);
        let whole = [&margin, entries, &margin].concat();
        Twice { both: [whole.clone(), whole] }
    }

    pub fn lent(&mut self) -> [&mut [T]; 2] {
        let [engine, second] = &mut self.both;
        let end = engine.len() - MARGIN;
        [&mut engine[MARGIN..end], &mut second[MARGIN..end]]
    }

    /// What the engine left in its buffer.
    pub fn left(&self) -> &[T] {
        &self.both[0][MARGIN..self.both[0].len() - MARGIN]
    }

    /// The first place at which the two differ, margins too.
    pub fn difference(&self, name: &str) -> Option<String> {
        let [engine, second] = &self.both;
        let at = (0..engine.len()).find(|&at| engine[at] != second[at])?;
        let place = at as isize - MARGIN as isize;
        Some(format!("{name}[{place}]: engine {:?}, second {:?}", engine[at], second[at]))
    }
}

/// The three matrices, lent to the engine and to the second program.
pub fn lend(matrices: &mut [Twice<i8>; 3]) -> [[&mut [i8]; 3]; 2] {
    let [m1, m2, m3] = matrices;
    let ([a, x], [b, y], [c, z]) = (m1.lent(), m2.lent(), m3.lent());
    [[a, b, c], [x, y, z]]
}

/// The entries in hex; `00*90` stands for 90 zeroes.
pub fn hex<T: LowerHex + PartialEq>(entries: &[T]) -> String {
    let width = 2 * std::mem::size_of::<T>();
    let mut words = Vec::new();
    let mut rest = entries;
    while let Some(first) = rest.first() {
        let run = rest.iter().take_while(|entry| *entry == first).count();
        let word = format!("{first:0width$x}");
        match run {
            1..=3 => words.extend(vec![word; run]),
            many => words.push(format!("{word}*{many}")),
        }
        rest = &rest[run..];
    }
    format!("({} long) {}", entries.len(), words.join(" "))
}

#[cfg(test)]
mod tests {
    use super::*;

    #[test]
    fn a_change_of_one_half_is_found_in_the_margins_too() {
        for at in 0..3 + 2 * MARGIN {
            let mut twice = Twice::of(&[7u8, 8, 9]);
            assert_eq!(twice.difference("out"), None);
            twice.both[0][at] ^= 1;
            let place = at as isize - MARGIN as isize;
            assert!(twice.difference("out").map_or(false, |text| text.starts_with(&format!("out[{place}]: engine"))));
        }
    }
}
