//! Merges at a cell between two that share other faces as well: those may cancel in the sum or add up, and each kind must be met alone.

use crate::meanings::{of_meaning, NUMBERS};
use crate::operators::{between_two, shared};
use crate::patterns::Pattern;
use crate::tables::{row, Row};

/// Dimension, product of the two signs of each other face, and name. Seams that share both corners run there and back, or merge nowhere.
const KINDS: [(usize, i8, &str); 5] = [
    (0, -1, "merge 0: others cancel"),
    (1, -1, "merge 1: others cancel"),
    (1, 1, "merge 1: others add up"),
    (2, -1, "merge 2: others cancel"),
    (2, 1, "merge 2: others add up"),
];

/// How many cells must be reached.
#[cfg(test)]
pub const ROWS: usize = KINDS.len();

#[derive(Default)]
pub struct Merges([[u64; NUMBERS]; KINDS.len()]);

impl Merges {
    /// The answer to an operator, counted where it is such a merge and its meaning was judged.
    pub fn answer(&mut self, pattern: &Pattern, bytes: &[u8], number: u8) {
        if let (&[code @ 0x40..=0x42, cell], true) = (bytes, number == 0 || of_meaning(number)) {
            let dim = usize::from(code & 15);
            let signs = other_signs(pattern, dim, cell.into());
            let kind = KINDS.iter().position(|kind| kind.0 == dim && !signs.is_empty() && signs.iter().all(|&sign| sign == kind.1));
            if let Some(kind) = kind {
                self.0[kind][usize::from(number)] += 1;
            }
        }
    }

    pub fn counts(&mut self) -> impl Iterator<Item = &mut u64> {
        self.0.iter_mut().flatten()
    }

    pub fn rows(&self) -> Vec<Row<'_>> {
        KINDS.iter().zip(&self.0).map(|(kind, counts)| row(kind.2, &[20], counts)).collect()
    }
}

/// For each face that the two cells beside this one share besides it, the product of its signs there.
fn other_signs(pattern: &Pattern, dim: usize, cell: usize) -> Vec<i8> {
    let users = if cell < pattern.count(dim) { pattern.users(dim, cell) } else { Vec::new() };
    if !between_two(&users) {
        return Vec::new();
    }
    let (one, other) = (users[0].0, users[1].0);
    let sign = |user: u8, face| pattern.entry(dim + 1, user.into(), face);
    shared(pattern, dim + 1, one, other).filter(|&face| face != cell).map(|face| sign(one, face) * sign(other, face)).collect()
}

#[cfg(test)]
mod tests {
    use super::*;

    fn counted(merges: &mut Merges) -> u64 {
        merges.counts().map(|count| *count).sum()
    }

    #[test]
    fn only_a_merge_between_cells_that_share_others_counts() {
        // Two corners, seams 0 to 1 and back; and a third corner, reached from 1.
        let ring = Pattern::from_mesh(&[2, 2, 0, 1, 1, 0, 0, 0]);
        let line = Pattern::from_mesh(&[3, 2, 0, 1, 1, 2, 0, 0]);
        let mut merges = Merges::default();
        merges.answer(&line, &[0x40, 1], 0);
        for (bytes, number) in [(&[0x40, 1][..], 2), (&[0x40, 2], 5), (&[0x20, 1], 8), (&[0x40, 1, 0], 14)] {
            merges.answer(&ring, bytes, number);
        }
        assert_eq!(counted(&mut merges), 0);
        merges.answer(&ring, &[0x40, 1], 20);
        assert_eq!((merges.0[0][20], counted(&mut merges)), (1, 1));
    }

    #[test]
    fn a_face_that_adds_up_is_told_from_one_that_cancels() {
        // Two panels of a band share seams 4 and 5; where the band is twisted, seam 4 with one sign.
        for (twisted, kind) in [(false, 1), (true, 2)] {
            let mut merges = Merges::default();
            merges.answer(&Pattern::from_mesh(&crate::meshes::band(twisted)), &[0x41, 5], 20);
            assert_eq!((merges.0[kind][20], counted(&mut merges)), (1, 1), "{kind}");
        }
    }
}
