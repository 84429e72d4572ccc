//! A lent pattern, and what the generators ask a sound one.

use crate::engine;
use second::LIMIT;

pub const MATRIX_LENGTH: usize = LIMIT * LIMIT;

/// A face number and its sign.
pub type Face = (u8, i8);

/// Counts and matrices as they are lent: sound, not good, or of wrong lengths.
#[derive(Clone)]
pub struct Pattern {
    pub counts: [u8; 4],
    pub matrices: [Vec<i8>; 3],
}

/// A pattern with its corners' coordinates, as they are lent or left.
#[derive(Clone)]
pub struct Placed {
    pub pattern: Pattern,
    pub coordinates: Vec<i32>,
}

impl Pattern {
    pub fn empty() -> Self {
        Pattern { counts: [0; 4], matrices: [0; 3].map(|entry| vec![entry; MATRIX_LENGTH]) }
    }

    /// The pattern of a mesh that is accepted.
    pub fn from_mesh(mesh: &[u8]) -> Self {
        let mut pattern = Pattern::empty();
        let [m1, m2, m3] = &mut pattern.matrices;
        let (refusal, counts, used, _) = second::read_mesh(mesh, m1, m2, m3);
        assert_eq!((refusal, used), (0, mesh.len()), "a sound mesh");
        pattern.counts = counts;
        pattern
    }

    /// The mesh, or none if the pattern is not good.
    pub fn mesh(&self) -> Option<Vec<u8>> {
        let mut out = vec![0; 37_252];
        let [m1, m2, m3] = &self.matrices;
        let (refusal, written) = second::write_mesh(self.counts, m1, m2, m3, &mut out);
        out.truncate(written);
        (refusal == 0).then_some(out)
    }

    /// Runs one operator; whether it was accepted. This is only to find operators to compare with,
    /// so the faster of the two does it.
    pub fn apply(&mut self, operator: &[u8]) -> bool {
        let (refusal, counts, _) = engine::apply_operator(self.counts, self.lent(), &mut operator.to_vec(), 0);
        self.counts = counts;
        refusal == 0
    }

    pub fn lent(&mut self) -> engine::Matrices<'_> {
        let [m1, m2, m3] = &mut self.matrices;
        [m1, m2, m3]
    }

    pub fn count(&self, dim: usize) -> usize {
        usize::from(self.counts[dim])
    }

    pub fn size(&self) -> usize {
        (0..4).map(|dim| self.count(dim)).sum()
    }

    /// The sign of `face` in a cell of dimension `dim`, 1 to 3.
    pub fn entry(&self, dim: usize, cell: usize, face: usize) -> i8 {
        self.matrices[dim - 1][LIMIT * cell + face]
    }

    /// The signed faces of a cell of dimension `dim`, 1 to 3.
    pub fn faces(&self, dim: usize, cell: usize) -> Vec<Face> {
        let column = (0..self.count(dim - 1)).map(|face| (face as u8, self.entry(dim, cell, face)));
        column.filter(|&(_, sign)| sign != 0).collect()
    }

    /// The cells that have this cell of dimension `dim`, 0 to 2, as a face, each with the sign it
    /// has there.
    pub fn users(&self, dim: usize, cell: usize) -> Vec<Face> {
        let row = (0..self.count(dim + 1)).map(|user| (user as u8, self.entry(dim + 1, user, cell)));
        row.filter(|&(_, sign)| sign != 0).collect()
    }
}
