//! A pattern as lists of sparse cells.

use std::collections::BTreeMap;

/// The most cells of one dimension, and the most faces of one cell.
pub const LIMIT: usize = 96;

/// A face number and its sign, -1 or 1.
pub type Face = (u8, i8);

/// A cell is its boundary: faces with numbers strictly rising. A corner has none.
#[derive(Clone, Debug, Default, PartialEq, Eq)]
pub struct Cell {
    pub faces: Vec<Face>,
}

impl Cell {
    /// The sign of `face` in this cell, 0 if it is not a face of it.
    pub fn sign_of(&self, face: u8) -> i8 {
        match self.faces.binary_search_by_key(&face, |&(number, _)| number) {
            Ok(at) => self.faces.get(at).map_or(0, |&(_, sign)| sign),
            Err(_) => 0,
        }
    }

    /// Whether a face besides `named` is a face of both cells, whatever its signs.
    pub fn shares_besides(&self, other: &Cell, named: u8) -> bool {
        self.faces.iter().any(|&(face, _)| face != named && other.sign_of(face) != 0)
    }

    /// A seam's face with the given sign: its tail for -1, its head for 1.
    pub fn end(&self, sign: i8) -> Option<u8> {
        let found = self.faces.iter().find(|&&(_, own)| own == sign);
        found.map(|&(number, _)| number)
    }

    /// Whether this can be a seam: one -1, one +1 and nothing else.
    pub fn is_seam(&self) -> bool {
        self.faces.len() == 2 && self.end(-1).is_some() && self.end(1).is_some()
    }

    /// The cell with these coefficients, or none if one of them leaves -1 to 1.
    pub fn from_sum(sum: &BTreeMap<u8, i32>) -> Option<Cell> {
        let mut faces = Vec::new();
        for (&number, &coefficient) in sum {
            match coefficient {
                0 => {}
                1 => faces.push((number, 1)),
                -1 => faces.push((number, -1)),
                _ => return None,
            }
        }
        Some(Cell { faces })
    }
}

#[derive(Clone, Debug, Default, PartialEq, Eq)]
pub struct Pattern {
    dimensions: [Vec<Cell>; 4],
}

impl Pattern {
    /// The cells of dimension `dim`; there are none above 3.
    pub fn cells(&self, dim: usize) -> &[Cell] {
        self.dimensions.get(dim).map_or(&[], Vec::as_slice)
    }

    pub fn cells_mut(&mut self, dim: usize) -> &mut [Cell] {
        match self.dimensions.get_mut(dim) {
            Some(cells) => cells.as_mut_slice(),
            None => &mut [],
        }
    }

    pub fn cell(&self, dim: usize, number: u8) -> Option<&Cell> {
        self.cells(dim).get(usize::from(number))
    }

    pub fn count(&self, dim: usize) -> usize {
        self.cells(dim).len()
    }

    pub fn counts(&self) -> [u8; 4] {
        // No list grows past LIMIT, so nothing is cut off.
        [0, 1, 2, 3].map(|dim| self.count(dim) as u8)
    }

    pub fn euler(&self) -> i16 {
        let [corners, seams, panels, blocks] = self.counts().map(i16::from);
        corners - seams + panels - blocks
    }

    pub fn has(&self, dim: usize, number: u8) -> bool {
        usize::from(number) < self.count(dim)
    }

    pub fn is_full(&self, dim: usize) -> bool {
        self.count(dim) >= LIMIT
    }

    /// Appends a cell; the caller has asked `is_full`.
    pub fn append(&mut self, dim: usize, cell: Cell) {
        if let Some(cells) = self.dimensions.get_mut(dim) {
            cells.push(cell);
        }
    }

    /// Removes a cell, takes it out of the cells above, and closes up its number there.
    pub fn remove(&mut self, dim: usize, number: u8) {
        if !self.has(dim, number) {
            return;
        }
        self.dimensions[dim].remove(usize::from(number));
        for cell in self.cells_mut(dim + 1) {
            cell.faces.retain(|&(face, _)| face != number);
            for (face, _) in &mut cell.faces {
                if *face > number {
                    *face -= 1;
                }
            }
        }
    }

    /// The cells above that have this cell as a face, each with the sign it has there.
    pub fn users(&self, dim: usize, number: u8) -> Vec<(usize, i8)> {
        let above = self.cells(dim + 1).iter().enumerate();
        above.map(|(user, cell)| (user, cell.sign_of(number))).filter(|&(_, sign)| sign != 0).collect()
    }

    /// The boundary of a signed list of cells of dimension `dim`; zeroes are kept.
    pub fn boundary_of(&self, dim: usize, list: &[Face]) -> BTreeMap<u8, i32> {
        let mut sum = BTreeMap::new();
        for &(number, sign) in list {
            for &(face, own) in self.cell(dim, number).iter().flat_map(|cell| &cell.faces) {
                *sum.entry(face).or_insert(0) += i32::from(sign) * i32::from(own);
            }
        }
        sum
    }

    /// Whether a signed list of cells of dimension `dim` has boundary zero.
    pub fn is_closed(&self, dim: usize, list: &[Face]) -> bool {
        self.boundary_of(dim, list).values().all(|&sum| sum == 0)
    }
}
