//! The mesh file.

use crate::cells::{Cell, Face, Pattern};
use crate::fault::Field;
use crate::form::Fields;
use crate::refusal::{demand, Answer, Judged, Refusal};

/// The pattern of the mesh at the front of the bytes, and how many it used.
pub fn read(bytes: &[u8]) -> Judged<(Pattern, usize)> {
    let mut fields = Fields::from(bytes, 0);
    let mut pattern = Pattern::default();
    for _ in 0..fields.count(Field::MeshCount)? {
        pattern.append(0, Cell::default());
    }
    for _ in 0..fields.count(Field::MeshCount)? {
        let (tail, head) = fields.ends()?;
        let seam = new_seam(&pattern, tail, head)?;
        pattern.append(1, seam);
    }
    for dim in [2, 3] {
        for _ in 0..fields.count(Field::MeshCount)? {
            let faces = fields.signed_faces()?;
            faces_exist(&pattern, dim, &faces)?;
            demand(is_boundary(&pattern, dim, &faces), Refusal::NotClosed)?;
            pattern.append(dim, Cell { faces });
        }
    }
    Ok((pattern, fields.used()))
}

fn new_seam(pattern: &Pattern, tail: u8, head: u8) -> Answer<Cell> {
    let exist = pattern.has(0, tail) && pattern.has(0, head);
    demand(exist, Refusal::NotBelowCount)?;
    demand(tail != head, Refusal::NotClosed)?;
    Ok(seam_between(tail, head))
}

/// The seam of two different corners.
pub fn seam_between(tail: u8, head: u8) -> Cell {
    let mut faces = vec![(tail, -1), (head, 1)];
    faces.sort_unstable();
    Cell { faces }
}

/// Every listed face of a cell of dimension `dim` is a cell of the pattern.
pub fn faces_exist(pattern: &Pattern, dim: usize, faces: &[Face]) -> Answer<()> {
    let exist = faces.iter().all(|&(face, _)| pattern.has(dim - 1, face));
    demand(exist, Refusal::NotBelowCount)
}

/// Whether a panel or block may have these faces.
pub fn is_boundary(pattern: &Pattern, dim: usize, faces: &[Face]) -> bool {
    !faces.is_empty() && pattern.is_closed(dim - 1, faces)
}

/// The mesh of a good pattern.
pub fn bytes_of(pattern: &Pattern) -> Vec<u8> {
    let [corners, seams, panels, blocks] = pattern.counts();
    let mut bytes = vec![corners, seams];
    for seam in pattern.cells(1) {
        bytes.extend(seam.end(-1));
        bytes.extend(seam.end(1));
    }
    for (dim, count) in [(2, panels), (3, blocks)] {
        bytes.push(count);
        for cell in pattern.cells(dim) {
            bytes.push(cell.faces.len() as u8);
            for &(face, sign) in &cell.faces {
                bytes.extend([face, if sign > 0 { 1 } else { 2 }]);
            }
        }
    }
    bytes
}
