//! The meaning of operators. Each one is judged whole before it changes anything.

use crate::cells::{Cell, Face, Pattern};
use crate::form::{Fields, Operator};
use crate::mesh::{faces_exist, is_boundary, seam_between};
use crate::refusal::{demand, Answer, Judged, Refusal};

/// What an accepted operator adds to the Euler number: rows make, kill, split,
/// merge at, flip; columns dimension 0 to 3. Where there is no operator, 0.
pub const EULER_STEP: [[i16; 4]; 5] = [[1, -1, 1, -1], [-1, 1, -1, 1], [0, 0, 0, 0], [0, 0, 0, 0], [0, 0, 0, 0]];

/// Runs an operator decoded from `bytes`; a refused one leaves the pattern as it is.
pub fn run(pattern: &mut Pattern, operator: Operator, bytes: &[u8]) -> Judged<()> {
    match operator {
        Operator::Make { dim: 0, .. } => {
            demand(!pattern.is_full(0), Refusal::Full)?;
            pattern.append(0, Cell::default());
        }
        Operator::Make { dim: 1, list } => {
            let (tail, head) = Fields::from(bytes, list).ends()?;
            make_seam(pattern, tail, head)?;
        }
        Operator::Make { dim, list } => {
            let faces = Fields::from(bytes, list).signed_faces()?;
            make_sewn(pattern, dim, faces)?;
        }
        Operator::Kill { dim, cell } => kill(pattern, dim, cell)?,
        Operator::Split { dim: 1, cell, .. } => split_seam(pattern, cell)?,
        Operator::Split { dim, cell, list } => {
            let listed = Fields::from(bytes, list).faces()?;
            split_sewn(pattern, dim, cell, &listed)?;
        }
        Operator::Merge { dim, cell } => merge(pattern, dim, cell)?,
        Operator::Flip { dim, cell } => flip(pattern, dim, cell)?,
    }
    Ok(())
}

fn find(pattern: &Pattern, dim: usize, number: u8) -> Answer<&Cell> {
    pattern.cell(dim, number).ok_or(Refusal::NotBelowCount)
}

fn make_seam(pattern: &mut Pattern, tail: u8, head: u8) -> Answer<()> {
    find(pattern, 0, tail)?;
    find(pattern, 0, head)?;
    demand(!pattern.is_full(1), Refusal::Full)?;
    demand(tail != head, Refusal::NotClosed)?;
    pattern.append(1, seam_between(tail, head));
    Ok(())
}

fn make_sewn(pattern: &mut Pattern, dim: usize, faces: Vec<Face>) -> Answer<()> {
    faces_exist(pattern, dim, &faces)?;
    demand(!pattern.is_full(dim), Refusal::Full)?;
    demand(is_boundary(pattern, dim, &faces), Refusal::NotClosed)?;
    pattern.append(dim, Cell { faces });
    Ok(())
}

fn kill(pattern: &mut Pattern, dim: usize, cell: u8) -> Answer<()> {
    find(pattern, dim, cell)?;
    demand(pattern.users(dim, cell).is_empty(), Refusal::InUse)?;
    pattern.remove(dim, cell);
    Ok(())
}

fn room_to_split(pattern: &Pattern, dim: usize) -> Answer<()> {
    let full = pattern.is_full(dim) || pattern.is_full(dim - 1);
    demand(!full, Refusal::Full)
}

fn split_seam(pattern: &mut Pattern, cell: u8) -> Answer<()> {
    let whole = find(pattern, 1, cell)?;
    room_to_split(pattern, 1)?;
    let (chosen, rest) = whole.faces.iter().partition(|&&(_, sign)| sign > 0);
    divide(pattern, 1, cell, chosen, rest, Cell::default());
    Ok(())
}

fn split_sewn(pattern: &mut Pattern, dim: usize, cell: u8, listed: &[u8]) -> Answer<()> {
    let whole = find(pattern, dim, cell)?;
    let exist = listed.iter().all(|&face| pattern.has(dim - 1, face));
    demand(exist, Refusal::NotBelowCount)?;
    room_to_split(pattern, dim)?;
    let is_listed = |face: &u8| listed.binary_search(face).is_ok();
    let (chosen, rest): (Vec<Face>, Vec<Face>) = whole.faces.iter().partition(|(face, _)| is_listed(face));
    // Listed numbers differ, so equal lengths mean that each is a face of the cell.
    let choice = chosen.len() == listed.len() && !chosen.is_empty() && !rest.is_empty();
    demand(choice, Refusal::Chosen)?;
    let sum = pattern.boundary_of(dim - 1, &chosen);
    let dividing = Cell::from_sum(&sum).ok_or(Refusal::DividingCell)?;
    let fits = match dim {
        2 => dividing.is_seam(),
        _ => !dividing.faces.is_empty(),
    };
    demand(fits, Refusal::DividingCell)?;
    divide(pattern, dim, cell, chosen, rest, dividing);
    Ok(())
}

/// Carries out a judged split. The new numbers are the highest of their
/// dimensions, so pushing them last keeps every list rising.
fn divide(pattern: &mut Pattern, dim: usize, cell: u8, mut chosen: Vec<Face>, mut rest: Vec<Face>, dividing: Cell) {
    let dividing_number = pattern.count(dim - 1) as u8;
    let new_number = pattern.count(dim) as u8;
    chosen.push((dividing_number, -1));
    rest.push((dividing_number, 1));
    pattern.append(dim - 1, dividing);
    pattern.append(dim, Cell { faces: chosen });
    if let Some(whole) = pattern.cells_mut(dim).get_mut(usize::from(cell)) {
        whole.faces = rest;
    }
    for user in pattern.cells_mut(dim + 1) {
        let sign = user.sign_of(cell);
        if sign != 0 {
            user.faces.push((new_number, sign));
        }
    }
}

fn merge(pattern: &mut Pattern, dim: usize, cell: u8) -> Answer<()> {
    find(pattern, dim, cell)?;
    let (lower, higher) = match pattern.users(dim, cell)[..] {
        [(lower, sign), (higher, other)] if sign != other => (lower as u8, higher as u8),
        _ => return Err(Refusal::NotBetweenTwo),
    };
    let (kept, dropped) = (find(pattern, dim + 1, lower)?, find(pattern, dim + 1, higher)?);
    demand(!kept.shares_besides(dropped, cell), Refusal::SharedFace)?;
    // The rules ask for the sum next, but in a good pattern it is always a cell: every face besides
    // the named one is in one of the two alone, and there is such a face, or they would not close.
    let sum = pattern.boundary_of(dim + 1, &[(lower, 1), (higher, 1)]);
    let merged = Cell::from_sum(&sum).ok_or(Refusal::Sum)?;
    demand(!merged.faces.is_empty(), Refusal::Sum)?;
    if let Some(kept) = pattern.cells_mut(dim + 1).get_mut(usize::from(lower)) {
        *kept = merged;
    }
    // Whatever has one of the two as a face has the other with the same sign, or
    // it would not close at the cell between them; so the higher is just dropped.
    pattern.remove(dim + 1, higher);
    pattern.remove(dim, cell);
    Ok(())
}

fn flip(pattern: &mut Pattern, dim: usize, cell: u8) -> Answer<()> {
    find(pattern, dim, cell)?;
    if let Some(flipped) = pattern.cells_mut(dim).get_mut(usize::from(cell)) {
        for (_, sign) in &mut flipped.faces {
            *sign = -*sign;
        }
    }
    for user in pattern.cells_mut(dim + 1) {
        for (face, sign) in &mut user.faces {
            if *face == cell {
                *sign = -*sign;
            }
        }
    }
    Ok(())
}
