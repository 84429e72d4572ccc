//! What makes a pattern good, beyond what sparse cells cannot say at all:
//! `border` has already refused stray entries and counts over the limit.

use crate::cells::Pattern;

pub fn is_good(pattern: &Pattern) -> bool {
    pattern.cells(1).iter().all(|seam| seam.is_seam()) && is_sewn(pattern, 2) && is_sewn(pattern, 3)
}

/// Every cell of dimension `dim` has a face, and its boundary has boundary zero.
fn is_sewn(pattern: &Pattern, dim: usize) -> bool {
    let mut cells = pattern.cells(dim).iter();
    cells.all(|cell| !cell.faces.is_empty() && pattern.is_closed(dim - 1, &cell.faces))
}
