//! From lent matrices to sparse cells and back, and from lent coordinates to points.

use crate::cells::{Cell, Pattern, LIMIT};
use crate::good::is_good;
use crate::off_text::Point;
use crate::refusal::{demand, Answer, Refusal};

const MATRIX_LENGTH: usize = LIMIT * LIMIT;
const COORDINATES_LENGTH: usize = 3 * LIMIT;

pub fn lengths_right(matrices: [&[i8]; 3]) -> bool {
    matrices.iter().all(|matrix| matrix.len() == MATRIX_LENGTH)
}

/// The good pattern that the matrices hold; refuses by 1, then by 2.
pub fn load(counts: [u8; 4], matrices: [&[i8]; 3]) -> Answer<Pattern> {
    demand(lengths_right(matrices), Refusal::Length)?;
    let counts = counts.map(usize::from);
    let within = counts.iter().all(|&count| count <= LIMIT);
    demand(within, Refusal::NotGood)?;
    let mut pattern = Pattern::default();
    for _ in 0..counts[0] {
        pattern.append(0, Cell::default());
    }
    for (below, matrix) in matrices.into_iter().enumerate() {
        for (number, column) in matrix.chunks(LIMIT).enumerate() {
            let cell = load_column(column, counts[below])?;
            if number < counts[below + 1] {
                pattern.append(below + 1, cell);
            } else {
                demand(cell.faces.is_empty(), Refusal::NotGood)?;
            }
        }
    }
    demand(is_good(&pattern), Refusal::NotGood)?;
    Ok(pattern)
}

fn load_column(column: &[i8], rows: usize) -> Answer<Cell> {
    let mut faces = Vec::new();
    for (row, &entry) in column.iter().enumerate() {
        if entry != 0 {
            let fits = row < rows && (entry == 1 || entry == -1);
            demand(fits, Refusal::NotGood)?;
            faces.push((row as u8, entry));
        }
    }
    Ok(Cell { faces })
}

/// Sets every byte of the three matrices.
pub fn store(pattern: &Pattern, matrices: [&mut [i8]; 3]) {
    for (below, matrix) in matrices.into_iter().enumerate() {
        matrix.fill(0);
        let columns = matrix.chunks_mut(LIMIT);
        for (column, cell) in columns.zip(pattern.cells(below + 1)) {
            for &(row, sign) in &cell.faces {
                if let Some(entry) = column.get_mut(usize::from(row)) {
                    *entry = sign;
                }
            }
        }
    }
}

pub fn coordinates_right(coordinates: &[i32]) -> bool {
    coordinates.len() == COORDINATES_LENGTH
}

/// The points of so many corners; what stands behind them is not looked at.
pub fn load_points(coordinates: &[i32], corners: usize) -> Vec<Point> {
    let points = coordinates.chunks(3).filter_map(|point| point.try_into().ok());
    points.take(corners).collect()
}

/// Sets every coordinate.
pub fn store_points(points: &[Point], coordinates: &mut [i32]) {
    coordinates.fill(0);
    for (coordinate, &value) in coordinates.iter_mut().zip(points.iter().flatten()) {
        *coordinate = value;
    }
}
