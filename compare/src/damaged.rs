//! Bytes and patterns that are damaged on purpose.

use crate::patterns::{Pattern, MATRIX_LENGTH};
use crate::random::Random;
use second::LIMIT;

/// Values that stand at or beside a limit somewhere in the two files.
pub const VALUES: [u8; 16] = [0, 1, 2, 3, 4, 5, 16, 0x22, 0x33, 0x41, 95, 96, 97, 127, 128, 255];

/// Lengths of matrices that are wrong.
pub const MATRIX_LENGTHS: [usize; 6] = [0, 1, 96, MATRIX_LENGTH - 1, MATRIX_LENGTH + 1, 2 * MATRIX_LENGTH];

/// Lengths of chains that are wrong.
pub const CHAIN_LENGTHS: [usize; 5] = [0, 1, LIMIT - 1, LIMIT + 1, 2 * LIMIT];

/// The bytes with one or two changes.
pub fn bytes(random: &mut Random, bytes: &[u8]) -> Vec<u8> {
    let mut changed = bytes.to_vec();
    for _ in 0..1 + random.below(2) {
        let at = random.below(changed.len());
        let value = if random.one_in(2) { random.pick(&VALUES) } else { random.byte() };
        match random.below(5) {
            0 => changed.truncate(at),
            1 => changed.insert(at, value),
            2 => changed.push(value),
            3 if at < changed.len() => drop(changed.remove(at)),
            _ if at < changed.len() => changed[at] = value,
            _ => changed.push(value),
        }
    }
    changed
}

/// The bytes cut at every place, with every byte replaced by each of a few values, and with one
/// more.
pub fn variants(bytes: &[u8]) -> Vec<Vec<u8>> {
    let mut variants: Vec<Vec<u8>> = (0..=bytes.len()).map(|end| bytes[..end].to_vec()).collect();
    for value in VALUES {
        for at in 0..=bytes.len() {
            let mut changed = bytes.to_vec();
            changed.truncate(at);
            changed.push(value);
            changed.extend(bytes.iter().skip(at + 1));
            variants.push(changed);
        }
    }
    variants
}

/// The ways of `spoiled`.
pub const WAYS: [&str; 14] = [
    "count over 96",
    "any entry 2",
    "inside entry 2",
    "entry outside",
    "seam: no tail",
    "seam: no head",
    "seam: 2 tails",
    "seam: 2 heads",
    "no faces",
    "panel entry",
    "block entry",
    "face turned",
    "count + 1",
    "count - 1",
];

/// The pattern, no longer good in one way; as it was where it has no cell for that way.
pub fn spoiled(random: &mut Random, pattern: &Pattern, way: usize) -> Pattern {
    let mut spoiled = pattern.clone();
    let dim = 1 + random.below(3);
    let sewn = 2 + random.below(2);
    let place = random.below(MATRIX_LENGTH);
    match way {
        0 => spoiled.counts[random.below(4)] = random.pick(&[97, 98, 128, 255]),
        1 => spoiled.matrices[dim - 1][place] = random.pick(&[2, -2, 127, -128]),
        2 => set_inside(random, &mut spoiled, dim, &[2, -2, 3, 127, -128]),
        3 => set_outside(random, &mut spoiled, dim),
        4 => change_end(random, &mut spoiled, -1, 0),
        5 => change_end(random, &mut spoiled, 1, 0),
        6 => change_end(random, &mut spoiled, 0, -1),
        7 => change_end(random, &mut spoiled, 0, 1),
        8 => clear_column(random, &mut spoiled, sewn),
        9 => set_inside(random, &mut spoiled, 2, &[-1, 0, 1]),
        10 => set_inside(random, &mut spoiled, 3, &[-1, 0, 1]),
        11 => turn_entry(random, &mut spoiled, sewn),
        12 => spoiled.counts[dim] = spoiled.counts[dim].wrapping_add(1),
        _ => {
            let any = random.below(4);
            spoiled.counts[any] = spoiled.counts[any].wrapping_sub(1);
        }
    }
    spoiled
}

fn set_inside(random: &mut Random, pattern: &mut Pattern, dim: usize, values: &[i8]) {
    let (column, row) = (random.below(pattern.count(dim)), random.below(pattern.count(dim - 1)));
    pattern.matrices[dim - 1][LIMIT * column + row] = random.pick(values);
}

/// An entry with its row or its column not below its count, often the first such.
fn set_outside(random: &mut Random, pattern: &mut Pattern, dim: usize) {
    let (columns, rows) = (pattern.count(dim), pattern.count(dim - 1));
    let (mut column, mut row) = (random.below(LIMIT), random.below(LIMIT));
    match random.below(3) {
        0 if rows < LIMIT => (column, row) = (random.below(columns), rows),
        1 if columns < LIMIT => (column, row) = (columns, random.below(rows)),
        _ if column < columns && rows < LIMIT => row = rows + random.below(LIMIT - rows),
        _ if column < columns && columns < LIMIT => column = columns + random.below(LIMIT - columns),
        _ => {}
    }
    pattern.matrices[dim - 1][LIMIT * column + row] = random.pick(&[1, -1]);
}

/// In a seam's column, one entry that is `from` becomes `to`.
fn change_end(random: &mut Random, pattern: &mut Pattern, from: i8, to: i8) {
    let (corners, seam) = (pattern.count(0), random.below(pattern.count(1)));
    let column = &mut pattern.matrices[0][LIMIT * seam..][..corners];
    let mut ends: Vec<_> = column.iter_mut().filter(|entry| **entry == from).collect();
    let at = random.below(ends.len());
    if let Some(entry) = ends.get_mut(at) {
        **entry = to;
    }
}

fn clear_column(random: &mut Random, pattern: &mut Pattern, dim: usize) {
    let cell = random.below(pattern.count(dim));
    pattern.matrices[dim - 1][LIMIT * cell..][..LIMIT].fill(0);
}

/// A face of a panel or block changes its sign there.
fn turn_entry(random: &mut Random, pattern: &mut Pattern, dim: usize) {
    if pattern.count(dim) > 0 {
        let cell = random.below(pattern.count(dim));
        let (face, sign) = random.pick(&pattern.faces(dim, cell));
        pattern.matrices[dim - 1][LIMIT * cell + usize::from(face)] = -sign;
    }
}

/// The pattern with one matrix cut or lengthened.
pub fn resized(random: &mut Random, pattern: &Pattern) -> Pattern {
    let mut resized = pattern.clone();
    resized.matrices[random.below(3)].resize(random.pick(&MATRIX_LENGTHS), 0);
    resized
}

/// The pattern as it is most often lent, or spoiled or resized.
pub fn lent(random: &mut Random, pattern: &Pattern) -> Pattern {
    match random.below(16) {
        0 => {
            let way = random.below(WAYS.len());
            spoiled(random, pattern, way)
        }
        1 if random.one_in(2) => resized(random, pattern),
        _ => pattern.clone(),
    }
}
