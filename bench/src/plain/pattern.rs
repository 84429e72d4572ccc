//! A stored pattern, and whether it is good.
pub const SIDE: usize = 96;
pub const SIZE: usize = SIDE * SIDE;

#[derive(Clone, PartialEq)]
pub struct Pattern {
    pub n: [u8; 4],
    pub m: [[i8; SIZE]; 3],
}

impl Pattern {
    pub fn empty() -> Self {
        Pattern { n: [0; 4], m: [[0; SIZE]; 3] }
    }
}

pub fn column(m: &[i8], j: usize) -> &[i8] {
    &m[SIDE * j..][..SIDE]
}

pub fn column_mut(m: &mut [i8], j: usize) -> &mut [i8] {
    &mut m[SIDE * j..][..SIDE]
}

pub fn is_zero(v: &[i8]) -> bool {
    v.iter().fold(true, |ok, x| ok & (*x == 0))
}

pub fn are_units(v: &[i8]) -> bool {
    v.iter().fold(true, |ok, x| ok & (-1..=1).contains(x))
}

pub fn is_proper(v: &[i8]) -> bool {
    are_units(v) && !is_zero(v)
}

pub fn times(v: &[i8], z: i8) -> usize {
    v.iter().filter(|x| **x == z).count()
}

fn in_place(m: &[i8], rows: usize, columns: usize) -> bool {
    (0..columns).all(|j| are_units(&column(m, j)[..rows]) & is_zero(&column(m, j)[rows..])) && is_zero(&m[SIDE * columns..])
}

/// A column is added z times, z being -1, 0 or 1.
pub fn add_times(sums: &mut [i8; SIDE], c: &[i8], z: i8) {
    if z == 1 {
        for (s, x) in sums.iter_mut().zip(c) {
            *s = s.wrapping_add(*x);
        }
    } else if z == -1 {
        for (s, x) in sums.iter_mut().zip(c) {
            *s = s.wrapping_sub(*x);
        }
    }
}

/// Whether the chain v of the first n columns of m has boundary zero.
pub fn closes(m: &[i8], n: usize, v: &[i8]) -> bool {
    let mut sums = [0i8; SIDE];
    for (j, z) in v[..n].iter().enumerate() {
        add_times(&mut sums, column(m, j), *z);
    }
    is_zero(&sums)
}

fn shape(n: &[usize; 4], m: &[[i8; SIZE]; 3]) -> bool {
    n.iter().all(|x| *x <= SIDE)
        && (0..3).all(|k| in_place(&m[k], n[k], n[k + 1]))
        && (0..n[1]).all(|j| times(column(&m[0], j), -1) == 1 && times(column(&m[0], j), 1) == 1)
        && (1..3).all(|k| (0..n[k + 1]).all(|j| !is_zero(column(&m[k], j))))
}

pub fn check(p: &Pattern) -> u8 {
    let (n, m) = (p.n.map(usize::from), &p.m);
    let null = |k: usize| (0..n[k + 1]).all(|j| closes(&m[k - 1], n[k], column(&m[k], j)));
    if shape(&n, m) && null(1) && null(2) {
        0
    } else {
        2
    }
}

/// The same answer, the products by three nested loops.
pub fn check_nested(p: &Pattern) -> u8 {
    let (n, m) = (p.n.map(usize::from), &p.m);
    let dot = |k: usize, r: usize, j: usize| (0..n[k]).map(|i| m[k - 1][SIDE * i + r] as i32 * m[k][SIDE * j + i] as i32).sum::<i32>();
    let null = |k: usize| (0..n[k + 1]).all(|j| (0..n[k - 1]).all(|r| dot(k, r, j) == 0));
    if shape(&n, m) && null(1) && null(2) {
        0
    } else {
        2
    }
}
