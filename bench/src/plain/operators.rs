//! The five operators on a good pattern.
use super::form::Operator;
use super::pattern::{add_times, column, column_mut, is_proper, is_zero, times, Pattern, SIDE, SIZE};
use super::Refused;

/// The column of a cell that is made with the faces listed at a place.
fn draw(s: &[u8], k: usize, list: usize, below: usize) -> Result<[i8; SIDE], Refused> {
    let mut v = [0i8; SIDE];
    let mut add = |f: u8, z: i8| {
        if below <= f as usize {
            return Err(Refused(5));
        }
        v[f as usize] += z;
        Ok(())
    };
    if k == 1 {
        add(s[list], -1)?;
        add(s[list + 1], 1)?;
    } else if k > 1 {
        for pair in s[list + 1..][..2 * s[list] as usize].chunks_exact(2) {
            add(pair[0], if pair[1] == 1 { 1 } else { -1 })?;
        }
    }
    Ok(v)
}

pub fn make(p: &mut Pattern, k: usize, s: &[u8], list: usize) -> Result<(), Refused> {
    let below = if k == 0 { 0 } else { p.n[k - 1] as usize };
    let v = draw(s, k, list, below)?;
    if p.n[k] == 96 {
        return Err(Refused(6));
    }
    if k > 0 {
        if is_zero(&v) || (k > 1 && !super::pattern::closes(&p.m[k - 2], below, &v)) {
            return Err(Refused(7));
        }
        column_mut(&mut p.m[k - 1], p.n[k] as usize).copy_from_slice(&v);
    }
    p.n[k] += 1;
    Ok(())
}

fn remove_column(m: &mut [i8], c: usize) {
    m.copy_within(SIDE * (c + 1).., SIDE * c);
    m[SIZE - SIDE..].fill(0);
}

fn remove_row(m: &mut [i8], r: usize) {
    for c in m.chunks_exact_mut(SIDE) {
        c.copy_within(r + 1.., r);
        c[SIDE - 1] = 0;
    }
}

fn row(m: &[i8], r: usize) -> std::iter::StepBy<std::slice::Iter<'_, i8>> {
    m[r..].iter().step_by(SIDE)
}

/// The cell's column and row go.
fn remove(p: &mut Pattern, k: usize, c: usize) {
    if k > 0 {
        remove_column(&mut p.m[k - 1], c);
    }
    if k < 3 {
        remove_row(&mut p.m[k], c);
    }
    p.n[k] -= 1;
}

fn kill(p: &mut Pattern, k: usize, c: usize) -> Result<(), Refused> {
    if p.n[k] as usize <= c {
        return Err(Refused(5));
    }
    if k < 3 && row(&p.m[k], c).any(|x| *x != 0) {
        return Err(Refused(8));
    }
    remove(p, k, c);
    Ok(())
}

/// The chosen part of the column v, by the head of a seam or by the listed faces.
fn part(k: usize, s: &[u8], list: usize, v: &[i8]) -> Result<[i8; SIDE], Refused> {
    let mut taken = [0i8; SIDE];
    if k == 1 {
        for (t, x) in taken.iter_mut().zip(v) {
            *t = if *x == 1 { 1 } else { 0 };
        }
    } else {
        for f in &s[list + 1..][..s[list] as usize] {
            let f = *f as usize;
            if v[f] == 0 {
                return Err(Refused(9));
            }
            taken[f] = v[f];
        }
    }
    if is_zero(&taken) || taken[..] == *v {
        return Err(Refused(9));
    }
    Ok(taken)
}

/// The boundary of the dividing cell.
fn divider(k: usize, low: &[i8], taken: &[i8; SIDE]) -> Result<[i8; SIDE], Refused> {
    let mut edge = [0i8; SIDE];
    for (j, z) in taken.iter().enumerate() {
        add_times(&mut edge, column(low, j), *z);
    }
    let seam = k > 2 || (times(&edge, -1) == 1 && times(&edge, 1) == 1);
    if is_proper(&edge) && seam {
        Ok(edge)
    } else {
        Err(Refused(10))
    }
}

fn split(p: &mut Pattern, k: usize, cell: usize, s: &[u8], list: usize) -> Result<(), Refused> {
    let (t, new) = (p.n[k - 1] as usize, p.n[k] as usize);
    if new <= cell || (k > 1 && s[list + 1..][..s[list] as usize].iter().any(|f| t <= *f as usize)) {
        return Err(Refused(5));
    }
    if t == 96 || new == 96 {
        return Err(Refused(6));
    }
    let taken = part(k, s, list, column(&p.m[k - 1], cell))?;
    if k > 1 {
        let edge = divider(k, &p.m[k - 2], &taken)?;
        column_mut(&mut p.m[k - 2], t).copy_from_slice(&edge);
    }
    let rest = column_mut(&mut p.m[k - 1], cell);
    for (x, z) in rest.iter_mut().zip(&taken) {
        *x = if *z == 0 { *x } else { 0 };
    }
    rest[t] = 1;
    let half = column_mut(&mut p.m[k - 1], new);
    half.copy_from_slice(&taken);
    half[t] = -1;
    if k < 3 {
        for c in p.m[k].chunks_exact_mut(SIDE) {
            c[new] = c[cell];
        }
    }
    p.n[k - 1] += 1;
    p.n[k] += 1;
    Ok(())
}

/// In how many rows both columns are not 0; the lowest bit tells -1 and 1 from 0.
fn shared(x: &[i8], y: &[i8]) -> i8 {
    x.iter().zip(y).map(|(x, y)| x & y & 1).sum()
}

fn merge(p: &mut Pattern, k: usize, t: usize) -> Result<(), Refused> {
    if p.n[k] as usize <= t {
        return Err(Refused(5));
    }
    let d = &mut p.m[k];
    let entries = row(d, t);
    if entries.clone().filter(|x| **x == -1).count() != 1 || entries.clone().filter(|x| **x == 1).count() != 1 {
        return Err(Refused(11));
    }
    let b = entries.clone().rposition(|x| *x != 0).unwrap();
    let a = entries.clone().position(|x| *x != 0).unwrap();
    let (low, high) = d.split_at_mut(SIDE * b);
    let (kept, gone) = (column_mut(low, a), column(high, 0));
    if shared(kept, gone) != 1 {
        return Err(Refused(20));
    }
    // They share t alone, where the entries cancel: what is left is the entries of both, and a boundary.
    for (x, y) in kept.iter_mut().zip(gone) {
        *x += y;
    }
    remove(p, k + 1, b);
    remove(p, k, t);
    Ok(())
}

fn flip(p: &mut Pattern, k: usize, c: usize) -> Result<(), Refused> {
    if p.n[k] as usize <= c {
        return Err(Refused(5));
    }
    for x in column_mut(&mut p.m[k - 1], c) {
        *x = -*x;
    }
    if k < 3 {
        for column in p.m[k].chunks_exact_mut(SIDE) {
            column[c] = -column[c];
        }
    }
    Ok(())
}

pub fn apply(p: &mut Pattern, o: Operator, s: &[u8]) -> Result<(), Refused> {
    match o {
        Operator::Make { dim, list } => make(p, dim, s, list),
        Operator::Kill { dim, cell } => kill(p, dim, cell),
        Operator::Split { dim, cell, list } => split(p, dim, cell, s, list),
        Operator::Merge { dim, cell } => merge(p, dim, cell),
        Operator::Flip { dim, cell } => flip(p, dim, cell),
    }
}
