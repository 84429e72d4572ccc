//! The boundary of a chain, and carrying one through an operator.
use super::form::{self, Operator};
use super::operators::apply;
use super::pattern::{check, column, Pattern, SIDE};
use super::{answer, Placed, Refused};

fn is_chain(c: &[i32], n: usize, limit: i32) -> bool {
    c[..n].iter().all(|x| -limit <= *x && *x <= limit) && c[n..].iter().all(|x| *x == 0)
}

pub fn boundary(p: &Pattern, d: usize, chain: &[i32], out: &mut [i32]) -> u8 {
    if chain.len() != SIDE || out.len() != SIDE {
        return 1;
    }
    let refusal = check(p);
    if refusal != 0 {
        return refusal;
    }
    if !(1..=3).contains(&d) {
        return 4;
    }
    if !is_chain(chain, p.n[d] as usize, 1_000_000) {
        return 16;
    }
    out.fill(0);
    for (j, v) in chain.iter().enumerate() {
        for (o, x) in out.iter_mut().zip(column(&p.m[d - 1], j)) {
            *o += *x as i32 * v;
        }
    }
    0
}

/// Refusal and place.
pub fn carry(p: &Pattern, s: &[u8], d: usize, chain: &[i32], out: &mut [i32]) -> (u8, u32) {
    answer(carried(p, s, d, chain, out))
}

/// The operator is tried on a copy of the pattern.
fn carried(p: &Pattern, s: &[u8], d: usize, chain: &[i32], out: &mut [i32]) -> Result<(), Placed> {
    if chain.len() != SIDE || out.len() != SIDE {
        return Err(Refused(1).into());
    }
    let refusal = check(p);
    if refusal != 0 {
        return Err(Refused(refusal).into());
    }
    if 3 < d {
        return Err(Refused(4).into());
    }
    let o = form::lone_operator(s)?;
    if let Operator::Kill { .. } | Operator::Merge { .. } = o {
        return Err(Refused(17).into());
    }
    let mut copy = Pattern { n: p.n, m: p.m };
    apply(&mut copy, o, s)?;
    if !is_chain(chain, p.n[d] as usize, 100_000_000) {
        return Err(Refused(16).into());
    }
    out.copy_from_slice(chain);
    match o {
        Operator::Split { dim, cell, .. } if dim == d => out[p.n[d] as usize] = chain[cell],
        Operator::Flip { dim, cell } if dim == d => out[cell] = -chain[cell],
        _ => {}
    }
    Ok(())
}
