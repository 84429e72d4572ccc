//! Boundary and carrying of chains.

use crate::cells::{Pattern, LIMIT};
use crate::form::Operator;
use crate::operators;
use crate::refusal::{demand, Answer, Judged, Refusal};

pub type Chain = [i32; LIMIT];

const BOUNDARY_LIMIT: i32 = 1_000_000;
const CARRY_LIMIT: i32 = 100_000_000;

fn judge(chain: &Chain, count: usize, limit: i32) -> Answer<()> {
    let within = chain.iter().all(|c| (-limit..=limit).contains(c));
    let past = chain.iter().skip(count).all(|&c| c == 0);
    demand(within && past, Refusal::Coefficient)
}

/// The boundary of a chain of dimension `dim`, 1 to 3.
pub fn boundary(pattern: &Pattern, dim: usize, chain: &Chain) -> Answer<Chain> {
    demand((1..=3).contains(&dim), Refusal::Form)?;
    judge(chain, pattern.count(dim), BOUNDARY_LIMIT)?;
    let mut out = [0; LIMIT];
    for (cell, &coefficient) in pattern.cells(dim).iter().zip(chain) {
        for &(face, sign) in &cell.faces {
            if let Some(sum) = out.get_mut(usize::from(face)) {
                *sum += i32::from(sign) * coefficient;
            }
        }
    }
    Ok(out)
}

/// Whether a chain of dimension `dim` can be carried at all.
pub fn carries(dim: usize) -> Answer<()> {
    demand(dim <= 3, Refusal::Form)
}

/// The chain after an operator decoded from `bytes`; the pattern stays as it is.
pub fn carry(pattern: &Pattern, operator: Operator, bytes: &[u8], dim: usize, chain: &Chain) -> Judged<Chain> {
    if let Operator::Kill { .. } | Operator::Merge { .. } = operator {
        return Err(Refusal::NotCarried.into());
    }
    operators::run(&mut pattern.clone(), operator, bytes)?;
    let count = pattern.count(dim);
    judge(chain, count, CARRY_LIMIT)?;
    // A made cell and a dividing cell get 0, and 0 is what stands past the count.
    let mut out = *chain;
    match operator {
        Operator::Split { dim: split, cell, .. } if split == dim => {
            if let Some(new) = out.get_mut(count) {
                *new = coefficient(chain, cell);
            }
        }
        Operator::Flip { dim: flipped, cell } if flipped == dim => {
            if let Some(own) = out.get_mut(usize::from(cell)) {
                *own = -*own;
            }
        }
        _ => {}
    }
    Ok(out)
}

fn coefficient(chain: &Chain, cell: u8) -> i32 {
    chain.get(usize::from(cell)).copied().unwrap_or(0)
}
