//! Reading and writing a mesh.
use super::form::{byte, made_form};
use super::operators::make;
use super::pattern::{check, column, times, Pattern, SIDE};
use super::{Placed, NO_PLACE};

fn read(s: &[u8], p: &mut Pattern) -> Result<usize, Placed> {
    p.n = [byte(s, 0, 0, 96)? as u8, 0, 0, 0];
    let mut at = 1;
    for k in 1..4 {
        let n = byte(s, at, 0, 96)?;
        at += 1;
        for _ in 0..n {
            let next = made_form(s, k, at)?;
            make(p, k, s, at)?;
            at = next;
        }
    }
    Ok(at)
}

/// Bytes used, refusal and place; p is the pattern read, or empty.
pub fn read_mesh(s: &[u8], p: &mut Pattern) -> (usize, u8, u32) {
    for m in &mut p.m {
        m.fill(0);
    }
    match read(s, p) {
        Ok(used) => (used, 0, NO_PLACE),
        Err(Placed(r, place)) => {
            *p = Pattern::empty();
            (0, r, place)
        }
    }
}

fn faces(v: &[i8]) -> usize {
    SIDE - times(v, 0)
}

fn mesh_length(p: &Pattern) -> usize {
    let lists = |k: usize| (0..p.n[k + 1] as usize).map(|j| 1 + 2 * faces(column(&p.m[k], j))).sum::<usize>();
    4 + 2 * p.n[1] as usize + lists(1) + lists(2)
}

fn put(out: &mut [u8], at: &mut usize, x: usize) {
    out[*at] = x as u8;
    *at += 1;
}

/// Bytes written and refusal.
pub fn write_mesh(p: &Pattern, out: &mut [u8]) -> (usize, u8) {
    let refusal = check(p);
    if refusal != 0 {
        return (0, refusal);
    }
    if out.len() < mesh_length(p) {
        return (0, 15);
    }
    let n = p.n.map(usize::from);
    let mut at = 0;
    put(out, &mut at, n[0]);
    put(out, &mut at, n[1]);
    for j in 0..n[1] {
        let c = column(&p.m[0], j);
        put(out, &mut at, c.iter().position(|x| *x == -1).unwrap());
        put(out, &mut at, c.iter().position(|x| *x == 1).unwrap());
    }
    for k in 1..3 {
        put(out, &mut at, n[k + 1]);
        for j in 0..n[k + 1] {
            let c = column(&p.m[k], j);
            put(out, &mut at, faces(c));
            for (i, x) in c.iter().enumerate().filter(|(_, x)| **x != 0) {
                put(out, &mut at, i);
                put(out, &mut at, if *x == 1 { 1 } else { 2 });
            }
        }
    }
    (at, 0)
}
