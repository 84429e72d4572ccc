//! The form of an operator and of a script.
use super::Placed;

#[derive(Clone, Copy)]
pub enum Operator {
    Make { dim: usize, list: usize },
    Kill { dim: usize, cell: usize },
    Split { dim: usize, cell: usize, list: usize },
    Merge { dim: usize, cell: usize },
    Flip { dim: usize, cell: usize },
}

fn cut_short(s: &[u8]) -> Placed {
    Placed(3, s.len() as u32)
}

pub fn byte(s: &[u8], at: usize, low: usize, high: usize) -> Result<usize, Placed> {
    let x = *s.get(at).ok_or_else(|| cut_short(s))? as usize;
    if x < low || high < x {
        Err(Placed(4, at as u32))
    } else {
        Ok(x)
    }
}

/// A list of faces, with signs or without: the place after it.
fn list_form(s: &[u8], at: usize, signed: bool) -> Result<usize, Placed> {
    let n = byte(s, at, 0, 96)?;
    let (mut place, mut low) = (at + 1, 0);
    for _ in 0..n {
        low = byte(s, place, low, 255)? + 1;
        place += 1;
        if signed {
            byte(s, place, 1, 2)?;
            place += 1;
        }
    }
    Ok(place)
}

/// What a cell of dimension k is made with: the place after it.
pub fn made_form(s: &[u8], k: usize, at: usize) -> Result<usize, Placed> {
    match k {
        0 => Ok(at),
        1 => {
            byte(s, at, 0, 255)?;
            byte(s, at + 1, 0, 255)?;
            Ok(at + 2)
        }
        _ => list_form(s, at, true),
    }
}

/// The operator at a place, and the place after it.
pub fn operator(s: &[u8], at: usize) -> Result<(Operator, usize), Placed> {
    let code = byte(s, at, 0, 255)?;
    let dim = code & 15;
    let cell = |at| byte(s, at, 0, 255);
    match code {
        0x10..=0x13 => Ok((Operator::Make { dim, list: at + 1 }, made_form(s, dim, at + 1)?)),
        0x20..=0x23 => Ok((Operator::Kill { dim, cell: cell(at + 1)? }, at + 2)),
        0x31 => Ok((Operator::Split { dim, cell: cell(at + 1)?, list: at + 2 }, at + 2)),
        0x32..=0x33 => {
            let cell = cell(at + 1)?;
            Ok((Operator::Split { dim, cell, list: at + 2 }, list_form(s, at + 2, false)?))
        }
        0x40..=0x42 => Ok((Operator::Merge { dim, cell: cell(at + 1)? }, at + 2)),
        0x51..=0x53 => Ok((Operator::Flip { dim, cell: cell(at + 1)? }, at + 2)),
        _ => Err(Placed(4, at as u32)),
    }
}

/// One operator and nothing after it.
pub fn lone_operator(s: &[u8]) -> Result<Operator, Placed> {
    let (o, next) = operator(s, 0)?;
    if next == s.len() {
        Ok(o)
    } else {
        Err(Placed(14, next as u32))
    }
}

/// How many operators a script has.
pub fn script(s: &[u8]) -> Result<usize, Placed> {
    byte(s, 0, 4, 4)?;
    for k in 1..5 {
        byte(s, k, 0, 96)?;
    }
    if s.len() < 7 {
        return Err(cut_short(s));
    }
    let n = s[5] as usize + 256 * s[6] as usize;
    if 1024 < n {
        return Err(Placed(4, 5));
    }
    let mut at = 7;
    for _ in 0..n {
        at = operator(s, at)?.1;
    }
    if at == s.len() {
        Ok(n)
    } else {
        Err(Placed(14, at as u32))
    }
}
