//! Importing an OFF text, in one pass over it.
use super::pattern::{Pattern, SIDE};
use super::Refused;

pub const LIMIT: i32 = 1_048_576;

/// The text that is still to be read.
struct Words<'a>(&'a [u8]);

fn is_separator(byte: u8) -> bool {
    matches!(byte, b' ' | b'\t' | b'\r' | b'\n')
}

impl<'a> Words<'a> {
    fn skip(&mut self) {
        while let [first, rest @ ..] = self.0 {
            if !is_separator(*first) {
                return;
            }
            self.0 = rest;
        }
    }

    /// A word ends here, and the separator after it is taken.
    fn end(&mut self) -> Result<(), Refused> {
        match self.0 {
            [] => Ok(()),
            [first, rest @ ..] if is_separator(*first) => {
                self.0 = rest;
                Ok(())
            }
            _ => Err(Refused(18)),
        }
    }

    fn keyword(&mut self) -> Result<(), Refused> {
        self.skip();
        self.0 = self.0.strip_prefix(b"OFF").ok_or(Refused(18))?;
        self.end()
    }

    fn digits(&mut self) -> Result<u32, Refused> {
        let (mut value, before) = (0u32, self.0.len());
        while let [digit @ b'0'..=b'9', rest @ ..] = self.0 {
            value = value.wrapping_mul(10).wrapping_add((digit - b'0') as u32);
            self.0 = rest;
        }
        if !(1..=7).contains(&(before - self.0.len())) {
            return Err(Refused(18));
        }
        self.end()?;
        Ok(value)
    }

    fn number(&mut self) -> Result<usize, Refused> {
        self.skip();
        Ok(self.digits()? as usize)
    }

    fn count(&mut self) -> Result<usize, Refused> {
        let n = self.number()?;
        if n <= SIDE {
            Ok(n)
        } else {
            Err(Refused(18))
        }
    }

    fn coordinate(&mut self) -> Result<i32, Refused> {
        self.skip();
        let minus = self.0.first() == Some(&b'-');
        self.0 = &self.0[minus as usize..];
        let value = self.digits()? as i32;
        if value <= LIMIT {
            Ok(if minus { -value } else { value })
        } else {
            Err(Refused(18))
        }
    }
}

/// For each step from corner to corner that was met, and for the step back, the seam's number and one more; `BACK` is added for the latter.
type Seams = [[u8; SIDE]; SIDE];
const BACK: u8 = 128;

/// The pattern as its panels are sewn on, and for each corner the last panel that has it, counted from 1.
struct Sewing<'a> {
    p: &'a mut Pattern,
    seams: Seams,
    met: [u8; SIDE],
}

impl Sewing<'_> {
    fn step(&mut self, panel: usize, from: usize, to: usize) -> Result<(), Refused> {
        let mut seam = self.seams[from][to];
        if seam == 0 {
            let new = self.p.n[1] as usize;
            if new == SIDE {
                return Err(Refused(6));
            }
            seam = new as u8 + 1;
            self.p.n[1] = seam;
            self.p.m[0][SIDE * new + from] = -1;
            self.p.m[0][SIDE * new + to] = 1;
            self.seams[from][to] = seam;
            self.seams[to][from] = seam | BACK;
        }
        self.p.m[1][SIDE * panel + (seam & !BACK) as usize - 1] = if seam < BACK { 1 } else { -1 };
        Ok(())
    }

    /// A line's form, and what is wrong with its meaning: 0, or 5, 7 or 6, the first of these that applies.
    fn line(&mut self, w: &mut Words, panel: usize) -> Result<u8, Refused> {
        let (n, length, own) = (self.p.n[0] as usize, w.number()?, panel as u8 + 1);
        let (mut stray, mut twice, mut full) = (false, length < 3, false);
        let (mut first, mut last) = (SIDE, SIDE);
        for _ in 0..length {
            let corner = w.number()?;
            if n <= corner {
                stray = true;
                continue;
            }
            twice |= self.met[corner] == own;
            self.met[corner] = own;
            if stray | twice | full {
                continue;
            }
            if last < SIDE {
                full = self.step(panel, last, corner).is_err();
            } else {
                first = corner;
            }
            last = corner;
        }
        if !(stray | twice | full) {
            full = self.step(panel, last, first).is_err();
        }
        Ok(if stray {
            5
        } else if twice {
            7
        } else {
            6 * full as u8
        })
    }
}

fn read(s: &[u8], p: &mut Pattern, coordinates: &mut [i32]) -> Result<(), Refused> {
    let mut w = Words(s);
    w.keyword()?;
    let (corners, panels) = (w.count()?, w.count()?);
    w.number()?;
    for x in &mut coordinates[..3 * corners] {
        *x = w.coordinate()?;
    }
    p.n = [corners as u8, 0, panels as u8, 0];
    let mut sewing = Sewing { p, seams: [[0; SIDE]; SIDE], met: [0; SIDE] };
    let mut meaning = 0;
    for panel in 0..panels {
        // After a line that is no ring only the form counts.
        let refusal = sewing.line(&mut w, panel)?;
        meaning = if meaning == 0 { refusal } else { meaning };
    }
    w.skip();
    if !w.0.is_empty() {
        return Err(Refused(18));
    }
    if meaning == 0 {
        Ok(())
    } else {
        Err(Refused(meaning))
    }
}

/// The refusal; p is the pattern imported, or empty.
pub fn import_off(s: &[u8], p: &mut Pattern, coordinates: &mut [i32]) -> u8 {
    if coordinates.len() != 3 * SIDE {
        p.n = [0; 4];
        return 1;
    }
    p.m.iter_mut().for_each(|m| m.fill(0));
    coordinates.fill(0);
    match read(s, p, coordinates) {
        Ok(()) => 0,
        Err(Refused(r)) => {
            *p = Pattern::empty();
            coordinates.fill(0);
            r
        }
    }
}
