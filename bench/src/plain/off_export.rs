//! Exporting a pattern as an OFF text: with every frame within 1 KiB, as the engine has to, and with all rings kept on the stack.
use super::off_import::LIMIT;
use super::pattern::{check, column, Pattern, SIDE};
use super::Refused;

/// Tail and head of each seam, if no two have the same ends.
fn ends(p: &Pattern) -> Option<[(u8, u8); SIDE]> {
    let mut ends = [(0, 0); SIDE];
    let mut joined = [0u128; SIDE];
    for (j, e) in ends[..p.n[1] as usize].iter_mut().enumerate() {
        let c = column(&p.m[0], j);
        let at = |z: i8| c.iter().position(|x| *x == z).unwrap();
        let (tail, head) = (at(-1), at(1));
        let (low, high) = (tail.min(head), tail.max(head));
        if joined[low] >> high & 1 == 1 {
            return None;
        }
        joined[low] |= 1 << high;
        *e = (tail as u8, head as u8);
    }
    Some(ends)
}

fn has_loose_seam(p: &Pattern) -> bool {
    let mut used = [0i8; SIDE];
    for j in 0..p.n[2] as usize {
        used.iter_mut().zip(column(&p.m[1], j)).for_each(|(u, x)| *u |= *x);
    }
    used[..p.n[1] as usize].contains(&0)
}

/// The corners around a panel from the lowest, and how many, if it is one ring.
fn ring(c: &[i8], ends: &[(u8, u8)], out: &mut [u8; SIDE]) -> Option<usize> {
    const NONE: u8 = 255;
    let (mut next, mut start, mut faces) = ([NONE; SIDE], NONE, 0);
    for (x, (tail, head)) in c.iter().zip(ends).filter(|(x, _)| **x != 0) {
        let (from, to) = if *x == 1 { (*tail, *head) } else { (*head, *tail) };
        if next[from as usize] != NONE {
            return None;
        }
        next[from as usize] = to;
        start = start.min(from);
        faces += 1;
    }
    let (mut corner, mut length) = (start, 0);
    loop {
        out[length] = corner;
        length += 1;
        corner = next[corner as usize];
        if corner == start {
            return if length == faces { Some(length) } else { None };
        }
    }
}

/// The rings of all panels, each with its length.
type Rings = [(usize, [u8; SIDE]); SIDE];

fn rings(p: &Pattern) -> Option<Rings> {
    if p.n[3] != 0 || has_loose_seam(p) {
        return None;
    }
    let ends = ends(p)?;
    let mut rings = [(0, [0; SIDE]); SIDE];
    for (j, (length, corners)) in rings[..p.n[2] as usize].iter_mut().enumerate() {
        *length = ring(column(&p.m[1], j), &ends[..p.n[1] as usize], corners)?;
    }
    Some(rings)
}

fn digits(mut x: u32) -> usize {
    let mut n = 1;
    while x >= 10 {
        x /= 10;
        n += 1;
    }
    n
}

fn two(x: usize) -> usize {
    1 + (x >= 10) as usize
}

/// All but the lines of the panels.
fn front_length(p: &Pattern, coordinates: &[i32]) -> usize {
    let counts: usize = p.n[..3].iter().map(|x| two(*x as usize) + 1).sum();
    let points: usize = coordinates.iter().map(|x| (*x < 0) as usize + digits(x.unsigned_abs()) + 1).sum();
    4 + counts + points
}

fn ring_length(ring: &[u8]) -> usize {
    two(ring.len()) + 1 + 2 * ring.len() + ring.iter().map(|x| (*x >= 10) as usize).sum::<usize>()
}

fn put(out: &mut [u8], at: &mut usize, x: i32, end: u8) {
    if x < 0 {
        out[*at] = b'-';
        *at += 1;
    }
    let (mut rest, n) = (x.unsigned_abs(), digits(x.unsigned_abs()));
    for place in out[*at..][..n].iter_mut().rev() {
        *place = b'0' + (rest % 10) as u8;
        rest /= 10;
    }
    out[*at + n] = end;
    *at += n + 1;
}

/// Each number up to 96, and a blank.
const SMALL: [[u8; 3]; SIDE + 1] = {
    let mut words = [[b' '; 3]; SIDE + 1];
    let mut x = 0;
    while x <= SIDE {
        let digits = [b'0' + x as u8 / 10, b'0' + x as u8 % 10];
        words[x] = if x < 10 { [digits[1], b' ', b' '] } else { [digits[0], digits[1], b' '] };
        x += 1;
    }
    words
};

/// A line of numbers up to 96, not more than a ring and its length.
fn put_line(out: &mut [u8], at: &mut usize, numbers: impl Iterator<Item = u8>) {
    let (mut line, mut n) = ([0; 3 * (SIDE + 1)], 0);
    numbers.for_each(|x| {
        line[n..n + 3].copy_from_slice(&SMALL[x as usize]);
        n += 2 + (x >= 10) as usize;
    });
    line[n - 1] = b'\n';
    out[*at..*at + n].copy_from_slice(&line[..n]);
    *at += n;
}

/// All but the lines of the panels; where these begin.
fn write_front(p: &Pattern, coordinates: &[i32], out: &mut [u8]) -> usize {
    out[..4].copy_from_slice(b"OFF\n");
    let mut at = 4;
    put_line(out, &mut at, [p.n[0], p.n[2], p.n[1]].into_iter());
    for point in coordinates.chunks_exact(3) {
        put(out, &mut at, point[0], b' ');
        put(out, &mut at, point[1], b' ');
        put(out, &mut at, point[2], b'\n');
    }
    at
}

fn write_ring(ring: &[u8], out: &mut [u8], at: &mut usize) {
    put_line(out, at, std::iter::once(ring.len() as u8).chain(ring.iter().copied()));
}

/// The coordinates of the corners that there are, if pattern and coordinates can be exported at all.
fn own<'a>(p: &Pattern, coordinates: &'a [i32]) -> Result<&'a [i32], Refused> {
    if coordinates.len() != 3 * SIDE {
        return Err(Refused(1));
    }
    if check(p) != 0 {
        return Err(Refused(2));
    }
    let own = &coordinates[..3 * p.n[0] as usize];
    if !own.iter().fold(true, |ok, x| ok & (-LIMIT..=LIMIT).contains(x)) {
        return Err(Refused(18));
    }
    Ok(own)
}

fn exported_keeping(p: &Pattern, coordinates: &[i32], out: &mut [u8]) -> Result<usize, Refused> {
    let own = own(p, coordinates)?;
    let rings = rings(p).ok_or(Refused(19))?;
    let kept = || rings[..p.n[2] as usize].iter().map(|(length, ring)| &ring[..*length]);
    let length = front_length(p, own) + kept().map(ring_length).sum::<usize>();
    if out.len() < length {
        return Err(Refused(15));
    }
    let mut at = write_front(p, own, out);
    kept().for_each(|ring| write_ring(ring, out, &mut at));
    Ok(length)
}

/// Tail and head of each seam, if no two have the same ends, found without a table.
fn ends_in_pairs(p: &Pattern) -> Option<[(u8, u8); SIDE]> {
    let mut ends = [(0, 0); SIDE];
    for j in 0..p.n[1] as usize {
        let c = column(&p.m[0], j);
        let at = |z: i8| c.iter().position(|x| *x == z).unwrap() as u8;
        let e = (at(-1), at(1));
        if ends[..j].iter().any(|d| *d == e || *d == (e.1, e.0)) {
            return None;
        }
        ends[j] = e;
    }
    Some(ends)
}

fn exported(p: &Pattern, coordinates: &[i32], out: &mut [u8]) -> Result<usize, Refused> {
    let own = own(p, coordinates)?;
    if p.n[3] != 0 || has_loose_seam(p) {
        return Err(Refused(19));
    }
    let ends = ends_in_pairs(p).ok_or(Refused(19))?;
    let (ends, mut corners) = (&ends[..p.n[1] as usize], [0; SIDE]);
    let mut length = front_length(p, own);
    for j in 0..p.n[2] as usize {
        let n = ring(column(&p.m[1], j), ends, &mut corners).ok_or(Refused(19))?;
        length += ring_length(&corners[..n]);
    }
    if out.len() < length {
        return Err(Refused(15));
    }
    let mut at = write_front(p, own, out);
    for j in 0..p.n[2] as usize {
        let n = ring(column(&p.m[1], j), ends, &mut corners).ok_or(Refused(19))?;
        write_ring(&corners[..n], out, &mut at);
    }
    Ok(length)
}

fn answer(result: Result<usize, Refused>) -> (usize, u8) {
    match result {
        Ok(written) => (written, 0),
        Err(Refused(r)) => (0, r),
    }
}

/// Bytes written and refusal.
pub fn export_off(p: &Pattern, coordinates: &[i32], out: &mut [u8]) -> (usize, u8) {
    answer(exported(p, coordinates, out))
}

/// The same, with 10 KiB of stack for rings and ends.
pub fn export_off_keeping(p: &Pattern, coordinates: &[i32], out: &mut [u8]) -> (usize, u8) {
    answer(exported_keeping(p, coordinates, out))
}
