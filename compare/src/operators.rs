//! Operators that fit a pattern, and ones with mistakes of meaning.

use crate::meshes::listed;
use crate::patterns::{Face, Pattern};
use crate::random::Random;
use second::LIMIT;

/// Every operator in every dimension.
pub const CODES: [u8; 17] = [0x10, 0x11, 0x12, 0x13, 0x20, 0x21, 0x22, 0x23, 0x31, 0x32, 0x33, 0x40, 0x41, 0x42, 0x51, 0x52, 0x53];
const GROWING: [u8; 7] = [0x10, 0x11, 0x12, 0x13, 0x31, 0x32, 0x33];
const SHRINKING: [u8; 7] = [0x20, 0x21, 0x22, 0x23, 0x40, 0x41, 0x42];

/// An operator that leads the pattern towards a size; the empty one grows.
pub fn towards(random: &mut Random, pattern: &Pattern, size: usize) -> Vec<u8> {
    let codes: &[u8] = match random.below(3) {
        0 => &CODES,
        _ if pattern.size() < size => &GROWING,
        _ => &SHRINKING,
    };
    let code = random.pick(codes);
    fitting(random, pattern, code)
}

/// The bytes of an operator that is likely to be accepted.
pub fn fitting(random: &mut Random, pattern: &Pattern, code: u8) -> Vec<u8> {
    let dim = usize::from(code & 15);
    let cell = random.below(pattern.count(dim));
    match code {
        0x10 => vec![code],
        0x11 => {
            let (tail, step) = (random.below(pattern.count(0)), 1 + random.below(pattern.count(0).max(2) - 1));
            vec![code, tail as u8, ((tail + step) % pattern.count(0).max(1)) as u8]
        }
        0x12 | 0x13 => [vec![code], listed(&made(random, pattern, dim))].concat(),
        0x20..=0x22 => vec![code, likely(random, pattern, dim, |users| users.is_empty())],
        0x31..=0x33 => split(random, pattern, dim, cell),
        0x40..=0x42 => vec![code, likely(random, pattern, dim, |users| merging(pattern, dim, users, false))],
        _ => vec![code, cell as u8],
    }
}

/// The bytes of a split of this cell.
pub fn split(random: &mut Random, pattern: &Pattern, dim: usize, cell: usize) -> Vec<u8> {
    let head = vec![0x30 + dim as u8, cell as u8];
    match dim {
        1 => head,
        _ => [head, numbers(part(random, pattern, dim, cell))].concat(),
    }
}

/// Whether a cell with these users lies between two others.
pub fn between_two(users: &[Face]) -> bool {
    users.len() == 2 && users[0].1 != users[1].1
}

/// Whether a cell of dimension `dim` with these users lies between two others, and these share it alone or, if so wished, others too.
fn merging(pattern: &Pattern, dim: usize, users: &[Face], others: bool) -> bool {
    between_two(users) && (shared(pattern, dim + 1, users[0].0, users[1].0).count() > 1) == others
}

/// An operator that makes two cells share a face besides the one of dimension `dim` between them, and their merge there. The first is a
/// split of what lies between or, at a corner where one seam alone ends, a seam back.
pub fn sharing(random: &mut Random, pattern: &Pattern, dim: usize) -> [Vec<u8>; 2] {
    let wanted = |users: &[Face]| if dim == 0 { users.len() == 1 } else { merging(pattern, dim, users, false) };
    let cell = likely(random, pattern, dim, wanted);
    let first = match dim {
        0 => back(pattern, cell.into()),
        _ => split(random, pattern, dim, cell.into()),
    };
    [first, vec![0x40 + dim as u8, cell]]
}

/// A seam beside the first one of a corner, the other way round.
fn back(pattern: &Pattern, corner: usize) -> Vec<u8> {
    let seam = pattern.users(0, corner).first().map_or(Vec::new(), |user| pattern.faces(1, user.0.into()));
    match seam[..] {
        [(one, sign), (other, _)] if sign > 0 => vec![0x11, one, other],
        [(one, _), (other, _)] => vec![0x11, other, one],
        _ => vec![0x10],
    }
}

/// A cell whose users are as wanted, the next one from anywhere on, or any if there is none.
fn likely(random: &mut Random, pattern: &Pattern, dim: usize, wanted: impl Fn(&[Face]) -> bool) -> u8 {
    let (count, first) = (pattern.count(dim), random.below(pattern.count(dim)));
    let mut cells = (first..count).chain(0..first);
    cells.find(|&cell| wanted(&pattern.users(dim, cell))).unwrap_or(first) as u8
}

/// A face count and the numbers, rising.
fn numbers(mut list: Vec<u8>) -> Vec<u8> {
    list.sort_unstable();
    list.dedup();
    std::iter::once(list.len() as u8).chain(list).collect()
}

/// The faces of a panel or block to be made.
fn made(random: &mut Random, pattern: &Pattern, dim: usize) -> Vec<Face> {
    if pattern.count(dim) == 0 || !random.one_in(3) {
        return closing(random, pattern, dim);
    }
    let sign = random.sign();
    let copied = pattern.faces(dim, random.below(pattern.count(dim)));
    copied.into_iter().map(|(face, own)| (face, own * sign)).collect()
}

/// Signed faces whose boundary is zero, as far as adding one after another gets there.
fn closing(random: &mut Random, pattern: &Pattern, dim: usize) -> Vec<Face> {
    let mut chosen: Vec<Face> = Vec::new();
    let mut sum = [0i32; LIMIT];
    if pattern.count(dim - 1) == 0 {
        return chosen;
    }
    let mut next = (random.below(pattern.count(dim - 1)) as u8, random.sign());
    loop {
        chosen.push(next);
        for (face, own) in pattern.faces(dim - 1, next.0.into()) {
            sum[usize::from(face)] += i32::from(own * next.1);
        }
        let open: Vec<usize> = (0..LIMIT).filter(|&face| sum[face] != 0).collect();
        if open.is_empty() {
            return chosen;
        }
        let face = random.pick(&open);
        let mut users = pattern.users(dim - 2, face);
        users.retain(|user| chosen.iter().all(|own| own.0 != user.0));
        if users.is_empty() {
            return chosen;
        }
        let (user, own) = random.pick(&users);
        next = (user, if sum[face] > 0 { -own } else { own });
    }
}

/// Faces of a cell to split it by: one, or one with neighbours, or any.
fn part(random: &mut Random, pattern: &Pattern, dim: usize, cell: usize) -> Vec<u8> {
    if pattern.count(dim) == 0 {
        return Vec::new();
    }
    let mut rest: Vec<u8> = pattern.faces(dim, cell).iter().map(|face| face.0).collect();
    let mut chosen = vec![rest.remove(random.below(rest.len()))];
    let (wanted, any) = (random.below(rest.len().max(1)), random.one_in(3));
    for _ in 0..wanted {
        let touches = |face: &u8| any || chosen.iter().any(|own| shared(pattern, dim - 1, *own, *face).next().is_some());
        let near: Vec<u8> = rest.iter().copied().filter(touches).collect();
        if near.is_empty() {
            break;
        }
        let next = random.pick(&near);
        rest.retain(|&face| face != next);
        chosen.push(next);
    }
    chosen
}

/// The faces that two cells have in common.
pub fn shared(pattern: &Pattern, dim: usize, one: u8, other: u8) -> impl Iterator<Item = usize> + '_ {
    let has = move |cell: u8, face| pattern.entry(dim, cell.into(), face) != 0;
    (0..pattern.count(dim - 1)).filter(move |&face| has(one, face) && has(other, face))
}

/// A number at or past a count.
pub fn past(random: &mut Random, count: usize) -> u8 {
    let next = count as u8;
    random.pick(&[next, next, next.saturating_add(1), 95.max(next), 96.max(next), 255])
}

/// An operator of good form, likely to be refused by 5, by 7 to 11 or by 20.
pub fn mistaken(random: &mut Random, pattern: &Pattern, code: u8) -> Vec<u8> {
    let dim = usize::from(code & 15);
    let cell = random.below(pattern.count(dim)) as u8;
    let choice = random.below(3);
    match (code, choice) {
        (0x10, _) => vec![code],
        (0x11, 0) => vec![code, cell, past(random, pattern.count(0))],
        (0x11, 1) => vec![code, past(random, pattern.count(0)), 0],
        (0x11, _) => vec![code, cell % pattern.counts[0].max(1), cell % pattern.counts[0].max(1)],
        (0x12 | 0x13, _) => [vec![code], listed(&any_faces(random, pattern, dim))].concat(),
        (0x32 | 0x33, _) => {
            let list = mistaken_part(random, pattern, dim, cell.into());
            [vec![code, if choice == 0 { past(random, pattern.count(dim)) } else { cell }], numbers(list)].concat()
        }
        (_, 0) => vec![code, past(random, pattern.count(dim))],
        (0x40..=0x42, 1) => vec![code, likely(random, pattern, dim, |users| merging(pattern, dim, users, true))],
        _ => vec![code, cell],
    }
}

/// Signed faces without regard to their boundary, some of them past the count.
fn any_faces(random: &mut Random, pattern: &Pattern, dim: usize) -> Vec<Face> {
    let count = pattern.count(dim - 1);
    let one_of = [1, 2, 3, 4, 10, 100];
    let (odds, stray) = (random.pick(&one_of), random.one_in(4));
    let mut faces: Vec<Face> = Vec::new();
    for face in 0..count.min(LIMIT - 1) {
        if random.one_in(odds) {
            faces.push((face as u8, random.sign()));
        }
    }
    if stray {
        faces.push((past(random, count), random.sign()));
    }
    faces
}

/// No face, all faces, a stranger or a number past the count among them, or any faces.
fn mistaken_part(random: &mut Random, pattern: &Pattern, dim: usize, cell: usize) -> Vec<u8> {
    if pattern.count(dim) == 0 {
        return vec![0];
    }
    let all: Vec<u8> = pattern.faces(dim, cell).iter().map(|face| face.0).collect();
    let mut list = match random.below(5) {
        0 => Vec::new(),
        1 => all,
        _ => all.into_iter().filter(|_| random.one_in(2)).collect(),
    };
    if random.one_in(3) && list.len() < LIMIT {
        let count = pattern.count(dim - 1);
        let (stranger, stray) = (random.below(count) as u8, past(random, count));
        list.push(if random.one_in(2) { stranger } else { stray });
    }
    list
}
