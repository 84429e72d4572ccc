//! The public calls. All are total: whatever is lent, they answer and never panic.
//! A refusal is the document's number, 0 meaning accepted. A place is that of a fault of
//! the form in the bytes of the call, and `NO_PLACE` in every other answer.

use crate::border::{coordinates_right, lengths_right, load, load_points, store, store_points};
use crate::cells::Pattern;
use crate::chains::{self, Chain};
use crate::fault::{Fault, NO_PLACE};
use crate::off::{self, OffObstacle};
use crate::off_text::{self, OffFault};
use crate::refusal::{demand, number, placed, Answer, Judged, Refusal, Refused};
use crate::{mesh, operators, script};

/// Reads the mesh at the front of `bytes`; answers refusal, counts, bytes used, place.
pub fn read_mesh(bytes: &[u8], m1: &mut [i8], m2: &mut [i8], m3: &mut [i8]) -> (u8, [u8; 4], usize, u32) {
    if !lengths_right([m1, m2, m3]) {
        return (Refusal::Length as u8, [0; 4], 0, NO_PLACE);
    }
    let read = mesh::read(bytes);
    let (refusal, place) = placed(&read);
    // The empty pattern stores three zero matrices and counts 0.
    let (pattern, used) = read.unwrap_or_default();
    store(&pattern, [m1, m2, m3]);
    (refusal, pattern.counts(), used, place)
}

/// Writes a pattern's mesh to the front of `out`; answers refusal, bytes written.
pub fn write_mesh(counts: [u8; 4], m1: &[i8], m2: &[i8], m3: &[i8], out: &mut [u8]) -> (u8, usize) {
    let bytes = load(counts, [m1, m2, m3]).map(|pattern| mesh::bytes_of(&pattern));
    put(bytes, out)
}

/// Puts bytes at the front of `out`; answers refusal, bytes written.
fn put(bytes: Answer<Vec<u8>>, out: &mut [u8]) -> (u8, usize) {
    let written = bytes.and_then(|bytes| {
        let front = out.get_mut(..bytes.len()).ok_or(Refusal::ShortOutput)?;
        front.copy_from_slice(&bytes);
        Ok(bytes.len())
    });
    (number(&written), written.unwrap_or(0))
}

/// Reads an OFF text; answers refusal, counts.
pub fn import_off(text: &[u8], m1: &mut [i8], m2: &mut [i8], m3: &mut [i8], coordinates: &mut [i32]) -> (u8, [u8; 4]) {
    if !lengths_right([m1, m2, m3]) || !coordinates_right(coordinates) {
        return (Refusal::Length as u8, [0; 4]);
    }
    let imported = off::import(text);
    let refusal = number(&imported);
    // The empty pattern and no points store nothing but zeros.
    let (pattern, points) = imported.unwrap_or_default();
    store(&pattern, [m1, m2, m3]);
    store_points(&points, coordinates);
    (refusal, pattern.counts())
}

/// Writes a pattern's OFF text to the front of `out`; answers refusal, bytes written.
pub fn export_off(counts: [u8; 4], m1: &[i8], m2: &[i8], m3: &[i8], coordinates: &[i32], out: &mut [u8]) -> (u8, usize) {
    // The list's length is part of refusal 1, so it is judged before goodness.
    let text = demand(coordinates_right(coordinates), Refusal::Length)
        .and_then(|()| load(counts, [m1, m2, m3]))
        .and_then(|pattern| off::export(&pattern, &load_points(coordinates, pattern.count(0))));
    put(text.map(String::into_bytes), out)
}

/// Whether the lent pattern is good: 0, 1 or 2.
pub fn check(counts: [u8; 4], m1: &[i8], m2: &[i8], m3: &[i8]) -> u8 {
    number(&load(counts, [m1, m2, m3]))
}

/// Answers refusal and Euler number.
pub fn euler(counts: [u8; 4], m1: &[i8], m2: &[i8], m3: &[i8]) -> (u8, i16) {
    let loaded = load(counts, [m1, m2, m3]);
    (number(&loaded), loaded.map_or(0, |pattern| pattern.euler()))
}

/// Runs the one operator that `bytes` is; answers refusal, counts, place.
pub fn apply_operator(counts: [u8; 4], m1: &mut [i8], m2: &mut [i8], m3: &mut [i8], bytes: &[u8]) -> (u8, [u8; 4], u32) {
    let applied = load(counts, [m1, m2, m3]).map_err(Refused::from).and_then(|mut pattern| {
        let operator = script::single(bytes)?;
        operators::run(&mut pattern, operator, bytes)?;
        Ok(pattern)
    });
    let (refusal, place) = placed(&applied);
    match applied {
        Ok(pattern) => {
            store(&pattern, [m1, m2, m3]);
            (refusal, pattern.counts(), place)
        }
        Err(_) => (refusal, counts, place),
    }
}

/// Runs a script; answers refusal, counts, operators accepted, place.
pub fn run_script(counts: [u8; 4], m1: &mut [i8], m2: &mut [i8], m3: &mut [i8], bytes: &[u8]) -> (u8, [u8; 4], u16, u32) {
    // The script's length is part of refusal 1, so it is judged before goodness.
    let loaded = script::length_right(bytes).and_then(|()| load(counts, [m1, m2, m3]));
    let mut pattern = match loaded {
        Ok(pattern) => pattern,
        Err(refusal) => return (refusal as u8, counts, 0, NO_PLACE),
    };
    let (answer, ran) = script::run(&mut pattern, bytes);
    store(&pattern, [m1, m2, m3]);
    let (refusal, place) = placed(&answer);
    (refusal, pattern.counts(), ran, place)
}

/// Writes the boundary of a chain of dimension `d` to `out`.
pub fn boundary(counts: [u8; 4], m1: &[i8], m2: &[i8], m3: &[i8], d: u8, chain: &[i32], out: &mut [i32]) -> u8 {
    let answer =
        load_with_chain(counts, [m1, m2, m3], chain, out).and_then(|(pattern, chain)| chains::boundary(&pattern, usize::from(d), chain));
    give(answer.map_err(Refused::from), out).0
}

/// Writes a chain of dimension `d`, carried by the operator that `bytes` is, to `out`;
/// answers refusal and place.
// The eight are the document's: a pattern is four of them.
#[allow(clippy::too_many_arguments)]
pub fn carry(counts: [u8; 4], m1: &[i8], m2: &[i8], m3: &[i8], bytes: &[u8], d: u8, chain: &[i32], out: &mut [i32]) -> (u8, u32) {
    let dim = usize::from(d);
    let answer = load_with_chain(counts, [m1, m2, m3], chain, out).map_err(Refused::from).and_then(|(pattern, chain)| {
        chains::carries(dim)?;
        let operator = script::single(bytes)?;
        chains::carry(&pattern, operator, bytes, dim, chain)
    });
    give(answer, out)
}

/// The lent pattern and chain, every length being judged before goodness.
fn load_with_chain<'a>(counts: [u8; 4], matrices: [&[i8]; 3], chain: &'a [i32], out: &[i32]) -> Answer<(Pattern, &'a Chain)> {
    let lent: &Chain = chain.try_into().map_err(|_| Refusal::Length)?;
    demand(out.len() == lent.len(), Refusal::Length)?;
    Ok((load(counts, matrices)?, lent))
}

fn give(answer: Judged<Chain>, out: &mut [i32]) -> (u8, u32) {
    let refusal_and_place = placed(&answer);
    if let Ok(result) = answer {
        for (entry, value) in out.iter_mut().zip(result) {
            *entry = value;
        }
    }
    refusal_and_place
}

/// The fault of the form for which the mesh reader refuses `bytes`, if it does.
pub fn mesh_fault(bytes: &[u8]) -> Option<Fault> {
    mesh::read(bytes).err().and_then(Refused::fault)
}

/// The fault of the form of `bytes` as one operator.
pub fn operator_fault(bytes: &[u8]) -> Option<Fault> {
    script::single(bytes).err()
}

/// The fault of the form of `bytes` as a script, however many they are.
pub fn script_fault(bytes: &[u8]) -> Option<Fault> {
    script::decode(bytes).err()
}

/// The fault of the form for which a text is no OFF text.
pub fn off_fault(text: &[u8]) -> Option<OffFault> {
    off_text::read(text).err()
}

/// What stands against an OFF text of the lent pattern, wherever its corners are. A pattern
/// that is refused by 1 or 2 is not asked.
pub fn off_obstacle(counts: [u8; 4], m1: &[i8], m2: &[i8], m3: &[i8]) -> Option<OffObstacle> {
    let pattern = load(counts, [m1, m2, m3]).ok()?;
    off::rings_of(&pattern).err()
}
