//! The public calls on lent slices of any length, each as include/mbyasoka.h says. Answers begin with the refusal, 0 for accepted; a place
//! ends them, `Refusal::NO_PLACE` for none.

use crate::raw;
use crate::Refusal;

/// The counts of corners, seams, panels and blocks.
pub type Counts = [u8; 4];

/// The three matrices of a lent pattern.
pub type Matrices<'a> = [&'a [i8]; 3];
pub type MatricesMut<'a> = [&'a mut [i8]; 3];

/// A call: what stands before the matrices, the matrices and a list of coordinates, each by its pointer and its length, and what stands
/// after them.
///
/// Safety: each pointer and length below is that of a slice or a place that lives through the call, places that are written to are lent
/// by `&mut` alone, and the engine is proved to stay inside what it is lent.
macro_rules! call {
    ($name:ident, [$($before:expr),*], $pointer:ident [$($matrix:ident),*], [$($after:expr),*]) => {
        unsafe { raw::$name($($before,)* $($matrix.$pointer(), $matrix.len(),)* $($after),*) }
    };
}

pub fn check(counts: Counts, [m1, m2, m3]: Matrices) -> u8 {
    call!(mbyasoka_check, [&counts], as_ptr [m1, m2, m3], [])
}

/// Refusal, counts, bytes used, place.
pub fn read_mesh([m1, m2, m3]: MatricesMut, bytes: &[u8]) -> (u8, Counts, usize, u32) {
    let (mut counts, mut used, mut place) = ([0; 4], 0, Refusal::NO_PLACE);
    let refusal = call!(mbyasoka_read_mesh, [&mut counts], as_mut_ptr [m1, m2, m3], [bytes.as_ptr(), bytes.len(), &mut used, &mut place]);
    (refusal, counts, used, place)
}

/// Refusal, bytes written.
pub fn write_mesh(counts: Counts, [m1, m2, m3]: Matrices, out: &mut [u8]) -> (u8, usize) {
    let mut written = 0;
    let refusal = call!(mbyasoka_write_mesh, [&counts], as_ptr [m1, m2, m3], [out.as_mut_ptr(), out.len(), &mut written]);
    (refusal, written)
}

/// Refusal, Euler number.
pub fn euler(counts: Counts, [m1, m2, m3]: Matrices) -> (u8, i16) {
    let mut number = 0;
    let refusal = call!(mbyasoka_euler, [&counts], as_ptr [m1, m2, m3], [&mut number]);
    (refusal, number)
}

/// Refusal, counts, place.
pub fn apply_operator(mut counts: Counts, [m1, m2, m3]: MatricesMut, bytes: &[u8]) -> (u8, Counts, u32) {
    let mut place = Refusal::NO_PLACE;
    let refusal = call!(mbyasoka_apply_operator, [&mut counts], as_mut_ptr [m1, m2, m3], [bytes.as_ptr(), bytes.len(), &mut place]);
    (refusal, counts, place)
}

/// Refusal, counts, operators accepted, place.
pub fn run_script(mut counts: Counts, [m1, m2, m3]: MatricesMut, bytes: &[u8]) -> (u8, Counts, u16, u32) {
    let (mut ran, mut place) = (0, Refusal::NO_PLACE);
    let refusal = call!(mbyasoka_run_script, [&mut counts], as_mut_ptr [m1, m2, m3], [bytes.as_ptr(), bytes.len(), &mut ran, &mut place]);
    (refusal, counts, ran, place)
}

pub fn boundary(counts: Counts, [m1, m2, m3]: Matrices, dimension: u8, chain: &[i32], out: &mut [i32]) -> u8 {
    call!(mbyasoka_boundary, [&counts], as_ptr [m1, m2, m3], [dimension, chain.as_ptr(), chain.len(), out.as_mut_ptr(), out.len()])
}

/// Refusal, place.
pub fn carry(counts: Counts, [m1, m2, m3]: Matrices, bytes: &[u8], dimension: u8, chain: &[i32], out: &mut [i32]) -> (u8, u32) {
    let mut place = Refusal::NO_PLACE;
    let refusal = call!(mbyasoka_carry, [&counts], as_ptr [m1, m2, m3], [
        bytes.as_ptr(), bytes.len(), dimension, chain.as_ptr(), chain.len(), out.as_mut_ptr(), out.len(), &mut place
    ]);
    (refusal, place)
}

/// Refusal, counts.
pub fn import_off([m1, m2, m3]: MatricesMut, coordinates: &mut [i32], text: &[u8]) -> (u8, Counts) {
    let mut counts = [0; 4];
    let refusal = call!(mbyasoka_import_off, [&mut counts], as_mut_ptr [m1, m2, m3, coordinates], [text.as_ptr(), text.len()]);
    (refusal, counts)
}

/// Refusal, bytes written.
pub fn export_off(counts: Counts, [m1, m2, m3]: Matrices, coordinates: &[i32], out: &mut [u8]) -> (u8, usize) {
    let mut written = 0;
    let refusal = call!(mbyasoka_export_off, [&counts], as_ptr [m1, m2, m3, coordinates], [out.as_mut_ptr(), out.len(), &mut written]);
    (refusal, written)
}
