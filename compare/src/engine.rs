//! The engine's calls, as C makes them. What an answer goes to holds rubbish before the call, so that it shows if it is not written to; the
//! second program answers by value. All is lent so that it could be written to: what changes although it was only to be read is then seen.

use mbyasoka::raw;

pub type Counts = [u8; 4];
pub type Matrices<'a> = [&'a mut [i8]; 3];

/// A call: the counts, slices by their pointers and lengths, a value or what an answer goes to, chains, and what the place of a fault goes
/// to. Gives the refusal, and the counts as the call left them.
///
/// Safety: each pointer is that of a slice or a variable that is lent to the call alone, and each length is its slice's.
macro_rules! call {
    ($name:ident, $counts:expr, [$($lent:ident),*], [$($value:expr)?], [$($chain:ident),*], [$($place:expr)?]) => {{
        let mut counts: Counts = $counts;
        let own = std::ptr::addr_of_mut!(counts);
        let refusal = unsafe {
            raw::$name(own, $($lent.as_mut_ptr(), $lent.len(),)* $($value,)? $($chain.as_mut_ptr(), $chain.len(),)* $($place)?)
        };
        (refusal, counts)
    }};
}

pub fn check(counts: Counts, [m1, m2, m3]: Matrices) -> (u8, Counts) {
    call!(mbyasoka_check, counts, [m1, m2, m3], [], [], [])
}

/// And how many bytes were used, and the place.
pub fn read_mesh([m1, m2, m3]: Matrices, bytes: &mut [u8], rubbish: u64) -> (u8, Counts, usize, u32) {
    let (mut used, mut place) = (rubbish as usize, rubbish as u32);
    let (refusal, counts) = call!(mbyasoka_read_mesh, place.to_le_bytes(), [m1, m2, m3, bytes], [&mut used], [], [&mut place]);
    (refusal, counts, used, place)
}

/// And how many bytes were written.
pub fn write_mesh(counts: Counts, [m1, m2, m3]: Matrices, out: &mut [u8], rubbish: u64) -> (u8, Counts, usize) {
    let mut written = rubbish as usize;
    let (refusal, counts) = call!(mbyasoka_write_mesh, counts, [m1, m2, m3, out], [&mut written], [], []);
    (refusal, counts, written)
}

/// And the Euler number.
pub fn euler(counts: Counts, [m1, m2, m3]: Matrices, rubbish: u64) -> (u8, Counts, i16) {
    let mut number = rubbish as i16;
    let (refusal, counts) = call!(mbyasoka_euler, counts, [m1, m2, m3], [&mut number], [], []);
    (refusal, counts, number)
}

/// And the place.
pub fn apply_operator(counts: Counts, [m1, m2, m3]: Matrices, bytes: &mut [u8], rubbish: u64) -> (u8, Counts, u32) {
    let mut place = rubbish as u32;
    let (refusal, counts) = call!(mbyasoka_apply_operator, counts, [m1, m2, m3, bytes], [], [], [&mut place]);
    (refusal, counts, place)
}

/// And how many operators were accepted, and the place.
pub fn run_script(counts: Counts, [m1, m2, m3]: Matrices, bytes: &mut [u8], rubbish: u64) -> (u8, Counts, u16, u32) {
    let (mut ran, mut place) = (rubbish as u16, rubbish as u32);
    let (refusal, counts) = call!(mbyasoka_run_script, counts, [m1, m2, m3, bytes], [&mut ran], [], [&mut place]);
    (refusal, counts, ran, place)
}

pub fn boundary(counts: Counts, [m1, m2, m3]: Matrices, dimension: u8, chain: &mut [i32], out: &mut [i32]) -> (u8, Counts) {
    call!(mbyasoka_boundary, counts, [m1, m2, m3], [dimension], [chain, out], [])
}

/// And the place.
pub fn carry(
    counts: Counts,
    [m1, m2, m3]: Matrices,
    bytes: &mut [u8],
    dimension: u8,
    chain: &mut [i32],
    out: &mut [i32],
    rubbish: u64,
) -> (u8, Counts, u32) {
    let mut place = rubbish as u32;
    let (refusal, counts) = call!(mbyasoka_carry, counts, [m1, m2, m3, bytes], [dimension], [chain, out], [&mut place]);
    (refusal, counts, place)
}

pub fn import_off([m1, m2, m3]: Matrices, coordinates: &mut [i32], text: &mut [u8], rubbish: u64) -> (u8, Counts) {
    call!(mbyasoka_import_off, (rubbish as u32).to_le_bytes(), [m1, m2, m3, coordinates, text], [], [], [])
}

/// And how many bytes were written.
pub fn export_off(counts: Counts, [m1, m2, m3]: Matrices, coordinates: &mut [i32], out: &mut [u8], rubbish: u64) -> (u8, Counts, usize) {
    let mut written = rubbish as usize;
    let (refusal, counts) = call!(mbyasoka_export_off, counts, [m1, m2, m3, coordinates, out], [&mut written], [], []);
    (refusal, counts, written)
}
