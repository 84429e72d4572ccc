//! What the meaning of an operator may be answered.

/// The answers: 0 for accepted, and the refusals 1 to 20.
pub const NUMBERS: usize = 21;

/// The numbers that an operator of good form may be answered on a good pattern. All of them must be reached. 12 is none of them: that where
/// the two cells of a merge share one face alone their sum is a boundary is a fact that the table checks, and a 12 is told as a fault.
pub fn meanings(code: u8) -> &'static [usize] {
    match code {
        0x10 => &[0, 6],
        0x11..=0x13 => &[0, 5, 6, 7],
        0x23 => &[0, 5],
        0x20..=0x22 => &[0, 5, 8],
        0x31 => &[0, 5, 6],
        0x32 | 0x33 => &[0, 5, 6, 9, 10],
        0x40..=0x42 => &[0, 5, 11, 20],
        _ => &[0, 5],
    }
}

/// Whether a refusal is by what an operator means. 12 is one by its number, so that it would be counted.
pub fn of_meaning(number: u8) -> bool {
    matches!(number, 5..=12 | 20)
}

/// The operators that carry chains.
pub fn carries(code: u8) -> bool {
    matches!(code >> 4, 1 | 3 | 5)
}

pub fn name(code: u8) -> String {
    let kind = ["make", "kill", "split", "merge", "flip"][usize::from(code >> 4) - 1];
    format!("{kind} {}", code & 15)
}
