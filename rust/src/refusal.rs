//! The refusals, by the names of include/mbyasoka.h.

use std::fmt;

/// Why a call was refused: one of the numbers below, and where the bytes went wrong. docs/FORMATS.md says when each number is given.
#[derive(Clone, Copy, Debug, PartialEq, Eq)]
pub struct Refusal {
    pub number: u8,
    /// Counted from 0, the first byte of the mesh, script or operator. Only 3, 4 and 14 have one, and not a 4 for a chain's dimension.
    pub place: Option<u32>,
}

impl Refusal {
    pub const WRONG_LENGTH: u8 = 1;
    pub const NOT_GOOD: u8 = 2;
    pub const BYTES_END: u8 = 3;
    pub const WRONG_FORM: u8 = 4;
    pub const NO_SUCH_CELL: u8 = 5;
    pub const NO_ROOM: u8 = 6;
    pub const NOT_CLOSED: u8 = 7;
    pub const IN_USE: u8 = 8;
    pub const WRONG_PART: u8 = 9;
    pub const WRONG_DIVIDER: u8 = 10;
    pub const NOT_BETWEEN: u8 = 11;
    /// No call answers it since version 4: where the two cells of a merge share one face alone, their sum is always a boundary.
    pub const WRONG_SUM: u8 = 12;
    pub const STALE: u8 = 13;
    pub const BYTES_LEFT: u8 = 14;
    pub const SHORT_OUTPUT: u8 = 15;
    pub const WRONG_CHAIN: u8 = 16;
    pub const NOT_CARRIED: u8 = 17;
    pub const WRONG_OFF: u8 = 18;
    pub const NOT_PLAIN: u8 = 19;
    pub const SHARED_FACE: u8 = 20;

    /// What the functions of `calls` answer where there is no place.
    pub const NO_PLACE: u32 = 4_294_967_295;

    /// What was wrong, without the place.
    pub fn text(&self) -> &'static str {
        match self.number {
            0 => "accepted",
            Self::WRONG_LENGTH => "a lent matrix, chain or list of coordinates has a wrong length, or the script is too long",
            Self::NOT_GOOD => "the lent pattern is not good",
            Self::BYTES_END => "the bytes end too early",
            Self::WRONG_FORM => "an impossible value was given",
            Self::NO_SUCH_CELL => "a cell is named that is not there",
            Self::NO_ROOM => "there is no room for a new cell, 96 of a dimension are the most",
            Self::NOT_CLOSED => "a panel or block has no faces, does not sew shut or is no ring, or a seam ends where it begins",
            Self::IN_USE => "a cell that is to be killed is a face of another",
            Self::WRONG_PART => "a split lists no face of the cell, all of them, or one that it does not have",
            Self::WRONG_DIVIDER => "the dividing cell of a split would be no seam or no panel",
            Self::NOT_BETWEEN => "a merge is at a cell that does not lie between two others with opposite signs",
            Self::WRONG_SUM => "the sum of a merge leaves -1 to +1, or is all 0",
            Self::STALE => "the script was written for another state of the pattern",
            Self::BYTES_LEFT => "there are bytes left over",
            Self::SHORT_OUTPUT => "the output buffer is too short",
            Self::WRONG_CHAIN => "a coefficient of the chain is out of limits, or not 0 at or past the count of its cells",
            Self::NOT_CARRIED => "no chain is carried through a kill or a merge",
            Self::WRONG_OFF => "the text does not have the form of a plain OFF text, or a coordinate is out of range",
            Self::NOT_PLAIN => "no OFF text has a block, a loose seam, two seams with the same ends, or a panel that is not one ring",
            Self::SHARED_FACE => "the two cells of a merge share another face, which would be left loose",
            _ => "no answer of this version has this number",
        }
    }
}

/// What was wrong, where, and the number: `the bytes end too early at byte 12 (refusal 3)`.
impl fmt::Display for Refusal {
    fn fmt(&self, f: &mut fmt::Formatter) -> fmt::Result {
        f.write_str(self.text())?;
        if let Some(place) = self.place {
            write!(f, " at byte {place}")?;
        }
        write!(f, " (refusal {})", self.number)
    }
}

impl std::error::Error for Refusal {}
