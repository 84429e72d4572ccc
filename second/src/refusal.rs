//! The numbers given back, and the places given with them.

use crate::fault::{Fault, NO_PLACE};

/// Each case's value is the document's number for it.
#[derive(Clone, Copy, Debug, PartialEq, Eq)]
#[repr(u8)]
pub enum Refusal {
    Length = 1,
    NotGood = 2,
    BytesEnd = 3,
    Form = 4,
    NotBelowCount = 5,
    Full = 6,
    NotClosed = 7,
    InUse = 8,
    Chosen = 9,
    DividingCell = 10,
    NotBetweenTwo = 11,
    Sum = 12,
    Stale = 13,
    BytesFollow = 14,
    ShortOutput = 15,
    Coefficient = 16,
    NotCarried = 17,
    OffForm = 18,
    OffObstacle = 19,
    SharedFace = 20,
}

pub type Answer<T> = Result<T, Refusal>;

/// What can be refused for the form of bytes, too.
pub type Judged<T> = Result<T, Refused>;

#[derive(Clone, Copy, Debug, PartialEq, Eq)]
pub enum Refused {
    ByForm(Fault),
    Otherwise(Refusal),
}

impl From<Fault> for Refused {
    fn from(fault: Fault) -> Self {
        Refused::ByForm(fault)
    }
}

impl From<Refusal> for Refused {
    fn from(refusal: Refusal) -> Self {
        Refused::Otherwise(refusal)
    }
}

impl Refused {
    pub fn fault(self) -> Option<Fault> {
        match self {
            Refused::ByForm(fault) => Some(fault),
            Refused::Otherwise(_) => None,
        }
    }
}

/// The refusal's number, 0 for accepted, and its place.
pub fn placed<T>(answer: &Judged<T>) -> (u8, u32) {
    match answer {
        Ok(_) => (0, NO_PLACE),
        Err(Refused::ByForm(fault)) => (fault.number, fault.place),
        Err(Refused::Otherwise(refusal)) => (*refusal as u8, NO_PLACE),
    }
}

/// The refusal's number, 0 for accepted.
pub fn number<T>(answer: &Answer<T>) -> u8 {
    match answer {
        Ok(_) => 0,
        Err(refusal) => *refusal as u8,
    }
}

/// Accepts when `holds`, else gives `refusal`.
pub fn demand(holds: bool, refusal: Refusal) -> Answer<()> {
    if holds {
        Ok(())
    } else {
        Err(refusal)
    }
}
