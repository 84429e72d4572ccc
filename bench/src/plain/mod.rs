//! The same work in plain Rust, by the same algorithms.
pub mod chains;
pub mod form;
pub mod mesh;
pub mod off_export;
pub mod off_import;
pub mod operators;
pub mod pattern;
pub mod script;

pub const NO_PLACE: u32 = u32::MAX;

/// A refusal's number.
pub struct Refused(pub u8);

/// A refusal's number and its place.
pub struct Placed(pub u8, pub u32);

impl From<Refused> for Placed {
    fn from(refused: Refused) -> Self {
        Placed(refused.0, NO_PLACE)
    }
}

/// Number and place, where 0 is accepted.
fn answer<T>(result: Result<T, Placed>) -> (u8, u32) {
    result.err().map_or((0, NO_PLACE), |refused| (refused.0, refused.1))
}
