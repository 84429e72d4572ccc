//! Faults of the form, and where they are.

/// The place of every answer that is no fault of the form.
pub const NO_PLACE: u32 = u32::MAX;

/// The kinds of fields at which a form can fail.
#[derive(Clone, Copy, Debug, PartialEq, Eq)]
pub enum Field {
    /// The first byte of a script.
    BaseCount,
    /// One of a script's four counts.
    BaseCellCount,
    /// The one field of two bytes.
    OperatorCount,
    Code,
    /// A cell number that is not in a list; tail and head of a seam, too.
    CellNumber,
    /// The count before a list.
    FaceCount,
    /// A number in a list, with signs or without.
    ListNumber,
    Sign,
    /// The corner, seam, panel or block count of a mesh.
    MeshCount,
    /// What follows the last field.
    LeftOver,
}

/// A refusal by 3, 4 or 14 for the form of bytes; places count from the first of them.
#[derive(Clone, Copy, Debug, PartialEq, Eq)]
pub struct Fault {
    pub number: u8,
    pub place: u32,
    pub field: Field,
}
