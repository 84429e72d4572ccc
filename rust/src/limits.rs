//! The limits, by the names of include/mbyasoka.h.

/// Most cells of a dimension, rows and columns of a matrix, coefficients of a chain.
pub const SIDE: usize = 96;
/// Entries of a matrix.
pub const SIZE: usize = SIDE * SIDE;
/// The longest mesh.
pub const MESH_BYTES: usize = 37_252;
/// The longest script.
pub const SCRIPT_BYTES: usize = 24_576;
/// Most operators of a script.
pub const OPERATORS: u16 = 1024;
/// The longest operator.
pub const OPERATOR_BYTES: usize = 194;
/// Largest coefficient of a chain whose boundary is asked for, plus or minus.
pub const BOUNDARY_LIMIT: i32 = 1_000_000;
/// Largest coefficient of a chain that is carried, plus or minus.
pub const CARRY_LIMIT: i32 = 100_000_000;
/// Coordinates of a list: x, y, z of each of 96 corners.
pub const COORDINATES: usize = 3 * SIDE;
/// Largest coordinate, plus or minus.
pub const COORDINATE_LIMIT: i32 = 1_048_576;
/// The longest OFF text that is exported; one that is imported may have any length.
pub const OFF_BYTES: usize = 29_581;
