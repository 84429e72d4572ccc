//! A second implementation of the chain rules for sewn-panel patterns,
//! written from the document and not from the engine. Inside, a pattern is lists of sparse
//! cells; lent matrices and coordinates are seen only in `border`, where calls take and give them.

mod border;
mod calls;
mod cells;
mod chains;
mod fault;
mod form;
mod good;
mod mesh;
mod off;
mod off_text;
mod operators;
mod printed;
mod refusal;
mod script;

pub use calls::{apply_operator, boundary, carry, check, euler, export_off, import_off, read_mesh, run_script, write_mesh};
pub use calls::{mesh_fault, off_fault, off_obstacle, operator_fault, script_fault};
pub use cells::LIMIT;
pub use fault::{Fault, Field, NO_PLACE};
pub use off::OffObstacle;
pub use off_text::OffFault;
pub use operators::EULER_STEP;
pub use printed::{printed, INPUT_LIMIT};
