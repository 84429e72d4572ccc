//! The table of proved cases, read from the definitions: the same rows that are proved are run.

use crate::fault;
use std::fs::read_to_string;
use std::io;

const TABLE: &str = concat!(env!("CARGO_MANIFEST_DIR"), "/../crates/rules/specs/Cases.antt");

/// An input and what is printed for it.
pub struct Case {
    pub input: Vec<u8>,
    pub printed: String,
}

impl Case {
    /// What the second program prints for an input.
    pub fn by_second(input: Vec<u8>) -> Self {
        Case { printed: second::printed(&input), input }
    }
}

fn bytes(hex: &str) -> Option<Vec<u8>> {
    let pairs = hex.split(' ').map(|pair| u8::from_str_radix(pair, 16));
    pairs.collect::<Result<_, _>>().ok()
}

/// The texts in quotes.
fn quoted(line: &str) -> impl Iterator<Item = &str> {
    line.split('"').skip(1).step_by(2)
}

/// A line `row MESH SCRIPT LINES`, where the mesh may be the triangle by its name.
fn row(line: &str, triangle: &str) -> Option<Case> {
    let mut texts = quoted(line);
    let mesh = match line.contains("row T ") {
        true => triangle,
        false => texts.next()?,
    };
    let mut input = bytes(mesh)?;
    input.extend(bytes(texts.next()?)?);
    let printed = texts.flat_map(|text| [text, "\n"]).collect();
    Some(Case { input, printed })
}

pub fn table() -> io::Result<Vec<Case>> {
    let text = read_to_string(TABLE)?;
    let unread = || fault("the table of cases cannot be read");
    let triangle = text.lines().find(|line| line.starts_with("T = "));
    let triangle = triangle.and_then(|line| quoted(line).next());
    let triangle = triangle.ok_or_else(unread)?;
    let rows = text.lines().filter(|line| line.contains("row ") && line.contains('"'));
    let cases: Option<Vec<Case>> = rows.map(|line| row(line, triangle)).collect();
    cases.filter(|cases| !cases.is_empty()).ok_or_else(unread)
}
