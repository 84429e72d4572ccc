//! The printed result.

use crate::border::load;
use crate::calls::{read_mesh, run_script};
use crate::cells::{Pattern, LIMIT};
use crate::fault::NO_PLACE;

/// The most bytes the program takes.
pub const INPUT_LIMIT: usize = 65_536;

/// What the program prints for a mesh followed directly by a script.
pub fn printed(input: &[u8]) -> String {
    let input = input.get(..INPUT_LIMIT).unwrap_or(input);
    let [mut m1, mut m2, mut m3] = [[0; LIMIT * LIMIT]; 3];
    let (refusal, counts, used, place) = read_mesh(input, &mut m1, &mut m2, &mut m3);
    if refusal != 0 {
        return format!("mesh refusal {refusal}{}\n", at(place));
    }
    let script = input.get(used..).unwrap_or(&[]);
    let (refusal, counts, ran, place) = run_script(counts, &mut m1, &mut m2, &mut m3, script);
    // A pattern that has been read and run is good, so this loads it.
    let pattern = load(counts, [&m1, &m2, &m3]).unwrap_or_default();
    format!("ran {ran} refusal {refusal}{}\n{}", at(place), listing(&pattern))
}

/// What a refusal for the form gains: neither call has a 3, 4 or 14 without a place.
fn at(place: u32) -> String {
    match place {
        NO_PLACE => String::new(),
        _ => format!(" at {place}"),
    }
}

fn listing(pattern: &Pattern) -> String {
    let [corners, seams, panels, blocks] = pattern.counts();
    let mut text = format!("cells {corners} {seams} {panels} {blocks}\n");
    text += &format!("euler {}\n", pattern.euler());
    for (number, seam) in pattern.cells(1).iter().enumerate() {
        if let (Some(tail), Some(head)) = (seam.end(-1), seam.end(1)) {
            text += &format!("e {number} {tail} {head}\n");
        }
    }
    for (dim, letter) in [(2, 'f'), (3, 's')] {
        for (number, cell) in pattern.cells(dim).iter().enumerate() {
            text += &format!("{letter} {number}");
            for &(face, sign) in &cell.faces {
                text += &format!(" {}{face}", if sign > 0 { '+' } else { '-' });
            }
            text.push('\n');
        }
    }
    text
}
