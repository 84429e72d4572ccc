//! Merges of cells that share more than the named face, and of cells that do not.

mod common;

use common::merging::bundle;
use common::{Lent, TETRAHEDRON};

/// Three cells in a ring: each two share one face, and once two are merged the rest share two.
const THREE: [&[i8]; 3] = [&[-1, 1, 0], &[0, -1, 1], &[1, 0, -1]];

fn merge_at(dim: usize, cell: u8) -> [u8; 2] {
    [0x40 + dim as u8, cell]
}

/// What a bundle answers to a merge at each of these cells; a refusal leaves every byte.
fn refusals<const N: usize>(dim: usize, columns: &[&[i8]], cells: [u8; N]) -> [u8; N] {
    let before = bundle(dim, columns[0].len(), columns);
    cells.map(|cell| {
        let mut lent = before.clone();
        let refusal = lent.apply(&merge_at(dim, cell));
        assert!(refusal == 0 || lent == before);
        refusal
    })
}

#[test]
fn shared_corners() {
    assert_eq!(refusals(0, &[&[-1, 1], &[1, -1]], [0, 1]), [20, 20]);
    assert_eq!(refusals(0, &[&[1, -1], &[-1, 1]], [0, 1]), [20, 20]);
    assert_eq!(refusals(0, &[&[0, 1, 0, -1, 0], &[0, -1, 0, 1, 0]], [1, 3]), [20, 20]);
    // Seams that share an end with equal signs share the other so, and 11 comes first.
    assert_eq!(refusals(0, &[&[-1, 1], &[-1, 1]], [0, 1]), [11, 11]);
}

#[test]
fn shared_seams_and_panels_with_opposite_signs() {
    for dim in [1, 2] {
        assert_eq!(refusals(dim, &[&[1, -1], &[-1, 1]], [0, 1]), [20, 20], "the sum is 0");
        // The sum would be a cell, and the other shared face no face of it.
        assert_eq!(refusals(dim, &[&[1, 1, -1, -1, 0, 0], &[-1, -1, 0, 0, 1, 1]], [0, 1, 2]), [20, 20, 11]);
        assert_eq!(refusals(dim, &[&[0, -1, 1, 1, -1, 0], &[1, 0, -1, 0, 1, -1]], [2, 4]), [20, 20]);
    }
}

#[test]
fn shared_seams_and_panels_with_equal_signs() {
    for dim in [1, 2] {
        assert_eq!(refusals(dim, &[&[1, 1, -1, -1], &[-1, 1, 0, 0]], [0]), [20], "plus, behind the named one");
        assert_eq!(refusals(dim, &[&[1, 1, -1, -1], &[1, -1, 0, 0]], [1]), [20], "plus, before it");
        assert_eq!(refusals(dim, &[&[0, 1, -1, 0], &[1, -1, -1, 1]], [1]), [20], "minus, behind it");
        assert_eq!(refusals(dim, &[&[0, -1, 1, 0], &[1, -1, -1, 1]], [2]), [20], "minus, before it");
        assert_eq!(refusals(dim, &[&[1, 1, 1, -1, -1, -1], &[-1, 1, -1, 1, 0, 0]], [0, 2, 3]), [20; 3], "and others opposite");
    }
}

#[test]
fn first_and_last_of_96() {
    let mut one = [0; 96];
    one[0] = 1;
    one[95] = -1;
    let other = one.map(|entry: i8| -entry);
    for dim in [0, 1, 2] {
        assert_eq!(refusals(dim, &[&one, &other], [0, 95]), [20, 20]);
    }
}

#[test]
fn not_between_two_comes_first() {
    for dim in [0, 1, 2] {
        assert_eq!(refusals(dim, &[&[1, -1], &[1, -1]], [0, 1]), [11, 11], "two of one sign");
        assert_eq!(refusals(dim, &[&[1, -1, 0], &[-1, 1, 0], &[1, 0, -1]], [0, 1, 2]), [11, 20, 11], "three, two, one");
        assert_eq!(refusals(dim, &[&[1, -1, 0], &[-1, 1, 0]], [2]), [11], "none");
    }
    for dim in [1, 2] {
        assert_eq!(refusals(dim, &[&[1, 1, -1, -1], &[1, -1, 0, 0]], [0]), [11], "opposite signs only at the other one");
    }
}

#[test]
fn number_not_below_its_count_comes_first() {
    for dim in [0, 1, 2] {
        // There are three cells above, so 2 is a number there.
        let columns: [&[i8]; 3] = [&[1, -1], &[-1, 1], &[1, -1]];
        assert_eq!(refusals(dim, &columns, [2, 3, 95, 96, 255]), [5; 5]);
        assert_eq!(refusals(dim, &columns[..2], [0, 1, 2]), [20, 20, 5]);
    }
}

#[test]
fn one_shared_face_is_accepted() {
    // The sum takes the lower place, and the cell that is left has the same faces.
    let lefts: [[&[i8]; 2]; 3] = [[&[1, -1], &[-1, 1]], [&[-1, 1], &[1, -1]], [&[-1, 1], &[1, -1]]];
    for dim in [0, 1, 2] {
        for (cell, left) in (0..).zip(&lefts) {
            let mut lent = bundle(dim, 3, &THREE);
            assert_eq!(lent.apply(&merge_at(dim, cell)), 0);
            assert!(lent == bundle(dim, 2, left), "{dim}, {cell}");
            assert_eq!(refusals(dim, left, [0, 1]), [20, 20]);
        }
    }
}

#[test]
fn shared_faces_of_faces_do_not_count() {
    // Two triangles on seam 2, whose corners they share as well.
    let triangles = [4, 5, 0, 1, 1, 2, 0, 2, 2, 3, 3, 0, 2, 3, 0, 1, 1, 1, 2, 2, 3, 2, 1, 3, 1, 4, 1, 0];
    let mut lent = Lent::read(&triangles);
    assert_eq!(lent.apply(&[0x41, 2]), 0);
    assert_eq!(lent.mesh(), [4, 4, 0, 1, 1, 2, 2, 3, 3, 0, 1, 4, 0, 1, 1, 1, 2, 1, 3, 1, 0]);
    // A second tetrahedron on panel 0, up to a corner 4.
    let mut lent = Lent::read(&TETRAHEDRON);
    let operators: [&[u8]; 8] = [
        &[0x10],
        &[0x11, 0, 4],
        &[0x11, 1, 4],
        &[0x11, 2, 4],
        &[0x12, 3, 0, 1, 6, 2, 7, 1],
        &[0x12, 3, 1, 1, 6, 2, 8, 1],
        &[0x12, 3, 3, 1, 7, 2, 8, 1],
        &[0x13, 4, 0, 1, 4, 2, 5, 1, 6, 2],
    ];
    for operator in operators {
        assert_eq!(lent.apply(operator), 0);
    }
    assert_eq!(lent.apply(&[0x42, 0]), 0);
    assert_eq!(lent.counts, [5, 9, 6, 1]);
    assert_eq!(lent.column(3, 0)[..7], [1, -1, 1, -1, 1, -1, 0]);
}

#[test]
fn two_panels_that_share_two_seams() {
    // Seams 0 and 1 are in both panels; a merge at one would leave the other loose.
    let panels = [3, 4, 0, 1, 1, 2, 2, 0, 2, 0, 2, 3, 0, 1, 1, 1, 2, 1, 3, 0, 2, 1, 2, 3, 2, 0];
    let mut lent = Lent::read(&panels);
    assert_eq!([0, 1, 2, 3].map(|seam| lent.apply(&[0x41, seam])), [20, 20, 11, 11]);
    assert_eq!(lent.mesh(), panels);
    // The corner between the two seams goes first; then they are one seam.
    assert_eq!(lent.apply(&[0x40, 1]), 0);
    assert_eq!(lent.apply(&[0x41, 0]), 0);
    assert_eq!(lent.mesh(), [2, 2, 1, 0, 1, 0, 1, 2, 0, 1, 1, 2, 0]);
}

#[test]
fn script_stops_at_the_merge() {
    for dim in [0, 1, 2] {
        let mut lent = bundle(dim, 3, &THREE);
        let base = [&[4], &lent.counts[..], &[3, 0]].concat();
        let script = [&base[..], &merge_at(dim, 1), &merge_at(dim, 0), &[0x10]].concat();
        assert_eq!(lent.run(&script), (20, 1));
        assert!(lent == bundle(dim, 2, &[&[-1, 1], &[1, -1]]), "{dim}");
    }
}
