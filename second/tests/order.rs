//! The order of refusals, and the places that the table does not reach.

mod common;

use common::{Lent, LISTING_SCRIPT, T, TETRAHEDRON};

fn read_refusal(bytes: &[u8]) -> u8 {
    Lent::empty().read_mesh(bytes).0
}

fn on_t(operator: &[u8]) -> u8 {
    Lent::read(&T).apply(operator)
}

fn on_tetrahedron(operator: &[u8]) -> u8 {
    Lent::read(&TETRAHEDRON).apply(operator)
}

#[test]
fn mesh_reader() {
    assert_eq!(read_refusal(&[]), 3);
    assert_eq!(read_refusal(&[97]), 4);
    assert_eq!(read_refusal(&[2, 97]), 4);
    assert_eq!(read_refusal(&[2, 1, 9]), 3, "form of a cell before its 5");
    assert_eq!(read_refusal(&[2, 1, 9, 9]), 5, "5 before 7");
    assert_eq!(read_refusal(&[2, 1, 1, 1]), 7);
    assert_eq!(read_refusal(&[2, 2, 1, 1]), 7, "7 before the next cell's 3");
    assert_eq!(read_refusal(&[2, 1, 0, 1, 1, 0, 0]), 7, "no faces");
    assert_eq!(read_refusal(&[2, 1, 0, 1, 1, 1, 0, 1, 0]), 7, "not closed");
    assert_eq!(read_refusal(&[2, 1, 0, 1, 1, 97]), 4);
    assert_eq!(read_refusal(&[2, 1, 0, 1, 1, 1, 0, 3]), 4);
    assert_eq!(read_refusal(&[2, 1, 0, 1, 1, 2, 7, 1, 7]), 4, "not rising");
    assert_eq!(read_refusal(&[2, 1, 0, 1, 1, 2, 7, 1]), 3);
    assert_eq!(read_refusal(&[2, 1, 0, 1, 1, 1, 7, 1]), 5);
    let followed = [&TETRAHEDRON[..], &[9]].concat();
    assert_eq!(Lent::empty().read_mesh(&followed), (0, 53));
}

#[test]
fn script_form() {
    let run = |script: &[u8]| Lent::read(&T).run(script);
    assert_eq!(run(&[]), (3, 0));
    assert_eq!(run(&[5]), (4, 0));
    assert_eq!(run(&[4, 3, 97]), (4, 0));
    assert_eq!(run(&[4, 3, 3, 1, 0, 1]), (3, 0));
    assert_eq!(run(&[4, 3, 3, 1, 0, 1, 4]), (4, 0), "1,025 operators");
    assert_eq!(run(&[4, 3, 3, 1, 0, 0, 4]), (3, 0), "1,024 operators");
    assert_eq!(run(&[4, 9, 3, 1, 0, 0, 0, 0]), (14, 0), "14 before 13");
    assert_eq!(run(&[4, 9, 3, 1, 0, 0, 0]), (13, 0));
    let second_unknown = [4, 3, 3, 1, 0, 2, 0, 0x10, 0x30];
    assert_eq!(run(&second_unknown), (4, 0), "a faulty form runs nothing");
    assert_eq!(run(&[4, 3, 3, 1, 0, 2, 0, 0x10, 0x20, 0]), (8, 1));
    assert_eq!(run(&[0; 24_577]), (1, 0));
    assert_eq!(run(&[0; 24_576]), (4, 0));
}

#[test]
fn operator_form() {
    for code in 0..=255 {
        let known = matches!(code, 0x10..=0x13 | 0x20..=0x23 | 0x31..=0x33 | 0x40..=0x42 | 0x51..=0x53);
        let short = if code == 0x10 { 0 } else { 3 };
        assert_eq!(on_t(&[code]), if known { short } else { 4 }, "{code:x}");
    }
    assert_eq!(on_t(&[]), 3);
    assert_eq!(on_t(&[0x10, 0]), 14);
    assert_eq!(on_t(&[0x20, 200, 0]), 14, "form before meaning");
    assert_eq!(on_t(&[0x32, 0, 97]), 4);
    assert_eq!(on_t(&[0x32, 0, 2, 1, 1]), 4);
    assert_eq!(on_t(&[0x12, 2, 0, 0]), 4, "sign before the end of bytes");
}

#[test]
fn operator_meaning() {
    assert_eq!(on_t(&[0x32, 0, 1, 3]), 5);
    assert_eq!(on_t(&[0x32, 0, 1, 0]), 0);
    assert_eq!(on_t(&[0x12, 0]), 7);
    assert_eq!(on_t(&[0x12, 1, 0, 1]), 7);
    assert_eq!(on_t(&[0x42, 0]), 11);
    assert_eq!(on_t(&[0x53, 0]), 5);
    assert_eq!(on_tetrahedron(&[0x33, 0, 2, 0, 3]), 0);
    assert_eq!(on_tetrahedron(&[0x33, 0, 4, 0, 1, 2, 3]), 9);
    assert_eq!(on_tetrahedron(&[0x22, 0]), 8);
    assert_eq!(on_tetrahedron(&[0x41, 0]), 11, "two of one sign");
    assert_eq!(on_tetrahedron(&[0x41, 1]), 0);
    assert_eq!(on_tetrahedron(&[0x42, 0]), 11);
}

#[test]
fn split_refused_by_its_dividing_cell() {
    // Two rings of two seams, apart, in one panel: a whole ring has no ends.
    let rings = [4, 4, 0, 1, 1, 0, 2, 3, 3, 2, 1, 4, 0, 1, 1, 1, 2, 1, 3, 1, 0];
    let mut lent = Lent::read(&rings);
    assert_eq!(lent.apply(&[0x32, 0, 2, 0, 1]), 10);
    assert_eq!(lent.apply(&[0x32, 0, 2, 0, 2]), 10, "two tails and two heads");
    assert_eq!(lent.mesh(), rings);
}

#[test]
fn merge_refused_before_its_sum() {
    // Seams 0 to 1, then three times 1 to 0; the panels are +0 +1 and +0 -1 +2 +3.
    let twice = [2, 4, 0, 1, 1, 0, 1, 0, 1, 0, 2, 2, 0, 1, 1, 1, 4, 0, 1, 1, 2, 2, 1, 3, 1, 0];
    let mut lent = Lent::read(&twice);
    assert_eq!(lent.apply(&[0x41, 1]), 20, "seam 0 would count twice");
    assert_eq!(lent.mesh(), twice);
    let nothing = [2, 2, 0, 1, 1, 0, 2, 2, 0, 1, 1, 1, 2, 0, 2, 1, 2, 0];
    let mut lent = Lent::read(&nothing);
    assert_eq!(lent.apply(&[0x41, 1]), 20, "nothing would be left");
    assert_eq!(lent.mesh(), nothing);
}

#[test]
fn full_counts_before_the_choice() {
    let mut lent = Lent::read(&TETRAHEDRON);
    while lent.counts[1] < 96 {
        assert_eq!(lent.apply(&[0x11, 0, 1]), 0);
    }
    assert_eq!(lent.apply(&[0x32, 0, 0]), 6, "its seams are full");
    assert_eq!(lent.apply(&[0x32, 0, 1, 96]), 5);
    assert_eq!(lent.apply(&[0x31, 0]), 6);
    assert_eq!(lent.apply(&[0x11, 0, 0]), 6, "6 before 7");
    assert_eq!(lent.apply(&[0x11, 0, 4]), 5, "5 before 6");
    assert_eq!(lent.apply(&[0x33, 0, 1, 0]), 0, "panels are not full");
}

#[test]
fn carrying_order() {
    let lent = Lent::read(&T);
    let mut chain = [0; 96];
    chain[95] = 1;
    let mut out = [7; 96];
    assert_eq!(lent.carry(&[0xff], 4, &chain, &mut out), 4);
    assert_eq!(lent.carry(&[], 4, &chain, &mut out), 4, "dimension before form");
    assert_eq!(lent.carry(&[0x20], 0, &chain, &mut out), 3);
    assert_eq!(lent.carry(&[0x20, 200, 0], 0, &chain, &mut out), 14);
    assert_eq!(lent.carry(&[0x20, 200], 0, &chain, &mut out), 17);
    assert_eq!(lent.carry(&[0x40, 200], 0, &chain, &mut out), 17);
    assert_eq!(lent.carry(&[0x51, 200], 0, &chain, &mut out), 5);
    assert_eq!(lent.carry(&[0x51, 0], 0, &chain, &mut out), 16);
    assert_eq!(lent.carry(&LISTING_SCRIPT, 0, &chain, &mut out), 4);
    let ring = Lent::read(&[2, 2, 0, 1, 1, 0, 0, 0]);
    assert_eq!(ring.carry(&[0x40, 1], 0, &chain, &mut out), 17, "17 before 20");
    assert_eq!(out, [7; 96]);
}
