//! Where a form fails: each kind of field, each call, and the printed lines.

mod common;

use common::{Lent, LISTING_SCRIPT, T, TETRAHEDRON};
use second::Field::{BaseCellCount, BaseCount, CellNumber, Code, FaceCount, LeftOver, ListNumber, MeshCount, OperatorCount, Sign};
use second::{mesh_fault, operator_fault, script_fault, Fault, Field, NO_PLACE};

fn at(number: u8, place: usize, field: Field) -> Option<Fault> {
    Some(Fault { number, place: place as u32, field })
}

fn with(bytes: &[u8], place: usize, byte: u8) -> Vec<u8> {
    let mut bytes = bytes.to_vec();
    bytes[place] = byte;
    bytes
}

/// `bytes` cut before each of its fields' bytes, whose kinds are given, ends in that field.
fn ends_in_each(fault: fn(&[u8]) -> Option<Fault>, bytes: &[u8], kinds: &[Field]) {
    assert_eq!(bytes.len(), kinds.len());
    for (length, &kind) in kinds.iter().enumerate() {
        assert_eq!(fault(&bytes[..length]), at(3, length, kind), "{length} bytes");
    }
    assert_eq!(fault(bytes), None);
}

#[test]
fn kinds_index_a_table() {
    let kinds = [BaseCount, BaseCellCount, OperatorCount, Code, CellNumber, FaceCount, ListNumber, Sign, MeshCount, LeftOver];
    assert!(kinds.iter().enumerate().all(|(index, &kind)| kind as usize == index));
}

#[test]
fn mesh_that_ends() {
    let mut kinds = vec![MeshCount; 2];
    kinds.extend([CellNumber; 6]);
    kinds.extend([MeshCount, FaceCount, ListNumber, Sign, ListNumber, Sign, ListNumber, Sign, MeshCount]);
    ends_in_each(mesh_fault, &T, &kinds);
    for (length, kind) in [(14, MeshCount), (43, MeshCount), (44, FaceCount), (45, ListNumber), (46, Sign), (52, Sign)] {
        assert_eq!(mesh_fault(&TETRAHEDRON[..length]), at(3, length, kind));
    }
    assert_eq!(mesh_fault(&TETRAHEDRON), None);
}

#[test]
fn mesh_with_a_faulty_field() {
    for place in [0, 1, 8, 16] {
        assert_eq!(mesh_fault(&with(&T, place, 97)), at(4, place, MeshCount));
    }
    assert_eq!(mesh_fault(&with(&T, 9, 97)), at(4, 9, FaceCount));
    for place in [11, 13, 15] {
        assert_eq!(mesh_fault(&with(&T, place, 0)), at(4, place, Sign));
        assert_eq!(mesh_fault(&with(&T, place, 3)), at(4, place, Sign));
    }
    assert_eq!(mesh_fault(&with(&T, 12, 0)), at(4, 12, ListNumber), "equal to the one before");
    assert_eq!(mesh_fault(&with(&T, 14, 0)), at(4, 14, ListNumber), "below the one before");
    assert_eq!(mesh_fault(&with(&T, 10, 1)), at(4, 12, ListNumber), "the later of the two");
    for (place, byte, kind) in [(43, 255, MeshCount), (44, 97, FaceCount), (47, 0, ListNumber), (48, 9, Sign)] {
        assert_eq!(mesh_fault(&with(&TETRAHEDRON, place, byte)), at(4, place, kind), "of the block");
    }
}

#[test]
fn mesh_in_byte_order() {
    assert_eq!(mesh_fault(&[97, 97]), at(4, 0, MeshCount));
    assert_eq!(mesh_fault(&[2, 1, 9]), at(3, 3, CellNumber), "form of a cell before its 5");
    assert_eq!(mesh_fault(&[2, 1, 0, 1, 1, 2, 7, 1, 7]), at(4, 8, ListNumber), "before the sign that is not there");
    assert_eq!(mesh_fault(&[2, 1, 0, 1, 1, 2, 7, 3, 7, 1]), at(4, 7, Sign), "before the number that does not rise");
    assert_eq!(mesh_fault(&[2, 1, 0, 2, 97]), None, "5 before a later count");
    assert_eq!(mesh_fault(&[2, 2, 1, 1]), None, "7 before the end");
    assert_eq!(mesh_fault(&[&T[..], &[255; 9]].concat()), None, "what follows is not the mesh's");
}

#[test]
fn operator_that_ends() {
    ends_in_each(operator_fault, &[0x10], &[Code]);
    ends_in_each(operator_fault, &[0x11, 200, 201], &[Code, CellNumber, CellNumber]);
    for code in [0x12, 0x13] {
        let kinds = [Code, FaceCount, ListNumber, Sign, ListNumber, Sign];
        ends_in_each(operator_fault, &[code, 2, 3, 1, 5, 2], &kinds);
        ends_in_each(operator_fault, &[code, 0], &[Code, FaceCount]);
    }
    for code in [0x20, 0x21, 0x22, 0x23, 0x31, 0x40, 0x41, 0x42, 0x51, 0x52, 0x53] {
        ends_in_each(operator_fault, &[code, 255], &[Code, CellNumber]);
    }
    for code in [0x32, 0x33] {
        let kinds = [Code, CellNumber, FaceCount, ListNumber, ListNumber];
        ends_in_each(operator_fault, &[code, 255, 2, 0, 255], &kinds);
    }
}

#[test]
fn operator_with_a_faulty_field() {
    for code in [0, 1, 0x0f, 0x14, 0x24, 0x30, 0x34, 0x43, 0x50, 0x54, 0x60, 255] {
        assert_eq!(operator_fault(&[code]), at(4, 0, Code));
        assert_eq!(operator_fault(&[code, 1, 2, 3]), at(4, 0, Code));
    }
    for code in [0x12, 0x13] {
        assert_eq!(operator_fault(&[code, 97]), at(4, 1, FaceCount));
        assert_eq!(operator_fault(&[code, 1, 9, 0]), at(4, 3, Sign));
        assert_eq!(operator_fault(&[code, 2, 9, 1, 8]), at(4, 4, ListNumber));
        assert_eq!(operator_fault(&[code, 2, 9, 1, 9, 7]), at(4, 4, ListNumber), "before the sign");
        assert_eq!(operator_fault(&[code, 2, 8, 1, 9, 7, 0]), at(4, 5, Sign), "before what follows");
    }
    for code in [0x32, 0x33] {
        assert_eq!(operator_fault(&[code, 0, 97, 0]), at(4, 2, FaceCount));
        assert_eq!(operator_fault(&[code, 0, 3, 4, 4]), at(4, 4, ListNumber), "before the end");
        assert_eq!(operator_fault(&[code, 0, 3, 4, 5, 0]), at(4, 5, ListNumber));
    }
}

#[test]
fn bytes_left_over() {
    for operator in [&[0x10][..], &[0x11, 0, 0], &[0x13, 1, 7, 2], &[0x20, 9], &[0x33, 0, 1, 6], &[0x51, 9]] {
        let longer = [operator, &[0x10, 255]].concat();
        assert_eq!(operator_fault(&longer), at(14, operator.len(), LeftOver));
    }
    let longer = [&LISTING_SCRIPT[..], &[0x10]].concat();
    assert_eq!(script_fault(&longer), at(14, 14, LeftOver));
    assert_eq!(script_fault(&[4, 0, 0, 0, 0, 0, 0, 9, 9, 9]), at(14, 7, LeftOver));
    // Only a script's length is limited.
    assert_eq!(Lent::empty().apply_at(&[0x10; 40_000]), (14, 1));
}

#[test]
fn script_that_ends() {
    let mut kinds = vec![BaseCount];
    kinds.extend([BaseCellCount; 4]);
    kinds.extend([OperatorCount; 2]);
    kinds.extend([Code, CellNumber, Code, CellNumber, FaceCount, ListNumber, ListNumber]);
    ends_in_each(script_fault, &LISTING_SCRIPT, &kinds);
    assert_eq!(script_fault(&[4, 3, 3, 1, 0, 255]), at(3, 6, OperatorCount), "whatever the low byte");
    assert_eq!(script_fault(&[4, 3, 3, 1, 0, 0, 4]), at(3, 7, Code), "1,024 operators");
}

#[test]
fn script_with_a_faulty_field() {
    assert_eq!(script_fault(&[3]), at(4, 0, BaseCount));
    assert_eq!(script_fault(&[5, 97]), at(4, 0, BaseCount), "the first");
    for place in 1..=4 {
        assert_eq!(script_fault(&with(&LISTING_SCRIPT, place, 97)), at(4, place, BaseCellCount));
    }
    assert_eq!(script_fault(&[4, 3, 97]), at(4, 2, BaseCellCount), "before the end");
    assert_eq!(script_fault(&[4, 3, 3, 1, 0, 1, 4]), at(4, 5, OperatorCount), "1,025 operators");
    assert_eq!(script_fault(&[4, 3, 3, 1, 0, 0, 255, 255]), at(4, 5, OperatorCount));
    assert_eq!(script_fault(&with(&LISTING_SCRIPT, 7, 0x30)), at(4, 7, Code));
    assert_eq!(script_fault(&with(&LISTING_SCRIPT, 9, 0xff)), at(4, 9, Code));
    assert_eq!(script_fault(&with(&LISTING_SCRIPT, 11, 97)), at(4, 11, FaceCount));
    assert_eq!(script_fault(&with(&LISTING_SCRIPT, 13, 2)), at(4, 13, ListNumber));
    assert_eq!(script_fault(&[4, 0, 0, 0, 0, 1, 0, 0x12, 1, 0, 3, 0, 0]), at(4, 10, Sign), "before what follows");
}

#[test]
fn places_of_more_than_one_byte() {
    let mut script = vec![4, 0, 0, 0, 0, 0, 4];
    for _ in 0..1_023 {
        script.extend([0x32, 0, 30]);
        script.extend(0..30);
    }
    assert_eq!(script_fault(&script), at(3, 33_766, Code));
    script.push(0x44);
    assert_eq!(script_fault(&script), at(4, 33_766, Code), "script_fault knows no limit of length");
    assert_eq!(Lent::empty().run_at(&script), (1, 0, NO_PLACE));
    let front = with(&script[..7 + 33 * 300], 6, 2);
    assert_eq!(Lent::empty().run_at(&front), (3, 0, 9_907), "512 operators, and 300 are there");
    let followed = with(&script[..7 + 33 * 300], 6, 1);
    assert_eq!(Lent::empty().run_at(&followed), (14, 0, 8_455), "256 operators");
}

#[test]
fn reading_a_mesh() {
    let read = |bytes: &[u8]| Lent::empty().read_mesh_at(bytes);
    assert_eq!(read(&T), (0, 17, NO_PLACE));
    assert_eq!(read(&[&T[..], &[0xff]].concat()), (0, 17, NO_PLACE));
    assert_eq!(read(&[]), (3, 0, 0));
    assert_eq!(read(&T[..12]), (3, 0, 12));
    assert_eq!(read(&with(&T, 13, 4)), (4, 0, 13));
    assert_eq!(read(&with(&T, 3, 3)), (5, 0, NO_PLACE));
    assert_eq!(read(&with(&T, 3, 0)), (7, 0, NO_PLACE));
    let mut short = Lent::empty();
    short.m3.pop();
    assert_eq!(short.read_mesh_at(&[97]), (1, 0, NO_PLACE));
}

#[test]
fn applying_an_operator() {
    let on = |mesh: &[u8], operator: &[u8]| Lent::read(mesh).apply_at(operator);
    assert_eq!(on(&T, &[]), (3, 0));
    assert_eq!(on(&T, &[0x32, 0, 2, 1]), (3, 4));
    assert_eq!(on(&T, &[0x32, 200, 2, 1, 1]), (4, 4), "before its 5");
    assert_eq!(on(&T, &[0x20, 200, 0]), (14, 2));
    assert_eq!(on(&T, &[0x31, 0]), (0, NO_PLACE));
    assert_eq!(on(&T, &[0x20, 3]), (5, NO_PLACE));
    assert_eq!(on(&[96, 0, 0, 0], &[0x10]), (6, NO_PLACE));
    assert_eq!(on(&T, &[0x11, 1, 1]), (7, NO_PLACE));
    assert_eq!(on(&T, &[0x21, 0]), (8, NO_PLACE));
    assert_eq!(on(&T, &[0x32, 0, 0]), (9, NO_PLACE));
    let rings = [4, 4, 0, 1, 1, 0, 2, 3, 3, 2, 1, 4, 0, 1, 1, 1, 2, 1, 3, 1, 0];
    assert_eq!(on(&rings, &[0x32, 0, 2, 0, 1]), (10, NO_PLACE));
    assert_eq!(on(&T, &[0x40, 0]), (11, NO_PLACE));
    assert_eq!(on(&[2, 2, 0, 1, 1, 0, 0, 0], &[0x40, 1]), (20, NO_PLACE));
    let mut lent = Lent::empty();
    lent.counts[0] = 97;
    assert_eq!(lent.apply_at(&[0xff]), (2, NO_PLACE), "before the form");
    lent.m1.pop();
    assert_eq!(lent.apply_at(&[0xff]), (1, NO_PLACE));
}

#[test]
fn running_a_script() {
    let run = |script: &[u8]| Lent::read(&T).run_at(script);
    assert_eq!(run(&LISTING_SCRIPT), (0, 2, NO_PLACE));
    assert_eq!(run(&LISTING_SCRIPT[..6]), (3, 0, 6));
    assert_eq!(run(&with(&LISTING_SCRIPT, 13, 1)), (4, 0, 13), "after an operator that could run");
    assert_eq!(run(&with(&LISTING_SCRIPT, 5, 1)), (14, 0, 9), "one operator");
    assert_eq!(run(&with(&LISTING_SCRIPT, 1, 4)), (13, 0, NO_PLACE));
    assert_eq!(run(&with(&LISTING_SCRIPT[..13], 1, 4)), (3, 0, 13), "before 13");
    assert_eq!(run(&with(&LISTING_SCRIPT, 13, 4)), (5, 1, NO_PLACE));
    assert_eq!(run(&[4, 3, 3, 1, 0, 2, 0, 0x10, 0x20, 0]), (8, 1, NO_PLACE));
    assert_eq!(run(&[0; 24_576]), (4, 0, 0));
    assert_eq!(run(&[0; 24_577]), (1, 0, NO_PLACE));
    let mut lent = Lent::read(&T);
    lent.counts[3] = 1;
    assert_eq!(lent.run_at(&[]), (2, 0, NO_PLACE));
}

#[test]
fn carrying_a_chain() {
    let mut lent = Lent::read(&T);
    let mut out = [7; 96];
    let mut carry = |bytes: &[u8], d: u8, chain: &[i32]| lent.carry_at(bytes, d, chain, &mut out);
    for d in [4, 255] {
        assert_eq!(carry(&[], d, &[0; 96]), (4, NO_PLACE), "before the form");
        assert_eq!(carry(&[0xff], d, &[0; 96]), (4, NO_PLACE));
        assert_eq!(carry(&[0x10], d, &[0; 96]), (4, NO_PLACE));
    }
    assert_eq!(carry(&[0xff], 3, &[0; 96]), (4, 0));
    assert_eq!(carry(&[0x12, 1, 0, 0], 3, &[1; 96]), (4, 3));
    assert_eq!(carry(&[0x20], 0, &[1; 96]), (3, 1));
    assert_eq!(carry(&[0x20, 200, 0], 0, &[1; 96]), (14, 2), "before 17");
    assert_eq!(carry(&[0x20, 200], 0, &[1; 96]), (17, NO_PLACE));
    assert_eq!(carry(&[0x51, 200], 0, &[1; 96]), (5, NO_PLACE));
    assert_eq!(carry(&[0x51, 0], 0, &[1; 96]), (16, NO_PLACE));
    assert_eq!(carry(&[0xff], 0, &[1; 95]), (1, NO_PLACE));
    assert_eq!(carry(&[0x51, 0], 0, &[0; 96]), (0, NO_PLACE));
    lent.counts[0] = 2;
    assert_eq!(lent.carry_at(&[0xff], 0, &[0; 96], &mut out), (2, NO_PLACE));
}

/// The first printed line for a mesh and a script.
fn first_line(mesh: &[u8], script: &[u8]) -> String {
    let text = second::printed(&[mesh, script].concat());
    text.lines().next().unwrap_or_default().to_string()
}

#[test]
fn printed_for_a_mesh() {
    assert_eq!(second::printed(&[]), "mesh refusal 3 at 0\n");
    assert_eq!(second::printed(&T[..12]), "mesh refusal 3 at 12\n");
    assert_eq!(second::printed(&with(&T, 11, 0)), "mesh refusal 4 at 11\n");
    assert_eq!(second::printed(&[2, 1, 0, 2, 255]), "mesh refusal 5\n");
    assert_eq!(second::printed(&with(&T, 3, 0)), "mesh refusal 7\n");
}

#[test]
fn printed_for_a_script() {
    assert_eq!(second::printed(&[0, 0, 0, 0, 3]), "ran 0 refusal 4 at 0\ncells 0 0 0 0\neuler 0\n");
    assert_eq!(first_line(&T, &[]), "ran 0 refusal 3 at 0");
    assert_eq!(first_line(&T, &LISTING_SCRIPT[..13]), "ran 0 refusal 3 at 13");
    assert_eq!(first_line(&T, &[4, 3, 3, 1, 0, 1, 4]), "ran 0 refusal 4 at 5");
    assert_eq!(first_line(&T, &[4, 3, 3, 1, 0, 0, 0, 0]), "ran 0 refusal 14 at 7");
    assert_eq!(first_line(&[0; 4], &[4, 0, 0, 0, 0, 2, 0, 0x20, 0, 0xff]), "ran 0 refusal 4 at 9");
    assert_eq!(first_line(&T, &LISTING_SCRIPT), "ran 2 refusal 0");
    assert_eq!(first_line(&T, &[4, 3, 3, 2, 0, 0, 0]), "ran 0 refusal 13");
    assert_eq!(first_line(&T, &[4, 3, 3, 1, 0, 2, 0, 0x10, 0x20, 4]), "ran 1 refusal 5");
    assert_eq!(first_line(&T, &[0; 24_577]), "ran 0 refusal 1");
    assert_eq!(first_line(&[2, 2, 0, 1, 1, 0, 0, 0], &[4, 2, 2, 0, 0, 2, 0, 0x10, 0x40, 1]), "ran 1 refusal 20");
}
