//! Laws that hold for every operator, tried on many.

mod common;

use common::merging::merges_as_ruled;
use common::{Dice, Lent, TETRAHEDRON};
use second::{mesh_fault, operator_fault, script_fault, Fault, Field, NO_PLACE};

/// A list of rising numbers below `limit`.
fn rising(dice: &mut Dice, limit: usize) -> Vec<u8> {
    (0..limit.min(96) as u8).filter(|_| dice.below(3) == 0).collect()
}

/// The boundary of a random block or panel of the pattern, with its signs.
fn signed_copy(dice: &mut Dice, lent: &Lent, dim: usize) -> Vec<u8> {
    let cell = dice.below(usize::from(lent.counts[dim]));
    let mut bytes = vec![0];
    for (face, &entry) in lent.column(dim, cell).iter().enumerate() {
        if entry != 0 {
            bytes[0] += 1;
            bytes.extend([face as u8, if entry > 0 { 1 } else { 2 }]);
        }
    }
    bytes
}

fn operator(dice: &mut Dice, lent: &Lent) -> Vec<u8> {
    let codes = [0x10, 0x11, 0x12, 0x13, 0x20, 0x21, 0x22, 0x23, 0x31, 0x32, 0x32, 0x33, 0x33, 0x40, 0x41, 0x42, 0x51, 0x52, 0x53];
    let code = codes[dice.below(codes.len())];
    let dim = usize::from(code & 15);
    let mut number = |dim: usize| dice.below(usize::from(lent.counts[dim]) + 1) as u8;
    let mut bytes = vec![code];
    match code {
        0x10 => {}
        0x11 => bytes.extend([number(0), number(0)]),
        0x12 | 0x13 => bytes.extend(signed_copy(dice, lent, dim)),
        0x32 | 0x33 => {
            bytes.push(number(dim));
            let faces = rising(dice, usize::from(lent.counts[dim - 1]));
            bytes.push(faces.len() as u8);
            bytes.extend(faces);
        }
        _ => bytes.push(number(dim)),
    }
    bytes
}

/// A split by part of the cell's own faces, which random lists seldom are.
fn apt_split(dice: &mut Dice, lent: &Lent, dim: usize) -> Vec<u8> {
    let cell = dice.below(usize::from(lent.counts[dim]));
    let column = lent.column(dim, cell);
    let faces: Vec<u8> = (0..96u8).filter(|&face| column[usize::from(face)] != 0 && dice.below(2) == 0).collect();
    [vec![0x30 + dim as u8, cell as u8, faces.len() as u8], faces].concat()
}

/// Carrying and boundary in either order give one chain.
fn carrying_agrees(dice: &mut Dice, before: &Lent, after: &Lent, bytes: &[u8]) {
    for d in 1..=3u8 {
        let mut chain = [0; 96];
        for entry in chain.iter_mut().take(before.counts[usize::from(d)].into()) {
            *entry = dice.below(2_000_001) as i32 - 1_000_000;
        }
        let [mut one, mut two, mut first, mut last] = [[0; 96]; 4];
        assert_eq!(before.boundary(d, &chain, &mut one), 0);
        assert_eq!(before.carry(bytes, d - 1, &one, &mut first), 0);
        assert_eq!(before.carry(bytes, d, &chain, &mut two), 0);
        assert_eq!(after.boundary(d, &two, &mut last), 0);
        assert_eq!(first, last);
    }
}

/// Make, split and flip have an operator that takes them back.
fn can_be_undone(before: &Lent, after: &Lent, bytes: &[u8]) {
    let dim = bytes[0] & 15;
    let last = |dim: u8| after.counts[usize::from(dim)] - 1;
    let back = match bytes[0] >> 4 {
        1 => [0x20 + dim, last(dim)],
        3 => [0x40 + dim - 1, last(dim - 1)],
        _ => [bytes[0], bytes[1]],
    };
    let mut undone = after.clone();
    assert_eq!(undone.apply(&back), 0);
    assert_eq!(&undone, before);
}

fn step(dice: &mut Dice, lent: &mut Lent) -> (usize, u8) {
    let bytes = match dice.below(5) {
        0 => apt_split(dice, lent, 2),
        1 => apt_split(dice, lent, 3),
        _ => operator(dice, lent),
    };
    let before = lent.clone();
    let refusal = lent.apply(&bytes);
    let kind = usize::from(bytes[0] >> 4) - 1;
    if kind == 3 {
        merges_as_ruled(&before, usize::from(bytes[0] & 15), bytes[1].into());
    }
    if refusal != 0 {
        assert_eq!(lent, &before);
        return (kind, refusal);
    }
    assert_eq!(lent.check(), 0);
    let added = second::EULER_STEP[kind][usize::from(bytes[0] & 15)];
    assert_eq!(lent.euler().1 - before.euler().1, added);
    assert_eq!(&Lent::read(&lent.mesh()), lent);
    if kind != 1 && kind != 3 {
        carrying_agrees(dice, &before, lent, &bytes);
        can_be_undone(&before, lent, &bytes);
    }
    (kind, 0)
}

#[test]
fn laws_of_operators() {
    let mut accepted = [0; 5];
    let mut refused = [0; 21];
    for seed in 0..12 {
        let mut dice = Dice(seed);
        let mut lent = Lent::read(&TETRAHEDRON);
        for _ in 0..120 {
            let (kind, refusal) = step(&mut dice, &mut lent);
            accepted[kind] += u32::from(refusal == 0);
            refused[usize::from(refusal)] += 1;
        }
    }
    assert!(accepted.iter().all(|&times| times > 20), "{accepted:?}");
    for refusal in [5, 7, 8, 9, 10, 11, 20] {
        assert!(refused[refusal] > 0, "{refusal} in {refused:?}");
    }
    assert_eq!(refused[12], 0, "the sum of cells that share one face is a cell");
}

/// A tetrahedron, 53 bytes, and a script of chance for it, with one byte exchanged.
fn input(dice: &mut Dice) -> Vec<u8> {
    let length = dice.below(60);
    let mut input = TETRAHEDRON.to_vec();
    input.extend([4, 4, 6, 4, 1, dice.below(9) as u8, 0]);
    input.extend((0..length).map(|_| dice.below(7) as u8 * 16 + dice.below(5) as u8));
    let at = dice.below(input.len());
    input[at] = dice.below(256) as u8;
    input
}

#[test]
fn any_bytes_are_answered() {
    let mut dice = Dice(7);
    for _ in 0..2_000 {
        let text = second::printed(&input(&mut dice));
        assert!(text.starts_with("ran ") || text.starts_with("mesh refusal "));
    }
}

/// The bytes before a place lack only what is there, and none after a faulty field counts.
fn place_is_apt(fault: fn(&[u8]) -> Option<Fault>, bytes: &[u8], found: Fault) {
    let place = found.place as usize;
    let before = fault(&bytes[..place]);
    match found.number {
        3 => assert_eq!(place, bytes.len()),
        4 => {
            let width = if found.field == Field::OperatorCount { 2 } else { 1 };
            assert_eq!(before, Some(Fault { number: 3, ..found }));
            assert_eq!(fault(&bytes[..place + width]), Some(found));
        }
        _ => assert_eq!((found.number, place < bytes.len(), before), (14, true, None)),
    }
}

#[test]
fn places_of_any_bytes() {
    let mut dice = Dice(8);
    let mut found = [[0; 10]; 15];
    let mut ask = |fault: fn(&[u8]) -> Option<Fault>, bytes: &[u8], refusal: u8, place: u32| match fault(bytes) {
        Some(fault_found) => {
            assert_eq!((fault_found.number, fault_found.place), (refusal, place));
            place_is_apt(fault, bytes, fault_found);
            found[usize::from(refusal)][fault_found.field as usize] += 1;
        }
        None => assert_eq!(place, NO_PLACE),
    };
    for _ in 0..4_000 {
        let bytes = input(&mut dice);
        let mesh = &bytes[..dice.below(54)];
        let (refusal, _, place) = Lent::empty().read_mesh_at(mesh);
        ask(mesh_fault, mesh, refusal, place);
        let script = &bytes[53..53 + dice.below(bytes.len() - 52)];
        let (refusal, _, place) = Lent::read(&TETRAHEDRON).run_at(script);
        ask(script_fault, script, refusal, place);
        let operator = &bytes[60..];
        let (refusal, place) = Lent::read(&TETRAHEDRON).apply_at(operator);
        ask(operator_fault, operator, refusal, place);
    }
    let reached = |number: usize| found[number].map(|times| times > 0);
    let [yes, no] = [true, false];
    assert_eq!(reached(3), [yes, yes, yes, yes, yes, yes, yes, yes, yes, no]);
    assert_eq!(reached(4), [yes, yes, yes, yes, no, yes, yes, yes, yes, no]);
    assert_eq!(reached(14), [no, no, no, no, no, no, no, no, no, yes]);
}
