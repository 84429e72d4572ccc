//! The limits are the engine's: what is at each is taken, what is one beyond is refused.
use mbyasoka::limits::*;
use mbyasoka::{Pattern, Refusal, Run};

/// As many corners, seams, panels and blocks as there can be, each panel and block with as many faces.
fn full_mesh() -> Vec<u8> {
    let side = SIDE as u8;
    let mut mesh = vec![side, side];
    mesh.extend([0, 1].repeat(SIDE));
    for turning in [1, 0] {
        mesh.push(side);
        for j in 0..side {
            mesh.push(side);
            mesh.extend((0..side).flat_map(|i| [i, 1 + (turning * i + j) % 2]));
        }
    }
    mesh
}

fn refused(number: u8, place: Option<u32>) -> Refusal {
    Refusal { number, place }
}

fn full() -> Box<Pattern> {
    let mut pattern = Box::<Pattern>::default();
    assert_eq!(pattern.read(&full_mesh()), Ok(MESH_BYTES));
    pattern
}

#[test]
fn of_the_mesh() {
    let mut out = [0; MESH_BYTES];
    assert_eq!(full().write(&mut out[1..]), Err(refused(Refusal::SHORT_OUTPUT, None)));
    assert_eq!(full().write(&mut out), Ok(MESH_BYTES));
    assert!(out[..] == full_mesh());
}

#[test]
fn of_an_operator() {
    let mut operator = vec![0x12, SIDE as u8];
    operator.extend((0..SIDE as u8).flat_map(|i| [i, 1]));
    assert_eq!(operator.len(), OPERATOR_BYTES);
    assert_eq!(full().apply(&operator), Err(refused(Refusal::NO_ROOM, None)));
    operator.push(0);
    assert_eq!(full().apply(&operator), Err(refused(Refusal::BYTES_LEFT, Some(OPERATOR_BYTES as u32))));
}

#[test]
fn of_a_script() {
    let script = |count: u16| {
        let mut script = vec![4, 96, 96, 96, 96];
        script.extend(count.to_le_bytes());
        script.extend([0x51, 0].repeat(count.into()));
        script
    };
    assert_eq!(full().run(&script(OPERATORS)), Run { ran: OPERATORS, refusal: None });
    assert_eq!(full().run(&script(OPERATORS + 1)), Run { ran: 0, refusal: Some(refused(Refusal::WRONG_FORM, Some(5))) });
    let (mut long, whole) = (script(OPERATORS), script(OPERATORS).len() as u32);
    long.resize(SCRIPT_BYTES, 0);
    assert_eq!(full().run(&long).refusal, Some(refused(Refusal::BYTES_LEFT, Some(whole))));
    long.push(0);
    assert_eq!(full().run(&long).refusal, Some(refused(Refusal::WRONG_LENGTH, None)));
}

#[test]
fn of_coefficients() {
    let (pattern, mut out) = (full(), [0; SIDE]);
    let wrong_chain = Err(refused(Refusal::WRONG_CHAIN, None));
    for sign in [1, -1] {
        assert_eq!(pattern.boundary(2, &[sign * BOUNDARY_LIMIT; SIDE], &mut out), Ok(()));
        assert_eq!(pattern.boundary(2, &[sign * (BOUNDARY_LIMIT + 1); SIDE], &mut out), wrong_chain);
        assert_eq!(pattern.carry(&[0x52, 0], 2, &[sign * CARRY_LIMIT; SIDE], &mut out), Ok(()));
        assert_eq!(pattern.carry(&[0x52, 0], 2, &[sign * (CARRY_LIMIT + 1); SIDE], &mut out), wrong_chain);
    }
}

/// An OFF text of as many corners, panels and seams as there can be, each panel a ring around all corners, and every coordinate this one.
fn full_text(coordinate: i32) -> String {
    let mut text = format!("OFF\n{SIDE} {SIDE} {SIDE}\n") + &format!("{coordinate} {coordinate} {coordinate}\n").repeat(SIDE);
    let ring: String = (0..SIDE).map(|corner| format!(" {corner}")).collect();
    text += &format!("{SIDE}{ring}\n").repeat(SIDE);
    text
}

#[test]
fn of_an_off_text() {
    let (mut pattern, mut coordinates) = (Box::<Pattern>::default(), [1; COORDINATES]);
    let (text, mut out) = (full_text(-COORDINATE_LIMIT), [0; OFF_BYTES]);
    assert_eq!(text.len(), OFF_BYTES);
    assert_eq!(pattern.import_off(text.as_bytes(), &mut coordinates), Ok(()));
    assert_eq!((pattern.counts, coordinates), ([96, 96, 96, 0], [-COORDINATE_LIMIT; COORDINATES]));
    assert_eq!(pattern.export_off(&coordinates, &mut out[1..]), Err(refused(Refusal::SHORT_OUTPUT, None)));
    assert_eq!(pattern.export_off(&coordinates, &mut out), Ok(OFF_BYTES));
    assert!(out[..] == *text.as_bytes());
}

#[test]
fn of_coordinates() {
    let wrong_off = refused(Refusal::WRONG_OFF, None);
    let (mut pattern, mut coordinates, mut out) = (Box::<Pattern>::default(), [0; COORDINATES], [0; OFF_BYTES]);
    for sign in [1, -1] {
        let beyond = full_text(sign * (COORDINATE_LIMIT + 1));
        assert_eq!(pattern.import_off(beyond.as_bytes(), &mut coordinates), Err(wrong_off));
        let within = full_text(sign * COORDINATE_LIMIT);
        assert_eq!(pattern.import_off(within.as_bytes(), &mut coordinates), Ok(()));
        for corner in 0..SIDE {
            coordinates[3 * corner + 1] += sign;
            assert_eq!(pattern.export_off(&coordinates, &mut out), Err(wrong_off));
            coordinates[3 * corner + 1] -= sign;
        }
        assert_eq!(pattern.export_off(&coordinates, &mut out), Ok(within.len()));
    }
}
