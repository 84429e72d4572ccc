//! The wrapper hands every call through as it is: the paper's triangle and its script.
use mbyasoka::{calls, Pattern, Refusal, Run, SIDE, SIZE};

/// The paper's triangle.
const MESH: [u8; 17] = [3, 3, 0, 2, 0, 1, 1, 2, 1, 3, 0, 2, 1, 1, 2, 1, 0];
/// Split seam 0, then panel 0 by seams 2 and 3.
const SCRIPT: [u8; 14] = [4, 3, 3, 1, 0, 2, 0, 0x31, 0, 0x32, 0, 2, 2, 3];

fn refused(number: u8) -> Refusal {
    Refusal { number, place: None }
}

fn refused_at(number: u8, place: u32) -> Refusal {
    Refusal { number, place: Some(place) }
}

/// The bytes with another value at a place.
fn changed(bytes: &[u8], place: usize, value: u8) -> Vec<u8> {
    let mut bytes = bytes.to_vec();
    bytes[place] = value;
    bytes
}

fn triangle() -> Box<Pattern> {
    let mut pattern = Box::<Pattern>::default();
    assert_eq!(pattern.read(&MESH), Ok(MESH.len()));
    pattern
}

#[test]
fn reads_runs_and_writes() {
    let mut pattern = triangle();
    assert_eq!((pattern.counts, pattern.euler()), ([3, 3, 1, 0], Ok(1)));
    assert_eq!(pattern.run(&SCRIPT), Run { ran: 2, refusal: None });
    assert_eq!((pattern.counts, pattern.euler()), ([4, 5, 2, 0], Ok(1)));
    assert_eq!(pattern.check(), Ok(()));
    let mut out = [7; 40];
    assert_eq!(pattern.write(&mut out), Ok(28));
    assert_eq!(out[..6], [4, 5, 0, 3, 0, 1]);
    assert_eq!(out[28..], [7; 12]);
    let mut again = Box::<Pattern>::default();
    assert_eq!(again.read(&out[..28]), Ok(28));
    assert!(again == pattern);
}

#[test]
fn a_refused_operator_changes_nothing() {
    let (mut pattern, before) = (triangle(), triangle());
    assert_eq!(pattern.apply(&[0x21, 0]), Err(refused(8)));
    assert_eq!(pattern.apply(&[0x11, 0, 3]), Err(refused(5)));
    assert_eq!(pattern.apply(&[0x10, 0]), Err(refused_at(14, 1)));
    assert!(pattern == before);
}

#[test]
fn a_merge_right_after_a_split_gives_back_every_byte() {
    let (mut pattern, before) = (triangle(), triangle());
    assert_eq!(pattern.apply(&[0x31, 0]), Ok(()));
    assert!(pattern != before);
    assert_eq!(pattern.apply(&[0x40, 3]), Ok(()));
    assert!(pattern == before);
}

#[test]
fn a_merge_that_would_leave_a_seam_loose_is_refused() {
    let mut pattern = triangle();
    assert_eq!(pattern.run(&SCRIPT), Run { ran: 2, refusal: None });
    let divided = pattern.clone();
    // seam 4, the one between the two panels, becomes two
    assert_eq!(pattern.apply(&[0x31, 4]), Ok(()));
    let before = pattern.clone();
    for seam in [4, 5] {
        assert_eq!(pattern.apply(&[0x41, seam]), Err(refused(Refusal::SHARED_FACE)));
        assert!(pattern == before);
    }
    // they become one again, and then the panels share no other
    assert_eq!(pattern.apply(&[0x40, 4]), Ok(()));
    assert!(pattern == divided);
    assert_eq!(pattern.apply(&[0x41, 4]), Ok(()));
    assert_eq!((pattern.counts, pattern.check()), ([4, 4, 1, 0], Ok(())));
}

#[test]
fn a_stale_script_runs_nothing() {
    let mut pattern = triangle();
    assert_eq!(pattern.apply(&[0x31, 0]), Ok(()));
    let before = pattern.clone();
    assert_eq!(pattern.run(&SCRIPT), Run { ran: 0, refusal: Some(refused(13)) });
    assert!(pattern == before);
}

#[test]
fn carrying_the_boundary_gives_the_boundary_of_the_carried_chain() {
    let pattern = triangle();
    let operator = [0x31, 0];
    let mut chain = [0; SIDE];
    chain[0] = 5;
    let (mut boundary, mut carried_boundary, mut carried, mut boundary_after) = ([1; SIDE], [1; SIDE], [1; SIDE], [1; SIDE]);
    assert_eq!(pattern.boundary(2, &chain, &mut boundary), Ok(()));
    assert_eq!(boundary[..4], [-5, 5, 5, 0]);
    assert_eq!(pattern.carry(&operator, 1, &boundary, &mut carried_boundary), Ok(()));
    assert_eq!(pattern.carry(&operator, 2, &chain, &mut carried), Ok(()));
    let mut after = pattern.clone();
    assert_eq!(after.apply(&operator), Ok(()));
    assert_eq!(after.boundary(2, &carried, &mut boundary_after), Ok(()));
    assert_eq!(boundary_after, carried_boundary);
    assert_eq!(carried_boundary[..5], [-5, 5, 5, -5, 0]);
    assert_eq!(pattern.carry(&[0x22, 0], 2, &chain, &mut carried), Err(refused(17)));
}

#[test]
fn a_refused_mesh_leaves_the_empty_pattern() {
    let mut pattern = triangle();
    assert_eq!(pattern.read(&MESH[..16]), Err(refused_at(3, 16)));
    assert!(*pattern == Pattern::default());
}

#[test]
fn wrong_lengths_are_refused() {
    let (m, mut short) = ([0; SIZE], [3; SIZE - 1]);
    let (mut m1, mut m2) = ([4; SIZE], [5; SIZE]);
    assert_eq!(calls::read_mesh([&mut m1, &mut m2, &mut short], &MESH), (1, [0; 4], 0, Refusal::NO_PLACE));
    assert_eq!((m1, m2, short), ([4; SIZE], [5; SIZE], [3; SIZE - 1]));
    assert_eq!(calls::boundary([0; 4], [&m, &m, &m], 1, &[0; 95], &mut [0; 96]), 1);
    assert_eq!(calls::euler([97, 0, 0, 0], [&m, &m, &m]), (2, 0));
}

#[test]
fn a_mesh_tells_where_it_went_wrong() {
    for end in 0..MESH.len() {
        assert_eq!(triangle().read(&MESH[..end]), Err(refused_at(3, end as u32)));
    }
    // a count, a number that does not rise, a sign
    for (place, value) in [(0, 97), (8, 97), (9, 97), (12, 0), (11, 3)] {
        assert_eq!(triangle().read(&changed(&MESH, place, value)), Err(refused_at(4, place as u32)));
    }
    assert_eq!(triangle().read(&changed(&MESH, 2, 3)), Err(refused(5)));
}

#[test]
fn an_operator_tells_where_it_went_wrong() {
    let (chain, mut out) = ([0; SIDE], [1; SIDE]);
    let faulty: [(&[u8], _); 6] = [
        (&[], refused_at(3, 0)),
        (&[0x11, 0], refused_at(3, 2)),
        (&[0x60, 0], refused_at(4, 0)),
        (&[0x32, 0, 97], refused_at(4, 2)),
        (&[0x32, 0, 2, 1, 1], refused_at(4, 4)),
        (&[0x10, 0, 0], refused_at(14, 1)),
    ];
    for (operator, refusal) in faulty {
        assert_eq!(triangle().apply(operator), Err(refusal));
        assert_eq!(triangle().carry(operator, 2, &chain, &mut out), Err(refusal));
        // the dimension of a chain comes first, and is no byte
        assert_eq!(triangle().carry(operator, 4, &chain, &mut out), Err(refused(4)));
    }
    assert_eq!(triangle().boundary(0, &chain, &mut out), Err(refused(4)));
    assert_eq!(out, [1; SIDE]);
}

#[test]
fn a_script_tells_where_it_went_wrong() {
    let run = |script: &[u8]| triangle().run(script);
    for end in 0..SCRIPT.len() {
        assert_eq!(run(&SCRIPT[..end]), Run { ran: 0, refusal: Some(refused_at(3, end as u32)) });
    }
    // base count, base, operator count by its high byte, code, number that does not rise
    for (place, value, told) in [(0, 5, 0), (4, 97, 4), (6, 5, 5), (9, 0x36, 9), (13, 2, 13)] {
        assert_eq!(run(&changed(&SCRIPT, place, value)).refusal, Some(refused_at(4, told)));
    }
    assert_eq!(run(&[&SCRIPT[..], &[0, 0]].concat()).refusal, Some(refused_at(14, SCRIPT.len() as u32)));
    // an operator that is refused for its meaning
    assert_eq!(run(&changed(&SCRIPT, 8, 3)).refusal, Some(refused(5)));
}

#[test]
fn what_is_accepted_has_no_place() {
    let mut m = [[0; SIZE]; 3];
    let [m1, m2, m3] = &mut m;
    assert_eq!(calls::read_mesh([m1, m2, m3], &MESH), (0, [3, 3, 1, 0], 17, Refusal::NO_PLACE));
    assert_eq!(calls::run_script([3, 3, 1, 0], [m1, m2, m3], &SCRIPT), (0, [4, 5, 2, 0], 2, Refusal::NO_PLACE));
    assert_eq!(calls::apply_operator([4, 5, 2, 0], [m1, m2, m3], &[0x10]), (0, [5, 5, 2, 0], Refusal::NO_PLACE));
    assert_eq!(calls::carry([5, 5, 2, 0], [m1, m2, m3], &[0x10], 2, &[0; SIDE], &mut [1; SIDE]), (0, Refusal::NO_PLACE));
}

#[test]
fn a_refusal_can_be_read() {
    let error: Box<dyn std::error::Error> = triangle().read(&MESH[..12]).unwrap_err().into();
    assert_eq!(error.to_string(), "the bytes end too early at byte 12 (refusal 3)");
    assert_eq!(refused_at(4, 5).to_string(), "an impossible value was given at byte 5 (refusal 4)");
    assert_eq!(refused_at(14, 1).to_string(), "there are bytes left over at byte 1 (refusal 14)");
    assert_eq!(refused(13).to_string(), "the script was written for another state of the pattern (refusal 13)");
    assert_eq!(refused(200).to_string(), "no answer of this version has this number (refusal 200)");
    assert!(refused(Refusal::STALE).number == Refusal::STALE);
}
