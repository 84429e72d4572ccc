//! What is left in lent buffers, and calls with wrong lengths or bad patterns.

mod common;

use common::{Lent, Placed, T, TETRAHEDRON};

/// The tetrahedron with faults that a lent pattern can have, one at a time.
fn not_good() -> Vec<Lent> {
    let good = Lent::read(&TETRAHEDRON);
    let faults: [fn(&mut Lent); 12] = [
        |lent| lent.counts[0] = 97,
        |lent| lent.counts = [255; 4],
        |lent| lent.counts[1] -= 1,
        |lent| lent.counts[0] -= 1,
        |lent| lent.counts[2] += 1,
        |lent| lent.counts[1] += 1,
        |lent| lent.m1[0] = -2,
        |lent| lent.m1[0] = 1,
        |lent| lent.m2[0] = i8::MIN,
        |lent| lent.m3[0] = 0,
        |lent| lent.m3[9_215] = 1,
        |lent| lent.m2.iter_mut().take(96).for_each(|entry| *entry = 0),
    ];
    let spoil = |fault: fn(&mut Lent)| {
        let mut lent = good.clone();
        fault(&mut lent);
        lent
    };
    faults.into_iter().map(spoil).collect()
}

/// Every call gives `refusal` and leaves every buffer as it was.
fn all_refuse(lent: &Lent, refusal: u8) {
    let mut same = lent.clone();
    let (mut bytes, mut chain) = ([9; 40_000], [9; 96]);
    assert_eq!(lent.check(), refusal);
    assert_eq!(lent.euler(), (refusal, 0));
    assert_eq!(lent.write(&mut bytes), (refusal, 0));
    let placed = Placed { lent: lent.clone(), coordinates: vec![i32::MAX; 288] };
    assert_eq!(placed.export(&mut bytes), (refusal, 0));
    assert_eq!(same.apply(&[0x10]), refusal);
    assert_eq!(same.run(&[4, 3, 3, 1, 0, 0, 0]), (refusal, 0));
    assert_eq!(lent.boundary(9, &[9; 96], &mut chain), refusal);
    assert_eq!(lent.carry(&[], 9, &[9; 96], &mut chain), refusal);
    assert_eq!(&same, lent);
    assert_eq!(bytes, [9; 40_000]);
    assert_eq!(chain, [9; 96]);
}

#[test]
fn patterns_not_good() {
    for lent in not_good() {
        all_refuse(&lent, 2);
    }
}

#[test]
fn wrong_lengths() {
    for (at, length) in [(1, 0), (2, 9_215), (3, 9_217), (1, 9_217)] {
        // A bad count too: length is judged first.
        let mut lent = Lent::empty();
        lent.counts = [97; 4];
        let matrix = match at {
            1 => &mut lent.m1,
            2 => &mut lent.m2,
            _ => &mut lent.m3,
        };
        matrix.resize(length, 5);
        all_refuse(&lent, 1);
        let before = lent.clone();
        assert_eq!(lent.read_mesh(&T), (1, 0));
        assert_eq!(lent.counts, [0; 4]);
        lent.counts = before.counts;
        assert_eq!(lent, before);
    }
}

#[test]
fn wrong_chain_lengths() {
    let mut lent = Lent::read(&T);
    lent.counts = [97; 4];
    let mut out = [9; 96];
    for length in [0, 95, 97] {
        let wrong = vec![0; length];
        let mut wrong_out = vec![9; length];
        assert_eq!(lent.boundary(1, &wrong, &mut out), 1);
        assert_eq!(lent.carry(&[0x10], 1, &wrong, &mut out), 1);
        assert_eq!(lent.boundary(1, &[0; 96], &mut wrong_out), 1);
        assert_eq!(lent.carry(&[0x10], 1, &[0; 96], &mut wrong_out), 1);
        assert_eq!(wrong_out, vec![9; length]);
    }
    assert_eq!(out, [9; 96]);
}

#[test]
fn reader_sets_every_byte() {
    let mut lent = Lent::empty();
    for matrix in [&mut lent.m1, &mut lent.m2, &mut lent.m3] {
        matrix.fill(77);
    }
    let full = lent.clone();
    assert_eq!(lent.read_mesh(&T), (0, 17));
    assert_eq!(lent, Lent::read(&T));
    lent = full;
    assert_eq!(lent.read_mesh(&T[..16]), (3, 0));
    assert_eq!(lent, Lent::empty());
}

#[test]
fn writer_touches_what_it_reports() {
    let lent = Lent::read(&T);
    let mut out = [9; 20];
    assert_eq!(lent.write(&mut out[..16]), (15, 0));
    assert_eq!(out, [9; 20]);
    assert_eq!(lent.write(&mut out), (0, 17));
    assert_eq!(out[..17], T);
    assert_eq!(out[17..], [9; 3]);
    assert_eq!(lent.write(&mut out[..17]), (0, 17));
}

#[test]
fn script_too_long_is_judged_before_goodness() {
    let mut lent = Lent::empty();
    lent.counts = [200, 1, 2, 3];
    let before = lent.clone();
    assert_eq!(lent.run(&[4; 24_577]), (1, 0));
    assert_eq!(lent.run(&[4; 24_576]), (2, 0));
    assert_eq!(lent, before);
}
