//! Boundary and carrying.

mod common;

use common::{Lent, T};

fn chain(front: &[i32]) -> [i32; 96] {
    let mut chain = [0; 96];
    chain[..front.len()].copy_from_slice(front);
    chain
}

#[test]
fn boundary_of_t() {
    let lent = Lent::read(&T);
    let mut out = [9; 96];
    assert_eq!(lent.boundary(1, &chain(&[5, 10, 100]), &mut out), 0);
    assert_eq!(out, chain(&[-15, -90, 105]));
    assert_eq!(lent.boundary(2, &chain(&[-3]), &mut out), 0);
    assert_eq!(out, chain(&[3, -3, -3]));
    assert_eq!(lent.boundary(3, &chain(&[]), &mut out), 0);
    assert_eq!(out, [0; 96]);
}

#[test]
fn boundary_refusals() {
    let lent = Lent::read(&T);
    let mut out = [9; 96];
    for d in [0, 4, 255] {
        assert_eq!(lent.boundary(d, &[i32::MIN; 96], &mut out), 4);
    }
    for wrong in [1_000_001, -1_000_001, i32::MIN, i32::MAX] {
        assert_eq!(lent.boundary(1, &chain(&[0, wrong]), &mut out), 16);
    }
    assert_eq!(lent.boundary(2, &chain(&[0, 1]), &mut out), 16);
    assert_eq!(out, [9; 96]);
    let limits = chain(&[1_000_000, -1_000_000, 1_000_000]);
    assert_eq!(lent.boundary(1, &limits, &mut out), 0);
}

#[test]
fn largest_boundary() {
    let mut lent = Lent::read(&[2, 0, 0, 0]);
    for _ in 0..96 {
        assert_eq!(lent.apply(&[0x11, 0, 1]), 0);
    }
    let mut out = [9; 96];
    assert_eq!(lent.boundary(1, &[1_000_000; 96], &mut out), 0);
    assert_eq!(out, chain(&[-96_000_000, 96_000_000]));
}

#[test]
fn carried_by_each_kind() {
    let lent = Lent::read(&T);
    let seams = chain(&[5, 6, 7]);
    let mut out = [9; 96];
    let mut carried = |bytes: &[u8], d: u8, chain: &[i32]| {
        assert_eq!(lent.carry(bytes, d, chain, &mut out), 0);
        out
    };
    assert_eq!(carried(&[0x11, 0, 1], 1, &seams), seams);
    assert_eq!(carried(&[0x31, 1], 1, &seams), chain(&[5, 6, 7, 6]));
    assert_eq!(carried(&[0x31, 1], 0, &seams), seams);
    assert_eq!(carried(&[0x31, 1], 2, &chain(&[8])), chain(&[8]));
    assert_eq!(carried(&[0x32, 0, 1, 0], 1, &seams), seams);
    assert_eq!(carried(&[0x32, 0, 1, 0], 2, &chain(&[8])), chain(&[8, 8]));
    assert_eq!(carried(&[0x51, 2], 1, &seams), chain(&[5, 6, -7]));
    assert_eq!(carried(&[0x51, 2], 2, &chain(&[8])), chain(&[8]));
    assert_eq!(carried(&[0x10], 3, &chain(&[])), chain(&[]));
}

#[test]
fn carrying_refusals() {
    let lent = Lent::read(&T);
    let mut out = [9; 96];
    for wrong in [100_000_001, -100_000_001, i32::MIN, i32::MAX] {
        assert_eq!(lent.carry(&[0x10], 1, &chain(&[0, wrong]), &mut out), 16);
    }
    assert_eq!(lent.carry(&[0x10], 1, &chain(&[0, 0, 0, 1]), &mut out), 16);
    assert_eq!(lent.carry(&[0x10], 4, &chain(&[]), &mut out), 4);
    assert_eq!(lent.carry(&[0x10, 0], 1, &chain(&[]), &mut out), 14);
    assert_eq!(lent.carry(&[0x22, 0], 1, &chain(&[]), &mut out), 17);
    assert_eq!(out, [9; 96]);
    let limits = chain(&[100_000_000, -100_000_000]);
    assert_eq!(lent.carry(&[0x51, 0], 1, &limits, &mut out), 0);
    assert_eq!(out, chain(&[-100_000_000, -100_000_000]));
}
