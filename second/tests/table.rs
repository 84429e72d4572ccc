//! The twelve cases of the document's table.

mod common;

use common::{Lent, LISTING_SCRIPT, T};

/// The printed result of T followed by a script.
fn after(script: &[u8]) -> String {
    second::printed(&[&T[..], script].concat())
}

fn applied(operator: &[u8]) -> (u8, Lent) {
    let mut lent = Lent::read(&T);
    let refusal = lent.apply(operator);
    assert_eq!(lent.check(), 0);
    if refusal != 0 {
        assert_eq!(lent, Lent::read(&T));
    }
    (refusal, lent)
}

#[test]
fn case_1_empty_pattern() {
    let lent = Lent::read(&[0, 0, 0, 0]);
    assert_eq!(lent, Lent::empty());
    assert_eq!(lent.check(), 0);
    assert_eq!(lent.euler(), (0, 0));
    assert_eq!(lent.mesh(), [0, 0, 0, 0]);
}

#[test]
fn case_2_t_is_good() {
    let mut lent = Lent::empty();
    assert_eq!(lent.read_mesh(&T), (0, 17));
    assert_eq!(lent.counts, [3, 3, 1, 0]);
    assert_eq!((lent.m1[0], lent.m1[2]), (-1, 1));
    assert_eq!(lent.m2[..4], [-1, 1, 1, 0]);
    assert_eq!(lent.check(), 0);
    assert_eq!(lent.euler(), (0, 1));
    assert_eq!(lent.mesh(), T);
}

#[test]
fn case_3_split_seam() {
    let (refusal, lent) = applied(&[0x31, 0]);
    assert_eq!(refusal, 0);
    let seams = [4, 4, 0, 3, 0, 1, 1, 2, 3, 2];
    assert_eq!(lent.mesh()[..10], seams);
}

#[test]
fn case_4_listing() {
    let listing = "ran 2 refusal 0\ncells 4 5 2 0\neuler 1\n\
        e 0 0 3\ne 1 0 1\ne 2 1 2\ne 3 3 2\ne 4 1 3\n\
        f 0 -0 +1 +4\nf 1 +2 -3 -4\n";
    assert_eq!(after(&LISTING_SCRIPT), listing);
}

#[test]
fn case_5_split_by_all_or_none() {
    assert_eq!(applied(&[0x32, 0, 3, 0, 1, 2]).0, 9);
    assert_eq!(applied(&[0x32, 0, 0]).0, 9);
}

#[test]
fn case_6_kill() {
    assert_eq!(applied(&[0x21, 0]).0, 8);
    let (refusal, lent) = applied(&[0x22, 0]);
    assert_eq!(refusal, 0);
    assert_eq!(lent.euler(), (0, 0));
}

#[test]
fn case_7_make_seam() {
    assert_eq!(applied(&[0x11, 1, 1]).0, 7);
    assert_eq!(applied(&[0x11, 0, 3]).0, 5);
}

#[test]
fn case_8_merge_of_a_ring() {
    let ring = [2, 2, 0, 1, 1, 0, 0, 0];
    let mut lent = Lent::read(&ring);
    assert_eq!(lent.apply(&[0x40, 1]), 20);
    assert_eq!(lent.mesh(), ring);
}

#[test]
fn case_9_merge_at_corner() {
    let (refusal, lent) = applied(&[0x40, 1]);
    assert_eq!(refusal, 0);
    assert_eq!(lent.mesh(), [2, 2, 0, 1, 0, 1, 1, 2, 0, 2, 1, 1, 0], "seams 0 and 1 are both 0 to 1 after the closing up");
    assert_eq!(applied(&[0x40, 0]).0, 11);
}

#[test]
fn case_10_full_corners() {
    let mut lent = Lent::read(&[96, 0, 0, 0]);
    assert_eq!(lent.apply(&[0x10]), 6);
    let mut lent = Lent::read(&[95, 0, 0, 0]);
    assert_eq!(lent.apply(&[0x10]), 0);
    assert_eq!(lent.counts, [96, 0, 0, 0]);
}

#[test]
fn case_11_flip_panel() {
    let (refusal, lent) = applied(&[0x52, 0]);
    assert_eq!(refusal, 0);
    assert_eq!(lent.m2[..4], [1, -1, -1, 0]);
    assert!(after(&[4, 3, 3, 1, 0, 1, 0, 0x52, 0]).ends_with("f 0 +0 -1 -2\n"));
}

#[test]
fn case_12_stale_base() {
    let text = after(&[4, 3, 3, 2, 0, 0, 0]);
    assert!(text.starts_with("ran 0 refusal 13\ncells 3 3 1 0\n"));
}
