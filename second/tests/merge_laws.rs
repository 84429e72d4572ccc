//! Merges on every small bundle of cells, and on small patterns of chance.

mod common;

use common::merging::{bundle, merges_as_ruled, Ruled};
use common::{Dice, Lent};

/// How often each outcome was met, for each dimension.
type Met = [[u32; 6]; 3];

/// Tries a merge at every cell, and past the last.
fn merge_everywhere(lent: &Lent, met: &mut Met) {
    for dim in 0..3 {
        for cell in 0..=usize::from(lent.counts[dim]) {
            met[dim][merges_as_ruled(lent, dim, cell) as usize] += 1;
        }
    }
}

/// Every outcome was met at every dimension. Two seams cannot share another corner with equal
/// signs: each has both signs once, and at the named corner they are opposite.
fn all_met(met: &Met) {
    use Ruled::{Accepted, NoCell, NotBetweenTwo, SharedEither, SharedEqual, SharedOpposite};
    for (dim, met) in met.iter().enumerate() {
        for ruled in [Accepted, NoCell, NotBetweenTwo, SharedEqual, SharedOpposite, SharedEither] {
            let never = dim == 0 && matches!(ruled, SharedEqual | SharedEither);
            let times = met[ruled as usize];
            assert!(if never { times == 0 } else { times >= 10 }, "{ruled:?} at {dim} in {met:?}");
        }
    }
}

/// Every list of so many entries whose sum is 0, but for zeros alone.
fn closed_columns(length: u32) -> Vec<Vec<i8>> {
    let entries = |code: usize| (0..length).map(move |place| (code / 3usize.pow(place) % 3) as i8 - 1);
    let codes = (0..3usize.pow(length)).filter(|&code| entries(code).sum::<i8>() == 0 && entries(code).any(|entry| entry != 0));
    codes.map(|code| entries(code).collect()).collect()
}

#[test]
fn every_merge_of_bundles_of_four() {
    let mut met = Met::default();
    for dim in 0..3 {
        let mut columns = closed_columns(4);
        assert_eq!(columns.len(), 18);
        columns.retain(|column| dim > 0 || column.iter().filter(|&&entry| entry != 0).count() == 2);
        for one in &columns {
            for two in &columns {
                merge_everywhere(&bundle(dim, 4, &[one, two]), &mut met);
            }
        }
    }
    all_met(&met);
}

/// A make of chance, which is often refused.
fn make(dice: &mut Dice, lent: &mut Lent, dim: usize) {
    let faces = lent.counts[dim - 1];
    let mut bytes = vec![0x10 + dim as u8];
    if dim == 1 {
        bytes.extend([0, 1].map(|_| dice.below(faces.into()) as u8));
    } else {
        let signs: Vec<u8> = (0..faces).map(|_| dice.below(4) as u8).collect();
        let pairs = (0..faces).zip(signs).filter(|&(_, sign)| sign == 1 || sign == 2);
        let pairs: Vec<u8> = pairs.flat_map(|(face, sign)| [face, sign]).collect();
        bytes.push(pairs.len() as u8 / 2);
        bytes.extend(pairs);
    }
    assert!([0, 7].contains(&lent.apply(&bytes)));
}

/// A good pattern with few cells of each dimension.
fn small(dice: &mut Dice) -> Lent {
    let mut lent = Lent::read(&[2 + dice.below(2) as u8, 0, 0, 0]);
    for (dim, most) in [(1, 5), (2, 6), (3, 3)] {
        let count = 2 + dice.below(most - 1) as u8;
        for _ in 0..60 {
            if lent.counts[dim] < count {
                make(dice, &mut lent, dim);
            }
        }
    }
    lent
}

#[test]
fn every_merge_of_small_patterns() {
    let mut dice = Dice(20);
    let mut met = Met::default();
    for _ in 0..1_200 {
        merge_everywhere(&small(&mut dice), &mut met);
    }
    all_met(&met);
}

/// Every operator that may split a cell of dimension `dim`, by whichever of its faces.
fn splits(lent: &Lent, dim: usize, cell: usize) -> Vec<Vec<u8>> {
    let front = vec![0x30 + dim as u8, cell as u8];
    if dim == 1 {
        return vec![front];
    }
    let column = lent.column(dim, cell);
    let faces: Vec<u8> = (0..96).filter(|&face| column[usize::from(face)] != 0).collect();
    let listed = |choice: usize| faces.iter().enumerate().filter(move |(at, _)| choice >> at & 1 == 1).map(|(_, &face)| face);
    let split = |choice: usize| front.iter().copied().chain([listed(choice).count() as u8]).chain(listed(choice)).collect();
    (0..1 << faces.len()).map(split).collect()
}

/// Whether a split is accepted; if so, a merge at its dividing cell gives back every byte.
fn is_taken_back(before: &Lent, split: &[u8]) -> bool {
    let mut lent = before.clone();
    if lent.apply(split) != 0 {
        return false;
    }
    let below = usize::from(split[0] & 15) - 1;
    let dividing = lent.counts[below] - 1;
    assert_eq!(merges_as_ruled(&lent, below, dividing.into()), Ruled::Accepted);
    assert_eq!(lent.apply(&[0x40 + below as u8, dividing]), 0);
    assert_eq!(&lent, before);
    true
}

#[test]
fn merge_after_any_split() {
    let mut dice = Dice(21);
    let mut accepted = [0; 3];
    for _ in 0..150 {
        let lent = small(&mut dice);
        for (dim, accepted) in (1..).zip(&mut accepted) {
            let splits = (0..lent.counts[dim].into()).flat_map(|cell| splits(&lent, dim, cell));
            *accepted += splits.filter(|split| is_taken_back(&lent, split)).count();
        }
    }
    assert!(accepted.iter().all(|&times| times > 100), "{accepted:?}");
}
