//! Scripts.

use crate::operators::{self, mistaken, towards, CODES};
use crate::patterns::Pattern;
use crate::random::Random;

pub const SCRIPT_LIMIT: usize = 24_576;
pub const OPERATOR_LIMIT: usize = 1_024;

/// A script of these operators for a pattern with these counts.
pub fn script(base: [u8; 4], operators: &[Vec<u8>]) -> Vec<u8> {
    let [low, high] = (operators.len() as u16).to_le_bytes();
    let [n0, n1, n2, n3] = base;
    [vec![4, n0, n1, n2, n3, low, high], operators.concat()].concat()
}

/// Operators that are accepted one after another, leading towards a size, and what they make of
/// the pattern.
pub fn accepted(random: &mut Random, pattern: &Pattern, operators: usize, size: usize) -> (Vec<Vec<u8>>, Pattern) {
    let mut now = pattern.clone();
    let mut list = Vec::new();
    // A pattern may have no operator that fits the wish, so the tries are counted.
    for _ in 0..2 * operators {
        if list.len() < operators {
            let operator = towards(random, &now, size);
            if now.apply(&operator) {
                list.push(operator);
            }
        }
    }
    (list, now)
}

/// A script for the pattern, accepted to its end or up to a mistake.
pub fn fitting(random: &mut Random, pattern: &Pattern, operators: usize, size: usize) -> Vec<u8> {
    let (mut list, now) = accepted(random, pattern, operators, size);
    if random.one_in(2) {
        let at = list.len();
        for _ in 0..1 + random.below(3) {
            let code = random.pick(&CODES);
            list.insert(at, mistaken(random, &now, code));
        }
    }
    list.truncate(OPERATOR_LIMIT);
    script(pattern.counts, &list)
}

/// A script of good form with every operator, each thought out for the pattern as it is before the script.
pub fn every_operator(random: &mut Random, pattern: &Pattern) -> Vec<u8> {
    script(pattern.counts, &CODES.map(|code| operators::fitting(random, pattern, code)))
}

/// A script of this length for `parallel([95, 96, 95, 0], 96)`, accepted to its end up to the
/// limit: a panel is made and killed by turns, then a seam is flipped, then a corner made.
pub fn of_length(length: usize) -> Vec<u8> {
    let faces = (0..96u8).flat_map(|face| [face, 1 + face % 2]);
    let made: Vec<u8> = [0x12, 96].into_iter().chain(faces).collect();
    let mut left = length - 7;
    let mut list = Vec::new();
    while left >= made.len() + 2 {
        list.extend([made.clone(), vec![0x22, 95]]);
        left -= made.len() + 2;
    }
    list.extend(vec![vec![0x51, 95]; left / 2]);
    list.extend(vec![vec![0x10]; left % 2]);
    script([95, 96, 95, 0], &list)
}
