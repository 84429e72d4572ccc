//! Chains within their limits and past them.

use crate::damaged::CHAIN_LENGTHS;
use crate::random::Random;
use second::LIMIT;

pub const BOUNDARY_LIMIT: i32 = 1_000_000;
pub const CARRY_LIMIT: i32 = 100_000_000;

/// Chain dimensions that are offered or not.
pub const DIMENSIONS: [u8; 7] = [0, 1, 2, 3, 4, 5, 255];

/// Coefficients of which none is within the limit.
pub fn beyond(limit: i32) -> [i32; 6] {
    [limit + 1, -limit - 1, 2 * limit, -2 * limit, i32::MIN, i32::MAX]
}

/// An accepted chain of cells of which there are `count`.
pub fn sound(random: &mut Random, count: usize, limit: i32) -> Vec<i32> {
    let mut chain = vec![0; LIMIT];
    let style = random.below(4);
    for coefficient in &mut chain[..count.min(LIMIT)] {
        *coefficient = match style {
            0 => limit,
            1 => random.pick(&[-limit, limit, 0, 1, -1, limit - 1]),
            _ => random.below(2 * limit as usize + 1) as i32 - limit,
        };
    }
    chain
}

/// A chain that is mostly accepted.
pub fn lent(random: &mut Random, count: usize, limit: i32) -> Vec<i32> {
    let mut chain = sound(random, count, limit);
    let count = count.min(LIMIT);
    match random.below(16) {
        0 => chain[random.below(LIMIT)] = random.pick(&beyond(limit)),
        1 => chain[random.below(count)] = random.pick(&beyond(limit)),
        2 if count < LIMIT => chain[count] = random.pick(&[1, -1, limit]),
        3 if count < LIMIT => chain[count + random.below(LIMIT - count)] = random.pick(&[1, -1, limit]),
        4 if random.one_in(3) => chain.resize(random.pick(&CHAIN_LENGTHS), 0),
        _ => {}
    }
    chain
}

/// An output buffer with junk in it, mostly of the right length.
pub fn out(random: &mut Random) -> Vec<i32> {
    let length = if random.one_in(32) { random.pick(&CHAIN_LENGTHS) } else { LIMIT };
    (0..length).map(|_| random.next() as i32).collect()
}
