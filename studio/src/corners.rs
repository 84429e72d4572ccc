//! What a script does to the list of corners.

/// A corner that comes at the end of the list, or one that goes; then higher ones close up.
#[derive(Clone, Copy, Debug, PartialEq, Eq)]
pub enum Move {
    Added,
    Removed(usize),
}

/// How many bytes the operator at the front has.
fn length(bytes: &[u8]) -> usize {
    match bytes {
        [0x10, ..] => 1,
        [0x11, ..] => 3,
        [0x12 | 0x13, faces, ..] => 2 + 2 * usize::from(*faces),
        [0x32 | 0x33, _, faces, ..] => 3 + usize::from(*faces),
        _ => 2,
    }
}

/// What each operator of a script that was accepted does: making a corner and splitting a seam add one, killing one and merging at one
/// take it away.
pub fn moves(script: &[u8]) -> Vec<Move> {
    // The base has as many bytes as its count says, and two more count the operators.
    let base = script.first().map_or(0, |count| usize::from(*count));
    let mut rest = script.get(base + 3..).unwrap_or(&[]);
    let mut moves = Vec::new();
    while let Some(&code) = rest.first() {
        match (code, rest.get(1)) {
            (0x10 | 0x31, _) => moves.push(Move::Added),
            (0x20 | 0x40, Some(&corner)) => moves.push(Move::Removed(corner.into())),
            _ => {}
        }
        rest = rest.get(length(rest)..).unwrap_or(&[]);
    }
    moves
}

#[cfg(test)]
mod tests {
    use super::*;

    #[test]
    fn every_operator_is_passed_over_whole() {
        let operators: [(&[u8], Option<Move>); 17] = [
            (&[0x10], Some(Move::Added)),
            (&[0x11, 0x10, 0x31], None),
            (&[0x12, 2, 0x10, 1, 0x31, 2], None),
            (&[0x13, 1, 0x20, 1], None),
            (&[0x20, 0x10], Some(Move::Removed(16))),
            (&[0x21, 0x10], None),
            (&[0x22, 0x40], None),
            (&[0x23, 0x20], None),
            (&[0x31, 0x10], Some(Move::Added)),
            (&[0x32, 0x10, 3, 0x10, 0x20, 0x31], None),
            (&[0x33, 0x10, 0], None),
            (&[0x40, 0x40], Some(Move::Removed(64))),
            (&[0x41, 0x40], None),
            (&[0x42, 0x10], None),
            (&[0x51, 0x10], None),
            (&[0x52, 0x20], None),
            (&[0x53, 0x31], None),
        ];
        let head = [4, 9, 9, 9, 9, 17, 0];
        let script = [&head[..], &operators.map(|own| own.0).concat()].concat();
        assert_eq!(moves(&script), operators.iter().filter_map(|own| own.1).collect::<Vec<_>>());
        assert_eq!(moves(&head), []);
    }
}
