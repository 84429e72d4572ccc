//! What the rules say of a merge, read off the lent matrices.

use super::Lent;

/// What a merge at a cell of a good pattern comes to.
#[derive(Clone, Copy, Debug, PartialEq, Eq)]
pub enum Ruled {
    Accepted,
    /// 5.
    NoCell,
    /// 11.
    NotBetweenTwo,
    /// 20: another shared face has the same sign in both, and none has opposite signs.
    SharedEqual,
    /// 20: another shared face has opposite signs, and none has the same.
    SharedOpposite,
    /// 20: there are both.
    SharedEither,
}

impl Ruled {
    pub fn refusal(self) -> u8 {
        match self {
            Ruled::Accepted => 0,
            Ruled::NoCell => 5,
            Ruled::NotBetweenTwo => 11,
            _ => 20,
        }
    }
}

/// The two cells with `cell` as a face, if it has a plus in one and a minus in the other.
fn joined(lent: &Lent, dim: usize, cell: usize) -> Option<(usize, usize)> {
    let sign = |user: usize| lent.column(dim + 1, user)[cell];
    let users: Vec<usize> = (0..96).filter(|&user| sign(user) != 0).collect();
    match users[..] {
        [lower, higher] if sign(lower) + sign(higher) == 0 => Some((lower, higher)),
        _ => None,
    }
}

fn ruled(lent: &Lent, dim: usize, cell: usize) -> Ruled {
    if cell >= lent.counts[dim].into() {
        return Ruled::NoCell;
    }
    let (lower, higher) = match joined(lent, dim, cell) {
        Some(two) => two,
        None => return Ruled::NotBetweenTwo,
    };
    let [one, other] = [lower, higher].map(|user| lent.column(dim + 1, user));
    let shared = |product: i8| (0..96).any(|face| face != cell && one[face] * other[face] == product);
    match (shared(1), shared(-1)) {
        (false, false) => Ruled::Accepted,
        (true, false) => Ruled::SharedEqual,
        (false, true) => Ruled::SharedOpposite,
        (true, true) => Ruled::SharedEither,
    }
}

/// How many cells of each dimension below 3 are no face of any other.
fn loose(lent: &Lent) -> [usize; 3] {
    [0, 1, 2].map(|dim| {
        let is_loose = |&cell: &usize| (0..96).all(|user| lent.column(dim + 1, user)[cell] == 0);
        (0..lent.counts[dim].into()).filter(is_loose).count()
    })
}

/// The merged cell has every face of the two besides `cell`, each with its own sign, and no
/// other. So a cell that was a face of another still is.
fn keeps_faces(before: &Lent, after: &Lent, dim: usize, cell: usize) {
    let (lower, higher) = joined(before, dim, cell).unwrap();
    let pairs = before.column(dim + 1, lower).iter().zip(before.column(dim + 1, higher));
    let mut faces: Vec<i8> = pairs.map(|(&one, &other)| if one != 0 { one } else { other }).collect();
    faces.remove(cell);
    faces.push(0);
    assert_eq!(after.column(dim + 1, lower), faces);
    let mut still = loose(before);
    if dim < 2 && (0..96).all(|user| before.column(dim + 2, user)[higher] == 0) {
        still[dim + 1] -= 1;
    }
    assert_eq!(loose(after), still);
}

/// A merge at `cell` answers what the rules say, which is never 12, and leaves what they say.
pub fn merges_as_ruled(lent: &Lent, dim: usize, cell: usize) -> Ruled {
    let ruled = ruled(lent, dim, cell);
    let mut after = lent.clone();
    assert_eq!(after.apply(&[0x40 + dim as u8, cell as u8]), ruled.refusal(), "{ruled:?}: {dim}, {cell} of {:?}", lent.mesh());
    if ruled == Ruled::Accepted {
        assert_eq!(after.check(), 0);
        keeps_faces(lent, &after, dim, cell);
    } else {
        assert_eq!(&after, lent);
    }
    ruled
}

/// A pattern for merges at dimension `dim`: so many cells that all have the same boundary,
/// and above them cells with these entries. They close if the entries of each sum to 0; for
/// seams they are a tail and a head.
pub fn bundle(dim: usize, faces: usize, columns: &[&[i8]]) -> Lent {
    let mut lent = Lent::read(&[[faces as u8, 2, 2][dim], 0, 0, 0]);
    let mut make = |operator: &[u8]| assert_eq!(lent.apply(operator), 0, "{operator:?}");
    let seams = [0, faces, 2][dim];
    (0..seams).for_each(|_| make(&[0x11, 0, 1]));
    let panels = [0, 0, faces][dim];
    (0..panels).for_each(|_| make(&[0x12, 2, 0, 1, 1, 2]));
    for column in columns {
        let faces = column.iter().enumerate().filter(|&(_, &entry)| entry != 0);
        let mut bytes: Vec<u8> = faces.flat_map(|(face, &entry)| [face as u8, if entry > 0 { 1 } else { 2 }]).collect();
        match (dim, &bytes[..]) {
            (0, &[tail, 2, head, 1] | &[head, 1, tail, 2]) => make(&[0x11, tail, head]),
            _ => {
                bytes.splice(..0, [0x11 + dim as u8, bytes.len() as u8 / 2]);
                make(&bytes);
            }
        }
    }
    lent
}
