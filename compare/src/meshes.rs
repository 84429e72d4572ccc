//! Sound meshes to begin with.

use crate::patterns::Face;

type Cells = Vec<Vec<Face>>;

fn mesh(corners: usize, seams: &[(u8, u8)], sewn: [&Cells; 2]) -> Vec<u8> {
    let mut bytes = vec![corners as u8, seams.len() as u8];
    bytes.extend(seams.iter().flat_map(|&(tail, head)| [tail, head]));
    for cells in sewn {
        bytes.push(cells.len() as u8);
        for cell in cells {
            bytes.extend(listed(cell));
        }
    }
    bytes
}

/// A face count and the pairs, numbers rising.
pub fn listed(faces: &[Face]) -> Vec<u8> {
    let mut faces = faces.to_vec();
    faces.sort_unstable();
    let pairs = faces.iter().flat_map(|&(number, sign)| [number, if sign > 0 { 1 } else { 2 }]);
    std::iter::once(faces.len() as u8).chain(pairs).collect()
}

/// Plus and minus by turns.
fn by_turns(number: u8) -> i8 {
    1 - 2 * (number % 2) as i8
}

fn ends(seam: &[Face]) -> (u8, u8) {
    let end = |sign| seam.iter().find(|face| face.1 == sign).map_or(0, |face| face.0);
    (end(-1), end(1))
}

fn of_cells(cells: &[Cells; 4]) -> Vec<u8> {
    let seams: Vec<_> = cells[1].iter().map(|seam| ends(seam)).collect();
    mesh(cells[0].len(), &seams, [&cells[2], &cells[3]])
}

/// Every seam from corner 0 to corner 1. Panels are plus and minus the same ring of the first
/// `faces` seams by turns, and blocks have the first `faces` panels, all with one sign; `faces` is
/// even. `parallel([96; 4], 96)` is the largest mesh.
pub fn parallel(counts: [u8; 4], faces: u8) -> Vec<u8> {
    let [corners, seams, panels, blocks] = counts;
    let signed = |alternating: u8, j: u8| (0..faces).map(move |i| (i, by_turns(alternating * i + j))).collect::<Vec<Face>>();
    let sewn = [(panels, 1), (blocks, 0)].map(|(n, turns)| (0..n).map(|j| signed(turns, j)).collect());
    mesh(corners.into(), &vec![(0, 1); seams.into()], [&sewn[0], &sewn[1]])
}

/// A ring of n seams, sewn to panels that are plus and minus the ring by turns; each two panels
/// that follow one another are a block.
pub fn ring(n: u8, panels: u8) -> Vec<u8> {
    let seams: Vec<_> = (0..n).map(|i| (i, (i + 1) % n)).collect();
    let sewn: Cells = (0..panels).map(|j| (0..n).map(|i| (i, by_turns(j))).collect()).collect();
    let blocks: Cells = (1..panels).map(|j| vec![(j - 1, by_turns(j)), (j, by_turns(j))]).collect();
    mesh(n.into(), &seams, [&sewn, &blocks])
}

/// A band of two panels, sewn to each other along seams 4 and 5. Seams 0 and 1 are its lower edge, 2 and 3 its upper one; where the
/// second panel is twisted, that is one edge, and both panels have seam 4 with one sign.
pub fn band(twisted: bool) -> Vec<u8> {
    let (low, high, sign) = if twisted { (2, 0, -1) } else { (0, 2, 1) };
    let seams = [(0, 1), (1, low), (2, 3), (3, high), (0, 2), (1, 3)];
    let panels = vec![vec![(0, 1), (2, -1), (4, -1), (5, 1)], vec![(1, 1), (3, -1), (4, sign), (5, -1)]];
    mesh(4, &seams, [&panels, &Vec::new()])
}

/// Four panels with the same two seams, one on another. The first two are a block; in another block of all four the second panel has the
/// same sign, the first the other one.
pub fn pile() -> Vec<u8> {
    let panels = vec![vec![(0, 1), (1, -1)]; 4];
    let blocks = vec![vec![(0, 1), (1, -1)], vec![(0, -1), (1, -1), (2, 1), (3, 1)]];
    mesh(2, &[(0, 1), (0, 1)], [&panels, &blocks])
}

/// All corners, pairs, triples and fours of n corners: the triangle is `simplex(3)`, the
/// tetrahedron with its block `simplex(4)`.
pub fn simplex(n: u8) -> Vec<u8> {
    let mut named: [Vec<Vec<u8>>; 4] = Default::default();
    for set in 1u32..1 << n {
        let members: Vec<u8> = (0..n).filter(|i| set >> i & 1 == 1).collect();
        if members.len() <= 4 {
            named[members.len() - 1].push(members);
        }
    }
    let cells = [0, 1, 2, 3].map(|dim: usize| {
        let faces = |members: &Vec<u8>| (0..members.len()).map(|at| left_out(&named, dim, members, at)).collect();
        named[dim].iter().map(|members| if dim == 0 { Vec::new() } else { faces(members) }).collect()
    });
    of_cells(&cells)
}

/// The face of a simplex that leaves out the member at a place.
fn left_out(named: &[Vec<Vec<u8>>; 4], dim: usize, members: &[u8], at: usize) -> Face {
    let mut face = members.to_vec();
    face.remove(at);
    let number = named[dim - 1].iter().position(|own| *own == face).unwrap_or(0);
    (number as u8, by_turns(at as u8))
}

/// A box of cubes; a size of 0 makes it flat. `grid([1, 1, 1])` is the cube with its block.
pub fn grid(sizes: [u8; 3]) -> Vec<u8> {
    // A cell is where it begins, and the directions in which it is extended.
    let mut named: [Vec<([u8; 3], u8)>; 4] = Default::default();
    for directions in 0..8u8 {
        let within = |axis: usize, at: u8| at + (directions >> axis & 1) <= sizes[axis];
        for at in (0..512u16).map(|at| [at & 7, at >> 3 & 7, at >> 6].map(|place| place as u8)) {
            if (0..3).all(|axis| within(axis, at[axis])) {
                named[directions.count_ones() as usize].push((at, directions));
            }
        }
    }
    let cells = [0, 1, 2, 3].map(|dim: usize| named[dim].iter().map(|&cell| sides(&named, dim, cell)).collect());
    of_cells(&cells)
}

fn sides(named: &[Vec<([u8; 3], u8)>; 4], dim: usize, (at, directions): ([u8; 3], u8)) -> Vec<Face> {
    let mut faces = Vec::new();
    let mut sign = 1;
    for axis in (0..3).filter(|axis| directions >> axis & 1 == 1) {
        let mut far = at;
        far[axis] += 1;
        for (side, sign) in [(at, -sign), (far, sign)] {
            let face = (side, directions & !(1 << axis));
            let number = named[dim - 1].iter().position(|&own| own == face).unwrap_or(0);
            faces.push((number as u8, sign));
        }
        sign = -sign;
    }
    faces
}

/// One of each kind and size, the largest last.
pub fn all() -> Vec<Vec<u8>> {
    let mut meshes = vec![vec![0; 4], vec![1, 0, 0, 0]];
    meshes.extend([parallel([2, 1, 0, 0], 0), parallel([2, 2, 1, 0], 2)]);
    // Two seams there and back, two panels and two blocks that cancel one another, bands and a pile: merges refused by 20.
    meshes.extend([vec![2, 2, 0, 1, 1, 0, 0, 0], parallel([2; 4], 2), band(false), band(true), pile()]);
    meshes.extend((3..=8).map(simplex));
    let grids = [[1, 1, 1], [2, 1, 1], [2, 2, 2], [3, 2, 2], [5, 1, 1], [3, 3, 0], [6, 6, 0]];
    meshes.extend(grids.map(grid));
    meshes.extend([(3, 2), (4, 5), (12, 12), (20, 40)].map(|(n, panels)| ring(n, panels)));
    meshes.push(parallel([3, 6, 5, 4], 4));
    meshes.extend(at_limits());
    meshes
}

/// Counts of 96, and of 95, where one more cell has room.
fn at_limits() -> Vec<Vec<u8>> {
    let mut meshes = vec![ring(95, 3), ring(96, 96)];
    let loose = [[96, 0, 0, 0], [95, 0, 0, 0], [2, 96, 0, 0], [95, 95, 0, 0]];
    meshes.extend(loose.map(|counts| parallel(counts, 0)));
    let sparse = [[95, 96, 95, 94], [96, 95, 96, 95], [95; 4]];
    meshes.extend(sparse.map(|counts| parallel(counts, 4)));
    meshes.extend([parallel([40; 4], 24), parallel([95; 4], 24)]);
    meshes.extend([parallel([95; 4], 94), parallel([96; 4], 96)]);
    meshes
}
