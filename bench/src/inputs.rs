//! Meshes, scripts and OFF texts at the limits.

/// n corners, seams, panels and blocks; each panel and block has `faces` faces.
fn mesh(n: u8, faces: u8) -> Vec<u8> {
    let mut s = vec![n, n];
    s.extend([0, 1].repeat(n as usize));
    // Panel j is ± the same ring, by turns; in a block all panels have one sign.
    for alternating in [1, 0] {
        s.push(n);
        for j in 0..n {
            s.push(faces);
            for i in 0..faces {
                s.extend([i, 1 + (alternating * i + j) % 2]);
            }
        }
    }
    s
}

/// 96 of everything, each panel and block with 96 faces: the largest mesh, 37,252 bytes.
pub fn full_mesh() -> Vec<u8> {
    mesh(96, 96)
}

/// Room for one more cell of each dimension.
fn roomy_mesh() -> Vec<u8> {
    mesh(95, 94)
}

/// The same, and no cell from number 24 on is in use.
fn loose_mesh() -> Vec<u8> {
    mesh(95, 24)
}

/// The triangle: three corners, three seams, one panel.
pub fn small_mesh() -> Vec<u8> {
    vec![3, 3, 0, 2, 0, 1, 1, 2, 1, 3, 0, 2, 1, 1, 2, 1, 0]
}

/// The largest OFF text: 96 corners, every coordinate with a minus and seven digits, and 96 panels of 96 corners, one way round and the
/// other by turns.
pub fn full_off() -> Vec<u8> {
    let mut text = "OFF\n96 96 96\n".to_string();
    for i in 0..96 {
        let [x, y, z] = [0, 96, 192].map(|more| -1_000_000 - 168 * (i + more));
        text += &format!("{x} {y} {z}\n");
    }
    for panel in 0..96 {
        let step = if panel % 2 == 0 { 35 } else { 96 - 35 };
        let ring: String = (0..96).map(|i| format!(" {}", i * step % 96)).collect();
        text += &format!("96{ring}\n");
    }
    text.into_bytes()
}

/// A hat of six gores, 19 corners.
pub fn small_off() -> Vec<u8> {
    include_bytes!("../../examples/off/hat.off").to_vec()
}

/// 1,024 operators on n cells of each dimension, by turns those of `round`.
fn script(n: u8, round: &[Vec<u8>]) -> Vec<u8> {
    let mut s = vec![4, n, n, n, n, 0, 4];
    for i in 0..1024 {
        s.extend(&round[i % round.len()]);
    }
    s
}

fn flips(n: u8) -> Vec<Vec<u8>> {
    (0..n).flat_map(|cell| (1..4).map(move |k| vec![0x50 + k, cell])).collect()
}

/// The faces 0 to 2m - 1 of a panel or block that is made: as many pairs of number and sign.
fn faces(k: u8, m: u8) -> Vec<u8> {
    let sign = |i: u8| if k == 2 { 1 + i % 2 } else { 1 };
    [2 * m].into_iter().chain((0..2 * m).flat_map(|i| [i, sign(i)])).collect()
}

/// A cell that is not in use goes, high or low, and one is made at the end.
fn makes_and_kills(n: u8) -> Vec<Vec<u8>> {
    let made = |k: u8| match k {
        0 => vec![0x10],
        1 => vec![0x11, 0, 1],
        _ => [vec![0x10 + k], faces(k, 12)].concat(),
    };
    [24, n, 48, 72].iter().flat_map(|cell| (0..4).flat_map(move |k| [made(k), vec![0x20 + k, *cell]])).collect()
}

fn splits_and_merges(n: u8) -> Vec<Vec<u8>> {
    let split = |k: u8, cell: u8| match k {
        1 => vec![0x31, cell],
        _ => vec![0x30 + k, cell, 1, cell % 24],
    };
    (0..n).flat_map(|cell| (1..4).flat_map(move |k| [split(k, cell), vec![0x3f + k, n]])).collect()
}

/// Every operator in every dimension. A cell is flipped there and back, so that the made ones close.
fn mixed(n: u8) -> Vec<Vec<u8>> {
    let pairs = splits_and_merges(n);
    let makes = makes_and_kills(n);
    let turns: Vec<_> = flips(n).into_iter().flat_map(|f| [f.clone(), f]).collect();
    pairs.chunks(2).zip(makes.chunks(2).cycle()).zip(turns.chunks(2)).flat_map(|((p, m), f)| [p, m, f].concat()).collect()
}

pub struct Timed {
    pub name: &'static str,
    pub mesh: Vec<u8>,
    pub script: Vec<u8>,
}

/// The scripts to time.
pub fn scripts() -> Vec<Timed> {
    let timed = |name, mesh: Vec<u8>, round: &dyn Fn(u8) -> Vec<Vec<u8>>| {
        let n = mesh[0];
        Timed { name, mesh, script: script(n, &round(n)) }
    };
    vec![
        timed("mixed", loose_mesh(), &mixed),
        timed("flips", full_mesh(), &flips),
        timed("splits and merges in turn", roomy_mesh(), &splits_and_merges),
        timed("makes and kills in turn", loose_mesh(), &makes_and_kills),
    ]
}
