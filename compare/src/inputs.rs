//! Whole inputs for the program `pattern`: a mesh followed directly by a script.

use crate::damaged::{self, variants};
use crate::meshes::{self, band, grid, parallel, pile, simplex};
use crate::operators::sharing;
use crate::patterns::Pattern;
use crate::random::Random;
use crate::scripts::{self, of_length, script, OPERATOR_LIMIT, SCRIPT_LIMIT};
use second::{mesh_fault, script_fault, Fault, INPUT_LIMIT};

/// Inputs of mixed kinds on meshes of at most `longest` bytes.
pub fn mixed(random: &mut Random, inputs: usize, longest: usize) -> Vec<Vec<u8>> {
    let mut bases = meshes::all();
    bases.retain(|mesh| mesh.len() <= longest);
    (0..inputs).map(|at| one(random, &bases[at % bases.len()], at / bases.len())).collect()
}

fn one(random: &mut Random, mesh: &[u8], kind: usize) -> Vec<u8> {
    let mut pattern = Pattern::from_mesh(mesh);
    let (operators, size) = (random.below(24), 2 + random.below(60));
    if random.one_in(2) {
        (_, pattern) = scripts::accepted(random, &pattern, operators, size);
    }
    let mesh = pattern.mesh().unwrap_or_default();
    let mut script = scripts::fitting(random, &pattern, operators, size);
    match kind % 7 {
        0..=2 => {}
        3 => script = damaged::bytes(random, &script),
        4 => script[1 + random.below(4)] ^= 1,
        5 => return [damaged::bytes(random, &mesh), script].concat(),
        _ => {
            let whole = [mesh, script].concat();
            return whole[..random.below(whole.len())].to_vec();
        }
    }
    [mesh, script].concat()
}

/// Merges of two cells that share more than one face, at every dimension: as they are, and after they were made so.
pub fn merges() -> Vec<Vec<u8>> {
    let mut random = Random::new(3);
    let lone = [(vec![2, 2, 0, 1, 1, 0, 0, 0], [0x40, 1]), (band(false), [0x41, 4]), (band(true), [0x41, 5]), (pile(), [0x42, 0])];
    let made = [(parallel([2, 1, 0, 0], 0), 0), (grid([2, 2, 0]), 1), (grid([2, 1, 1]), 2)];
    let counts = |mesh: &[u8]| Pattern::from_mesh(mesh).counts;
    let lone = lone.map(|(mesh, merge)| [script(counts(&mesh), &[merge.to_vec()]), mesh]);
    let made = made.map(|(mesh, dim)| [script(counts(&mesh), &sharing(&mut random, &Pattern::from_mesh(&mesh), dim)), mesh]);
    lone.into_iter().chain(made).map(|[script, mesh]| [mesh, script].concat()).collect()
}

/// An input for each kind of fault that the form of a mesh or of a script can have.
pub fn faulty() -> Vec<Vec<u8>> {
    let mesh = simplex(4);
    let script = scripts::every_operator(&mut Random::new(5), &Pattern::from_mesh(&mesh));
    let scripts = of_each_kind(&script, script_fault).into_iter().map(|script| [&mesh[..], &script].concat());
    of_each_kind(&mesh, mesh_fault).into_iter().chain(scripts).collect()
}

/// The variants in which a kind of fault is found first, from the last, whose places are the highest.
fn of_each_kind(bytes: &[u8], fault: fn(&[u8]) -> Option<Fault>) -> Vec<Vec<u8>> {
    let mut kinds = Vec::new();
    let mut is_new = |bytes: &Vec<u8>| {
        let kind = fault(bytes).map(|fault| (fault.field, fault.number));
        let new = kind.is_some() && !kinds.contains(&kind);
        kinds.push(kind);
        new
    };
    variants(bytes).into_iter().rev().filter(|bytes| is_new(bytes)).collect()
}

fn flips(counts: [u8; 4]) -> Vec<u8> {
    let flip = |at: usize| vec![0x51 + (at % 3) as u8, (at * 7 % usize::from(counts[1])) as u8];
    script(counts, &(0..OPERATOR_LIMIT).map(flip).collect::<Vec<_>>())
}

/// The largest mesh with the most operators, and inputs at the limits of length of a middling kind.
pub fn few_at_limits() -> Vec<Vec<u8>> {
    let (largest, loose) = (parallel([96; 4], 96), parallel([95, 96, 95, 0], 96));
    let over = of_length(SCRIPT_LIMIT + 1);
    vec![
        [largest, flips([96; 4])].concat(),
        [loose, of_length(SCRIPT_LIMIT)].concat(),
        [parallel([95; 4], 4), flips([95; 4])].concat(),
        [simplex(4), over].concat(),
    ]
}

/// Every limit of the program: lengths of input, script and listing, and the highest places.
pub fn all_at_limits() -> Vec<Vec<u8>> {
    let largest = parallel([96; 4], 96);
    let loose = parallel([95, 96, 95, 0], 96);
    let mut inputs = few_at_limits();
    inputs.extend([vec![], vec![0], vec![0; 4], largest.clone(), loose.clone()]);
    for length in SCRIPT_LIMIT - 1..SCRIPT_LIMIT + 2 {
        inputs.push([&loose[..], &of_length(length)].concat());
        inputs.push([&largest[..], &of_length(length)].concat());
    }
    for length in [INPUT_LIMIT - 1, INPUT_LIMIT, INPUT_LIMIT + 1, 70_000, 200_000] {
        inputs.push(vec![0; length]);
        let mut long = [&largest[..], &flips([96; 4])].concat();
        long.resize(length, 1);
        inputs.push(long);
    }
    inputs.extend([largest.len() - 1, largest.len() / 2].map(|end| largest[..end].to_vec()));
    // A wrong sign at the end of the longest mesh, and a byte left over at the end of the longest script.
    inputs.push([&largest[..largest.len() - 1], &[3]].concat());
    inputs.push([loose, of_length(SCRIPT_LIMIT - 1), vec![0]].concat());
    inputs.push([largest, script([96; 4], &[])].concat());
    inputs
}

#[cfg(test)]
mod tests {
    use super::*;
    use crate::coverage::Call;
    use crate::places::kinds;

    #[test]
    fn the_form_is_at_fault_in_every_way() {
        assert_eq!(faulty().len(), kinds(Call::ReadMesh) + kinds(Call::RunScript));
    }

    #[test]
    fn each_merge_is_of_cells_that_share_others() {
        for (input, ran) in merges().iter().zip([0, 0, 0, 0, 1, 1, 1]) {
            let printed = second::printed(input);
            assert!(printed.starts_with(&format!("ran {ran} refusal 20\n")), "{printed}");
        }
    }
}
