//! One comparison for each call: answers, and every byte that was lent, to be written or only to be read.

use crate::coverage::{call_name, Call, Coverage};
use crate::engine;
use crate::lending::{hex, lend, Twice};
use crate::patterns::{Pattern, Placed};
use crate::random::Random;
use std::fmt::Debug;
use std::io::Write;

pub struct Comparison {
    pub coverage: Coverage,
    pub calls: u64,
    part: String,
    rubbish: Random,
}

/// A chain lent to a call, with its dimension and the buffer for the result.
pub struct Chain<'a> {
    pub dimension: u8,
    pub coefficients: &'a [i32],
    pub out: &'a [i32],
}

/// The mesh where both call the pattern good, else counts and matrices.
fn pattern_text(pattern: &Pattern) -> String {
    let counts = pattern.counts;
    let good = engine::check(counts, pattern.clone().lent()).0 == 0;
    match pattern.mesh().filter(|_| good) {
        Some(mesh) => format!("  pattern of the mesh {}\n", hex(&mesh)),
        None => {
            let [m1, m2, m3] = [0, 1, 2].map(|at: usize| hex(&pattern.matrices[at]));
            format!("  counts {counts:?}\n  m1 {m1}\n  m2 {m2}\n  m3 {m3}\n")
        }
    }
}

fn chain_text(chain: &Chain) -> String {
    let (own, out) = (hex(chain.coefficients), hex(chain.out));
    format!("  dimension {}\n  chain {own}\n  out {out}\n", chain.dimension)
}

fn twice(pattern: &Pattern) -> [Twice<i8>; 3] {
    let [m1, m2, m3] = &pattern.matrices;
    [m1, m2, m3].map(|matrix| Twice::of(matrix))
}

fn differing(matrices: &[Twice<i8>; 3]) -> Option<String> {
    let named = ["m1", "m2", "m3"].into_iter().zip(matrices);
    named.into_iter().find_map(|(name, matrix)| matrix.difference(name))
}

fn placed_text(placed: &Placed) -> String {
    format!("{}  coordinates {}\n", pattern_text(&placed.pattern), hex(&placed.coordinates))
}

/// The lock is kept to the end, so that the other half prints nothing more.
fn end(report: &str) -> ! {
    let mut out = std::io::stdout().lock();
    // Where nothing can be printed, the status still tells.
    let _ = out.write_all(report.as_bytes());
    std::process::exit(1);
}

/// Whether an answer is about the form of the bytes.
fn of_form(number: u8) -> bool {
    matches!(number, 3 | 4 | 14)
}

impl Comparison {
    /// The part of the run that these calls are, named in the report of a difference.
    pub fn new(part: String) -> Self {
        Comparison { coverage: Coverage::default(), calls: 0, part, rubbish: Random::new(0) }
    }

    /// Ends the program at a difference in the answers or in a lent buffer.
    fn judge<A: PartialEq + Debug>(
        &mut self,
        call: Call,
        [engine, second]: [A; 2],
        buffer: Option<String>,
        arguments: impl Fn() -> String,
    ) {
        self.calls += 1;
        if engine == second && buffer.is_none() {
            return;
        }
        let report = format!(
            "DIFFERENCE in {}, call {} of {}\n{}  engine answers {engine:?}, second {second:?}\n  \
             first difference in a lent buffer: {}\n",
            call_name(call),
            self.calls,
            self.part,
            arguments(),
            buffer.as_deref().unwrap_or("none"),
        );
        end(&report);
    }

    /// Ends the program where calls that agree break a promise about several of them.
    pub fn promise(&self, holds: bool, promise: &str, arguments: impl Fn() -> String) {
        if !holds {
            end(&format!("BROKEN after call {} of {}: {promise}\n{}", self.calls, self.part, arguments()));
        }
    }

    /// Answers the refusal.
    pub fn check(&mut self, pattern: &Pattern) -> u8 {
        let mut matrices = twice(pattern);
        let [ours, [m1, m2, m3]] = lend(&mut matrices);
        let first = engine::check(pattern.counts, ours);
        let second = (second::check(pattern.counts, m1, m2, m3), pattern.counts);
        self.judge(Call::Check, [first, second], differing(&matrices), || pattern_text(pattern));
        self.coverage.answer(Call::Check, first.0);
        first.0
    }

    pub fn euler(&mut self, pattern: &Pattern) {
        let mut matrices = twice(pattern);
        let [ours, [m1, m2, m3]] = lend(&mut matrices);
        let first = engine::euler(pattern.counts, ours, self.rubbish.next());
        let (refusal, number) = second::euler(pattern.counts, m1, m2, m3);
        let second = (refusal, pattern.counts, number);
        self.judge(Call::Euler, [first, second], differing(&matrices), || pattern_text(pattern));
        self.coverage.answer(Call::Euler, first.0);
    }

    /// Reads over whatever the matrices of `over` hold.
    pub fn read_mesh(&mut self, bytes: &[u8], over: &Pattern) {
        let (mut matrices, mut meshes) = (twice(over), Twice::of(bytes));
        let [ours, [m1, m2, m3]] = lend(&mut matrices);
        let [mesh, same] = meshes.lent();
        let first = engine::read_mesh(ours, mesh, self.rubbish.next());
        let second = second::read_mesh(same, m1, m2, m3);
        let lent = differing(&matrices).or_else(|| meshes.difference("bytes"));
        self.judge(Call::ReadMesh, [first, second], lent, || format!("  bytes {}\n  over {}", hex(bytes), pattern_text(over)));
        self.coverage.answer(Call::ReadMesh, first.0);
        self.coverage.place(Call::ReadMesh, first.0, first.3, of_form(first.0).then(|| second::mesh_fault(bytes)));
    }

    pub fn write_mesh(&mut self, pattern: &Pattern, out: &[u8]) {
        let (mut matrices, mut outs) = (twice(pattern), Twice::of(out));
        let [ours, [m1, m2, m3]] = lend(&mut matrices);
        let [own, theirs] = outs.lent();
        let first = engine::write_mesh(pattern.counts, ours, own, self.rubbish.next());
        let (refusal, written) = second::write_mesh(pattern.counts, m1, m2, m3, theirs);
        let second = (refusal, pattern.counts, written);
        let lent = differing(&matrices).or_else(|| outs.difference("out"));
        self.judge(Call::WriteMesh, [first, second], lent, || format!("{}  out {}\n", pattern_text(pattern), hex(out)));
        self.coverage.answer(Call::WriteMesh, first.0);
    }

    /// Answers the pattern as the call left it.
    pub fn apply_operator(&mut self, pattern: &Pattern, bytes: &[u8]) -> Pattern {
        let (mut matrices, mut operators) = (twice(pattern), Twice::of(bytes));
        let [ours, [m1, m2, m3]] = lend(&mut matrices);
        let [operator, same] = operators.lent();
        let first = engine::apply_operator(pattern.counts, ours, operator, self.rubbish.next());
        let second = second::apply_operator(pattern.counts, m1, m2, m3, same);
        let lent = differing(&matrices).or_else(|| operators.difference("operator"));
        self.judge(Call::ApplyOperator, [first, second], lent, || format!("{}  operator {}\n", pattern_text(pattern), hex(bytes)));
        self.coverage.answer(Call::ApplyOperator, first.0);
        self.coverage.place(Call::ApplyOperator, first.0, first.2, of_form(first.0).then(|| second::operator_fault(bytes)));
        if let Some(&code) = bytes.first() {
            self.coverage.operator(code, first.0);
        }
        self.coverage.merges.answer(pattern, bytes, first.0);
        Pattern { counts: first.1, matrices: matrices.map(|matrix| matrix.left().to_vec()) }
    }

    /// Answers the pattern as the call left it.
    pub fn run_script(&mut self, pattern: &Pattern, bytes: &[u8]) -> Pattern {
        let (mut matrices, mut scripts) = (twice(pattern), Twice::of(bytes));
        let [ours, [m1, m2, m3]] = lend(&mut matrices);
        let [script, same] = scripts.lent();
        let first = engine::run_script(pattern.counts, ours, script, self.rubbish.next());
        let second = second::run_script(pattern.counts, m1, m2, m3, same);
        let lent = differing(&matrices).or_else(|| scripts.difference("script"));
        self.judge(Call::RunScript, [first, second], lent, || format!("{}  script {}\n", pattern_text(pattern), hex(bytes)));
        self.coverage.answer(Call::RunScript, first.0);
        self.coverage.place(Call::RunScript, first.0, first.3, of_form(first.0).then(|| second::script_fault(bytes)));
        self.coverage.script(bytes, first.2, first.0);
        Pattern { counts: first.1, matrices: matrices.map(|matrix| matrix.left().to_vec()) }
    }

    pub fn boundary(&mut self, pattern: &Pattern, chain: &Chain) {
        let (mut matrices, mut chains, mut outs) = (twice(pattern), Twice::of(chain.coefficients), Twice::of(chain.out));
        let [ours, [m1, m2, m3]] = lend(&mut matrices);
        let ([lent, same], [own, theirs]) = (chains.lent(), outs.lent());
        let first = engine::boundary(pattern.counts, ours, chain.dimension, lent, own);
        let second = (second::boundary(pattern.counts, m1, m2, m3, chain.dimension, same, theirs), pattern.counts);
        let lent = differing(&matrices).or_else(|| chains.difference("chain")).or_else(|| outs.difference("out"));
        self.judge(Call::Boundary, [first, second], lent, || pattern_text(pattern) + &chain_text(chain));
        self.coverage.answer(Call::Boundary, first.0);
        self.coverage.bounded(chain.dimension, chain.coefficients, first.0);
    }

    pub fn carry(&mut self, pattern: &Pattern, bytes: &[u8], chain: &Chain) {
        let (mut matrices, mut operators) = (twice(pattern), Twice::of(bytes));
        let (mut chains, mut outs) = (Twice::of(chain.coefficients), Twice::of(chain.out));
        let [ours, [m1, m2, m3]] = lend(&mut matrices);
        let ([operator, same_operator], [lent, same], [own, theirs]) = (operators.lent(), chains.lent(), outs.lent());
        let first = engine::carry(pattern.counts, ours, operator, chain.dimension, lent, own, self.rubbish.next());
        let (refusal, place) = second::carry(pattern.counts, m1, m2, m3, same_operator, chain.dimension, same, theirs);
        let second = (refusal, pattern.counts, place);
        let lent = differing(&matrices).or_else(|| operators.difference("operator"));
        let lent = lent.or_else(|| chains.difference("chain")).or_else(|| outs.difference("out"));
        self.judge(Call::Carry, [first, second], lent, || {
            format!("{}  operator {}\n{}", pattern_text(pattern), hex(bytes), chain_text(chain))
        });
        self.coverage.answer(Call::Carry, first.0);
        // A dimension that is not offered is a 4 as well, before the form is looked at.
        let form = of_form(first.0) && chain.dimension < 4;
        self.coverage.place(Call::Carry, first.0, first.2, form.then(|| second::operator_fault(bytes)));
        self.coverage.carried(bytes, chain.dimension, chain.coefficients, first.0);
    }

    /// Imports over whatever the matrices and the list of `over` hold; answers the refusal and what the call left.
    pub fn import_off(&mut self, text: &[u8], over: &Placed) -> (u8, Placed) {
        let (mut matrices, mut lists, mut texts) = (twice(&over.pattern), Twice::of(&over.coordinates), Twice::of(text));
        let [ours, [m1, m2, m3]] = lend(&mut matrices);
        let ([list, theirs], [own, same]) = (lists.lent(), texts.lent());
        let first = engine::import_off(ours, list, own, self.rubbish.next());
        let second = second::import_off(same, m1, m2, m3, theirs);
        let lent = differing(&matrices).or_else(|| lists.difference("coordinates")).or_else(|| texts.difference("text"));
        self.judge(Call::ImportOff, [first, second], lent, || format!("  text {}\n  over {}", hex(text), placed_text(over)));
        self.coverage.answer(Call::ImportOff, first.0);
        self.coverage.imported(first.0, || second::off_fault(text));
        let pattern = Pattern { counts: first.1, matrices: matrices.map(|matrix| matrix.left().to_vec()) };
        (first.0, Placed { pattern, coordinates: lists.left().to_vec() })
    }

    /// Answers the refusal and the text that was written.
    pub fn export_off(&mut self, placed: &Placed, out: &[u8]) -> (u8, Vec<u8>) {
        let (pattern, coordinates) = (&placed.pattern, &placed.coordinates);
        let (mut matrices, mut lists, mut outs) = (twice(pattern), Twice::of(coordinates), Twice::of(out));
        let [ours, [m1, m2, m3]] = lend(&mut matrices);
        let ([list, same], [own, theirs]) = (lists.lent(), outs.lent());
        let first = engine::export_off(pattern.counts, ours, list, own, self.rubbish.next());
        let (refusal, written) = second::export_off(pattern.counts, m1, m2, m3, same, theirs);
        let second = (refusal, pattern.counts, written);
        let lent = differing(&matrices).or_else(|| lists.difference("coordinates")).or_else(|| outs.difference("out"));
        self.judge(Call::ExportOff, [first, second], lent, || format!("{}  out {}\n", placed_text(placed), hex(out)));
        self.coverage.answer(Call::ExportOff, first.0);
        let [m1, m2, m3] = &pattern.matrices;
        self.coverage.exported(first.0, placed, || second::off_obstacle(pattern.counts, m1, m2, m3));
        (first.0, outs.left()[..first.2].to_vec())
    }
}
