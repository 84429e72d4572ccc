//! The engine and the same work in plain Rust, timed in one run: prints the tables of docs/SPEED.md.
mod inputs;
mod plain;

use inputs::Timed;
use mbyasoka::{Pattern as Engine, Run, COORDINATES, SIZE};
use plain::mesh::{read_mesh, write_mesh};
use plain::off_export::{export_off, export_off_keeping};
use plain::off_import::import_off;
use plain::pattern::{check, check_nested, Pattern as Plain};
use plain::script::{apply_operator, euler, run_script};
use plain::{chains, NO_PLACE};
use std::hint::black_box;
use std::time::Instant;

/// Nanoseconds of one call, over a batch.
fn batch<T>(calls: u32, work: &mut impl FnMut() -> T) -> f64 {
    let start = Instant::now();
    for _ in 0..calls {
        black_box(work());
    }
    start.elapsed().as_nanos() as f64 / calls as f64
}

/// A row of the table: the fastest of several batches of each, the two in turn.
fn row<A, B>(name: &str, calls: u32, mut engine: impl FnMut() -> A, mut plain: impl FnMut() -> B) {
    let mut best = (f64::MAX, f64::MAX);
    for _ in 0..40 {
        best.0 = best.0.min(batch(calls, &mut engine));
        best.1 = best.1.min(batch(calls, &mut plain));
    }
    let ratio = best.0 / best.1;
    let digits = if ratio < 0.1 { 4 } else { 2 };
    println!("| {name} | {:.0} | {:.0} | {ratio:.digits$} |", best.0, best.1);
}

fn same(e: &Engine, p: &Plain) -> bool {
    e.counts == p.n && e.matrices == p.m
}

/// The mesh as both read it.
fn both(mesh: &[u8]) -> (Box<Engine>, Box<Plain>) {
    let (mut e, mut p) = (Box::<Engine>::default(), Box::new(Plain::empty()));
    assert_eq!(e.read(mesh), Ok(mesh.len()));
    assert_eq!(read_mesh(mesh, &mut p), (mesh.len(), 0, NO_PLACE));
    assert!(same(&e, &p));
    (e, p)
}

fn checked_and_written(size: &str, mesh: &[u8], calls: u32) {
    let (e, p) = both(mesh);
    let mut out = [vec![0u8; mesh.len()], vec![0u8; mesh.len()]];
    let [oe, op] = &mut out;
    let nested = format!("check, {size}, against three nested loops");
    row(&format!("check, {size}"), calls, || black_box(&e).check(), || check(black_box(&p)));
    row(&nested, calls, || black_box(&e).check(), || check_nested(black_box(&p)));
    row(&format!("write, {size}"), calls, || black_box(&e).write(oe), || write_mesh(black_box(&p), op));
    assert!(out[0] == mesh && out[1] == mesh);
}

fn read(size: &str, mesh: &[u8], calls: u32) {
    let (mut e, mut p) = both(mesh);
    let over = format!("read, {size}, over the same pattern");
    row(&over, calls, || e.read(black_box(mesh)), || read_mesh(black_box(mesh), &mut p));
    let clear_and_read = || {
        e.matrices = [[0; SIZE]; 3];
        black_box(&mut e).read(black_box(mesh))
    };
    let clear_and_read_plain = || {
        p.m = [[0; SIZE]; 3];
        read_mesh(black_box(mesh), black_box(&mut p))
    };
    row(&format!("read, {size}, into cleared matrices"), calls, clear_and_read, clear_and_read_plain);
}

/// Every run begins with a copy of the pattern, which both make, or with reading it.
fn full_script(t: &Timed) {
    let (e0, p0) = both(&t.mesh);
    let (mut e, mut p) = (e0.clone(), p0.clone());
    assert_eq!(e.run(&t.script), Run { ran: 1024, refusal: None }, "{}", t.name);
    assert_eq!(run_script(&mut p, &t.script, false), (1024, 0, NO_PLACE));
    assert!(same(&e, &p));
    let run_plain = |p: &mut Plain, again: bool| {
        p.clone_from(&p0);
        run_script(p, black_box(&t.script), again)
    };
    let run_engine = |e: &mut Engine| {
        e.clone_from(&e0);
        e.run(black_box(&t.script))
    };
    row(t.name, 2, || run_engine(&mut e), || run_plain(&mut p, false));
    let read_and_run = || (e.read(black_box(&t.mesh)), e.run(black_box(&t.script)));
    let read_and_run_plain = || (read_mesh(black_box(&t.mesh), &mut p), run_script(&mut p, black_box(&t.script), false));
    row(&format!("{}, with reading the pattern", t.name), 2, read_and_run, read_and_run_plain);
    let again = format!("{}, against the pattern tested at every operator", t.name);
    row(&again, 1, || run_engine(&mut e), || run_plain(&mut p, true));
}

/// One operator, the Euler number and the chains of a full pattern.
fn other_calls(mesh: &[u8]) {
    let (mut e, mut p) = both(mesh);
    let chain = [1_000_000; 96];
    let (mut oe, mut op) = ([0; 96], [1; 96]);
    let flip = [0x52, 40];
    row("Euler number", 20, || black_box(&e).euler(), || euler(black_box(&p)));
    row("one operator", 20, || e.apply(&flip), || apply_operator(&mut p, &flip));
    assert!(same(&e, &p));
    row("boundary", 20, || e.boundary(2, black_box(&chain), &mut oe), || chains::boundary(&p, 2, black_box(&chain), &mut op));
    assert_eq!(oe, op);
    row("carrying", 20, || e.carry(&flip, 2, black_box(&chain), &mut oe), || chains::carry(&p, &flip, 2, black_box(&chain), &mut op));
    assert_eq!(oe, op);
}

/// An OFF text that is exported as it stands.
fn in_and_out(size: &str, text: &[u8], calls: u32) {
    let (mut e, mut p) = (Box::<Engine>::default(), Box::new(Plain::empty()));
    let (mut ce, mut cp) = ([1; COORDINATES], [2; COORDINATES]);
    let mut out = [vec![0u8; text.len()], vec![0u8; text.len()]];
    let [oe, op] = &mut out;
    let (import, import_plain) = (|| e.import_off(black_box(text), &mut ce), || import_off(black_box(text), &mut p, &mut cp));
    row(&format!("import, {size}"), calls, import, import_plain);
    assert!(same(&e, &p) && ce == cp);
    assert_eq!((e.export_off(&ce, oe), export_off(&p, &cp, op)), (Ok(text.len()), (text.len(), 0)));
    assert_eq!((export_off_keeping(&p, &cp, op), &op[..text.len()]), ((text.len(), 0), text));
    row(&format!("export, {size}"), calls, || black_box(&e).export_off(&ce, oe), || export_off(black_box(&p), &cp, op));
    let keeping = format!("export, {size}, against all rings kept on the stack");
    row(&keeping, calls, || black_box(&e).export_off(&ce, oe), || export_off_keeping(black_box(&p), &cp, op));
    assert!(out[0] == text && out[1] == text);
}

fn head(title: &str) {
    println!("\n| {title} | engine, ns | plain Rust, ns | ratio |\n|---|---|---|---|");
}

fn main() {
    head("meshes and the check");
    for (size, mesh, calls) in [("96 of everything", inputs::full_mesh(), 20), ("a triangle", inputs::small_mesh(), 400)] {
        checked_and_written(size, &mesh, calls);
        read(size, &mesh, calls);
    }
    head("a script of 1,024 operators");
    inputs::scripts().iter().for_each(full_script);
    head("other calls, 96 of everything");
    other_calls(&inputs::full_mesh());
    head("OFF texts");
    in_and_out("the largest OFF", &inputs::full_off(), 20);
    in_and_out("the hat", &inputs::small_off(), 400);
}
