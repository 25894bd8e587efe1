//! The deepest use of the stack: the memory below a call is painted, the call is made, and the lowest byte that is no longer
//! paint shows how deep it went.

use std::{arch::asm, hint::black_box};

use line::{cases, cases::Rng, format::*, notation};

use crate::{benchmarks::groups, ours::Slices, parsers::Fields, table::thousands};

/// More than any call here uses; the thread that measures has twice as much.
const PAINTED: usize = 1 << 20;
const PAINT: u64 = 0x5a17_a5ed_5a17_a5ed;
/// Words right below the caller's frame that are not painted.
const SPARED: usize = 32;

const GENERATED: usize = 5000;

/// Bytes below the caller that `call` wrote to.
#[inline(never)]
fn depth(call: &mut dyn FnMut()) -> usize {
    let top: usize;
    unsafe { asm!("mov {}, rsp", out(reg) top, options(nomem, nostack, preserves_flags)) };
    let words = PAINTED / 8;
    let base = (top & !7) as *mut u64;
    for k in SPARED..words {
        unsafe { base.sub(k).write_volatile(PAINT) };
    }
    black_box(&mut *call)();
    let untouched = (SPARED..words).rev().take_while(|k| unsafe { base.sub(*k).read_volatile() } == PAINT).count();
    assert!(untouched > 0, "the call went deeper than was painted");
    8 * (words - untouched)
}

/// The same in a thread of its own, whose stack is large enough to be painted, less what a call that does nothing uses.
fn depth_of(call: impl FnMut() + Send) -> usize {
    let mut call = call;
    let measured = std::thread::scope(|scope| {
        let thread = std::thread::Builder::new().stack_size(2 * PAINTED);
        thread.spawn_scoped(scope, || (depth(&mut || {}), depth(&mut call))).expect("a thread").join().expect("no panic")
    });
    measured.1 - measured.0
}

/// A run's depth; what the closure itself keeps for the answer is below 1,200 bytes of it.
fn run_depth(form: &[u8], sheet: &[u8]) -> usize {
    let mut slices = Slices::new();
    depth_of(|| {
        black_box(slices.run(black_box(form), black_box(sheet)));
    })
}

/// bpaf's parsers cannot be sent to another thread, so theirs is measured where it stands.
fn bpaf_depth(fields: &dyn Fields, line: &[std::ffi::OsString]) -> usize {
    let idle = depth(&mut || {});
    let mut read = || {
        let _ = black_box(fields.read(black_box(line)));
    };
    depth(&mut read) - idle
}

/// Forms of 64 nodes that go deep, each in its own way.
fn deep_forms() -> Vec<(&'static str, String)> {
    let letters: Vec<char> = ('a'..='z').chain('A'..='Z').collect();
    let nested = |wrap: &dyn Fn(String, usize) -> String, inner: &str, times: usize| {
        (0..times).fold(inner.to_string(), |form, k| wrap(form, k))
    };
    let flag = |k: usize| format!("flag(-{})", letters[k]);
    let left = nested(&|form, k| format!("choice({form}, {})", flag(k + 1)), &flag(0), 31);
    let right = nested(&|form, k| format!("choice({}, {form})", flag(k + 1)), &flag(0), 31);
    // a choice in the innermost list, to make 64 nodes
    let list = format!("many(choice({}, {}))", flag(0), flag(51));
    let lists = nested(&|form, k| format!("choice({form}, many({}))", flag(k + 1)), &list, 20);
    let right_lists = nested(&|form, k| format!("choice(many({}), {form})", flag(k + 1)), &list, 20);
    let optional = nested(
        &|form, k| format!("choice({form}, optional(some({})))", flag(k + 1)),
        &format!("optional(some({}))", flag(0)),
        15,
    );
    let mixed = nested(&|form, _| format!("choice(fallback(guard({form}, 0..9), 9), operand#)"), "operand#", 15);
    vec![
        ("63 fallbacks above a number", nested(&|form, _| format!("fallback({form}, 9)"), "operand#", 63)),
        ("63 guards above a number", nested(&|form, _| format!("guard({form}, 0..9)"), "operand#", 63)),
        ("many of 62 fallbacks", format!("many({})", nested(&|form, _| format!("fallback({form}, no)"), "flag(-a)", 62))),
        ("a choice of 32 flags, nested to the left", left.clone()),
        ("a choice of 32 flags, nested to the right", right),
        ("many of that to the left", format!("many({left})")),
        ("a choice of 21 lists, nested to the left", lists),
        ("a choice of 21 lists, nested to the right", right_lists),
        ("a choice of 16 optional lists", optional),
        ("choices, fallbacks and guards in turn", mixed),
    ]
}

/// Lines that make repeats turn and choices differ.
fn lines() -> Vec<Vec<u8>> {
    let sheet = |arguments: Vec<Vec<u8>>| Sheet { arguments }.write();
    let flags = (0..256usize).map(|k| vec![b'-', b"abcdefghijklmnopqrstuvwxyzABCDEF"[k % 32]]).collect();
    vec![sheet(Vec::new()), sheet(vec![b"7".to_vec(); 256]), sheet(vec![b"-a".to_vec(); 256]), sheet(flags)]
}

/// The deepest of all benchmarks by either side.
fn benchmarks_depth() -> (usize, usize) {
    let mut deepest = (0, 0);
    for benchmark in groups().iter().flat_map(|g| &g.benchmarks) {
        for sheet in &benchmark.sheets {
            deepest.0 = deepest.0.max(run_depth(&benchmark.form, sheet));
        }
        for (line, fields) in benchmark.lines.iter().zip(benchmark.fields.iter().cycle()) {
            deepest.1 = deepest.1.max(bpaf_depth(&**fields, line));
        }
    }
    deepest
}

/// The deepest of some generated cases.
fn generated_depth(count: usize) -> usize {
    let mut rng = Rng::new(1);
    (0..count).map(|_| cases::well_made(&mut rng)).map(|case| run_depth(&case.form, &case.sheet)).max().unwrap_or(0)
}

pub fn print() {
    println!("| form | bytes of stack |");
    println!("|---|---|");
    let sheets = lines();
    for (name, form) in deep_forms() {
        let form = notation::parse(&form).expect("a form of the notation");
        assert!(form.nodes.len() >= 60, "{name} has {} nodes", form.nodes.len());
        let bytes = form.write();
        let deepest = sheets.iter().map(|sheet| run_depth(&bytes, sheet)).max().unwrap_or(0);
        println!("| {name} ({} nodes) | {} |", form.nodes.len(), thousands(deepest));
    }
    let (ours, bpaf) = benchmarks_depth();
    println!("| the benchmarks of the first table, the deepest | {} |", thousands(ours));
    println!("| the same by bpaf, which allocates besides | {} |", thousands(bpaf));
    println!("| {} generated cases, the deepest | {} |", thousands(GENERATED), thousands(generated_depth(GENERATED)));
}
