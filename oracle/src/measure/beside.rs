//! Another build of the proved code beside this one, in one process: what a change costs or gains.

use std::{hint::black_box, time::Duration};

use proved::RunAnswer;

use crate::{
    benchmarks::{groups, Benchmark},
    clock,
    ours::Slices,
    table::thousands,
};

const BUDGET: Duration = Duration::from_millis(160);
/// The budget is spent in so many parts, with all other benchmarks in between.
const PASSES: u32 = 4;

extern "C" {
    fn beside_silverpoise_run(
        form: *const u8,
        form_len: usize,
        sheet: *const u8,
        sheet_len: usize,
        items: *mut u32,
        items_len: usize,
        answers: *mut u32,
        answers_len: usize,
        list: *mut u32,
        list_len: usize,
    ) -> RunAnswer;
}

/// A build from before there was a list does not look at it: these arguments stand last, on the stack of the caller.
fn other_run(form: &[u8], sheet: &[u8], lent: &mut Slices) -> RunAnswer {
    let (f, s) = ((form.as_ptr(), form.len()), (sheet.as_ptr(), sheet.len()));
    let [i, a, l] = [&mut lent.items, &mut lent.answers, &mut lent.list].map(|words| (words.as_mut_ptr(), words.len()));
    unsafe { beside_silverpoise_run(f.0, f.1, s.0, s.1, i.0, i.1, a.0, a.1, l.0, l.1) }
}

/// The best nanoseconds a line: this build, the other, and clearing alone.
fn best(benchmark: &Benchmark, budget: Duration) -> [f64; 3] {
    let (mut ours, mut theirs, mut cleared) = (benchmark.lend(), benchmark.lend(), benchmark.lend());
    let items = benchmark.items();
    let form = &benchmark.form[..];
    let times = clock::best(
        budget,
        [
            &mut || {
                for sheet in &benchmark.sheets {
                    black_box(ours.run(black_box(form), black_box(sheet)));
                }
            },
            &mut || {
                for sheet in &benchmark.sheets {
                    black_box(other_run(black_box(form), black_box(sheet), &mut theirs));
                }
            },
            &mut || items.iter().for_each(|items| cleared.clear(*items)),
        ],
    );
    times.map(|time| time / benchmark.sheets.len() as f64)
}

pub fn print() -> bool {
    let groups = groups();
    let benchmarks: Vec<&Benchmark> = groups.iter().flat_map(|g| &g.benchmarks).collect();
    let mut all = vec![[f64::MAX; 3]; benchmarks.len()];
    for _ in 0..PASSES {
        for (benchmark, all) in benchmarks.iter().zip(&mut all) {
            let times = best(benchmark, BUDGET / PASSES);
            (0..3).for_each(|k| all[k] = all[k].min(times[k]));
        }
    }
    println!("| nanoseconds without clearing | the other | this | change |");
    println!("|---|---|---|---|");
    for (benchmark, [ours, theirs, clearing]) in benchmarks.iter().zip(&all) {
        let (now, before) = ((ours - clearing).max(1.0), (theirs - clearing).max(1.0));
        let change = 100.0 * (ours / theirs - 1.0);
        println!("| {} | {} | {} | {change:+.1} % with clearing |", benchmark.name, thousands(before), thousands(now));
    }
    let ratio = all.iter().map(|[ours, theirs, _]| (ours / theirs).ln()).sum::<f64>() / all.len() as f64;
    println!("\n{} lines, {:+.1} % on the mean", all.len(), 100.0 * (ratio.exp() - 1.0));
    !all.is_empty()
}
