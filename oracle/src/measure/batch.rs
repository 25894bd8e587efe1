//! A morning's sheets in one call beside single calls: with the clearing of what they are lent, and without it.

use std::{hint::black_box, time::Duration};

use line::batches;

use crate::{
    benchmarks::{arguments, wear, Benchmark},
    clock, counts,
    ours::RECORD_WORDS,
    table::{self, thousands, Cost},
};

const BUDGET: Duration = Duration::from_secs(2);

const LINES: [&str; 6] = ["lock", "-1 lock", "-l7 -13 lock chain bolt", "-246 lock", "--limit 900 lock", "-6 lock bell"];

/// How many times as fast as single calls a batch must be, clearing left out.
const GOAL: f64 = 1.5;

pub fn six_lines() -> Benchmark {
    let benchmark = Benchmark::of(wear(), "six lines of `wear`", LINES.map(arguments).to_vec());
    benchmark.assert_same();
    benchmark
}

/// What a batch of the lines is lent.
fn lend(benchmark: &Benchmark) -> batches::Slices {
    batches::room(benchmark.sheets.len()).map(|length| vec![0; length])
}

pub fn run(form: &[u8], batch: &[u8], lent: &mut batches::Slices) -> u32 {
    let [records, items, answers, list] = lent;
    proved::run_batch(form, batch, records, items, answers, list).number
}

/// Every word that a batch has to clear where its sheets have so many items: all but the records, part by part.
fn clear(items: &[usize], lent: &mut batches::Slices) {
    for (k, items) in items.iter().enumerate() {
        black_box(&mut lent[1][batches::part(1, k)][RECORD_WORDS * items..]).fill(0);
        (2..4).for_each(|j| black_box(&mut lent[j][batches::part(j, k)]).fill(0));
    }
}

/// Stops unless the batch has what the single calls have.
fn assert_same(benchmark: &Benchmark) {
    let (mut single, mut all) = (benchmark.lend(), lend(benchmark));
    assert_eq!(run(&benchmark.form, &batches::write(&benchmark.sheets), &mut all), 0, "the answer of the batch");
    for (k, sheet) in benchmark.sheets.iter().enumerate() {
        let ran = single.run(&benchmark.form, sheet);
        assert_eq!(all[0][batches::part(0, k)], [ran.number, ran.place, ran.tries, ran.words], "record {k}");
        assert_eq!(all[1][batches::part(1, k)], single.items, "items of sheet {k}");
        assert_eq!(all[2][batches::part(2, k)], single.answers, "answers of sheet {k}");
        assert_eq!(all[3][batches::part(3, k)], single.list, "list of sheet {k}");
    }
}

/// Hands the sides to `use_sides`: single calls and their clearing, one batch and its clearing, and bpaf.
fn with_sides<T>(benchmark: &Benchmark, use_sides: impl FnOnce([&mut dyn FnMut(); 5]) -> T) -> T {
    let (form, batch) = (&benchmark.form[..], batches::write(&benchmark.sheets));
    let (mut lent, mut cleared, items) = (lend(benchmark), lend(benchmark), benchmark.items());
    let mut at_once = || {
        black_box(run(black_box(form), black_box(&batch), &mut lent));
    };
    let mut clearing = || clear(&items, &mut cleared);
    table::with_sides(benchmark, |[singly, cleared_singly, bpaf]| {
        use_sides([singly, cleared_singly, &mut at_once, &mut clearing, bpaf])
    })
}

/// Runs under callgrind: every side in order.
pub fn count() {
    with_sides(&six_lines(), |sides| sides.into_iter().for_each(counts::count));
}

/// The single calls and the batch.
fn costs([singly, cleared_singly, at_once, clearing, _]: [f64; 5]) -> [Cost; 2] {
    [(singly, cleared_singly), (at_once, clearing)].map(|(ours, clearing)| Cost { ours, clearing, bpaf: None })
}

/// A row of the table; how many times as much the single calls cost.
fn row(name: &str, [singly, at_once]: [f64; 2]) -> f64 {
    println!("| {name} | {} | {} | {:.2} |", thousands(singly), thousands(at_once), singly / at_once);
    singly / at_once
}

/// Whether the batch is as fast as it must be.
pub fn print() -> bool {
    let benchmark = six_lines();
    assert_same(&benchmark);
    let times = with_sides(&benchmark, |sides| clock::best(BUDGET, sides));
    let spent = costs(times);
    println!("| {} | six calls | one batch | times |\n|---|---|---|---|", benchmark.name);
    row("nanoseconds", spent.map(|cost| cost.ours));
    row("clearing alone", spent.map(|cost| cost.clearing));
    let ratio = row("nanoseconds without clearing", spent.map(|cost| cost.without_clearing()));
    if let Some(counts) = table::taken("batch") {
        let counted = costs([0, 1, 2, 3, 4].map(|side| counts.instructions(side)));
        row("instructions without clearing", counted.map(|cost| cost.without_clearing()));
    }
    println!("\nbpaf reads the six lines in {} ns.", thousands(times[4]));
    if ratio < GOAL {
        println!("below the goal: {ratio:.2} of {GOAL} without clearing");
    }
    ratio >= GOAL
}
