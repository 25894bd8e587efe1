//! Careful calls beside plain ones, on lines of one form, on lines of commands and on batches: the instructions of whole calls, clearing
//! and all.

use std::hint::black_box;

use line::{batches, format::*};
use proved::{CarefulAnswer, CarefulCommandAnswer};

use crate::{
    batch,
    benchmarks::{groups, Benchmark},
    commands, counts,
    ours::Slices,
    table::{self, thousands},
};

/// How much a careful call may cost, of what the plain one does.
const MOST: f64 = 1.03;

/// The same input by both. None is refused: a refused line is not looked at.
struct Pair {
    name: String,
    plain: Box<dyn FnMut()>,
    careful: Box<dyn FnMut()>,
}

/// The benchmarks of which no line is refused.
fn lines() -> Vec<Pair> {
    let benchmarks = groups().into_iter().flat_map(|group| group.benchmarks);
    let accepted = |b: &Benchmark| b.sheets.iter().all(|sheet| careful(&b.form, sheet, &mut b.lend()).number == 0);
    benchmarks.filter(accepted).map(of_lines).collect()
}

#[inline(always)]
fn careful(form: &[u8], sheet: &[u8], lent: &mut Slices) -> CarefulAnswer {
    proved::careful(form, sheet, &mut lent.items, &mut lent.answers, &mut lent.list)
}

fn of_lines(benchmark: Benchmark) -> Pair {
    let [(form, sheets, mut lent), (same, again, mut other)] =
        [(); 2].map(|()| (benchmark.form.clone(), benchmark.sheets.clone(), benchmark.lend()));
    let plain = move || {
        for sheet in &sheets {
            black_box(lent.run(black_box(&form), black_box(sheet)));
        }
    };
    let careful = move || {
        for sheet in &again {
            black_box(careful(black_box(&same), black_box(sheet), &mut other));
        }
    };
    Pair { name: benchmark.name, plain: Box::new(plain), careful: Box::new(careful) }
}

/// The lines of the workshop, short ones and long ones.
fn command_lines() -> Vec<Pair> {
    commands::accepted_lines().into_iter().map(|(name, table, sheet)| of_commands(name, table, sheet)).collect()
}

#[inline(always)]
fn careful_commands(table: &[u8], sheet: &[u8], lent: &mut Slices) -> CarefulCommandAnswer {
    proved::careful_commands(table, sheet, &mut lent.items, &mut lent.answers, &mut lent.list)
}

fn of_commands(name: String, table: Vec<u8>, sheet: Vec<u8>) -> Pair {
    let (mut lent, mut other) = (Slices::new(), Slices::new());
    assert_eq!(careful_commands(&table, &sheet, &mut lent).number, 0, "{name}");
    let (same, again) = (table.clone(), sheet.clone());
    let plain = move || {
        black_box(commands::run(black_box(&table), black_box(&sheet), &mut lent));
    };
    let careful = move || {
        black_box(careful_commands(black_box(&same), black_box(&again), &mut other));
    };
    Pair { name, plain: Box::new(plain), careful: Box::new(careful) }
}

/// The six lines of a morning, as many as a batch may have, and six of as many words as there may be.
fn all_batches() -> Vec<Pair> {
    let Benchmark { form, sheets, name, .. } = batch::six_lines();
    let most = sheets.iter().cycle().take(batches::SHEETS).cloned().collect();
    let long = Sheet { arguments: vec![b"lock".to_vec(); ITEMS] }.write();
    let batch = |name: &str, sheets: Vec<Vec<u8>>| of_batch(name.to_string(), form.clone(), sheets);
    vec![batch(&name, sheets), batch("32 lines of `wear`", most), batch("six lines of `wear`, 256 words each", vec![long; 6])]
}

fn careful_batch(form: &[u8], batch: &[u8], lent: &mut batches::Slices) -> u32 {
    let [records, items, answers, list] = lent;
    proved::careful_batch(form, batch, records, items, answers, list).number
}

fn of_batch(name: String, form: Vec<u8>, sheets: Vec<Vec<u8>>) -> Pair {
    let [mut lent, mut other] = [(); 2].map(|()| batches::room(sheets.len()).map(|length| vec![0; length]));
    let batch = batches::write(&sheets);
    assert_eq!(careful_batch(&form, &batch, &mut lent), 0, "{name}");
    assert!(lent[0].chunks_exact(4).all(|record| record[0] == 0), "{name}");
    let (same, again) = (form.clone(), batch.clone());
    let plain = move || {
        black_box(batch::run(black_box(&form), black_box(&batch), &mut lent));
    };
    let careful = move || {
        black_box(careful_batch(black_box(&same), black_box(&again), &mut other));
    };
    Pair { name, plain: Box::new(plain), careful: Box::new(careful) }
}

fn all() -> [(&'static str, Vec<Pair>); 3] {
    [("lines of one form", lines()), ("lines of commands", command_lines()), ("batches", all_batches())]
}

/// Runs under callgrind: both calls on every input.
pub fn count() {
    for mut pair in all().into_iter().flat_map(|(_, pairs)| pairs) {
        counts::count(&mut pair.plain);
        counts::count(&mut pair.careful);
    }
}

/// Whether nothing costs more than it may.
pub fn print() -> bool {
    let Some(counts) = table::taken("careful") else { return false };
    println!("| | plain | careful | more |\n|---|---|---|---|");
    let (mut side, mut most) = (0, 1.0f64);
    for (group, pairs) in all() {
        println!("| **{group}** | | | |");
        for pair in pairs {
            let [plain, careful] = [side, side + 1].map(|side| counts.instructions(side));
            println!("| {} | {} | {} | {:.2} % |", pair.name, thousands(plain), thousands(careful), 100.0 * (careful / plain - 1.0));
            most = most.max(careful / plain);
            side += 2;
        }
    }
    if most > MOST {
        println!("\nabove the goal: {most:.3} of {MOST}");
    }
    most <= MOST
}
