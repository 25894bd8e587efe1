//! The benchmarks beside bpaf, as a table in Markdown.

use std::{ffi::OsString, fmt::Display, hint::black_box, os::unix::ffi::OsStrExt, time::Duration};

use crate::{
    benchmarks::{groups, wear, Benchmark, Group, GOAL_WITHOUT_CLEARING},
    clock,
    counts::{self, Counts},
};

const BUDGET: Duration = Duration::from_millis(320);
/// The budget is spent in so many parts.
const PASSES: u32 = 4;

/// What one call costs: the run, clearing beside it, and bpaf, in nanoseconds or instructions.
#[derive(Clone, Copy)]
pub struct Cost {
    pub ours: f64,
    pub clearing: f64,
    pub bpaf: Option<f64>,
}

impl Cost {
    pub fn without_clearing(&self) -> f64 {
        (self.ours - self.clearing).max(1.0)
    }
}

/// A number in groups of three digits, rounded.
pub fn thousands(number: impl Display) -> String {
    let digits = format!("{number:.0}");
    let mut out = String::new();
    for (k, digit) in digits.chars().enumerate() {
        if k > 0 && (digits.len() - k) % 3 == 0 {
            out.push(',');
        }
        out.push(digit);
    }
    out
}

/// Hands the three sides of a benchmark to `use_sides`: the run, clearing, and bpaf, over all of its lines.
pub fn with_sides<T>(benchmark: &Benchmark, use_sides: impl FnOnce([&mut dyn FnMut(); 3]) -> T) -> T {
    let (mut slices, mut cleared, items) = (benchmark.lend(), benchmark.lend(), benchmark.items());
    let form = &benchmark.form[..];
    let mut ours = || {
        for sheet in &benchmark.sheets {
            black_box(slices.run(black_box(form), black_box(sheet)));
        }
    };
    let mut clearing = || items.iter().for_each(|items| cleared.clear(*items));
    let mut bpaf = || {
        let Some(fields) = &benchmark.fields else { return };
        for line in &benchmark.lines {
            let _ = black_box(fields.read(black_box(line)));
        }
    };
    use_sides([&mut ours, &mut clearing, &mut bpaf])
}

fn cost(benchmark: &Benchmark, sides: [f64; 3]) -> Cost {
    let [ours, clearing, bpaf] = sides.map(|side| side / benchmark.sheets.len() as f64);
    Cost { ours, clearing, bpaf: benchmark.fields.is_some().then_some(bpaf) }
}

/// The benchmarks by the clock, after a look that both sides answer alike. Each is taken several times with all others in
/// between, so that none meets only a slow moment of the machine.
pub fn timed(benchmarks: &[&Benchmark], budget: Duration) -> Vec<Cost> {
    benchmarks.iter().for_each(|benchmark| benchmark.assert_same());
    let mut best = vec![[f64::MAX; 3]; benchmarks.len()];
    for _ in 0..PASSES {
        for (benchmark, best) in benchmarks.iter().zip(&mut best) {
            let sides = with_sides(benchmark, |sides| clock::best(budget / PASSES, sides));
            (0..3).for_each(|k| best[k] = best[k].min(sides[k]));
        }
    }
    benchmarks.iter().zip(best).map(|(benchmark, best)| cost(benchmark, best)).collect()
}

/// Runs under callgrind: every side of every benchmark in order.
pub fn count() {
    for benchmark in groups().iter().flat_map(|g| &g.benchmarks) {
        with_sides(benchmark, |sides| sides.into_iter().for_each(counts::count));
    }
}

/// callgrind's counts of a part, or none without valgrind.
pub fn taken(part: &str) -> Option<Counts> {
    Counts::take(part).inspect_err(|e| eprintln!("no instructions are counted: valgrind: {e}")).ok()
}

/// The functions that the instructions of each run are in, clearing left out; of the named benchmark, or of all.
pub fn print_profile(name: Option<&str>) -> bool {
    let plain = |name: &str| name.replace('`', "");
    let Some(counts) = taken("lines") else { return false };
    let groups = groups();
    let benchmarks = groups.iter().flat_map(|g| &g.benchmarks).enumerate();
    let chosen: Vec<_> = benchmarks.filter(|(_, b)| name.is_none_or(|name| plain(name) == plain(&b.name))).collect();
    println!("| | instructions without clearing | in |");
    println!("|---|---|---|");
    for (k, benchmark) in &chosen {
        let lines = benchmark.sheets.len() as f64;
        let mut functions = counts.functions(3 * k).unwrap_or_else(|e| panic!("callgrind_annotate: {e}"));
        *functions.entry("memset".to_string()).or_default() -= counts.instructions(3 * k + 1);
        let all: f64 = functions.values().sum();
        let mut parts: Vec<(String, f64)> = functions.into_iter().filter(|(_, n)| *n > 0.03 * all).collect();
        parts.sort_by(|a, b| b.1.total_cmp(&a.1));
        let parts: Vec<String> = parts.iter().map(|(name, n)| format!("{name} {:.0}%", 100.0 * n / all)).collect();
        println!("| {} | {} | {} |", benchmark.name, thousands(all / lines), parts.join(", "));
    }
    !chosen.is_empty()
}

/// Times and instructions of every benchmark, then those that miss their goal.
pub fn print() {
    print_parts();
    let groups = groups();
    let benchmarks: Vec<&Benchmark> = groups.iter().flat_map(|g| &g.benchmarks).collect();
    let counts = taken("lines");
    let mut times = timed(&benchmarks, BUDGET).into_iter().zip((0..).step_by(3));
    println!(
        "\n| | ours, ns | without clearing | bpaf | times | times, without clearing \
         | ours without clearing, instructions | bpaf | times |"
    );
    println!("|---|---|---|---|---|---|---|---|---|");
    let mut missed = Vec::new();
    for group in &groups {
        println!("| **{}** | | | | | | | | |", group.name);
        for (benchmark, (time, side)) in group.benchmarks.iter().zip(&mut times) {
            let count = counts.as_ref().map(|c| cost(benchmark, [side, side + 1, side + 2].map(|k| c.instructions(k))));
            println!("| {} | {} | {} |", benchmark.name, time_cells(&time), instruction_cells(count));
            missed.extend(miss(group, benchmark, &time));
        }
    }
    println!("\nBelow the goal, {} lines:\n", missed.len());
    missed.iter().for_each(|line| println!("- {line}"));
}

fn or_dash(number: Option<String>) -> String {
    number.unwrap_or_else(|| "-".to_string())
}

/// Ours, without clearing, bpaf, and how many times as long bpaf takes as each of the first two.
fn time_cells(time: &Cost) -> String {
    let (ours, rest) = (time.ours, time.without_clearing());
    let times = |of: f64| or_dash(time.bpaf.map(|bpaf| format!("{:.1}", bpaf / of)));
    let bpaf = or_dash(time.bpaf.map(thousands));
    format!("{} | {} | {bpaf} | {} | {}", thousands(ours), thousands(rest), times(ours), times(rest))
}

/// callgrind counts the clearing byte by byte, so only what is left without it is shown.
fn instruction_cells(count: Option<Cost>) -> String {
    let Some(count) = count else { return "- | - | -".to_string() };
    let rest = count.without_clearing();
    let times = or_dash(count.bpaf.map(|bpaf| format!("{:.1}", bpaf / rest)));
    format!("{} | {} | {times}", thousands(rest), or_dash(count.bpaf.map(thousands)))
}

/// What a benchmark lacks to its goals, if it lacks anything.
fn miss(group: &Group, benchmark: &Benchmark, time: &Cost) -> Option<String> {
    let bpaf = time.bpaf?;
    let (all, rest, left) = (bpaf / time.ours, bpaf / time.without_clearing(), bpaf / group.goal);
    if all >= group.goal && rest >= GOAL_WITHOUT_CLEARING {
        return None;
    }
    let floor = match time.clearing > left {
        true => format!("; the first leaves {left:.0} ns, and clearing alone takes {:.0}", time.clearing),
        false => String::new(),
    };
    let goals = format!("{all:.1} of {}, {rest:.1} of {GOAL_WITHOUT_CLEARING} without clearing", group.goal);
    Some(format!("{}, {}: {goals}{floor}", group.name, benchmark.name))
}

/// What is inside of either side's time on one line, and what that takes by itself.
fn print_parts() {
    let benchmark = Benchmark::new(wear(), "-1 lock");
    let (mut slices, mut cleared, items) = (benchmark.lend(), benchmark.lend(), benchmark.items());
    let mut sheet = Vec::new();
    let line = &benchmark.lines[0];
    let [check, clearing, split, build, encode] = clock::best(
        BUDGET,
        [
            &mut || {
                black_box(proved::form_check(black_box(&benchmark.form)));
            },
            &mut || cleared.clear(items[0]),
            &mut || {
                black_box(slices.split(black_box(&benchmark.form), black_box(&benchmark.sheets[0])));
            },
            &mut || {
                black_box(wear());
            },
            &mut || encode(black_box(line), &mut sheet),
        ],
    );
    println!("| on `-1 lock` under `wear` | ours | bpaf |");
    println!("|---|---|---|");
    println!("| check of the form | inside, {check:.0} ns | there is none |");
    println!(
        "| building of parsers, with the letters of short options | letters inside; no parsers | outside, {build:.0} ns |"
    );
    println!("| clearing of the lent slices | inside, {clearing:.0} ns | nothing is lent: it allocates and frees, inside |");
    println!("| splitting | inside; {split:.0} ns with the form check and the clearing of the item slice | inside |");
    println!("| making a sheet of the arguments | outside, {encode:.0} ns | arguments are copied one by one, inside |");
}

/// A sheet made of arguments, into a buffer that is used again.
fn encode(line: &[OsString], sheet: &mut Vec<u8>) {
    sheet.clear();
    sheet.extend((line.len() as u16).to_le_bytes());
    sheet.extend(0u16.to_le_bytes());
    let mut end = 0u16;
    for argument in line {
        end += argument.len() as u16;
        sheet.extend(end.to_le_bytes());
    }
    line.iter().for_each(|argument| sheet.extend(argument.as_bytes()));
    black_box(sheet);
}
