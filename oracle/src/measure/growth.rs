//! How the cost grows with items, nodes, bytes and letters, beside bpaf on the same work: tables, and the points of a plot.

use std::{ffi::OsString, hint::black_box, time::Duration};

use bpaf::{long, positional, short, Parser};
use line::{cases, format::Form};
use proved::form_check;

use crate::{
    benchmarks::{counted_or_word, fallbacks, left_choice, letter, many_of_choice, words, Benchmark, Both},
    clock, fields,
    plot::{Panel, Work},
    table::{thousands, timed, Cost},
};

const BUDGET: Duration = Duration::from_millis(120);

/// One kind of work in growing sizes.
struct Series {
    name: &'static str,
    sizes: &'static [usize],
    make: fn(usize) -> Benchmark,
}

/// Series over one quantity.
struct Quantity {
    name: &'static str,
    series: [Series; 2],
}

const ITEMS: &[usize] = &[1, 2, 4, 8, 16, 32, 64, 128, 256];
const BYTES: &[usize] = &[4, 32, 256, 1024, 2048, 4096, 8192, 16384, 32760];

fn quantities() -> [Quantity; 4] {
    [
        Quantity {
            name: "items",
            series: [
                Series { name: "a word many times", sizes: ITEMS, make: many_words },
                Series { name: "a choice of two flags many times", sizes: ITEMS, make: many_choices },
            ],
        },
        Quantity {
            name: "nodes",
            series: [
                Series { name: "a choice of flags", sizes: &[3, 7, 15, 31, 63], make: choice_of },
                Series { name: "fallbacks above a number", sizes: &[1, 2, 4, 8, 16, 32, 64], make: fallbacks_of },
            ],
        },
        Quantity {
            name: "bytes",
            series: [
                Series { name: "one word", sizes: BYTES, make: one_word },
                Series { name: "one value behind `--name=`", sizes: BYTES, make: one_value },
            ],
        },
        Quantity {
            name: "letters of a cluster",
            series: [
                Series { name: "all known", sizes: &[2, 4, 8, 16, 32, 64, 128, 256], make: known_letters },
                Series { name: "the last unknown", sizes: BYTES, make: unknown_letter },
            ],
        },
    ]
}

fn many_words(size: usize) -> Benchmark {
    Benchmark::of(words(), "words", vec![vec![b"part".to_vec(); size]])
}

fn many_choices(size: usize) -> Benchmark {
    let line = (0..size).map(|k| [b"-a".to_vec(), b"-b".to_vec()][k % 2].clone());
    Benchmark::of(many_of_choice(), "choices", vec![line.collect()])
}

/// The last flag of a choice is given; a choice of so many flags has one node less than twice as many.
fn choice_of(nodes: usize) -> Benchmark {
    let flags = nodes.div_ceil(2);
    let (form, parser) = left_choice(flags);
    let last = format!("-{}", letter(flags - 1)).into_bytes();
    Benchmark::of(Both { form, fields: fields! { one = parser } }, "choice", vec![vec![last]])
}

fn fallbacks_of(nodes: usize) -> Benchmark {
    Benchmark::of(fallbacks(nodes), "fallbacks", vec![vec![b"7".to_vec()]])
}

fn one_word(bytes: usize) -> Benchmark {
    let form = "operand".to_string();
    let both = Both { form, fields: fields! { word = positional::<OsString>("WORD") } };
    Benchmark::of(both, "word", vec![vec![vec![b'a'; bytes]]])
}

fn one_value(bytes: usize) -> Benchmark {
    let form = "text(--name)".to_string();
    let both = Both { form, fields: fields! { name = long("name").argument::<OsString>("NAME") } };
    Benchmark::of(both, "value", vec![vec![[b"--name=".to_vec(), vec![b'a'; bytes]].concat()]])
}

fn known_letters(letters: usize) -> Benchmark {
    let form = "count(flag(-v))".to_string();
    let both = Both { form, fields: fields! { v = short('v').req_flag(true).count() } };
    Benchmark::of(both, "known", vec![vec![[b"-".to_vec(), vec![b'v'; letters]].concat()]])
}

fn unknown_letter(letters: usize) -> Benchmark {
    let cluster = [b"-".to_vec(), vec![b'v'; letters - 1], b"x".to_vec()].concat();
    Benchmark::of(counted_or_word(), "unknown", vec![vec![cluster]])
}

/// Prints a table per series and hands back the panels of the plot.
pub fn print() -> Vec<Panel> {
    println!("Nanoseconds. The power is that of the size with which the cost grows from a quarter of the largest size to it.");
    let quantities = quantities();
    let all = quantities.iter().flat_map(|quantity| &quantity.series);
    let benchmarks: Vec<Benchmark> = all.flat_map(|series| series.sizes.iter().map(|size| (series.make)(*size))).collect();
    let mut costs = timed(&benchmarks.iter().collect::<Vec<_>>(), BUDGET).into_iter();
    let mut panels = Vec::new();
    for quantity in quantities {
        println!("\nOver {}:", quantity.name);
        let mut panel = Panel { quantity: quantity.name, works: Vec::new() };
        for series in &quantity.series {
            let costs: Vec<Cost> = costs.by_ref().take(series.sizes.len()).collect();
            print_series(series, &costs);
            panel.works.push(work(series, &costs));
        }
        panels.push(panel);
    }
    print_form_check();
    panels
}

fn print_series(series: &Series, costs: &[Cost]) {
    let cells = |all: Vec<String>| all.join(" | ");
    println!("\n| {} | {} | power |", series.name, cells(series.sizes.iter().map(thousands).collect()));
    println!("|---|{}", "---|".repeat(series.sizes.len() + 1));
    let rows: [(&str, fn(&Cost) -> f64); 3] =
        [("ours", |c| c.ours), ("without clearing", Cost::without_clearing), ("bpaf", |c| c.bpaf.unwrap_or(1.0))];
    for (name, of) in rows {
        let power = power(series.sizes, costs, of);
        println!("| {name} | {} | {power:.2} |", cells(costs.iter().map(|c| thousands(of(c))).collect()));
    }
}

fn power(sizes: &[usize], costs: &[Cost], of: impl Fn(&Cost) -> f64) -> f64 {
    let last = sizes.len() - 1;
    let from = (0..last).rev().find(|k| sizes[*k] * 4 <= sizes[last] + 16).unwrap_or(0);
    let grown = of(&costs[last]) / of(&costs[from]);
    grown.ln() / (sizes[last] as f64 / sizes[from] as f64).ln()
}

fn work(series: &Series, costs: &[Cost]) -> Work {
    let points = |of: fn(&Cost) -> f64| series.sizes.iter().zip(costs).map(|(size, cost)| (*size as f64, of(cost))).collect();
    Work { name: series.name, ours: points(|c| c.ours), bpaf: points(|c| c.bpaf.unwrap_or(1.0)) }
}

/// The form check alone, which bpaf has not: a chain of fallbacks, and choices of the node below with itself.
fn print_form_check() {
    println!(
        "\nThe form check alone, over nodes. The shared form is a flag and then choices of the node below with itself, whose"
    );
    println!("tree has 2^63 leaves at 64 nodes; it is refused with 4 from two nodes on.\n");
    let sizes = [1, 2, 4, 8, 16, 32, 64];
    println!("| | {} |", sizes.map(|n| n.to_string()).join(" | "));
    println!("|---|{}", "---|".repeat(sizes.len()));
    let forms: [(&str, fn(usize) -> Form); 2] = [("fallbacks", cases::chain), ("shared", |n| cases::shared(n, false))];
    for (name, form) in forms {
        let times = sizes.map(|nodes| check_time(&form(nodes).write()));
        println!("| {name} | {} |", times.map(thousands).join(" | "));
    }
}

fn check_time(form: &[u8]) -> f64 {
    let mut check = || {
        black_box(form_check(black_box(form)));
    };
    clock::best(BUDGET, [&mut check])[0]
}
