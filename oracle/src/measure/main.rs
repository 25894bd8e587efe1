//! What the proved code costs beside the real bpaf, in one process: time and instructions, growth, stack, the slowest inputs.
//! Built by oracle/measure with plain release flags. Everything it prints is Markdown for docs/PERFORMANCE.md.

mod batch;
mod benchmarks;
#[cfg(beside)]
mod beside;
mod careful;
mod clock;
mod commands;
mod counts;
mod growth;
mod others;
mod ours;
mod parsers;
mod plot;
mod slowest;
mod stack;
mod table;
mod values;

use std::process::ExitCode;

const USAGE: &str = "\
measure all PLOT        everything below; the plot is written to the file
measure same            both sides of every benchmark give the same answer
measure lines           time and instructions of every benchmark
measure beside OLD.a    time of every benchmark by another build of the proved code too
measure others          other readers on lines of one form
measure growth PLOT     growth of the cost
measure stack           the deepest use of the stack
measure slowest         inputs that take long; fails if one takes over 20 ms
measure commands        lines of commands, and clusters under the largest tables; fails if one takes over 20 ms
measure batch           six lines in one call; fails if that is not 1.5 times as fast as six calls, clearing left out
measure careful         careful calls beside plain ones; fails if one takes over 3 % more instructions
measure profile [NAME]  the functions that the instructions of a benchmark, or of each, are in
measure count PART      runs every side of `lines`, `batch` or `careful` a few times, for callgrind to count
";

const LINES: &str = "
## Lines beside bpaf

Nanoseconds, both sides in one process with plain release flags: the best of many short batches, the sides in turn. Ours is the
whole entry point `run`. bpaf's is `construct`, each field's `eval` and `items_iter` on parsers written as its users write them.
Before a line is timed, both must give the same values, or the same refusal with its place. `times` is bpaf's time over ours.
Instructions are callgrind's. It counts clearing byte by byte (`rep stosb`, 40,896 bytes less 28 for each item), so clearing is left out there.
";

const OTHERS: &str = "
## Other readers

Nanoseconds on lines of `wear`, read to the same values by glibc's `getopt_long`, lexopt and getopts with what a caller writes
around them; taken in turn with the two sides above. No form is checked there, and a cluster with an unknown letter is an error.
Inside: for getopt_long putting back the order of the arguments, for lexopt copying them; getopts' options are built once.
";

const GROWTH: &str = "
## Growth

![time over items, nodes, bytes and letters](growth.svg)
";

const STACK: &str = "
## Stack

Bytes of stack below the caller that a run writes to, by painting them before it; the most over lines of no argument, 256 words
and 256 flags.
";

const SLOWEST: &str = "
## The slowest inputs

Milliseconds. Families of inputs from small to large; a family ends with the first that takes over a second.
";

const COMMANDS: &str = "
## Commands

Nanoseconds, as for lines: the run of a form alone, the same line behind its command under a table of three, and the check of that
table alone. Then milliseconds of processor time: a command word and one cluster that fills the sheet.
";

const BATCH: &str = "
## Batches

Six calls of `run` over the same slices beside one call of `run_batch` over six parts, in turn in one process. Clearing is the
writing of zeros alone, to the words that either has to clear; instructions are callgrind's.
";

const CAREFUL: &str = "
## The careful run

Instructions of whole calls, clearing and all, by callgrind, which counts it byte by byte: on the accepted lines above, on lines of the
three commands above, and on batches.
";

fn same() -> bool {
    let groups = benchmarks::groups();
    let all: Vec<_> = groups.iter().flat_map(|g| &g.benchmarks).collect();
    all.iter().for_each(|benchmark| benchmark.assert_same());
    println!("{} benchmarks, the same answers", all.len());
    !all.is_empty()
}

fn lines() -> bool {
    println!("{LINES}");
    table::print();
    true
}

#[cfg(beside)]
fn beside() -> bool {
    beside::print()
}

/// Only a build that was told of another has it linked.
#[cfg(not(beside))]
fn beside() -> bool {
    false
}

fn others() -> bool {
    println!("{OTHERS}");
    others::print();
    true
}

fn growth(file: &str) -> bool {
    println!("{GROWTH}");
    let panels = growth::print();
    std::fs::write(file, plot::svg(&panels)).unwrap_or_else(|e| panic!("{file}: {e}"));
    true
}

fn stack() -> bool {
    println!("{STACK}");
    stack::print();
    true
}

fn slowest() -> bool {
    println!("{SLOWEST}");
    slowest::print()
}

fn commands() -> bool {
    println!("{COMMANDS}");
    commands::print()
}

fn batch() -> bool {
    println!("{BATCH}");
    batch::print()
}

fn careful() -> bool {
    println!("{CAREFUL}");
    careful::print()
}

/// What callgrind is to count.
fn count(count: fn()) -> bool {
    count();
    true
}

fn main() -> ExitCode {
    let words: Vec<String> = std::env::args().skip(1).collect();
    let words: Vec<&str> = words.iter().map(String::as_str).collect();
    let good = match words[..] {
        ["all", file] => lines() & others() & growth(file) & stack() & slowest() & commands() & batch() & careful(),
        ["same"] => same(),
        ["lines"] => lines(),
        ["beside", _] => beside(),
        ["others"] => others(),
        ["growth", file] => growth(file),
        ["stack"] => stack(),
        ["slowest"] => slowest(),
        ["commands"] => commands(),
        ["batch"] => batch(),
        ["careful"] => careful(),
        ["profile"] => table::print_profile(None),
        ["profile", name] => table::print_profile(Some(name)),
        ["count", "lines"] => count(table::count),
        ["count", "batch"] => count(batch::count),
        ["count", "careful"] => count(careful::count),
        _ => {
            print!("{USAGE}");
            false
        }
    };
    if good {
        ExitCode::SUCCESS
    } else {
        ExitCode::FAILURE
    }
}
