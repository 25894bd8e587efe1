//! The oracle: the real bpaf on forms and sheets, its generator of cases, and the comparison with the proved code.
//!
//! Built without bpaf's source (no `live`), it keeps what needs none of it: the checks of forms and sheets, the lists of
//! those layers, and the comparison of UTF-8 with the standard library.

#[cfg(live)]
mod batch;
mod compare;
#[cfg(live)]
mod equations;
#[cfg(live)]
mod lines;
mod list_form;
mod lists;
#[cfg(live)]
mod program;
#[cfg(live)]
mod script;

use std::io::Write;
use std::process::ExitCode;

const USAGE: &str = "\
oracle compare LAYER [SEED COUNT]  the proved code against the Rust, in this process: utf8, checks, portable, forged,
                                   forged-lent, forged-eval, forged-tables, batches (against single calls, and live
                                   against bpaf too), why (a million places left over, and live against bpaf too),
                                   careful, careful-commands (a million lines each, and live against bpaf too),
                                   careful-batches (as batches), idle (a million forms, and live against bpaf too),
                                   preview (takes, and live against bpaf's on a clone of its state),
                                   short-sheets (all of small alphabets, and live each against bpaf too),
                                   join (a million pairs of forms, and live each on a line against bpaf too), and live:
                                   split, calls, lent, eval, run, commands, missing (a million runs with a list) and marks (a
                                   million runs); the gate's samples have fewer
oracle read FORM [ARGUMENT..]      a command line read under a form: items and values, by the proved code
oracle split FORM [ARGUMENT..]     a command line split into items, by the proved code
oracle utf8 [ARGUMENT..]           each argument's characters, by the proved code
oracle list LAYER SEED COUNT       writes a fixed list of a layer: utf8, check, and live: split, run, text, calls
oracle lists FILE..                make each list again by the command in it and compare
oracle show FILE                   a fixed list as text, a line a case (see README.md)
oracle replay FILE..               fixed lists, by the proved code
live, with bpaf's source:
oracle bench                       form and sheet joined on standard input; prints what bench prints
oracle show                        the same, then item records and the state
oracle line FORM [ARGUMENT..]      a form in the notation of notation.rs on a command line; prints as show
oracle form FORM                   writes the form's bytes
oracle script FORM [ARGUMENT..]    single calls on the state after the split, one a line of standard input
oracle cases SEED COUNT            writes joined cases, each behind its u32 length
oracle batch                       answers such cases from standard input, in one process
oracle probe SEED COUNT            generated cases, every state and value looked at
oracle short ARGUMENTS BYTES       the same for every short line over a small alphabet
oracle calls SEED COUNT            generated single calls, no panic and states that hold together
oracle equations SEED COUNT        cases as equations about the definitions (see oracle/equations)
oracle program FILE [SEED COUNT]   the program bench, run as a process, on known and generated inputs
oracle differences FILE            the table of differences with POSIX and GNU: this project's answers
oracle test                        lines with known answers
";

fn number(words: &[String], at: usize, default: u64) -> u64 {
    words.get(at).map_or(default, |w| w.parse().unwrap_or_else(|_| panic!("not a number: {w}")))
}

fn main() -> ExitCode {
    let words: Vec<String> = std::env::args_os().skip(1).map(|w| w.to_string_lossy().into_owned()).collect();
    let first = words.first().map_or("", String::as_str);
    let good = match first {
        "compare" if words.len() >= 2 => compare(&words),
        "utf8" => compare::show_arguments(),
        "read" if words.len() >= 2 => compare::show_run(&words[1]),
        "split" if words.len() >= 2 => compare::show_split(&words[1]),
        "list" if words.len() == 4 => print_list(&words),
        "show" if words.len() == 2 => show_list(&words[1]),
        "replay" => each_file(&words[1..], replayed),
        "lists" => each_file(&words[1..], same_list),
        _ => live(first, &words),
    };
    if good { ExitCode::SUCCESS } else { ExitCode::FAILURE }
}

/// Whether there is a file and all are good: every one is looked at.
fn each_file(files: &[String], good: fn(&str) -> bool) -> bool {
    !files.is_empty() && files.iter().map(|file| good(file)).fold(true, |a, b| a && b)
}

/// A comparison over no cases shows nothing, and fails.
fn compare(words: &[String]) -> bool {
    let count = words.get(3).map(|_| number(words, 3, 0));
    match compare::compare(&words[1], number(words, 2, 1), count) {
        None => {
            println!("this build has no layer {}", words[1]);
            false
        }
        Some(compared) => {
            let numbers: Vec<String> = compared.numbers.iter().map(|(n, times)| format!("{n}: {times}")).collect();
            if !numbers.is_empty() {
                println!("answered {}", numbers.join(", "));
            }
            let met = compared.goals.iter().map(met).fold(true, |a, b| a && b);
            println!("{}: {} cases, {} differ", words[1], compared.cases, compared.differ);
            count != Some(0) && compared.cases > 0 && compared.differ == 0 && met
        }
    }
}

/// Whether the cases met what they must; every goal is printed.
fn met(goal: &compare::Goal) -> bool {
    let short = if goal.met < goal.least { " TOO FEW" } else { "" };
    println!("{} {}, at least {}{short}", goal.met, goal.what, goal.least);
    goal.met >= goal.least
}

fn print_list(words: &[String]) -> bool {
    match lists::list(&words[1], number(words, 2, 1), number(words, 3, 1) as usize) {
        Some(list) => std::io::stdout().write_all(&list).is_ok(),
        None => {
            println!("this build has no layer {}", words[1]);
            false
        }
    }
}

fn read(file: &str) -> Vec<u8> {
    std::fs::read(file).unwrap_or_else(|e| panic!("{file}: {e}"))
}

/// A list as text: the command that makes it, then a line a case.
fn show_list(file: &str) -> bool {
    let Some((command, cases)) = list_form::read(&read(file)) else {
        println!("{file}: no list");
        return false;
    };
    let lines: String = cases.iter().map(|case| case.show() + "\n").collect();
    std::io::stdout().write_all(format!("# {command}\n{lines}").as_bytes()).is_ok()
}

/// Whether the proved code gives the answers of a list. One that is not run has not passed.
fn replayed(file: &str) -> bool {
    match compare::replay(&read(file)) {
        None => {
            println!("{file}: no list");
            false
        }
        Some((cases, differ)) => {
            println!("{file}: {cases} cases, {differ} differ");
            cases > 0 && differ == 0
        }
    }
}

/// Whether a committed list is the one that its command makes. One that this build cannot make has not passed.
fn same_list(file: &str) -> bool {
    let list = read(file);
    let Some((command, cases)) = list_form::read(&list) else {
        println!("{file}: no list");
        return false;
    };
    let command: Vec<&str> = command.split(' ').collect();
    let ["oracle", "list", layer, seed, count] = command[..] else {
        println!("{file}: no command in it");
        return false;
    };
    let (Ok(seed), Ok(count)) = (seed.parse::<u64>(), count.parse::<usize>()) else {
        println!("{file}: no command in it");
        return false;
    };
    let Some(made) = lists::list(layer, seed, count) else {
        println!("{file}: this build has no layer {layer}");
        return false;
    };
    if made == list {
        println!("{file}: {count} cases, the same");
        return count > 0;
    }
    let made = list_form::read(&made).expect("a list").1;
    let differs = made.iter().zip(&cases).position(|(a, b)| a.show() != b.show());
    println!("{file}: DIFFERS at case {}", differs.map_or("the end".to_string(), |n| (n + 1).to_string()));
    false
}

#[cfg(not(live))]
fn live(first: &str, _words: &[String]) -> bool {
    if !first.is_empty() {
        println!("built without bpaf's source: no `{first}`");
    }
    print!("{USAGE}");
    false
}

#[cfg(live)]
fn live(first: &str, words: &[String]) -> bool {
    batch::quiet_panics();
    match first {
        "bench" => batch::bench(false),
        "show" => batch::bench(true),
        "line" if words.len() >= 2 => batch::line(&words[1]),
        "form" if words.len() == 2 => batch::form(&words[1]),
        "script" if words.len() >= 2 => batch::script(&words[1]),
        "cases" => batch::cases(number(words, 1, 1), number(words, 2, 1000)),
        "batch" => batch::batch(),
        "probe" => batch::probe(number(words, 1, 1), number(words, 2, 500_000)),
        "short" => batch::short(number(words, 1, 2) as usize, number(words, 2, 3) as usize),
        "calls" => batch::calls(number(words, 1, 1), number(words, 2, 200_000)),
        "equations" => {
            equations::print(number(words, 1, 1), number(words, 2, 220) as usize);
            true
        }
        "program" if words.len() >= 2 => program::compare(&words[1], number(words, 2, 1), number(words, 3, 400)),
        "differences" if words.len() == 2 => batch::differences(&words[1]),
        "test" => {
            let tests = lines::all();
            println!("oracle: {} passed, {} failed", tests.passed, tests.failed);
            tests.passed > 0 && tests.failed == 0
        }
        _ => {
            print!("{USAGE}");
            false
        }
    }
}
