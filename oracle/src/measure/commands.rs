//! Tables of commands: what a line of the workshop costs beside the run of its form alone, and clusters under the largest tables.

use std::{hint::black_box, time::Duration};

use line::{
    commands::{self, Command},
    format::*,
    notation,
};

use crate::{
    clock::{self, processor_time},
    ours::Slices,
    table::thousands,
};

/// The longest that any input may take, in milliseconds.
const LIMIT: f64 = 20.0;

const BUDGET: Duration = Duration::from_millis(400);

const WEAR: &str = "optional(guard(number(-l --limit), 1..9999)); switch(-1); switch(-2); switch(-3); switch(-4); switch(-5); \
    switch(-6); operand; many(operand)";
const PAIR: &str = "switch(-f --force); operand; operand";
const LOG: &str = "optional(number(-s --since)); many(operand)";

fn form(text: &str) -> Vec<u8> {
    notation::parse(text).unwrap_or_else(|e| panic!("{text}: {e}")).write()
}

fn sheet(arguments: Vec<Vec<u8>>) -> Vec<u8> {
    Sheet { arguments }.write()
}

fn line_of(words: &str) -> Vec<u8> {
    sheet(words.split_whitespace().map(|word| word.as_bytes().to_vec()).collect())
}

#[inline(always)]
pub fn run(table: &[u8], sheet: &[u8], lent: &mut Slices) -> proved::CommandAnswer {
    proved::run_commands(table, sheet, &mut lent.items, &mut lent.answers, &mut lent.list)
}

const FORMS: [(&str, &str); 3] = [("wear", WEAR), ("pair", PAIR), ("log", LOG)];

/// Lines of the workshop: the number of a form, and what stands behind its name.
const LINES: [(usize, &str); 4] = [(0, "lock"), (0, "-l7 -13 lock chain bolt"), (1, "-f lock chain"), (2, "lock")];

fn table() -> Vec<u8> {
    let entries: Vec<Command> = FORMS.iter().map(|(name, text)| Command::new(&[(LONG, name)], form(text))).collect();
    commands::write(&entries)
}

/// These lines, and lines of as many items as there may be: their names, the table, their sheets.
pub fn accepted_lines() -> Vec<(String, Vec<u8>, Vec<u8>)> {
    let short = LINES.map(|(k, rest)| format!("{} {rest}", FORMS[k].0));
    let short = short.into_iter().map(|words| (format!("`{words}`"), line_of(&words)));
    let repeated = |word: &str| line_of(&format!("log{}", format!(" {word}").repeat(ITEMS - 1)));
    let long = ["lock", "-"].map(|word| (format!("`log` and 255 times `{word}`"), repeated(word)));
    short.chain(long).map(|(name, sheet)| (name, table(), sheet)).collect()
}

fn workshop() {
    let table = table();
    println!("| line | alone | as a command | checking the three forms and the table |\n|---|---|---|---|");
    for (k, rest) in LINES {
        let (name, text) = FORMS[k];
        let alone = form(text);
        let plain = line_of(rest);
        let commanded = line_of(&format!("{name} {rest}"));
        let (mut first, mut second) = (Slices::new(), Slices::new());
        let answer = run(&table, &commanded, &mut second);
        let expected = first.run(&alone, &plain);
        assert_eq!((answer.number, answer.words, answer.entry), (0, expected.words, k as u32 + 1), "{name} {rest}");
        let [a, b, c] = clock::best(
            BUDGET,
            [
                &mut || {
                    black_box(first.run(black_box(&alone), black_box(&plain)));
                },
                &mut || {
                    black_box(run(black_box(&table), black_box(&commanded), &mut second));
                },
                &mut || {
                    black_box(proved::commands_check(black_box(&table)));
                },
            ],
        );
        println!("| `{name} {rest}` | {} | {} | {} |", thousands(a), thousands(b), thousands(c));
    }
}

/// A form with so many short names, from a character on, at one leaf of each kind that is given.
fn lettered(from: u32, count: u32, kinds: &[u16]) -> Vec<u8> {
    let mut area = Vec::new();
    let mut names = Vec::new();
    for code in from..from + count {
        let letter = char::from_u32(code).expect("a character").to_string();
        names.push(Name { ty: SHORT, offset: area.len() as u16, length: letter.len() as u16 });
        area.extend(letter.bytes());
    }
    let leaf = |kind: &u16| Node { kind: *kind, p: 0, q: count as u16, r: u16::from(*kind == FLAG), ..Node::default() };
    let mut nodes: Vec<Node> = kinds.iter().map(leaf).collect();
    let mut fields = Vec::new();
    for k in 0..kinds.len() as u16 {
        if kinds[k as usize] == ARGUMENT {
            fields.push(nodes.len() as u16);
            nodes.push(Node { kind: OPTIONAL, p: k, ..Node::default() });
        } else {
            fields.push(k);
        }
    }
    Form { fields, nodes, names, area }.write()
}

/// 32 forms of 128 names each, all characters different, of flags, of arguments or of both; of the last letters one is a flag's alone.
fn largest(kinds: &[u16], last: u32, size: u32) -> Vec<u8> {
    let entries: Vec<Command> = (0..32)
        .map(|k| {
            let bytes = if k == 31 { lettered(last, size, &[FLAG]) } else { lettered(0x4e00 + 128 * k, 128, kinds) };
            Command::new(&[(LONG, &format!("command{k}"))], bytes)
        })
        .collect();
    commands::write(&entries)
}

/// A command word, then one cluster that fills the sheet with the letter.
fn cluster(letter: char) -> Vec<u8> {
    let word = b"command0".to_vec();
    let room = SHEET_AREA - word.len() - 1;
    let text = letter.to_string().repeat(room / letter.len_utf8());
    sheet(vec![word, [b"-", text.as_bytes()].concat()])
}

fn milliseconds(table: &[u8], sheet: &[u8], number: u32) -> f64 {
    let mut lent = Slices::new();
    let mut best = f64::MAX;
    for _ in 0..5 {
        let began = processor_time();
        let answer = black_box(run(black_box(table), black_box(sheet), &mut lent));
        best = best.min((processor_time() - began).as_secs_f64() * 1e3);
        assert_eq!(answer.number, number, "the answer of a largest table");
    }
    best
}

/// Whether none takes longer than the limit.
fn hostile() -> bool {
    println!("\n| table of 32 forms, 128 names each | cluster | milliseconds |\n|---|---|---|");
    let mut good = true;
    for (what, kinds) in [("flags", &[FLAG][..]), ("arguments", &[ARGUMENT]), ("flags and arguments", &[FLAG, ARGUMENT])] {
        for (last, size, letter, name) in [(33, 94, 'a', "32,759 letters `a`"), (0x400, 128, 'я', "16,379 letters `я`")] {
            let took = milliseconds(&largest(kinds, last, size), &cluster(letter), 8);
            println!("| {what} | {name} | {took:.1} |");
            good &= took < LIMIT;
        }
    }
    if !good {
        println!("over {LIMIT} ms");
    }
    good
}

pub fn print() -> bool {
    workshop();
    hostile()
}
