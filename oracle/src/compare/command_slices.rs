//! The order of what refuses a table's run: every table at fault with every sheet at fault and with a line for each number, over
//! slices of no words, one too few, just enough and more. Every word of every slice that is left.

use line::cases::forms_at_fault;
#[cfg(live)]
use line::cases::TableCase;
use line::commands::{write, Command};
use line::forged::{ANSWER_WORDS, ITEM_WORDS, LIST_WORDS};
use line::format::*;
use line::notation;

#[cfg(live)]
use super::Compared;

const ITEM_SLICES: [usize; 4] = [0, ITEM_WORDS - 1, ITEM_WORDS, 2000];
const ANSWER_SLICES: [usize; 4] = [0, ANSWER_WORDS - 1, ANSWER_WORDS, 9000];
const LIST_SLICES: [usize; 4] = [0, LIST_WORDS - 1, LIST_WORDS, 500];

/// Commands and a line for each number that a run ends with. v is a flag and w an argument in all forms, b both.
const ENDS: [(u32, &str, &str, &[&[u8]]); 11] = [
    (0, "accept", "switch(-v)", &[b"accept", b"-v"]),
    (20, "lack", "choice(choice(flag(-v), flag(-q)), last(flag(-x)))", &[b"lack", b"--", b"a"]),
    (21, "some", "some(operand)", &[b"some"]),
    (22, "key", "text(-w)", &[b"key", b"-w"]),
    (23, "strict", "strict", &[b"strict", b"a"]),
    (24, "free", "choice(text(-w), non-strict)", &[b"free", b"--", b"a"]),
    (25, "number", "operand#", &[b"number", b"a"]),
    (26, "guard", "guard(number(-w), 1..5)", &[b"guard", b"-w", b"9"]),
    (27, "left", "switch(-v)", &[b"left", b"-v", b"-v"]),
    (9, "flag", "switch(-v); switch(-b)", &[b"flag", b"-vb"]),
    (31, "argument", "optional(text(-b))", &[b"arguments", b"-v"]),
];

fn good() -> Vec<Command> {
    let form = |text: &str| notation::parse(text).expect("the notation").write();
    ENDS.iter().map(|(_, name, text, _)| Command::new(&[(LONG, name), (LONG, "also")], form(text))).collect()
}

/// Tables with 0 for the good one, or the number that refuses it: 1 to 4 in the last entry and in the first, 11 in the last.
pub fn tables() -> Vec<(u32, Vec<u8>)> {
    let last = ENDS.len() - 1;
    let mut all = vec![(0, write(&good()))];
    for (number, form) in forms_at_fault() {
        for entry in [0, last] {
            let mut commands = good();
            commands[entry].form = form.clone();
            all.push((number, write(&commands)));
        }
    }
    let mut unnamed = good();
    (unnamed[0].form, unnamed[last].names[1].ty) = (Vec::new(), TEXT);
    all.push((11, write(&unnamed)));
    all
}

/// Sheets, with the number that they give under the good table.
pub fn sheets() -> Vec<(u32, Vec<u8>)> {
    let sheet = |arguments: &[&[u8]]| Sheet { arguments: arguments.iter().map(|a| a.to_vec()).collect() }.write();
    let mut all: Vec<(u32, Vec<u8>)> = ENDS.iter().map(|(number, _, _, line)| (*number, sheet(line))).collect();
    all.extend([(5, vec![0]), (6, sheet(&[b"accept" as &[u8]; 257])), (8, sheet(&[b"-vvv" as &[u8]; 86]))]);
    all
}

/// The number that is given: 11 and 1 to 4 of the table, 6 and 5 of the sheet, 7 and 14 of the slices, then the line's.
pub fn number(table: u32, sheet: u32, [items, answers, list]: [usize; 3]) -> u32 {
    match (table, sheet) {
        (1.., _) => table,
        (_, 5 | 6) => sheet,
        _ if items < ITEM_WORDS || answers < ANSWER_WORDS => 7,
        _ if list < LIST_WORDS => 14,
        _ => sheet,
    }
}

pub fn all_lengths() -> impl Iterator<Item = [usize; 3]> {
    let pairs = ITEM_SLICES.iter().flat_map(|items| ANSWER_SLICES.map(|answers| (*items, answers)));
    pairs.flat_map(|(items, answers)| LIST_SLICES.map(|list| [items, answers, list]))
}

#[cfg(live)]
impl Compared {
    /// Every table, every sheet, every three lengths.
    pub fn command_slices(&mut self) {
        for (by_table, table) in tables() {
            for (by_sheet, sheet) in sheets() {
                let case = TableCase { table: table.clone(), sheet };
                for lengths in all_lengths() {
                    let ended = self.commands(&case, lengths).run.answer.number;
                    let input = || format!("table {by_table}, sheet {by_sheet}, {lengths:?}");
                    self.same("number", &input, ended, number(by_table, by_sheet, lengths));
                }
            }
        }
    }
}
