//! Batches: sheets of all sorts for one form, and batches that are known.

use super::commands::{damage_bytes, form};
use super::damaged::damage_sheet_bytes;
use super::dashed::{dashed_form, dashed_line};
use super::limits::longest;
use super::sheets::Line;
use super::tables::limit_offsets;
use super::{damaged, parts, Rng};
use crate::batches::{write, SHEETS};
use crate::format::*;
use crate::notation;

/// The bytes of a form, and of the sheets that are run with it.
#[derive(Clone, Debug, PartialEq, Eq)]
pub struct BatchCase {
    pub form: Vec<u8>,
    pub sheets: Vec<Vec<u8>>,
}

impl BatchCase {
    fn new(form: &str, lines: &[&[&[u8]]]) -> BatchCase {
        let form = notation::parse(form).expect("the notation").write();
        let line = |arguments: &&[&[u8]]| Sheet { arguments: arguments.iter().map(|a| a.to_vec()).collect() }.write();
        BatchCase { form, sheets: lines.iter().map(line).collect() }
    }
}

/// Writes the lines of a form that most sheets are.
type Short = fn(&mut Rng, &Form) -> Sheet;

fn short(rng: &mut Rng, form: &Form) -> Sheet {
    Line::new(rng, form).short()
}

/// A form, one in eight at fault, and sheets of all sorts.
pub fn batched(rng: &mut Rng) -> BatchCase {
    let (form, lines) = form_and_lines(rng);
    BatchCase { form, sheets: sheets(rng, &lines, short) }
}

/// An accepted form that takes most of its sheets, in which much has a dash before it.
pub fn dashed_batch(rng: &mut Rng) -> BatchCase {
    let form = dashed_form(rng);
    BatchCase { form: form.write(), sheets: sheets(rng, &form, dashed_line) }
}

/// Two batches with one form that agree on the sheet of this number, and on no other.
pub fn agreeing(rng: &mut Rng) -> ([BatchCase; 2], usize) {
    let (form, lines) = form_and_lines(rng);
    pair(rng, &form, &lines, short)
}

/// The same of sheets in which much has a dash before it.
pub fn agreeing_dashed(rng: &mut Rng) -> ([BatchCase; 2], usize) {
    let form = dashed_form(rng);
    pair(rng, &form.write(), &form, dashed_line)
}

fn pair(rng: &mut Rng, form: &[u8], lines: &Form, short: Short) -> ([BatchCase; 2], usize) {
    let [first, mut second] = [(); 2].map(|()| {
        let mut sheets = sheets(rng, lines, short);
        sheets.truncate(SHEETS - 1);
        sheets.push(short(rng, lines).write());
        sheets
    });
    let k = rng.below(first.len().min(second.len()));
    let both = first.iter().zip(&mut second);
    both.filter(|(a, b)| a == b).for_each(|(_, b)| b.push(0));
    second[k].clone_from(&first[k]);
    ([first, second].map(|sheets| BatchCase { form: form.to_vec(), sheets }), k)
}

/// The bytes of a form, and the form that the lines are made for.
fn form_and_lines(rng: &mut Rng) -> (Vec<u8>, Form) {
    let lines = if rng.chance(1, 2) { form(rng) } else { parts(rng).0 };
    let form = if rng.chance(1, 8) { damaged(rng).form } else { lines.write() };
    (form, lines)
}

/// Mostly a few; now and then none, as many as there may be, or more.
fn sheets(rng: &mut Rng, lines: &Form, short: Short) -> Vec<Vec<u8>> {
    let count = match rng.below(32) {
        0 | 1 => 0,
        2 | 3 => SHEETS,
        4 | 5 => rng.between(0, SHEETS),
        6 => rng.between(SHEETS + 1, SHEETS + 8),
        7..=10 => rng.between(7, 12),
        _ => rng.between(1, 6),
    };
    let mut sheets = Vec::new();
    for _ in 0..count {
        let next = sheet(rng, lines, &sheets, short);
        sheets.push(next);
    }
    sheets
}

/// No bytes, one of the sheets before it, a damaged one, or a line for the form or for another.
fn sheet(rng: &mut Rng, lines: &Form, before: &[Vec<u8>], short: Short) -> Vec<u8> {
    match rng.below(64) {
        0..=2 => Vec::new(),
        3..=9 if !before.is_empty() => rng.pick(before).clone(),
        10..=15 => {
            let mut sheet = short(rng, lines).write();
            damage_sheet_bytes(rng, &mut sheet);
            sheet
        }
        16 => damaged(rng).sheet,
        17 => Line::new(rng, lines).long().write(),
        18..=25 => Line::new(rng, lines).sparse().write(),
        _ => short(rng, lines).write(),
    }
}

/// A batch in which something is at fault, mostly.
pub fn damaged_batch(rng: &mut Rng, case: &BatchCase) -> Vec<u8> {
    let mut batch = write(&case.sheets);
    damage_bytes(rng, &mut batch, case.sheets.len());
    batch
}

/// A form and a sheet for each number that its run ends with, in the order of the numbers.
pub fn each_number() -> (BatchCase, Vec<u32>) {
    const FORM: &str = "optional(guard(number(-w), 1..5)); switch(-v); switch(-b); optional(text(-b)); flag(-q); some(text(-s)); \
        non-strict; optional(strict)";
    let lines: [(u32, &[&[u8]]); 12] = [
        (0, &[b"-qsx", b"-w3", b"a", b"-s", b"y", b"--", b"b"]),
        (6, &[b"a" as &[u8]; ARGUMENTS + 1]),
        (8, &[b"-vvv" as &[u8]; 86]),
        (9, &[b"-q", b"-vb", b"a"]),
        (20, &[b"a"]),
        (21, &[b"-q"]),
        (22, &[b"-q", b"-w"]),
        (23, &[b"-q", b"-sx", b"a", b"b"]),
        (24, &[b"-q", b"-sx", b"--", b"b"]),
        (25, &[b"-q", b"-w", b"x"]),
        (26, &[b"-q", b"-w", b"9", b"a"]),
        (27, &[b"-qsx", b"a", b"-z"]),
    ];
    let mut case = BatchCase::new(FORM, &lines.map(|(_, line)| line));
    let mut numbers = lines.map(|(number, _)| number).to_vec();
    case.sheets.insert(1, Vec::new());
    numbers.insert(1, 5);
    (case, numbers)
}

/// Batches of no sheet, of one, of a few with one that has no bytes and one twice, and of as many as there may be.
pub fn good_batches() -> Vec<BatchCase> {
    let lines: [&[&[u8]]; 4] = [&[b"-v", b"a"], &[b"b"], &[], &[b"-vx"]];
    let some = |count: usize| BatchCase::new("switch(-v); many(operand)", &lines[..count]);
    let mut few = some(4);
    few.sheets.extend([Vec::new(), few.sheets[0].clone()]);
    // lines of no arguments and sheets of no bytes, so that it stays short
    let in_turn = few.sheets[2..].iter().step_by(2).cycle();
    let most = BatchCase { sheets: in_turn.take(SHEETS).cloned().collect(), ..few.clone() };
    vec![some(0), some(1), some(2), few, most]
}

/// Batches that are refused: of more sheets than there may be, and with offsets about their limits.
pub fn limit_batches() -> Vec<Vec<u8>> {
    let counts = [SHEETS + 1, SHEETS + 2, 64, 255, 256, 256 + SHEETS, usize::from(u16::MAX)];
    let over = counts.map(|count| write(&vec![Vec::new(); count]));
    over.into_iter().chain(limit_offsets(&write(&good_batches()[2].sheets))).collect()
}

/// As many of the longest sheets as there may be, with the longest form.
pub fn largest_batch() -> BatchCase {
    let case = longest().swap_remove(0);
    BatchCase { form: case.form, sheets: vec![case.sheet; SHEETS] }
}
