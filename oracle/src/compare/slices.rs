//! List slices of no words, one too few, just enough and more, under every number that a run or an evaluation ends with: every
//! word of every slice that is left.

use line::cases::{forms_at_fault, Case};
use line::forged::{Lent, ANSWER_WORDS, ITEM_WORDS, LIST_WORDS};
use line::format::*;
use line::notation;

use super::calls::{split_case, Start, Walk};
use super::{split::EMPTY, Compared};

const LISTS: [usize; 4] = [0, LIST_WORDS - 1, LIST_WORDS, 500];

fn case(form: &str, arguments: &[&[u8]]) -> Case {
    let sheet = Sheet { arguments: arguments.iter().map(|a| a.to_vec()).collect() };
    Case { form: notation::parse(form).expect("the notation").write(), sheet: sheet.write() }
}

/// A form or a sheet at fault, for each of 1 to 6.
fn at_fault() -> Vec<(u32, Case)> {
    let good = case("flag(-v)", &[]);
    let with = |(number, form): (u32, Vec<u8>)| (number, Case { form, ..good.clone() });
    let sheets = [(5, Case { sheet: vec![0], ..good.clone() }), (6, case("flag(-v)", &[b"a" as &[u8]; 257]))];
    forms_at_fault().into_iter().map(with).chain(sheets).collect()
}

/// A form of one field and a line, for each number that evaluating the field ends with.
fn evaluated() -> Vec<(u32, Case)> {
    vec![
        (0, case("switch(-v)", &[b"-v"])),
        (20, case("choice(choice(flag(-v), flag(-q)), last(flag(-x)))", &[b"--", b"a"])),
        (21, case("some(operand)", &[])),
        (22, case("text(-w)", &[b"-w"])),
        (23, case("strict", &[b"a"])),
        (24, case("choice(text(-w), non-strict)", &[b"--", b"a"])),
        (25, case("operand#", &[b"a"])),
        (26, case("guard(number(-w), 1..5)", &[b"-w", b"9"])),
    ]
}

/// What only a whole run ends with, for each number.
fn only_run() -> Vec<(u32, Case)> {
    vec![
        (8, case("many(flag(-v))", &[b"-vvv" as &[u8]; 86])),
        (9, case("switch(-v); switch(-b); optional(text(-b))", &[b"-vb", b"x"])),
        (27, case("switch(-v)", &[b"-v", b"-v"])),
    ]
}

/// What `eval` is lent beside the list slice, and the number that it ends with if that is long enough.
struct Lending {
    number: u32,
    start: Start,
    node: usize,
    answers: usize,
}

impl Lending {
    fn new(number: u32, start: Start, node: usize) -> Lending {
        Lending { number, start, node, answers: ANSWER_WORDS }
    }

    fn lent(&self) -> Lent<'_> {
        let (form, sheet, items, state) = &self.start;
        Lent { form, sheet, items, state }
    }
}

/// Lendings that are refused before anything is evaluated: 1 to 7, then 28 to 30.
fn refused() -> Vec<Lending> {
    let faulty = |(number, case): (u32, Case)| Lending::new(number, (case.form, case.sheet, vec![0; ITEM_WORDS], EMPTY), 0);
    let mut all: Vec<Lending> = at_fault().into_iter().map(faulty).collect();
    // the flag is missing, so that an evaluation would show
    let good = |number: u32| Lending::new(number, split_case(case("flag(-v)", &[b"a"]), 0).1, 0);
    let (mut answers, mut short, mut items, mut state) = (good(7), good(7), good(30), good(29));
    answers.answers -= 1;
    short.start.2.pop();
    items.start.2[0] = 9;
    state.start.3.remaining = 0;
    all.extend([answers, short, Lending { node: 1, ..good(28) }, state, items]);
    all
}

/// The number that is left of one by a list slice of so many words: 14 stands right behind 1 to 7.
fn with_list(number: u32, list: usize) -> u32 {
    match number {
        1..=7 => number,
        _ if list < LIST_WORDS => 14,
        _ => number,
    }
}

impl Compared {
    fn ends_with(&mut self, list: usize, ended: u32, number: u32) {
        let input = || format!("a list slice of {list} words, else {number}");
        self.same("number", &input, ended, with_list(number, list));
    }

    fn run_with_lists(&mut self, number: u32, case: &Case, items: usize, answers: usize) {
        for list in LISTS {
            let ran = self.run(case, [items, answers, list]);
            self.ends_with(list, ran.answer.number, number);
        }
    }

    fn refused_with_lists(&mut self, lending: &Lending) {
        for list in LISTS {
            self.cases += 1;
            let ended = self.forged_eval(&lending.lent(), lending.node, [lending.answers, list]);
            self.ends_with(list, ended, lending.number);
        }
    }

    fn evaluated_with_lists(&mut self, number: u32, case: Case) {
        let walk = Walk::of(split_case(case, 0).1);
        let (node, state) = (walk.form.fields[0] as usize, walk.state());
        for list in LISTS {
            let ended = match list < LIST_WORDS {
                true => self.forged_eval(&walk.lent(&state), node, [ANSWER_WORDS, list]),
                false => self.eval(&walk, node, [ANSWER_WORDS, list]).0,
            };
            self.ends_with(list, ended, number);
        }
    }

    /// Every number of a run, then every number of an evaluation, under each length of the list slice.
    pub fn list_slices(&mut self) {
        for (number, case) in at_fault().into_iter().chain(evaluated()).chain(only_run()) {
            self.run_with_lists(number, &case, ITEM_WORDS, ANSWER_WORDS);
        }
        let good = case("flag(-v)", &[]);
        self.run_with_lists(7, &good, ITEM_WORDS - 1, ANSWER_WORDS);
        self.run_with_lists(7, &good, ITEM_WORDS, ANSWER_WORDS - 1);
        refused().iter().for_each(|lending| self.refused_with_lists(lending));
        evaluated().into_iter().for_each(|(number, case)| self.evaluated_with_lists(number, case));
    }
}
