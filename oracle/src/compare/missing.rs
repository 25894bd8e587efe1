//! What is missing: the list that a run or an evaluation leaves with refusal 20, against bpaf's own `MissingItem`s. Forms that ask
//! for much on lines that give little, nodes in narrowed scopes, the lines whose lists are known, and list slices of all lengths.

use bpaf::doc::harness::Run;
use line::forged::{ANSWER_WORDS, LIST_WORDS};
use line::{cases, cases::Rng, format::*, marks::beneath};

use super::calls::{self, Walk};
use super::{run::LEAST, Compared, Goal};
use crate::lines;

/// What the lists that were compared had.
#[derive(Default)]
struct Seen {
    runs: u64,
    listed: u64,
    longer: u64,
    crossed: u64,
    narrowed: u64,
}

impl Seen {
    fn run(&mut self, form: &Form, ran: &Run) {
        self.runs += 1;
        if ran.answer.number == 20 {
            self.listed += 1;
            self.longer += u64::from(ran.missing.len() >= 2);
            self.crossed += u64::from(crossed(form, ran));
        }
    }

    /// The least counts, in the proportion of the runs that were asked for.
    fn goals(&self, count: u64) -> Vec<Goal> {
        let goal = |what: &'static str, met: u64, least: u64| Goal { what, met, least };
        vec![
            goal("runs", self.runs, count),
            goal("runs with a list", self.listed, count),
            goal("lists of two entries or more", self.longer, count / 100),
            goal("lists of a choice with 24 and then 20", self.crossed, count / 1000),
            goal("evaluations with a list in a narrowed scope", self.narrowed, count / 10),
        ]
    }
}

/// Whether an entry of the list is of the second side of a choice whose first side was refused with 24.
fn crossed(form: &Form, ran: &Run) -> bool {
    let leaves: Vec<usize> = ran.missing.iter().map(|entry| entry[0] as usize - 1).collect();
    ran.crossed.iter().any(|k| leaves.iter().any(|leaf| beneath(form, form.nodes[*k].q as usize, *leaf)))
}

impl Compared {
    /// Lines whose lists are known: the real bpaf's, and the proved code's.
    fn known_lists(&mut self) {
        for (form, sheet, want) in lines::lists() {
            let case = cases::Case { form: form.write(), sheet: sheet.write() };
            let ran = self.run(&case, LEAST);
            let input = || format!("{} on {:?}", line::notation::show(&form), sheet.arguments);
            self.same("known list", &input, want, ran.missing);
        }
    }

    /// A few nodes in one part of a line, after a few calls; how many of them had a list there.
    fn narrowed(&mut self, rng: &mut Rng) -> u64 {
        let (ended, start) = calls::split_case(cases::wanting(rng), 0);
        let count = start.3.count as usize;
        if ended != 0 || count == 0 {
            return 0;
        }
        let mut walk = Walk::of(start);
        (0..rng.below(3)).for_each(|_| walk.step(rng));
        let (from, to) = part(rng, count);
        walk.set_scope(from..to);
        let scope = [from as u32, to as u32];
        let mut listed = 0;
        for _ in 0..4 {
            let (number, missing) = self.eval(&walk, some_node(rng, &walk.form), [ANSWER_WORDS, LIST_WORDS]);
            let input = || format!("{missing:?} in {scope:?}");
            self.same("scope", &input, missing.iter().all(|entry| entry[1..] == scope), true);
            listed += u64::from(number == 20);
        }
        listed
    }
}

/// A scope that is not that of the whole line.
fn part(rng: &mut Rng, count: usize) -> (usize, usize) {
    loop {
        let (a, b) = (rng.below(count + 1), rng.below(count + 1));
        if (a.min(b), a.max(b)) != (0, count) {
            return (a.min(b), a.max(b));
        }
    }
}

/// Any node, a choice if one of three is.
fn some_node(rng: &mut Rng, form: &Form) -> usize {
    let any: Vec<usize> = (0..3).map(|_| rng.below(form.nodes.len())).collect();
    *any.iter().find(|k| form.nodes[**k].kind == CHOICE).unwrap_or(&any[0])
}

/// Runs until as many have a list as are asked for, then nodes in narrowed scopes, a tenth as many.
pub fn compare(seed: u64, count: u64) -> Compared {
    let (mut compared, mut seen) = (Compared::default(), Seen::default());
    let mut rng = Rng::new(seed);
    compared.known_lists();
    compared.list_slices();
    // a generator that makes no lists does not run for ever
    while seen.listed < count && seen.runs < 20 * count {
        let case = cases::wanting(&mut rng);
        let list = LIST_WORDS + if rng.chance(1, 8) { rng.below(40) } else { 0 };
        let ran = compared.run(&case, [LEAST[0], LEAST[1], list]);
        seen.run(&Form::check(&case.form).expect("an accepted form"), &ran);
    }
    let mut tried = 0;
    while seen.narrowed < count / 10 && tried < 10 * count {
        seen.narrowed += compared.narrowed(&mut rng);
        tried += 1;
    }
    compared.goals = seen.goals(count);
    compared
}
