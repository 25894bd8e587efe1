//! Values from nothing: the repeats whose child may be idle, against the second reading in `line::idle`; and what that means, each repeat
//! evaluated on the empty line by the proved code and, with bpaf at hand, by the real bpaf. One that is named has the value of its child
//! there, once, unless a guard refuses that value; any other has none.

use line::cases::{self, Rng};
use line::forged::{Lent, ANSWER_WORDS, ITEM_WORDS, LIST_WORDS};
use line::format::*;
use line::{idle, notation};
use proved::{code, IdleAnswer};

use super::{difference, smallest, Compared, Difference, Goal};
use crate::lists::hex;
#[cfg(live)]
use bpaf::doc::harness::Held;

/// An evaluation: number, place plus 1 and count of words; the first words, more than an element has; the list of what is missing.
pub type Told = [Vec<u32>; 3];

const NAMES: [&str; 3] = ["number, place and words", "words", "list"];

fn told(number: u32, place: u32, words: &[u32], list: &[u32]) -> Told {
    let padded = |from: &[u32], length: usize| from.iter().copied().chain(std::iter::repeat(0)).take(length).collect();
    [vec![number, place, words.len() as u32], padded(words, 4), padded(list, LIST_WORDS)]
}

/// A node on the empty line, by the proved code.
pub fn called(form: &Form, node: usize) -> Told {
    let (form, sheet) = (form.write(), Sheet::default().write());
    let [mut items, mut answers, mut list] = [ITEM_WORDS, ANSWER_WORDS, LIST_WORDS].map(|length| vec![0; length]);
    let state = proved::split(&form, &sheet, &mut items).state;
    let lent = Lent { form: &form, sheet: &sheet, items: &items, state: &state };
    let ended = proved::eval(&lent, &mut answers, &mut list, node);
    told(ended.number, ended.place, &answers[..ended.words as usize], &list)
}

/// By the real bpaf.
#[cfg(live)]
fn real(form: &Form, node: usize) -> Told {
    let (answer, missing) = Held::split(form, &Sheet::default()).0.eval(form, node);
    told(answer.number, code(answer.place), &answer.words, &missing.concat())
}

/// Who evaluates a node on the empty line.
type Evaluator = (&'static str, fn(&Form, usize) -> Told);

const EVALUATORS: &[Evaluator] = &[
    ("the proved code", called),
    #[cfg(live)]
    ("bpaf", real),
];

/// What a repeat must give, of what its child gives, which may be refused with this number alone.
fn expected(node: &Node, named: bool, child: &Told) -> Result<Told, u32> {
    let refused = if named { 26 } else { 20 };
    let caught = matches!(node.kind, MANY | SOME) && node.r == 1;
    let words = &child[1][..child[0][2].min(2) as usize];
    match (node.kind, child[0][0]) {
        (MANY | SOME, 0) if named => Ok(told(0, 0, &[&[1], words].concat(), &[])),
        (COUNT, 0) if named => Ok(told(0, 0, &[1], &[])),
        (LAST, 0) if named => Ok(child.clone()),
        (_, 26) if named && !caught => Ok(child.clone()),
        (MANY | COUNT, number) if number == refused => Ok(told(0, 0, &[0], &[])),
        (SOME, number) if number == refused => Ok(told(21, 0, &[], &[])),
        (LAST, number) if number == refused => Ok(child.clone()),
        _ => Err(refused),
    }
}

/// What the call must answer.
fn theirs(checked: &Result<Form, Refusal>) -> IdleAnswer {
    match checked {
        Ok(form) => IdleAnswer { number: 0, place: 0, nodes: idle::bits(&idle::repeats(form)) },
        Err(refusal) => IdleAnswer { number: refusal.number, place: code(refusal.place), nodes: 0 },
    }
}

fn words(answer: &IdleAnswer) -> Vec<u32> {
    vec![answer.number, answer.place, answer.nodes as u32, (answer.nodes >> 32) as u32]
}

/// A repeat of an accepted form, and what it gave.
pub struct Repeat<'a> {
    form: &'a Form,
    k: usize,
    named: bool,
    told: Told,
}

impl Repeat<'_> {
    fn node(&self) -> &Node {
        &self.form.nodes[self.k]
    }

    fn child(&self) -> &Node {
        &self.form.nodes[self.node().p as usize]
    }

    /// A repeat of this kind, named or not, that ended so, with this first word.
    fn ended(&self, kinds: &[u16], named: bool, number: u32, first: u32) -> bool {
        self.named == named && kinds.contains(&self.node().kind) && (self.told[0][0], self.told[1][0]) == (number, first)
    }

    /// Which sides of the choice beneath it name a repeat that is over it alone.
    fn sides(&self) -> Option<[bool; 2]> {
        let child = *self.child();
        let over = |side: u16| {
            let mut form = self.form.clone();
            form.nodes[self.k].p = side;
            idle::repeats(&form).contains(&self.k)
        };
        (child.kind == CHOICE).then(|| [over(child.p), over(child.q)])
    }
}

/// The tree of a node by itself: a form of one field, with all names.
fn alone(form: &Form, root: usize) -> Form {
    let mut beneath = vec![false; form.nodes.len()];
    beneath[root] = true;
    // children have lower numbers
    for k in (0..=root).rev().filter(|k| form.nodes[*k].kind >= OPTIONAL) {
        let above = beneath[k];
        form.nodes[k].children().for_each(|child| beneath[child] |= above);
    }
    let number = |k: usize| beneath[..k].iter().filter(|used| **used).count() as u16;
    let moved = |k: usize| {
        let node = form.nodes[k];
        let p = if node.kind >= OPTIONAL { number(node.p as usize) } else { node.p };
        let q = if node.kind == CHOICE { number(node.q as usize) } else { node.q };
        Node { p, q, ..node }
    };
    let nodes = (0..=root).filter(|k| beneath[*k]).map(moved).collect();
    Form { fields: vec![number(root)], nodes, ..form.clone() }
}

/// The trees of a form, each by itself, the small ones first; none where it is one tree and nothing else.
fn smaller(bytes: &Vec<u8>) -> Vec<Vec<u8>> {
    let Ok(form) = Form::check(bytes) else { return Vec::new() };
    let mut all: Vec<Vec<u8>> = (0..form.nodes.len()).map(|k| alone(&form, k).write()).collect();
    all.retain(|small| small.len() < bytes.len());
    all.sort_by_key(Vec::len);
    all
}

fn input(bytes: &[u8]) -> String {
    let text = Form::check(bytes).map_or(String::new(), |form| notation::show(&form) + " ");
    text + &hex(bytes)
}

/// What is counted, and of how many forms one must have it: of repeats, each by itself.
type Fact = (&'static str, u64, fn(&Repeat) -> bool);

const FACTS: [Fact; 24] = [
    ("repeats that are named", 3, |r| r.named),
    ("over a switch", 40, |r| r.named && r.child().kind == FLAG),
    ("over an optional", 20, |r| r.named && r.child().kind == OPTIONAL),
    ("over a fallback", 20, |r| r.named && r.child().kind == FALLBACK),
    ("over a guard", 50, |r| r.named && r.child().kind == GUARD),
    ("over a choice, by its first side alone", 60, |r| r.sides() == Some([true, false])),
    ("over a choice, by its second side alone", 60, |r| r.sides() == Some([false, true])),
    ("over a choice, by both sides", 60, |r| r.sides() == Some([true, true])),
    ("of a node number over 31", 100, |r| r.named && r.k > 31),
    ("`many` and `some` with one element", 6, |r| r.ended(&[MANY, SOME], true, 0, 1)),
    ("`count` that is 1", 30, |r| r.ended(&[COUNT], true, 0, 1)),
    ("`last` with a value", 40, |r| r.named && r.node().kind == LAST && r.told[0][0] == 0),
    ("named and refused with 26", 80, |r| r.named && r.told[0][0] == 26),
    ("`many` with catch and no element, though it is named", 500, |r| r.ended(&[MANY], true, 0, 0)),
    ("`some` with catch and refused with 21, though it is named", 500, |r| r.ended(&[SOME], true, 21, 0)),
    ("repeats that are not named", 4, |r| !r.named),
    ("over a flag", 20, |r| !r.named && r.child().kind == FLAG),
    ("over an argument", 20, |r| !r.named && r.child().kind == ARGUMENT),
    ("over a positional", 20, |r| !r.named && r.child().kind == POSITIONAL),
    ("over a guard of such", 50, |r| !r.named && r.child().kind == GUARD),
    ("over a choice of such", 30, |r| r.sides() == Some([false, false])),
    ("`many` with no element", 20, |r| r.ended(&[MANY], false, 0, 0)),
    ("`some` that is refused with 21", 20, |r| r.ended(&[SOME], false, 21, 0)),
    ("`count` that is 0, and `last` that is refused", 20, |r| r.ended(&[COUNT], false, 0, 0) || r.ended(&[LAST], false, 20, 0)),
];

/// The comparison, and what the generated forms had.
#[derive(Default)]
pub struct Idle {
    pub compared: Compared,
    forms: u64,
    refused: [u64; 4],
    several: u64,
    met: [u64; FACTS.len()],
}

impl Idle {
    /// A form: the call's answer, and every repeat on the empty line. What the call answered.
    pub fn form(&mut self, bytes: &[u8]) -> IdleAnswer {
        self.compared.cases += 1;
        let ours = proved::idle_repeats(bytes);
        self.compared.answered(ours.number);
        let checked = Form::check(bytes);
        if let Err(found) = looked_at(bytes, &checked).map(|repeats| self.seen(&repeats)) {
            let differs = |small: &Vec<u8>| looked_at(small, &Form::check(small)).err();
            let (small, (what, word, theirs)) = smallest((bytes.to_vec(), found), self.compared.tries(), smaller, differs);
            self.compared.same(&what, &|| input(&small), word, theirs);
        }
        ours
    }

    fn generated(&mut self, bytes: &[u8]) {
        let number = self.form(bytes).number;
        self.forms += 1;
        if (1..=4).contains(&number) {
            self.refused[number as usize - 1] += 1;
        }
    }

    fn seen(&mut self, repeats: &[Repeat]) {
        self.several += u64::from(repeats.iter().filter(|r| r.named).count() > 1 && repeats.iter().any(|r| !r.named));
        for repeat in repeats {
            for ((_, _, holds), met) in FACTS.iter().zip(&mut self.met) {
                *met += u64::from(holds(repeat));
            }
        }
    }

    /// The least counts, in the proportion of the forms that were asked for.
    fn goals(&self, count: u64) -> Vec<Goal> {
        let goal = |what: &'static str, met: u64, least: u64| Goal { what, met, least };
        let [first, second, third, fourth] = self.refused;
        let mut goals = vec![
            goal("forms", self.forms, count),
            goal("refused with 1", first, count / 200),
            goal("refused with 2", second, count / 200),
            goal("refused with 3", third, count / 50),
            goal("refused with 4", fourth, count / 200),
            goal("forms with two named repeats or more, and one that is not", self.several, count / 50),
        ];
        let facts = FACTS.iter().zip(self.met);
        goals.extend(facts.map(|((what, of, _), met)| goal(what, met, count / of)));
        goals
    }
}

/// The repeats of a form, and what they gave; or what differs.
fn looked_at<'a>(bytes: &[u8], checked: &'a Result<Form, Refusal>) -> Result<Vec<Repeat<'a>>, Difference> {
    let [ours, theirs] = [proved::idle_repeats(bytes), theirs(checked)].map(|answer| words(&answer));
    difference(&["answer"], "the second reading", &[ours], &[theirs]).map_or(Ok(()), Err)?;
    let Ok(form) = checked else { return Ok(Vec::new()) };
    let named = idle::repeats(form);
    let repeats = (0..form.nodes.len()).filter(|k| idle::is_repeat(&form.nodes[*k]));
    repeats.map(|k| evaluated(form, k, named.contains(&k))).collect()
}

/// A repeat on the empty line, by everyone.
fn evaluated(form: &Form, k: usize, named: bool) -> Result<Repeat<'_>, Difference> {
    let mut last = Told::default();
    for (whose, evaluate) in EVALUATORS {
        let (child, told) = (evaluate(form, form.nodes[k].p as usize), evaluate(form, k));
        let unlike = |number: u32| (format!("number of the child of node {k}, by {whose},"), child[0][0], number);
        let theirs = expected(&form.nodes[k], named, &child).map_err(unlike)?;
        let whose = format!("{whose}, of node {k}");
        difference(&NAMES, &whose, &told, &theirs).map_or(Ok(()), Err)?;
        last = told;
    }
    Ok(Repeat { form, k, named, told: last })
}

/// A form of any of the generators.
fn form(rng: &mut Rng) -> Vec<u8> {
    match rng.below(16) {
        0..=2 => cases::damaged(rng).form,
        3..=6 => cases::well_made(rng).form,
        7 => cases::wanting(rng).form,
        8 => cases::contested(rng).form,
        9 => cases::left_over(rng).form,
        10 => cases::dashed(rng).form,
        _ => cases::idling(rng).write(),
    }
}

/// Forms that are known and at the limits, then generated ones.
pub fn compare(seed: u64, count: u64) -> Compared {
    let mut idle = Idle::default();
    idle.known();
    // what is known does not count
    idle.met = [0; FACTS.len()];
    idle.several = 0;
    let mut rng = Rng::new(seed);
    for _ in 0..count {
        idle.generated(&form(&mut rng));
    }
    let goals = idle.goals(count);
    Compared { goals, ..idle.compared }
}
