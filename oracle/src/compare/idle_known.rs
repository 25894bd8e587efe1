//! Forms whose named repeats are known, with what each repeat gives on the empty line; forms at the limits, and every form at fault.

use line::cases::{self, forms_at_fault};
use line::format::*;
use line::idle::bits;

use super::idle::{called, Idle};
use super::why_known::parsed;

/// A form, its named repeats, and what a node gives: number and words.
type Known = (&'static str, &'static [usize], usize, (u32, &'static [u32]));

/// Each node that may be idle and each that may not, beneath each repeat.
const EACH: [Known; 34] = [
    ("many(switch(-v))", &[1], 1, (0, &[1, 0])),
    ("some(switch(-v))", &[1], 1, (0, &[1, 0])),
    ("count(switch(-v))", &[1], 1, (0, &[1])),
    ("last(switch(-v))", &[1], 1, (0, &[0])),
    ("many(flag(-v))", &[], 1, (0, &[0])),
    ("some(flag(-v))", &[], 1, (21, &[])),
    ("some!(flag(-v))", &[], 1, (21, &[])),
    ("count(flag(-v))", &[], 1, (0, &[0])),
    ("last(flag(-v))", &[], 1, (20, &[])),
    ("many(text(-w))", &[], 1, (0, &[0])),
    ("count(number=(-w))", &[], 1, (0, &[0])),
    ("many!(operand#)", &[], 1, (0, &[0])),
    ("last(strict)", &[], 1, (20, &[])),
    ("some(non-strict)", &[], 1, (21, &[])),
    ("many(optional(operand))", &[2], 2, (0, &[1, 0])),
    ("last(optional!(flag(-v)))", &[2], 2, (0, &[0])),
    ("many(fallback(operand#, 7))", &[2], 2, (0, &[1, 7])),
    ("count(fallback(text(-w), \"x\"))", &[2], 2, (0, &[1])),
    ("last(fallback(flag(-v), yes))", &[2], 2, (0, &[1])),
    // a guard as its child, whether it lets the value through or not
    ("many(guard(operand#, 1..5))", &[], 2, (0, &[0])),
    ("last(guard(operand#, 1..5))", &[], 2, (20, &[])),
    ("many(guard(fallback(operand#, 3), 1..5))", &[3], 3, (0, &[1, 3])),
    ("many(guard(fallback(operand#, 9), 1..5))", &[3], 3, (26, &[])),
    ("many!(guard(fallback(operand#, 9), 1..5))", &[3], 3, (0, &[0])),
    ("some(guard(fallback(operand#, 9), 1..5))", &[3], 3, (26, &[])),
    ("some!(guard(fallback(operand#, 9), 1..5))", &[3], 3, (21, &[])),
    ("count(guard(fallback(operand#, 9), 1..5))", &[3], 3, (26, &[])),
    ("last(guard(fallback(operand#, 9), 1..5))", &[3], 3, (26, &[])),
    // a fallback outside its guard
    ("many(fallback(guard(operand#, 1..5), 9))", &[3], 3, (0, &[1, 9])),
    // either side of a choice
    ("many(choice(flag(-v), flag(-q)))", &[], 3, (0, &[0])),
    ("many(choice(switch(-v), flag(-q)))", &[3], 3, (0, &[1, 0])),
    ("many(choice(flag(-v), switch(-q)))", &[3], 3, (0, &[1, 0])),
    ("count(choice(guard(fallback(number(-w), 9), 1..5), operand#))", &[5], 5, (26, &[])),
    ("count(choice(guard(fallback(number(-w), 9), 1..5), fallback(operand#, 3)))", &[6], 6, (0, &[1])),
];

/// Where a repeat may stand, and several of them.
const PLACES: [Known; 8] = [
    ("optional(many(flag(-v)))", &[], 2, (0, &[1, 0])),
    ("optional(many(switch(-v)))", &[1], 2, (0, &[1, 1, 0])),
    ("fallback(count(operand), 3)", &[], 2, (0, &[0])),
    ("guard(count(switch(-v)), 2..5)", &[1], 2, (26, &[])),
    ("choice(some(flag(-v)), many(switch(-q)))", &[3], 4, (0, &[1, 0])),
    ("switch(-v); optional(operand); fallback(number(-w), 7)", &[], 0, (0, &[0])),
    ("many(switch(-v)); many(operand); count(optional(text(-w))); last(fallback(number(-l), 7))", &[1, 6, 9], 6, (0, &[1])),
    ("count(choice(flag(-v), choice(choice(flag(-x), switch(-q)), flag(-b))))", &[7], 7, (0, &[1])),
];

/// A repeat as the last of so many nodes, above a chain of fallbacks or of guards.
fn chain(nodes: usize, kind: u16) -> Form {
    let link = |k: usize| Node { kind, p: k as u16 - 1, lo: 0, hi: if kind == GUARD { 9 } else { 0 }, ..Node::default() };
    let mut form = Form { fields: vec![nodes as u16 - 1], ..Form::default() };
    form.nodes.push(Node { kind: POSITIONAL, r: 2, ..Node::default() });
    form.nodes.extend((1..nodes - 1).map(link));
    form.nodes.push(Node { kind: MANY, p: nodes as u16 - 2, ..Node::default() });
    form
}

/// Choices of as many repeats over a switch as there may be; of every other one with `flags` it is a flag.
fn choices(flags: bool) -> (String, Vec<usize>) {
    let leaf = |k: usize| if flags && k % 2 == 1 { "flag" } else { "switch" };
    let (mut text, mut named) = ("many(switch(-v))".to_string(), vec![1]);
    for k in 1..21 {
        text = format!("choice({text}, many({}(-v)))", leaf(k));
        // two nodes a repeat, and a choice behind each but the first
        named.extend((leaf(k) == "switch").then_some(3 * k));
    }
    (text, named)
}

impl Idle {
    fn known_form(&mut self, form: &Form, named: &[usize]) {
        let answer = self.form(&form.write());
        let input = || line::notation::show(form);
        self.compared.same("known form", &input, (answer.number, answer.place, answer.nodes), (0, 0, bits(named)));
    }

    pub fn known(&mut self) {
        for (text, named, node, want) in EACH.iter().chain(&PLACES) {
            let form = parsed(text);
            self.known_form(&form, named);
            let [ended, words, _] = called(&form, *node);
            let given = (ended[0], &words[..ended[2] as usize]);
            self.compared.same("known value", &|| text.to_string(), given, *want);
        }
        for nodes in 3..=NODES {
            self.known_form(&chain(nodes, FALLBACK), &[nodes - 1]);
            self.known_form(&chain(nodes, GUARD), &[]);
        }
        for (text, named) in [choices(false), choices(true)] {
            self.known_form(&parsed(&text), &named);
        }
        for (number, form) in forms_at_fault() {
            let answer = self.form(&form);
            self.compared.same("number", &|| format!("a form with {number}"), answer.number, number);
        }
        let mut forms: Vec<Vec<u8>> = cases::limits().into_iter().map(|case| case.form).collect();
        forms.sort_unstable();
        forms.dedup();
        for form in &forms {
            self.form(form);
        }
    }
}
