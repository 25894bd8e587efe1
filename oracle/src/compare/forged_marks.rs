//! Forged marks and field numbers, one by one: each mark about the limits of 29 at several places of a state, in every call that
//! takes a state; each field number about the limits of 28, in every call that is told one. Under forms of one field to sixteen, on
//! lines of no item to 256, against the second reading in forged.rs.

use line::cases::Case;
use line::forged::{records, Call, Lent, State, ANSWER_WORDS, LIST_WORDS};
use line::format::*;
use line::{marks, notation};

use super::calls::{edge_fields, edge_marks, forged_said, ours, split_case, Start};
use super::{lent::sought, Compared};

/// Each form has these: a flag with a name that may be a command word, and an argument; then switches up to so many fields.
fn form(fields: usize) -> Form {
    let text = match fields {
        1 => "choice(choice(count(flag(-v --a)), number(-w)), operand#)".to_string(),
        2 => "switch(-v --a); choice(text(-w), operand)".to_string(),
        _ => {
            let more: String = ('b'..).take(fields - 3).map(|c| format!("; switch(-{c})")).collect();
            format!("switch(-v --a); optional(number(-w)); many(operand){more}")
        }
    };
    notation::parse(&text).expect("the notation")
}

fn lines() -> [Vec<&'static [u8]>; 4] {
    let words = |first: &[&'static [u8]]| [first, &vec![b"a" as &[u8]; 256 - first.len()]].concat();
    [vec![], vec![b"-v", b"-w", b"7", b"a", b"--", b"b"], words(&[b"-v", b"-w", b"7"]), words(&[])]
}

/// A form and a line that was split.
struct Ground {
    form: Form,
    start: Start,
}

impl Ground {
    fn all() -> Vec<Ground> {
        let ground = |fields: usize, line: &[&[u8]]| {
            let form = form(fields);
            let sheet = Sheet { arguments: line.iter().map(|a| a.to_vec()).collect() };
            let (_, start) = split_case(Case { form: form.write(), sheet: sheet.write() }, 0);
            Ground { form, start }
        };
        let of = |fields: usize| lines().map(|line| ground(fields, &line));
        [1, 2, 3, 15, 16].into_iter().flat_map(of).collect()
    }

    fn count(&self) -> usize {
        self.start.3.count as usize
    }

    fn lent<'a>(&'a self, state: &'a State) -> Lent<'a> {
        let (form, sheet, items, _) = &self.start;
        Lent { form, sheet, items, state }
    }

    /// The first node of a kind.
    fn node(&self, kind: u16) -> usize {
        self.form.nodes.iter().position(|n| n.kind == kind).expect("a node of each kind")
    }

    /// Every call on one state, or with another beside it, that is not `eval`.
    fn calls(&self, other: State) -> Vec<Call> {
        let (flag, argument) = (self.node(FLAG), self.node(ARGUMENT));
        let alone = [
            Call::Remove(0, 0),
            Call::SetScope(0, self.count()),
            Call::AvailableFrom(0),
            Call::Get(0),
            Call::Conflict,
            Call::TakePositional(0),
            Call::Matches(flag, 0),
            Call::TakeFlag(flag, 0),
            Call::TakeArg(argument, 0),
            Call::TakeCmd(1),
        ];
        alone.into_iter().chain(on_two(other)).collect()
    }

    /// States with a mark at the first place, the second, the last and behind the last; `remaining` is mended, or as it was.
    fn forged(&self) -> Vec<State> {
        let (count, good) = (self.count(), self.start.3);
        let mut places = vec![0, 1, count.saturating_sub(1), count, 255];
        places.dedup();
        let mut states = Vec::new();
        for place in places.into_iter().filter(|p| *p < 256) {
            for mark in edge_marks(count, self.form.fields.len()) {
                let mut state = good;
                state.marks[place] = mark;
                states.push(state);
                let unused = state.marks[..count].iter().filter(|m| !marks::used(**m)).count() as u32;
                states.push(State { remaining: unused, ..state });
            }
        }
        states
    }
}

/// The calls on two states, with the second one.
fn on_two(other: State) -> [Call; 3] {
    [Call::PickWinner(other), Call::SaveConflicts(other, 0), Call::AdjacentScope(other)]
}

/// Numbers of fields about every limit.
fn told() -> Vec<usize> {
    [(0..=17).collect(), edge_fields(FIELDS)].concat()
}

impl Compared {
    fn one_forged(&mut self, lent: &Lent, call: &Call) {
        self.call(lent, call, &ours(lent, call), &forged_said(lent, call));
    }

    /// A forged state in every call: as the first state, and as the second.
    fn forged_state(&mut self, ground: &Ground, forged: &State) {
        let (good, lent) = (&ground.start.3, ground.lent(forged));
        ground.calls(*good).iter().for_each(|call| self.one_forged(&lent, call));
        on_two(*forged).iter().for_each(|call| self.one_forged(&ground.lent(good), call));
        let (flag, items) = (ground.node(FLAG), records(lent.items));
        [Call::Remove(0, 0), Call::TakeFlag(flag, 0)].iter().for_each(|call| self.lent(&lent, call));
        self.found(&lent, &items, flag, sought(&lent, &items, flag));
        for node in 0..ground.form.nodes.len().min(8) {
            self.cases += 1;
            self.forged_eval(&lent, node, [ANSWER_WORDS, LIST_WORDS]);
        }
    }

    /// A field number in every call that is told one, on a good state and on one at fault.
    fn forged_field(&mut self, ground: &Ground, field: usize) {
        let (flag, argument, good) = (ground.node(FLAG), ground.node(ARGUMENT), ground.start.3);
        let last = ground.count().saturating_sub(1);
        let places = [0, last, ground.count()].map(|place| Call::Remove(place, field));
        let flags = [flag, argument].map(|node| Call::TakeFlag(node, field));
        let others = [Call::TakeArg(argument, field), Call::TakeArg(flag, field), Call::TakePositional(field)];
        for state in [good, State { remaining: good.remaining + 1, ..good }] {
            let lent = ground.lent(&state);
            places.iter().chain(&flags).chain(&others).for_each(|call| self.one_forged(&lent, call));
            places.iter().chain(&flags).for_each(|call| self.lent(&lent, call));
        }
    }

    pub fn forged_marks(&mut self) {
        for ground in Ground::all() {
            ground.forged().iter().for_each(|state| self.forged_state(&ground, state));
            told().into_iter().for_each(|field| self.forged_field(&ground, field));
        }
    }
}
