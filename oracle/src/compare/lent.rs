//! The lent forms: a state changed in place, and a search over item structs, against the calls by value and the real bpaf.

use line::cases::Rng;
use line::forged::{self, records, Call, Lent, State};
use line::format::*;
use proved::Answer;

use super::{calls, calls::some_field, Compared};
use crate::lists::hex;

/// `remove` or `take_flag` on a copy of the state that is lent: the answer, and the state that it left.
fn in_place(lent: &Lent, call: &Call) -> (Answer, State) {
    let mut state = *lent.state;
    let answer = match *call {
        Call::Remove(place, field) => proved::remove_in_place(&mut state, place, field),
        Call::TakeFlag(node, field) => proved::take_flag_in_place(&mut state, lent, node, field),
        _ => unreachable!("not on a lent state"),
    };
    (answer, state)
}

impl Compared {
    /// The calls on a lent state are those by value.
    pub fn lent(&mut self, lent: &Lent, call: &Call) {
        self.cases += 1;
        let by_value = calls::ours(lent, call);
        self.answered(by_value.answer.number);
        let input = || format!("{call:?} on {} {} {:?}", hex(lent.form), hex(lent.sheet), lent.state);
        self.same("in place", &input, in_place(lent, call), (by_value.answer, by_value.state));
    }

    pub fn found(&mut self, lent: &Lent, items: &[[u32; 7]], node: usize, theirs: Answer) {
        self.cases += 1;
        let ours = proved::find(lent, items, node);
        self.answered(ours.number);
        let input = || format!("node {node} on {} {} {items:?} {:?}", hex(lent.form), hex(lent.sheet), lent.state);
        self.same("find", &input, ours, theirs);
    }
}

/// Forged states, forms, sheets and items: in place as by value; the search is refused as `matches_arg` at place 0 would be,
/// but for 7, since a slice of structs may have any length, and for the place itself.
pub fn compare_forged(seed: u64, count: u64) -> Compared {
    let mut compared = Compared::default();
    let mut rng = Rng::new(seed);
    while compared.cases < count {
        let forgery = calls::Forgery::new(&mut rng);
        let lent = forgery.lent();
        let place = rng.below(lent.state.count.min(300) as usize + 2);
        compared.lent(&lent, &Call::Remove(place, some_field(&mut rng, FIELDS)));
        let node = rng.below(forgery.nodes + 2);
        compared.lent(&lent, &Call::TakeFlag(node, some_field(&mut rng, forgery.fields)));
        let (mut items, node) = (records(lent.items), rng.below(forgery.nodes + 2));
        items.resize(items.len() + rng.below(2) * rng.below(4), [0; 7]);
        let theirs = sought(&lent, &items, node);
        compared.found(&lent, &items, node, theirs);
    }
    compared
}

/// What the search must answer over item structs, of which any number may stand behind the last that is not all 0.
pub fn sought(lent: &Lent, items: &[[u32; 7]], node: usize) -> Answer {
    let mut words = items.concat();
    words.resize(words.len().max(forged::ITEM_WORDS), 0);
    let whole = Lent { items: &words, ..*lent };
    let refused = forged::refusal(&whole, &Call::Matches(node, 0)).filter(|r| r.number != 28 || !named(&whole, node));
    match refused {
        Some(r) => Answer::from(r),
        None => by_number(&whole, records(&words).len(), node),
    }
}

/// Whether a node of a form is a flag or an argument.
fn named(lent: &Lent, node: usize) -> bool {
    Form::check(lent.form).is_ok_and(|f| f.nodes.get(node).is_some_and(|n| n.kind <= ARGUMENT))
}

/// The first present place in scope that `get` gives and `matches_arg` accepts.
fn by_number(lent: &Lent, count: usize, node: usize) -> Answer {
    let yes = |call: Call| calls::ours(lent, &call).answer.found == 1;
    match (0..count).find(|i| yes(Call::Get(*i)) && yes(Call::Matches(node, *i))) {
        Some(place) => Answer { found: 1, first: place as u32, ..Answer::default() },
        None => Answer::default(),
    }
}

/// States of the real bpaf on their way through random calls: its own `get` and `matches_arg` find the place.
#[cfg(live)]
pub fn compare(seed: u64, count: u64) -> Compared {
    let mut compared = Compared::default();
    let mut rng = Rng::new(seed);
    while compared.cases < count {
        let mut walk = calls::Walk::new(&mut rng);
        for _ in 0..8 {
            walk.step(&mut rng);
            let given = walk.state();
            let lent = walk.lent(&given);
            let items = records(&walk.items);
            let node = rng.below(walk.form.nodes.len());
            if !items.is_empty() {
                compared.lent(&lent, &Call::Remove(rng.below(items.len()), some_field(&mut rng, FIELDS)));
            }
            if walk.form.nodes[node].kind == FLAG {
                compared.lent(&lent, &Call::TakeFlag(node, some_field(&mut rng, walk.form.fields.len())));
            }
            if walk.form.nodes[node].kind <= ARGUMENT {
                let place = walk.first_match(node);
                let theirs = place.map_or(Answer::default(), |p| Answer { found: 1, first: p as u32, ..Answer::default() });
                compared.found(&lent, &items, node, theirs);
            }
        }
    }
    compared
}
