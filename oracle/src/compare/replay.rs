//! The fixed lists, replayed by the proved code: no Rust of bpaf is needed for them.

use line::forged::{Call, Lent, State, ANSWER_WORDS, ITEM_WORDS, LIST_WORDS};

use super::{calls, run, utf8};
use crate::list_form::{self, bytes, Case};

/// A state by its words: count, remaining, current, scope and marks.
pub fn state_of(words: &[u32]) -> State {
    let word = |k: usize| words.get(k).copied().unwrap_or(0);
    let marks = std::array::from_fn(|k| word(5 + k) as u16);
    State { marks, count: word(0), remaining: word(1), current: word(2), start: word(3), end: word(4) }
}

/// The seven numbers of an answer, and the state that is left.
fn answer(numbers: [u32; 7], s: &State) -> Vec<u8> {
    let state = [s.count, s.remaining, s.current, s.start, s.end];
    bytes(&[&numbers[..], &state, &s.marks.map(u32::from)].concat())
}

/// What the proved code answers: the numbers with the state that is left, and what it writes.
fn ours(case: &Case) -> (Vec<u8>, Vec<u8>) {
    let (form, sheet) = (&case.form[..], &case.sheet[..]);
    // not 0, so that a word that is not written is seen
    let [mut items, mut answers, mut list] = [ITEM_WORDS, ANSWER_WORDS, LIST_WORDS].map(|length| vec![u32::MAX; length]);
    match case.call() {
        "utf8" => (bytes(&utf8::listed(form)), Vec::new()),
        "check" => {
            let (form, sheet) = (proved::form_check(form), proved::sheet_check(sheet));
            (bytes(&[form.number, form.place, sheet.number, sheet.place]), Vec::new())
        }
        "split" => {
            let a = proved::split(form, sheet, &mut items);
            (answer([a.number, a.place, 0, 0, 0, 0, 0], &a.state), bytes(&items))
        }
        "run" => {
            let a = proved::run(form, sheet, &mut items, &mut answers, &mut list);
            (answer([a.number, a.place, a.tries, a.words, 0, 0, 0], &a.state), written(a.number, &answers, &list))
        }
        _ => {
            proved::split(form, sheet, &mut items);
            on_items(case, &items, &mut answers, &mut list)
        }
    }
}

/// What a run or an evaluation writes: the answers, and behind them a list that should be all 0. The fixed lists do not say
/// what is missing with 20.
fn written(number: u32, answers: &[u32], list: &[u32]) -> Vec<u8> {
    let stray = if number == 20 { &[] } else { list };
    bytes(&[answers, stray].concat())
}

/// A call on the items of the sheet.
fn on_items(case: &Case, items: &[u32], answers: &mut [u32], list: &mut [u32]) -> (Vec<u8>, Vec<u8>) {
    let state = state_of(&case.given);
    let lent = Lent { form: &case.form, sheet: &case.sheet, items, state: &state };
    match case.call() {
        "text" => match run::text(&lent, case.told(1)) {
            Ok(text) => (Vec::new(), text.to_vec()),
            Err(r) => (bytes(&[r.number, r.place]), Vec::new()),
        },
        "eval" => {
            let a = proved::eval(&lent, answers, list, case.told(1) as usize);
            (answer([a.number, a.place, a.tries, a.words, 0, 0, 0], &a.state), written(a.number, answers, list))
        }
        name => {
            let said = calls::ours(&lent, &call_of(name, case));
            let a = said.answer;
            // the list has the record of `get` instead of whether there is one
            let found = if name == "get" { 0 } else { a.found };
            (answer([a.number, a.place, 0, 0, found, a.first, a.second], &said.state), bytes(&said.record))
        }
    }
}

/// The call of a case: a field stands behind the place or the node.
pub fn call_of(name: &str, case: &Case) -> Call {
    let (m, n) = (case.told(1) as usize, case.told(2) as usize);
    let other = state_of(&case.second);
    match name {
        "get" => Call::Get(m),
        "remove" => Call::Remove(m, n),
        "pick_winner" => Call::PickWinner(other),
        "save_conflicts" => Call::SaveConflicts(other, m),
        "set_scope" => Call::SetScope(m, n),
        "adjacent_scope" => Call::AdjacentScope(other),
        "adjacently_available_from" => Call::AvailableFrom(m),
        "conflict" => Call::Conflict,
        "take_positional_word" => Call::TakePositional(m),
        "only_once" => Call::OnlyOnce(m),
        "matches_arg" => Call::Matches(m, n),
        "take_flag" => Call::TakeFlag(m, n),
        "take_arg" => Call::TakeArg(m, n),
        "take_cmd" => Call::TakeCmd(m),
        _ => panic!("no such call: {name}"),
    }
}

/// Cases and differences of a list, or none if it is no list.
pub fn replay(list: &[u8]) -> Option<(usize, usize)> {
    let (_, cases) = list_form::read(list)?;
    let same = |case: &&Case| ours(case) == (bytes(&case.answer), case.written.clone());
    Some((cases.len(), cases.len() - cases.iter().filter(same).count()))
}
