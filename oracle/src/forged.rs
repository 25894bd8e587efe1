//! What single calls refuse: 1 to 7 and 14 as far as the call has the input, then 30, 29 and 28. A reading of docs/FORMAT.md apart
//! from the Rattle code, for states and item tables that no split gives.

use crate::format::*;
use crate::marks::{fields_of, mark_good, used};

/// A state as it is handed over. `current` is the place plus 1, or 0 for none.
#[repr(C)]
#[derive(Clone, Copy, Debug, PartialEq, Eq)]
pub struct State {
    pub marks: [u16; 256],
    pub count: u32,
    pub remaining: u32,
    pub current: u32,
    pub start: u32,
    pub end: u32,
}

/// The words of the least item slice, of the least answer slice and of the least list slice.
pub const ITEM_WORDS: usize = 1792;
pub const ANSWER_WORDS: usize = 8240;
pub const LIST_WORDS: usize = 192;

/// 7, then 14: the refusal of slices of these lengths, if one of them is too short.
pub fn too_short(items: usize, answers: usize, list: usize) -> Option<Refusal> {
    if items < ITEM_WORDS || answers < ANSWER_WORDS {
        return Some(Refusal::new(7));
    }
    (list < LIST_WORDS).then_some(Refusal::new(14))
}

/// The whole records of an item slice, up to the last that is not all 0.
pub fn records(items: &[u32]) -> Vec<[u32; 7]> {
    let mut records: Vec<[u32; 7]> = items.chunks_exact(7).map(|r| r.try_into().expect("seven words")).collect();
    while records.last().is_some_and(|r| *r == [0; 7]) {
        records.pop();
    }
    records
}

/// Whether the words behind the last whole record, fewer than seven, are all 0.
fn tail_good(items: &[u32]) -> bool {
    items.chunks_exact(7).remainder().iter().all(|w| *w == 0)
}

/// Whether an item record is one that refusal 30 lets through, over an area of that many bytes.
fn record_good(record: &[u32; 7], area: usize) -> bool {
    let [kind, adjacent, character, name_at, name_length, text_at, text_length] = *record;
    let inside = |at: u32, length: u32| at as u64 + length as u64 <= area as u64;
    let unused = match kind {
        1 => name_at == 0 && name_length == 0,
        2 => character == 0,
        3..=5 => adjacent == 0 && character == 0 && name_at == 0 && name_length == 0,
        _ => return false,
    };
    unused && adjacent <= 1 && inside(name_at, name_length) && inside(text_at, text_length)
}

/// Whether a state is one that refusal 29 lets through, over that many items and that many fields.
pub fn state_good(s: &State, items: usize, fields: usize) -> bool {
    let (count, start, end) = (s.count as usize, s.start as usize, s.end as usize);
    if count != items || count > 256 || start > end || end > count {
        return false;
    }
    let present = s.marks[start..end].iter().filter(|m| !used(**m)).count();
    s.marks[..count].iter().all(|m| mark_good(*m, count, fields))
        && s.marks[count..].iter().all(|m| *m == 0)
        && s.current as usize <= count
        && s.remaining as usize == present
}

/// A call on a state, with what it is told.
#[derive(Clone, Debug)]
pub enum Call {
    /// a place and a field
    Remove(usize, usize),
    PickWinner(State),
    SaveConflicts(State, usize),
    SetScope(usize, usize),
    AdjacentScope(State),
    AvailableFrom(usize),
    Get(usize),
    Conflict,
    /// a field
    TakePositional(usize),
    OnlyOnce(usize),
    /// a node and a place
    Matches(usize, usize),
    /// a node and a field
    TakeFlag(usize, usize),
    TakeArg(usize, usize),
    TakeCmd(usize),
    /// a node, and the lengths of the answer slice and of the list slice
    Eval(usize, usize, usize),
    /// an answer word
    Text(u32),
}

impl Call {
    /// Whether the call has a form; a sheet and an item slice; a state; a second state.
    fn has_form(&self) -> bool {
        use Call::*;
        matches!(self, Matches(..) | TakeFlag(..) | TakeArg(..) | TakeCmd(_) | Eval(..) | Text(_))
    }

    fn has_items(&self) -> bool {
        use Call::*;
        self.has_form() || matches!(self, Get(_) | Conflict | TakePositional(_) | OnlyOnce(_))
    }

    fn has_state(&self) -> bool {
        !matches!(self, Call::OnlyOnce(_) | Call::Text(_))
    }

    fn second(&self) -> Option<&State> {
        match self {
            Call::PickWinner(t) | Call::SaveConflicts(t, _) | Call::AdjacentScope(t) => Some(t),
            _ => None,
        }
    }

    /// 7 and 14, of the slices that the call is lent.
    fn too_short(&self, items: usize) -> Option<Refusal> {
        match *self {
            Call::Eval(_, answers, list) => too_short(items, answers, list),
            _ => too_short(items, ANSWER_WORDS, LIST_WORDS),
        }
    }

    /// The field that the call is told, if it is told one.
    pub fn field(&self) -> Option<usize> {
        match *self {
            Call::Remove(_, field) | Call::TakePositional(field) => Some(field),
            Call::TakeFlag(_, field) | Call::TakeArg(_, field) => Some(field),
            _ => None,
        }
    }

    /// 28: whether what the call names is there, and the field that it is told.
    fn names_what_is_there(&self, form: Option<&Form>, count: usize) -> bool {
        let kind = |node: usize| form.and_then(|f| f.nodes.get(node)).map(|n| n.kind);
        let ty = |record: usize| form.and_then(|f| f.names.get(record)).map(|n| n.ty);
        if self.field().is_some_and(|field| field >= fields_of(form)) {
            return false;
        }
        match *self {
            Call::Remove(place, _) | Call::Get(place) | Call::SaveConflicts(_, place) => place < count,
            Call::OnlyOnce(place) => place < count && u32::try_from(place).is_ok(),
            Call::SetScope(start, end) => start <= end && end <= count,
            Call::AvailableFrom(start) => start <= count,
            Call::Matches(node, place) => matches!(kind(node), Some(FLAG | ARGUMENT)) && place < count,
            Call::TakeFlag(node, _) => kind(node) == Some(FLAG),
            Call::TakeArg(node, _) => kind(node) == Some(ARGUMENT),
            Call::TakeCmd(record) => matches!(ty(record), Some(SHORT | LONG)),
            Call::Eval(node, ..) => kind(node).is_some(),
            Call::Text(word) if word < 256 => (word as usize) < count,
            Call::Text(word) => ty(word as usize - 256) == Some(TEXT),
            Call::PickWinner(_) | Call::AdjacentScope(_) | Call::Conflict | Call::TakePositional(_) => true,
        }
    }
}

/// What a call is lent.
pub struct Lent<'a> {
    pub form: &'a [u8],
    pub sheet: &'a [u8],
    pub items: &'a [u32],
    pub state: &'a State,
}

/// The refusal of a call because of its input or of what it is lent, if any.
pub fn refusal(lent: &Lent, call: &Call) -> Option<Refusal> {
    let form = if call.has_form() { Some(Form::check(lent.form)) } else { None };
    if let Some(Err(r)) = form {
        return Some(r);
    }
    let form = form.and_then(Result::ok);
    let mut count = lent.state.count as usize;
    if call.has_items() {
        let sheet = match Sheet::check(lent.sheet) {
            Ok(sheet) => sheet,
            Err(r) => return Some(r),
        };
        if let Some(r) = call.too_short(lent.items.len()) {
            return Some(r);
        }
        let records = records(lent.items);
        let area = sheet.arguments.iter().map(Vec::len).sum();
        if !tail_good(lent.items) || !records.iter().all(|r| record_good(r, area)) {
            return Some(Refusal::new(30));
        }
        count = records.len();
    }
    let states = call.has_state().then_some(lent.state).into_iter().chain(call.second());
    let fields = fields_of(form.as_ref());
    if states.into_iter().any(|s| !state_good(s, count, fields)) {
        return Some(Refusal::new(29));
    }
    (!call.names_what_is_there(form.as_ref(), count)).then_some(Refusal::new(28))
}

#[cfg(test)]
mod tests {
    use super::*;

    fn state(marks: &[u16]) -> State {
        let mut all = [0; 256];
        all[..marks.len()].copy_from_slice(marks);
        let count = marks.len() as u32;
        let remaining = marks.iter().filter(|m| !used(**m)).count() as u32;
        State { marks: all, count, remaining, current: 0, start: 0, end: count }
    }

    #[test]
    fn a_state_after_a_choice_is_good() {
        assert!(state_good(&state(&[512, 2, 0]), 3, 1));
    }

    #[test]
    fn each_rule_of_29_is_looked_at() {
        let good = state(&[512, 2, 0]);
        assert!(!state_good(&good, 2, 1), "another count");
        assert!(!state_good(&State { start: 2, end: 1, ..good }, 3, 1), "a scope that falls");
        assert!(!state_good(&State { end: 4, ..good }, 3, 1), "a scope that leaves the items");
        assert!(!state_good(&state(&[5]), 1, 1), "a winner that is not there");
        assert!(!state_good(&state(&[513, 2, 0]), 3, 1), "a field that is not there");
        assert!(!state_good(&state(&[1]), 1, 1), "a mark of nothing");
        assert!(!state_good(&State { current: 4, ..good }, 3, 1), "a current place that is not there");
        assert!(!state_good(&State { remaining: 3, ..good }, 3, 1), "too many remaining");
        for late in [1, 2, 510, 511, 512] {
            let mut past = good;
            past.marks[3] = late;
            assert!(!state_good(&past, 3, 1), "a mark past the items");
        }
    }

    #[test]
    fn the_marker_and_a_command_may_stand_anywhere() {
        assert!(state_good(&state(&[510, 511, 510, 511, 0, 512]), 6, 1));
    }

    #[test]
    fn fields_are_those_of_the_form_or_sixteen() {
        let form = crate::notation::parse("flag(-v); flag(-q)").expect("a form").write();
        let sheet = Sheet { arguments: vec![b"-v".to_vec()] }.write();
        let mut items = vec![0; ITEM_WORDS];
        items[..7].copy_from_slice(&[1, 0, 'v' as u32, 0, 0, 0, 2]);
        let number = |mark: u16, call: Call| {
            let lent = Lent { form: &form, sheet: &sheet, items: &items, state: &state(&[mark]) };
            refusal(&lent, &call).map_or(0, |r| r.number)
        };
        // the mark of a field: below two with the form, below sixteen without
        assert_eq!([513, 514].map(|m| number(m, Call::TakeFlag(0, 0))), [0, 29]);
        assert_eq!([527, 528].map(|m| number(m, Call::Remove(0, 0))), [0, 29]);
        assert_eq!([527, 528].map(|m| number(m, Call::Conflict)), [0, 29]);
        // the field that is told, and 29 before 28
        assert_eq!([1, 2, usize::MAX].map(|k| number(0, Call::TakeFlag(0, k))), [0, 28, 28]);
        assert_eq!([1, 2, usize::MAX].map(|k| number(0, Call::TakeArg(0, k))), [28, 28, 28]);
        assert_eq!([15, 16, usize::MAX].map(|k| number(0, Call::Remove(0, k))), [0, 28, 28]);
        assert_eq!([15, 16, usize::MAX].map(|k| number(0, Call::TakePositional(k))), [0, 28, 28]);
        assert_eq!(number(514, Call::TakeFlag(0, 2)), 29);
    }

    #[test]
    fn a_table_ends_at_its_last_record() {
        let mut items = vec![0; ITEM_WORDS];
        items[0] = 4;
        items[14] = 4;
        let records = records(&items);
        assert_eq!(records.len(), 3);
        assert!(!record_good(&records[1], 9), "a hole is a record of unknown kind");
        assert!(record_good(&records[2], 0));
    }

    #[test]
    fn a_table_may_be_longer_than_a_state() {
        let mut items = vec![0; ITEM_WORDS + 7];
        items[ITEM_WORDS] = 4;
        assert_eq!(records(&items).len(), 257);
        items.extend([0; 6]);
        assert_eq!(records(&items).len(), 257);
        assert!(tail_good(&items));
        *items.last_mut().expect("words") = 1;
        assert!(!tail_good(&items), "a word behind the last whole record");
        items.push(0);
        assert!(tail_good(&items));
        assert_eq!(records(&items).len(), 258);
    }

    #[test]
    fn a_short_list_stands_behind_7_and_before_30() {
        let form = crate::notation::parse("flag(-v)").expect("a form").write();
        let sheet = Sheet::default().write();
        let (good, mut forged) = (vec![0; ITEM_WORDS], vec![0; ITEM_WORDS]);
        forged[0] = 9;
        let number = |items: &[u32], answers: usize, list: usize| {
            let lent = Lent { form: &form, sheet: &sheet, items, state: &state(&[]) };
            refusal(&lent, &Call::Eval(0, answers, list)).map(|r| r.number)
        };
        assert_eq!(number(&good, ANSWER_WORDS, LIST_WORDS), None);
        assert_eq!(number(&good, ANSWER_WORDS, LIST_WORDS - 1), Some(14));
        assert_eq!(number(&good, ANSWER_WORDS - 1, LIST_WORDS - 1), Some(7));
        assert_eq!(number(&good[1..], ANSWER_WORDS, 0), Some(7));
        assert_eq!(number(&forged, ANSWER_WORDS, LIST_WORDS - 1), Some(14));
        assert_eq!(number(&forged, ANSWER_WORDS, LIST_WORDS), Some(30));
    }

    #[test]
    fn parts_stay_inside_the_area() {
        assert!(record_good(&[4, 0, 0, 0, 0, 2, 3], 5));
        assert!(!record_good(&[4, 0, 0, 0, 0, 2, 4], 5));
        assert!(!record_good(&[4, 0, 0, 0, 0, u32::MAX, 2], 5));
        assert!(!record_good(&[4, 1, 0, 0, 0, 0, 0], 5), "adjacent is unused in a Word");
        assert!(!record_good(&[1, 2, 0, 0, 0, 0, 0], 5), "adjacent is 0 or 1");
    }
}
