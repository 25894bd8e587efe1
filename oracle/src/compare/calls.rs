//! Single calls: the real methods on the same states, and forged states and tables against the second reading in forged.rs.

use line::cases::{self, Rng};
use line::forged::{self, Call, Lent, State};
use line::format::*;
use line::marks;
use proved::{Answer, StateAnswer};

use super::Compared;
use crate::lists::hex;
#[cfg(live)]
use super::{split::raw, Goal};
#[cfg(live)]
use bpaf::doc::harness::{self, Held};
#[cfg(live)]
use proved::{code, Refused};

/// What a call said: its answer, the state it left, and the record of `get`.
#[derive(Clone, Debug, PartialEq, Eq)]
pub struct Said {
    pub answer: Answer,
    pub state: State,
    pub record: [u32; 7],
}

impl Said {
    pub fn new(answer: Answer, state: State) -> Said {
        Said { answer, state, record: [0; 7] }
    }
}

/// One call of the proved code.
pub fn ours(lent: &Lent, call: &Call) -> Said {
    let s = *lent.state;
    let read = |answer: Answer| Said::new(answer, s);
    let changed = |a: StateAnswer| Said::new(a.answer, a.state);
    match *call {
        Call::Remove(place, field) => changed(proved::remove(s, place, field)),
        Call::PickWinner(t) => read(proved::pick_winner(s, t)),
        Call::SaveConflicts(t, winner) => changed(proved::save_conflicts(s, t, winner)),
        Call::SetScope(from, to) => changed(proved::set_scope(s, from, to)),
        Call::AdjacentScope(t) => read(proved::adjacent_scope(s, t)),
        Call::AvailableFrom(from) => read(proved::adjacently_available_from(s, from)),
        Call::Get(place) => {
            let got = proved::get(lent, place);
            let found = u32::from(got.item != [0; 7]);
            let answer = Answer { number: got.number, place: got.place, found, ..Answer::default() };
            Said { answer, state: s, record: got.item }
        }
        Call::Conflict => read(proved::conflict(lent)),
        Call::TakePositional(field) => changed(proved::take_positional_word(lent, field)),
        Call::OnlyOnce(place) => read(proved::only_once(lent, place)),
        Call::Matches(node, place) => read(proved::matches_arg(lent, node, place)),
        Call::TakeFlag(node, field) => changed(proved::take_flag(lent, node, field)),
        Call::TakeArg(node, field) => changed(proved::take_arg(lent, node, field)),
        Call::TakeCmd(record) => changed(proved::take_cmd(lent, record)),
        Call::Eval(..) | Call::Text(_) => unreachable!("not among the calls on used places"),
    }
}

fn yes(found: bool) -> Answer {
    Answer { found: u32::from(found), ..Answer::default() }
}

#[cfg(live)]
fn pair(first: usize, second: usize) -> Answer {
    Answer { first: first as u32, second: second as u32, ..yes(true) }
}

/// A call that only changes the state.
#[cfg(live)]
fn change(held: &mut Held, second: &Held, call: &Call) -> Answer {
    match *call {
        Call::Remove(place, field) => held.remove(place, field),
        Call::SaveConflicts(_, winner) => held.save_conflicts(second, winner),
        Call::SetScope(from, to) => held.set_scope(from..to),
        _ => unreachable!("a call that says something"),
    }
    yes(true)
}

/// One call of the real bpaf. `second` is the other state of a call on two.
#[cfg(live)]
fn theirs(held: &mut Held, second: &Held, form: &Form, records: &[[u32; 7]], call: &Call) -> Said {
    let mut record = [0; 7];
    let answer = match *call {
        Call::Remove(..) | Call::SaveConflicts(..) | Call::SetScope(..) => change(held, second, call),
        Call::PickWinner(_) => {
            let (first, place) = held.pick_winner(second);
            Answer { first: code(place), ..yes(first) }
        }
        Call::AdjacentScope(_) => held.adjacent_scope(second).map_or(yes(false), |s| pair(s.start, s.end)),
        Call::AvailableFrom(from) => {
            let scope = held.adjacently_available_from(from);
            pair(scope.start, scope.end)
        }
        Call::Get(place) => {
            let found = held.get(place);
            if found {
                record = records[place];
            }
            yes(found)
        }
        Call::Conflict => held.conflict().map_or(yes(false), |(place, winner)| pair(place, winner)),
        Call::TakePositional(field) => {
            let took = held.take_positional_word(field);
            took.map_or_else(Answer::from, |(place, strict)| pair(place, usize::from(strict)))
        }
        Call::OnlyOnce(place) => held.only_once(place).map_or(yes(false), |p| pair(p, 0)),
        Call::Matches(node, place) => yes(held.matches_arg(form, node, place).expect("a place that is there")),
        Call::TakeFlag(node, field) => yes(held.take_flag(form, node, field)),
        Call::TakeArg(node, field) => {
            let took = held.take_arg(form, node, field);
            took.map_or_else(Answer::from, |v| v.map_or(yes(false), |p| pair(p, 0)))
        }
        Call::TakeCmd(record) => yes(held.take_cmd(form, record)),
        Call::Eval(..) | Call::Text(_) => unreachable!("not among the calls on used places"),
    };
    Said { answer, state: raw(held), record }
}

/// Field numbers about the last of so many fields and of all, and such that 512 and the number are 2^16, 2^32 or 2^64.
pub fn edge_fields(fields: usize) -> Vec<usize> {
    let wrapped = [(1 << 16) - 512, (1 << 32) - 512, usize::MAX - 511];
    [&[0, fields - 1, fields, fields + 1, 15, 16, 17, 1 << 16, 1 << 32, usize::MAX], &wrapped[..]].concat()
}

/// A field number: mostly one of so many, else one of the edges.
pub fn some_field(rng: &mut Rng, fields: usize) -> usize {
    if rng.chance(4, 5) { rng.below(fields) } else { *rng.pick(&edge_fields(fields)) }
}

/// Any mark of a used place, under so many fields.
pub fn some_use(rng: &mut Rng, fields: usize) -> u16 {
    match rng.below(8) {
        0 => marks::MARKER,
        1 => marks::COMMAND,
        _ => marks::mark_of(rng.below(fields)),
    }
}

/// A call with numbers drawn from what there is, or a little beyond it. The calls without a form are told fields of any form.
fn random_call(rng: &mut Rng, form: &Form, count: usize, second: State, beyond: usize) -> Call {
    let place = rng.below(count + beyond);
    let node = rng.below(form.nodes.len() + beyond);
    let (field, any) = (some_field(rng, form.fields.len()), some_field(rng, FIELDS));
    match rng.below(16) {
        0 | 1 => Call::Remove(place, any),
        2 => Call::PickWinner(second),
        3 | 4 => Call::SaveConflicts(second, place),
        5 => Call::SetScope(place, place + rng.below(count + 1 - place.min(count)) + rng.below(beyond + 1)),
        6 => Call::AdjacentScope(second),
        7 => Call::AvailableFrom(place + rng.below(2)),
        8 => Call::Get(place),
        9 => Call::Conflict,
        10 => Call::TakePositional(any),
        11 => Call::OnlyOnce(place),
        12 => Call::Matches(node, place),
        13 => Call::TakeFlag(node, field),
        14 => Call::TakeArg(node, field),
        _ => Call::TakeCmd(rng.below(form.names.len() + beyond)),
    }
}

/// One of the four takes: mostly one that the form has a node or a name for, else with any number, or a little beyond.
pub fn random_take(rng: &mut Rng, form: &Form, beyond: usize) -> Call {
    let (field, any) = (some_field(rng, form.fields.len()), some_field(rng, FIELDS));
    let mut takes = vec![Call::TakePositional(any)];
    for (k, node) in form.nodes.iter().enumerate() {
        match node.kind {
            FLAG => takes.push(Call::TakeFlag(k, field)),
            ARGUMENT => takes.extend([Call::TakeArg(k, field), Call::TakeArg(k, field)]),
            _ => {}
        }
    }
    let commands = (0..form.names.len()).filter(|k| form.names[*k].ty <= LONG);
    takes.extend(commands.map(Call::TakeCmd));
    if rng.chance(7, 8) {
        return rng.pick(&takes).clone();
    }
    let node = rng.below(form.nodes.len() + beyond);
    match rng.below(3) {
        0 => Call::TakeFlag(node, field),
        1 => Call::TakeArg(node, field),
        _ => Call::TakeCmd(rng.below(form.names.len() + beyond)),
    }
}

/// The bytes of a form and of a sheet, its items and the state after the split.
pub type Start = (Vec<u8>, Vec<u8>, Vec<u32>, State);

/// The line with a name of the form before it, if the form has one: a word that `take_cmd` takes, if it is no option.
fn with_command(rng: &mut Rng, case: cases::Case) -> cases::Case {
    let form = Form::check(&case.form).expect("a well-made form");
    let mut sheet = Sheet::check(&case.sheet).expect("a well-made sheet");
    let names: Vec<usize> = (0..form.names.len()).filter(|k| form.names[*k].ty <= LONG).collect();
    if names.is_empty() || sheet.arguments.len() == ARGUMENTS {
        return case;
    }
    sheet.arguments.insert(0, form.name(*rng.pick(&names)).to_vec());
    cases::Case { sheet: sheet.write(), ..case }
}

/// A well-made case of at most 40 arguments, split by the proved code; one in four begins with a command word.
pub fn start(rng: &mut Rng, spare: usize) -> Start {
    loop {
        let mut case = cases::well_made(rng);
        if rng.chance(1, 4) {
            case = with_command(rng, case);
        }
        let small = Sheet::check(&case.sheet).is_ok_and(|s| s.arguments.len() <= 40);
        let (ended, started) = split_case(case, spare);
        if small && ended == 0 {
            return started;
        }
    }
}

/// A case split by the proved code into a slice with so many words to spare, and the number that this ended with.
pub fn split_case(case: cases::Case, spare: usize) -> (u32, Start) {
    let mut items = vec![0; forged::ITEM_WORDS + spare];
    let ended = proved::split(&case.form, &case.sheet, &mut items);
    (ended.number, (case.form, case.sheet, items, ended.state))
}

impl Compared {
    pub fn call(&mut self, lent: &Lent, call: &Call, ours: &Said, theirs: &Said) {
        self.cases += 1;
        self.commands += u64::from(matches!(call, Call::TakeCmd(_)) && theirs.answer.found == 1);
        self.answered(ours.answer.number);
        let input = || format!("{call:?} on {} {} {:?}", hex(lent.form), hex(lent.sheet), lent.state);
        self.same("call", &input, ours, theirs);
    }
}

/// A state of the real bpaf, on its way through random calls; earlier states are kept for the calls on two.
#[cfg(live)]
pub struct Walk {
    pub form: Form,
    pub form_bytes: Vec<u8>,
    pub sheet_bytes: Vec<u8>,
    pub items: Vec<u32>,
    records: Vec<[u32; 7]>,
    held: Held,
    kept: Vec<Held>,
}

#[cfg(live)]
impl Walk {
    pub fn new(rng: &mut Rng) -> Walk {
        Walk::of(start(rng, 0))
    }

    /// A walk from the split of a line.
    pub fn of((form_bytes, sheet_bytes, items, _): Start) -> Walk {
        let (form, sheet) = (Form::check(&form_bytes).expect("a form"), Sheet::check(&sheet_bytes).expect("a sheet"));
        let (held, records, _) = Held::split(&form, &sheet);
        Walk { form, form_bytes, sheet_bytes, items, records, kept: vec![held.clone()], held }
    }

    pub fn state(&self) -> State {
        raw(&self.held)
    }

    /// What a call on the walk's state is lent.
    pub fn lent<'a>(&'a self, state: &'a State) -> Lent<'a> {
        Lent { form: &self.form_bytes, sheet: &self.sheet_bytes, items: &self.items, state }
    }

    pub fn set_scope(&mut self, scope: std::ops::Range<usize>) {
        self.held.set_scope(scope);
    }

    /// One call, here and there; refused for what it is told or for a field that the form has not, it changes nothing.
    fn call(&mut self, rng: &mut Rng, compared: &mut Compared) {
        let second = self.kept[rng.below(self.kept.len())].clone();
        let call = random_call(rng, &self.form, self.records.len(), raw(&second), 1);
        let given = self.state();
        let lent = Lent { form: &self.form_bytes, sheet: &self.sheet_bytes, items: &self.items, state: &given };
        let said = match forged::refusal(&lent, &call) {
            Some(r) => Said::new(Answer::from(r), given),
            None => theirs(&mut self.held, &second, &self.form, &self.records, &call),
        };
        compared.call(&lent, &call, &ours(&lent, &call), &said);
        match rng.below(7) {
            0 => self.kept.push(self.held.clone()),
            1 => self.held = self.kept[rng.below(self.kept.len())].clone(),
            2 => self.held.relabel(|_| some_use(rng, FIELDS)),
            3 | 4 => self.within_form(rng),
            _ => {}
        }
    }

    /// Marks of fields that the form has not, which a call without a form may leave, become others.
    fn within_form(&mut self, rng: &mut Rng) {
        let fields = self.form.fields.len();
        self.held.relabel(|mark| if marks::mark_good(mark, 0, fields) { mark } else { some_use(rng, fields) });
    }

    /// One call that is not compared; the state that it leaves is one for calls with the form.
    pub fn step(&mut self, rng: &mut Rng) {
        self.call(rng, &mut Compared::default());
        self.within_form(rng);
    }

    /// The first place that `get` gives and whose item has one of the node's names.
    pub fn first_match(&self, node: usize) -> Option<usize> {
        let matches = |i: &usize| self.held.matches_arg(&self.form, node, *i) == Some(true);
        (0..self.records.len()).find(|i| self.held.get(*i) && matches(i))
    }

    /// A take on a copy of the state: what it said, and the places that were present before and are not after.
    pub fn preview(&self, call: &Call) -> (Said, Vec<usize>) {
        let mut held = self.held.clone();
        let said = theirs(&mut held, &self.held, &self.form, &self.records, call);
        let after = held.present();
        (said, self.held.present().into_iter().filter(|k| !after.contains(k)).collect())
    }

    /// One node's `eval` on a copy of the state: its answer, what is missing, and the state that it left.
    pub fn eval(&self, node: usize) -> (line::format::Answer, Vec<Entry>, State) {
        let mut held = self.held.clone();
        let (answer, missing) = held.eval(&self.form, node);
        (answer, missing, raw(&held))
    }
}

/// States made by splitting and earlier calls, in whole and narrowed scopes: every method of the real `State`.
#[cfg(live)]
pub fn compare(seed: u64, count: u64) -> Compared {
    let mut rng = Rng::new(seed);
    let mut compared = on_refusals();
    while compared.cases < count {
        let mut walk = Walk::new(&mut rng);
        for _ in 0..1 + rng.below(16) {
            walk.call(&mut rng, &mut compared);
        }
    }
    compared.goals = vec![Goal { what: "command words taken", met: compared.commands, least: count / 1000 }];
    compared
}

/// `can_catch`, `wrong_input` and `combine_with` on every refusal that bpaf has.
#[cfg(live)]
fn on_refusals() -> Compared {
    let mut compared = Compared::default();
    let all: Vec<Refusal> = (0..32)
        .map(|n| if [20, 21].contains(&n) { Refusal::new(n) } else { Refusal::at(n, 3 + n as usize) })
        .filter(|r| harness::can_catch(*r).is_some())
        .collect();
    for a in &all {
        let n = || a.number.to_string();
        compared.cases += 2;
        compared.same("can_catch", &n, Some(proved::can_catch(a.number)), harness::can_catch(*a));
        compared.same("wrong_input", &n, Some(proved::wrong_input(a.number)), harness::wrong_input(*a));
        for b in &all {
            compared.cases += 1;
            let combined = proved::combine_with(Refused::from(*a), Refused::from(*b));
            let two = || format!("{} {}", a.number, b.number);
            compared.same("combine_with", &two, Some(combined), harness::combine_with(*a, *b).map(Refused::from));
        }
    }
    compared
}

/// Marks about the limits of refusal 29, over so many items and so many fields.
pub fn edge_marks(items: usize, fields: usize) -> Vec<u16> {
    let ends = [1 + items, 2 + items, 3 + items, 511 + fields, 512 + fields, 513 + fields].map(|m| m as u16);
    [&[0, 1, 2, 257, 258, 259, 300, 508, 509, 510, 511, 512, 527, 528, 1024, 1 << 15, u16::MAX], &ends[..]].concat()
}

/// One thing changed in a state, so that it may no longer be one.
fn damage_state(rng: &mut Rng, s: &mut State) {
    let count = s.count as usize;
    let near = |rng: &mut Rng, n: u32| n.wrapping_add(rng.below(3) as u32).wrapping_sub(1);
    match rng.below(9) {
        0 => s.count = near(rng, s.count),
        1 => s.remaining = near(rng, s.remaining),
        2 => s.current = rng.below(count + 3) as u32,
        3 => s.start = near(rng, s.start),
        4 => s.end = near(rng, s.end),
        5 => s.marks[rng.below(256)] = rng.below(count + 4) as u16,
        6 => {
            let edges = edge_marks(count, 1 + rng.below(FIELDS));
            s.marks[rng.below(count + 1).min(255)] = *rng.pick(&edges);
        }
        7 => {
            let wild = [u32::MAX, 257, 256, 1 << 31];
            *[&mut s.count, &mut s.remaining, &mut s.current, &mut s.start, &mut s.end][rng.below(5)] = *rng.pick(&wild);
        }
        _ => std::mem::swap(&mut s.start, &mut s.end),
    }
}

/// One word of the item records changed, or a record taken out or put behind the last.
fn damage_items(rng: &mut Rng, items: &mut Vec<u32>, count: usize) {
    if items.len() < forged::ITEM_WORDS {
        return;
    }
    let at = 7 * rng.below(count + 1).min(255);
    match rng.below(8) {
        0 => items[at + rng.below(7)] = rng.below(8) as u32,
        1 => items[at + rng.below(7)] = u32::MAX,
        2 => items[at..at + 7].fill(0),
        3 => {
            let word = &mut items[at + 5 + rng.below(2)];
            *word = word.wrapping_add(1 + rng.below(3) as u32);
        }
        4 => items[7 * rng.below(256) + rng.below(7)] = 1 + rng.below(5) as u32,
        5 => items.truncate(forged::ITEM_WORDS - 1 - rng.below(2) * rng.below(1700)),
        6 => {
            let word = items.len() - 1 - rng.below(10);
            items[word] = 1 + rng.below(5) as u32;
        }
        _ => items[at] = items[at] % 5 + 1,
    }
}

/// What a call may be lent: a good case after a few calls, with up to two things changed.
pub struct Forgery {
    form: Vec<u8>,
    sheet: Vec<u8>,
    items: Vec<u32>,
    state: State,
    second: State,
    good: Form,
    count: usize,
    pub nodes: usize,
    pub fields: usize,
}

impl Forgery {
    pub fn new(rng: &mut Rng) -> Forgery {
        let spare = rng.below(3) * 5;
        let (form, sheet, items, state) = start(rng, spare);
        let good = Form::check(&form).expect("a form");
        let (count, nodes, fields) = (state.count as usize, good.nodes.len(), good.fields.len());
        let mut made = Forgery { form, sheet, items, state, second: state, good, count, nodes, fields };
        for _ in 0..rng.below(4) {
            let call = made.call(rng, 1);
            made.state = ours(&made.lent(), &call).state;
        }
        for _ in 0..rng.below(3) {
            match rng.below(12) {
                0..=4 => damage_state(rng, &mut made.state),
                5 | 6 => damage_state(rng, &mut made.second),
                7..=9 => damage_items(rng, &mut made.items, made.count),
                10 => made.sheet = cases::damaged(rng).sheet,
                _ => made.form = cases::damaged(rng).form,
            }
        }
        made
    }

    pub fn lent(&self) -> Lent<'_> {
        Lent { form: &self.form, sheet: &self.sheet, items: &self.items, state: &self.state }
    }

    fn call(&self, rng: &mut Rng, beyond: usize) -> Call {
        random_call(rng, &self.good, self.count, self.second, beyond)
    }

    pub fn take(&self, rng: &mut Rng) -> Call {
        random_take(rng, &self.good, 3)
    }

    /// Some of the unused places are in conflict, each with a place that is there.
    pub fn with_conflicts(mut self, rng: &mut Rng) -> Forgery {
        for k in 0..self.count {
            if self.state.marks[k] == 0 && rng.chance(1, 4) {
                self.state.marks[k] = 2 + rng.below(self.count) as u16;
            }
        }
        self
    }
}

/// A state whose used places are all used by the first field.
pub fn plain(state: &State) -> State {
    State { marks: state.marks.map(|m| if marks::used(m) { marks::FIELD } else { m }), ..*state }
}

/// The call with plain states, told the first field.
fn plain_call(call: &Call) -> Call {
    match *call {
        Call::Remove(place, _) => Call::Remove(place, 0),
        Call::TakePositional(_) => Call::TakePositional(0),
        Call::TakeFlag(node, _) => Call::TakeFlag(node, 0),
        Call::TakeArg(node, _) => Call::TakeArg(node, 0),
        Call::PickWinner(t) => Call::PickWinner(plain(&t)),
        Call::SaveConflicts(t, winner) => Call::SaveConflicts(plain(&t), winner),
        Call::AdjacentScope(t) => Call::AdjacentScope(plain(&t)),
        _ => call.clone(),
    }
}

/// The state that is left where used places have marks of their own: these stay, and what becomes used has the mark.
pub fn renumbered(given: &State, left: &State, mark: u16) -> State {
    let marks = std::array::from_fn(|k| match (marks::used(given.marks[k]), marks::used(left.marks[k])) {
        (true, true) => given.marks[k],
        (false, true) => mark,
        _ => left.marks[k],
    });
    State { marks, ..*left }
}

/// What a call must say that is not refused for what it is lent: it looks only at used or not, so all but the marks is as on plain
/// states.
fn by_plain_marks(lent: &Lent, call: &Call) -> Said {
    let said = ours(&Lent { state: &plain(lent.state), ..*lent }, &plain_call(call));
    if ![0, 20, 22].contains(&said.answer.number) {
        return Said::new(yes(true), *lent.state);
    }
    // of the calls that are told no field only `take_cmd` uses a place
    let mark = call.field().map_or(marks::COMMAND, marks::mark_of);
    Said { state: renumbered(lent.state, &said.state, mark), ..said }
}

/// The second reading: the refusal, and nothing changed; else what is said where all used places look alike.
pub fn forged_said(lent: &Lent, call: &Call) -> Said {
    match forged::refusal(lent, call) {
        Some(r) => Said::new(Answer::from(r), *lent.state),
        None => by_plain_marks(lent, call),
    }
}

/// Forged marks and field numbers one by one; then `count` random ones: forged states and item tables, damaged forms and sheets,
/// numbers past what there is. The refusal, and that nothing changed.
pub fn compare_forged(seed: u64, count: u64) -> Compared {
    let mut rng = Rng::new(seed);
    let mut compared = Compared::default();
    compared.forged_marks();
    let count = compared.cases + count;
    while compared.cases < count {
        let forgery = Forgery::new(&mut rng);
        let lent = forgery.lent();
        for _ in 0..8 {
            let call = forgery.call(&mut rng, 3);
            compared.call(&lent, &call, &ours(&lent, &call), &forged_said(&lent, &call));
        }
    }
    compared
}
