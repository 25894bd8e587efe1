//! The proved code, linked from its static libraries: every call, declared once, as a safe function over slices.
//!
//! A slice is two arguments here, a pointer and a count; declared as one it would pass wrongly where one register is left.
//! The structs have the names of c/silverpoise.h, and the wrappers those of the calls.

use line::commands::TableRefusal;
use line::forged::{Lent, State};
use line::format::Refusal;

/// A place or an entry as it is handed over: itself plus 1, or 0 for none.
pub fn code(place: Option<usize>) -> u32 {
    place.map_or(0, |p| p as u32 + 1)
}

#[repr(C)]
#[derive(Clone, Copy, Debug, PartialEq, Eq)]
pub struct Decoding {
    pub found: bool,
    pub character: u32,
    pub size: u32,
}

#[repr(C)]
#[derive(Clone, Copy, Debug, PartialEq, Eq)]
pub struct Refused {
    pub number: u32,
    pub place: u32,
}

#[repr(C)]
#[derive(Clone, Copy, Debug, PartialEq, Eq)]
pub struct Told {
    pub number: u32,
    pub place: u32,
    pub answer: u32,
}

#[repr(C)]
#[derive(Clone, Copy, Debug, Default, PartialEq, Eq)]
pub struct Answer {
    pub number: u32,
    pub place: u32,
    pub found: u32,
    pub first: u32,
    pub second: u32,
}

#[repr(C)]
#[derive(Clone, Copy, Debug, PartialEq, Eq)]
pub struct StateAnswer {
    pub answer: Answer,
    pub state: State,
}

/// `places` is how many there are, `lower` and `upper` are the two, or 0.
#[repr(C)]
#[derive(Clone, Copy, Debug, PartialEq, Eq)]
pub struct PreviewAnswer {
    pub answer: Answer,
    pub places: u32,
    pub lower: u32,
    pub upper: u32,
    pub state: State,
}

#[repr(C)]
#[derive(Clone, Copy, Debug, PartialEq, Eq)]
pub struct Got {
    pub number: u32,
    pub place: u32,
    pub item: [u32; 7],
}

#[repr(C)]
#[derive(Clone, Copy, Debug, PartialEq, Eq)]
pub struct SplitAnswer {
    pub number: u32,
    pub place: u32,
    pub state: State,
}

#[repr(C)]
#[derive(Clone, Copy, Debug, PartialEq, Eq)]
pub struct RunAnswer {
    pub number: u32,
    pub place: u32,
    pub tries: u32,
    pub words: u32,
    pub state: State,
}

/// `letter` is a character plus 1, or 0.
#[repr(C)]
#[derive(Clone, Copy, Debug, PartialEq, Eq)]
pub struct CarefulAnswer {
    pub number: u32,
    pub place: u32,
    pub tries: u32,
    pub words: u32,
    pub letter: u32,
    pub state: State,
}

/// `reason` is from 1 to 7, or 0 if the question is refused; `detail` is a place plus 1, a character, or 0.
#[repr(C)]
#[derive(Clone, Copy, Debug, PartialEq, Eq)]
pub struct WhyAnswer {
    pub number: u32,
    pub place: u32,
    pub reason: u32,
    pub detail: u32,
}

/// `entry` is plus 1, or 0 for none, as a place is.
#[repr(C)]
#[derive(Clone, Copy, Debug, PartialEq, Eq)]
pub struct CommandAnswer {
    pub number: u32,
    pub place: u32,
    pub tries: u32,
    pub words: u32,
    pub comparisons: u32,
    pub entry: u32,
    pub state: State,
}

#[repr(C)]
#[derive(Clone, Copy, Debug, PartialEq, Eq)]
pub struct TableRefused {
    pub number: u32,
    pub place: u32,
    pub entry: u32,
}

/// `letter` is a character plus 1, or 0.
#[repr(C)]
#[derive(Clone, Copy, Debug, PartialEq, Eq)]
pub struct CarefulCommandAnswer {
    pub number: u32,
    pub place: u32,
    pub tries: u32,
    pub words: u32,
    pub comparisons: u32,
    pub entry: u32,
    pub letter: u32,
    pub state: State,
}

/// Bit n of `nodes` stands for node n.
#[repr(C)]
#[derive(Clone, Copy, Debug, PartialEq, Eq)]
pub struct IdleAnswer {
    pub number: u32,
    pub place: u32,
    pub nodes: u64,
}

/// `last` is 1 where the sheet that was given is the last, else 0; `length` is that of the sheet that was written.
#[repr(C)]
#[derive(Clone, Copy, Debug, PartialEq, Eq)]
pub struct NextSheet {
    pub number: u32,
    pub place: u32,
    pub last: u32,
    pub length: u32,
}

/// `length` is that of the form that was written; `form` is 1 or 2 where one of 1 to 4 is of that form, else 0.
#[repr(C)]
#[derive(Clone, Copy, Debug, PartialEq, Eq)]
pub struct Joined {
    pub number: u32,
    pub place: u32,
    pub length: u32,
    pub form: u32,
}

/// `offset` counts from the table's first byte.
#[repr(C)]
#[derive(Clone, Copy, Debug, PartialEq, Eq)]
pub struct FormPart {
    pub number: u32,
    pub place: u32,
    pub offset: usize,
    pub length: usize,
}

/// `source` is 0 for the sheet and 1 for the form.
#[repr(C)]
#[derive(Clone, Copy, Debug, PartialEq, Eq)]
pub struct TextPart {
    pub number: u32,
    pub place: u32,
    pub source: u32,
    pub offset: u32,
    pub length: u32,
}

impl From<Refusal> for Refused {
    fn from(r: Refusal) -> Refused {
        Refused { number: r.number, place: code(r.place) }
    }
}

impl From<TableRefusal> for TableRefused {
    fn from(r: TableRefusal) -> TableRefused {
        TableRefused { number: r.refusal.number, place: code(r.refusal.place), entry: code(r.entry) }
    }
}

impl From<Refusal> for Answer {
    fn from(r: Refusal) -> Answer {
        Answer { number: r.number, place: code(r.place), ..Answer::default() }
    }
}

// The libraries are linked with the program, not kept in this crate.
#[link(name = "exports", kind = "static", modifiers = "-bundle")]
extern "C" {
    fn silverpoise_utf8_valid(s: *const u8, length: usize) -> bool;
    fn silverpoise_utf8_decode(s: *const u8, length: usize, at: usize) -> Decoding;
    fn silverpoise_form_check(form: *const u8, k: usize) -> Refused;
    fn silverpoise_sheet_check(sheet: *const u8, n: usize) -> Refused;
    fn silverpoise_kind(form: *const u8, k: usize, node: usize) -> Told;
    fn silverpoise_portable(form: *const u8, k: usize) -> Told;
    fn silverpoise_idle_repeats(form: *const u8, k: usize) -> IdleAnswer;
    fn silverpoise_join(first: *const u8, k: usize, second: *const u8, n: usize, out: *mut u8, m: usize) -> Joined;
    fn silverpoise_split(
        form: *const u8,
        k: usize,
        sheet: *const u8,
        n: usize,
        items: *mut u32,
        m: usize,
    ) -> SplitAnswer;
    fn silverpoise_run(
        form: *const u8,
        k: usize,
        sheet: *const u8,
        n: usize,
        items: *mut u32,
        m: usize,
        answers: *mut u32,
        l: usize,
        list: *mut u32,
        p: usize,
    ) -> RunAnswer;
}

#[link(name = "exports_commands", kind = "static", modifiers = "-bundle")]
extern "C" {
    fn silverpoise_run_commands(
        table: *const u8,
        k: usize,
        sheet: *const u8,
        n: usize,
        items: *mut u32,
        m: usize,
        answers: *mut u32,
        l: usize,
        list: *mut u32,
        p: usize,
    ) -> CommandAnswer;
    fn silverpoise_careful_commands(
        table: *const u8,
        k: usize,
        sheet: *const u8,
        n: usize,
        items: *mut u32,
        m: usize,
        answers: *mut u32,
        l: usize,
        list: *mut u32,
        p: usize,
    ) -> CarefulCommandAnswer;
    fn silverpoise_commands_check(table: *const u8, k: usize) -> TableRefused;
    fn silverpoise_command_form(table: *const u8, k: usize, entry: usize) -> FormPart;
}

#[link(name = "exports_batch", kind = "static", modifiers = "-bundle")]
extern "C" {
    fn silverpoise_run_batch(
        form: *const u8,
        k: usize,
        batch: *const u8,
        n: usize,
        records: *mut u32,
        r: usize,
        items: *mut u32,
        m: usize,
        answers: *mut u32,
        l: usize,
        list: *mut u32,
        p: usize,
    ) -> Refused;
    fn silverpoise_careful_batch(
        form: *const u8,
        k: usize,
        batch: *const u8,
        n: usize,
        records: *mut u32,
        r: usize,
        items: *mut u32,
        m: usize,
        answers: *mut u32,
        l: usize,
        list: *mut u32,
        p: usize,
    ) -> Refused;
}

#[link(name = "exports_why", kind = "static", modifiers = "-bundle")]
extern "C" {
    fn silverpoise_why(
        form: *const u8,
        k: usize,
        sheet: *const u8,
        n: usize,
        place: usize,
        items: *mut u32,
        m: usize,
        answers: *mut u32,
        l: usize,
        list: *mut u32,
        p: usize,
    ) -> WhyAnswer;
    fn silverpoise_careful(
        form: *const u8,
        k: usize,
        sheet: *const u8,
        n: usize,
        items: *mut u32,
        m: usize,
        answers: *mut u32,
        l: usize,
        list: *mut u32,
        p: usize,
    ) -> CarefulAnswer;
}

#[link(name = "exports_calls", kind = "static", modifiers = "-bundle")]
extern "C" {
    fn silverpoise_eval(
        form: *const u8,
        k: usize,
        sheet: *const u8,
        n: usize,
        items: *const u32,
        m: usize,
        answers: *mut u32,
        l: usize,
        list: *mut u32,
        p: usize,
        state: State,
        node: usize,
    ) -> RunAnswer;
    fn silverpoise_text(
        form: *const u8,
        k: usize,
        sheet: *const u8,
        n: usize,
        items: *const u32,
        m: usize,
        word: u32,
    ) -> TextPart;
    fn silverpoise_remove(state: State, place: usize, field: usize) -> StateAnswer;
    fn silverpoise_pick_winner(state: State, other: State) -> Answer;
    fn silverpoise_save_conflicts(state: State, loser: State, winner: usize) -> StateAnswer;
    fn silverpoise_set_scope(state: State, from: usize, to: usize) -> StateAnswer;
    fn silverpoise_adjacent_scope(state: State, original: State) -> Answer;
    fn silverpoise_adjacently_available_from(state: State, from: usize) -> Answer;
    fn silverpoise_get(sheet: *const u8, n: usize, items: *const u32, m: usize, state: State, place: usize) -> Got;
    fn silverpoise_conflict(sheet: *const u8, n: usize, items: *const u32, m: usize, state: State) -> Answer;
    fn silverpoise_take_positional_word(
        sheet: *const u8,
        n: usize,
        items: *const u32,
        m: usize,
        state: State,
        field: usize,
    ) -> StateAnswer;
    fn silverpoise_only_once(sheet: *const u8, n: usize, items: *const u32, m: usize, place: usize) -> Answer;
    fn silverpoise_matches_arg(
        form: *const u8,
        k: usize,
        sheet: *const u8,
        n: usize,
        items: *const u32,
        m: usize,
        state: State,
        node: usize,
        place: usize,
    ) -> Answer;
    fn silverpoise_take_flag(
        form: *const u8,
        k: usize,
        sheet: *const u8,
        n: usize,
        items: *const u32,
        m: usize,
        state: State,
        node: usize,
        field: usize,
    ) -> StateAnswer;
    fn silverpoise_take_arg(
        form: *const u8,
        k: usize,
        sheet: *const u8,
        n: usize,
        items: *const u32,
        m: usize,
        state: State,
        node: usize,
        field: usize,
    ) -> StateAnswer;
    fn silverpoise_take_cmd(
        form: *const u8,
        k: usize,
        sheet: *const u8,
        n: usize,
        items: *const u32,
        m: usize,
        state: State,
        record: usize,
    ) -> StateAnswer;
    fn silverpoise_preview_flag(
        form: *const u8,
        k: usize,
        sheet: *const u8,
        n: usize,
        items: *const u32,
        m: usize,
        state: State,
        node: usize,
        field: usize,
    ) -> PreviewAnswer;
    fn silverpoise_preview_arg(
        form: *const u8,
        k: usize,
        sheet: *const u8,
        n: usize,
        items: *const u32,
        m: usize,
        state: State,
        node: usize,
        field: usize,
    ) -> PreviewAnswer;
    fn silverpoise_preview_positional_word(
        sheet: *const u8,
        n: usize,
        items: *const u32,
        m: usize,
        state: State,
        field: usize,
    ) -> PreviewAnswer;
    fn silverpoise_preview_cmd(
        form: *const u8,
        k: usize,
        sheet: *const u8,
        n: usize,
        items: *const u32,
        m: usize,
        state: State,
        record: usize,
    ) -> PreviewAnswer;
    fn silverpoise_remove_in_place(state: *mut State, place: usize, field: usize) -> Answer;
    fn silverpoise_take_flag_in_place(
        state: *mut State,
        form: *const u8,
        k: usize,
        sheet: *const u8,
        n: usize,
        items: *const u32,
        m: usize,
        node: usize,
        field: usize,
    ) -> Answer;
    fn silverpoise_find(
        form: *const u8,
        k: usize,
        sheet: *const u8,
        n: usize,
        items: *const [u32; 7],
        m: usize,
        state: State,
        node: usize,
    ) -> Answer;
    fn silverpoise_can_catch(number: u32) -> bool;
    fn silverpoise_wrong_input(number: u32) -> bool;
    fn silverpoise_combine_with(first: Refused, second: Refused) -> Refused;
    fn silverpoise_next_sheet(alphabet: *const u8, k: usize, sheet: *const u8, n: usize, out: *mut u8, m: usize) -> NextSheet;
}

// Each call is proved to touch nothing outside the slices that it is lent, whatever is in them.

pub fn utf8_valid(s: &[u8]) -> bool {
    unsafe { silverpoise_utf8_valid(s.as_ptr(), s.len()) }
}

pub fn utf8_decode(s: &[u8], at: usize) -> Decoding {
    unsafe { silverpoise_utf8_decode(s.as_ptr(), s.len(), at) }
}

#[inline(always)]
pub fn form_check(form: &[u8]) -> Refused {
    unsafe { silverpoise_form_check(form.as_ptr(), form.len()) }
}

pub fn sheet_check(sheet: &[u8]) -> Refused {
    unsafe { silverpoise_sheet_check(sheet.as_ptr(), sheet.len()) }
}

pub fn kind(form: &[u8], node: usize) -> Told {
    unsafe { silverpoise_kind(form.as_ptr(), form.len(), node) }
}

pub fn portable(form: &[u8]) -> Told {
    unsafe { silverpoise_portable(form.as_ptr(), form.len()) }
}

pub fn idle_repeats(form: &[u8]) -> IdleAnswer {
    unsafe { silverpoise_idle_repeats(form.as_ptr(), form.len()) }
}

pub fn join(first: &[u8], second: &[u8], out: &mut [u8]) -> Joined {
    let (f, s) = ((first.as_ptr(), first.len()), (second.as_ptr(), second.len()));
    unsafe { silverpoise_join(f.0, f.1, s.0, s.1, out.as_mut_ptr(), out.len()) }
}

#[inline(always)]
pub fn split(form: &[u8], sheet: &[u8], items: &mut [u32]) -> SplitAnswer {
    let (i, m) = (items.as_mut_ptr(), items.len());
    unsafe { silverpoise_split(form.as_ptr(), form.len(), sheet.as_ptr(), sheet.len(), i, m) }
}

#[inline(always)]
pub fn run(form: &[u8], sheet: &[u8], items: &mut [u32], answers: &mut [u32], list: &mut [u32]) -> RunAnswer {
    let (f, s) = ((form.as_ptr(), form.len()), (sheet.as_ptr(), sheet.len()));
    let (i, a) = ((items.as_mut_ptr(), items.len()), (answers.as_mut_ptr(), answers.len()));
    unsafe { silverpoise_run(f.0, f.1, s.0, s.1, i.0, i.1, a.0, a.1, list.as_mut_ptr(), list.len()) }
}

pub fn run_commands(
    table: &[u8],
    sheet: &[u8],
    items: &mut [u32],
    answers: &mut [u32],
    list: &mut [u32],
) -> CommandAnswer {
    let (t, s) = ((table.as_ptr(), table.len()), (sheet.as_ptr(), sheet.len()));
    let (i, a) = ((items.as_mut_ptr(), items.len()), (answers.as_mut_ptr(), answers.len()));
    unsafe { silverpoise_run_commands(t.0, t.1, s.0, s.1, i.0, i.1, a.0, a.1, list.as_mut_ptr(), list.len()) }
}

pub fn careful_commands(
    table: &[u8],
    sheet: &[u8],
    items: &mut [u32],
    answers: &mut [u32],
    list: &mut [u32],
) -> CarefulCommandAnswer {
    let (t, s) = ((table.as_ptr(), table.len()), (sheet.as_ptr(), sheet.len()));
    let [i, a, l] = [items, answers, list].map(|slice| (slice.as_mut_ptr(), slice.len()));
    unsafe { silverpoise_careful_commands(t.0, t.1, s.0, s.1, i.0, i.1, a.0, a.1, l.0, l.1) }
}

pub fn commands_check(table: &[u8]) -> TableRefused {
    unsafe { silverpoise_commands_check(table.as_ptr(), table.len()) }
}

pub fn command_form(table: &[u8], entry: usize) -> FormPart {
    unsafe { silverpoise_command_form(table.as_ptr(), table.len(), entry) }
}

#[inline(always)]
pub fn run_batch(
    form: &[u8],
    batch: &[u8],
    records: &mut [u32],
    items: &mut [u32],
    answers: &mut [u32],
    list: &mut [u32],
) -> Refused {
    let (f, b) = ((form.as_ptr(), form.len()), (batch.as_ptr(), batch.len()));
    let [r, i, a, l] = [records, items, answers, list].map(|slice| (slice.as_mut_ptr(), slice.len()));
    unsafe { silverpoise_run_batch(f.0, f.1, b.0, b.1, r.0, r.1, i.0, i.1, a.0, a.1, l.0, l.1) }
}

#[inline(always)]
pub fn careful_batch(
    form: &[u8],
    batch: &[u8],
    records: &mut [u32],
    items: &mut [u32],
    answers: &mut [u32],
    list: &mut [u32],
) -> Refused {
    let (f, b) = ((form.as_ptr(), form.len()), (batch.as_ptr(), batch.len()));
    let [r, i, a, l] = [records, items, answers, list].map(|slice| (slice.as_mut_ptr(), slice.len()));
    unsafe { silverpoise_careful_batch(f.0, f.1, b.0, b.1, r.0, r.1, i.0, i.1, a.0, a.1, l.0, l.1) }
}

pub fn why(
    form: &[u8],
    sheet: &[u8],
    place: usize,
    items: &mut [u32],
    answers: &mut [u32],
    list: &mut [u32],
) -> WhyAnswer {
    let (f, s) = ((form.as_ptr(), form.len()), (sheet.as_ptr(), sheet.len()));
    let [i, a, l] = [items, answers, list].map(|slice| (slice.as_mut_ptr(), slice.len()));
    unsafe { silverpoise_why(f.0, f.1, s.0, s.1, place, i.0, i.1, a.0, a.1, l.0, l.1) }
}

pub fn careful(form: &[u8], sheet: &[u8], items: &mut [u32], answers: &mut [u32], list: &mut [u32]) -> CarefulAnswer {
    let (f, s) = ((form.as_ptr(), form.len()), (sheet.as_ptr(), sheet.len()));
    let [i, a, l] = [items, answers, list].map(|slice| (slice.as_mut_ptr(), slice.len()));
    unsafe { silverpoise_careful(f.0, f.1, s.0, s.1, i.0, i.1, a.0, a.1, l.0, l.1) }
}

pub fn eval(lent: &Lent, answers: &mut [u32], list: &mut [u32], node: usize) -> RunAnswer {
    let (f, s) = ((lent.form.as_ptr(), lent.form.len()), (lent.sheet.as_ptr(), lent.sheet.len()));
    let (i, a) = ((lent.items.as_ptr(), lent.items.len()), (answers.as_mut_ptr(), answers.len()));
    let l = (list.as_mut_ptr(), list.len());
    unsafe { silverpoise_eval(f.0, f.1, s.0, s.1, i.0, i.1, a.0, a.1, l.0, l.1, *lent.state, node) }
}

pub fn text(lent: &Lent, word: u32) -> TextPart {
    let (f, s, i) = (lent.form, lent.sheet, lent.items);
    unsafe { silverpoise_text(f.as_ptr(), f.len(), s.as_ptr(), s.len(), i.as_ptr(), i.len(), word) }
}

pub fn remove(state: State, place: usize, field: usize) -> StateAnswer {
    unsafe { silverpoise_remove(state, place, field) }
}

pub fn pick_winner(state: State, other: State) -> Answer {
    unsafe { silverpoise_pick_winner(state, other) }
}

pub fn save_conflicts(state: State, loser: State, winner: usize) -> StateAnswer {
    unsafe { silverpoise_save_conflicts(state, loser, winner) }
}

pub fn set_scope(state: State, from: usize, to: usize) -> StateAnswer {
    unsafe { silverpoise_set_scope(state, from, to) }
}

pub fn adjacent_scope(state: State, original: State) -> Answer {
    unsafe { silverpoise_adjacent_scope(state, original) }
}

pub fn adjacently_available_from(state: State, from: usize) -> Answer {
    unsafe { silverpoise_adjacently_available_from(state, from) }
}

pub fn get(lent: &Lent, place: usize) -> Got {
    let (s, i) = (lent.sheet, lent.items);
    unsafe { silverpoise_get(s.as_ptr(), s.len(), i.as_ptr(), i.len(), *lent.state, place) }
}

pub fn conflict(lent: &Lent) -> Answer {
    let (s, i) = (lent.sheet, lent.items);
    unsafe { silverpoise_conflict(s.as_ptr(), s.len(), i.as_ptr(), i.len(), *lent.state) }
}

pub fn take_positional_word(lent: &Lent, field: usize) -> StateAnswer {
    let (s, i) = (lent.sheet, lent.items);
    unsafe { silverpoise_take_positional_word(s.as_ptr(), s.len(), i.as_ptr(), i.len(), *lent.state, field) }
}

pub fn only_once(lent: &Lent, place: usize) -> Answer {
    let (s, i) = (lent.sheet, lent.items);
    unsafe { silverpoise_only_once(s.as_ptr(), s.len(), i.as_ptr(), i.len(), place) }
}

pub fn matches_arg(lent: &Lent, node: usize, place: usize) -> Answer {
    let (f, s, i) = (lent.form, lent.sheet, lent.items);
    let state = *lent.state;
    unsafe { silverpoise_matches_arg(f.as_ptr(), f.len(), s.as_ptr(), s.len(), i.as_ptr(), i.len(), state, node, place) }
}

pub fn take_flag(lent: &Lent, node: usize, field: usize) -> StateAnswer {
    let (f, s, i) = (lent.form, lent.sheet, lent.items);
    let state = *lent.state;
    unsafe { silverpoise_take_flag(f.as_ptr(), f.len(), s.as_ptr(), s.len(), i.as_ptr(), i.len(), state, node, field) }
}

pub fn take_arg(lent: &Lent, node: usize, field: usize) -> StateAnswer {
    let (f, s, i) = (lent.form, lent.sheet, lent.items);
    let state = *lent.state;
    unsafe { silverpoise_take_arg(f.as_ptr(), f.len(), s.as_ptr(), s.len(), i.as_ptr(), i.len(), state, node, field) }
}

pub fn take_cmd(lent: &Lent, record: usize) -> StateAnswer {
    let (f, s, i) = (lent.form, lent.sheet, lent.items);
    unsafe { silverpoise_take_cmd(f.as_ptr(), f.len(), s.as_ptr(), s.len(), i.as_ptr(), i.len(), *lent.state, record) }
}

pub fn preview_flag(lent: &Lent, node: usize, field: usize) -> PreviewAnswer {
    let (f, s, i) = (lent.form, lent.sheet, lent.items);
    let state = *lent.state;
    unsafe { silverpoise_preview_flag(f.as_ptr(), f.len(), s.as_ptr(), s.len(), i.as_ptr(), i.len(), state, node, field) }
}

pub fn preview_arg(lent: &Lent, node: usize, field: usize) -> PreviewAnswer {
    let (f, s, i) = (lent.form, lent.sheet, lent.items);
    let state = *lent.state;
    unsafe { silverpoise_preview_arg(f.as_ptr(), f.len(), s.as_ptr(), s.len(), i.as_ptr(), i.len(), state, node, field) }
}

pub fn preview_positional_word(lent: &Lent, field: usize) -> PreviewAnswer {
    let (s, i) = (lent.sheet, lent.items);
    unsafe { silverpoise_preview_positional_word(s.as_ptr(), s.len(), i.as_ptr(), i.len(), *lent.state, field) }
}

pub fn preview_cmd(lent: &Lent, record: usize) -> PreviewAnswer {
    let (f, s, i) = (lent.form, lent.sheet, lent.items);
    unsafe { silverpoise_preview_cmd(f.as_ptr(), f.len(), s.as_ptr(), s.len(), i.as_ptr(), i.len(), *lent.state, record) }
}

pub fn remove_in_place(state: &mut State, place: usize, field: usize) -> Answer {
    unsafe { silverpoise_remove_in_place(state, place, field) }
}

/// On `state`, not on the one that is lent beside the rest.
pub fn take_flag_in_place(state: &mut State, lent: &Lent, node: usize, field: usize) -> Answer {
    let (f, s, i) = (lent.form, lent.sheet, lent.items);
    unsafe {
        silverpoise_take_flag_in_place(state, f.as_ptr(), f.len(), s.as_ptr(), s.len(), i.as_ptr(), i.len(), node, field)
    }
}

/// Over `items`, not over those that are lent as words.
pub fn find(lent: &Lent, items: &[[u32; 7]], node: usize) -> Answer {
    let (f, s, i) = (lent.form, lent.sheet, items);
    unsafe { silverpoise_find(f.as_ptr(), f.len(), s.as_ptr(), s.len(), i.as_ptr(), i.len(), *lent.state, node) }
}

pub fn can_catch(number: u32) -> bool {
    unsafe { silverpoise_can_catch(number) }
}

pub fn wrong_input(number: u32) -> bool {
    unsafe { silverpoise_wrong_input(number) }
}

pub fn combine_with(first: Refused, second: Refused) -> Refused {
    unsafe { silverpoise_combine_with(first, second) }
}

pub fn next_sheet(alphabet: &[u8], sheet: &[u8], out: &mut [u8]) -> NextSheet {
    let (a, s) = ((alphabet.as_ptr(), alphabet.len()), (sheet.as_ptr(), sheet.len()));
    unsafe { silverpoise_next_sheet(a.0, a.1, s.0, s.1, out.as_mut_ptr(), out.len()) }
}
