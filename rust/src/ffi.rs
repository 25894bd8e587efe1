//! The proved code, linked from its static libraries. This is the only file with `unsafe`.
//!
//! Why the calls below are sound: a slice goes over as its pointer and its length, and the callee is proved to touch nothing
//! outside it and keeps no pointer. Only `&mut` slices are written, and the borrow checker keeps them apart from all others. A
//! slice of length 0 has a pointer that is not null and is not read. Every struct is numbers alone, so any bits are a value.

/// Words of the least item slice, of the least answer slice and of the least list slice that `run` accepts.
pub const ITEM_WORDS: usize = 1792;
pub const ANSWER_WORDS: usize = 8240;
pub const LIST_WORDS: usize = 192;

/// Words of the record that `run_batch` writes of each sheet: number, place, tries and count of answer words.
pub const BATCH_RECORD_WORDS: usize = 4;

/// Bytes of the largest form, which are the least output that `join` accepts.
pub const FORM_BYTES: usize = 5928;

/// A place is handed over as itself plus 1, and none as 0.
pub fn place(code: u32) -> Option<usize> {
    code.checked_sub(1).map(|place| place as usize)
}

#[repr(C)]
#[derive(Clone, Copy, Debug, PartialEq, Eq)]
pub struct Refused {
    pub number: u32,
    pub place: u32,
}

#[repr(C)]
#[derive(Clone, Copy, Debug, PartialEq, Eq)]
pub struct Told {
    pub number: u32,
    pub place: u32,
    pub answer: u32,
}

#[repr(C)]
#[derive(Clone, Copy, Debug, PartialEq, Eq)]
pub struct State {
    pub marks: [u16; 256],
    pub count: u32,
    pub remaining: u32,
    pub current: u32,
    pub start: u32,
    pub end: u32,
}

#[repr(C)]
#[derive(Clone, Copy, Debug, PartialEq, Eq)]
pub struct RunAnswer {
    pub number: u32,
    pub place: u32,
    pub tries: u32,
    pub words: u32,
    pub state: State,
}

/// The answer of a careful run. After 50 `letter` is the letter that no option has, handed over plus 1, and 0 where a name is not
/// UTF-8; else it is 0.
#[repr(C)]
#[derive(Clone, Copy, Debug, PartialEq, Eq)]
pub struct CarefulAnswer {
    pub number: u32,
    pub place: u32,
    pub tries: u32,
    pub words: u32,
    pub letter: u32,
    pub state: State,
}

/// The answer of a run of commands; `entry` is handed over plus 1, as a place is.
#[repr(C)]
#[derive(Clone, Copy, Debug, PartialEq, Eq)]
pub struct CommandAnswer {
    pub number: u32,
    pub place: u32,
    pub tries: u32,
    pub words: u32,
    pub comparisons: u32,
    pub entry: u32,
    pub state: State,
}

#[repr(C)]
#[derive(Clone, Copy, Debug, PartialEq, Eq)]
pub struct CarefulCommandAnswer {
    pub number: u32,
    pub place: u32,
    pub tries: u32,
    pub words: u32,
    pub comparisons: u32,
    pub entry: u32,
    pub letter: u32,
    pub state: State,
}

/// The repeats whose child may have a value although nothing on the line is its: bit n is node n.
#[repr(C)]
#[derive(Clone, Copy, Debug, PartialEq, Eq)]
pub struct IdleAnswer {
    pub number: u32,
    pub place: u32,
    pub nodes: u64,
}

/// Why a place was left over; `detail` is a place, handed over plus 1, or a character. Refused, both are 0.
#[repr(C)]
#[derive(Clone, Copy, Debug, PartialEq, Eq)]
pub struct WhyAnswer {
    pub number: u32,
    pub place: u32,
    pub reason: u32,
    pub detail: u32,
}

#[repr(C)]
#[derive(Clone, Copy, Debug, PartialEq, Eq)]
pub struct TableRefused {
    pub number: u32,
    pub place: u32,
    pub entry: u32,
}

#[repr(C)]
#[derive(Clone, Copy, Debug, PartialEq, Eq)]
pub struct FormPart {
    pub number: u32,
    pub place: u32,
    pub offset: usize,
    pub length: usize,
}

/// The form of two: its length, or the refusal. `form` is 1 or 2 where the first or the second form is refused, else 0.
#[repr(C)]
#[derive(Clone, Copy, Debug, PartialEq, Eq)]
pub struct Joined {
    pub number: u32,
    pub place: u32,
    pub length: u32,
    pub form: u32,
}

extern "C" {
    fn silverpoise_form_check(form: *const u8, form_count: usize) -> Refused;
    fn silverpoise_kind(form: *const u8, form_count: usize, node: usize) -> Told;
    fn silverpoise_portable(form: *const u8, form_count: usize) -> Told;
    fn silverpoise_idle_repeats(form: *const u8, form_count: usize) -> IdleAnswer;
    fn silverpoise_join(
        first: *const u8,
        first_count: usize,
        second: *const u8,
        second_count: usize,
        out: *mut u8,
        out_count: usize,
    ) -> Joined;
    fn silverpoise_run(
        form: *const u8,
        form_count: usize,
        sheet: *const u8,
        sheet_count: usize,
        items: *mut u32,
        item_count: usize,
        answers: *mut u32,
        answer_count: usize,
        list: *mut u32,
        list_count: usize,
    ) -> RunAnswer;
    fn silverpoise_careful(
        form: *const u8,
        form_count: usize,
        sheet: *const u8,
        sheet_count: usize,
        items: *mut u32,
        item_count: usize,
        answers: *mut u32,
        answer_count: usize,
        list: *mut u32,
        list_count: usize,
    ) -> CarefulAnswer;
    fn silverpoise_commands_check(table: *const u8, table_count: usize) -> TableRefused;
    fn silverpoise_command_form(table: *const u8, table_count: usize, entry: usize) -> FormPart;
    fn silverpoise_run_commands(
        table: *const u8,
        table_count: usize,
        sheet: *const u8,
        sheet_count: usize,
        items: *mut u32,
        item_count: usize,
        answers: *mut u32,
        answer_count: usize,
        list: *mut u32,
        list_count: usize,
    ) -> CommandAnswer;
    fn silverpoise_careful_commands(
        table: *const u8,
        table_count: usize,
        sheet: *const u8,
        sheet_count: usize,
        items: *mut u32,
        item_count: usize,
        answers: *mut u32,
        answer_count: usize,
        list: *mut u32,
        list_count: usize,
    ) -> CarefulCommandAnswer;
    fn silverpoise_run_batch(
        form: *const u8,
        form_count: usize,
        batch: *const u8,
        batch_count: usize,
        records: *mut u32,
        record_count: usize,
        items: *mut u32,
        item_count: usize,
        answers: *mut u32,
        answer_count: usize,
        list: *mut u32,
        list_count: usize,
    ) -> Refused;
    fn silverpoise_careful_batch(
        form: *const u8,
        form_count: usize,
        batch: *const u8,
        batch_count: usize,
        records: *mut u32,
        record_count: usize,
        items: *mut u32,
        item_count: usize,
        answers: *mut u32,
        answer_count: usize,
        list: *mut u32,
        list_count: usize,
    ) -> Refused;
    fn silverpoise_why(
        form: *const u8,
        form_count: usize,
        sheet: *const u8,
        sheet_count: usize,
        place: usize,
        items: *mut u32,
        item_count: usize,
        answers: *mut u32,
        answer_count: usize,
        list: *mut u32,
        list_count: usize,
    ) -> WhyAnswer;
}

pub fn form_check(form: &[u8]) -> Refused {
    // SAFETY: as said above
    unsafe { silverpoise_form_check(form.as_ptr(), form.len()) }
}

pub fn kind(form: &[u8], node: usize) -> Told {
    // SAFETY: as said above
    unsafe { silverpoise_kind(form.as_ptr(), form.len(), node) }
}

pub fn portable(form: &[u8]) -> Told {
    // SAFETY: as said above
    unsafe { silverpoise_portable(form.as_ptr(), form.len()) }
}

pub fn idle_repeats(form: &[u8]) -> IdleAnswer {
    // SAFETY: as said above
    unsafe { silverpoise_idle_repeats(form.as_ptr(), form.len()) }
}

/// Two forms made one, which checks both; the rest of the output is 0.
pub fn join(first: &[u8], second: &[u8], out: &mut [u8]) -> Joined {
    // SAFETY: as said above
    unsafe { silverpoise_join(first.as_ptr(), first.len(), second.as_ptr(), second.len(), out.as_mut_ptr(), out.len()) }
}

/// The whole run: it checks form, sheet and the lengths of the three slices before it does anything else.
pub fn run(form: &[u8], sheet: &[u8], items: &mut [u32], answers: &mut [u32], list: &mut [u32]) -> RunAnswer {
    // SAFETY: as said above
    unsafe {
        silverpoise_run(
            form.as_ptr(),
            form.len(),
            sheet.as_ptr(),
            sheet.len(),
            items.as_mut_ptr(),
            items.len(),
            answers.as_mut_ptr(),
            answers.len(),
            list.as_mut_ptr(),
            list.len(),
        )
    }
}

/// The careful run: as `run`, and then 50.
pub fn careful(form: &[u8], sheet: &[u8], items: &mut [u32], answers: &mut [u32], list: &mut [u32]) -> CarefulAnswer {
    // SAFETY: as said above
    unsafe {
        silverpoise_careful(
            form.as_ptr(),
            form.len(),
            sheet.as_ptr(),
            sheet.len(),
            items.as_mut_ptr(),
            items.len(),
            answers.as_mut_ptr(),
            answers.len(),
            list.as_mut_ptr(),
            list.len(),
        )
    }
}

pub fn commands_check(table: &[u8]) -> TableRefused {
    // SAFETY: as said above
    unsafe { silverpoise_commands_check(table.as_ptr(), table.len()) }
}

pub fn command_form(table: &[u8], entry: usize) -> FormPart {
    // SAFETY: as said above
    unsafe { silverpoise_command_form(table.as_ptr(), table.len(), entry) }
}

/// The whole run of a line of commands, which checks all that it is given, as `run` does.
pub fn run_commands(table: &[u8], sheet: &[u8], items: &mut [u32], answers: &mut [u32], list: &mut [u32]) -> CommandAnswer {
    // SAFETY: as said above
    unsafe {
        silverpoise_run_commands(
            table.as_ptr(),
            table.len(),
            sheet.as_ptr(),
            sheet.len(),
            items.as_mut_ptr(),
            items.len(),
            answers.as_mut_ptr(),
            answers.len(),
            list.as_mut_ptr(),
            list.len(),
        )
    }
}

/// The careful run of a line of commands.
pub fn careful_commands(
    table: &[u8],
    sheet: &[u8],
    items: &mut [u32],
    answers: &mut [u32],
    list: &mut [u32],
) -> CarefulCommandAnswer {
    // SAFETY: as said above
    unsafe {
        silverpoise_careful_commands(
            table.as_ptr(),
            table.len(),
            sheet.as_ptr(),
            sheet.len(),
            items.as_mut_ptr(),
            items.len(),
            answers.as_mut_ptr(),
            answers.len(),
            list.as_mut_ptr(),
            list.len(),
        )
    }
}

/// The runs of all sheets of a batch, which checks all that it is given before it runs one.
pub fn run_batch(
    form: &[u8],
    batch: &[u8],
    records: &mut [u32],
    items: &mut [u32],
    answers: &mut [u32],
    list: &mut [u32],
) -> Refused {
    // SAFETY: as said above
    unsafe {
        silverpoise_run_batch(
            form.as_ptr(),
            form.len(),
            batch.as_ptr(),
            batch.len(),
            records.as_mut_ptr(),
            records.len(),
            items.as_mut_ptr(),
            items.len(),
            answers.as_mut_ptr(),
            answers.len(),
            list.as_mut_ptr(),
            list.len(),
        )
    }
}

/// The careful runs of all sheets of a batch.
pub fn careful_batch(
    form: &[u8],
    batch: &[u8],
    records: &mut [u32],
    items: &mut [u32],
    answers: &mut [u32],
    list: &mut [u32],
) -> Refused {
    // SAFETY: as said above
    unsafe {
        silverpoise_careful_batch(
            form.as_ptr(),
            form.len(),
            batch.as_ptr(),
            batch.len(),
            records.as_mut_ptr(),
            records.len(),
            items.as_mut_ptr(),
            items.len(),
            answers.as_mut_ptr(),
            answers.len(),
            list.as_mut_ptr(),
            list.len(),
        )
    }
}

/// Why a place was left over: a whole run, which checks all that it is given, and then one reason. The slices hold what `run`
/// leaves in them.
pub fn why(form: &[u8], sheet: &[u8], place: usize, items: &mut [u32], answers: &mut [u32], list: &mut [u32]) -> WhyAnswer {
    // SAFETY: as said above
    unsafe {
        silverpoise_why(
            form.as_ptr(),
            form.len(),
            sheet.as_ptr(),
            sheet.len(),
            place,
            items.as_mut_ptr(),
            items.len(),
            answers.as_mut_ptr(),
            answers.len(),
            list.as_mut_ptr(),
            list.len(),
        )
    }
}

#[cfg(test)]
mod tests {
    use super::*;
    use std::mem::{align_of, offset_of, size_of};

    /// The form of docs/FORMAT.md, section 11, and its sheet `-vv`.
    const FORM: &[u8] = b"\x02\0\x01\0\x01\0\x01\0\x01\0\x01\0\0\0\x01\0\0\0\0\0\0\0\0\0\0\0\
        \x07\0\0\0\0\0\0\0\0\0\0\0\0\0\0\0\0\0\0\0\x01\0v";
    const SHEET: &[u8] = b"\x01\0\0\0\x03\0-vv";

    /// The sizes and offsets of the declarations in C (docs/FORMAT.md, 10.1).
    #[test]
    fn layouts() {
        assert_eq!((size_of::<Refused>(), align_of::<Refused>()), (8, 4));
        assert_eq!((size_of::<Told>(), align_of::<Told>()), (12, 4));
        assert_eq!((size_of::<State>(), align_of::<State>()), (532, 4));
        assert_eq!((size_of::<RunAnswer>(), align_of::<RunAnswer>()), (548, 4));
        assert_eq!((offset_of!(Refused, number), offset_of!(Refused, place), offset_of!(Told, answer)), (0, 4, 8));
        assert_eq!((offset_of!(State, marks), offset_of!(State, count), offset_of!(State, remaining)), (0, 512, 516));
        assert_eq!((offset_of!(State, current), offset_of!(State, start), offset_of!(State, end)), (520, 524, 528));
        assert_eq!((offset_of!(RunAnswer, number), offset_of!(RunAnswer, place)), (0, 4));
        assert_eq!((offset_of!(RunAnswer, tries), offset_of!(RunAnswer, words), offset_of!(RunAnswer, state)), (8, 12, 16));
        assert_eq!((size_of::<CarefulAnswer>(), align_of::<CarefulAnswer>()), (552, 4));
        assert_eq!((offset_of!(CarefulAnswer, words), offset_of!(CarefulAnswer, letter)), (12, 16));
        assert_eq!((offset_of!(CarefulAnswer, state), offset_of!(CarefulCommandAnswer, state)), (20, 28));
        assert_eq!((size_of::<CarefulCommandAnswer>(), align_of::<CarefulCommandAnswer>()), (560, 4));
        assert_eq!((offset_of!(CarefulCommandAnswer, entry), offset_of!(CarefulCommandAnswer, letter)), (20, 24));
        assert_eq!((size_of::<IdleAnswer>(), align_of::<IdleAnswer>(), offset_of!(IdleAnswer, nodes)), (16, 8, 8));
    }

    /// Each field of each struct holds what it is named for.
    #[test]
    fn known_answers() {
        assert_eq!(form_check(FORM), Refused { number: 0, place: 0 });
        assert_eq!(kind(FORM, 1), Told { number: 0, place: 0, answer: 3 });
        assert_eq!(portable(FORM), Told { number: 0, place: 0, answer: 1 });
        let (mut items, mut answers, mut list) = ([9; ITEM_WORDS], [9; ANSWER_WORDS], [9; LIST_WORDS]);
        let ran = run(FORM, SHEET, &mut items, &mut answers, &mut list);
        assert_eq!((ran.number, ran.place, ran.tries, ran.words, answers[0]), (0, 0, 3, 1, 2));
        let s = ran.state;
        assert_eq!((s.count, s.remaining, s.current, s.start, s.end), (2, 0, 2, 0, 2));
        assert_eq!((s.marks[..3].to_vec(), items[..7].to_vec()), (vec![512, 512, 0], vec![1, 0, 118, 0, 0, 0, 3]));
        assert!(items[14..].iter().chain(&answers[1..]).chain(&list).all(|word| *word == 0));
    }

    /// Bit n is node n: a count over a switch may be idle, over a flag that must be given it may not.
    #[test]
    fn known_idle_repeats() {
        assert_eq!(idle_repeats(FORM), IdleAnswer { number: 0, place: 0, nodes: 0 });
        let mut switch = FORM.to_vec();
        switch[16] = 1;
        assert_eq!(idle_repeats(&switch), IdleAnswer { number: 0, place: 0, nodes: 2 });
        assert_eq!(idle_repeats(&[]), IdleAnswer { number: 1, place: 0, nodes: 0 });
        switch[10] = 0;
        assert_eq!(idle_repeats(&switch), IdleAnswer { number: 3, place: 1, nodes: 0 });
    }

    /// The form above twice, and each way in which it is refused; the output is 0 behind what is written.
    #[test]
    fn known_joins() {
        assert_eq!((size_of::<Joined>(), align_of::<Joined>()), (16, 4));
        assert_eq!((offset_of!(Joined, number), offset_of!(Joined, place)), (0, 4));
        assert_eq!((offset_of!(Joined, length), offset_of!(Joined, form)), (8, 12));
        let joined = |first: &[u8], second: &[u8], room: usize| {
            let mut out = vec![9; room + 1];
            let Joined { number, place, length, form } = join(first, second, &mut out[..room]);
            assert!(out[length as usize..room].iter().all(|byte| *byte == 0) && out[room] == 9);
            ((number, place, form), out[..length as usize].to_vec())
        };
        let twice = b"\x04\0\x02\0\x02\0\x02\0\x01\0\x03\0\x01\0\0\0\x01\0\0\0\0\0\0\0\0\0\0\0\
            \x07\0\0\0\0\0\0\0\0\0\0\0\0\0\0\0\x01\0\x01\0\x01\0\0\0\0\0\0\0\0\0\0\0\
            \x07\0\x02\0\0\0\0\0\0\0\0\0\0\0\0\0\0\0\0\0\x01\0\0\0\x01\0\x01\0vv";
        assert_eq!(joined(FORM, FORM, FORM_BYTES), ((0, 0, 0), twice.to_vec()));
        assert_eq!(joined(FORM, FORM, FORM_BYTES - 1), ((18, 0, 0), Vec::new()));
        let mut at_fault = FORM.to_vec();
        at_fault[26] = 0;
        assert_eq!(joined(&at_fault, &[], FORM_BYTES), ((3, 2, 1), Vec::new()));
        assert_eq!(joined(FORM, &at_fault, 0), ((3, 2, 2), Vec::new()));
        assert_eq!(joined(FORM, &[], FORM_BYTES), ((1, 0, 2), Vec::new()));
        // sixteen of them are a form, and one more is too many
        let mut all = FORM.to_vec();
        for _ in 1..16 {
            all = joined(&all, FORM, FORM_BYTES).1;
        }
        assert_eq!((form_check(&all).number, joined(FORM, &all, FORM_BYTES)), (0, ((18, 0, 0), Vec::new())));
    }

    /// The switch v and a word, on `-vv`, `a`, `-vx` and a byte that is no UTF-8: 50 where the run is accepted.
    #[test]
    fn known_careful_answers() {
        let read = |sheet: &[u8]| {
            let (mut items, mut answers, mut list) = ([9; ITEM_WORDS], [9; ANSWER_WORDS], [9; LIST_WORDS]);
            let ran = careful(WITH_WORD, sheet, &mut items, &mut answers, &mut list);
            assert!(ran.number == 20 || list.iter().chain(&answers[ran.words as usize..]).all(|word| *word == 0));
            (ran.number, ran.place, ran.tries, ran.words, ran.letter, ran.state.marks[0])
        };
        assert_eq!(read(b"\x01\0\0\0\x01\0a"), (0, 0, 2, 2, 0, 513));
        assert_eq!(read(b"\x01\0\0\0\x03\0-vx"), (50, 1, 2, 0, 121, 513));
        assert_eq!(read(b"\x01\0\0\0\x03\0-v\xff"), (50, 1, 2, 0, 0, 513));
        assert_eq!((read(SHEET).0, read(&[]).0), (20, 5));
        let table =
            [&b"\x01\0\0\0\0\0"[..], &[WITH_WORD.len() as u8 + 11, 0, 0, 0], b"\x01\0\x01\0\x01\0\0\0\x01\0a", WITH_WORD];
        let (mut items, mut answers, mut list) = ([9; ITEM_WORDS], [9; ANSWER_WORDS], [9; LIST_WORDS]);
        let sheet = b"\x02\0\0\0\x01\0\x04\0a-vx";
        let ran = careful_commands(&table.concat(), sheet, &mut items, &mut answers, &mut list);
        assert_eq!((ran.number, ran.place, ran.tries, ran.words), (50, 2, 2, 0));
        assert_eq!((ran.comparisons, ran.entry, ran.letter, ran.state.marks[..2].to_vec()), (1, 1, 121, vec![511, 513]));
    }

    /// The record of a sheet may have 50, and what it leaves is what a single call leaves.
    #[test]
    fn a_careful_batch() {
        let batch = b"\x02\0\0\0\0\0\x09\0\0\0\x10\0\0\0\x01\0\0\0\x03\0-vx\x01\0\0\0\x01\0a";
        let [mut records, mut items, mut answers, mut list] = slices(2);
        let refused = careful_batch(WITH_WORD, batch, &mut records, &mut items, &mut answers, &mut list);
        assert_eq!((refused, &records[..]), (Refused { number: 0, place: 0 }, &[50, 1, 2, 0, 0, 0, 2, 2][..]));
        assert_eq!((&items[..7], &answers[..2]), (&[4, 0, 0, 0, 0, 0, 3][..], &[0, 0][..]));
        assert_eq!(answers[ANSWER_WORDS..][..2], [0, 0]);
        assert_eq!(careful_batch(WITH_WORD, &[], &mut [], &mut [], &mut [], &mut []).number, 15);
    }

    /// A table of one entry: the long name `a`, and the form above.
    fn table() -> Vec<u8> {
        let entry = [&b"\x01\0\x01\0\x01\0\0\0\x01\0a"[..], FORM].concat();
        [&b"\x01\0\0\0\0\0"[..], &[entry.len() as u8, 0, 0, 0], &entry].concat()
    }

    #[test]
    fn layouts_of_commands() {
        assert_eq!((size_of::<CommandAnswer>(), align_of::<CommandAnswer>()), (556, 4));
        assert_eq!((size_of::<TableRefused>(), align_of::<TableRefused>()), (12, 4));
        assert_eq!((size_of::<FormPart>(), align_of::<FormPart>()), (24, 8));
        assert_eq!((offset_of!(CommandAnswer, tries), offset_of!(CommandAnswer, words)), (8, 12));
        assert_eq!((offset_of!(CommandAnswer, comparisons), offset_of!(CommandAnswer, entry)), (16, 20));
        assert_eq!((offset_of!(CommandAnswer, state), offset_of!(TableRefused, entry)), (24, 8));
        assert_eq!((offset_of!(FormPart, number), offset_of!(FormPart, offset), offset_of!(FormPart, length)), (0, 8, 16));
    }

    /// `a` `-vv` under the table, and each way in which it is refused before a command is looked for.
    #[test]
    fn known_answers_of_commands() {
        let table = table();
        assert_eq!(commands_check(&table), TableRefused { number: 0, place: 0, entry: 0 });
        assert_eq!(command_form(&table, 0), FormPart { number: 0, place: 0, offset: 21, length: FORM.len() });
        assert_eq!(command_form(&table, 1), FormPart { number: 28, place: 0, offset: 0, length: 0 });
        let (mut items, mut answers, mut list) = ([9; ITEM_WORDS], [9; ANSWER_WORDS], [9; LIST_WORDS]);
        let ran = run_commands(&table, b"\x02\0\0\0\x01\0\x04\0a-vv", &mut items, &mut answers, &mut list);
        assert_eq!((ran.number, ran.place, ran.tries, ran.words, ran.comparisons, ran.entry), (0, 0, 3, 1, 1, 1));
        let s = ran.state;
        assert_eq!((s.count, s.remaining, s.current, s.start, s.end), (3, 0, 3, 0, 3));
        assert_eq!((&s.marks[..4], &items[..7], answers[0]), (&[511, 512, 512, 0][..], &[4, 0, 0, 0, 0, 0, 1][..], 2));
        assert!(items[21..].iter().chain(&answers[1..]).chain(&list).all(|word| *word == 0));

        let mut number = |table: &[u8], sheet: &[u8], list: &mut [u32]| {
            let ran = run_commands(table, sheet, &mut items, &mut answers, list);
            (ran.number, ran.comparisons, ran.entry)
        };
        assert_eq!((number(&table, SHEET, &mut list), number(&[], SHEET, &mut list)), ((31, 1, 0), (11, 0, 0)));
        assert_eq!((number(&table, &[], &mut list), number(&table, SHEET, &mut [])), ((5, 0, 0), (14, 0, 0)));
        let mut at_fault = table.clone();
        at_fault[31] = 0;
        assert_eq!((number(&at_fault, SHEET, &mut list), commands_check(&at_fault).entry), ((3, 0, 1), 1));
    }

    /// Three sheets: that above, one that is cut off, and `-x`.
    const BATCH: &[u8] = b"\x03\0\0\0\0\0\x09\0\0\0\x0b\0\0\0\x13\0\0\0\
        \x01\0\0\0\x03\0-vv\x01\0\x01\0\0\0\x02\0-x";

    /// Records, items, answers and lists for so many sheets.
    fn slices(count: usize) -> [Vec<u32>; 4] {
        [BATCH_RECORD_WORDS, ITEM_WORDS, ANSWER_WORDS, LIST_WORDS].map(|words| vec![9; count * words])
    }

    /// The number, and what is left; the answer never has a place.
    fn ran_batch(
        form: &[u8],
        batch: &[u8],
        [mut records, mut items, mut answers, mut list]: [Vec<u32>; 4],
    ) -> (u32, [Vec<u32>; 4]) {
        let refused = run_batch(form, batch, &mut records, &mut items, &mut answers, &mut list);
        assert_eq!(refused.place, 0);
        (refused.number, [records, items, answers, list])
    }

    /// Each sheet has its record and what a single run leaves; behind them all is 0.
    #[test]
    fn known_answers_of_a_batch() {
        let (number, left) = ran_batch(FORM, BATCH, slices(4));
        assert_eq!((number, &left[0][..12]), (0, &[0, 0, 3, 1, 5, 0, 0, 0, 27, 1, 1, 0][..]));
        let mut expected = [const { Vec::new() }; 4];
        for sheet in [SHEET, &BATCH[27..29], &BATCH[29..]] {
            let [_, mut items, mut answers, mut list] = slices(1);
            let ran = run(FORM, sheet, &mut items, &mut answers, &mut list);
            let record = vec![ran.number, ran.place, ran.tries, ran.words];
            expected.iter_mut().zip([record, items, answers, list]).for_each(|(all, part)| all.extend(part));
        }
        for (left, mut expected) in left.into_iter().zip(expected) {
            expected.resize(left.len(), 0);
            assert_eq!(left, expected);
        }
    }

    /// 15 leaves every slice all 0, and comes before what is wrong with the form, which each record has.
    #[test]
    fn refused_batches() {
        let all_0 = |(number, left): (u32, [Vec<u32>; 4])| left.concat().iter().all(|word| *word == 0).then_some(number);
        for batch in [&[][..], &BATCH[..1], &BATCH[..BATCH.len() - 1], &[BATCH, b"x"].concat(), b"\x21\0"] {
            assert_eq!(all_0(ran_batch(&[], batch, slices(3))), Some(15));
        }
        for short in 0..4 {
            let mut slices = slices(3);
            slices[short].pop();
            assert_eq!(all_0(ran_batch(FORM, BATCH, slices)), Some(15));
        }
        let (number, left) = ran_batch(&[], BATCH, slices(3));
        assert_eq!((number, left.concat().iter().sum::<u32>(), &left[0][8..]), (0, 3, &[1, 0, 0, 0][..]));
        assert_eq!(all_0(ran_batch(FORM, &[0; 6], slices(1))), Some(0));
        assert_eq!(all_0(ran_batch(FORM, &[0; 6], slices(0))), Some(0));
    }

    #[test]
    fn the_layout_of_a_reason() {
        assert_eq!((size_of::<WhyAnswer>(), align_of::<WhyAnswer>()), (16, 4));
        assert_eq!((offset_of!(WhyAnswer, number), offset_of!(WhyAnswer, place)), (0, 4));
        assert_eq!((offset_of!(WhyAnswer, reason), offset_of!(WhyAnswer, detail)), (8, 12));
    }

    /// The switch v, and a word.
    const WITH_WORD: &[u8] = b"\x02\0\x02\0\x01\0\x01\0\0\0\x01\0\x01\0\0\0\x01\0\x01\0\0\0\0\0\0\0\0\0\
        \x03\0\0\0\0\0\0\0\0\0\0\0\0\0\0\0\0\0\0\0\x01\0v";

    /// Why a place was left over: number, place, reason and detail. Each slice then has what a run leaves there.
    fn asked(form: &[u8], sheet: &[u8], place: usize) -> (u32, u32, u32, u32) {
        let ([_, mut items, mut answers, mut list], [_, mut i, mut a, mut l]) = (slices(1), slices(1));
        let WhyAnswer { number, place, reason, detail } = why(form, sheet, place, &mut items, &mut answers, &mut list);
        run(form, sheet, &mut i, &mut a, &mut l);
        assert_eq!([items, answers, list], [i, a, l]);
        (number, place, reason, detail)
    }

    /// `-v` `-x` `-x` `a`, of which the flag is taken; and a line for each reason that needs another form.
    #[test]
    fn known_reasons() {
        let sheet = b"\x04\0\0\0\x02\0\x04\0\x06\0\x07\0-v-x-xa";
        let at = |place: usize| asked(FORM, sheet, place);
        assert_eq!((at(0), at(4), at(usize::MAX)), ((28, 0, 0, 0), (28, 0, 0, 0), (28, 0, 0, 0)));
        assert_eq!((at(1), at(2), at(3)), ((0, 0, 4, 0), (0, 0, 2, 2), (0, 0, 5, 0)));
        // a number of 64 bits
        assert_eq!(at(1 + (1 << 32)), (28, 0, 0, 0));
        let (key_used, letter, other) = (
            asked(WITH_WORD, b"\x02\0\0\0\x04\0\x05\0-v=7a", 1),
            asked(WITH_WORD, b"\x02\0\0\0\x01\0\x04\0a-vx", 1),
            asked(WITH_WORD, b"\x02\0\0\0\x01\0\x02\0ab", 1),
        );
        assert_eq!((key_used, letter, other), ((0, 0, 3, 0), (0, 0, 6, 120), (0, 0, 7, 0)));
    }

    /// Refused as the run is, with 1 to 9 and 14; and with 28 where the run did not leave the place over.
    #[test]
    fn no_reason() {
        assert_eq!((asked(&[], SHEET, 0), asked(FORM, &[], 0)), ((1, 0, 0, 0), (5, 0, 0, 0)));
        let mut at_fault = FORM.to_vec();
        at_fault[10] = 0;
        assert_eq!(asked(&at_fault, &[], 0), (3, 1, 0, 0));
        // accepted: the answer slice has the value
        assert_eq!(asked(FORM, SHEET, 0), (28, 0, 0, 0));
        let (mut items, mut answers, mut list) = ([9; ITEM_WORDS], [9; ANSWER_WORDS], [9; LIST_WORDS]);
        assert_eq!(why(FORM, SHEET, 9, &mut items, &mut answers, &mut list).number, 28);
        assert_eq!((answers[0], answers[1], items[7]), (2, 0, 1));
        assert_eq!(why(FORM, SHEET, 0, &mut items, &mut answers[1..], &mut list).number, 7);
        assert_eq!(why(FORM, SHEET, 0, &mut items, &mut answers, &mut list[1..]).number, 14);
        assert_eq!(why(FORM, SHEET, 0, &mut [], &mut [], &mut []).number, 7);
    }

    /// What is missing: node plus 1, scope start, scope end, and zeros behind. Here the flag itself, on `-x` and `a`.
    #[test]
    fn the_list() {
        let (mut items, mut answers, mut list) = ([9; ITEM_WORDS], [9; ANSWER_WORDS], [9; LIST_WORDS]);
        // node 1 is a last instead of a count
        let mut last = FORM.to_vec();
        last[26] = 8;
        let ran = run(&last, b"\x02\0\0\0\x02\0\x03\0-xa", &mut items, &mut answers, &mut list);
        assert_eq!((ran.number, ran.place, ran.tries, ran.words), (20, 0, 2, 0));
        assert_eq!((&list[..3], &answers[..]), (&[1, 0, 2][..], &[0; ANSWER_WORDS][..]));
        assert!(list[3..].iter().all(|word| *word == 0));
    }

    /// A slice of length 0 is answered like any other.
    #[test]
    fn empty_slices() {
        assert_eq!(form_check(&[]), Refused { number: 1, place: 0 });
        assert_eq!(kind(&[], 0), Told { number: 1, place: 0, answer: 0 });
        assert_eq!(portable(&[]), Told { number: 1, place: 0, answer: 0 });
        let (mut items, mut answers, mut list) = (vec![9; ITEM_WORDS], vec![9; ANSWER_WORDS], vec![9; LIST_WORDS]);
        assert_eq!(run(&[], SHEET, &mut items, &mut answers, &mut list).number, 1);
        assert_eq!(run(FORM, &[], &mut items, &mut answers, &mut list).number, 5);
        assert_eq!(run(FORM, SHEET, &mut [], &mut answers, &mut list).number, 7);
        assert_eq!(run(FORM, SHEET, &mut items, &mut [], &mut list).number, 7);
        assert_eq!(run(FORM, SHEET, &mut items, &mut [], &mut []).number, 7);
        assert_eq!(run(FORM, SHEET, &mut items, &mut answers, &mut []).number, 14);
        assert_eq!(run(&[], &[], &mut [], &mut [], &mut []).number, 1);
    }

    /// A slice that is too short is refused, and no word behind it is touched.
    #[test]
    fn short_slices() {
        let (mut items, mut answers, mut list) = ([9; ITEM_WORDS], [9; ANSWER_WORDS], [9; LIST_WORDS]);
        assert_eq!(run(FORM, SHEET, &mut items[..ITEM_WORDS - 1], &mut answers, &mut list).number, 7);
        assert_eq!((items[ITEM_WORDS - 2], items[ITEM_WORDS - 1]), (0, 9));
        assert_eq!((answers[ANSWER_WORDS - 1], list[LIST_WORDS - 1]), (0, 0));
    }

    /// A list slice that is too short is refused with 14, which leaves what 7 leaves.
    #[test]
    fn a_short_list() {
        let (mut items, mut answers, mut list) = ([9; ITEM_WORDS], [9; ANSWER_WORDS], [9; LIST_WORDS]);
        let ran = run(FORM, SHEET, &mut items, &mut answers, &mut list[..LIST_WORDS - 1]);
        assert_eq!((ran.number, ran.place, ran.tries, ran.words, ran.state.count), (14, 0, 0, 0, 0));
        assert!(items.iter().chain(&answers).chain(&list[..LIST_WORDS - 1]).all(|word| *word == 0));
        assert_eq!(list[LIST_WORDS - 1], 9);
    }
}
