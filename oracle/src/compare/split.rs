//! Splitting: a line shown, and every word of it against the real `State::construct`.

use std::os::unix::ffi::OsStringExt;

use line::{forged::records, forged::ITEM_WORDS, format::*, notation};

#[cfg(live)]
use super::{pattern, run::padded, Compared};
#[cfg(live)]
use crate::lists::hex;
#[cfg(live)]
use bpaf::doc::harness::{Held, View};
#[cfg(live)]
use line::{cases, cases::Case, cases::Rng, forged::State};
#[cfg(live)]
use proved::{code, SplitAnswer};

/// The bytes of a part of the sheet's area, as text.
fn part(area: &[u8], offset: u32, length: u32) -> String {
    String::from_utf8_lossy(&area[offset as usize..][..length as usize]).into_owned()
}

fn show_item(area: &[u8], record: &[u32; 7]) -> String {
    let [kind, adjacent, character, name_at, name_length, text_at, text_length] = *record;
    let adjacent = if adjacent == 1 { ", with a value" } else { "" };
    let text = part(area, text_at, text_length);
    match kind {
        1 => format!("Short {}{adjacent}", char::from_u32(character).unwrap_or('?')),
        2 => format!("Long \"{}\"{adjacent}", part(area, name_at, name_length)),
        3 => format!("ArgWord \"{text}\""),
        4 => format!("Word \"{text}\""),
        _ => format!("PosWord \"{text}\""),
    }
}

/// A form in the notation of notation.rs, and this program's further arguments.
pub fn given(form: &str) -> Option<(Form, Vec<Vec<u8>>)> {
    match notation::parse(form) {
        Ok(form) => Some((form, std::env::args_os().skip(3).map(|a| a.into_vec()).collect())),
        Err(e) => {
            eprintln!("the form: {e}");
            None
        }
    }
}

/// The items of a slice, a line each.
pub fn show_items(items: &[u32], area: &[u8]) {
    records(items).iter().enumerate().for_each(|(place, r)| println!("{place}: {}", show_item(area, r)));
}

/// The items of a line, by the proved code.
pub fn show(form: &str) -> bool {
    let Some((form, arguments)) = given(form) else { return false };
    let area = arguments.concat();
    let mut items = vec![0; ITEM_WORDS];
    let ended = proved::split(&form.write(), &Sheet { arguments }.write(), &mut items);
    show_items(&items, &area);
    match ended.number {
        0 => println!("{} of {} remain", ended.state.remaining, ended.state.count),
        9 => println!("refused 9 at {}", ended.place - 1),
        number => println!("refused {number}"),
    }
    ended.number == 0
}

/// The state as the library hands it over.
#[cfg(live)]
pub fn raw(held: &Held) -> State {
    raw_view(&held.view())
}

#[cfg(live)]
pub fn raw_view(view: &View) -> State {
    let mut marks = [0; 256];
    marks[..view.marks.len()].copy_from_slice(&view.marks);
    State {
        marks,
        count: view.marks.len() as u32,
        remaining: view.remaining as u32,
        current: code(view.current),
        start: view.scope.start as u32,
        end: view.scope.end as u32,
    }
}

#[cfg(live)]
pub const EMPTY: State = State { marks: [0; 256], count: 0, remaining: 0, current: 0, start: 0, end: 0 };

/// Form and sheet of a case, or the refusal of one of them, or else that of a slice that is too short.
#[cfg(live)]
pub fn accepted(case: &Case, short: Option<Refusal>) -> Result<(Form, Sheet), Refusal> {
    let both = Form::check(&case.form).and_then(|f| Sheet::check(&case.sheet).map(|s| (f, s)))?;
    short.map_or(Ok(both), Err)
}

/// What a split must leave: number and place, the state, and every word of the item slice.
#[cfg(live)]
fn expected(case: &Case, length: usize) -> (SplitAnswer, Vec<u32>) {
    match accepted(case, (length < ITEM_WORDS).then_some(Refusal::new(7))) {
        Err(r) => (SplitAnswer { number: r.number, place: code(r.place), state: EMPTY }, vec![0; length]),
        Ok((form, sheet)) => {
            let (held, records, refusal) = Held::split(&form, &sheet);
            let r = refusal.unwrap_or(Refusal::new(0));
            let answer = SplitAnswer { number: r.number, place: code(r.place), state: raw(&held) };
            (answer, padded(&records.concat(), length))
        }
    }
}

#[cfg(live)]
impl Compared {
    /// The slice is filled with a pattern before the call.
    fn split(&mut self, case: &Case, length: usize) {
        self.cases += 1;
        let mut items = pattern(length);
        let (form, sheet) = (&case.form, &case.sheet);
        let ours = proved::split(form, sheet, &mut items);
        let (theirs, words) = expected(case, length);
        let input = || format!("{} {} {length}", hex(form), hex(sheet));
        self.same("split", &input, ours, theirs);
        self.words("split items", &input, &items, &words);
    }
}

/// The stated length mostly, longer in a third of the cases, and the lengths about the limit now and then.
#[cfg(live)]
fn length(k: u64) -> usize {
    match k % 48 {
        0 => 0,
        16 => ITEM_WORDS - 1,
        k if k % 3 == 0 => ITEM_WORDS + (k as usize % 11) * 7,
        _ => ITEM_WORDS,
    }
}

/// Every argument of up to `symbols` of the alphabet's symbols.
pub fn arguments(symbols: usize) -> Vec<Vec<u8>> {
    const ALPHABET: [&str; 7] = ["v", "w", "b", "x", "-", "=", "é"];
    let mut all = vec![Vec::new()];
    let mut last = all.clone();
    for _ in 0..symbols {
        let longer = |a: &Vec<u8>| ALPHABET.map(|s| [a, s.as_bytes()].concat());
        last = last.iter().flat_map(longer).collect();
        all.extend(last.iter().cloned());
    }
    all
}

/// Clusters of one letter repeated, then nothing, an unknown letter, an ambiguous one, or an argument's with a value.
#[cfg(live)]
fn long_clusters() -> Vec<Vec<u8>> {
    let lengths = [1, 2, 3, 254, 255, 256, 257, 1000];
    let ends: [&[u8]; 4] = [b"", b"x", b"b", b"w7"];
    lengths.iter().flat_map(|n| ends.map(|end| [b"-", vec![b'v'; *n].as_slice(), end].concat())).collect()
}

/// All lines of one argument of up to five symbols, of two of up to three, of three of up to two; those of up to three symbols and
/// the long clusters behind so many words that a few places are left, one or none; then `count` random ones.
#[cfg(live)]
pub fn compare(seed: u64, count: u64) -> Compared {
    let mut compared = Compared::default();
    const FORM: &str = "switch(-v); switch(-\\xc3\\xa9); optional(number(-w)); optional(flag(-b)); optional(text(-b)); many(operand)";
    let form = notation::parse(FORM).expect("a form").write();
    let mut each = |arguments: &[&Vec<u8>]| {
        let sheet = Sheet { arguments: arguments.iter().map(|a| a.to_vec()).collect() };
        let k = compared.cases;
        compared.split(&Case { form: form.clone(), sheet: sheet.write() }, length(k));
    };
    let (five, three, two) = (arguments(5), arguments(3), arguments(2));
    five.iter().for_each(|a| each(&[a]));
    three.iter().for_each(|a| three.iter().for_each(|b| each(&[a, b])));
    two.iter().for_each(|a| two.iter().for_each(|b| two.iter().for_each(|c| each(&[a, b, c]))));
    let word = b"a".to_vec();
    for words in [0, 1, 252, 253, 254, 255, 256] {
        let before = vec![&word; words];
        three.iter().chain(&long_clusters()).for_each(|last| each(&[before.as_slice(), &[last]].concat()));
    }
    let mut rng = Rng::new(seed);
    cases::limits().iter().enumerate().for_each(|(k, case)| compared.split(case, length(k as u64)));
    for k in 0..count {
        let case = if k % 16 == 0 { cases::damaged(&mut rng) } else { cases::well_made(&mut rng) };
        compared.split(&case, length(k));
    }
    compared
}
