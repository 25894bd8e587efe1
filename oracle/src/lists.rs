//! Fixed lists: a sample of answers per layer, in a form that a small program can read.

use line::{cases, cases::Rng, format::*};

use crate::list_form::{self, Case};
#[cfg(live)]
use crate::compare::{call_of, state_of};
#[cfg(live)]
use crate::script::Script;
#[cfg(live)]
use bpaf::doc::harness::{run_bytes, Held, View, Wanted};
#[cfg(live)]
use line::forged::{self, Lent, ITEM_WORDS};

/// Forms and sheets of a list stay short, so that a list is a page and not a book.
pub const LONGEST: usize = 220;

pub fn hex(bytes: &[u8]) -> String {
    if bytes.is_empty() {
        return "-".to_string();
    }
    bytes.iter().map(|b| format!("{b:02x}")).collect()
}

/// A place plus 1, or 0 for none.
fn code(place: Option<usize>) -> u32 {
    place.map_or(0, |p| p as u32 + 1)
}

/// The list of a layer, or none if there is no such layer in this build.
pub fn list(layer: &str, seed: u64, count: usize) -> Option<Vec<u8>> {
    let case: fn(&mut Rng) -> Case = match layer {
        "utf8" => utf8_case,
        "check" => check_case,
        #[cfg(live)]
        "split" => split_case,
        #[cfg(live)]
        "run" => run_case,
        #[cfg(live)]
        "text" => text_case,
        #[cfg(live)]
        "calls" => calls_case,
        _ => return None,
    };
    let mut rng = Rng::new(seed);
    let cases: Vec<Case> = (0..count).map(|_| case(&mut rng)).collect();
    Some(list_form::write(&format!("oracle list {layer} {seed} {count}"), &cases))
}

/// A case that fits a list: damaged ones among the well-made, as asked.
pub fn short_case(rng: &mut Rng, damaged_in: usize) -> cases::Case {
    loop {
        let damaged = damaged_in > 0 && rng.below(damaged_in) == 0;
        let case = if damaged { cases::damaged(rng) } else { cases::well_made(rng) };
        if case.form.len() + case.sheet.len() <= LONGEST {
            return case;
        }
    }
}

/// Whether the bytes are UTF-8; whether there is a first character, its value and its size.
fn utf8_case(rng: &mut Rng) -> Case {
    let bytes = utf8_bytes(rng);
    let (found, character, size) = first_character(&bytes).map_or((0, 0, 0), |c| (1, c as u32, c.len_utf8() as u32));
    let valid = u32::from(std::str::from_utf8(&bytes).is_ok());
    Case { answer: vec![valid, found, character, size], ..Case::new("utf8", &[], &bytes, &[]) }
}

/// Up to eight bytes: whole characters, and often one byte changed, lost or added.
fn utf8_bytes(rng: &mut Rng) -> Vec<u8> {
    const EDGES: [u32; 16] = [
        0, 0x7f, 0x80, 0x7ff, 0x800, 0xfff, 0x1000, 0xd7ff, 0xe000, 0xffff, 0x10000, 0x3ffff, 0x40000, 0xfffff, 0x100000,
        0x10ffff,
    ];
    let mut text = String::new();
    for _ in 0..rng.below(3) {
        text.push(char::from_u32(EDGES[rng.below(EDGES.len())]).expect("a scalar value"));
    }
    let mut bytes = text.into_bytes();
    let at = rng.below(bytes.len() + 1);
    const LEADS: [u8; 14] = [0x00, 0x7f, 0x80, 0xbf, 0xc0, 0xc1, 0xc2, 0xe0, 0xed, 0xef, 0xf0, 0xf4, 0xf5, 0xff];
    match rng.below(4) {
        0 if at < bytes.len() => bytes[at] = LEADS[rng.below(LEADS.len())],
        1 if at < bytes.len() => {
            bytes.remove(at);
        }
        2 => bytes.insert(at, LEADS[rng.below(LEADS.len())]),
        _ => {}
    }
    bytes
}

/// The character that the standard library finds at the beginning.
pub fn first_character(bytes: &[u8]) -> Option<char> {
    let valid = match std::str::from_utf8(bytes) {
        Ok(text) => text,
        Err(e) => std::str::from_utf8(&bytes[..e.valid_up_to()]).expect("the valid beginning"),
    };
    valid.chars().next()
}

/// The refusal of each of the two checks.
fn check_case(rng: &mut Rng) -> Case {
    let case = short_case(rng, 1);
    let refusals = [Form::check(&case.form).err(), Sheet::check(&case.sheet).err()];
    let answer = refusals.iter().flat_map(|r| r.as_ref().map_or([0, 0], |r| [r.number, code(r.place)])).collect();
    Case { answer, ..Case::new("check", &[], &case.form, &case.sheet) }
}

#[cfg(live)]
fn state(view: &View) -> Vec<u32> {
    let [remaining, start, end] = [view.remaining, view.scope.start, view.scope.end].map(|n| n as u32);
    let marks: Vec<u32> = view.marks.iter().map(|m| u32::from(*m)).collect();
    [&[view.marks.len() as u32, remaining, code(view.current), start, end], &marks[..]].concat()
}

/// The answer and the item records after splitting.
#[cfg(live)]
fn split_case(rng: &mut Rng) -> Case {
    let case = short_case(rng, 0);
    let form = Form::check(&case.form).expect("a well-made form");
    let sheet = Sheet::check(&case.sheet).expect("a well-made sheet");
    let (held, records, refused) = Held::split(&form, &sheet);
    let (number, place) = refused.map_or((0, 0), |r| (r.number, code(r.place)));
    let answer = [vec![number, place, 0, 0, 0, 0, 0], state(&held.view())].concat();
    let written = list_form::bytes(&records.concat());
    Case { answer, written, ..Case::new("split", &[], &case.form, &case.sheet) }
}

/// The answer of a run and its words.
#[cfg(live)]
fn run_case(rng: &mut Rng) -> Case {
    let case = short_case(rng, 20);
    let ran = run_bytes(&case.form, &case.sheet, Wanted::default());
    let answer = [ended(&ran.answer), state(&ran.state)].concat();
    Case { answer, written: list_form::bytes(&ran.answer.words), ..Case::new("run", &[], &case.form, &case.sheet) }
}

/// The numbers of a run or of an evaluation.
#[cfg(live)]
fn ended(a: &Answer) -> Vec<u32> {
    vec![a.number, code(a.place), a.tries as u32, a.words.len() as u32, 0, 0, 0]
}

/// The text of an answer word: bpaf's own for an item, the record's for a fallback.
#[cfg(live)]
fn text_case(rng: &mut Rng) -> Case {
    let wanted = rng.below(20);
    loop {
        let case = short_case(rng, usize::from(wanted == 0));
        let told = |word: usize, answer: Vec<u32>, written: Vec<u8>| {
            Case { answer, written, ..Case::new("text", &[word as u32], &case.form, &case.sheet) }
        };
        let checked = Form::check(&case.form).and_then(|f| Sheet::check(&case.sheet).map(|s| (f, s)));
        let (form, sheet) = match checked {
            Ok(both) => both,
            Err(r) => return told(rng.below(300), vec![r.number, code(r.place)], Vec::new()),
        };
        let (held, records, _) = Held::split(&form, &sheet);
        let texts: Vec<usize> = (0..form.names.len()).filter(|n| form.names[*n].ty == TEXT).collect();
        let word = match wanted {
            1 => rng.below(records.len() + 1),
            2 => 256 + rng.below(form.names.len() + 1),
            3..=8 if texts.is_empty() => continue,
            3..=8 => 256 + *rng.pick(&texts),
            _ if records.is_empty() => continue,
            _ => rng.below(records.len()),
        };
        let text = match word.checked_sub(256) {
            None => held.text(word),
            Some(record) => texts.contains(&record).then(|| form.name(record).to_vec()),
        };
        return match text {
            Some(bytes) => told(word, Vec::new(), bytes),
            None => told(word, vec![28], Vec::new()),
        };
    }
}

/// A single call on a state, its answer and the state left. A second state is given itself, not by its number.
#[cfg(live)]
fn calls_case(rng: &mut Rng) -> Case {
    loop {
        let case = short_case(rng, 0);
        let form = Form::check(&case.form).expect("a well-made form");
        let sheet = Sheet::check(&case.sheet).expect("a well-made sheet");
        let records = Held::split(&form, &sheet).1;
        let Ok(mut script) = Script::new(form, &sheet) else { continue };
        for _ in 0..rng.below(6) {
            let call = script.random_call(rng);
            script.call(&call).expect("a random call is allowed");
        }
        let call = script.random_call(rng);
        if call.starts_with("keep") || call.starts_with("load") {
            continue;
        }
        let second = script.second_state(&call).map(|v| state(&v));
        let words: Vec<&str> = call.split(' ').collect();
        let numbers: Vec<u32> = words[1..].iter().map(|w| w.parse().expect("a number")).collect();
        let kept = usize::from(second.is_some());
        let mut made = Case::new(words[0], &numbers[kept..], &case.form, &case.sheet);
        (made.given, made.second) = (state(&script.view()), second.unwrap_or_default());
        forge(rng, &mut made);
        if let Some(r) = refused(&made, &records) {
            made.answer = [&[r.number, code(r.place), 0, 0, 0, 0, 0], &made.given[..]].concat();
            return made;
        }
        let told = [&numbers[..kept], &made.head[1..]].concat();
        let told: String = told.iter().map(|n| format!(" {n}")).collect();
        let said = script.call(&format!("{}{told}", words[0])).expect("a call that is not refused is allowed");
        return answered(made, &said, &records, &script.view());
    }
}

/// The case with what the script said to its call, and the state that this left.
#[cfg(live)]
fn answered(made: Case, said: &str, records: &[[u32; 7]], left: &View) -> Case {
    let (numbers, written) = match made.call() {
        "get" if said == "yes" => (vec![0; 7], records[made.told(1) as usize].to_vec()),
        "get" => (vec![0; 7], Vec::new()),
        "eval" => evaluated(said),
        name => (answer(name, said), Vec::new()),
    };
    let answer = [numbers, state(left)].concat();
    Case { answer, written: list_form::bytes(&written), ..made }
}

/// One case in six is told another field, or is given a state with a mark that refusal 29 does not let through.
#[cfg(live)]
fn forge(rng: &mut Rng, made: &mut Case) {
    let name = made.call();
    let fields = Form::check(&made.form).expect("a well-made form").fields.len();
    let field = match name {
        "remove" | "take_flag" | "take_arg" => Some(2),
        "take_positional_word" => Some(1),
        _ => None,
    };
    match (rng.below(12), field) {
        (0 | 1, Some(at)) => {
            let edges = [fields - 1, fields, fields + 1, 15, 16, 17, (1 << 16) - 512, u32::MAX as usize];
            made.head[at] = *rng.pick(&edges) as u32;
        }
        // a refused `eval` leaves its slice as it was, which is more than a list can hold
        (2, _) if name != "eval" && name != "only_once" => {
            let count = made.given[0];
            let mark = 5 + rng.below(count as usize + 1).min(255);
            made.given.resize(made.given.len().max(mark + 1), 0);
            made.given[mark] = *rng.pick(&[1, 2 + count, 258, 509, 528, u32::from(u16::MAX)]);
        }
        _ => {}
    }
}

/// The refusal of a case's call for what it is given, by the second reading.
#[cfg(live)]
fn refused(made: &Case, records: &[[u32; 7]]) -> Option<Refusal> {
    let mut items = records.concat();
    items.resize(ITEM_WORDS, 0);
    let state = state_of(&made.given);
    let lent = Lent { form: &made.form, sheet: &made.sheet, items: &items, state: &state };
    match made.call() {
        "eval" => None,
        name => forged::refusal(&lent, &call_of(name, made)),
    }
}

/// The seven numbers of an answer that the script writes in words.
#[cfg(live)]
fn answer(call: &str, said: &str) -> Vec<u32> {
    let words: Vec<&str> = said.split(' ').collect();
    let place = |w: &str| code(w.parse().ok());
    let number = |w: &str| match w {
        "yes" | "done" => 1,
        "no" => 0,
        w => w.parse().expect("a number"),
    };
    match (call, &words[..]) {
        (_, ["refused", n, p]) => vec![number(n), place(p), 0, 0, 0, 0, 0],
        ("pick_winner", [first, p]) => vec![0, 0, 0, 0, number(first), place(p), 0],
        (_, ["-"]) => vec![0; 7],
        (_, [w @ ("yes" | "no" | "done")]) => vec![0, 0, 0, 0, number(w), 0, 0],
        (_, [v]) => vec![0, 0, 0, 0, 1, number(v), 0],
        (_, [v, w]) => vec![0, 0, 0, 0, 1, number(v), number(w)],
        _ => panic!("no such answer: {said}"),
    }
}

/// `eval`: number, place, tries and words, as the script writes them; what is missing is in no fixed list.
#[cfg(live)]
fn evaluated(said: &str) -> (Vec<u32>, Vec<u32>) {
    let said = said.split(" missing").next().unwrap_or(said);
    let numbers: Vec<Option<usize>> = said.split(' ').map(|w| w.parse().ok()).collect();
    let words: Vec<u32> = numbers[5..].iter().map(|w| w.expect("a word") as u32).collect();
    let answer = Answer {
        number: numbers[0].expect("a number") as u32,
        place: numbers[1],
        tries: numbers[3].expect("tries") as _,
        words: words.clone(),
    };
    (ended(&answer), words)
}
