//! Item tables by their length: as many records as a state has marks, one more, some hundreds; cut records, tails, trailing
//! zeros and slices longer than the least. Every call that has items, against the second reading in forged.rs.

use line::cases::Rng;
use line::forged::{self, records, Call, Lent, State, ANSWER_WORDS, ITEM_WORDS, LIST_WORDS};
use line::format::*;
use line::marks;
use proved::Answer;

use super::calls::{self, some_field, some_use, Said};
use super::{lent, run, Compared};
use crate::lists::hex;

/// A well-made record over an area of that many bytes, with few names so that some are the same.
fn record(rng: &mut Rng, letters: &[char], area: usize) -> [u32; 7] {
    let part = |rng: &mut Rng, most: usize| {
        let at = rng.below(area.min(most) + 1);
        [at as u32, rng.below((area - at).min(most) + 1) as u32]
    };
    let ([name_at, name_length], [at, length]) = (part(rng, 2), part(rng, 40));
    let adjacent = rng.below(2) as u32;
    match 1 + rng.below(5) as u32 {
        1 => [1, adjacent, *rng.pick(letters) as u32, 0, 0, at, length],
        2 => [2, adjacent, 0, name_at, name_length, at, length],
        kind => [kind, 0, 0, 0, 0, at, length],
    }
}

/// One thing at fault in a table: a hole, an unknown kind, adjacent above 1, an unused word, a part outside the area.
fn damage(rng: &mut Rng, table: &mut [[u32; 7]]) {
    let last = table.len() - 1;
    let place = [0, last, last.min(255), last.min(256), rng.below(table.len())][rng.below(5)];
    let r = &mut table[place];
    match rng.below(5) {
        0 => *r = [0; 7],
        1 => r[0] = *rng.pick(&[0, 6, u32::MAX]),
        2 => r[1] = 2,
        3 => r[2 + rng.below(3)] += 1,
        _ => r[5 + rng.below(2)] = u32::MAX - rng.below(3) as u32,
    }
}

/// The words of a table, mostly in a slice of enough words, with zeros behind it, cut short or with a tail.
fn words(rng: &mut Rng, table: &[[u32; 7]]) -> Vec<u32> {
    let mut words = table.concat();
    if rng.chance(1, 6) {
        words.truncate(words.len() - rng.below(7).min(words.len()));
    }
    if !rng.chance(1, 40) {
        words.resize(words.len().max(ITEM_WORDS), 0);
    }
    let more = rng.below(2) * rng.below(300) + rng.below(7);
    words.resize(words.len() + more, 0);
    if !words.is_empty() && rng.chance(1, 4) {
        let back = 1 + rng.below(9).min(words.len() - 1);
        let at = words.len() - back;
        words[at] = 1 + rng.below(5) as u32;
    }
    words
}

/// A state over that many items, as far as there is one, and so many fields.
fn state(rng: &mut Rng, items: usize, fields: usize) -> State {
    let n = items.min(256);
    let mut marks = [0; 256];
    for mark in &mut marks[..n] {
        *mark = [0, 0, some_use(rng, fields), 2 + rng.below(n) as u16][rng.below(4)];
    }
    let (a, b) = if rng.chance(1, 3) { (rng.below(n + 1), rng.below(n + 1)) } else { (0, n) };
    let (start, end) = (a.min(b), a.max(b));
    let remaining = marks[start..end].iter().filter(|m| !marks::used(**m)).count() as u32;
    let count = if items > n && rng.chance(1, 2) { items } else { n } as u32;
    State { marks, count, remaining, current: rng.below(n + 1) as u32, start: start as u32, end: end as u32 }
}

/// A call that has items, with a number that may be past what there is.
fn call(rng: &mut Rng, form: &Form, count: usize) -> Call {
    let near = count.saturating_sub(3) + rng.below(6);
    let place = [rng.below(count + 2), near, 254 + rng.below(4), 1 << 32][rng.below(4).min(rng.below(4))];
    let node = rng.below(form.nodes.len() + 1);
    let field = some_field(rng, form.fields.len());
    match rng.below(12) {
        0 => Call::Get(place),
        1 => Call::Conflict,
        2 => Call::TakePositional(some_field(rng, FIELDS)),
        3..=5 => Call::OnlyOnce(place),
        6 => Call::Matches(node, place),
        7 => Call::TakeFlag(node, field),
        8 => Call::TakeArg(node, field),
        9 => Call::TakeCmd(rng.below(form.names.len() + 1)),
        10 => Call::Eval(node, ANSWER_WORDS - rng.below(8) / 7, LIST_WORDS - rng.below(8) / 7),
        _ => Call::Text(if rng.chance(1, 4) { 256 + rng.below(form.names.len() + 2) } else { place } as u32),
    }
}

/// The nearest earlier record with the same character or the same long name.
fn only_once(table: &[[u32; 7]], area: &[u8], place: usize) -> Answer {
    let name = |r: &[u32; 7]| match r[0] {
        1 => Some((1, r[2].to_le_bytes().to_vec())),
        2 => Some((2, area[r[3] as usize..][..r[4] as usize].to_vec())),
        _ => None,
    };
    let same = |i: &usize| name(&table[place]).is_some() && name(&table[*i]) == name(&table[place]);
    match (0..place).rev().find(same) {
        Some(earlier) => Answer { found: 1, first: earlier as u32, ..Answer::default() },
        None => Answer::default(),
    }
}

/// What a call says and leaves, in words that can be compared: its answer, the state, and the answer words with the list's
/// behind them, or the text.
type Told = (Said, Vec<u32>);

fn ours(lent: &Lent, call: &Call) -> Told {
    match *call {
        Call::Eval(node, answers, list) => {
            let mut written = vec![u32::MAX; answers + list];
            let (answers, list) = written.split_at_mut(answers);
            let r = proved::eval(lent, answers, list, node);
            let answer = Answer { number: r.number, place: r.place, found: r.words, first: r.tries, second: 0 };
            (Said::new(answer, r.state), written)
        }
        Call::Text(word) => match run::text(lent, word) {
            Ok(text) => (refused(lent, Refusal::new(0)), text.iter().map(|b| u32::from(*b)).collect()),
            Err(r) => {
                let answer = Answer { number: r.number, place: r.place, ..Answer::default() };
                (Said::new(answer, *lent.state), Vec::new())
            }
        },
        _ => (calls::ours(lent, call), Vec::new()),
    }
}

fn refused(lent: &Lent, r: Refusal) -> Said {
    Said::new(Answer::from(r), *lent.state)
}

/// The second reading: the refusal, and nothing changed; the texts and the earlier places themselves; else, where the table
/// fits a state, what the call says of its items in the least slice.
fn theirs(lent: &Lent, call: &Call) -> Told {
    let table = records(lent.items);
    if let Some(r) = forged::refusal(lent, call) {
        let written = if let Call::Eval(_, answers, list) = *call { vec![u32::MAX; answers + list] } else { Vec::new() };
        return (refused(lent, r), written);
    }
    match *call {
        Call::OnlyOnce(place) => {
            let area = Sheet::check(lent.sheet).expect("a sheet").arguments.concat();
            let answer = only_once(&table, &area, place);
            (Said::new(answer, *lent.state), Vec::new())
        }
        Call::Text(word) => {
            let text = run::text_of(lent, word).into_iter().map(u32::from).collect();
            (refused(lent, Refusal::new(0)), text)
        }
        _ => {
            let mut alone = table.concat();
            alone.resize(ITEM_WORDS, 0);
            ours(&Lent { items: &alone, ..*lent }, call)
        }
    }
}

pub fn compare(seed: u64, count: u64) -> Compared {
    let mut rng = Rng::new(seed);
    let mut compared = Compared::default();
    while compared.cases < count {
        let (form, sheet, _, _) = calls::start(&mut rng, 0);
        let good = Form::check(&form).expect("a form");
        let area = Sheet::check(&sheet).expect("a sheet").arguments.concat().len();
        let letters: Vec<char> = good.letters(FLAG).into_iter().chain(['a', 'b']).collect();
        let length = [rng.below(12), 255, 256, 256, 257, 257, 258 + rng.below(40), 258 + rng.below(600)][rng.below(8)];
        let mut table: Vec<[u32; 7]> = (0..length).map(|_| record(&mut rng, &letters, area)).collect();
        if length > 0 && rng.chance(1, 3) {
            damage(&mut rng, &mut table);
        }
        let items = words(&mut rng, &table);
        let held = records(&items).len();
        let fields = if rng.chance(1, 8) { FIELDS } else { good.fields.len() };
        let state = state(&mut rng, held, fields);
        let lent = Lent { form: &form, sheet: &sheet, items: &items, state: &state };
        for _ in 0..6 {
            let call = call(&mut rng, &good, held);
            let input = || format!("{call:?} on {} {} {items:?} {state:?}", hex(&form), hex(&sheet));
            let said = ours(&lent, &call);
            compared.cases += 1;
            compared.answered(said.0.answer.number);
            compared.same("table", &input, said, theirs(&lent, &call));
        }
        let node = rng.below(good.nodes.len() + 1);
        compared.lent(&lent, &Call::TakeFlag(node, some_field(&mut rng, good.fields.len())));
        let structs: Vec<[u32; 7]> = items.chunks_exact(7).map(|r| r.try_into().expect("seven words")).collect();
        compared.found(&lent, &structs, node, lent::sought(&lent, &structs, node));
    }
    compared
}
