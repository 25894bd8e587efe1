//! The whole run, one node's evaluation and the text of an answer word: every word that they leave, against the real bpaf.

use line::cases::{Case, Rng};
use line::forged::{self, records, Call, Lent, State, ANSWER_WORDS, ITEM_WORDS, LIST_WORDS};
use line::format::*;
use line::marks;
use proved::{code, Refused, RunAnswer};

use super::{calls, pattern, split, Compared};
use crate::lists::hex;
#[cfg(live)]
use super::split::{accepted, raw_view};
#[cfg(live)]
use bpaf::doc::harness::{self, Run, Wanted};
#[cfg(live)]
use line::cases;

/// The part that holds a text, or the refusal.
pub fn text<'a>(lent: &Lent<'a>, word: u32) -> Result<&'a [u8], Refused> {
    let t = proved::text(lent, word);
    if t.number != 0 {
        assert_eq!((t.source, t.offset, t.length), (0, 0, 0), "refused, the part is empty");
        return Err(Refused { number: t.number, place: t.place });
    }
    let from = if t.source == 0 { lent.sheet } else { lent.form };
    Ok(&from[t.offset as usize..][..t.length as usize])
}

/// A base value's word, as a user reads it.
fn show_base(base: Base, word: u32, lent: &Lent) -> String {
    match base {
        Base::YesNo => if word == 1 { "yes" } else { "no" }.to_string(),
        Base::Number => word.to_string(),
        Base::Text => format!("{:?}", String::from_utf8_lossy(text(lent, word).expect("a text of the answer"))),
    }
}

/// The next value of an answer, by its kind.
fn show_value(kind: Kind, words: &mut impl Iterator<Item = u32>, lent: &Lent) -> String {
    let mut next = || words.next().expect("a word of the answer");
    match kind {
        Kind::Base(base) => show_base(base, next(), lent),
        Kind::Optional(base) if next() == 1 => show_base(base, next(), lent),
        Kind::Optional(_) => "absent".to_string(),
        Kind::OptionalList(_) if next() == 0 => "absent".to_string(),
        Kind::List(base) | Kind::OptionalList(base) => {
            let all: Vec<String> = (0..next()).map(|_| show_base(base, next(), lent)).collect();
            format!("[{}]", all.join(", "))
        }
        Kind::ListOfOptional(base) => {
            let all: Vec<String> = (0..next()).map(|_| show_value(Kind::Optional(base), words, lent)).collect();
            format!("[{}]", all.join(", "))
        }
    }
}

/// The entries of a list slice, a line each.
fn show_list(list: &[u32]) {
    let entries = list.chunks_exact(3).take_while(|entry| entry[0] != 0);
    entries.for_each(|entry| println!("missing: node {} in {}..{}", entry[0] - 1, entry[1], entry[2]));
}

/// A form in the notation of notation.rs and this program's further arguments: items and values, by the proved code.
pub fn show(form: &str) -> bool {
    let Some((form, arguments)) = split::given(form) else { return false };
    let kinds = form.kinds().expect("a form of the notation is accepted");
    let (form_bytes, sheet) = (form.write(), Sheet { arguments: arguments.clone() }.write());
    let [mut items, mut answers, mut list] = [ITEM_WORDS, ANSWER_WORDS, LIST_WORDS].map(|length| vec![0; length]);
    let ended = proved::run(&form_bytes, &sheet, &mut items, &mut answers, &mut list);
    split::show_items(&items, &arguments.concat());
    if ended.number != 0 {
        let place = if ended.place == 0 { String::new() } else { format!(" at {}", ended.place - 1) };
        println!("refused {}{place}, {} tries", ended.number, ended.tries);
        show_list(&list);
        return false;
    }
    let lent = Lent { form: &form_bytes, sheet: &sheet, items: &items, state: &ended.state };
    let mut words = answers[..ended.words as usize].iter().copied();
    for (k, field) in form.fields.iter().enumerate() {
        println!("field {k}: {}", show_value(kinds[*field as usize], &mut words, &lent));
    }
    println!("{} tries", ended.tries);
    true
}

/// The words, then 0 up to the length.
#[cfg(live)]
pub fn padded(words: &[u32], length: usize) -> Vec<u32> {
    let mut all = vec![0; length];
    all[..words.len()].copy_from_slice(words);
    all
}

/// An answer as the library hands it over, all but its words.
pub fn handed(a: &Answer, state: State) -> RunAnswer {
    RunAnswer { number: a.number, place: code(a.place), tries: a.tries as u32, words: a.words.len() as u32, state }
}

/// The words of the slices that a run is lent: items, answers, list.
pub type Lengths = [usize; 3];

pub const LEAST: Lengths = [ITEM_WORDS, ANSWER_WORDS, LIST_WORDS];

/// A run of the proved code, and what it leaves in its three slices, which were filled with a pattern.
pub fn ours(case: &Case, lengths: Lengths) -> (RunAnswer, [Vec<u32>; 3]) {
    let mut lent = lengths.map(pattern);
    let [items, answers, list] = &mut lent;
    (proved::run(&case.form, &case.sheet, items, answers, list), lent)
}

/// What a run must be: the real bpaf's, or refused for what it is given.
#[cfg(live)]
pub fn expected(case: &Case, [items, answers, list]: Lengths) -> Run {
    match accepted(case, forged::too_short(items, answers, list)) {
        Err(r) => harness::refused_run(r),
        Ok((form, sheet)) => {
            harness::run(&form, &sheet, Wanted { items: true, sides: true, put_back: true, ..Wanted::default() })
        }
    }
}

/// Every word that a run must leave in its three slices.
#[cfg(live)]
pub fn left(ran: &Run, [items, answers, list]: Lengths) -> [Vec<u32>; 3] {
    let (records, missing) = (ran.records.concat(), ran.missing.concat());
    [padded(&records, items), padded(&ran.answer.words, answers), padded(&missing, list)]
}

/// The stated lengths mostly, longer in a third of the cases, and those about the limits now and then.
#[cfg(live)]
pub fn lengths(k: u64) -> Lengths {
    let spare = if k % 3 == 0 { 1 + k as usize % 29 } else { 0 };
    let [items, answers, list] = LEAST.map(|length| length + spare);
    match (k / 7) % 24 {
        0 => [0, answers, list],
        1 => [ITEM_WORDS - 1, answers, list],
        2 => [items, 0, list],
        3 => [items, ANSWER_WORDS - 1, list],
        4 => [0, 0, 0],
        5 => [items, answers, 0],
        6 => [items, answers, LIST_WORDS - 1],
        7 => [items, ANSWER_WORDS - 1, LIST_WORDS - 1],
        _ => [items, answers, list],
    }
}

#[cfg(live)]
impl Compared {
    /// A run, with every word that it leaves; what it must be.
    pub fn run(&mut self, case: &Case, lengths: Lengths) -> Run {
        let theirs = expected(case, lengths);
        self.run_as(case, lengths, &theirs);
        theirs
    }

    /// The same of a run that must be this one.
    pub fn run_as(&mut self, case: &Case, lengths: Lengths, theirs: &Run) {
        self.cases += 1;
        let (ours, lent) = ours(case, lengths);
        self.answered(ours.number);
        let input = || format!("{} {} {lengths:?}", hex(&case.form), hex(&case.sheet));
        self.same("run", &input, ours, handed(&theirs.answer, raw_view(&theirs.state)));
        for (k, words) in left(theirs, lengths).iter().enumerate() {
            self.words(["items", "answers", "list"][k], &input, &lent[k], words);
        }
    }

    /// One node on a walk's state, with every word that it leaves; the number and the list that the real one gave.
    pub fn eval(&mut self, walk: &calls::Walk, node: usize, lengths: [usize; 2]) -> (u32, Vec<Entry>) {
        self.cases += 1;
        let given = walk.state();
        let mut left = lengths.map(pattern);
        let [answers, list] = &mut left;
        let ours = proved::eval(&walk.lent(&given), answers, list, node);
        self.answered(ours.number);
        let (theirs, missing, state) = walk.eval(node);
        let input = || format!("node {node} on {} {} {given:?}", hex(&walk.form_bytes), hex(&walk.sheet_bytes));
        self.same("eval", &input, ours, handed(&theirs, state));
        self.words("eval answers", &input, &left[0], &padded(&theirs.words, lengths[0]));
        self.words("eval list", &input, &left[1], &padded(&missing.concat(), lengths[1]));
        (theirs.number, missing)
    }
}

/// Well-made and damaged forms and sheets, those about each limit, and every short line over a small alphabet.
#[cfg(live)]
pub fn compare(seed: u64, count: u64) -> Compared {
    let mut compared = Compared::default();
    let mut rng = Rng::new(seed);
    for (k, case) in cases::limits().iter().enumerate() {
        compared.run(case, LEAST);
        compared.run(case, lengths(k as u64));
    }
    for form in cases::sample_forms() {
        for sheet in cases::short_lines(b"vwx-=7", 2, 2) {
            compared.run(&Case { form: form.write(), sheet: sheet.write() }, LEAST);
        }
    }
    for k in 0..count {
        let case = if k % 8 == 0 { cases::damaged(&mut rng) } else { cases::well_made(&mut rng) };
        compared.run(&case, lengths(k));
    }
    compared
}

/// One node of a form on states made by splitting and earlier calls: half of them flags, arguments and positionals.
#[cfg(live)]
pub fn compare_eval(seed: u64, count: u64) -> Compared {
    let mut compared = Compared::default();
    let mut rng = Rng::new(seed);
    while compared.cases < count {
        let walk = calls::Walk::new(&mut rng);
        let leaves: Vec<usize> = (0..walk.form.nodes.len()).filter(|k| walk.form.nodes[*k].kind <= 3).collect();
        let mut walk = walk;
        for _ in 0..8 {
            walk.step(&mut rng);
            let node = if rng.chance(3, 4) { *rng.pick(&leaves) } else { rng.below(walk.form.nodes.len()) };
            let spare = rng.below(3);
            compared.eval(&walk, node, [ANSWER_WORDS + spare, LIST_WORDS + spare]);
        }
    }
    compared
}

/// The text that an answer word stands for: an item's, or a name record's.
pub fn text_of(lent: &Lent, word: u32) -> Vec<u8> {
    if word >= 256 {
        return Form::check(lent.form).expect("a form").name(word as usize - 256).to_vec();
    }
    let record = records(lent.items)[word as usize];
    let area = Sheet::check(lent.sheet).expect("a sheet").arguments.concat();
    area[record[5] as usize..][..record[6] as usize].to_vec()
}

/// `eval` where all used places look alike, with the marks that must be left: those that were there, and the mark of the field
/// whose tree has the node. And what it writes.
fn plain_eval(lent: &Lent, node: usize, lengths: [usize; 2]) -> (RunAnswer, [Vec<u32>; 2]) {
    let mut written = lengths.map(pattern);
    let [answers, list] = &mut written;
    let ended = proved::eval(&Lent { state: &calls::plain(lent.state), ..*lent }, answers, list, node);
    let form = Form::check(lent.form).expect("a form");
    let mark = marks::mark_of(marks::field_of(&form, node));
    let state = calls::renumbered(lent.state, &ended.state, mark);
    (RunAnswer { state, ..ended }, written)
}

impl Compared {
    /// `eval` on what may be forged: refused by the second reading, nothing changes; else all but the marks is as on plain states,
    /// and a list comes only with 20. The number that it ends with.
    pub fn forged_eval(&mut self, lent: &Lent, node: usize, lengths: [usize; 2]) -> u32 {
        let mut left = lengths.map(pattern);
        let [answers, list] = &mut left;
        let ours = proved::eval(lent, answers, list, node);
        self.answered(ours.number);
        let input = || format!("node {node} {lengths:?} on {} {} {:?}", hex(lent.form), hex(lent.sheet), lent.state);
        match forged::refusal(lent, &Call::Eval(node, lengths[0], lengths[1])) {
            Some(r) => {
                self.same("eval", &input, ours, handed(&Answer::refused(r, 0), *lent.state));
                self.words("eval answers", &input, &left[0], &pattern(lengths[0]));
                self.words("eval list", &input, &left[1], &pattern(lengths[1]));
            }
            None => {
                let (plain, written) = plain_eval(lent, node, lengths);
                self.same("eval", &input, ours, plain);
                self.words("eval answers", &input, &left[0], &written[0]);
                self.words("eval list", &input, &left[1], &written[1]);
                self.same("eval", &input, ours.number == 0 || (20..27).contains(&ours.number), true);
                self.same("eval list", &input, left[1].iter().any(|w| *w != 0), ours.number == 20);
            }
        }
        ours.number
    }
}

/// `eval` and `text` on forged states and tables: the refusal, and that nothing changed.
pub fn compare_forged(seed: u64, count: u64) -> Compared {
    let mut compared = Compared::default();
    let mut rng = Rng::new(seed);
    while compared.cases < count {
        let forgery = calls::Forgery::new(&mut rng);
        let lent = forgery.lent();
        let input = || format!("{} {} {:?}", hex(lent.form), hex(lent.sheet), lent.state);
        let lengths = [ANSWER_WORDS, LIST_WORDS].map(|least| [0, least - 1, least, least + 3][rng.below(4).max(rng.below(4))]);
        compared.cases += 2;
        compared.forged_eval(&lent, rng.below(forgery.nodes + 2), lengths);
        let word = if rng.chance(1, 3) { 256 + rng.below(6) } else { rng.below(lent.state.count.min(300) as usize + 2) } as u32;
        let theirs = match forged::refusal(&lent, &Call::Text(word)) {
            Some(r) => Err(Refused::from(r)),
            None => Ok(text_of(&lent, word)),
        };
        compared.same("text", &|| format!("word {word} on {}", input()), text(&lent, word).map(<[u8]>::to_vec), theirs);
    }
    compared
}
