//! Batches: every word that a batch leaves in its four slices, against single calls and, with bpaf at hand, against the real bpaf
//! on each sheet. Which words stand where is the second reading's, in `line::batches`.

use std::collections::{BTreeMap, BTreeSet};

use line::batches::{self, Fault, Slices, SHEETS};
use line::cases::{self, BatchCase, Case, Rng};
use line::format::Sheet;
use line::parts;
use proved::{Refused, RunAnswer};

use super::run::{self, LEAST};
#[cfg(live)]
use super::split::raw_view;
use super::{difference, pattern, smallest, Compared, Difference, Goal};
use crate::lists::hex;

/// What a batch is given: a form, its bytes, and slices of these lengths.
#[derive(Clone)]
pub struct Given {
    pub form: Vec<u8>,
    pub batch: Vec<u8>,
    pub lengths: [usize; 4],
}

/// What a batch answers, number and place, and what it leaves in its four slices.
pub type Told = [Vec<u32>; 5];

const NAMES: [&str; 5] = ["answer", "records", "items", "answers", "list"];

fn told(number: u32, place: u32, [records, items, answers, list]: Slices) -> Told {
    [vec![number, place], records, items, answers, list]
}

/// A sheet's record, and its parts of the other slices.
pub fn single(answer: RunAnswer, [items, answers, list]: [Vec<u32>; 3]) -> Slices {
    [vec![answer.number, answer.place, answer.tries, answer.words], items, answers, list]
}

/// By a single call of the proved code.
pub fn called(case: &Case) -> Slices {
    let (answer, left) = run::ours(case, LEAST);
    single(answer, left)
}

/// By the real bpaf.
#[cfg(live)]
pub fn real(case: &Case) -> Slices {
    let ran = run::expected(case, LEAST);
    single(run::handed(&ran.answer, raw_view(&ran.state)), run::left(&ran, LEAST))
}

/// A call on a batch: form, batch, records, items, answers and list.
type Call = fn(&[u8], &[u8], &mut [u32], &mut [u32], &mut [u32], &mut [u32]) -> Refused;

/// Who says what a single run leaves.
pub type Single = (&'static str, fn(&Case) -> Slices);

/// The call that is compared, and with whom.
pub struct Runs {
    pub call: Call,
    pub singles: &'static [Single],
}

static PLAIN: Runs = Runs {
    call: proved::run_batch,
    singles: &[
        ("single calls", called),
        #[cfg(live)]
        ("bpaf", real),
    ],
};

impl Given {
    pub fn new(form: &[u8], batch: Vec<u8>, lengths: [usize; 4]) -> Given {
        Given { form: form.to_vec(), batch, lengths }
    }

    pub fn of(case: &BatchCase, lengths: [usize; 4]) -> Given {
        Given::new(&case.form, batches::write(&case.sheets), lengths)
    }

    /// The slices are filled with a pattern before the call.
    fn ours(&self, call: Call) -> Told {
        let mut lent = self.lengths.map(pattern);
        let [records, items, answers, list] = &mut lent;
        let answer = call(&self.form, &self.batch, records, items, answers, list);
        told(answer.number, answer.place, lent)
    }

    fn theirs(&self, single: fn(&Case) -> Slices) -> Told {
        let run = |sheet: &[u8]| single(&Case { form: self.form.clone(), sheet: sheet.to_vec() });
        let (number, left) = batches::run(&self.batch, self.lengths, run);
        told(number, 0, left)
    }

    fn difference(&self, runs: &Runs, ours: &Told) -> Option<Difference> {
        runs.singles.iter().find_map(|(whose, single)| difference(&NAMES, whose, ours, &self.theirs(*single)))
    }

    /// The same with a sheet less, each in turn, then with an argument less of one of them.
    fn smaller(&self) -> Vec<Given> {
        let Ok(parts) = batches::read(&self.batch, self.lengths) else { return Vec::new() };
        let sheets: Vec<Vec<u8>> = parts.into_iter().map(<[u8]>::to_vec).collect();
        let lengths = [0, 1, 2, 3].map(|j| self.lengths[j].saturating_sub(batches::SINGLE[j]));
        let mut all = Vec::new();
        for k in 0..sheets.len() {
            let fewer = [&sheets[..k], &sheets[k + 1..]].concat();
            all.push(Given::new(&self.form, batches::write(&fewer), lengths));
        }
        for (k, sheet) in sheets.iter().enumerate() {
            let arguments = Sheet::check(sheet).map_or(Vec::new(), |s| s.arguments);
            for j in 0..arguments.len() {
                let shorter = Sheet { arguments: [&arguments[..j], &arguments[j + 1..]].concat() };
                let fewer = [&sheets[..k], &[shorter.write()], &sheets[k + 1..]].concat();
                all.push(Given::new(&self.form, batches::write(&fewer), self.lengths));
            }
        }
        all
    }
}

/// The comparison, and what the batches that were compared had.
pub struct Batches {
    pub compared: Compared,
    runs: &'static Runs,
    seen: Seen,
}

#[derive(Default)]
struct Seen {
    sheets: u64,
    counts: BTreeSet<usize>,
    mixed: u64,
    unread: u64,
    empty: u64,
    twice: u64,
    longer: u64,
    isolated: u64,
    faults: BTreeMap<Fault, u64>,
}

impl Batches {
    pub fn new(runs: &'static Runs) -> Batches {
        Batches { compared: Compared::default(), runs, seen: Seen::default() }
    }

    /// A batch, with every word that it leaves.
    pub fn batch(&mut self, given: &Given) -> Told {
        self.compared.cases += 1;
        let runs = self.runs;
        let ours = given.ours(runs.call);
        if let Some(found) = given.difference(runs, &ours) {
            let differs = |small: &Given| small.difference(runs, &small.ours(runs.call));
            let (small, (what, word, theirs)) = smallest((given.clone(), found), self.compared.tries(), Given::smaller, differs);
            let input = || format!("{} {} {:?}", hex(&small.form), hex(&small.batch), small.lengths);
            self.compared.same(&what, &input, word, theirs);
        }
        self.seen(given, &ours);
        ours
    }

    fn seen(&mut self, given: &Given, ours: &Told) {
        let sheets = match batches::read(&given.batch, given.lengths) {
            Ok(sheets) => sheets,
            Err(fault) => {
                self.compared.answered(15);
                return *self.seen.faults.entry(fault).or_default() += 1;
            }
        };
        let numbers: Vec<u32> = ours[1].chunks_exact(4).take(sheets.len()).map(|record| record[0]).collect();
        let different: BTreeSet<&[u8]> = sheets.iter().copied().collect();
        numbers.iter().for_each(|number| self.compared.answered(*number));
        let seen = &mut self.seen;
        seen.sheets += sheets.len() as u64;
        seen.counts.insert(sheets.len());
        seen.mixed += u64::from(numbers.contains(&0) && numbers.iter().any(|number| *number != 0));
        seen.unread += u64::from(numbers.first().is_some_and(|number| (1..=4).contains(number)));
        seen.empty += sheets.iter().filter(|sheet| sheet.is_empty()).count() as u64;
        seen.twice += u64::from(different.len() < sheets.len());
        seen.longer += u64::from(given.lengths != batches::room(sheets.len()));
    }

    /// Two batches with one form that agree on sheet k agree on its record and its parts, if neither is refused.
    pub fn isolated(&mut self, rng: &mut Rng, (pair, k): ([BatchCase; 2], usize)) {
        let [first, second] = pair.map(|case| Given::of(&case, longer(rng, case.sheets.len())));
        let (a, b) = (self.batch(&first), self.batch(&second));
        let input = || format!("sheet {k}: {} {} {}", hex(&first.form), hex(&first.batch), hex(&second.batch));
        for j in 0..4 {
            let part = batches::part(j, k);
            self.compared.words(NAMES[j + 1], &input, &a[j + 1][part.clone()], &b[j + 1][part]);
        }
        self.seen.isolated += 1;
    }

    /// The least counts, in the proportion of the batches that were asked for.
    pub fn goals(&self, count: u64) -> Vec<Goal> {
        let seen = &self.seen;
        let goal = |what: &'static str, met: u64, least: u64| Goal { what, met, least };
        let fault = |what: &'static str, fault: Fault| goal(what, seen.faults.get(&fault).copied().unwrap_or(0), 30 + count / 500);
        let bytes = |what: &'static str, of: parts::Fault| fault(what, Fault::Bytes(of));
        vec![
            goal("batches", self.compared.cases, count),
            goal("sheets", seen.sheets, 4 * count),
            goal("different counts of sheets", seen.counts.len() as u64, SHEETS as u64 + 1),
            goal("different numbers, 15 among them", self.compared.numbers.len() as u64, 18),
            goal("batches with accepted sheets and refused ones", seen.mixed, count / 4),
            goal("batches with a form at fault", seen.unread, count / 20),
            goal("sheets of no bytes", seen.empty, count / 10),
            goal("batches with the same sheet at several places", seen.twice, count / 4),
            goal("batches with slices that are longer than their parts", seen.longer, count / 4),
            goal("pairs that agree on one sheet alone", seen.isolated, count / 8),
            bytes("refused with 15 for a header cut off", parts::Fault::Short),
            bytes("refused with 15 for a count over 32", parts::Fault::Count),
            bytes("refused with 15 for a first offset that is not 0", parts::Fault::First),
            bytes("refused with 15 for an offset that falls", parts::Fault::Falling),
            bytes("refused with 15 for an end past the bytes", parts::Fault::Past),
            bytes("refused with 15 for bytes left over", parts::Fault::LeftOver),
            fault("refused with 15 for a short record slice", Fault::Slice(0)),
            fault("refused with 15 for a short item slice", Fault::Slice(1)),
            fault("refused with 15 for a short answer slice", Fault::Slice(2)),
            fault("refused with 15 for a short list slice", Fault::Slice(3)),
        ]
    }
}

/// Room for so many sheets, in half of the cases with something behind it in each slice.
fn longer(rng: &mut Rng, sheets: usize) -> [usize; 4] {
    let more = rng.chance(1, 2);
    batches::room(sheets).map(|length| length + if more { rng.below(40) } else { 0 })
}

/// The same, now and then with one slice that is a word short or empty.
pub fn lengths(rng: &mut Rng, sheets: usize) -> [usize; 4] {
    let mut lengths = longer(rng, sheets);
    let k = rng.below(4);
    match rng.below(16) {
        0 => lengths[k] = batches::room(sheets)[k].saturating_sub(1),
        1 => lengths[k] = rng.below(lengths[k] + 1),
        _ => {}
    }
    lengths
}

/// Batches that are known, at their limits and with each byte changed; then `count` of all sorts, one in four a pair that agrees on
/// a sheet, one in eight at fault.
pub fn compare(seed: u64, count: u64) -> Compared {
    let mut batches = Batches::new(&PLAIN);
    batches.known();
    let mut rng = Rng::new(seed);
    for k in 0..count {
        if k % 4 == 0 {
            let pair = cases::agreeing(&mut rng);
            batches.isolated(&mut rng, pair);
            continue;
        }
        let case = cases::batched(&mut rng);
        let mut given = Given::of(&case, lengths(&mut rng, case.sheets.len()));
        if k % 8 == 1 {
            given.batch = cases::damaged_batch(&mut rng, &case);
        }
        batches.batch(&given);
    }
    let goals = batches.goals(count);
    Compared { goals, ..batches.compared }
}
