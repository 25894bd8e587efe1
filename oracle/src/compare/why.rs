//! Why a place was left over: every answer against the second reading in `line::reasons`, and every word that is left against the
//! run's. With bpaf at hand the run must be the real one, the winner at the place of 27 that of bpaf's `conflict`, and a name given
//! earlier that of its `only_once`, at every place.

use std::collections::BTreeMap;

use line::cases::{self, Case, Rng};
use line::forged::{records, Lent};
use line::format::*;
use line::reasons::{self, Ran};
use proved::{code, RunAnswer, WhyAnswer};

use super::run::{self, Lengths, LEAST};
#[cfg(live)]
use super::split::{accepted, raw_view};
use super::{pattern, Compared, Goal};
use crate::lists::hex;
#[cfg(live)]
use bpaf::doc::harness::{self, Held, Wanted};
#[cfg(live)]
use line::forged::too_short;

/// A run of the proved code that is asked about: its answer, what it left in slices of these lengths, and its items.
pub struct Asked {
    case: Case,
    lengths: Lengths,
    pub answer: RunAnswer,
    left: [Vec<u32>; 3],
    items: Vec<[u32; 7]>,
}

impl Asked {
    pub fn new(case: Case, lengths: Lengths) -> Asked {
        let (answer, left) = run::ours(&case, lengths);
        let items = records(&left[0]);
        Asked { case, lengths, answer, left, items }
    }

    pub fn count(&self) -> usize {
        self.answer.state.count as usize
    }

    /// The place that the run names.
    fn place(&self) -> Option<usize> {
        self.answer.place.checked_sub(1).map(|place| place as usize)
    }

    pub fn input(&self, place: usize) -> String {
        format!("place {place} of {} {} {:?}", hex(&self.case.form), hex(&self.case.sheet), self.lengths)
    }

    /// Before the call the slices have another pattern than before the run.
    fn ours(&self, place: usize) -> (WhyAnswer, [Vec<u32>; 3]) {
        let mut lent = self.lengths.map(|length| pattern(length).iter().map(|word| !word).collect::<Vec<u32>>());
        let [items, answers, list] = &mut lent;
        (proved::why(&self.case.form, &self.case.sheet, place, items, answers, list), lent)
    }

    /// By the second reading.
    fn theirs(&self, place: usize) -> WhyAnswer {
        let Case { form, sheet } = &self.case;
        let ended = Refusal { number: self.answer.number, place: self.place() };
        let marks = &self.answer.state.marks[..self.count()];
        match (Ran { form, sheet, ended, items: &self.items, marks }).why(place) {
            Err(r) => WhyAnswer { number: r.number, place: code(r.place), reason: 0, detail: 0 },
            Ok(reason) => {
                let (reason, detail) = reason.numbers();
                WhyAnswer { number: 0, place: 0, reason, detail }
            }
        }
    }
}

/// What 28 was given for.
#[derive(Clone, Copy, PartialEq, Eq, PartialOrd, Ord)]
enum Cause {
    NoPlace,
    Used,
    Ended(u32),
}

impl Cause {
    fn of(asked: &Asked, place: usize) -> Cause {
        match asked.answer.number {
            27 if place < asked.count() => Cause::Used,
            27 => Cause::NoPlace,
            number => Cause::Ended(number),
        }
    }
}

/// The comparison, and what the questions that were compared had.
#[derive(Default)]
pub struct Whys {
    pub compared: Compared,
    runs: u64,
    reasons: BTreeMap<u32, u64>,
    causes: BTreeMap<Cause, u64>,
    longer: u64,
    /// names given earlier, and choices lost at the place of 27, as bpaf has them
    again: u64,
    lost: u64,
}

impl Whys {
    /// One question: its answer, and every word of the three slices.
    pub fn ask(&mut self, asked: &Asked, place: usize) -> WhyAnswer {
        self.compared.cases += 1;
        let (why, left) = asked.ours(place);
        self.compared.answered(why.number);
        let input = || asked.input(place);
        self.compared.same("why", &input, why, asked.theirs(place));
        for (k, words) in left.iter().enumerate() {
            self.compared.words(["items", "answers", "list"][k], &input, words, &asked.left[k]);
        }
        match why.number {
            0 => *self.reasons.entry(why.reason).or_default() += 1,
            28 => *self.causes.entry(Cause::of(asked, place)).or_default() += 1,
            _ => {}
        }
        why
    }

    /// A run, and what is asked about it at these places.
    pub fn run(&mut self, asked: &Asked, places: &[usize]) -> Vec<WhyAnswer> {
        self.runs += u64::from(asked.answer.number == 27);
        self.longer += u64::from(asked.lengths.iter().zip(LEAST).all(|(length, least)| *length > least));
        let told: Vec<WhyAnswer> = places.iter().map(|place| self.ask(asked, *place)).collect();
        self.given_earlier(asked);
        #[cfg(live)]
        self.real(asked, places, &told);
        told
    }

    /// Every place of a line, present or not: the single call and the second reading.
    fn given_earlier(&mut self, asked: &Asked) {
        let Case { form, sheet } = &asked.case;
        let area = Sheet::check(sheet).map_or(Vec::new(), |s| s.arguments.concat());
        let lent = Lent { form, sheet, items: &asked.left[0], state: &asked.answer.state };
        for place in 0..asked.items.len() {
            let ours = proved::only_once(&lent, place);
            let theirs = reasons::given_earlier(&asked.items, &area, place);
            let found = (ours.found == 1).then_some(ours.first as usize);
            self.compared.same("only_once", &|| asked.input(place), (ours.number, found), (0, theirs));
        }
    }

    fn pairs(&self) -> u64 {
        self.reasons.values().sum()
    }

    /// The least counts, in the proportion of the places that were asked for.
    fn goals(&self, count: u64) -> Vec<Goal> {
        let goal = |what: &'static str, met: u64, least: u64| Goal { what, met, least };
        let some = count / 1000;
        let reason = |what: &'static str, number: u32| goal(what, self.reasons.get(&number).copied().unwrap_or(0), some);
        let refused = |what: &'static str, cause: Cause| goal(what, self.causes.get(&cause).copied().unwrap_or(0), some);
        let mut goals = vec![
            goal("places left over", self.pairs(), count),
            reason("that lost a choice", 1),
            reason("with a name given earlier too", 2),
            reason("with a value whose key is used", 3),
            reason("with a name of no node", 4),
            reason("with a word, where the form has no positional", 5),
            reason("with an unknown letter", 6),
            reason("with none of these", 7),
            goal("runs that ended in 27", self.runs, count / 20),
            refused("refused with 28 for a place that is not there", Cause::NoPlace),
            refused("refused with 28 for a place that is used", Cause::Used),
            refused("refused with 28 after a run that was accepted", Cause::Ended(0)),
            refused("refused with 28 after a run that ended in 20", Cause::Ended(20)),
            goal("different numbers, 0 and 28 among them", self.compared.numbers.len() as u64, 12),
            goal("runs with slices that are longer than they must be", self.longer, count / 100),
        ];
        if cfg!(live) {
            goals.push(goal("names given earlier, by bpaf's `only_once`", self.again, count / 20));
            goals.push(goal("choices lost at the place of 27, by bpaf's `conflict`", self.lost, some));
        }
        goals
    }
}

#[cfg(live)]
impl Whys {
    /// The real bpaf's run, its `only_once` and its `conflict`, against the run and what was told at these places.
    fn real(&mut self, asked: &Asked, places: &[usize], told: &[WhyAnswer]) {
        let [items, answers, list] = asked.lengths;
        let wanted = Wanted { items: true, ..Wanted::default() };
        let (ran, held) = match accepted(&asked.case, too_short(items, answers, list)) {
            Err(refusal) => (harness::refused_run(refusal), None),
            Ok((form, sheet)) => {
                let (ran, held) = harness::run_held(&form, &sheet, wanted);
                (ran, Some(held))
            }
        };
        let input = || asked.input(0);
        self.compared.same("run", &input, asked.answer, run::handed(&ran.answer, raw_view(&ran.state)));
        for (k, words) in run::left(&ran, asked.lengths).iter().enumerate() {
            self.compared.words(["items", "answers", "list"][k], &input, &asked.left[k], words);
        }
        if let Some(held) = held {
            self.real_names(asked, &held);
            places.iter().zip(told).for_each(|(place, why)| self.real_reason(asked, &held, *place, why));
        }
    }

    /// `only_once` at every place, present or not.
    fn real_names(&mut self, asked: &Asked, held: &Held) {
        let area = Sheet::check(&asked.case.sheet).expect("an accepted sheet").arguments.concat();
        for place in 0..asked.items.len() {
            let (ours, theirs) = (reasons::given_earlier(&asked.items, &area, place), held.only_once(place));
            self.compared.same("bpaf's only_once", &|| asked.input(place), ours, theirs);
            self.again += u64::from(theirs.is_some());
        }
    }

    /// bpaf's `conflict` at the place of 27; its `only_once` wherever no choice was lost.
    fn real_reason(&mut self, asked: &Asked, held: &Held, place: usize, why: &WhyAnswer) {
        let input = || asked.input(place);
        let detail = |reason: u32| if why.reason == reason { why.detail } else { 0 };
        if asked.answer.number == 27 && asked.place() == Some(place) {
            let lost = held.conflict().map_or((place, 0), |(loser, winner)| (loser, code(Some(winner))));
            self.lost += u64::from(lost.1 != 0);
            self.compared.same("bpaf's conflict", &input, (place, detail(1)), lost);
        }
        if why.number == 0 && why.reason != 1 && place < asked.items.len() {
            self.compared.same("bpaf's only_once", &input, detail(2), code(held.only_once(place)));
        }
    }
}

/// Every place of a line, or a few of a long one with that of 27 among them, and places that are not there. A run that did not end
/// in 27 is asked at a few places only.
fn places(rng: &mut Rng, asked: &Asked) -> Vec<usize> {
    let count = asked.count();
    let beyond = [count, count + 1, usize::MAX];
    if asked.answer.number != 27 {
        return vec![rng.below(count + 1), *rng.pick(&beyond)];
    }
    let mut places: Vec<usize> = (0..count).collect();
    rng.shuffle(&mut places);
    places.truncate(24);
    places.extend(asked.place().filter(|place| !places.contains(place)));
    places.extend(beyond);
    places
}

/// The stated lengths, in a third of the cases longer; now and then one of them a word short or none.
pub fn lengths(rng: &mut Rng) -> Lengths {
    let more = rng.chance(1, 3);
    let mut lengths = LEAST.map(|length| length + if more { 1 + rng.below(29) } else { 0 });
    if rng.chance(1, 32) {
        let k = rng.below(3);
        lengths[k] = *rng.pick(&[0, LEAST[k] - 1]);
    }
    lengths
}

/// Half of the cases have forms that leave much over.
fn case(rng: &mut Rng) -> Case {
    match rng.below(16) {
        0 => cases::damaged(rng),
        1 | 2 => cases::well_made(rng),
        3 => cases::wanting(rng),
        4..=7 => cases::contested(rng),
        _ => cases::left_over(rng),
    }
}

/// Lines that are known and all refusals; then runs until as many places were left over as are asked for.
pub fn compare(seed: u64, count: u64) -> Compared {
    let mut whys = Whys::default();
    whys.known();
    let mut rng = Rng::new(seed);
    let (before, mut runs) = (whys.pairs(), 0);
    // a generator that leaves nothing over does not run for ever
    while whys.pairs() - before < count && runs < 20 * count {
        let asked = Asked::new(case(&mut rng), lengths(&mut rng));
        let places = places(&mut rng, &asked);
        whys.run(&asked, &places);
        runs += 1;
    }
    let goals = whys.goals(count);
    Compared { goals, ..whys.compared }
}
