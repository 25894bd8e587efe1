//! Two forms made one: what the proved join answers and every byte that it leaves, against the second reading in `line::joins`; and what
//! the joined form is for, the proved run of it against the real bpaf, which evaluates the first form's parsers and then the second's on
//! one state.

use line::cases::{self, Pair, Rng};
use line::format::*;
use line::joins::{self, NotJoined};
use proved::{code, Joined};

use super::{byte_pattern, Compared, Goal};
use crate::lists::hex;
#[cfg(live)]
use super::run::LEAST;
#[cfg(live)]
use crate::lines;
#[cfg(live)]
use bpaf::doc::harness::{self, Both, Wanted};
#[cfg(live)]
use line::{cases::Case, marks, notation};

/// The lengths of outputs, about the least one.
const ROOMS: [usize; 6] = [0, 1, FORM_LENGTH - 1, FORM_LENGTH, FORM_LENGTH + 1, 6_500];

/// What the joins met. Of forms at fault: how often each number was the first's, and the second's; of 18: how often a limit was passed by
/// itself (nodes, fields, names, area), and how often the output alone was too short.
#[derive(Default)]
struct Seen {
    joined: u64,
    at_fault: [[u64; 5]; 2],
    passed: [u64; 4],
    short: u64,
}

impl Seen {
    fn join(&mut self, first: &[u8], second: &[u8], room: usize, theirs: &Result<Form, NotJoined>) {
        match theirs {
            Ok(_) => self.joined += 1,
            Err(NotJoined { refusal, form: 0 }) => {
                assert_eq!(refusal.number, 18, "a refusal of neither form");
                let [first, second] = [first, second].map(|form| Form::check(form).expect("an accepted form"));
                let passed = joins::passed(&joins::joined(&first, &second));
                let times = passed.iter().filter(|passed| **passed).count();
                self.short += u64::from(times == 0);
                if let (1, true) = (times, room >= FORM_LENGTH) {
                    (0..4).for_each(|k| self.passed[k] += u64::from(passed[k]));
                }
            }
            Err(NotJoined { refusal, form }) => self.at_fault[*form as usize - 1][refusal.number as usize] += 1,
        }
    }

    /// The least counts, in the proportion of the pairs that were asked for.
    fn goals(&self, count: u64) -> Vec<Goal> {
        let goal = |what: &'static str, met: u64, least: u64| Goal { what, met, least };
        let [first, second] = self.at_fault.map(|of| of[1..].iter().copied().min().unwrap_or(0));
        vec![
            goal("joined forms", self.joined, count),
            goal("times each of 1 to 4, of the first form", first, 50 + count / 400),
            goal("times each of 1 to 4, of the second form", second, 50 + count / 400),
            goal("times 18 by nodes alone", self.passed[0], 20 + count / 200),
            goal("times 18 by fields alone", self.passed[1], 10 + count / 2_000),
            goal("times 18 by names alone", self.passed[2], 10 + count / 2_000),
            goal("times 18 by the area alone", self.passed[3], 10 + count / 2_000),
            goal("times 18 by the output alone", self.short, 200 + count / 50),
        ]
    }
}

/// What a join must answer and leave.
fn expected(room: usize, theirs: &Result<Form, NotJoined>) -> (Joined, Vec<u8>) {
    let mut left = vec![0; room];
    let told = match theirs {
        Ok(form) => {
            let bytes = form.write();
            left[..bytes.len()].copy_from_slice(&bytes);
            Joined { number: 0, place: 0, length: bytes.len() as u32, form: 0 }
        }
        Err(NotJoined { refusal, form }) => Joined { number: refusal.number, place: code(refusal.place), length: 0, form: *form },
    };
    (told, left)
}

impl Compared {
    /// One join, against the second reading; the joined form as the proved code wrote it, if it did.
    fn join(&mut self, seen: &mut Seen, first: &[u8], second: &[u8], room: usize) -> Option<Vec<u8>> {
        self.cases += 1;
        let mut out = byte_pattern(room);
        let ours = proved::join(first, second, &mut out);
        let theirs = joins::join(first, second, room);
        seen.join(first, second, room, &theirs);
        let (told, left) = expected(room, &theirs);
        let input = || format!("{} {} {room}", hex(first), hex(second));
        self.same("join", &input, ours, told);
        if out != left {
            let at = out.iter().zip(&left).position(|(a, b)| a != b).unwrap_or(0);
            self.same("output", &|| format!("{} at byte {at}", input()), out[at], left[at]);
        }
        if ours.number != 0 || theirs.is_err() {
            return None;
        }
        out.truncate(ours.length as usize);
        self.parts_kept(&input, [first, second], &out);
        Some(out)
    }

    /// A joined form is accepted, each field has the kind that it had, and it is portable exactly if both parts are: by the proved calls.
    fn parts_kept(&mut self, input: &dyn Fn() -> String, parts: [&[u8]; 2], joined: &[u8]) {
        let kinds = |form: &[u8]| {
            let fields = (0..u16_at(form, 2)).map(|k| u16_at(form, 8 + 2 * k));
            fields.map(|node| proved::kind(form, node)).collect::<Vec<_>>()
        };
        let check = proved::form_check(joined);
        self.same("check", input, (check.number, check.place), (0, 0));
        if check.number == 0 {
            self.same("kinds", input, kinds(joined), parts.map(kinds).concat());
            let [first, second] = parts.map(|form| proved::portable(form).answer);
            self.same("portable", input, proved::portable(joined).answer, first & second);
        }
    }

    /// Every form at fault beside every other and beside good ones, over outputs of every length: whatever stands first in the order of
    /// refusals must be given. Then pairs at the limits, and every number of a few forms changed, in the first form and in the second.
    fn known_joins(&mut self, seen: &mut Seen) {
        let mut forms: Vec<Vec<u8>> = cases::forms_at_fault().into_iter().map(|(_, form)| form).collect();
        forms.extend([cases::chain(1), cases::chain(NODES)].map(|form| form.write()));
        forms.push(Vec::new());
        for first in &forms {
            for second in &forms {
                ROOMS.iter().for_each(|room| drop(self.join(seen, first, second, *room)));
            }
        }
        for (first, second) in cases::limit_pairs() {
            let (first, second) = (first.write(), second.write());
            for room in ROOMS {
                self.join(seen, &first, &second, room);
                self.join(seen, &second, &first, room);
            }
        }
        let other = cases::sample_forms()[0].write();
        let mut changed: Vec<Vec<u8>> = cases::limits().into_iter().map(|case| case.form).collect();
        changed.sort();
        changed.dedup();
        for form in changed {
            self.join(seen, &form, &other, FORM_LENGTH);
            self.join(seen, &other, &form, FORM_LENGTH);
        }
    }

    /// One pair, in one of eight cases with a form at fault, in another of eight with a short output. The joined form, if there is one.
    fn random_join(&mut self, seen: &mut Seen, rng: &mut Rng, pair: &Pair) -> Option<Vec<u8>> {
        let (mut first, mut second) = (pair.first.write(), pair.second.write());
        match rng.below(24) {
            0 => first = cases::damaged(rng).form,
            1 => second = cases::damaged(rng).form,
            2 => [first, second] = [cases::damaged(rng).form, cases::damaged(rng).form],
            _ => {
                let rooms = if rng.chance(1, 8) { &ROOMS[..3] } else { &ROOMS[3..] };
                return self.join(seen, &first, &second, *rng.pick(rooms));
            }
        }
        self.join(seen, &first, &second, *rng.pick(&ROOMS));
        None
    }
}

/// What the runs of joined forms had.
#[cfg(live)]
#[derive(Default)]
struct Runs {
    runs: u64,
    accepted: u64,
    too_many: u64,
    ambiguous: u64,
    by_both: u64,
    alone_accepted: u64,
    listed: u64,
    listed_later: u64,
    texts: u64,
    text_0: u64,
    large: u64,
    marked: u64,
    marked_by_both: u64,
    carried: u64,
    left_over: u64,
}

/// The name records that stand for texts in values, and the numbers in them.
#[cfg(live)]
fn texts_and_numbers(values: &[Value], texts: &mut Vec<usize>, numbers: &mut Vec<u32>) {
    for value in values {
        match value {
            Value::Text(Text::Name(record)) => texts.push(*record),
            Value::Number(number) => numbers.push(*number),
            Value::Present(v) => texts_and_numbers(std::slice::from_ref(v), texts, numbers),
            Value::List(vs) => texts_and_numbers(vs, texts, numbers),
            _ => {}
        }
    }
}

#[cfg(live)]
impl Runs {
    fn run(&mut self, pair: &Pair, Both { run, later }: &Both) {
        let number = run.answer.number;
        self.runs += 1;
        self.accepted += u64::from(number == 0);
        self.too_many += u64::from(number == 8);
        self.left_over += u64::from(number == 27);
        self.listed += u64::from(!run.missing.is_empty());
        self.listed_later += u64::from(run.missing.iter().any(|entry| entry[0] as usize > pair.first.nodes.len()));
        let behind = marks::FIELD + pair.first.fields.len() as u16;
        let by_first = |mark: &u16| (marks::FIELD..behind).contains(mark);
        let by_second = run.state.marks.iter().any(|mark| *mark >= behind);
        self.marked += u64::from(by_second);
        self.marked_by_both += u64::from(by_second && run.state.marks.iter().any(by_first));
        let place = run.answer.place.filter(|_| number == 26 && later.begun);
        self.carried += u64::from(place.is_some_and(|place| by_first(&run.state.marks[place])));
        if number == 9 {
            self.ambiguous(pair);
        }
        if number == 0 {
            self.values(&later.values);
        }
    }

    /// What stands in the answer of the second form.
    fn values(&mut self, values: &[Value]) {
        let (mut texts, mut numbers) = (Vec::new(), Vec::new());
        texts_and_numbers(values, &mut texts, &mut numbers);
        self.texts += u64::from(!texts.is_empty());
        self.text_0 += u64::from(texts.contains(&0));
        self.large += u64::from(numbers.iter().any(|number| *number >= 256));
    }

    /// What each form by itself says of a line that is refused with 9.
    fn ambiguous(&mut self, pair: &Pair) {
        let alone = |form: &Form| {
            let case = Case { form: form.write(), sheet: pair.sheet.write() };
            super::run::ours(&case, LEAST).0.number
        };
        let alone = [&pair.first, &pair.second].map(alone);
        self.ambiguous += 1;
        self.by_both += u64::from(!alone.contains(&9));
        self.alone_accepted += u64::from(alone == [0, 0]);
    }

    /// The least counts, in the proportion of the runs that were asked for.
    fn goals(&self, count: u64) -> Vec<Goal> {
        let goal = |what: &'static str, met: u64, least: u64| Goal { what, met, least };
        vec![
            goal("runs of both forms", self.runs, count),
            goal("runs that are accepted", self.accepted, count / 8),
            goal("runs with 8", self.too_many, count / 1_000),
            goal("runs with 9", self.ambiguous, count / 50),
            goal("runs with 9 that neither form alone has", self.by_both, count / 100),
            goal("runs with 9 that each form alone accepts", self.alone_accepted, count / 500),
            goal("runs with a list", self.listed, count / 10),
            goal("lists with an entry of the second form", self.listed_later, count / 20),
            goal("answers with a text fallback of the second form", self.texts, count / 20),
            goal("answers with the second form's name 0", self.text_0, count / 100),
            goal("answers with a number of 256 or more in the second form", self.large, count / 200),
            goal("runs with field marks of the second form", self.marked, count / 5),
            goal("runs with field marks of both forms", self.marked_by_both, count / 10),
            goal("runs with 26 in the second form at a place that the first used", self.carried, count / 1_000),
            goal("runs with 27", self.left_over, count / 20),
        ]
    }
}

#[cfg(live)]
impl Compared {
    /// The proved run of a joined form, against the real bpaf with the parsers of both forms; what it must be.
    fn run_both(&mut self, runs: &mut Runs, pair: &Pair, joined: Vec<u8>) -> Both {
        let both = harness::run_both(&pair.first, &pair.second, &pair.sheet, Wanted { items: true, ..Wanted::default() });
        self.run_as(&Case { form: joined, sheet: pair.sheet.write() }, LEAST, &both.run);
        runs.run(pair, &both);
        both
    }

    /// Lines whose runs are known: the real bpaf's, and the proved code's.
    fn known_runs(&mut self, seen: &mut Seen, runs: &mut Runs) {
        for known in lines::joined_lines() {
            let pair = &known.pair;
            let input = || format!("{} and {} on {:?}", notation::show(&pair.first), notation::show(&pair.second), pair.sheet.arguments);
            let joined = self.join(seen, &pair.first.write(), &pair.second.write(), FORM_LENGTH);
            self.same("known join", &input, joined.is_some(), true);
            if let Some(joined) = joined {
                let both = self.run_both(runs, pair, joined);
                self.same("known run", &input, known.is(&both.run), true);
            }
        }
    }
}

/// The joins that are known, then pairs until as many are joined as are asked for; with bpaf at hand each of these is run on a line.
pub fn compare(seed: u64, count: u64) -> Compared {
    let (mut compared, mut seen, mut rng) = (Compared::default(), Seen::default(), Rng::new(seed));
    #[cfg(live)]
    let mut runs = Runs::default();
    compared.known_joins(&mut seen);
    #[cfg(live)]
    compared.known_runs(&mut seen, &mut runs);
    let (mut joined, mut tried) = (0, 0);
    // a join that refuses all does not run for ever
    while joined < count && tried < 4 * count {
        let pair = cases::joining(&mut rng);
        tried += 1;
        if let Some(_form) = compared.random_join(&mut seen, &mut rng, &pair) {
            joined += 1;
            #[cfg(live)]
            compared.run_both(&mut runs, &pair, _form);
        }
    }
    compared.goals = seen.goals(count);
    #[cfg(live)]
    compared.goals.extend(runs.goals(count));
    compared
}
