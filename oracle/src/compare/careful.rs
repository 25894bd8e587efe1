//! A careful run: its answer, and every word that it leaves. Both must be the plain run's, but where that is accepted and took an
//! argument that looks like options for a word: where this is, and why, is the second reading's, in `line::looks`. With bpaf at hand
//! the plain run must be the real one.

use line::cases::{self, Case, Rng};
use line::format::*;
use line::looks::{at_marker, looks_like_options, Misread, Reading};
use proved::{code, CarefulAnswer, RunAnswer};

use super::looked::Looked;
use super::run::{self, Lengths, LEAST};
#[cfg(live)]
use super::split::raw_view;
use super::why::lengths;
use super::{pattern, Compared, Goal};
use crate::lists::hex;

/// A line, its plain run with what it left in slices of these lengths, and how its arguments are read.
pub struct Line {
    case: Case,
    lengths: Lengths,
    ran: RunAnswer,
    left: [Vec<u32>; 3],
    looked: Looked,
}

impl Line {
    pub fn new(case: Case, lengths: Lengths) -> Line {
        let (ran, left) = run::ours(&case, lengths);
        // nothing is read where one of them is at fault
        let both = Form::check(&case.form).and_then(|form| Sheet::check(&case.sheet).map(|sheet| (form, sheet.arguments)));
        let (form, arguments) = both.unwrap_or_default();
        let reading = Reading::of(&form, &arguments);
        let looked = Looked::new(arguments, reading, &left[0], &ran.state);
        Line { case, lengths, ran, left, looked }
    }

    pub fn input(&self) -> String {
        format!("{} {} {:?}", hex(&self.case.form), hex(&self.case.sheet), self.lengths)
    }

    /// Before the call the slices have another pattern than before the run.
    fn ours(&self) -> (CarefulAnswer, [Vec<u32>; 3]) {
        let mut lent = self.lengths.map(|length| pattern(length).iter().map(|word| !word).collect::<Vec<u32>>());
        let [items, answers, list] = &mut lent;
        (proved::careful(&self.case.form, &self.case.sheet, items, answers, list), lent)
    }

    /// What an accepted line is refused for.
    fn misread(&self) -> Option<&Misread> {
        self.looked.reading.misread.first().filter(|_| self.ran.number == 0)
    }

    /// By the second reading.
    fn theirs(&self) -> CarefulAnswer {
        let RunAnswer { number, place, tries, words, state } = self.ran;
        let plain = CarefulAnswer { number, place, tries, words, letter: 0, state };
        let refused = |word: &Misread| CarefulAnswer {
            number: 50,
            place: code(Some(word.place)),
            words: 0,
            letter: word.letter.map_or(0, |letter| letter as u32 + 1),
            ..plain
        };
        self.misread().map_or(plain, refused)
    }

    fn longer(&self) -> bool {
        self.lengths.iter().zip(LEAST).all(|(length, least)| *length > least)
    }
}

const SLICES: [&str; 3] = ["items", "answers", "list"];

/// What is counted, and of how many lines one must have it.
type Fact = (&'static str, u64, fn(&Line, &CarefulAnswer) -> bool);

const FACTS: [Fact; 16] = [
    ("lines that end in 50", 10, |_, answer| answer.number == 50),
    ("by a letter that no option has", 20, |_, answer| answer.letter != 0),
    ("by a name that is not UTF-8", 20, |_, answer| answer.number == 50 && answer.letter == 0),
    ("at the value of an option", 100, |line, _| line.misread().is_some_and(|word| line.looked.is_value(word.place))),
    ("with two such words or more", 40, |line, answer| answer.number == 50 && line.looked.reading.misread.len() > 1),
    ("lines that are accepted", 8, |_, answer| answer.number == 0),
    ("with an argument that looks like options", 15, |line, answer| {
        answer.number == 0 && at_marker(&line.looked.arguments).0.iter().any(|a| looks_like_options(a))
    }),
    ("with a rest of a cluster that looks like options", 150, |line, answer| {
        answer.number == 0 && line.looked.has(4, looks_like_options)
    }),
    ("with a value behind `=` that looks like options", 120, |line, answer| {
        answer.number == 0 && line.looked.has(3, looks_like_options)
    }),
    ("with a dash alone", 50, |line, answer| answer.number == 0 && at_marker(&line.looked.arguments).0.contains(&b"-".to_vec())),
    ("with a dash alone that is the value of an option", 400, |line, answer| answer.number == 0 && line.looked.has_dash_value()),
    ("with a word behind `--` that looks like options", 40, |line, answer| {
        answer.number == 0 && line.looked.has(5, |text| text != b"--" && looks_like_options(text))
    }),
    ("lines that the run refuses, with a word that looks like options", 10, |line, answer| {
        (20..=27).contains(&answer.number) && !line.looked.reading.misread.is_empty()
    }),
    ("lines refused with 7", 100, |_, answer| answer.number == 7),
    ("lines refused with 14", 200, |_, answer| answer.number == 14),
    ("lines with slices that are longer than they must be", 6, |line, _| line.longer()),
];

/// The comparison, and of how many generated lines each fact holds.
#[derive(Default)]
pub struct Careful {
    pub compared: Compared,
    lines: u64,
    met: [u64; FACTS.len()],
}

impl Careful {
    /// One line: its answer, and every word of the three slices.
    pub fn run(&mut self, line: &Line) -> CarefulAnswer {
        self.compared.cases += 1;
        let (ours, left) = line.ours();
        self.compared.answered(ours.number);
        let input = || line.input();
        self.compared.same("careful", &input, ours, line.theirs());
        for (k, words) in left.iter().enumerate() {
            match line.misread() {
                Some(_) if k > 0 => self.compared.same(SLICES[k], &input, words.iter().find(|word| **word != 0), None),
                _ => self.compared.words(SLICES[k], &input, words, &line.left[k]),
            }
        }
        if line.ran.number == 0 {
            self.compared.same("count of items", &input, line.looked.items.len(), line.looked.reading.items);
            self.compared.same("misread words", &input, line.looked.whole_words(), line.looked.misread_words());
        }
        #[cfg(live)]
        self.real(line);
        ours
    }

    /// The plain run against the real bpaf's.
    #[cfg(live)]
    fn real(&mut self, line: &Line) {
        let ran = run::expected(&line.case, line.lengths);
        let input = || line.input();
        self.compared.same("run", &input, line.ran, run::handed(&ran.answer, raw_view(&ran.state)));
        for (k, words) in run::left(&ran, line.lengths).iter().enumerate() {
            self.compared.words(SLICES[k], &input, &line.left[k], words);
        }
    }

    fn generated(&mut self, line: &Line) {
        let answer = self.run(line);
        self.lines += 1;
        for ((_, _, holds), met) in FACTS.iter().zip(&mut self.met) {
            *met += u64::from(holds(line, &answer));
        }
    }

    /// The least counts, in the proportion of the lines that were asked for.
    fn goals(&self, count: u64) -> Vec<Goal> {
        let numbers = self.compared.numbers.len() as u64;
        let mut goals = vec![
            Goal { what: "lines", met: self.lines, least: count },
            Goal { what: "different numbers, 0 and 50 among them", met: numbers, least: 20 },
        ];
        let facts = FACTS.iter().zip(self.met);
        goals.extend(facts.map(|((what, of, _), met)| Goal { what: *what, met, least: count / of }));
        goals
    }
}

/// Most of the cases have forms that take most of a line.
fn case(rng: &mut Rng) -> Case {
    match rng.below(16) {
        0 => cases::damaged(rng),
        1 => cases::wanting(rng),
        2 => cases::contested(rng),
        3 => cases::left_over(rng),
        4 | 5 => cases::well_made(rng),
        _ => cases::dashed(rng),
    }
}

/// Lines that are known and all refusals, then generated lines.
pub fn compare(seed: u64, count: u64) -> Compared {
    let mut careful = Careful::default();
    careful.known();
    let mut rng = Rng::new(seed);
    for _ in 0..count {
        careful.generated(&Line::new(case(&mut rng), lengths(&mut rng)));
    }
    let goals = careful.goals(count);
    Compared { goals, ..careful.compared }
}
