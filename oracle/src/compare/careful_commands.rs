//! The careful run of commands: its answer, and every word that it leaves. Both must be the plain run's, but where that is accepted and
//! took an argument behind the command word that looks like options for a word: where this is, and why, is the second reading's, in
//! `line::looks`. With bpaf at hand the plain run is the real one's too.

use line::cases::{self, Rng, TableCase};
use line::commands::{self, Table, ENTRIES};
use line::format::*;
use line::looks::{at_marker, looks_like_options, Misread, Reading};
use proved::{code, CarefulCommandAnswer, CommandAnswer};

#[cfg(live)]
use super::commands::{expected, handed};
use super::looked::Looked;
#[cfg(live)]
use super::run::left;
use super::run::{Lengths, LEAST};
use super::why::lengths;
use super::{difference, pattern, smallest, Compared, Difference, Goal};
use crate::lists::hex;

/// A line of commands, and slices of these lengths.
#[derive(Clone)]
pub struct Given {
    pub case: TableCase,
    pub lengths: Lengths,
}

/// A plain run's answer, and what it leaves.
type Plain = (CommandAnswer, [Vec<u32>; 3]);

/// By the proved code.
fn called(given: &Given) -> Plain {
    let mut lent = given.lengths.map(pattern);
    let [items, answers, list] = &mut lent;
    (proved::run_commands(&given.case.table, &given.case.sheet, items, answers, list), lent)
}

/// By the real bpaf.
#[cfg(live)]
fn real(given: &Given) -> Plain {
    let ran = expected(&given.case, given.lengths);
    (handed(&ran), left(&ran.run, given.lengths))
}

/// What a careful run answers, word by word, and what it leaves.
type Told = [Vec<u32>; 4];

const NAMES: [&str; 4] = ["answer", "items", "answers", "list"];

fn told(answer: &CarefulCommandAnswer, [items, answers, list]: [Vec<u32>; 3]) -> Told {
    let CarefulCommandAnswer { number, place, tries, words, comparisons, entry, letter, state } = *answer;
    let state_words = [state.count, state.remaining, state.current, state.start, state.end];
    let mut all = vec![number, place, tries, words, comparisons, entry, letter];
    all.extend(state_words.into_iter().chain(state.marks.map(u32::from)));
    [all, items, answers, list]
}

impl Given {
    /// Before the call the slices have another pattern than before the run.
    fn ours(&self) -> (CarefulCommandAnswer, [Vec<u32>; 3]) {
        let mut lent = self.lengths.map(|length| pattern(length).iter().map(|word| !word).collect::<Vec<u32>>());
        let [items, answers, list] = &mut lent;
        (proved::careful_commands(&self.case.table, &self.case.sheet, items, answers, list), lent)
    }

    /// The same with an entry less, each in turn, then with an argument less.
    fn smaller(&self) -> Vec<Given> {
        let (Ok(entries), Ok(sheet)) = (commands::read(&self.case.table), Sheet::check(&self.case.sheet)) else { return Vec::new() };
        let with = |table: Vec<u8>, sheet: Vec<u8>| Given { case: TableCase { table, sheet }, lengths: self.lengths };
        let less = |k: usize| commands::write(&[&entries[..k], &entries[k + 1..]].concat());
        let shorter = |k: usize| [&sheet.arguments[..k], &sheet.arguments[k + 1..]].concat();
        let tables = (0..entries.len()).map(|k| with(less(k), self.case.sheet.clone()));
        let lines = (0..sheet.arguments.len()).map(|k| with(self.case.table.clone(), Sheet { arguments: shorter(k) }.write()));
        tables.chain(lines).collect()
    }

    pub fn input(&self) -> String {
        format!("{} {} {:?}", hex(&self.case.table), hex(&self.case.sheet), self.lengths)
    }
}

/// A line, its careful run, its plain run, and how its arguments are read.
pub struct Line {
    given: Given,
    answer: CarefulCommandAnswer,
    left: [Vec<u32>; 3],
    plain: Plain,
    table: Option<Table>,
    looked: Looked,
}

impl Line {
    pub fn new(given: Given) -> Line {
        let (plain, (answer, left)) = (called(&given), given.ours());
        // nothing is read where one of them is at fault
        let both = Table::check(&given.case.table).ok().zip(Sheet::check(&given.case.sheet).ok());
        let reading = both.as_ref().map_or(Reading::default(), |(table, sheet)| Reading::of_commands(table, &sheet.arguments));
        let (table, arguments) = both.map_or((None, Vec::new()), |(table, sheet)| (Some(table), sheet.arguments));
        let looked = Looked::new(arguments, reading, &plain.1[0], &plain.0.state);
        Line { given, answer, left, plain, table, looked }
    }

    /// What an accepted line is refused for.
    fn misread(&self) -> Option<&Misread> {
        self.looked.reading.misread.first().filter(|_| self.plain.0.number == 0)
    }

    /// By the second reading, of a plain run.
    fn theirs(&self, (ran, left): &Plain) -> Told {
        let CommandAnswer { number, place, tries, words, comparisons, entry, state } = *ran;
        let plain = CarefulCommandAnswer { number, place, tries, words, comparisons, entry, letter: 0, state };
        let [items, answers, list] = left.clone();
        match self.looked.reading.misread.first() {
            Some(word) if number == 0 => {
                let letter = word.letter.map_or(0, |letter| letter as u32 + 1);
                let refused = CarefulCommandAnswer { number: 50, place: code(Some(word.place)), words: 0, letter, ..plain };
                told(&refused, [items, vec![0; answers.len()], vec![0; list.len()]])
            }
            _ => told(&plain, [items, answers, list]),
        }
    }

    fn difference(&self) -> Option<Difference> {
        let ours = told(&self.answer, self.left.clone());
        let by = |whose: &str, plain: &Plain| difference(&NAMES, whose, &ours, &self.theirs(plain));
        let found = by("the plain run", &self.plain);
        #[cfg(live)]
        let found = found.or_else(|| by("bpaf", &real(&self.given)));
        found
    }
}

/// What lines have, for the counts.
impl Line {
    /// The form that was run, and how it alone would read the line.
    fn alone(&self) -> Option<Reading> {
        let entry = self.answer.entry.checked_sub(1)? as usize;
        Some(Reading::of(&self.table.as_ref()?.forms[entry], &self.looked.arguments))
    }

    /// Whether a later letter is told than the form that was run would have: the one before it is another form's.
    fn passed_a_letter(&self) -> bool {
        let (Some(word), Some(alone)) = (self.misread(), self.alone()) else { return false };
        let same = alone.misread.iter().find(|other| other.argument == word.argument);
        self.answer.number == 50 && same.is_some_and(|other| other.letter != word.letter)
    }

    /// Whether an argument is options by a letter that only another form has, and nothing took them.
    fn left_by_a_letter(&self) -> bool {
        let known = |word: &Misread| word.argument > 0 && self.looked.reading.misread.iter().all(|m| m.argument != word.argument);
        self.answer.number == 27 && self.alone().is_some_and(|alone| alone.misread.iter().any(known))
    }

    /// Whether the command word looks like options, and is an item of this kind.
    fn word_looks(&self, kinds: &[u32]) -> bool {
        let first = self.looked.arguments.first().is_some_and(|word| looks_like_options(word));
        self.answer.entry != 0 && first && self.looked.items.first().is_some_and(|item| kinds.contains(&item[0]))
    }

    fn longer(&self) -> bool {
        self.given.lengths.iter().zip(LEAST).all(|(length, least)| *length > least)
    }
}

/// What is counted, and of how many lines one must have it.
type Fact = (&'static str, u64, fn(&Line) -> bool);

const FACTS: [Fact; 28] = [
    ("lines that end in 50", 10, |line| line.answer.number == 50),
    ("by a letter that no option has", 20, |line| line.answer.letter != 0),
    ("by a letter behind one that only another form has", 300, |line| line.passed_a_letter()),
    ("by a name that is not UTF-8", 20, |line| line.answer.number == 50 && line.answer.letter == 0),
    ("at the value of an option", 80, |line| line.misread().is_some_and(|word| line.looked.is_value(word.place))),
    ("with two such words or more", 40, |line| line.answer.number == 50 && line.looked.reading.misread.len() > 1),
    ("of a later entry", 40, |line| line.answer.number == 50 && line.answer.entry > 1),
    ("behind a command word that is a Word and looks like options too", 40, |line| line.answer.number == 50 && line.word_looks(&[4])),
    ("behind a command word that is an option", 100, |line| line.answer.number == 50 && line.word_looks(&[1, 2])),
    ("lines that are accepted", 8, |line| line.answer.number == 0),
    ("with a command word that is a Word and looks like options", 40, |line| line.answer.number == 0 && line.word_looks(&[4])),
    ("with a command word that is an option", 60, |line| line.answer.number == 0 && line.word_looks(&[1, 2])),
    ("with an argument behind the command word that looks like options", 20, |line| {
        let before = at_marker(&line.looked.arguments).0;
        line.answer.number == 0 && before.iter().skip(1).any(|a| looks_like_options(a))
    }),
    ("with a rest of a cluster that looks like options", 200, |line| line.answer.number == 0 && line.looked.has_rest()),
    ("with a value behind `=` that looks like options", 160, |line| line.answer.number == 0 && line.looked.has(3, looks_like_options)),
    ("with a dash alone", 50, |line| line.answer.number == 0 && at_marker(&line.looked.arguments).0.contains(&b"-".to_vec())),
    ("with a dash alone that is the value of an option", 500, |line| line.answer.number == 0 && line.looked.has_dash_value()),
    ("with a word behind `--` that looks like options", 50, |line| {
        line.answer.number == 0 && line.looked.has(5, |text| text != b"--" && looks_like_options(text))
    }),
    ("lines that the run refuses, with a word that looks like options", 10, |line| {
        (20..=27).contains(&line.answer.number) && !line.looked.reading.misread.is_empty()
    }),
    ("left over by a letter that only another form has", 50, |line| line.left_by_a_letter()),
    ("lines without a command, with a word that looks like options", 20, |line| {
        line.answer.number == 31 && line.looked.arguments.iter().any(|a| looks_like_options(a))
    }),
    ("lines with an ambiguous letter", 50, |line| line.answer.number == 9),
    ("lines of a table of 32 entries", 100, |line| line.table.as_ref().is_some_and(|table| table.commands.len() == ENTRIES)),
    ("lines refused with 11", 100, |line| line.answer.number == 11),
    ("lines refused for a form", 150, |line| (1..=4).contains(&line.answer.number)),
    ("lines refused with 7", 100, |line| line.answer.number == 7),
    ("lines refused with 14", 200, |line| line.answer.number == 14),
    ("lines with slices that are longer than they must be", 6, |line| line.longer()),
];

/// The comparison, and of how many generated lines each fact holds.
#[derive(Default)]
pub struct Careful {
    pub compared: Compared,
    lines: u64,
    met: [u64; FACTS.len()],
}

impl Careful {
    /// One line: its answer, and every word of the three slices.
    pub fn run(&mut self, given: Given) -> Line {
        let line = Line::new(given);
        self.compared.cases += 1;
        self.compared.answered(line.answer.number);
        if let Some(found) = line.difference() {
            let differs = |small: &Given| Line::new(small.clone()).difference();
            let (small, (what, word, theirs)) =
                smallest((line.given.clone(), found), self.compared.tries(), Given::smaller, differs);
            self.compared.same(&what, &|| small.input(), word, theirs);
        }
        if line.plain.0.number == 0 {
            let input = || line.given.input();
            self.compared.same("count of items", &input, line.looked.items.len(), line.looked.reading.items);
            let words = line.looked.whole_words().into_iter().filter(|(place, _)| *place > 0).collect();
            self.compared.same("misread words", &input, words, line.looked.misread_words());
        }
        line
    }

    /// Number, place plus 1 and letter plus 1 of a line.
    pub fn ended(&mut self, given: Given) -> (u32, u32, u32) {
        let answer = self.run(given).answer;
        (answer.number, answer.place, answer.letter)
    }

    fn generated(&mut self, given: Given) {
        let line = self.run(given);
        self.lines += 1;
        for ((_, _, holds), met) in FACTS.iter().zip(&mut self.met) {
            *met += u64::from(holds(&line));
        }
    }

    /// The least counts, in the proportion of the lines that were asked for.
    fn goals(&self, count: u64) -> Vec<Goal> {
        let numbers = self.compared.numbers.len() as u64;
        let mut goals = vec![
            Goal { what: "lines", met: self.lines, least: count },
            Goal { what: "different numbers, 0, 31 and 50 among them", met: numbers, least: 22 },
        ];
        let facts = FACTS.iter().zip(self.met);
        goals.extend(facts.map(|((what, of, _), met)| Goal { what: *what, met, least: count / of }));
        goals
    }
}

/// Most of the tables have forms that take most of a line.
fn case(rng: &mut Rng) -> TableCase {
    match rng.below(16) {
        0 => cases::damaged_commands(rng),
        1..=3 => cases::commanded(rng),
        _ => cases::dashed_commands(rng),
    }
}

/// Lines that are known and all refusals, then generated lines.
pub fn compare(seed: u64, count: u64) -> Compared {
    let mut careful = Careful::default();
    careful.known();
    let mut rng = Rng::new(seed);
    for _ in 0..count {
        careful.generated(Given { case: case(&mut rng), lengths: lengths(&mut rng) });
    }
    let goals = careful.goals(count);
    Compared { goals, ..careful.compared }
}
