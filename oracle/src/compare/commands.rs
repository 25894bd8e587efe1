//! Commands: every word that the run of a table leaves, against bpaf's own commands; the check of a table and the parts that its
//! forms are, against the second reading in `line::commands`.

use std::collections::BTreeSet;

use bpaf::doc::harness::{choose, run_table, Chosen, Commanded, Held, View, Wanted};
use line::cases::{self, Rng, TableCase};
use line::commands::{self, Table};
use line::forged;
use line::format::*;
use line::marks;
use proved::{code, CommandAnswer, FormPart, TableRefused};

use super::run::{left, lengths, Lengths, LEAST};
use super::{pattern, split::raw_view, Compared, Goal};
use crate::{lines, lists::hex};

/// What a run must be: the real bpaf's, or refused for what it is given.
pub fn expected(case: &TableCase, [items, answers, list]: Lengths) -> Commanded {
    let short = forged::too_short(items, answers, list);
    run_table(&case.table, &case.sheet, short, Wanted { items: true, probe: true, ..Wanted::default() })
}

/// An answer as the library hands it over, all but its words.
pub fn handed(ran: &Commanded) -> CommandAnswer {
    let answer = &ran.run.answer;
    CommandAnswer {
        number: answer.number,
        place: code(answer.place),
        tries: answer.tries as u32,
        words: answer.words.len() as u32,
        comparisons: ran.comparisons as u32,
        entry: code(ran.entry),
        state: raw_view(&ran.run.state),
    }
}

/// What the check of a table must tell.
fn refused(table: &[u8]) -> TableRefused {
    Table::check(table).map_or_else(TableRefused::from, |_| TableRefused { number: 0, place: 0, entry: 0 })
}

/// The part that the form of an entry must be.
fn form_part(table: &[u8], entry: usize) -> FormPart {
    match commands::form_part(table, entry) {
        Ok(part) => FormPart { number: 0, place: 0, offset: part.start, length: part.len() },
        Err(r) => FormPart { number: r.number, place: 0, offset: 0, length: 0 },
    }
}

/// How a choice of commands must end, and the state that it must leave, if no two entries have the word that was taken.
fn chosen(table: &Table, sheet: &Sheet, ran: &Commanded) -> Option<(Chosen, View)> {
    let with_word = |entry: &usize| table.commands[*entry].tried().any(|name| sheet.arguments[0] == name.as_bytes());
    let chosen = match (ran.run.answer.number, ran.entry) {
        (31, _) => Chosen::Unmatched,
        (_, Some(_)) if (0..table.commands.len()).filter(with_word).count() > 1 => return None,
        (0, Some(entry)) => Chosen::Accepted(entry),
        (_, Some(_)) => Chosen::Refused,
        _ => return None,
    };
    let mut state = ran.run.state.clone();
    state.marks.iter_mut().filter(|mark| marks::used(**mark)).for_each(|mark| *mark = marks::FIELD);
    Some((chosen, state))
}

impl Compared {
    /// A run, with every word that it leaves; what it must be.
    pub fn commands(&mut self, case: &TableCase, lengths: Lengths) -> Commanded {
        self.cases += 1;
        let mut lent = lengths.map(pattern);
        let [items, answers, list] = &mut lent;
        let ours = proved::run_commands(&case.table, &case.sheet, items, answers, list);
        self.answered(ours.number);
        let theirs = expected(case, lengths);
        let input = || format!("{} {} {lengths:?}", hex(&case.table), hex(&case.sheet));
        self.same("commands", &input, ours, handed(&theirs));
        for (k, words) in left(&theirs.run, lengths).iter().enumerate() {
            self.words(["items", "answers", "list"][k], &input, &lent[k], words);
        }
        self.same("probed facts", &input, &theirs.run.broken, &Vec::new());
        theirs
    }

    /// Whether bpaf's own choice of the commands could be asked for the same run, which it must give.
    fn choice(&mut self, case: &TableCase, ran: &Commanded) -> bool {
        let (Ok(table), Ok(sheet)) = (Table::check(&case.table), Sheet::check(&case.sheet)) else { return false };
        let expected = chosen(&table, &sheet, ran);
        if let Some(expected) = &expected {
            let input = || format!("{} {}", hex(&case.table), hex(&case.sheet));
            self.same("choice of commands", &input, expected, &choose(&table, &sheet));
        }
        expected.is_some()
    }

    /// The check of a table, and the part of every entry, one past the last and some far ones.
    pub fn table(&mut self, table: &[u8]) {
        self.cases += 1;
        let input = || hex(table);
        self.same("commands check", &input, proved::commands_check(table), refused(table));
        let count = commands::read(table).map_or(1, |all| all.len());
        for entry in (0..=count).chain([commands::ENTRIES, 1 << 16, 1 << 32, usize::MAX]) {
            let input = || format!("entry {entry} of {}", hex(table));
            self.same("command form", &input, proved::command_form(table, entry), form_part(table, entry));
        }
    }

    /// Lines whose runs are known: the real bpaf's, and the proved code's.
    fn known_commands(&mut self) {
        for known in lines::command_lines() {
            let case = TableCase { table: known.table.clone(), sheet: known.sheet.write() };
            let ran = self.commands(&case, LEAST);
            self.table(&case.table);
            self.same("known line", &|| format!("{:?}: {ran:?}", known.sheet.arguments), known.is(&ran), true);
        }
    }

    /// Every change of one byte of a few tables, and tables at the limits, on a line with one of their commands; how many.
    fn damaged_tables(&mut self) -> u64 {
        let changed = cases::good_tables().into_iter().flat_map(|(word, good)| {
            let all: Vec<Vec<u8>> = cases::each_byte(&good).collect();
            all.into_iter().chain([good]).map(move |table| (word, table))
        });
        let limits = cases::limit_tables().into_iter().map(|(table, _)| ("log", table));
        let mut count = 0;
        for (word, table) in changed.chain(limits) {
            let sheet = Sheet { arguments: vec![word.into(), b"-v".to_vec()] }.write();
            self.table(&table);
            self.commands(&TableCase { table, sheet }, LEAST);
            count += 1;
        }
        count
    }
}

/// What the runs that were compared had.
#[derive(Default)]
struct Seen {
    runs: u64,
    taken: u64,
    short_names: u64,
    short_items: u64,
    long_items: u64,
    later: u64,
    split_otherwise: u64,
    ambiguous: u64,
    unmatched: u64,
    choices: u64,
    most: u64,
    damaged: u64,
    numbers: BTreeSet<u32>,
}

/// Whether the letters of the form alone split a line into other items.
fn splits_otherwise(form: &Form, sheet: &Sheet, ran: &Commanded) -> bool {
    let (_, records, refusal) = Held::split(form, sheet);
    refusal.is_some() || records != ran.run.records
}

/// Whether no form of the table finds a letter of the line ambiguous by itself.
fn clear_alone(table: &Table, sheet: &Sheet) -> bool {
    table.forms.iter().all(|form| Held::split(form, sheet).2.is_none_or(|r| r.number != 9))
}

impl Seen {
    fn run(&mut self, case: &TableCase, ran: &Commanded) {
        self.runs += 1;
        self.numbers.insert(ran.run.answer.number);
        let (Ok(table), Ok(sheet)) = (Table::check(&case.table), Sheet::check(&case.sheet)) else { return };
        self.most += u64::from(table.commands.len() == commands::ENTRIES);
        match (ran.run.answer.number, ran.entry) {
            (9, _) => self.ambiguous += u64::from(clear_alone(&table, &sheet)),
            (31, _) => self.unmatched += 1,
            (_, Some(entry)) => self.taken(&table, entry, &sheet, ran),
            _ => {}
        }
    }

    /// A command was taken.
    fn taken(&mut self, table: &Table, entry: usize, sheet: &Sheet, ran: &Commanded) {
        let before: usize = table.commands[..entry].iter().map(|c| c.names.len()).sum();
        let short = ran.comparisons - before > table.commands[entry].of_type(LONG).count();
        let kind = ran.run.records[0][0];
        self.taken += 1;
        self.short_names += u64::from(short);
        self.short_items += u64::from(kind == 1);
        self.long_items += u64::from(kind == 2);
        self.later += u64::from(entry > 0);
        self.split_otherwise += u64::from(splits_otherwise(&table.forms[entry], sheet, ran));
    }

    /// The least counts, in the proportion of the runs that were asked for.
    fn goals(&self, count: u64) -> Vec<Goal> {
        let goal = |what: &'static str, met: u64, least: u64| Goal { what, met, least };
        vec![
            goal("runs", self.runs, count),
            goal("different numbers", self.numbers.len() as u64, 21.min(count / 1000)),
            goal("runs in which a command was taken", self.taken, count / 3),
            goal("taken by a short name", self.short_names, count / 30),
            goal("taken from a Short item", self.short_items, count / 30),
            goal("taken from a Long item", self.long_items, count / 60),
            goal("taken of a later entry", self.later, count / 10),
            goal("taken on a line that the chosen form alone splits otherwise", self.split_otherwise, count / 30),
            goal("refused as ambiguous by the letters of all forms only", self.ambiguous, count / 60),
            goal("refused since no command matched", self.unmatched, count / 20),
            goal("runs that bpaf's own choice of the commands gives too", self.choices, count / 3),
            goal("runs of a table of 32 entries", self.most, count / 60),
            goal("tables with one byte changed, cut off or at a limit", self.damaged, 10_000),
        ]
    }
}

/// Lines that are known, slices of every length, changed tables; then `count` runs of generated tables, one in eight at fault.
pub fn compare(seed: u64, count: u64) -> Compared {
    let (mut compared, mut seen) = (Compared::default(), Seen::default());
    compared.known_commands();
    compared.command_slices();
    seen.damaged = compared.damaged_tables();
    let mut rng = Rng::new(seed);
    for k in 0..count {
        let case = if k % 8 == 0 { cases::damaged_commands(&mut rng) } else { cases::commanded(&mut rng) };
        compared.table(&case.table);
        let ran = compared.commands(&case, if k % 4 == 0 { lengths(k / 4) } else { LEAST });
        seen.run(&case, &ran);
        seen.choices += u64::from(compared.choice(&case, &ran));
    }
    compared.goals = seen.goals(count);
    compared
}
