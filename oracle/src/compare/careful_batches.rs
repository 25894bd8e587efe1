//! Careful batches: every word that a careful batch leaves in its four slices, against single careful calls, against plain ones with the
//! second reading in `line::looks`, and, with bpaf at hand, against the real bpaf with that reading, on each sheet.

use line::batches::{self, room, Slices, SHEETS};
use line::cases::{self, BatchCase, Case, Rng};
use line::format::*;
use line::looks::Reading;
use proved::RunAnswer;

use super::batches::{called, lengths, single, Batches, Given, Runs, Told};
#[cfg(live)]
use super::batches::real;
use super::run::LEAST;
use super::why_known::parsed;
use super::{pattern, Compared, Goal};

static CAREFUL: Runs = Runs {
    call: proved::careful_batch,
    singles: &[
        ("single careful calls", carefully_called),
        ("single calls and the second reading", |case| reread(called(case), case)),
        #[cfg(live)]
        ("bpaf and the second reading", |case| reread(real(case), case)),
    ],
};

/// By a single careful call of the proved code.
fn carefully_called(case: &Case) -> Slices {
    let mut lent = LEAST.map(pattern);
    let [items, answers, list] = &mut lent;
    let careful = proved::careful(&case.form, &case.sheet, items, answers, list);
    let proved::CarefulAnswer { number, place, tries, words, state, .. } = careful;
    single(RunAnswer { number, place, tries, words, state }, lent)
}

/// What a careful run leaves, of what a plain one does.
fn reread(plain: Slices, case: &Case) -> Slices {
    let both = Form::check(&case.form).ok().zip(Sheet::check(&case.sheet).ok());
    let reading = both.map_or(Reading::default(), |(form, sheet)| Reading::of(&form, &sheet.arguments));
    batches::careful(plain, reading.misread.first())
}

/// What the generated batches had.
#[derive(Default)]
struct Seen {
    records: u64,
    beside: u64,
    first: u64,
    last: u64,
    several: u64,
    most: u64,
    longer: u64,
}

impl Seen {
    /// A batch of so many sheets that was not refused.
    fn batch(&mut self, given: &Given, sheets: usize, told: &Told) {
        let numbers: Vec<u32> = told[1].chunks_exact(4).take(sheets).map(|record| record[0]).collect();
        let misread = numbers.iter().filter(|number| **number == 50).count();
        let others = numbers.contains(&0) && numbers.iter().any(|number| ![0, 50].contains(number));
        self.records += misread as u64;
        self.beside += u64::from(misread > 0 && others);
        self.first += u64::from(sheets > 1 && numbers[0] == 50);
        self.last += u64::from(sheets > 1 && numbers[sheets - 1] == 50);
        self.several += u64::from(misread > 1);
        self.most += u64::from(misread > 0 && sheets == SHEETS);
        self.longer += u64::from(misread > 0 && given.lengths != room(sheets));
    }

    /// The least counts, in the proportion of the batches that were asked for.
    fn goals(&self, count: u64) -> Vec<Goal> {
        let goal = |what: &'static str, met: u64, least: u64| Goal { what, met, least };
        vec![
            goal("records with 50", self.records, count / 3),
            goal("batches with 50 beside an accepted sheet and one that is refused otherwise", self.beside, count / 16),
            goal("batches with 50 in the first record of several", self.first, count / 30),
            goal("batches with 50 in the last record of several", self.last, count / 30),
            goal("batches with 50 in several records", self.several, count / 20),
            goal("batches of 32 sheets with a record of 50", self.most, count / 120),
            goal("batches with a record of 50 and slices that are longer than their parts", self.longer, count / 16),
        ]
    }
}

/// A form that takes most words, and lines for it with the number and the place plus 1 of each record.
const FORM: &str = "optional(text(-l --limit)); switch(-1); switch(-2); many(operand)";
const LINES: [(&[&[u8]], [u32; 2]); 12] = [
    (&[b"-17"], [50, 1]),
    (&[], [0, 0]),
    (&[b"-12", b"a", b"-1x2"], [50, 4]),
    (&[b"--", b"-17"], [0, 0]),
    (&[b"-l", b"-17"], [50, 2]),
    (&[b"-l-17", b"-"], [0, 0]),
    (&[b"-l=-17", b"-v\xff", b"-17"], [50, 3]),
    (&[b"-1", b"-1", b"-17"], [27, 2]),
    (&["-é=7".as_bytes()], [50, 1]),
    (&[b"--limit", b"-", b"--\xff"], [50, 3]),
    (&[b"-l"], [22, 1]),
    (&[b"-l-17", b"a-b", b"--limits"], [27, 4]),
];

/// The batch of these lines, from one on and so many.
fn known(from: usize, count: usize) -> (BatchCase, Vec<[u32; 2]>) {
    let chosen: Vec<_> = LINES.iter().cycle().skip(from).take(count).collect();
    let sheet = |line: &[&[u8]]| Sheet { arguments: line.iter().map(|a| a.to_vec()).collect() }.write();
    let sheets = chosen.iter().map(|(line, _)| sheet(line)).collect();
    (BatchCase { form: parsed(FORM).write(), sheets }, chosen.iter().map(|(_, record)| *record).collect())
}

impl Batches {
    /// The lines above in every rotation, of every count, in slices that have just room for them and longer ones.
    fn known_careful(&mut self) {
        for (from, count) in (0..LINES.len()).flat_map(|from| [1, 2, LINES.len(), SHEETS].map(|count| (from, count))) {
            let (case, want) = known(from, count);
            for lengths in [room(count), room(count).map(|length| length + 7)] {
                let told = self.batch(&Given::of(&case, lengths));
                let ended: Vec<[u32; 2]> = told[1].chunks_exact(4).take(count).map(|record| [record[0], record[1]]).collect();
                self.compared.same("known records", &|| format!("{count} lines from {from} on"), &ended, &want);
            }
        }
    }
}

/// In most batches the sheets have much with a dash before it.
fn case(rng: &mut Rng) -> BatchCase {
    match rng.below(16) {
        0..=3 => cases::batched(rng),
        4 | 5 => BatchCase { form: cases::damaged(rng).form, ..cases::dashed_batch(rng) },
        _ => cases::dashed_batch(rng),
    }
}

/// Lines that are known and all that is known of plain batches; then generated ones, one in four a pair that agrees on a sheet, one in
/// eight at fault.
pub fn compare(seed: u64, count: u64) -> Compared {
    let (mut batches, mut seen) = (Batches::new(&CAREFUL), Seen::default());
    batches.known_careful();
    batches.known();
    let mut rng = Rng::new(seed);
    for k in 0..count {
        if k % 4 == 0 {
            let pair = if k % 8 == 0 { cases::agreeing(&mut rng) } else { cases::agreeing_dashed(&mut rng) };
            batches.isolated(&mut rng, pair);
            continue;
        }
        let case = case(&mut rng);
        let mut given = Given::of(&case, lengths(&mut rng, case.sheets.len()));
        if k % 8 == 1 {
            given.batch = cases::damaged_batch(&mut rng, &case);
        }
        let told = batches.batch(&given);
        let sheets = batches::read(&given.batch, given.lengths).map_or(0, |sheets| sheets.len());
        seen.batch(&given, sheets, &told);
    }
    let goals = batches.goals(count).into_iter().chain(seen.goals(count)).collect();
    Compared { goals, ..batches.compared }
}
