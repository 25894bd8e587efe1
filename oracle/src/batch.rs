//! What the oracle does with bpaf's source at hand: one line, many cases, probes and scripts.

use std::{
    cell::RefCell,
    io::{BufWriter, Read, Write},
    os::unix::ffi::OsStringExt,
    panic::{catch_unwind, AssertUnwindSafe},
};

use bpaf::doc::harness::{run_bytes, Run, Wanted};
use line::{cases, cases::Case, cases::Rng, format::*, notation};

use crate::{
    lists::hex,
    script::{or_dash, show_state, Script},
};

thread_local!(static LAST_PANIC: RefCell<String> = const { RefCell::new(String::new()) });

/// A panic is kept for the report instead of being printed.
pub fn quiet_panics() {
    std::panic::set_hook(Box::new(|info| LAST_PANIC.with(|last| *last.borrow_mut() = info.to_string())));
}

/// What the function gives, or the words of its panic.
fn caught<T>(f: impl FnOnce() -> T) -> Result<T, String> {
    catch_unwind(AssertUnwindSafe(f)).map_err(|_| LAST_PANIC.with(|last| last.borrow().replace('\n', " ")))
}

fn read_input(limit: usize) -> Vec<u8> {
    let mut input = Vec::new();
    std::io::stdin().take(limit as u64).read_to_end(&mut input).expect("standard input");
    input
}

fn show_run(ran: &Run) -> String {
    let mut out = ran.answer.to_string();
    for record in &ran.records {
        let words: Vec<String> = record.iter().map(u32::to_string).collect();
        out.push_str(&format!("item {}\n", words.join(" ")));
    }
    out.push_str(&format!("state {}\n", show_state(&ran.state)));
    for [node, start, end] in &ran.missing {
        out.push_str(&format!("missing node {} scope {start} {end}\n", node - 1));
    }
    out
}

fn answer(form: &[u8], sheet: &[u8], shown: bool) -> bool {
    let ran = caught(|| run_bytes(form, sheet, Wanted { items: shown, ..Wanted::default() }));
    match &ran {
        Ok(ran) if shown => print!("{}", show_run(ran)),
        Ok(ran) => print!("{}", ran.answer),
        Err(panic) => println!("panic {panic}"),
    }
    ran.is_ok()
}

/// Form and sheet joined on standard input.
pub fn bench(shown: bool) -> bool {
    let input = read_input(BENCH_INPUT);
    let (form, sheet) = split_joined(&input);
    answer(form, sheet, shown)
}

fn parsed(form: &str) -> Form {
    notation::parse(form).unwrap_or_else(|e| {
        eprintln!("the form: {e}");
        std::process::exit(2)
    })
}

/// The bytes of this program's own arguments behind the form, which need not be UTF-8.
fn sheet_of_arguments() -> Sheet {
    let sheet = Sheet { arguments: std::env::args_os().skip(3).map(|a| a.into_vec()).collect() };
    if sheet.arguments.len() > ARGUMENTS || sheet.arguments.iter().map(Vec::len).sum::<usize>() > SHEET_AREA {
        eprintln!("the line: more than {ARGUMENTS} arguments or {SHEET_AREA} bytes");
        std::process::exit(2)
    }
    sheet
}

pub fn line(form: &str) -> bool {
    answer(&parsed(form).write(), &sheet_of_arguments().write(), true)
}

pub fn form(form: &str) -> bool {
    std::io::stdout().write_all(&parsed(form).write()).is_ok()
}

/// Single calls, one a line of standard input; each with its answer and the state left.
pub fn script(form: &str) -> bool {
    let mut script = match Script::new(parsed(form), &sheet_of_arguments()) {
        Ok(script) => script,
        Err(refused) => {
            println!("refused {} {}", refused.number, or_dash(refused.place));
            return false;
        }
    };
    println!("state {}", show_state(&script.view()));
    for call in std::io::stdin().lines().map(|l| l.expect("standard input")) {
        match caught(|| script.call(&call)) {
            Ok(Ok(answer)) => println!("{call} -> {answer}\nstate {}", show_state(&script.view())),
            Ok(Err(unknown)) => println!("{call}: {unknown}"),
            Err(panic) => println!("{call}: panic {panic}"),
        }
    }
    true
}

pub fn cases(seed: u64, count: u64) -> bool {
    let mut rng = Rng::new(seed);
    let mut out = BufWriter::new(std::io::stdout());
    (0..count).all(|_| {
        let joined = any_case(&mut rng).joined();
        out.write_all(&(joined.len() as u32).to_le_bytes()).and_then(|()| out.write_all(&joined)).is_ok()
    })
}

/// Mostly well-made cases; one in eight damaged.
fn any_case(rng: &mut Rng) -> Case {
    if rng.below(8) == 0 { cases::damaged(rng) } else { cases::well_made(rng) }
}

/// Cases behind their lengths from standard input, each answered as `bench` does.
pub fn batch() -> bool {
    let input = read_input(usize::MAX >> 1);
    let mut out = BufWriter::new(std::io::stdout());
    let (mut rest, mut good) = (&input[..], true);
    while let Some((length, tail)) = rest.split_first_chunk::<4>() {
        let (joined, tail) = tail.split_at(u32::from_le_bytes(*length) as usize);
        let (form, sheet) = split_joined(joined);
        let printed = match caught(|| run_bytes(form, sheet, Wanted::default())) {
            Ok(ran) => ran.answer.to_string(),
            Err(panic) => format!("panic {panic}\n"),
        };
        good &= !printed.starts_with("panic");
        out.write_all(printed.as_bytes()).expect("standard output");
        rest = tail;
    }
    good
}

/// Counts of a probed round: cases by their number, evaluations, facts broken.
#[derive(Default)]
struct Probe {
    cases: u64,
    visits: u64,
    broken: u64,
    numbers: std::collections::BTreeMap<u32, u64>,
}

impl Probe {
    fn case(&mut self, case: &Case) {
        let wanted = Wanted { items: true, probe: true, put_back: true, ..Wanted::default() };
        let ran = caught(|| run_bytes(&case.form, &case.sheet, wanted));
        self.cases += 1;
        let broken = match &ran {
            Ok(ran) => {
                *self.numbers.entry(ran.answer.number).or_default() += 1;
                self.visits += ran.visits;
                ran.broken.first().cloned()
            }
            Err(panic) => Some(format!("panic {panic}")),
        };
        if let Some(fact) = broken {
            self.broken += 1;
            if self.broken <= 10 {
                println!("BROKEN {fact}\n  form {}\n  sheet {}", hex(&case.form), hex(&case.sheet));
            }
        }
    }

    fn report(&self, what: &str) -> bool {
        let numbers: Vec<String> = self.numbers.iter().map(|(n, c)| format!("{n}: {c}")).collect();
        println!("{what}: {} cases, {} evaluations, {} broken", self.cases, self.visits, self.broken);
        println!("answers {}", numbers.join(", "));
        self.cases > 0 && self.broken == 0
    }
}

pub fn probe(seed: u64, count: u64) -> bool {
    let mut rng = Rng::new(seed);
    let mut probe = Probe::default();
    cases::limits().iter().for_each(|case| probe.case(case));
    (0..count).for_each(|_| probe.case(&any_case(&mut rng)));
    probe.report("probe")
}

/// Every short line over an alphabet of what splitting looks at, under each of the sample forms.
pub fn short(arguments: usize, bytes: usize) -> bool {
    let mut probe = Probe::default();
    for form in cases::sample_forms() {
        let form = form.write();
        for sheet in cases::short_lines(b"-=vw7", arguments, bytes) {
            probe.case(&Case { form: form.clone(), sheet: sheet.write() });
        }
    }
    probe.report("short lines")
}

/// Random scripts of single calls: no panic, and `remaining` right after each.
pub fn calls(seed: u64, count: u64) -> bool {
    let mut rng = Rng::new(seed);
    let (mut made, mut broken) = (0, 0);
    while made < count {
        let case = cases::well_made(&mut rng);
        let (Ok(form), Ok(sheet)) = (Form::check(&case.form), Sheet::check(&case.sheet)) else { continue };
        if sheet.arguments.len() > 20 {
            continue;
        }
        let Ok(mut script) = Script::new(form, &sheet) else { continue };
        for _ in 0..1 + rng.below(12) {
            let call = script.random_call(&mut rng);
            let given = show_state(&script.view());
            let outcome = caught(|| script.call(&call)).and_then(|o| o);
            let view = script.view();
            made += 1;
            if outcome.is_err() || view.remaining != view.unused() {
                broken += 1;
                println!("BROKEN {call} on {given}: {outcome:?}, then {}", show_state(&view));
            }
        }
    }
    println!("calls: {made} made, {broken} broken");
    made > 0 && broken == 0
}

/// The bytes of a word of the table of differences: `\\xHH` is a byte.
fn unescaped(word: &str) -> Vec<u8> {
    let mut out = Vec::new();
    let mut rest = word;
    while let Some((before, after)) = rest.split_once("\\x") {
        out.extend(before.bytes());
        out.push(u8::from_str_radix(&after[..2], 16).expect("two hexadecimal digits"));
        rest = &after[2..];
    }
    out.extend(rest.bytes());
    out
}

/// The table of differences with POSIX and GNU: what is said of this project's answers, by the real bpaf.
pub fn differences(path: &str) -> bool {
    const KINDS: [&str; 6] = ["", "Short", "Long", "ArgWord", "Word", "PosWord"];
    let text = std::fs::read_to_string(path).unwrap_or_else(|e| panic!("{path}: {e}"));
    let (mut rows, mut differ) = (0, 0);
    for row in text.lines().filter(|l| !l.is_empty() && !l.starts_with('#')) {
        let columns: Vec<&str> = row.split(" ; ").map(str::trim).collect();
        let [name, _, _, line, _, form, ours] = columns[..] else { panic!("a row of seven columns: {row}") };
        let sheet = Sheet { arguments: line.split(' ').map(unescaped).collect() };
        let ran = run_bytes(&parsed(form).write(), &sheet.write(), Wanted { items: true, ..Wanted::default() });
        let kinds: Vec<&str> = ran.records.iter().map(|r| KINDS[r[0] as usize]).collect();
        let answer = format!("{} {} {}", ran.answer.number, or_dash(ran.answer.place), kinds.join(" "));
        rows += 1;
        if answer != ours {
            differ += 1;
            println!("DIFFERS {name}: the answer is `{answer}`, the table says `{ours}`");
        }
    }
    println!("differences: {rows} rows, {differ} differ");
    rows > 0 && differ == 0
}
