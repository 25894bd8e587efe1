//! Generated texts and lines: each is answered, and what is shown fits together.

use std::collections::BTreeSet;
use std::os::unix::ffi::OsStringExt;

use silverpoise::{CommandTable, Mark, UsedBy};

use super::*;

/// The same numbers on every machine (a linear congruence, its high bits).
struct Numbers(u64);

impl Numbers {
    fn below(&mut self, end: usize) -> usize {
        self.0 = self.0.wrapping_mul(6364136223846793005).wrapping_add(1442695040888963407);
        (self.0 >> 33) as usize % end
    }

    fn pick<'a, T: ?Sized>(&mut self, of: &[&'a T]) -> &'a T {
        of[self.below(of.len())]
    }
}

const LEAVES: [&str; 8] = [
    "switch -v",
    "flag -q --quiet",
    "text -w",
    "number -w --weight",
    "text",
    "number",
    "text \"--two words\"",
    "number -\u{e9}",
];

const MODIFIERS: [&str; 16] = [
    "optional",
    "optional, catch",
    "many",
    "many, catch",
    "some",
    "count",
    "last",
    "catch",
    "adjacent",
    "strict",
    "non-strict",
    "1..9",
    "9..1",
    "else 7",
    "else yes",
    "else \"x\\xff\"",
];

const HEADINGS: [&str; 4] = ["[wear w]\n", "[log]  # comment\n", "[\"two words\" é]\n", "[p pair]\n"];

/// What damages a text.
const PIECES: [&str; 16] =
    [":", ",", "(", ")", " or ", "\"", "\\", "#", "\n", "\t", " -vq", " --a=b", ", 1..", "else", "[", "]"];

fn parser_text(numbers: &mut Numbers, depth: usize) -> String {
    let mut text = match (depth, numbers.below(4)) {
        (0, _) | (_, 0 | 1) => numbers.pick(&LEAVES).to_string(),
        (_, 2) => format!("({})", parser_text(numbers, depth - 1)),
        _ => format!("{} or {}", parser_text(numbers, depth - 1), parser_text(numbers, depth - 1)),
    };
    for _ in 0..numbers.below(3) {
        text += ", ";
        text += numbers.pick(&MODIFIERS);
    }
    text
}

/// Fields one a line.
fn form_text(numbers: &mut Numbers) -> String {
    let fields = 1 + numbers.below(3);
    let field = |k| format!("field-{k}: {}  # comment\n", parser_text(numbers, 2));
    (0..fields).map(field).collect()
}

/// A form, or one or two commands; in every second text a piece too many.
fn file_text(numbers: &mut Numbers) -> String {
    let mut text = match numbers.below(2) {
        0 => form_text(numbers),
        _ => (0..1 + numbers.below(2)).map(|_| format!("{}{}", numbers.pick(&HEADINGS), form_text(numbers))).collect(),
    };
    if numbers.below(2) == 0 {
        let at = numbers.below(text.len());
        let at = (0..=at).rev().find(|at| text.is_char_boundary(*at)).unwrap_or(0);
        text.insert_str(at, numbers.pick(&PIECES));
    }
    text
}

/// What a text is at fault for, with the names and numbers of the text itself left out.
fn sort_of(words: &str) -> String {
    words.split(|c: char| c == '(' || c.is_ascii_digit()).next().unwrap_or_default().to_string()
}

#[test]
fn generated_texts_are_answered() {
    let mut numbers = Numbers(1);
    let (mut accepted, mut commands, mut warned, mut sorts) = (0, 0, 0, BTreeSet::new());
    for _ in 0..1_500 {
        let text = file_text(&mut numbers);
        match notation::parse(&text) {
            Ok(written) => {
                accepted += 1;
                let again = match &written.what {
                    What::Form(form) => Form::from_bytes(written.bytes()).as_ref() == Ok(form),
                    What::Commands(table) => CommandTable::from_bytes(written.bytes()).as_ref() == Ok(table),
                };
                assert!(again, "{text:?}");
                let (status, warnings) = check(&written, Paint(false));
                assert!(if status == 0 { warnings == "no warnings\n" } else { warnings.starts_with("warning: ") }, "{text:?}");
                warned += usize::from(status == 1);
                commands += usize::from(matches!(written.what, What::Commands(_)));
            }
            Err(fault) => {
                let line = text.lines().nth(fault.spot.line - 1).unwrap_or_default();
                assert!((1..=1 + line.chars().count()).contains(&fault.spot.column), "{text:?}: {fault:?}");
                assert!(fault.shown("f", &text).ends_with('^'));
                sorts.insert(sort_of(&fault.words));
            }
        }
    }
    assert!(accepted > 50 && commands > 20 && sorts.len() > 20, "{accepted} accepted, {commands} commands, {sorts:?}");
    assert!(warned > 20 && warned + 20 < accepted, "{warned} warned");
}

/// Two texts that are read as one, and joined: it is the same form, with the same fields.
#[test]
fn generated_texts_are_joined() {
    let mut numbers = Numbers(3);
    let texts: Vec<String> = (0..1_500).map(|_| form_text(&mut numbers)).filter(|text| notation::parse(text).is_ok()).collect();
    let parsed = |text: &str| notation::parse(text).unwrap_or_else(|fault| panic!("{text:?}: {fault:?}"));
    let names = |written: &Written| written.fields.concat().into_iter().map(|field| field.name).collect::<Vec<_>>();
    for pair in texts.windows(2) {
        let second = pair[1].replace("field-", "other-");
        let (whole, joined) = (parsed(&format!("{}{second}", pair[0])), parsed(&pair[0]).join(parsed(&second)));
        let joined = joined.unwrap_or_else(|words| panic!("{pair:?}: {words}"));
        assert_eq!((joined.forms(), names(&joined)), (whole.forms(), names(&whole)), "{pair:?}");
    }
    assert!(texts.len() > 100, "{}", texts.len());
}

const FORM: &str =
    "v: switch -v\nq: flag -q, count\nw: number -w --weight, optional\nl: text -l, else \"x\"\nrest: text, many\n";

fn word(numbers: &mut Numbers) -> OsString {
    let pieces: [&[u8]; 14] =
        [b"-", b"-", b"--", b"v", b"q", b"w", b"l", b"x", b"7", b"=", b" ", "é".as_bytes(), b"\xff", b"--weight"];
    let mut word = Vec::new();
    for _ in 0..numbers.below(6) {
        word.extend(numbers.pick(&pieces));
    }
    if numbers.below(30) == 0 {
        word.extend([b'7'; 70]);
    }
    OsString::from_vec(word)
}

/// The marks that a line of the form may show: each field by its name, and no conflict, since the form has no choice.
const MARKS: [&str; 7] = ["ends the options", "not used", "used by l", "used by q", "used by rest", "used by v", "used by w"];

/// Each item has its row, in order, with one run of carets, and all marks begin in the same column.
#[test]
fn generated_lines_are_shown() {
    let mut numbers = Numbers(2);
    let written = notation::parse(FORM).unwrap_or_else(|fault| panic!("{fault:?}"));
    let (mut seen, mut marks) = ([0; 2], BTreeSet::new());
    for _ in 0..200 {
        let line: Vec<OsString> = (0..1 + numbers.below(12)).map(|_| word(&mut numbers)).collect();
        let answer = written.read_values(&line);
        let count = answer.as_ref().map_or_else(|error| error.items().len(), |read| read.items().len());
        let (status, text) = read(&written, &line, Paint(false));
        seen[status as usize] += 1;
        let items = text.split("\n\n").next().unwrap_or_default();
        let rows: Vec<&str> = items.lines().filter(|row| !row.starts_with("line")).collect();
        assert_eq!(rows.len(), count, "{line:?}\n{text}");
        let kinds: BTreeSet<Option<usize>> = rows.iter().map(|row| row.find(|c: char| c.is_ascii_uppercase())).collect();
        assert_eq!(kinds.len(), 1, "{text}");
        for (place, row) in rows.iter().enumerate() {
            let carets: Vec<&str> = row.split_whitespace().filter(|word| word.starts_with('^')).collect();
            assert!(row.starts_with(&format!("{place:4}  ")) && carets.len() == 1 && row.len() <= 100, "{text}");
            let mark = row.rsplit("  ").next().unwrap_or_default();
            assert!(status == 1 || mark != "not used", "{text}");
            marks.insert(mark.to_string());
        }
    }
    assert!(seen.iter().all(|count| *count > 20), "{seen:?}");
    assert_eq!(marks.iter().map(String::as_str).collect::<Vec<_>>(), MARKS);
}

/// Colours change nothing but the colours.
#[test]
fn painted_lines_are_the_plain_ones() {
    let written = notation::parse(FORM).unwrap_or_else(|fault| panic!("{fault:?}"));
    for line in [&["-vw7", "a"][..], &["-v=7"], &["-vx"], &["-w"], &[]] {
        let line: Vec<OsString> = line.iter().map(OsString::from).collect();
        let (plain, painted) = (read(&written, &line, Paint(false)), read(&written, &line, Paint(true)));
        assert!(painted.1.contains("\x1b[1mline\x1b[0m") && !plain.1.contains('\x1b'));
        let stripped = ["0", "1", "31", "32", "33", "1;31"]
            .iter()
            .fold(painted.1, |text, code| text.replace(&format!("\x1b[{code}m"), ""));
        assert_eq!((painted.0, stripped), plain);
    }
}

/// The mark of the only item of the line `-v`, as it is shown with this mark.
fn shown_mark(form: &str, mark: Mark) -> String {
    let written = notation::parse(form).unwrap_or_else(|fault| panic!("{fault:?}"));
    let line = [OsString::from("-v")];
    let mut items = written.read_values(&line).map(|read| read.items().to_vec()).expect("accepted");
    items[0].mark = mark;
    let text = show::line(Paint(false), written.under(None), &line, &items);
    text.trim_end().rsplit("  ").next().unwrap_or_default().to_string()
}

/// Every mark has its words. A field is named as it is written, and nothing of its name reaches the terminal unescaped.
#[test]
fn every_mark_has_its_words() {
    let form = "first: text, many\n--: switch -v\n\u{1b}[1m: switch -w\n";
    let used = |by: UsedBy| shown_mark(form, Mark::Used(by));
    assert_eq!((used(UsedBy::Field(0)), used(UsedBy::Field(1))), ("used by first".to_string(), "used by --".to_string()));
    assert_eq!(used(UsedBy::Field(2)), "used by \\u{1b}[1m");
    assert_eq!(used(UsedBy::Marker), "ends the options");
    assert_eq!(
        (shown_mark(form, Mark::Unused), shown_mark(form, Mark::Conflict(7))),
        ("not used".into(), "conflict with 7".into())
    );
    // no read gives these
    assert_eq!((used(UsedBy::Command), used(UsedBy::Field(3))), ("a command".into(), "used by field 3".into()));
}
