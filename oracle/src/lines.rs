//! Lines with known answers, as tests of the oracle: those of the bench and its hex example first, then one for each
//! doubtful word of the rules (docs/DECISIONS.md has the readings).

use bpaf::doc::harness::{
    choose, run_both, run_bytes, run_inner, run_table, Chosen, Commanded, PutBack, Record, Run, Wanted, Whole,
};
use line::commands::{self, Command, Table};
use line::{cases, cases::Pair, format::*, notation};

/// Flags v, q; number argument w; letter b both.
const LETTERS: &str = "switch(-v); switch(-q); optional(number(-w)); switch(-b); optional(text(-b)); many(operand)";

pub struct Tests {
    pub passed: usize,
    pub failed: usize,
}

fn run(form: &str, arguments: &[&[u8]]) -> Run {
    let form = notation::parse(form).expect("a form of the tests").write();
    let sheet = Sheet { arguments: arguments.iter().map(|a| a.to_vec()).collect() }.write();
    run_bytes(&form, &sheet, Wanted { items: true, probe: true, ..Wanted::default() })
}

/// An item in words: `Short v adjacent "-vq"`.
fn show_item(record: &Record, area: &[u8]) -> String {
    let part = |at: u32, length: u32| String::from_utf8_lossy(&area[at as usize..(at + length) as usize]).into_owned();
    let adjacent = if record[1] == 1 { " adjacent" } else { "" };
    let text = part(record[5], record[6]);
    match record[0] {
        1 => format!("Short {}{} {:?}", char::from_u32(record[2]).unwrap_or('?'), adjacent, text),
        2 => format!("Long {:?}{} {:?}", part(record[3], record[4]), adjacent, text),
        3 => format!("ArgWord {text:?}"),
        4 => format!("Word {text:?}"),
        _ => format!("PosWord {text:?}"),
    }
}

impl Tests {
    fn equal<T: PartialEq + std::fmt::Debug>(&mut self, name: &str, got: T, want: T) {
        if got == want {
            self.passed += 1;
        } else {
            self.failed += 1;
            println!("FAILED {name}\n  got  {got:?}\n  want {want:?}");
        }
    }

    /// The items of a line under the letters above.
    fn items(&mut self, arguments: &[&[u8]], want: &[&str]) {
        let ran = run(LETTERS, arguments);
        let area = arguments.concat();
        let got: Vec<String> = ran.records.iter().map(|r| show_item(r, &area)).collect();
        self.equal(&format!("items of {:?}", String::from_utf8_lossy(&area)), got, owned(want));
    }

    /// Number, place, tries and words of a run.
    fn answer(&mut self, form: &str, arguments: &[&[u8]], number: u32, place: Option<usize>, tries: u64, words: &[u32]) {
        let ran = run(form, arguments);
        let want = Answer { number, place, tries, words: words.to_vec() };
        self.equal(&format!("{form} on {} arguments", arguments.len()), ran.answer, want);
        self.equal(&format!("{form}: probed facts"), ran.broken, Vec::new());
    }

    /// Number and place alone.
    fn refused(&mut self, form: &str, arguments: &[&[u8]], number: u32, place: Option<usize>) {
        let ran = run(form, arguments).answer;
        self.equal(&format!("{form} refused"), (ran.number, ran.place), (number, place));
    }
}

fn owned(texts: &[&str]) -> Vec<String> {
    texts.iter().map(|t| t.to_string()).collect()
}

pub fn all() -> Tests {
    let mut tests = Tests { passed: 0, failed: 0 };
    split_lines(&mut tests);
    run_lines(&mut tests);
    hex_example(&mut tests);
    doubtful_splits(&mut tests);
    doubtful_runs(&mut tests);
    doubtful_inputs(&mut tests);
    known_lists(&mut tests);
    known_marks(&mut tests);
    known_commands(&mut tests);
    known_joins(&mut tests);
    choice_findings(&mut tests);
    run_inner_findings(&mut tests);
    tests
}

fn split_lines(t: &mut Tests) {
    t.items(&[b""], &["Word \"\""]);
    t.items(&[b"-"], &["Word \"-\""]);
    t.items(&[b"---"], &["Long \"-\" \"---\""]);
    t.items(&[b"--=7"], &["Long \"\" adjacent \"--=7\"", "ArgWord \"7\""]);
    t.items(&[b"--", b"-v"], &["PosWord \"--\"", "PosWord \"-v\""]);
    let dashes = run("many(operand)", &[b"--", b"-v"]);
    t.equal("`--` is used, one place remains", dashes.answer.words, vec![1, 1]);
    let unread = run("switch(-v)", &[b"--", b"-v"]);
    t.equal("the state after `--` `-v`", (unread.state.marks, unread.state.remaining), (vec![510, 0], 1));
    t.items(&[b"-x"], &["Short x \"-x\""]);
    t.items(&[b"-vx"], &["Word \"-vx\""]);
    t.items(&[b"-vq"], &["Short v \"-vq\"", "Short q \"\""]);
    t.items(&[b"-vw7"], &["Short v \"-vw7\"", "Short w adjacent \"-vw7\"", "Word \"7\""]);
    t.items(&[b"-vw"], &["Short v \"-vw\"", "Short w \"-vw\""]);
    t.items(&[b"-vw=7"], &["Short v adjacent \"-vw=7\"", "ArgWord \"w=7\""]);
    t.items(&[b"-vb"], &["Short v \"-vb\"", "Word \"-vb\""]);
    t.refused(LETTERS, &[b"-vb"], 9, Some(1));
    t.items(&[b"-b"], &["Short b \"-b\""]);
}

fn run_lines(t: &mut Tests) {
    t.answer("count(switch(-v))", &[], 0, None, 1, &[1]);
    t.answer("count(flag(-v))", &[], 0, None, 1, &[0]);
    t.answer("many(optional(flag(-v)))", &[], 0, None, 2, &[1, 0]);
    let choice = "choice(flag(-v), flag(-q))";
    t.answer(choice, &[b"-q", b"-v"], 27, Some(1), 2, &[]);
    t.equal("the loser's mark", run(choice, &[b"-q", b"-v"]).state.marks, vec![512, 2]);
    t.answer("operand; guard(fallback(number(-w), 9), 1..5)", &[b"a"], 26, Some(0), 2, &[]);
    t.refused("number(-w)", &[b"-w", b"-7"], 22, Some(0));
    t.refused("number(-w)", &[b"-w=-7"], 25, Some(1));
    t.refused("number(-w)", &[b"-w", b"4294967296"], 25, Some(1));
    t.answer("number(-w)", &[b"-w", b"4294967295"], 0, None, 1, &[u32::MAX]);
    let most: Vec<&[u8]> = vec![b"a"; 256];
    t.equal("256 arguments run", run("many(operand)", &most).answer.words[0], 256);
    let more: Vec<&[u8]> = vec![b"a"; 257];
    t.refused("many(operand)", &more, 6, None);
}

fn hex_example(t: &mut Tests) {
    let mut joined = vec![2, 0, 1, 0, 1, 0, 1, 0, 1, 0, 1, 0, 0, 0, 1, 0];
    joined.extend([0; 10]);
    joined.extend([7, 0]);
    joined.extend([0; 14]);
    joined.extend([0, 0, 0, 0, 1, 0, 0x76, 1, 0, 0, 0, 3, 0, 0x2d, 0x76, 0x76]);
    let (form, sheet) = split_joined(&joined);
    let ran = run_bytes(form, sheet, Wanted::default());
    t.equal("the hex example", ran.answer.to_string(), "answer 0 place - tries 3 words 1\n2\n".to_string());
}

fn doubtful_splits(t: &mut Tests) {
    // the name is cut to one byte before it is asked to be UTF-8
    t.items(&["-é".as_bytes()], &["Short é \"-é\""]);
    t.items(&["-é=7".as_bytes()], &["Word \"-é=7\""]);
    t.items(&[b"-v\xff=7"], &["Short v adjacent \"-v\u{fffd}=7\"", "ArgWord \"\u{fffd}=7\""]);
    t.items(&[b"--\xff"], &["Word \"--\u{fffd}\""]);
    t.items(&[b"--", b"--", b""], &["PosWord \"--\"", "PosWord \"--\"", "PosWord \"\""]);
    t.items(&[b"-=", b"-=7"], &["Short = \"-=\"", "Word \"-=7\""]);
    t.items(&[b"-v="], &["Short v adjacent \"-v=\"", "ArgWord \"\""]);
    // refusals 8 and 9 near the limit of 256 items
    let mut line: Vec<&[u8]> = vec![b"a"; 254];
    line.push(b"-vb");
    t.refused(LETTERS, &line, 9, Some(255));
    line.insert(0, b"a");
    t.refused(LETTERS, &line, 8, None);
    line[255] = b"-vq";
    t.refused(LETTERS, &line, 8, None);
    // a long cluster that is withdrawn is one Word, whatever room is left
    let mut cluster = vec![b'v'; 1000];
    cluster[0] = b'-';
    cluster.push(b'x');
    let mut line: Vec<&[u8]> = vec![b"a"; 255];
    line.push(&cluster);
    t.equal("a withdrawn cluster", run("many(operand); switch(-v)", &line).answer.words[0], 256);
    // empty parts have offset 0
    let ran = run(LETTERS, &[b"a", b"", b"-vq", b"-w="]);
    t.equal("an empty word", ran.records[1], [4, 0, 0, 0, 0, 0, 0]);
    t.equal("a later letter of a cluster", ran.records[3], [1, 0, 'q' as u32, 0, 0, 0, 0]);
    t.equal("an empty value", ran.records[5], [3, 0, 0, 0, 0, 0, 0]);
}

fn doubtful_runs(t: &mut Tests) {
    // a refused number behind a fallback leaves the state that the fallback was given
    let ran = run("fallback(operand#, 9)", &[b"a"]);
    t.equal("a fallback puts the word back", (ran.answer.number, ran.answer.place), (25, Some(0)));
    t.equal("its state", (ran.state.marks, ran.state.current), (vec![0], None));
    let ran = run("operand#", &[b"a"]);
    t.equal("a refused word is used up", (ran.state.marks, ran.state.current), (vec![512], Some(0)));
    // one success that used nothing loses to 22, 23 and 24, and to nothing else
    t.refused("choice(switch(-v), choice(switch(-q), fallback(flag(-x), yes)))", &[], 0, None);
    t.refused("choice(fallback(operand, \"d\"), strict)", &[b"--", b"a"], 0, None);
    t.refused("choice(fallback(text(-w), \"d\"), strict)", &[b"-v", b"a"], 23, Some(1));
    t.refused("choice(fallback(text(-l), \"d\"), text(-w))", &[b"-w"], 22, Some(0));
    t.refused("choice(fallback(number(-l), 3), operand#)", &[b"a"], 27, Some(0));
    // of two refusals the second, if the first can be caught
    t.refused("choice(text(-w), text(-l))", &[b"-w"], 22, Some(0));
    t.refused("choice(text(-l), text(-w))", &[b"-w"], 22, Some(0));
    t.refused("choice(text(-l), strict)", &[b"a"], 23, Some(0));
    t.refused("choice(strict, text(-l))", &[b"a"], 23, Some(0));
    t.refused("choice(non-strict#, strict#)", &[b"--", b"a"], 25, Some(1));
    // an adjacent argument takes only adjacent items; a flag takes them too
    t.refused("number=(-w)", &[b"-w", b"7"], 20, None);
    t.answer("number=(-w)", &[b"-w7"], 0, None, 1, &[7]);
    t.refused("switch(-v)", &[b"-v=7"], 27, Some(1));
    // catch swallows 25 and 26 but not 22, 23, 24; 24 is swallowed without it
    t.refused("optional(operand#)", &[b"a"], 25, Some(0));
    t.refused("optional!(operand#)", &[b"a"], 27, Some(0));
    t.refused("optional!(number(-w))", &[b"-w"], 22, Some(0));
    t.refused("optional!(strict)", &[b"a"], 23, Some(0));
    t.refused("optional(non-strict)", &[b"--", b"a"], 27, Some(1));
    t.refused("some(operand)", &[], 21, None);
    // `last` with no value tries its child once more
    t.answer("last(flag(-v))", &[], 20, None, 2, &[]);
    t.answer("last(switch(-v))", &[b"-v", b"-v"], 0, None, 3, &[1]);
    for (text, want) in [("+7", Some(7)), ("007", Some(7)), ("+", None), ("++7", None), ("", None), ("7 ", None)] {
        let number = run("operand#", &[text.as_bytes()]).answer;
        t.equal(&format!("the number {text:?}"), number.words.first().copied(), want);
    }
}

fn doubtful_inputs(t: &mut Tests) {
    let number = |sheet: &[u8]| Sheet::check(sheet).err().map(|r| r.number);
    t.equal("a sheet of no bytes", number(&[]), Some(5));
    t.equal("a sheet of one byte", number(&[0]), Some(5));
    t.equal("257 arguments need only the count", number(&[1, 1]), Some(6));
    t.equal("an empty sheet", number(&[0, 0, 0, 0]), None);
    let flag = Node { kind: FLAG, q: 1, r: 1, ..Node::default() };
    let v = Name { ty: SHORT, offset: 0, length: 1 };
    let form = |nodes: Vec<Node>, fields: Vec<u16>| {
        Form::check(&Form { fields, nodes, names: vec![v], area: b"v".to_vec() }.write()).err()
    };
    let choice = |k: u16| Node { kind: CHOICE, p: k, q: k, ..Node::default() };
    t.equal("a shared child", form(vec![flag, choice(0)], vec![1]), Some(Refusal::at(4, 0)));
    let above = Node { kind: OPTIONAL, p: 1, ..Node::default() };
    t.equal("a child above its node", form(vec![above, flag], vec![0]), Some(Refusal::at(3, 0)));
    let chain: Vec<Node> = std::iter::once(flag).chain((0..63).map(choice)).collect();
    t.equal("a chain of 63 shared choices", form(chain, vec![63]), Some(Refusal::at(4, 0)));
    t.equal("a field number past the nodes", form(vec![flag], vec![1]), Some(Refusal::new(4)));
}

/// A form, a line, and what is missing: node plus 1, scope start, scope end.
pub type Listed = (Form, Sheet, Vec<Entry>);

fn listed(form: Form, arguments: &[&[u8]], nodes: &[u32]) -> Listed {
    let sheet = Sheet { arguments: arguments.iter().map(|a| a.to_vec()).collect() };
    // each of these arguments is one item, and a run looks in all of them
    let scope = arguments.len() as u32;
    (form, sheet, nodes.iter().map(|node| [node + 1, 0, scope]).collect())
}

/// Lines whose lists are known, in the notation's own numbers.
fn written_lists() -> Vec<Listed> {
    type Written<'a> = (&'a str, &'a [&'a [u8]], &'a [u32]);
    let lines: [Written; 19] = [
        ("flag(-v)", &[b"a", b"--"], &[0]),
        ("switch(-v); text(-w)", &[b"-v"], &[1]),
        ("number=(-w)", &[b"-w", b"7"], &[0]),
        ("strict", &[b"-v"], &[0]),
        ("guard(operand#, 1..5)", &[], &[0]),
        // a choice: the first side's, then the second's
        ("choice(flag(-v), flag(-q))", &[], &[0, 1]),
        ("choice(choice(flag(-v), flag(-q)), flag(-x))", &[b"a"], &[0, 1, 3]),
        ("choice(flag(-v), choice(flag(-q), flag(-x)))", &[b"a"], &[0, 1, 2]),
        ("choice(choice(text(-w), strict), choice(text(-l), operand))", &[b"--"], &[0, 1, 3, 4]),
        // 24 and then 20: the second's alone, though v was missing too; 20 and then 24: none
        ("choice(choice(text(-v), non-strict), text(-w))", &[b"--", b"x"], &[3]),
        ("choice(non-strict, choice(text(-v), text(-w)))", &[b"--", b"x"], &[1, 2]),
        ("choice(text(-w), non-strict)", &[b"--", b"x"], &[]),
        ("choice(some(text(-w)), some(operand))", &[], &[]),
        // `last` tries twice and lists what its second try lacks
        ("last(flag(-v))", &[], &[0]),
        ("last(choice(flag(-v), flag(-q)))", &[b"a"], &[0, 1]),
        // what is swallowed is dropped
        ("optional(choice(flag(-v), flag(-q))); flag(-x)", &[], &[4]),
        ("choice(fallback(text(-v), \"d\"), text(-w))", &[], &[]),
        ("many(flag(-v)); count(flag(-q)); some!(flag(-x))", &[], &[]),
        ("fallback(flag(-v), no); choice(flag(-q), flag(-x))", &[], &[2, 3]),
    ];
    let form = |text: &str| notation::parse(text).expect("a form of the tests");
    lines.iter().map(|(text, arguments, nodes)| listed(form(text), arguments, nodes)).collect()
}

/// A choice goes by p and q, whichever of its sides has the lower number.
fn crossed_numbers() -> Vec<Listed> {
    let form = |text: &str| notation::parse(text).expect("a form of the tests");
    let mut two = form("choice(flag(-v), flag(-q))");
    (two.nodes[2].p, two.nodes[2].q) = (1, 0);
    let mut four = form("choice(choice(flag(-v), flag(-q)), choice(flag(-x), flag(-y)))");
    (four.nodes[6].p, four.nodes[6].q) = (5, 2);
    (four.nodes[2].p, four.nodes[2].q) = (1, 0);
    vec![listed(two, &[], &[1, 0]), listed(four, &[b"a"], &[3, 4, 1, 0])]
}

/// As many entries as there can be: 32 flags under 31 choices, nested to the left and to the right.
fn longest_lists() -> Vec<Listed> {
    let flags: Vec<String> = ('a'..='z').chain('A'..='F').map(|c| format!("flag(-{c})")).collect();
    let left = flags.iter().skip(1).fold(flags[0].clone(), |form, flag| format!("choice({form}, {flag})"));
    let right = flags.iter().rev().skip(1).fold(flags[31].clone(), |form, flag| format!("choice({flag}, {form})"));
    let leaves = |form: &Form| (0..63).filter(|k| form.nodes[*k as usize].kind == FLAG).collect::<Vec<u32>>();
    let lists = [left, right].map(|text| {
        let form = notation::parse(&text).expect("a form of the tests");
        let leaves = leaves(&form);
        listed(form, &[b"a"], &leaves)
    });
    lists.into()
}

/// Lines whose lists are known.
pub fn lists() -> Vec<Listed> {
    [written_lists(), crossed_numbers(), longest_lists()].concat()
}

fn known_lists(t: &mut Tests) {
    for (form, sheet, want) in lists() {
        let ran = run_bytes(&form.write(), &sheet.write(), Wanted { probe: true, ..Wanted::default() });
        let name = notation::show(&form);
        t.equal(&format!("{name}: what is missing"), &ran.missing, &want);
        t.equal(&format!("{name}: a list comes with 20"), ran.answer.number == 20, !want.is_empty());
        t.equal(&format!("{name}: probed facts"), ran.broken, Vec::new());
    }
}

/// A form, a line, the marks that its run leaves, and the places that a field put back: field and place.
pub type Marked = (Form, Sheet, Vec<u16>, Vec<[usize; 2]>);

/// Lines whose marks are known: which field used what.
pub fn marks() -> Vec<Marked> {
    type Written<'a> = (&'a str, &'a [&'a [u8]], &'a [u16], &'a [[usize; 2]]);
    let sixteen: Vec<String> = ('a'..='p').map(|c| format!("switch(-{c})")).collect();
    let sixteen = sixteen.join("; ");
    let lines: [Written; 20] = [
        // each field has its number, wherever it stands on the line
        ("switch(-v); switch(-q)", &[b"-q", b"-v"], &[513, 512], &[]),
        ("switch(-v); optional(number(-w)); many(operand)", &[b"-vw7", b"lock"], &[512, 513, 513, 514], &[]),
        (&sixteen, &[b"-po", b"-a"], &[527, 526, 512], &[]),
        // the opening `--`, and another behind it
        ("switch(-v); many(operand)", &[b"-v", b"a", b"--", b"b", b"--"], &[512, 513, 510, 513, 513], &[]),
        ("switch(-v)", &[b"--", b"-v"], &[510, 0], &[]),
        // the loser of a choice is in conflict, until a later field takes it
        ("switch(-x); choice(flag(-v), flag(-q))", &[b"-q", b"-v", b"-x"], &[513, 2, 512], &[[1, 1]]),
        ("choice(flag(-v), flag(-q)); switch(-v)", &[b"-q", b"-v"], &[512, 513], &[[0, 1]]),
        ("choice(text(-w), operand); many(operand)", &[b"a", b"-w", b"b"], &[512, 2, 513], &[[0, 1], [0, 2]]),
        ("operand; choice(flag(-v), flag(-q)); operand", &[b"-v", b"a", b"-q", b"b"], &[513, 512, 2, 514], &[[1, 2]]),
        // what is put back is the next field's, or nobody's
        ("optional!(operand#); operand", &[b"a"], &[513], &[[0, 0]]),
        ("fallback(non-strict, \"d\"); operand", &[b"--", b"a"], &[510, 513], &[[0, 1]]),
        ("many!(operand#); many(operand)", &[b"1", b"a", b"2"], &[512, 513, 513], &[[0, 1]]),
        ("some!(guard(number(-w), 1..5)); many(text(-w))", &[b"-w1", b"-w9"], &[512, 512, 513, 513], &[[0, 2], [0, 3]]),
        ("optional(non-strict)", &[b"--", b"a"], &[510, 0], &[[0, 1]]),
        ("choice(strict, text(-l))", &[b"a"], &[0], &[[0, 0]]),
        ("switch(-v); fallback(operand#, 9)", &[b"a", b"-v"], &[0, 512], &[[1, 0]]),
        // a refused field keeps what it took
        ("switch(-v); operand#", &[b"-v", b"a"], &[512, 513], &[]),
        ("operand; guard(number(-w), 1..5)", &[b"a", b"-w", b"9"], &[512, 513, 513], &[]),
        ("operand; optional(text(-w))", &[b"-w", b"7"], &[0, 512], &[]),
        // refused by the split: nothing is used
        ("switch(-v); switch(-b); optional(text(-b))", &[b"-vb", b"--"], &[0, 0], &[]),
    ];
    let form = |text: &str| notation::parse(text).expect("a form of the tests");
    let sheet = |arguments: &[&[u8]]| Sheet { arguments: arguments.iter().map(|a| a.to_vec()).collect() };
    lines.iter().map(|(text, line, marks, back)| (form(text), sheet(line), marks.to_vec(), back.to_vec())).collect()
}

fn known_marks(t: &mut Tests) {
    for (form, sheet, marks, back) in marks() {
        let ran = run_bytes(&form.write(), &sheet.write(), Wanted { probe: true, put_back: true, ..Wanted::default() });
        let name = notation::show(&form);
        t.equal(&format!("{name}: marks"), ran.state.marks, marks);
        t.equal(&format!("{name}: what is put back"), places(&ran.put_back), back);
        t.equal(&format!("{name}: probed facts"), ran.broken, Vec::new());
    }
}

/// What was put back, as field and place.
pub fn places(put_back: &[PutBack]) -> Vec<[usize; 2]> {
    put_back.iter().map(|p| [p.field, p.place]).collect()
}

/// A table, a line, and what is known of its run.
pub struct CommandLine {
    pub table: Vec<u8>,
    pub sheet: Sheet,
    number: u32,
    place: Option<usize>,
    entry: Option<usize>,
    comparisons: usize,
    current: Option<usize>,
    marks: Vec<u16>,
    words: Vec<u32>,
}

impl CommandLine {
    fn new(table: &[u8], arguments: &[&[u8]], marks: &[u16]) -> CommandLine {
        let sheet = Sheet { arguments: arguments.iter().map(|a| a.to_vec()).collect() };
        let (table, marks, words) = (table.to_vec(), marks.to_vec(), Vec::new());
        CommandLine { table, sheet, number: 0, place: None, entry: None, comparisons: 0, current: None, marks, words }
    }

    /// Accepted: the entry, and the place that was used last.
    fn answered(self, entry: usize, comparisons: usize, current: usize, words: &[u32]) -> CommandLine {
        CommandLine { entry: Some(entry), comparisons, current: Some(current), words: words.to_vec(), ..self }
    }

    /// No command: this many names were compared.
    fn unmatched(self, comparisons: usize) -> CommandLine {
        CommandLine { number: 31, comparisons, ..self }
    }

    fn refused(self, number: u32, place: Option<usize>, entry: Option<usize>) -> CommandLine {
        CommandLine { number, place, entry, ..self }
    }

    /// Whether a run has all that is known of it.
    pub fn is(&self, ran: &Commanded) -> bool {
        let (answer, state) = (&ran.run.answer, &ran.run.state);
        (answer.number, answer.place, &answer.words) == (self.number, self.place, &self.words)
            && (ran.entry, ran.comparisons) == (self.entry, self.comparisons)
            && (state.current, &state.marks) == (self.current, &self.marks)
    }
}

/// The lines of crates/rules/specs/CommandLines.antt: `wear` with the flag v, `log` with the argument v.
fn wear_and_log() -> Vec<CommandLine> {
    let (good, [wear, log]) = (commands::write(&cases::wear_log()), cases::wear_log());
    let unformed = commands::write(&[wear.clone(), Command { form: Vec::new(), ..log.clone() }]);
    let unnamed = commands::write(&[Command { form: Vec::new(), ..wear }, Command { names: Vec::new(), ..log }]);
    let line = |arguments: &[&[u8]], marks: &[u16]| CommandLine::new(&good, arguments, marks);
    vec![
        line(&[b"wear"], &[511]).answered(0, 1, 0, &[0]),
        line(&[b"w", b"-v"], &[511, 512]).answered(0, 2, 1, &[1]),
        line(&[b"log"], &[511]).answered(1, 3, 0, &[0]),
        // a letter that is a flag in one form and an argument in another is ambiguous in a cluster, under every command
        line(&[b"wear", b"-vv"], &[0, 0]).refused(9, Some(1), None),
        // no command: another word, none, an option first, one behind `--`
        line(&[b"a"], &[0]).unmatched(4),
        line(&[], &[]).unmatched(4),
        line(&[b"-v", b"wear"], &[0, 0]).unmatched(4),
        line(&[b"--", b"wear"], &[510, 0]).unmatched(4),
        // 11 of the last entry comes before 1 of the first form
        CommandLine::new(&unformed, &[b"wear"], &[]).refused(1, None, Some(1)),
        CommandLine::new(&unnamed, &[b"wear"], &[]).refused(11, None, None),
    ]
}

/// Names with dashes, which are those of Short and Long items; the order of names; letters of the other forms.
fn dashes_and_letters() -> Vec<CommandLine> {
    let command = |names: &[(u16, &str)], form: &str| Command::new(names, notation::parse(form).expect("a form").write());
    let dashed = command(&[(LONG, "-w"), (SHORT, "-"), (LONG, "--wear"), (LONG, "")], "switch(-v); many(operand)");
    let cluster = command(&[(LONG, "-vq"), (LONG, "--wear=x")], "switch(-q); optional(operand)");
    let dashes = commands::write(&[dashed, cluster]);
    let dashed = |arguments: &[&[u8]], marks: &[u16]| CommandLine::new(&dashes, arguments, marks);
    let first = command(&[(SHORT, "w"), (LONG, "wear"), (SHORT, "l"), (LONG, "w")], "switch(-v)");
    let second = command(&[(LONG, "l"), (LONG, "log")], "switch(-q); many(operand); optional(text(-x))");
    let shared = commands::write(&[first, second]);
    let shared = |arguments: &[&[u8]], marks: &[u16]| CommandLine::new(&shared, arguments, marks);
    vec![
        // a Short item, a Long one, one with a value, a lone dash, nothing
        dashed(&[b"-w"], &[511]).answered(0, 1, 0, &[0, 0]),
        dashed(&[b"--wear", b"a"], &[511, 513]).answered(0, 2, 1, &[0, 1, 1]),
        dashed(&[b"--wear=x"], &[0, 0]).unmatched(6),
        dashed(&[b"-"], &[511]).answered(0, 4, 0, &[0, 0]),
        dashed(&[b""], &[511]).answered(0, 3, 0, &[0, 0]),
        // the first letter of a cluster has the text of all, and the others are left to the form
        dashed(&[b"-vq", b"a"], &[511, 512, 513]).answered(1, 5, 2, &[1, 1, 2]),
        // long before short in an entry; an entry before the next
        shared(&[b"w"], &[511]).answered(0, 2, 0, &[0]),
        shared(&[b"l"], &[511]).answered(0, 4, 0, &[0]),
        // v is no letter of `log`, and splits what would be a word; x is none of `wear`
        shared(&[b"log", b"-qv"], &[511, 512, 0]).answered(1, 6, 1, &[]).refused(27, Some(2), Some(1)),
        shared(&[b"wear", b"-vx7"], &[511, 512, 0, 0]).answered(0, 1, 1, &[]).refused(27, Some(2), Some(0)),
    ]
}

/// Lines under a table whose runs are known.
pub fn command_lines() -> Vec<CommandLine> {
    wear_and_log().into_iter().chain(dashes_and_letters()).collect()
}

fn known_commands(t: &mut Tests) {
    for known in command_lines() {
        let wanted = Wanted { items: true, probe: true, ..Wanted::default() };
        let ran = run_table(&known.table, &known.sheet.write(), None, wanted);
        let name = format!("commands on {:?}", String::from_utf8_lossy(&known.sheet.arguments.join(&b' ')));
        t.equal(&format!("{name}: {ran:?}"), known.is(&ran), true);
        t.equal(&format!("{name}: probed facts"), ran.run.broken, Vec::new());
    }
}

/// Two forms on one line, and what the run of both must leave: its answer, the marks and the list.
pub struct JoinedLine {
    pub pair: Pair,
    answer: Answer,
    marks: Vec<u16>,
    missing: Vec<Entry>,
}

impl JoinedLine {
    fn new(first: &str, second: &str, arguments: &[&[u8]], marks: &[u16]) -> JoinedLine {
        let form = |text: &str| notation::parse(text).expect("a form of the tests");
        let sheet = Sheet { arguments: arguments.iter().map(|a| a.to_vec()).collect() };
        let answer = Answer { number: 0, place: None, tries: 0, words: Vec::new() };
        JoinedLine { pair: Pair { first: form(first), second: form(second), sheet }, answer, marks: marks.to_vec(), missing: Vec::new() }
    }

    fn words(mut self, tries: u64, words: &[u32]) -> JoinedLine {
        (self.answer.tries, self.answer.words) = (tries, words.to_vec());
        self
    }

    fn refused(mut self, number: u32, place: Option<usize>, tries: u64) -> JoinedLine {
        self.answer = Answer::refused(Refusal { number, place }, tries);
        self
    }

    /// 20, with these entries.
    fn lacks(mut self, tries: u64, missing: &[Entry]) -> JoinedLine {
        self.missing = missing.to_vec();
        self.refused(20, None, tries)
    }

    /// Whether a run is the one that is known.
    pub fn is(&self, ran: &Run) -> bool {
        (&self.answer, &self.marks, &self.missing) == (&ran.answer, &ran.state.marks, &ran.missing)
    }
}

/// Lines of two forms whose runs are known.
pub fn joined_lines() -> Vec<JoinedLine> {
    let both = JoinedLine::new;
    let eight = |letters: std::ops::RangeInclusive<char>| letters.map(|c| format!("switch(-{c})")).collect::<Vec<_>>().join("; ");
    vec![
        // each form alone accepts the line; with the letters of both, v is ambiguous
        both("switch(-v); switch(-q)", "optional(text(-v))", &[b"-vq"], &[0]).refused(9, Some(0), 0),
        both("switch(-v)", "optional(text(-q)); switch(-x); switch(-q)", &[b"-vxq7"], &[0, 0, 0]).refused(9, Some(2), 0),
        // neither form alone knows both letters
        both("switch(-v)", "switch(-q)", &[b"-qv"], &[513, 512]).words(2, &[1, 1]),
        both("switch(-v)", "optional(number(-n))", &[b"-vn300"], &[512, 513, 513]).words(2, &[1, 1, 300]),
        // a name record moves up, also the record 0, and a number does not
        both("switch(-v)", "fallback(operand, \"d\")", &[], &[]).words(2, &[0, 257]),
        both("fallback(text(-l), \"a\")", "fallback(text(-m), \"b\"); optional(operand#)", &[b"257"], &[514])
            .words(3, &[257, 259, 1, 257]),
        both("fallback(operand, \"\")", "many(fallback(strict, \"d\"))", &[], &[]).words(3, &[256, 1, 257]),
        both("switch(-v)", "fallback(number(-n), 256)", &[], &[]).words(2, &[0, 256]),
        // an item is itself
        both("operand", "operand", &[b"a", b"b"], &[512, 513]).words(2, &[0, 1]),
        // the second's nodes in the list, and the first's
        both("switch(-v)", "text(-l)", &[b"-v"], &[512]).lacks(2, &[[2, 0, 1]]),
        both("optional(text(-l)); switch(-v)", "choice(choice(operand#, number(-n)), number(-w))", &[], &[])
            .lacks(5, &[[4, 0, 0], [5, 0, 0], [7, 0, 0]]),
        both("choice(text(-l), operand)", "text(-m)", &[], &[]).lacks(2, &[[1, 0, 0], [2, 0, 0]]),
        both("many(operand)", "operand", &[b"a", b"b"], &[512, 512]).lacks(4, &[[3, 0, 2]]),
        // one state: `current` of the first, and what it used
        both("operand", "guard(fallback(number(-w), 9), 1..5)", &[b"a"], &[512]).refused(26, Some(0), 2),
        both("choice(flag(-v), flag(-q))", "switch(-v)", &[b"-q", b"-v"], &[512, 513]).words(3, &[1, 1]),
        both("switch(-v)", "choice(flag(-v), flag(-q))", &[b"-q", b"-v", b"-v"], &[513, 512, 2]).refused(27, Some(2), 3),
        // a refusal of the first ends the run
        both("operand#", "switch(-q)", &[b"a", b"-q"], &[512, 0]).refused(25, Some(0), 1),
        // 27 once, at the end
        both("switch(-v)", "many(operand)", &[b"a", b"-v", b"--", b"b"], &[513, 512, 510, 513]).words(4, &[1, 2, 0, 3]),
        both("switch(-v)", "switch(-q)", &[b"-x", b"-v"], &[0, 512]).refused(27, Some(0), 2),
        both(&eight('a'..='h'), &eight('i'..='p'), &[b"-pa", b"-i"], &[527, 512, 520])
            .words(16, &[1, 0, 0, 0, 0, 0, 0, 0, 1, 0, 0, 0, 0, 0, 0, 1]),
    ]
}

fn known_joins(t: &mut Tests) {
    for known in joined_lines() {
        let Pair { first, second, sheet } = &known.pair;
        let ran = run_both(first, second, sheet, Wanted { items: true, probe: true, put_back: true, ..Wanted::default() }).run;
        let name = format!("{} and {} on {:?}", notation::show(first), notation::show(second), sheet.arguments);
        t.equal(&format!("{name}: {ran:?}"), known.is(&ran), true);
        t.equal(&format!("{name}: probed facts"), ran.broken, Vec::new());
    }
}

/// Why the commands of a table are tried one after the other, and not by bpaf's choice, which runs all that have the word.
fn choice_findings(t: &mut Tests) {
    let command = |form: &str| Command::new(&[(LONG, "a")], notation::parse(form).expect("a form").write());
    let table = commands::write(&[command("flag(-v)"), command("switch(-v)")]);
    let sheet = Sheet { arguments: vec![b"a".to_vec()] };
    let ran = run_table(&table, &sheet.write(), None, Wanted::default());
    t.equal("the first entry with the word is the one", (ran.run.answer.number, ran.entry), (20, Some(0)));
    let chosen = choose(&Table::check(&table).expect("a table"), &sheet).0;
    t.equal("a choice gives the second if the first is refused", chosen, Chosen::Accepted(1));
}

/// Why a run is compared with `construct`, `eval` and `items_iter`, and never with `run_inner`.
fn run_inner_findings(t: &mut Tests) {
    let whole = |form: &str, arguments: &[&[u8]]| {
        let sheet = Sheet { arguments: arguments.iter().map(|a| a.to_vec()).collect() };
        run_inner(&notation::parse(form).expect("a form of the tests"), &sheet)
    };
    // an ambiguous letter is passed over, and every later argument is lost
    let both = "switch(-b); optional(text(-b)); optional(operand)";
    t.equal("run_inner drops `x`", whole(both, &[b"-bb", b"x"]), Whole::Words(vec![0, 0, 1, 0]));
    t.refused(both, &[b"-bb", b"x"], 9, Some(0));
    // h and V are letters there, so that a cluster with one of them is no Word
    let plain = "switch(-v); optional(operand)";
    t.equal("run_inner reads h as a letter", whole(plain, &[b"-vh"]), Whole::Printed);
    t.answer(plain, &[b"-vh"], 0, None, 2, &[0, 1, 0]);
}
