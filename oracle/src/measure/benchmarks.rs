//! The forms and lines that are measured. Each form is written twice, in the notation of notation.rs and as bpaf's parsers, and
//! before anything is timed both must give the same values or the same refusal.

use std::{ffi::OsString, os::unix::ffi::OsStringExt};

use bpaf::{construct, long, positional, short, Parser};
use line::{
    cases,
    forged::{ANSWER_WORDS, ITEM_WORDS, LIST_WORDS},
    format::*,
    notation,
};

use crate::{
    fields,
    ours::Slices,
    parsers::{kept, list, Fields},
    values::Answered,
};

/// A form in the notation, and its fields as bpaf's parsers.
pub struct Both {
    pub form: String,
    pub fields: Box<dyn Fields>,
}

impl Both {
    fn new(form: &str, fields: Box<dyn Fields>) -> Both {
        Both { form: form.to_string(), fields }
    }
}

pub struct Benchmark {
    pub name: String,
    pub form: Vec<u8>,
    /// usually one; the cost is that of one of them on average
    pub sheets: Vec<Vec<u8>>,
    pub lines: Vec<Vec<OsString>>,
    /// what both sides answer: 0, or the refusal's number
    pub number: u32,
    /// none where bpaf has nothing that does the same
    pub fields: Option<Box<dyn Fields>>,
    /// words of the item slice, of the answer slice and of the list slice
    pub slices: [usize; 3],
}

impl Benchmark {
    /// A line that is accepted, named by its words.
    pub fn new(both: Both, words: &str) -> Benchmark {
        Benchmark::of(both, &format!("`{words}`"), vec![arguments(words)])
    }

    pub fn of(both: Both, name: &str, lines: Vec<Vec<Vec<u8>>>) -> Benchmark {
        let os = |line: &Vec<Vec<u8>>| line.iter().cloned().map(OsString::from_vec).collect();
        Benchmark {
            name: name.to_string(),
            form: notation::parse(&both.form).expect("a form of the notation").write(),
            lines: lines.iter().map(os).collect(),
            sheets: lines.into_iter().map(|arguments| Sheet { arguments }.write()).collect(),
            number: 0,
            fields: Some(both.fields),
            slices: [ITEM_WORDS, ANSWER_WORDS, LIST_WORDS],
        }
    }

    fn refused(mut self, number: u32) -> Benchmark {
        self.name = format!("{number}: {}", self.name);
        self.number = number;
        self
    }

    /// Bytes that bpaf has nothing to do with: it has neither forms nor sheets.
    fn alone(number: u32, name: &str, form: Vec<u8>, sheet: Vec<u8>) -> Benchmark {
        Benchmark {
            name: format!("{number}: {name}"),
            form,
            sheets: vec![sheet],
            lines: Vec::new(),
            number,
            fields: None,
            slices: [ITEM_WORDS, ANSWER_WORDS, LIST_WORDS],
        }
    }

    pub fn lend(&self) -> Slices {
        Slices::of(self.slices)
    }

    /// How many items the run of each line leaves.
    pub fn items(&self) -> Vec<usize> {
        let mut lent = self.lend();
        self.sheets.iter().map(|sheet| lent.run(&self.form, sheet).state.count as usize).collect()
    }

    /// Stops unless both sides answer alike, with the number that the list says.
    pub fn assert_same(&self) {
        let mut slices = self.lend();
        for (k, sheet) in self.sheets.iter().enumerate() {
            let ran = slices.run(&self.form, sheet);
            assert_eq!(ran.number, self.number, "{}: the number of our answer", self.name);
            let Some(fields) = &self.fields else { continue };
            let ours = match ran.number {
                0 => Ok(self.shown(sheet, &slices, ran.words as usize)),
                number => Err(Refusal { number, place: (ran.place as usize).checked_sub(1) }),
            };
            assert_eq!(ours, fields.values(&self.lines[k]), "{}: our answer and bpaf's", self.name);
        }
    }

    fn shown(&self, sheet: &[u8], slices: &Slices, words: usize) -> String {
        let form = Form::check(&self.form).expect("an accepted form");
        let arguments = Sheet::check(sheet).expect("a sound sheet").arguments;
        Answered { form: &form, arguments: &arguments, items: &slices.items, words: &slices.answers[..words] }.show()
    }
}

/// Benchmarks with one goal: how many times as fast as bpaf, with the form check and clearing inside.
pub struct Group {
    pub name: &'static str,
    pub goal: f64,
    pub benchmarks: Vec<Benchmark>,
}

/// The goal of every benchmark with the clearing of the slices set apart.
pub const GOAL_WITHOUT_CLEARING: f64 = 4.0;

pub fn groups() -> Vec<Group> {
    let group = |name, goal, benchmarks| Group { name, goal, benchmarks };
    vec![
        group("short lines", 2.0, short_lines()),
        group("a morning's lines", 2.0, morning()),
        group("256 items", 5.0, many_items()),
        group("clusters", 5.0, clusters()),
        group("repeats over 256 items", 5.0, repeats()),
        group("nested choices", 2.0, choices()),
        group("lists under choices", 2.0, vec![Benchmark::new(either_list(), "-b x -b y")]),
        group("lists under choices, 256 items", 5.0, long_lists()),
        group("the largest forms", 2.0, largest_forms()),
        group("refused lines", 2.0, refused()),
    ]
}

/// The words of a line, separated by single spaces.
pub fn arguments(words: &str) -> Vec<Vec<u8>> {
    words.split(' ').filter(|w| !w.is_empty()).map(|w| w.as_bytes().to_vec()).collect()
}

/// One line of some words again and again.
fn repeated(words: &str, times: usize) -> Vec<Vec<Vec<u8>>> {
    vec![arguments(&vec![words; times].join(" "))]
}

/// A limit, six cradles, a label and parts: the nine fields of the workshop's `wear`.
pub fn wear() -> Both {
    Both::new(
        "optional(guard(number(-l --limit), 1..9999)); switch(-1); switch(-2); switch(-3); switch(-4); switch(-5); \
         switch(-6); operand; many(operand)",
        fields! {
            limit = short('l').long("limit").argument::<u32>("LIMIT").guard(|n| (1..=9999).contains(n), "a limit").optional(),
            cradle_1 = short('1').switch(),
            cradle_2 = short('2').switch(),
            cradle_3 = short('3').switch(),
            cradle_4 = short('4').switch(),
            cradle_5 = short('5').switch(),
            cradle_6 = short('6').switch(),
            label = positional::<OsString>("LABEL"),
            parts = positional::<OsString>("PART").many(),
        },
    )
}

/// A lock by its serial number or its label, and a cradle.
fn pair() -> Both {
    let serial = short('s').long("serial").argument::<OsString>("SERIAL");
    let label = positional::<OsString>("LABEL");
    Both::new(
        "choice(text(-s --serial), operand); optional(number(-c --cradle)); switch(-f --force)",
        fields! {
            lock = construct!([serial, label]),
            cradle = short('c').long("cradle").argument::<u32>("CRADLE").optional(),
            force = short('f').long("force").switch(),
        },
    )
}

/// The rides of some locks.
fn log() -> Both {
    Both::new(
        "count(flag(-v --verbose)); switch(-q --quiet); fallback(number(-d --days), 7); optional(text(-o --output)); \
         some(operand)",
        fields! {
            verbose = short('v').long("verbose").req_flag(true).count(),
            quiet = short('q').long("quiet").switch(),
            days = short('d').long("days").argument::<u32>("DAYS").fallback(7),
            output = short('o').long("output").argument::<OsString>("FILE").optional(),
            locks = positional::<OsString>("LOCK").some("a lock"),
        },
    )
}

fn short_lines() -> Vec<Benchmark> {
    let switch = Both::new("switch(-v)", fields! { verbose = short('v').switch() });
    let weighed = Both::new(
        "switch(-v); optional(number(-w --weight)); many(operand)",
        fields! {
            verbose = short('v').switch(),
            weight = short('w').long("weight").argument::<u32>("WEIGHT").optional(),
            parts = positional::<OsString>("PART").many(),
        },
    );
    let mut all = vec![Benchmark::new(switch, "-v"), Benchmark::new(weighed, "-vw7 lock")];
    for words in ["lock", "-1 lock", "-1 -4 lock", "-1 --limit=40 lock chain", "-14 -l 40 lock chain"] {
        all.push(Benchmark::new(wear(), words));
    }
    all
}

fn morning() -> Vec<Benchmark> {
    let six = [
        "-1 lock-a",
        "-2 --limit=40 lock-b",
        "-3 -l 250 lock-c chain",
        "-4 lock-d chain tyre",
        "-5 --limit 9999 lock-e",
        "-16 lock-f chain tyre saddle",
    ];
    vec![
        Benchmark::of(wear(), "six lines of `wear`, one of them on average", six.map(arguments).to_vec()),
        Benchmark::new(wear(), "-1 -4 --limit=40 lock chain tyre"),
        Benchmark::new(pair(), "--serial=8F2A -c 3 --force"),
        Benchmark::new(log(), "-vv --days=14 -o rides.csv lock-a lock-b lock-c lock-d lock-e lock-f"),
    ]
}

fn many_items() -> Vec<Benchmark> {
    let named = Both::new(
        "many(text(-n --name)); switch(-v)",
        fields! { names = short('n').long("name").argument::<OsString>("NAME").many(), verbose = short('v').switch() },
    );
    let two = Both::new(
        "count(flag(-v)); count(flag(-q))",
        fields! { v = short('v').req_flag(true).count(), q = short('q').req_flag(true).count() },
    );
    let strict = Both::new(
        "switch(-v); many(strict)",
        fields! { verbose = short('v').switch(), rest = positional::<OsString>("REST").strict().many() },
    );
    vec![
        Benchmark::of(wear(), "`wear`, 256 words", repeated("part", 256)),
        Benchmark::of(named, "128 times `--name=value`", repeated("--name=value", 128)),
        Benchmark::of(two, "128 times `-v -q`, both counted", repeated("-v -q", 128)),
        Benchmark::of(strict, "`--` and 255 words", vec![arguments(&format!("-- {}", vec!["a"; 255].join(" ")))]),
    ]
}

/// Counts of required flags by their letters.
fn counts(letters: &str) -> Both {
    let form: Vec<String> = letters.chars().map(|c| format!("count(flag(-{c}))")).collect();
    let parsers = letters.chars().map(|c| short(c).req_flag(true).count().boxed()).collect();
    Both { form: form.join("; "), fields: list(parsers) }
}

pub fn counted_or_word() -> Both {
    Both::new(
        "count(flag(-v)); optional(operand)",
        fields! { v = short('v').req_flag(true).count(), word = positional::<OsString>("WORD").optional() },
    )
}

fn clusters() -> Vec<Benchmark> {
    let cluster = |letters: String| vec![vec![format!("-{letters}").into_bytes()]];
    let valued = Both::new(
        "count(flag(-v)); optional(number(-w))",
        fields! { v = short('v').req_flag(true).count(), w = short('w').argument::<u32>("W").optional() },
    );
    let six = "abcdef".chars().cycle().take(200).collect();
    vec![
        Benchmark::of(counts("v"), "200 times one letter", cluster("v".repeat(200))),
        Benchmark::of(counts("abcdef"), "200 letters of six", cluster(six)),
        Benchmark::of(counted_or_word(), "200 letters, the last unknown", cluster("v".repeat(199) + "x")),
        Benchmark::of(valued, "199 letters, then `w7`", cluster("v".repeat(199) + "w7")),
    ]
}

/// A choice of two required flags, again and again.
pub fn many_of_choice() -> Both {
    let (a, b) = (short('a').req_flag(true), short('b').req_flag(true));
    Both::new("many(choice(flag(-a), flag(-b)))", fields! { all = construct!([a, b]).many() })
}

fn repeats() -> Vec<Benchmark> {
    let numbers = Both::new("some(operand#)", fields! { all = positional::<u32>("N").some("a number") });
    let last = Both::new("last(number(-n))", fields! { n = short('n').argument::<u32>("N").last() });
    let guarded = Both::new(
        "many(guard(operand#, 1..9999))",
        fields! { all = positional::<u32>("N").guard(|n| (1..=9999).contains(n), "in bounds").many() },
    );
    let optional = Both::new("many(optional(operand))", fields! { all = positional::<OsString>("A").optional().many() });
    vec![
        Benchmark::of(words(), "many of a word", repeated("part", 256)),
        Benchmark::of(numbers, "some of a number", repeated("1234", 256)),
        Benchmark::of(counts("v"), "count of a flag", repeated("-v", 256)),
        Benchmark::of(last, "last of 128 times `-n 7`", repeated("-n 7", 128)),
        Benchmark::of(guarded, "many of a guarded number", repeated("1234", 256)),
        Benchmark::of(optional, "many of an optional word", repeated("part", 256)),
        Benchmark::of(many_of_choice(), "many of a choice of two flags", repeated("-a -b", 128)),
    ]
}

pub fn words() -> Both {
    Both::new("many(operand)", fields! { all = positional::<OsString>("A").many() })
}

/// The letters that the flags of a wide choice have.
pub fn letter(k: usize) -> char {
    b"abcdefghijklmnopqrstuvwxyzABCDEF"[k] as char
}

/// A choice of so many required flags, the first two innermost; and as bpaf builds `construct!([a, b, c])`.
pub fn left_choice(flags: usize) -> (String, impl Parser<bool>) {
    let flag = |k: usize| short(letter(k)).req_flag(true);
    let (a, b) = (flag(0), flag(1));
    let mut parser = construct!([a, b]);
    let mut form = format!("choice(flag(-{}), flag(-{}))", letter(0), letter(1));
    for k in 2..flags {
        let c = flag(k);
        parser = construct!([parser, c]);
        form = format!("choice({form}, flag(-{}))", letter(k));
    }
    (form, parser)
}

/// The same with the last two innermost.
fn right_choice(flags: usize) -> (String, impl Parser<bool>) {
    let flag = |k: usize| short(letter(k)).req_flag(true);
    let (y, z) = (flag(flags - 2), flag(flags - 1));
    let mut parser = construct!([y, z]);
    let mut form = format!("choice(flag(-{}), flag(-{}))", letter(flags - 2), letter(flags - 1));
    for k in (0..flags - 2).rev() {
        let c = flag(k);
        parser = construct!([c, parser]);
        form = format!("choice(flag(-{}), {form})", letter(k));
    }
    (form, parser)
}

fn choices() -> Vec<Benchmark> {
    let left = |flags: usize, words: &str, name: &str| {
        let (form, parser) = left_choice(flags);
        Benchmark::of(Both::new(&form, fields! { one = parser }), name, vec![arguments(words)])
    };
    let (form, parser) = right_choice(32);
    let right = Both::new(&form, fields! { one = parser });
    let (form, parser) = left_choice(8);
    let form = format!("{form}; many(operand)");
    let rest = Both::new(&form, fields! { one = parser, rest = positional::<OsString>("A").many() });
    let line = arguments(&format!("-h {}", vec!["part"; 31].join(" ")));
    vec![
        left(8, "-h", "of 8 flags, the last given"),
        left(32, "-F", "of 32 flags, the last given"),
        left(32, "-a", "of 32 flags, the first given"),
        Benchmark::of(right, "of 32 flags, nested to the right", vec![arguments("-F")]),
        Benchmark::of(rest, "of 8 flags, 31 words behind", vec![line]),
    ]
}

/// A choice of two lists of texts.
fn either_list() -> Both {
    let a = short('a').argument::<OsString>("A").some("a");
    let b = short('b').argument::<OsString>("B").some("b");
    Both::new("choice(some(text(-a)), some(text(-b)))", fields! { all = construct!([a, b]) })
}

fn long_lists() -> Vec<Benchmark> {
    let a = short('a').argument::<OsString>("A").some("a").optional();
    let b = positional::<OsString>("B").some("b").optional();
    let optional = Both::new("choice(optional(some(text(-a))), optional(some(operand)))", fields! { all = construct!([a, b]) });
    vec![
        Benchmark::of(either_list(), "128 times `-b x`", repeated("-b x", 128)),
        Benchmark::of(optional, "optional lists, 256 words", repeated("part", 256)),
    ]
}

/// Sixteen optional choices of two texts with four names each: 64 nodes, 128 names of 32 bytes, an area of 4,096 bytes.
fn sixteen_choices() -> Both {
    let name = |k: usize| format!("name-{k:03}-{}", "x".repeat(23));
    let text = |k: usize| {
        let names: Vec<String> = (4 * k..4 * k + 4).map(|n| format!("--{}", name(n))).collect();
        format!("text({})", names.join(" "))
    };
    let argument = |k: usize| {
        let kept = |n: usize| kept(name(n));
        long(kept(4 * k)).long(kept(4 * k + 1)).long(kept(4 * k + 2)).long(kept(4 * k + 3)).argument::<OsString>("A")
    };
    let form: Vec<String> = (0..16).map(|k| format!("optional(choice({}, {}))", text(2 * k), text(2 * k + 1))).collect();
    let parsers = (0..16).map(|k| {
        let (a, b) = (argument(2 * k), argument(2 * k + 1));
        construct!([a, b]).optional().boxed()
    });
    Both { form: form.join("; "), fields: list(parsers.collect()) }
}

/// Fallbacks above one number: as many nodes as are asked for.
pub fn fallbacks(nodes: usize) -> Both {
    let (mut form, mut parser) = ("operand#".to_string(), positional::<u32>("N").boxed());
    for _ in 1..nodes {
        form = format!("fallback({form}, 9)");
        parser = parser.fallback(9).boxed();
    }
    Both { form, fields: list(vec![parser]) }
}

fn largest_forms() -> Vec<Benchmark> {
    let last = format!("--name-127-{} value", "x".repeat(23));
    vec![
        Benchmark::of(sixteen_choices(), "16 fields, 64 nodes, 128 names, no argument", vec![Vec::new()]),
        Benchmark::of(sixteen_choices(), "the same, its last name given", vec![arguments(&last)]),
        Benchmark::of(fallbacks(64), "63 fallbacks above a number, no argument", vec![Vec::new()]),
    ]
}

fn refused() -> Vec<Benchmark> {
    [refused_bytes(), refused_lines()].into_iter().flatten().collect()
}

/// Refusals 1 to 8 and 14, of which bpaf has none.
fn refused_bytes() -> Vec<Benchmark> {
    let form = notation::parse(&wear().form).expect("a form of the notation");
    let bytes = form.write();
    let sheet = |line: Vec<Vec<u8>>| Sheet { arguments: line }.write();
    let short = || sheet(arguments("-1 lock"));
    let mut name = form.clone();
    name.names.last_mut().expect("a name").ty = 3;
    let mut node = form.clone();
    node.nodes.last_mut().expect("a node").q = 1;
    let mut cut = short();
    cut.pop();
    let mut seven = Benchmark::alone(7, "an answer slice one word short", bytes.clone(), short());
    seven.slices[1] -= 1;
    let mut fourteen = Benchmark::alone(14, "a list slice one word short", bytes.clone(), short());
    fourteen.slices[2] -= 1;
    vec![
        Benchmark::alone(1, "a form cut short", bytes[..bytes.len() - 1].to_vec(), short()),
        Benchmark::alone(2, "the last name of no type", name.write(), short()),
        Benchmark::alone(3, "the last node at fault", node.write(), short()),
        Benchmark::alone(4, "64 nodes, each twice a child", cases::shared(64, false).write(), short()),
        Benchmark::alone(5, "a sheet cut short", bytes.clone(), cut),
        Benchmark::alone(6, "257 arguments", bytes.clone(), vec![1, 1]),
        seven,
        fourteen,
        Benchmark::alone(8, "257 items", bytes, sheet(vec![b"-12".to_vec(); 129])),
    ]
}

/// Refusals 9 and 20 to 27.
fn refused_lines() -> Vec<Benchmark> {
    let ambiguous = Both::new(
        "switch(-v); optional(flag(-b)); optional(text(-b))",
        fields! {
            v = short('v').switch(),
            b = short('b').req_flag(true).optional(),
            value = short('b').argument::<OsString>("B").optional(),
        },
    );
    let some = Both::new(
        "switch(-v); some(operand)",
        fields! { v = short('v').switch(), all = positional::<OsString>("A").some("a word") },
    );
    let strict =
        Both::new("switch(-v); strict", fields! { v = short('v').switch(), word = positional::<OsString>("A").strict() });
    let non_strict = Both::new(
        "switch(-v); non-strict",
        fields! { v = short('v').switch(), word = positional::<OsString>("A").non_strict() },
    );
    vec![
        Benchmark::new(ambiguous, "-vb").refused(9),
        Benchmark::new(wear(), "-1").refused(20),
        Benchmark::new(some, "-v").refused(21),
        Benchmark::new(wear(), "-1 lock --limit").refused(22),
        Benchmark::new(strict, "-v lock").refused(23),
        Benchmark::new(non_strict, "-v -- lock").refused(24),
        Benchmark::new(wear(), "-1 --limit=x lock").refused(25),
        Benchmark::new(wear(), "-1 --limit=0 lock").refused(26),
        Benchmark::new(wear(), "-1 -7 lock").refused(27),
    ]
}
