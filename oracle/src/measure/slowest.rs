//! Inputs of the allowed sizes that take long: families of them, from small to large, and the slowest of generated cases.

use std::{ffi::OsString, hint::black_box, os::unix::ffi::OsStringExt};

use bpaf::{construct, long, parsers::NamedArg, positional, short, Parser};
use line::{cases, cases::Rng, format::*, notation};
use proved::{Refused, RunAnswer};

use crate::{
    benchmarks::left_choice,
    clock::processor_time,
    fields,
    ours::Slices,
    parsers::{kept, Fields},
};

/// The longest that any input may take.
const LIMIT: f64 = 20.0;
/// A family ends with the first input that takes this long, so that the search itself ends.
const ENOUGH: f64 = 1000.0;

struct Input {
    name: String,
    form: Form,
    line: Vec<Vec<u8>>,
    fields: Option<Box<dyn Fields>>,
}

/// Leaves of one choice, the first of them a word, all others with every name of the form; and a repeat above them.
fn many_of_all(names: Vec<Name>, area: Vec<u8>) -> Form {
    let node = |kind, p, q| Node { kind, p, q, ..Node::default() };
    let count = names.len() as u16;
    let mut nodes = vec![node(POSITIONAL, 0, 0)];
    nodes.extend((0..31).map(|_| node(ARGUMENT, 0, count)));
    let mut last = 0;
    for leaf in 1..32 {
        nodes.push(node(CHOICE, last, leaf));
        last = nodes.len() as u16 - 1;
    }
    nodes.push(node(MANY, last, 0));
    Form { fields: vec![nodes.len() as u16 - 1], nodes, names, area }
}

/// The same as bpaf's parsers.
fn many_of_all_parsers(named: impl Fn() -> NamedArg) -> Box<dyn Fields> {
    let (first, second) = (positional::<OsString>("A"), named().argument::<OsString>("A"));
    let mut all = construct!([first, second]);
    for _ in 1..31 {
        let next = named().argument::<OsString>("A");
        all = construct!([all, next]);
    }
    fields! { all = all.many() }
}

/// Long names of one length that differ from the items' names in the last byte alone, 128 at every leaf; the words are
/// taken one by one, and each time all names are compared with all items.
fn near_names(length: usize) -> Input {
    let names = (0..128).map(|k| Name { ty: LONG, offset: k, length: length as u16 }).collect();
    // the words behind them take a byte each
    let items = ((SHEET_AREA - 256) / (length + 1)).min(128);
    let item = [b"--".to_vec(), vec![b'a'; length - 1], b"b".to_vec()].concat();
    let mut line = vec![item; items];
    line.resize(256, b"x".to_vec());
    let name = kept("a".repeat(length));
    Input {
        name: format!("128 names of {length} bytes at each of 31 arguments, {items} items that nearly have them"),
        form: many_of_all(names, vec![b'a'; length + 127]),
        line,
        fields: Some(many_of_all_parsers(|| (1..128).fold(long(name), |named, _| named.long(name)))),
    }
}

/// The same with letters, none of which is an item's.
fn other_letters(items: usize) -> Input {
    let letters: Vec<char> = ('\u{100}'..).take(128).collect();
    let name = |k: usize| Name { ty: SHORT, offset: 2 * k as u16, length: 2 };
    let mut line = vec![b"-z".to_vec(); items];
    line.resize(256, b"x".to_vec());
    let area = letters.iter().collect::<String>().into_bytes();
    Input {
        name: format!("128 letters at each of 31 arguments, {items} items with another letter"),
        form: many_of_all((0..128).map(name).collect(), area),
        line,
        fields: Some(many_of_all_parsers(|| letters[1..].iter().fold(short(letters[0]), |named, c| named.short(*c)))),
    }
}

/// A cluster whose letter is the last of all that take one byte, and an unknown one at its end.
fn long_cluster(letters: usize) -> Input {
    let known: Vec<char> = ('\u{1}'..='\u{7f}').filter(|c| !['=', '-'].contains(c)).collect();
    let names = (0..known.len() as u16).map(|k| Name { ty: SHORT, offset: k, length: 1 }).collect();
    let node = |kind, p, q| Node { kind, p, q, ..Node::default() };
    let cluster = format!("-{}é", "\u{7f}".repeat(letters - 1)).into_bytes();
    let named = known[1..].iter().fold(short(known[0]), |named, c| named.short(*c));
    Input {
        name: format!("a cluster of {letters} letters, each looked up among {}", known.len()),
        form: Form {
            fields: vec![1, 2],
            nodes: vec![node(FLAG, 0, known.len() as u16), node(COUNT, 0, 0), node(POSITIONAL, 0, 0)],
            names,
            area: known.iter().collect::<String>().into_bytes(),
        },
        line: vec![cluster],
        fields: Some(fields! { all = named.req_flag(true).count(), word = positional::<OsString>("A") }),
    }
}

/// A number of many digits, read by each of 32 positionals of a choice.
fn long_number(digits: usize) -> Input {
    let (a, b) = (positional::<u32>("N"), positional::<u32>("N"));
    let mut all = construct!([a, b]);
    let mut nodes = vec![Node { kind: POSITIONAL, r: 2, ..Node::default() }];
    for k in 1..32u16 {
        let below = nodes.len() as u16 - 1;
        nodes.push(nodes[0]);
        nodes.push(Node { kind: CHOICE, p: below, q: 2 * k - 1, ..Node::default() });
        if k > 1 {
            let next = positional::<u32>("N");
            all = construct!([all, next]);
        }
    }
    Input {
        name: format!("a number of {digits} digits, read by 32 positionals"),
        form: Form { fields: vec![62], nodes, ..Form::default() },
        line: vec![vec![b'0'; digits]],
        fields: Some(fields! { all = all }),
    }
}

/// A choice of 32 flags again and again, the last of them given: copies of the state at every turn.
fn many_choices(items: usize) -> Input {
    let (form, parser) = left_choice(32);
    Input {
        name: format!("many of a choice of 32 flags, {items} items"),
        form: notation::parse(&format!("many({form})")).expect("a form of the notation"),
        line: vec![b"-F".to_vec(); items],
        fields: Some(fields! { all = parser.many() }),
    }
}

/// A choice of 21 lists, each of which takes all words.
fn choice_of_lists(items: usize) -> Input {
    let list = || positional::<OsString>("A").many();
    let (first, second) = (list(), list());
    let mut all = construct!([first, second]);
    let mut form = "choice(many(operand), many(operand))".to_string();
    for _ in 2..21 {
        let next = list();
        all = construct!([all, next]);
        form = format!("choice({form}, many(operand))");
    }
    Input {
        name: format!("a choice of 21 lists, {items} words"),
        form: notation::parse(&form).expect("a form of the notation"),
        line: vec![b"part".to_vec(); items],
        fields: Some(fields! { all = all }),
    }
}

/// Long names that are each the whole area, so that the form check reads it 128 times.
fn long_names(length: usize) -> Input {
    let names = vec![Name { ty: LONG, offset: 0, length: length as u16 }; 128];
    let nodes = vec![Node { kind: FLAG, p: 0, q: 128, r: 1, ..Node::default() }; 16];
    Input {
        name: format!("the form check with 128 names that are each the whole area of {length} bytes"),
        form: Form { fields: (0..16).collect(), nodes, names, area: "é".repeat(length / 2).into_bytes() },
        line: Vec::new(),
        fields: None,
    }
}

/// Every family from small to large.
fn families() -> Vec<Vec<Box<dyn Fn() -> Input>>> {
    fn family(sizes: &'static [usize], make: fn(usize) -> Input) -> Vec<Box<dyn Fn() -> Input>> {
        sizes.iter().map(|size| Box::new(move || make(*size)) as Box<dyn Fn() -> Input>).collect()
    }
    vec![
        family(&[4, 61, 253, 1020, 3900], near_names),
        family(&[16, 128, 192], other_letters),
        family(&[1024, 32766], long_cluster),
        family(&[32768], long_number),
        family(&[256], many_choices),
        family(&[256], choice_of_lists),
        family(&[4096], long_names),
    ]
}

/// Milliseconds of processor time: the best of three calls, or the only one if it takes long.
fn milliseconds(mut call: impl FnMut()) -> f64 {
    let mut best = f64::MAX;
    for _ in 0..3 {
        let began = processor_time();
        call();
        best = best.min((processor_time() - began).as_secs_f64() * 1e3);
        if best > 5.0 * LIMIT {
            break;
        }
    }
    best
}

fn run_time(form: &[u8], sheet: &[u8]) -> (RunAnswer, f64) {
    let mut slices = Slices::new();
    let mut ran = None;
    let took = milliseconds(|| ran = Some(slices.run(black_box(form), black_box(sheet))));
    (ran.expect("at least one call"), took)
}

/// Prints one input's row; its time by the proved code. bpaf must give the same answer.
fn row(input: &Input) -> f64 {
    let (form, sheet) = (input.form.write(), Sheet { arguments: input.line.clone() }.write());
    let (ran, ours) = run_time(&form, &sheet);
    let line: Vec<OsString> = input.line.iter().cloned().map(OsString::from_vec).collect();
    let bpaf = input.fields.as_ref().map_or("-".to_string(), |fields| {
        let mut answer = Ok(());
        let took = milliseconds(|| answer = fields.read(black_box(&line)));
        let answer = Refused::from(answer.err().unwrap_or(Refusal::new(0)));
        assert_eq!(Refused { number: ran.number, place: ran.place }, answer, "{}: our answer and bpaf's", input.name);
        format!("{took:.2}")
    });
    println!("| {} | {ours:.2} | {bpaf} | {} |", input.name, ran.tries);
    ours
}

/// The slowest of generated cases.
fn generated(count: usize) -> f64 {
    let mut rng = Rng::new(7);
    let cases = (0..count).map(|k| if k % 4 == 0 { cases::damaged(&mut rng) } else { cases::well_made(&mut rng) });
    cases.map(|case| run_time(&case.form, &case.sheet).1).fold(0.0, f64::max)
}

/// Whether no input found takes over 20 ms.
pub fn print() -> bool {
    println!("| input | ours, ms | bpaf, ms | tries |");
    println!("|---|---|---|---|");
    let (mut slowest, mut left_out) = (0.0f64, 0);
    for family in families() {
        for (k, make) in family.iter().enumerate() {
            let took = row(&make());
            slowest = slowest.max(took);
            if took > ENOUGH {
                left_out += family.len() - 1 - k;
                break;
            }
        }
    }
    let random = generated(20_000);
    println!("| 20,000 generated cases, the slowest | {random:.2} | - | - |");
    println!("\nThe slowest input found takes {:.1} ms.", slowest.max(random));
    if left_out > 0 {
        println!("{left_out} larger inputs of families that ended early were not run: they take longer.");
    }
    slowest.max(random) <= LIMIT
}
