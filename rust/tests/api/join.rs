//! Two forms made one.

use std::ffi::OsStr;

use silverpoise::{
    long, positional, short, Answer, Chosen, Commands, Form, FormError, Names, Node, Reader, Takes, Text, TypedForm, Value,
    Values, Warning,
};

fn text() -> Node {
    Node::positional(Takes::Text)
}

fn number(letter: char) -> Node {
    Node::argument(short(letter), Takes::Number)
}

fn switch(letter: char) -> Node {
    Node::switch(short(letter))
}

fn joined<const N: usize, const M: usize>(first: [Node; N], second: [Node; M]) -> Form {
    Form::of(first).unwrap().join(&Form::of(second).unwrap()).unwrap()
}

/// Cut anywhere, the fields of a form are joined to that form again. Each kind of node is among them, and a text fallback whose
/// text is the first name of the second part.
#[test]
fn parts_of_a_form() {
    let fields = [
        text().non_strict().fallback("none"),
        Node::switch(short('v').long("verbose")),
        text().strict().some().optional(),
        Node::flag(short('q')).count(),
        number('n').adjacent().guard(1..=9).fallback(7),
        Node::flag(long("left")).or(Node::flag(long("right"))).fallback(true),
        text().fallback("x").or(Node::argument(long("label"), Takes::Text).fallback("y")),
        number('l').last().optional(),
        Node::positional(Takes::Number).optional().many().catch(),
        Node::argument(short('t').long("to"), Takes::Text).fallback("t"),
    ];
    let of = |fields: &[Node]| Form::of(fields.iter().cloned()).unwrap();
    for cut in 1..fields.len() {
        let (first, second) = fields.split_at(cut);
        assert_eq!(of(first).join(&of(second)), Ok(of(&fields)), "{cut}");
    }
    let [a, b, c] = [&fields[..3], &fields[3..5], &fields[5..]].map(of);
    assert_eq!(a.join(&b).unwrap().join(&c).unwrap(), a.join(&b.join(&c).unwrap()).unwrap());
}

/// A form as no nodes give it: its fields are not in the order of its nodes, its fallback's text is its first name, and its area
/// has bytes that no name has.
fn odd() -> Form {
    let numbers: [&[u16]; 4] = [
        // 3 nodes, 2 fields, 2 names, 5 bytes; fields
        &[3, 2, 2, 5, 2, 0],
        // the switch v, an operand, its fallback
        &[1, 1, 1, 1, 0, 0, 0, 0, 3, 0, 0, 0, 0, 0, 0, 0],
        &[10, 1, 0, 0, 0, 0, 0, 0],
        // a text and a short name
        &[2, 1, 2, 0, 3, 1],
    ];
    let mut bytes: Vec<u8> = numbers.concat().into_iter().flat_map(u16::to_le_bytes).collect();
    bytes.extend(b"?xyv?");
    Form::from_bytes(&bytes).unwrap()
}

#[test]
fn forms_from_bytes() {
    let limit = Form::of([number('w').fallback(300)]).unwrap();
    let (behind, before) = (limit.join(&odd()).unwrap(), odd().join(&limit).unwrap());
    let [word, given] = ["xy", "a"].map(|text| Value::Text(text.as_ref()));
    let read = |form: &Form, args: &[&str]| format!("{:?}", form.read_values(args).unwrap().into_values());
    let shown = |values: [Value; 3]| format!("{values:?}");
    assert_eq!(read(&behind, &[]), shown([Value::Number(300), word.clone(), Value::YesNo(false)]));
    assert_eq!(read(&before, &[]), shown([word, Value::YesNo(false), Value::Number(300)]));
    // 256 and more stay what they are, though such words stand for texts of the form elsewhere
    assert_eq!(read(&behind, &["-vw", "257", "a"]), shown([Value::Number(257), given.clone(), Value::YesNo(true)]));
    assert_eq!(read(&before, &["-v", "-w=258", "a"]), shown([given, Value::YesNo(true), Value::Number(258)]));
}

/// The second's fields are counted on, in marks and in warnings, and what it lacks is named.
#[test]
fn numbers_move_up() {
    let both = joined([switch('v'), switch('q')], [number('w'), text().many()]);
    let args = ["-vw7", "a"];
    let line = both.read_values(&args).unwrap();
    let fields: Vec<Option<usize>> = line.items().iter().map(|item| item.mark.field()).collect();
    assert_eq!(fields, [Some(0), Some(2), Some(2), Some(3)]);
    let error = both.read_values(&["-v"]).unwrap_err();
    assert_eq!((error.number(), error.missing().len()), (20, 1));
    assert_eq!(error.to_string(), "`-w` is required, and was not found");
    // left over is only what neither took
    let error = both.read_values(&["-vw7", "a", "-x"]).unwrap_err();
    assert_eq!((error.number(), error.place()), (27, Some(4)));
}

/// Letters that are good in each form alone, and what is said of the join.
#[test]
fn letters_of_both() {
    let [bench, volume] = [vec![switch('v'), switch('q')], vec![Node::argument(short('v'), Takes::Text).optional()]]
        .map(|fields| Form::of(fields).unwrap());
    assert_eq!((bench.warnings(), volume.warnings()), (vec![], vec![]));
    assert!(bench.read_values(&["-vq"]).is_ok() && volume.read_values(&["-vq"]).is_ok());
    let both = bench.join(&volume).unwrap();
    let error = both.read_values(&["-vq"]).unwrap_err();
    assert_eq!((error.number(), error.place()), (9, Some(0)));
    assert_eq!(both.warnings(), [Warning::LetterTwice { field: 2, earlier: 0, letter: 'v', ambiguous: true }]);
    assert_eq!(both.read_values(&["-v", "-q"]).map(|line| line.values().len()), Ok(3));
    // the operands of the first come before the options of the second
    let warnings = joined([text().many()], [number('w'), text()]).warnings();
    let taken = Warning::ValueTaken { field: 1, operand: 0, names: vec!["-w".into()] };
    assert_eq!(warnings, [taken, Warning::NoneLeft { field: 2, repeat: 0 }]);
}

#[test]
fn portable_if_both_are() {
    let portable = |first: char, second: char| joined([switch(first)], [switch(second)]).is_portable();
    assert!(portable('1', 'v') && !portable('W', 'v') && !portable('v', '+') && !portable('+', 'W'));
    assert_eq!(joined([switch('W'), switch('v')], [switch('+')]).unportable_names(), ['W', '+']);
}

/// Read carefully unless both are read by bpaf's rules.
#[test]
fn rules_of_both() {
    let [plain, careful] = [switch('v'), text()].map(|node| Form::of([node]).unwrap());
    let number = |form: Result<Form, FormError>| form.unwrap().read_values(&["-17"]).map_or_else(|e| e.number(), |_| 0);
    let (plain, also_plain) = (plain.as_bpaf(), careful.clone().as_bpaf());
    assert_eq!((number(plain.join(&careful)), number(careful.join(&plain))), (50, 50));
    assert_eq!((number(plain.join(&also_plain)), number(plain.join(&careful).map(Form::as_bpaf))), (0, 0));
}

/// Each limit is reached, and passed by one.
#[test]
fn limits() {
    let fits = |first: Vec<Node>, second: Vec<Node>| Form::of(first).unwrap().join(&Form::of(second).unwrap());
    let said = |error: FormError| format!("{} {:?}: {error}", error.number(), error.place());
    let all_fit = |part: &dyn Fn(usize) -> Vec<Node>, half: usize, what: &str| {
        assert!(fits(part(half), part(half)).is_ok(), "{what}");
        let (most, over) = (2 * half, 2 * half + 1);
        let words = format!("18 None: together the forms have {over} {what}, 1 more than the {most} that are allowed");
        for (first, second) in [(half, half + 1), (half + 1, half)] {
            assert_eq!(said(fits(part(first), part(second)).unwrap_err()), words);
        }
    };
    all_fit(&|n| vec![(1..n).fold(text(), |node, _| node.fallback("x"))], 32, "nodes");
    all_fit(&|n| vec![switch('v'); n], 8, "fields");
    let names = |n: usize| (0..n).fold(Names::default(), |names, _| names.short('v'));
    all_fit(&|n| vec![Node::flag(names(n))], 64, "names and fallback texts");
    all_fit(&|n| vec![Node::flag(long("x".repeat(n)))], 2048, "bytes of names and fallback texts");
}

/// All limits at once: a form of the greatest size, and two of them.
#[test]
fn the_largest_form() {
    let names = || (0..8).fold(Names::default(), |names, _| names.long("x".repeat(32)));
    let field = || Node::flag(names()).fallback(true).fallback(true).fallback(true);
    let half = Form::of((0..8).map(|_| field())).unwrap();
    let whole = half.join(&half).unwrap();
    assert_eq!((whole.bytes().len(), whole.bytes()), (5928, Form::of((0..16).map(|_| field())).unwrap().bytes()));
    let words = "together the forms have 96 nodes, 32 more than the 64 that are allowed; 24 fields, 8 more than the 16 that are \
                 allowed; 192 names and fallback texts, 64 more than the 128 that are allowed; 6144 bytes of names and fallback \
                 texts, 2048 more than the 4096 that are allowed";
    assert_eq!(whole.join(&half).unwrap_err().to_string(), words);
}

fn cradles() -> TypedForm<(bool, Vec<u32>)> {
    TypedForm::of((short('v').switch(), short('c').argument::<u32>().many())).unwrap()
}

fn rides() -> TypedForm<(u32, Text)> {
    TypedForm::of((short('l').argument::<u32>().fallback(1), positional::<Text>().fallback("bench"))).unwrap()
}

#[test]
fn values_in_pairs() {
    let both = cradles().join(&rides()).unwrap();
    assert_eq!(both.read(&["-vc2", "-l7", "lock"]), Ok(((true, vec![2]), (7, "lock".as_ref()))));
    let lines = [vec!["-c", "3"], vec!["-x"], vec![]];
    let read = both.read_many(&lines);
    assert_eq!(read[0], Ok(((false, vec![3]), (1, "bench".as_ref()))));
    assert_eq!((read[1].as_ref().map_err(|error| error.number()), &read[2]), (Err(27), &both.read(&[] as &[&str])));
    let args = ["-l7", "-v"];
    let line = both.read_line(&args).unwrap();
    assert_eq!((line.values().1 .0, line.tries(), line.items()[2].mark.field()), (7, 4, Some(0)));

    // of three forms
    let extra = TypedForm::of((long("dry").switch(),)).unwrap();
    let (first, last) = (both.join(&extra).unwrap(), cradles().join(&rides().join(&extra).unwrap()).unwrap());
    let (args, ((cradles, rides), dry)) = (["--dry", "-l2"], (((false, vec![]), (2, OsStr::new("bench"))), (true,)));
    assert_eq!(first.read(&args), Ok(((cradles.clone(), rides), dry)));
    assert_eq!((last.read(&args), last.form()), (Ok((cradles, (rides, dry))), first.form()));
}

/// A join with help is the form of all fields with help; rules are kept.
#[test]
fn joins_with_help() {
    let both = cradles().join(&rides()).unwrap().with_help().unwrap();
    assert_eq!(both.read(&["-vh"]), Ok(Answer::Help));
    assert_eq!(Reader::new().read_help(&both, &["-v", "a"]), Ok(Answer::Values(((true, vec![]), (1, OsStr::new("a"))))));
    assert_eq!(both.read(&["-17"]).unwrap_err().number(), 50);
    let plain = cradles().as_bpaf().join(&rides().as_bpaf()).unwrap().with_help().unwrap();
    assert_eq!(plain.read(&["-17"]), Ok(Answer::Values(((false, vec![]), (1, "-17".as_ref())))));
}

/// A join is a command's form like any other.
#[test]
fn joins_as_commands() {
    #[derive(Debug, PartialEq)]
    struct Ride<'a>(bool, &'a OsStr);
    impl Chosen for Ride<'_> {
        type Value<'a> = Ride<'a>;
    }
    let both = cradles().join(&rides()).unwrap();
    let ride = long("ride").command(both, |Values(((verbose, _), (_, label)))| Ride(verbose, label));
    let commands = Commands::<Ride>::of([ride]).unwrap();
    assert_eq!(commands.read(&["ride", "-vl7", "lock"]), Ok(Ride(true, "lock".as_ref())));
}

#[test]
fn typed_forms_that_are_too_large() {
    let s = || short('s').switch();
    let nine = TypedForm::of((s(), s(), s(), s(), s(), s(), s(), s(), s())).unwrap();
    let error = nine.join(&nine).unwrap_err();
    let words = "together the forms have 18 fields, 2 more than the 16 that are allowed";
    assert_eq!((error.number(), error.reason()), (18, words));
}
