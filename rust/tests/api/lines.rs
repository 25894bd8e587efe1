//! Untyped values, items and tries.

use std::ffi::{OsStr, OsString};
use std::os::unix::ffi::{OsStrExt, OsStringExt};

use silverpoise::{long, short, Form, Item, Node, Reader, Takes, Value};

fn text() -> Node {
    Node::positional(Takes::Text)
}

fn yes() -> Value<'static> {
    Value::YesNo(true)
}

fn word(text: &str) -> Value<'_> {
    Value::Text(text.as_ref())
}

fn optional(value: Option<Value>) -> Value {
    Value::Optional(value.map(Box::new))
}

/// The line of docs/FORMAT.md, section 7.1, with all eleven kinds of nodes.
#[test]
fn all_kinds_of_nodes() {
    let form = Form::of([
        Node::flag(short('f')),
        Node::argument(short('t'), Takes::Text).optional(),
        Node::argument(short('n'), Takes::Number).adjacent().many(),
        Node::switch(short('c')).count(),
        Node::argument(long("last"), Takes::Text).last(),
        Node::flag(short('x')).or(Node::switch(short('y'))),
        Node::argument(short('w'), Takes::Number).fallback(9).guard(1..=9),
        text().strict().some(),
    ])
    .unwrap();
    let args = ["-f", "-ccx", "-n=3", "-n=4", "--last", "z", "-tu", "--", "s"];
    let line = form.read_values(&args).unwrap();
    let numbers = Value::List(vec![Value::Number(3), Value::Number(4)]);
    let texts = Value::List(vec![word("s")]);
    let two = Value::Number(2);
    let expected = [yes(), optional(Some(word("u"))), numbers, two, word("z"), yes(), Value::Number(9), texts];
    assert_eq!(line.values()[..], expected);
    assert_eq!((line.tries(), line.items().len()), (15, 14));
    let fields = [Some(0), Some(3), Some(3), Some(5), Some(2), Some(2), Some(2), Some(2), Some(4), Some(4), Some(1), Some(1)];
    let used_by: Vec<Option<usize>> = line.items().iter().map(|item| item.mark.field()).collect();
    assert_eq!(used_by, [&fields[..], &[None, Some(7)]].concat());
    assert!(line.items().iter().all(|item| item.mark.is_used()));
}

/// The two kinds of values that the line above does not have.
#[test]
fn lists_of_optionals_and_optional_lists() {
    let form = Form::of([Node::flag(short('v')).optional().many(), text().some().optional()]).unwrap();
    let read = |args: &[&str]| format!("{:?}", form.read_values(args).unwrap().into_values());
    assert_eq!(read(&[]), "[List([Optional(None)]), Optional(None)]");
    let given = "[List([Optional(Some(YesNo(true)))]), Optional(Some(List([Text(\"a\")])))]";
    assert_eq!(read(&["-v", "a"]), given);
}

#[test]
fn a_catch_makes_a_wrong_number_absent() {
    let form = Form::of([Node::positional(Takes::Number).optional().catch(), text().non_strict().many().catch()]).unwrap();
    let line = form.read_values(&["a"]).unwrap();
    assert_eq!(line.into_values(), [optional(None), Value::List(vec![word("a")])]);
}

/// Texts are parts of the caller's own bytes, or of the form's where a fallback gave them.
#[test]
fn texts_are_borrowed() {
    let form = Form::of([Node::argument(short('l'), Takes::Text), text().fallback("none")]).unwrap();
    let args = vec![OsString::from("-llock")];
    let line = form.read_values(&args).unwrap();
    let [Value::Text(label), Value::Text(other)] = line.values()[..] else { panic!("two texts") };
    assert_eq!((label, other), (OsStr::new("lock"), OsStr::new("none")));
    assert_eq!(label.as_bytes().as_ptr(), args[0].as_bytes()[2..].as_ptr());
    assert!(form.bytes().as_ptr_range().contains(&other.as_bytes().as_ptr()));
}

/// Kind, adjacent, text, argument and part, one item a line.
fn items(items: &[Item]) -> Vec<String> {
    let show = |item: &Item| {
        let (kind, part) = (item.kind, &item.part);
        format!("{kind:?} {} {:?} {} {}..{} {:?}", item.adjacent, item.text, item.argument, part.start, part.end, item.mark)
    };
    items.iter().map(show).collect()
}

#[test]
fn the_items_of_a_line() {
    let form = Form::of([
        Node::switch(short('v').short('é').short('-')),
        Node::argument(short('w').long("weight"), Takes::Text).many(),
        text().many(),
    ])
    .unwrap();
    let args = ["", "-é", "-v-éw7", "-v=7", "-w=", "--weight=", "--é=8", "---", "-vx", "--", "", "--"];
    let expected = [
        "Word false \"\" 0 0..0 Used(Field(2))",
        "Short('é') false \"-é\" 1 0..3 Used(Field(0))",
        "Short('v') false \"-v-éw7\" 2 1..2 Unused",
        "Short('-') false \"\" 2 2..3 Unused",
        "Short('é') false \"\" 2 3..5 Unused",
        "Short('w') true \"-v-éw7\" 2 5..6 Used(Field(1))",
        "Word false \"7\" 2 6..7 Used(Field(1))",
        "Short('v') true \"-v=7\" 3 0..2 Unused",
        "ArgWord false \"7\" 3 3..4 Unused",
        "Short('w') true \"-w=\" 4 0..2 Used(Field(1))",
        "ArgWord false \"\" 4 3..3 Used(Field(1))",
        "Long(\"weight\") true \"--weight=\" 5 0..8 Used(Field(1))",
        "ArgWord false \"\" 5 9..9 Used(Field(1))",
        "Long(\"é\") true \"--é=8\" 6 0..4 Unused",
        "ArgWord false \"8\" 6 5..6 Unused",
        "Long(\"-\") false \"---\" 7 0..3 Unused",
        "Word false \"-vx\" 8 0..3 Used(Field(2))",
        "PosWord false \"--\" 9 0..2 Used(Marker)",
        "PosWord false \"\" 10 0..0 Used(Field(2))",
        "PosWord false \"--\" 11 0..2 Used(Field(2))",
    ];
    let error = form.read_values(&args).unwrap_err();
    assert_eq!((error.number(), error.place(), error.tries()), (27, Some(2), 10));
    assert_eq!(items(&error.items()), expected);
}

/// The `=` right behind the dash is a letter, and makes no name end.
#[test]
fn the_letter_equals() {
    let form = Form::of([Node::switch(short('=')), Node::switch(short('v'))]).unwrap();
    let line = form.read_values(&["-=v"]).map(|line| items(line.items())).unwrap();
    assert_eq!(line, ["Short('=') false \"-=v\" 0 1..2 Used(Field(0))", "Short('v') false \"\" 0 2..3 Used(Field(1))"]);
    let error = form.read_values(&["-=v=="]).unwrap_err();
    assert_eq!(
        items(&error.items()),
        ["Short('=') true \"-=v==\" 0 0..2 Used(Field(0))", "ArgWord false \"v==\" 0 2..5 Unused"]
    );
}

/// What a read leaves in the buffers does not show in the next one.
#[test]
fn a_reader_reads_many_lines() {
    let form = Form::of([Node::switch(short('v')), text().many()]).unwrap();
    let other = Form::of([text()]).unwrap();
    let mut reader = Reader::default();
    let long: Vec<String> = (0..256).map(|k| k.to_string()).collect();
    for _ in 0..3 {
        let line = reader.read_values(&form, &long).unwrap();
        assert_eq!(line.values()[1], Value::List(long.iter().map(|text| word(text)).collect()));
        assert_eq!((line.items().len(), line.tries()), (256, 258));
        let line = reader.read_values(&form, &["-v"]).unwrap();
        assert_eq!((line.values()[..].to_vec(), line.items().len()), (vec![yes(), Value::List(vec![])], 1));
        assert_eq!(reader.read_values::<&str>(&other, &[]).unwrap_err().items(), []);
    }
}

/// Bytes that are not UTF-8 are read as they are.
#[test]
fn any_bytes() {
    let form = Form::of([text().many()]).unwrap().as_bpaf();
    let args: Vec<OsString> = [&b"\xff\x00"[..], b"-\xc3", b"--\xff=1"].map(|bytes| OsString::from_vec(bytes.to_vec())).into();
    let line = form.read_values(&args).unwrap();
    let texts: Vec<Value> = args.iter().map(|arg| Value::Text(arg)).collect();
    assert_eq!(line.into_values(), [Value::List(texts)]);
}

/// The values live on behind the reader and the line; only arguments and form must stay.
#[test]
fn values_outlive_the_line() {
    let form = Form::of([text()]).unwrap();
    let args = ["a".to_string()];
    let values = {
        let mut reader = Reader::new();
        reader.read_values(&form, &args).unwrap().into_values()
    };
    assert_eq!(values, [word("a")]);
}
