//! Forms from nodes and from bytes.

use std::ops::RangeInclusive;

use silverpoise::{long, short, Fallback, Form, FormError, Names, Node, Takes};

/// The form of docs/FORMAT.md, section 11: the count of the required flag v.
const COUNT_OF_V: [u8; 49] = {
    let mut bytes = [0; 49];
    let set: [(usize, u8); 11] =
        [(0, 2), (2, 1), (4, 1), (6, 1), (8, 1), (10, 1), (14, 1), (26, 7), (46, 1), (48, b'v'), (12, 0)];
    let mut k = 0;
    while k < set.len() {
        bytes[set[k].0] = set[k].1;
        k += 1;
    }
    bytes
};

fn text() -> Node {
    Node::positional(Takes::Text)
}

fn number() -> Node {
    Node::positional(Takes::Number)
}

#[test]
fn the_bytes_of_a_form() {
    let form = Form::of([Node::flag(short('v')).count()]).unwrap();
    assert_eq!(form.bytes(), COUNT_OF_V);
    assert_eq!(Form::from_bytes(&COUNT_OF_V), Ok(form));
}

/// Node numbers and name records move up behind those before them, in fields and in choices.
#[test]
fn fields_and_sides_are_put_one_behind_the_other() {
    let named = |c: char| Node::argument(short(c), Takes::Text).fallback("x");
    let fields = [named('a').or(named('b')), Node::switch(short('c').long("see")), named('d').or(named('e'))];
    let form = Form::of(fields).unwrap();
    let read = |args: &[&str]| format!("{:?}", form.read_values(args).unwrap().into_values());
    assert_eq!(read(&[]), r#"[Text("x"), YesNo(false), Text("x")]"#);
    assert_eq!(read(&["-b1", "--see", "-e", "2"]), r#"[Text("1"), YesNo(true), Text("2")]"#);
}

#[test]
fn portable() {
    let portable = |names: Names| Form::of([Node::switch(names)]).unwrap().is_portable();
    assert!(portable(short('v').long("+ W é")));
    assert!(portable(long("+")));
    assert!(!portable(long("v").short('é')));
    let yes: String = ('\0'..='\u{ff}').filter(|c| portable(short(*c))).collect();
    assert_eq!(yes, "0123456789ABCDEFGHIJKLMNOPQRSTUVXYZabcdefghijklmnopqrstuvwxyz");
    let named = |names: Names| Form::of([Node::switch(names), Node::switch(short('v'))]).unwrap().unportable_names();
    assert_eq!(named(short('7').long("W")), []);
    assert_eq!(named(short('W').short('a').short('é').long("+")), ['W', 'é']);
}

#[test]
fn values_of_fallbacks() {
    let kept = [Fallback::from(true), Fallback::from(7), Fallback::from("a"), Fallback::from(&"b".to_string())];
    let expected = [Fallback::YesNo(true), Fallback::Number(7), Fallback::Text("a".into()), Fallback::Text("b".into())];
    assert_eq!(kept, expected);
}

#[test]
fn the_reason_alone() {
    let error = Form::of([text().guard(1..=5)]).unwrap_err();
    assert_eq!(
        (error.reason(), error.to_string()),
        ("guard over a text", "node 1, guard(operand, 1..5): guard over a text".into())
    );
    assert_eq!(Form::of([]).unwrap_err().reason(), "the form has 0 fields, and 1 to 16 are allowed");
}

/// What is wrong with a form of one field, in words.
fn refused(node: Node) -> String {
    said(Form::of([node]).unwrap_err())
}

fn said(error: FormError) -> String {
    format!("{} {:?}: {error}", error.number(), error.place())
}

/// A node, its number, how it is shown and why it is refused with 3.
type Unfit = (Node, usize, &'static str, &'static str);

fn all_unfit(cases: impl IntoIterator<Item = Unfit>) {
    for (node, place, shown, reason) in cases {
        assert_eq!(refused(node), format!("3 Some({place}): node {place}, {shown}: {reason}"));
    }
}

fn v() -> Node {
    Node::flag(short('v'))
}

fn w() -> Node {
    Node::argument(short('w').long("weight"), Takes::Number)
}

#[test]
fn repeats_over_repeats() {
    all_unfit([
        (v().count().many(), 2, "many(count(flag(-v)))", "many over a many, some, count or last"),
        (w().many().many(), 2, "many(many(number(-w --weight)))", "many over a many, some, count or last"),
        (text().some().optional().last(), 3, "last(optional(some(operand)))", "last over a many, some, count or last"),
        (
            v().or(v().last()).optional().some(),
            5,
            "some(optional(choice(flag(-v), last(..))))",
            "some over a many, some, count or last",
        ),
        (
            number().last().guard(1..=5).fallback(1).count(),
            4,
            "count(fallback(guard(last(..), 1..5)))",
            "count over a many, some, count or last",
        ),
    ]);
}

#[test]
fn kinds_that_do_not_fit() {
    let sides = "its sides are a yes/no and a number, and must be the same";
    all_unfit([
        (Node::flag(Names::default()), 0, "flag()", "it has no name"),
        (w().optional().optional(), 2, "optional(optional(number(-w --weight)))", "optional over an optional number"),
        (
            text().many().optional().optional(),
            3,
            "optional(optional(many(operand)))",
            "optional over an optional list of texts",
        ),
        (v().optional().many().optional(), 3, "optional(many(optional(flag(-v))))", "optional over a list of optional yes/nos"),
        (v().or(w()), 2, "choice(flag(-v), number(-w --weight))", sides),
        (text().guard(1..=5), 1, "guard(operand, 1..5)", "guard over a text"),
        (w().guard(RangeInclusive::new(5, 1)), 1, "guard(number(-w --weight), 5..1)", "nothing is within 5..1"),
        (text().many().fallback("x"), 2, "fallback(many(operand))", "fallback over a list of texts"),
    ]);
}

#[test]
fn fallbacks_of_another_kind() {
    let numbers = "one of its numbers is not allowed: p 0, q 0, r 0, lo 0, hi 0";
    all_unfit([
        (number().fallback("x"), 1, "fallback(operand)", "its value is a text, and operand is a number"),
        (number().fallback(true), 1, "fallback(operand)", "its value is a yes/no, and operand is a number"),
        (v().fallback(1), 1, "fallback(flag(-v))", "its value is a number, and flag(-v) is a yes/no"),
        (text().fallback(0), 1, "fallback(operand)", numbers),
    ]);
}

#[test]
fn modifiers_that_do_not_belong() {
    let misplaced = "it cannot have the catch, adjacent, strict or non-strict that was put to it";
    all_unfit([
        (v().catch(), 0, "flag(-v)", misplaced),
        (v().count().catch(), 1, "count(flag(-v))", misplaced),
        (w().strict(), 0, "number(-w --weight)", misplaced),
        (w().non_strict().adjacent(), 0, "number(-w --weight)", misplaced),
        (text().adjacent().strict(), 0, "strict", misplaced),
        (w().optional().non_strict().catch(), 1, "optional(number(-w --weight))", misplaced),
        (text().fallback("x").catch(), 1, "fallback(operand)", misplaced),
    ]);
}

#[test]
fn limits() {
    let switches = |n: u32| (0..n).map(|k| Node::switch(short(char::from_u32(0x100 + k).unwrap())));
    assert!(Form::of(switches(16)).is_ok());
    assert_eq!(said(Form::of(switches(17)).unwrap_err()), "1 None: the form has 17 fields, and 1 to 16 are allowed");
    assert_eq!(said(Form::of([]).unwrap_err()), "1 None: the form has 0 fields, and 1 to 16 are allowed");

    let chain = |n: usize| (1..n).fold(text(), |node, _| node.fallback("x"));
    assert!(Form::of([chain(64)]).is_ok());
    let nodes = "nodes (flags, arguments, positionals and what is over them)";
    assert_eq!(refused(chain(65)), format!("1 None: the form has 65 {nodes}, and 1 to 64 are allowed"));

    let names = |n: usize| Node::flag((0..n).fold(Names::default(), |names, _| names.short('v')));
    assert!(Form::of([names(128)]).is_ok());
    assert_eq!(refused(names(129)), "1 None: the form has 129 names and fallback texts, and 0 to 128 are allowed");

    let long_name = |n: usize| Node::flag(long("x".repeat(n)));
    assert!(Form::of([long_name(4096)]).is_ok());
    let area = "1 None: the form has 4097 bytes of names and fallback texts, and 0 to 4096 are allowed";
    assert_eq!(refused(long_name(4097)), area);
}

/// `COUNT_OF_V` with these bytes changed.
fn damaged(changes: &[(usize, u8)]) -> String {
    let mut bytes = COUNT_OF_V;
    changes.iter().for_each(|(at, byte)| bytes[*at] = *byte);
    said(Form::from_bytes(&bytes).unwrap_err())
}

#[test]
fn bytes_that_are_no_form() {
    let from = |bytes: &[u8]| said(Form::from_bytes(bytes).unwrap_err());
    assert_eq!(from(&[]), "1 None: the form has 0 bytes, and its counts alone need 8");
    assert_eq!(from(&COUNT_OF_V[..48]), "1 None: the form has 48 bytes, and its counts ask for 49");
    assert_eq!(damaged(&[(0, 65)]), "1 None: the form has 65 nodes, and 1 to 64 are allowed");
    assert_eq!(damaged(&[(2, 0)]), "1 None: the form has 0 fields, and 1 to 16 are allowed");
    assert_eq!(damaged(&[(5, 1)]), "1 None: the form has 257 name records, and 0 to 128 are allowed");
    assert_eq!(damaged(&[(7, 17)]), "1 None: the form has 4353 bytes of names, and 0 to 4096 are allowed");
    assert_eq!(damaged(&[(48, 0xff)]), "2 Some(0): name record 0: it is a short name, and `\\xff` is not one UTF-8 character");
    assert_eq!(damaged(&[(42, 1), (48, 0xff)]), "2 Some(0): name record 0: it is a long name, and `\\xff` is not UTF-8");
    assert_eq!(damaged(&[(42, 3)]), "2 Some(0): name record 0: its type is 3, and there are only 0, 1 and 2");
    assert_eq!(damaged(&[(44, 1)]), "2 Some(0): name record 0: its part is outside the area");
    assert_eq!(damaged(&[(42, 2)]), "3 Some(0): node 0, flag(--v): its name record 0 is a text");
    assert_eq!(damaged(&[(14, 2)]), "3 Some(0): node 0, flag(-v): its names are the records 0 to 1, and there are 1");
    assert_eq!(damaged(&[(26, 12)]), "3 Some(1): node 1, of kind 12: there is no kind 12 of nodes");
    assert_eq!(damaged(&[(28, 1)]), "3 Some(1): node 1, count(node 1): its child is node 1, and children have lower numbers");
    assert_eq!(damaged(&[(8, 2)]), "4 None: field 0 is node 2, and there are 2 nodes");
    assert_eq!(damaged(&[(8, 0)]), "4 Some(0): node 0, flag(-v): it is used 2 times, and must be used once");
}
