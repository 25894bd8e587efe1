//! Forms with types.

use std::ffi::{OsStr, OsString};
use std::os::unix::ffi::OsStrExt;

use silverpoise::{long, positional, short, Form, Node, Reader, Takes, Text, TypedForm, Value};

fn text(text: &str) -> &OsStr {
    OsStr::new(text)
}

/// Each combinator once, against the same form of nodes.
#[test]
fn every_combinator() {
    let form = TypedForm::of((
        short('v').long("verbose").switch(),
        short('q').flag().count(),
        short('l').argument::<Text>().adjacent().optional(),
        long("last").argument::<u32>().last(),
        short('a').flag().or(short('b').flag()).fallback(true),
        short('w').argument::<u32>().guard(1..=9).fallback(9),
        short('n').argument::<u32>().guard(1..=9).optional().many().catch(),
        positional::<u32>().optional().catch(),
        positional::<Text>().non_strict().fallback("none"),
        positional::<Text>().strict().some().optional(),
    ))
    .unwrap();
    let args = ["-vqq", "-lx", "--last=1", "--last", "2", "-b", "-n", "3", "-n10", "a", "--", "b", "c"];
    let error = form.read(&args).unwrap_err();
    assert_eq!((error.number(), error.place()), (27, Some(12)), "{error}");

    let args = ["-vqq", "-lx", "--last=1", "--last", "2", "-b", "-n", "3", "a", "--", "b", "c"];
    let (v, q, l, last, a, w, n, number, word, rest) = form.read(&args).unwrap();
    assert_eq!((v, q, l, last, a, w), (true, 2, Some(text("x")), 2, true, 9));
    assert_eq!((n, number, word), (vec![Some(3)], None, text("a")));
    assert_eq!(rest, Some(vec![text("b"), text("c")]));
}

#[test]
fn the_same_as_its_nodes() {
    let typed = TypedForm::of((short('v').flag().many(), positional::<Text>().optional().last())).unwrap();
    let nodes = [short('v').flag().many().into(), Node::positional(Takes::Text).optional().last()];
    assert_eq!(typed.form(), &Form::of(nodes).unwrap());
    assert_eq!(format!("{typed:?}"), format!("{:?}", typed.form()));
}

#[test]
fn items_and_tries() {
    let form = TypedForm::of((short('v').switch(), positional::<Text>())).unwrap();
    let args = ["-v", "lock"];
    let line = form.read_line(&args).unwrap();
    assert_eq!((*line.values(), line.tries(), line.items().len()), ((true, text("lock")), 2, 2));
    assert_eq!(form.read_line(&["-v"]).unwrap_err().number(), 20);
}

/// The texts are the caller's bytes, and outlive the form's reader.
#[test]
fn texts_are_borrowed() {
    let form = TypedForm::of((positional::<Text>().many(),)).unwrap();
    let args: Vec<OsString> = vec!["a".into(), "b".into()];
    let mut reader = Reader::new();
    let (first,) = reader.read(&form, &args[..1]).unwrap();
    let (second,) = reader.read(&form, &args[1..]).unwrap();
    drop(reader);
    assert_eq!(
        (first[0].as_bytes().as_ptr(), second[0].as_bytes().as_ptr()),
        (args[0].as_bytes().as_ptr(), args[1].as_bytes().as_ptr())
    );
}

#[test]
fn sixteen_fields() {
    let s = || short('v').flag().optional();
    let form = TypedForm::of((s(), s(), s(), s(), s(), s(), s(), s(), s(), s(), s(), s(), s(), s(), s(), s())).unwrap();
    let (a, b, _, _, _, _, _, _, _, _, _, _, _, _, _, p) = form.read(&["-vv"]).unwrap();
    assert_eq!((a, b, p), (Some(true), Some(true), None));
}

/// Parsers can be kept and used again; a choice of repeats is a list.
#[test]
fn parsers_are_values() {
    let word = positional::<Text>();
    let lists = long("x").argument::<Text>().many().or(word.clone().some());
    let form = TypedForm::of((lists, word.optional())).unwrap();
    let args = ["a", "b"];
    assert_eq!(form.read(&args).unwrap(), (vec![text("a"), text("b")], None));
    assert!(format!("{:?}", short('v').switch()).contains("kind: 1"));
}

/// What the types let through is an error of the form.
#[test]
fn what_types_cannot_say() {
    let refused = |error: silverpoise::FormError| error.to_string();
    let bounds = std::ops::RangeInclusive::new(5, 1);
    let guard = TypedForm::of((positional::<u32>().guard(bounds),)).unwrap_err();
    assert_eq!(refused(guard), "node 1, guard(operand, 5..1): nothing is within 5..1");
    let nameless = TypedForm::of((silverpoise::Names::default().switch(),)).unwrap_err();
    assert_eq!(refused(nameless), "node 0, switch(): it has no name");
}

/// A typed value as an untyped one.
trait Untyped<'a> {
    fn untyped(self) -> Value<'a>;
}

impl<'a> Untyped<'a> for bool {
    fn untyped(self) -> Value<'a> {
        Value::YesNo(self)
    }
}

impl<'a> Untyped<'a> for u32 {
    fn untyped(self) -> Value<'a> {
        Value::Number(self)
    }
}

impl<'a> Untyped<'a> for &'a OsStr {
    fn untyped(self) -> Value<'a> {
        Value::Text(self)
    }
}

impl<'a, T: Untyped<'a>> Untyped<'a> for Option<T> {
    fn untyped(self) -> Value<'a> {
        Value::Optional(self.map(|value| Box::new(value.untyped())))
    }
}

impl<'a, T: Untyped<'a>> Untyped<'a> for Vec<T> {
    fn untyped(self) -> Value<'a> {
        Value::List(self.into_iter().map(Untyped::untyped).collect())
    }
}

/// Every line of up to four of these words.
pub fn lines() -> impl Iterator<Item = Vec<&'static str>> {
    const WORDS: [&str; 6] = ["-v", "-vw7", "--list=a", "a", "7", "--"];
    let line = |length: u32, number: usize| (0..length).map(move |k| WORDS[number / 6usize.pow(k) % 6]).collect();
    (0..=4).flat_map(move |length| (0..6usize.pow(length)).map(move |number| line(length, number)))
}

/// All five kinds of values, typed and untyped, on every short line; the answers are many of both sorts.
#[test]
fn typed_values_are_the_untyped_ones() {
    let form = TypedForm::of((
        short('v').switch(),
        short('w').argument::<u32>().optional(),
        long("list").argument::<Text>().many(),
        positional::<u32>().optional().catch().many(),
        positional::<Text>().some().optional(),
    ))
    .unwrap();
    let (mut reader, mut accepted, mut refused) = (Reader::new(), 0, 0);
    for line in lines() {
        let untyped = form.form().read_values(&line).map(|line| line.into_values());
        let typed = reader.read(&form, &line);
        let values = typed.map(|(v, w, l, n, t)| vec![v.untyped(), w.untyped(), l.untyped(), n.untyped(), t.untyped()]);
        *if values.is_ok() { &mut accepted } else { &mut refused } += 1;
        assert_eq!(values, untyped, "{line:?}");
    }
    assert!(accepted > 100 && refused > 100, "{accepted} {refused}");
}
