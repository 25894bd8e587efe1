//! Who used an item.

use silverpoise::{positional, short, Form, ItemKind, Mark, Node, ReadError, Reader, Takes, Text, TypedForm, UsedBy};

const MARKER: Mark = Mark::Used(UsedBy::Marker);

fn by(field: usize) -> Mark {
    Mark::Used(UsedBy::Field(field))
}

fn text() -> Node {
    Node::positional(Takes::Text)
}

fn number() -> Node {
    Node::positional(Takes::Number)
}

fn switch(letter: char) -> Node {
    Node::switch(short(letter))
}

fn flag(letter: char) -> Node {
    Node::flag(short(letter))
}

fn argument(letter: char) -> Node {
    Node::argument(short(letter), Takes::Text)
}

/// The number of the refusal, 0 where the line is accepted, and the marks of the items.
fn read<const N: usize>(fields: [Node; N], args: &[&str]) -> (u32, Vec<Mark>) {
    let form = Form::of(fields).unwrap();
    let marks = |items: &[silverpoise::Item]| items.iter().map(|item| item.mark).collect();
    match form.read_values(args) {
        Ok(line) => (0, marks(line.items())),
        Err(error) => (error.number(), marks(&error.items())),
    }
}

/// The number is that of the field, not of the place, the node or the turn.
#[test]
fn each_field_has_its_number() {
    let fields = [text().optional(), argument('l').optional(), flag('v').count()];
    assert_eq!(read(fields.clone(), &["-v", "-l=7", "a", "-v"]), (0, vec![by(2), by(1), by(1), by(0), by(2)]));
    assert_eq!(read(fields, &["-vl=7"]), (27, vec![by(2), Mark::Unused]));
    assert_eq!(read([switch('v'), text()], &["a"]), (0, vec![by(1)]));
}

/// Of sixteen fields the last has the number 15.
#[test]
fn all_sixteen_fields() {
    let form = Form::of(('a'..='p').map(switch)).unwrap();
    let line = form.read_values(&["-ponmlkjihgfedcba"]).unwrap();
    let numbers: Vec<Option<usize>> = line.items().iter().map(|item| item.mark.field()).collect();
    assert_eq!(numbers, (0..16).rev().map(Some).collect::<Vec<_>>());
}

/// The number is the place in the tuple.
#[test]
fn fields_of_a_tuple() {
    let form = TypedForm::of((short('v').switch(), positional::<Text>(), short('w').argument::<u32>())).unwrap();
    let line = form.read_line(&["-w=7", "a"]).unwrap();
    assert_eq!(line.items().iter().map(|item| item.mark).collect::<Vec<_>>(), [by(2), by(2), by(1)]);
}

/// Only the first `--` is the marker; a field takes each later one as a word. Nobody needs to take a word behind it.
#[test]
fn the_marker() {
    assert_eq!(read([text().many()], &["a", "--", "--"]), (0, vec![by(0), MARKER, by(0)]));
    assert_eq!(read([switch('v')], &["--", "-v"]), (27, vec![MARKER, Mark::Unused]));
    assert_eq!(read([switch('v')], &["--"]), (0, vec![MARKER]));
    assert!(MARKER.is_used() && MARKER.field().is_none());
}

/// A conflict has the place of its winner, and the winner the number of the field.
#[test]
fn conflicts_name_their_winner() {
    let form = Form::of([switch('x'), flag('v').or(flag('q'))]).unwrap();
    let error = form.read_values(&["-x", "-q", "-v"]).unwrap_err();
    assert_eq!((error.number(), error.place(), error.tries()), (27, Some(2), 3));
    let items = error.items();
    let Mark::Conflict(winner) = items[2].mark else { panic!("{items:?}") };
    assert_eq!((winner, items[winner].kind, items[winner].mark), (1, ItemKind::Short('q'), by(1)));
    assert!(!items[2].mark.is_used() && items[2].mark.field().is_none());
}

/// What lost a choice may be used by a later field, which then has its number there.
#[test]
fn a_conflict_that_a_later_field_takes() {
    assert_eq!(read([flag('v').or(flag('q')), switch('v')], &["-q", "-v"]), (0, vec![by(0), by(1)]));
    let fields = [argument('l').or(text()), text().many()];
    assert_eq!(read(fields, &["a", "-l", "7"]), (27, vec![by(0), Mark::Conflict(0), by(1)]));
}

/// Refused, a line has the marks of the fields up to the refusal, and with 27 those of all fields.
#[test]
fn marks_of_refused_lines() {
    assert_eq!(
        read([switch('v'), text(), switch('q')], &["-q", "a", "b", "-v"]),
        (27, vec![by(2), by(1), Mark::Unused, by(0)])
    );
    // the word that is refused stays used; the field behind was not asked
    assert_eq!(read([flag('v'), number(), switch('q')], &["-q", "a", "-v"]), (25, vec![Mark::Unused, by(1), by(0)]));
    assert_eq!(read([switch('v'), text().strict()], &["a", "-v"]), (23, vec![by(1), by(0)]));
    assert_eq!(read([switch('v'), argument('w')], &["-vw"]), (22, vec![by(0), Mark::Unused]));
    // 9: nothing was evaluated
    assert_eq!(read([switch('b'), argument('b').optional()], &["-bb"]), (9, vec![Mark::Unused]));
}

/// What is put back has the mark that it had before, and another field can use it.
#[test]
fn places_that_are_given_back() {
    // a repeat swallows the refusal of its last turn
    assert_eq!(read([number().many().catch(), text()], &["1", "2", "a"]), (0, vec![by(0), by(0), by(1)]));
    assert_eq!(read([text().non_strict().many(), text().strict()], &["a", "--", "b"]), (0, vec![by(0), MARKER, by(1)]));
    assert_eq!(read([number().many().catch()], &["1", "a"]), (27, vec![by(0), Mark::Unused]));
    // an optional, a fallback, and a choice of which both sides are refused
    assert_eq!(read([switch('v'), number().optional().catch(), text()], &["-v", "a"]), (0, vec![by(0), by(2)]));
    assert_eq!(read([switch('v'), number().fallback(9)], &["-v", "a"]), (25, vec![by(0), Mark::Unused]));
    assert_eq!(read([switch('v'), text().strict().or(argument('l'))], &["-v", "a"]), (23, vec![by(0), Mark::Unused]));
}

/// A reader keeps no number from line to line, nor from form to form.
#[test]
fn a_reader_keeps_no_numbers() {
    let (first, second) = (Form::of([text().many()]).unwrap(), Form::of([switch('v'), text().many()]).unwrap());
    let mut reader = Reader::new();
    let mut fields = |form: &Form, args: &[&str]| -> Result<Vec<Option<usize>>, ReadError> {
        let line = reader.read_values(form, args)?;
        Ok(line.items().iter().map(|item| item.mark.field()).collect())
    };
    for _ in 0..2 {
        assert_eq!(fields(&second, &["a", "-v", "b"]), Ok(vec![Some(1), Some(0), Some(1)]));
        assert_eq!(fields(&first, &["a", "--", "b"]), Ok(vec![Some(0), None, Some(0)]));
    }
}
