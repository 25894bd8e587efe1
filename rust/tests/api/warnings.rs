//! What of a form is easily overlooked.

use silverpoise::{long, positional, short, CommandTable, Form, Node, Takes, Text, TypedForm, Warning};

fn text() -> Node {
    Node::positional(Takes::Text)
}

fn operand() -> Node {
    Node::positional(Takes::Number)
}

fn number(letter: char) -> Node {
    Node::argument(short(letter), Takes::Number)
}

fn switch(letter: char) -> Node {
    Node::switch(short(letter))
}

fn warnings<const N: usize>(fields: [Node; N]) -> Vec<Warning> {
    Form::of(fields).unwrap().warnings()
}

fn words<const N: usize>(fields: [Node; N]) -> Vec<String> {
    warnings(fields).iter().map(Warning::to_string).collect()
}

/// A form in which all is as it should be, with each kind of node.
#[test]
fn nothing_to_warn_of() {
    let fields = [
        switch('v'),
        Node::flag(short('q')).count(),
        number('n').guard(1..=9).fallback(9),
        number('m').fallback(5).guard(1..=9),
        Node::argument(short('l').long("limit"), Takes::Text).adjacent().many(),
        Node::flag(short('x')).or(Node::flag(short('x').long("y"))).optional(),
        operand().many().catch(),
        text().non_strict().some(),
        text().strict().many(),
    ];
    assert_eq!(warnings(fields), []);
}

/// What each repeat has where nothing is given, and why; as many as the proved call names.
#[test]
fn values_from_nothing() {
    let because = "where nothing is given: a switch always has a value, a flag only if it is given";
    assert_eq!(words([switch('v').count()]), [format!("the count of `-v` is 1 {because}")]);
    assert_eq!(words([switch('v').many()]), [format!("the list of `-v` has one value {because}")]);
    assert_eq!(words([switch('v').some()]), [format!("the list of `-v` has one value {because}")]);
    assert_eq!(words([switch('v').last()]), [format!("the last of `-v` has a value {because}")]);
    let fields = [switch('q'), number('n').guard(1..=9).optional().many(), text().fallback("x").count().optional()];
    assert_eq!(
        words(fields.clone()),
        [
            "the list of `-n` has one value where nothing is given: an optional always has a value",
            "the count of an operand is 1 where nothing is given: with a fallback there is always a value",
        ]
    );
    let [Warning::FromNothing(first), Warning::FromNothing(second)] = &warnings(fields)[..] else { panic!("two of them") };
    assert_eq!(((first.field, first.node), (second.field, second.node)), ((1, 4), (2, 7)));
}

#[test]
fn a_positional_before_an_option_with_a_value() {
    let weight = || Node::argument(short('w').long("weight"), Takes::Number);
    let names = || vec!["-w".to_string(), "--weight".to_string()];
    let taken = |field: usize, operand: usize| Warning::ValueTaken { field, operand, names: names() };
    assert_eq!(warnings([text(), switch('v'), weight().optional()]), [taken(2, 0)]);
    assert_eq!(warnings([switch('v'), text().strict().optional(), weight()]), [taken(2, 1)]);
    assert_eq!(
        words([text(), weight()]),
        ["an operand comes before `-w` or `--weight` and may take its value: put operands last"]
    );
    // each option once, with the first operand
    assert_eq!(warnings([text(), text(), weight(), number('x').or(number('y'))]).len(), 3);
    // a value that is always after a `=`, or in the same field
    assert_eq!(warnings([text(), Node::argument(long("weight"), Takes::Text).adjacent()]), []);
    assert_eq!(warnings([text(), Node::argument(short('w'), Takes::Text).adjacent()]).len(), 1);
    assert_eq!(warnings([text().or(Node::argument(short('w'), Takes::Text))]), []);
    assert_eq!(warnings([weight(), text()]), []);
}

#[test]
fn an_operand_after_a_repeat_of_all() {
    let none_left = |field: usize, repeat: usize| vec![Warning::NoneLeft { field, repeat }];
    assert_eq!(warnings([text().many(), text()]), none_left(1, 0));
    assert_eq!(words([text().many(), text()]), ["no operand is left: an earlier field takes all"]);
    let repeats = [text().some(), text().last(), operand().many(), text().some().optional(), text().count().guard(1..=9)];
    for repeat in repeats {
        assert_eq!(warnings([switch('v'), repeat, operand().optional()]), none_left(2, 1));
    }
    // who takes words before `--` alone leaves those after it
    assert_eq!(warnings([text().non_strict().many(), text().strict()]), []);
    assert_eq!(warnings([text().non_strict().many(), text()]), []);
    assert_eq!(warnings([text().non_strict().many(), text().non_strict().optional()]), none_left(1, 0));
    // with catch what is no number is left, and the other side of a choice may be taken
    assert_eq!(warnings([operand().many().catch(), text()]), []);
    assert_eq!(warnings([operand().many().optional().catch(), text()]), []);
    assert!(matches!(warnings([operand().optional().catch().last(), text()])[..], [Warning::FromNothing(_)]));
    assert_eq!(warnings([text().many().catch(), text()]), none_left(1, 0));
    assert_eq!(warnings([operand().or(number('n')).many(), text()]), []);
    assert_eq!(warnings([text().or(Node::argument(short('l'), Takes::Text)).many(), text()]), none_left(1, 0));
    // one of two operands can be given
    assert_eq!(warnings([text().non_strict().many(), text().non_strict().or(text().strict())]), []);
    assert_eq!(warnings([text().many().or(Node::argument(short('l'), Takes::Text).many()), text()]), []);
    assert_eq!(warnings([text(), text().optional(), text().many()]), []);
}

#[test]
fn a_fallback_outside_its_guard() {
    let outside = |value: u32, tested: bool| Warning::FallbackOutside { field: 0, value, bounds: 1..=9, tested };
    assert_eq!(warnings([number('n').fallback(0).guard(1..=9)]), [outside(0, true)]);
    assert_eq!(warnings([number('n').guard(1..=9).fallback(0)]), [outside(0, false)]);
    let words = |node: Node| words([node]).concat();
    let tested = "the fallback 0 is not in the bounds 1..9: where nothing is given, it is refused";
    assert_eq!(words(number('n').fallback(0).guard(1..=9)), tested);
    let untested = "the fallback 0 is not in the bounds 1..9: it is not tested by them";
    assert_eq!(words(number('n').guard(1..=9).fallback(0)), untested);
    assert_eq!(warnings([number('n').fallback(10).last().guard(1..=9).optional()])[1..], [outside(10, true)]);
    // of several the lowest is the value
    assert_eq!(warnings([number('n').fallback(5).fallback(0).guard(1..=9)]), []);
    assert_eq!(warnings([number('n').guard(1..=9).fallback(5).fallback(0)]), []);
    // of a choice it may be that of the other side
    assert_eq!(warnings([number('n').fallback(10).or(number('m')).guard(1..=9)]), []);
    assert_eq!(warnings([number('n').fallback(10).guard(0..=99).guard(1..=9)]), [outside(10, true)]);
    assert_eq!(warnings([number('n').guard(1..=9).last().fallback(10).guard(0..=10)]), [outside(10, false)]);
    for (lo, hi) in [(1, 9), (5, 5)] {
        assert_eq!(warnings([number('n').fallback(5).guard(lo..=hi)]), []);
        assert_eq!(warnings([number('n').guard(lo..=hi).fallback(5)]), []);
    }
    // a count is another number
    assert!(!warnings([number('n').fallback(0).count().guard(1..=9)]).contains(&outside(0, true)));
}

#[test]
fn a_letter_in_two_fields() {
    let twice = |field: usize, earlier: usize, letter: char, ambiguous: bool| Warning::LetterTwice {
        field,
        earlier,
        letter,
        ambiguous,
    };
    let flag = |names| Node::flag(names).optional();
    let fields = [switch('a'), flag(short('b').short('a').long("x")), flag(short('c').short('b').long("x").short('a'))];
    assert_eq!(warnings(fields), [twice(1, 0, 'a', false), twice(2, 1, 'b', false), twice(2, 0, 'a', false)]);
    assert_eq!(warnings([switch('b'), number('b').optional()]), [twice(1, 0, 'b', true)]);
    assert_eq!(words([switch('b'), switch('b')]), ["`-b` is an option of an earlier field too, which takes it first"]);
    assert_eq!(
        words([switch('b'), number('b').optional()]),
        ["`-b` is an option of an earlier field too, which takes it first, and with other letters it is refused"]
    );
    assert_eq!(warnings([switch('b').or(switch('b')), Node::switch(long("b"))]), []);
}

#[test]
fn long_names() {
    let odd = |name: &str| Warning::LongName { field: 1, name: name.to_string() };
    let fields = [switch('v'), Node::switch(long("a=b").long("--limit").long("a-b").long("").long("-x"))];
    assert_eq!(warnings(fields.clone()), [odd("a=b"), odd("--limit"), odd("-x")]);
    assert_eq!(
        words(fields),
        [
            "`--a=b` can never be given: what comes after a `=` is a value",
            "the long name `--limit` begins with a dash: it is given as `----limit`",
            "the long name `-x` begins with a dash: it is given as `---x`",
        ]
    );
    let form = Form::of([Node::argument(long("--limit"), Takes::Text)]).unwrap();
    assert!(form.read_values(&["----limit=7"]).is_ok());
}

/// In the order of the fields; with types, and of the commands of a table.
#[test]
fn where_they_are_listed() {
    let form = TypedForm::of((short('v').switch().count(), positional::<Text>(), short('v').argument::<u32>())).unwrap();
    let warnings = form.warnings();
    assert_eq!(warnings.iter().map(Warning::field).collect::<Vec<_>>(), [0, 2, 2]);
    assert_eq!(warnings, form.form().warnings());
    assert_eq!(warnings, form.as_bpaf().warnings());
    let forms = [Form::of([switch('v')]).unwrap(), Form::of([text().many(), text()]).unwrap()];
    let table = CommandTable::of([long("wear"), long("log")].into_iter().zip(forms)).unwrap();
    assert_eq!(table.warnings(), [(1, Warning::NoneLeft { field: 1, repeat: 0 })]);
}
