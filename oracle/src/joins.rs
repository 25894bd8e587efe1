//! Two forms made one, and what refuses that: a second reading, beside the definitions in crates/rules_join/specs.
//!
//! Of each node it is said which of its numbers are references, and to what; these move up, and nothing else does.

use crate::format::*;

/// Why there is no joined form: 1 to 4 of the first form or of the second (`form` is 1 or 2), or 18, of neither (0).
#[derive(Clone, Copy, Debug, PartialEq, Eq)]
pub struct NotJoined {
    pub refusal: Refusal,
    pub form: u32,
}

/// The joined form of two forms in bytes, for an output of so many bytes.
pub fn join(first: &[u8], second: &[u8], room: usize) -> Result<Form, NotJoined> {
    let checked = |bytes: &[u8], form: u32| Form::check(bytes).map_err(|refusal| NotJoined { refusal, form });
    let joined = joined(&checked(first, 1)?, &checked(second, 2)?);
    match room < FORM_LENGTH || passed(&joined).contains(&true) {
        true => Err(NotJoined { refusal: Refusal::new(18), form: 0 }),
        false => Ok(joined),
    }
}

/// Which limits a form passes: on nodes, on fields, on names, on the area.
pub fn passed(form: &Form) -> [bool; 4] {
    let counts = [form.nodes.len(), form.fields.len(), form.names.len(), form.area.len()];
    let limits = [NODES, FIELDS, NAMES, FORM_AREA];
    std::array::from_fn(|k| counts[k] > limits[k])
}

/// All of an accepted form, and behind it all of another with its references moved up. Whether that keeps the limits is not asked.
pub fn joined(first: &Form, second: &Form) -> Form {
    let before = [first.nodes.len(), first.names.len(), first.area.len()].map(|count| count as u16);
    let [nodes, names, area] = before;
    let kinds = second.kinds().expect("an accepted form");
    let mut joined = first.clone();
    joined.fields.extend(second.fields.iter().map(|node| node + nodes));
    for (node, kind) in second.nodes.iter().zip(kinds) {
        let mut node = *node;
        for (number, to) in references(&mut node, kind) {
            *number += match to {
                To::Node => nodes,
                To::Name => names,
            };
        }
        joined.nodes.push(node);
    }
    joined.names.extend(second.names.iter().map(|name| Name { offset: name.offset + area, ..*name }));
    joined.area.extend(&second.area);
    joined
}

/// What a number of a node refers to.
enum To {
    Node,
    Name,
}

/// The numbers of a node that are references. Only the kind of its value tells the two sorts of fallback apart.
fn references(node: &mut Node, value: Kind) -> Vec<(&mut u16, To)> {
    let Node { kind, p, q, r, .. } = node;
    match *kind {
        FLAG | ARGUMENT => vec![(p, To::Name)],
        POSITIONAL => vec![],
        CHOICE => vec![(p, To::Node), (q, To::Node)],
        FALLBACK if value == Kind::Base(Base::Text) => vec![(p, To::Node), (r, To::Name)],
        _ => vec![(p, To::Node)],
    }
}

/// A value that the second form told, as the joined form tells it: behind so many names of the first.
pub fn moved(value: &Value, names: usize) -> Value {
    match value {
        Value::Text(Text::Name(record)) => Value::Text(Text::Name(names + record)),
        Value::Present(v) => Value::Present(Box::new(moved(v, names))),
        Value::List(vs) => Value::List(vs.iter().map(|v| moved(v, names)).collect()),
        other => other.clone(),
    }
}

#[cfg(test)]
mod tests {
    use super::*;
    use crate::cases::{forms_at_fault, well_made, Rng};
    use crate::notation;

    fn parsed(form: &str) -> Form {
        notation::parse(form).expect("a form of the tests")
    }

    fn pairs() -> impl Iterator<Item = (Form, Form)> {
        let mut rng = Rng::new(29);
        let mut form = move || Form::check(&well_made(&mut rng).form).expect("an accepted form");
        (0..3_000).map(move |_| (form(), form()))
    }

    /// As text a form has no numbers: fields, names and texts stand where they are used.
    #[test]
    fn one_text_behind_the_other() {
        for (first, second) in pairs() {
            let both = format!("{}; {}", notation::show(&first), notation::show(&second));
            assert_eq!(notation::show(&joined(&first, &second)), both);
        }
    }

    #[test]
    fn accepted_with_the_kinds_and_letters_of_both() {
        let mut kept = 0;
        for (first, second) in pairs() {
            let joined = joined(&first, &second);
            let kinds = |form: &Form| form.kinds().expect("an accepted form");
            assert_eq!(kinds(&joined), [kinds(&first), kinds(&second)].concat());
            for kind in [FLAG, ARGUMENT] {
                assert_eq!(joined.letters(kind), [first.letters(kind), second.letters(kind)].concat());
            }
            match join(&first.write(), &second.write(), FORM_LENGTH) {
                Ok(form) => {
                    assert_eq!(Form::check(&form.write()), Ok(joined));
                    kept += 1;
                }
                Err(refused) => assert_eq!((refused.refusal, refused.form), (Refusal::new(18), 0)),
            }
        }
        assert!(kept > 2_000);
    }

    /// Every kind of node in the second form, written out.
    #[test]
    fn what_moves_and_what_does_not() {
        let first = parsed("switch(-v --verbose); optional(text(-l))");
        let second = parsed(
            "fallback(operand, \"d\"); fallback(number(-w), 1); fallback(switch(-y), yes); choice(flag(-q), switch(-x)); \
             many!(strict#); last(optional(text=(-t))); some(guard(non-strict#, 1..2)); count(flag(-c))",
        );
        let all = joined(&first, &second);
        let node = |kind, p, q, r, lo, hi| Node { kind, p, q, r, lo, hi };
        assert_eq!(all.nodes[..3], first.nodes);
        assert_eq!(
            all.nodes[3..],
            [
                node(POSITIONAL, 0, 0, 0, 0, 0),
                // the text is the second's name 0
                node(FALLBACK, 3, 0, 3, 0, 0),
                node(ARGUMENT, 4, 1, 2, 0, 0),
                node(FALLBACK, 5, 0, 0, 1, 0),
                node(FLAG, 5, 1, 1, 0, 0),
                node(FALLBACK, 7, 0, 0, 1, 0),
                node(FLAG, 6, 1, 0, 0, 0),
                node(FLAG, 7, 1, 1, 0, 0),
                node(CHOICE, 9, 10, 0, 0, 0),
                node(POSITIONAL, 1, 0, 2, 0, 0),
                node(MANY, 12, 0, 1, 0, 0),
                node(ARGUMENT, 8, 1, 1, 0, 0),
                node(OPTIONAL, 14, 0, 0, 0, 0),
                node(LAST, 15, 0, 0, 0, 0),
                node(POSITIONAL, 2, 0, 2, 0, 0),
                node(GUARD, 17, 0, 0, 1, 2),
                node(SOME, 18, 0, 0, 0, 0),
                node(FLAG, 9, 1, 0, 0, 0),
                node(COUNT, 20, 0, 0, 0, 0),
            ]
        );
        assert_eq!(all.fields, [0, 2, 4, 6, 8, 11, 13, 16, 19, 21]);
        assert_eq!(all.names[..3], first.names);
        let offsets: Vec<u16> = all.names[3..].iter().map(|name| name.offset).collect();
        assert_eq!((first.area.len(), offsets), (9, (9..16).collect()));
        assert_eq!(all.area, b"vverboseldwyqxtc");
    }

    #[test]
    fn values_move_by_their_names_alone() {
        let name = |record| Value::Text(Text::Name(record));
        let item = Value::Text(Text::Item(0));
        assert_eq!(moved(&name(0), 3), name(3));
        for value in [item.clone(), Value::Number(300), Value::YesNo(true), Value::Absent] {
            assert_eq!(moved(&value, 3), value);
        }
        let list = |record| Value::Present(Box::new(Value::List(vec![item.clone(), name(record)])));
        assert_eq!(moved(&list(1), 2), list(3));
    }

    #[test]
    fn refusals_in_their_order() {
        let good = parsed("flag(-v)").write();
        let refused = |first: &[u8], second: &[u8], room: usize| {
            let not = join(first, second, room).expect_err("refused");
            (not.refusal.number, not.form)
        };
        for (number, bad) in forms_at_fault() {
            for (other, also) in forms_at_fault() {
                assert_eq!(refused(&bad, &also, 0), (number, 1));
                assert_eq!(refused(&good, &also, 0), (other, 2));
            }
            assert_eq!(refused(&bad, &good, FORM_LENGTH), (number, 1));
        }
        assert_eq!(refused(&good, &good, FORM_LENGTH - 1), (18, 0));
        assert!(join(&good, &good, FORM_LENGTH).is_ok());
    }
}
