//! Values from nothing: a second reading of the rules, beside the definitions in crates/rules_careful/specs.
//!
//! A repeat whose child may give a value and use no item has such a value once, on an empty line too. These repeats are named, by the
//! tree of the form alone.

use crate::format::*;

/// Many, some, count and last.
pub fn is_repeat(node: &Node) -> bool {
    (MANY..=LAST).contains(&node.kind)
}

/// The repeats whose child may be idle, in the order of their numbers.
pub fn repeats(form: &Form) -> Vec<usize> {
    let named = |k: &usize| is_repeat(&form.nodes[*k]) && may_be_idle(form, form.nodes[*k].p);
    (0..form.nodes.len()).filter(named).collect()
}

/// The same as bits.
pub fn bits(nodes: &[usize]) -> u64 {
    nodes.iter().fold(0, |bits, node| bits | 1 << node)
}

/// Whether a node that has no repeat beneath it may give a value and use nothing.
fn may_be_idle(form: &Form, k: u16) -> bool {
    let node = &form.nodes[k as usize];
    match node.kind {
        FLAG => is_switch(node),
        ARGUMENT | POSITIONAL => false,
        OPTIONAL | FALLBACK => true,
        GUARD => may_be_idle(form, node.p),
        CHOICE => may_be_idle(form, node.p) || may_be_idle(form, node.q),
        _ => unreachable!("no repeat stands beneath a repeat"),
    }
}

pub fn is_switch(flag: &Node) -> bool {
    flag.r == 1
}

#[cfg(test)]
mod tests {
    use super::*;
    use crate::notation;

    /// The named repeats as they are written, in the order of their nodes.
    fn named(text: &str) -> Vec<usize> {
        let form = notation::parse(text).expect("a form");
        assert!(Form::check(&form.write()).is_ok(), "{text}");
        repeats(&form)
    }

    #[test]
    fn leaves() {
        for leaf in ["flag(-v)", "text(-w)", "number=(-w)", "operand", "strict#", "non-strict"] {
            for repeat in ["many", "many!", "some", "some!", "count", "last"] {
                assert_eq!(named(&format!("{repeat}({leaf})")), [], "{repeat}({leaf})");
            }
        }
        for repeat in ["many", "many!", "some", "some!", "count", "last"] {
            assert_eq!(named(&format!("{repeat}(switch(-v))")), [1]);
        }
    }

    #[test]
    fn optionals_and_fallbacks_whatever_is_beneath() {
        for child in ["optional(flag(-v))", "optional!(operand#)", "fallback(operand, \"\")", "fallback(flag(-v), no)"] {
            assert_eq!(named(&format!("last({child})")), [2], "{child}");
        }
    }

    #[test]
    fn guards_as_their_child() {
        assert_eq!(named("many(guard(operand#, 1..5))"), []);
        assert_eq!(named("many(guard(fallback(operand#, 9), 1..5))"), [3]);
        assert_eq!(named("many(guard(guard(operand#, 1..5), 1..3))"), []);
        assert_eq!(named("many(guard(choice(operand#, fallback(number(-w), 7)), 1..5))"), [5]);
    }

    #[test]
    fn choices_by_either_side() {
        assert_eq!(named("count(choice(flag(-v), flag(-q)))"), []);
        assert_eq!(named("count(choice(switch(-v), flag(-q)))"), [3]);
        assert_eq!(named("count(choice(flag(-v), switch(-q)))"), [3]);
        assert_eq!(named("count(choice(flag(-v), choice(choice(flag(-x), switch(-q)), flag(-b))))"), [7]);
    }

    #[test]
    fn repeats_that_are_no_field_and_idle_nodes_above_them() {
        assert_eq!(named("optional(many(flag(-v)))"), []);
        assert_eq!(named("optional(many(switch(-v)))"), [1]);
        assert_eq!(named("choice(many(switch(-v)), some(flag(-q)))"), [1]);
        assert_eq!(named("guard(fallback(count(operand), 3), 1..5); switch(-v)"), []);
        assert_eq!(named("switch(-v); optional(operand); fallback(number(-w), 7)"), []);
    }

    #[test]
    fn several_and_their_bits() {
        let all = named("many(switch(-v)); many(operand); count(optional(text(-w))); last(fallback(number(-l), 7))");
        assert_eq!(all, [1, 6, 9]);
        assert_eq!((bits(&all), bits(&[]), bits(&[0, 63])), (0b10_0100_0010, 0, 1 | 1 << 63));
    }
}
