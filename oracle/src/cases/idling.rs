//! Forms with repeats over what may give a value and use nothing: switches, optionals and fallbacks, beneath guards that let the value
//! through or not, and on either side of choices.

use super::forms::renumber;
use super::Rng;
use crate::format::*;
use crate::notation;

/// An accepted form; only the empty line is of interest.
pub fn idling(rng: &mut Rng) -> Form {
    let fields: Vec<String> = (0..rng.between(1, 3)).map(|_| field(rng)).collect();
    let mut form = notation::parse(&fields.join("; ")).expect("the notation");
    if form.nodes.len() > NODES {
        return idling(rng);
    }
    if rng.chance(2, 3) {
        renumber(rng, &mut form);
    }
    form
}

/// A repeat, mostly a field by itself.
fn field(rng: &mut Rng) -> String {
    let base = *rng.pick(&[Base::YesNo, Base::Text, Base::Number, Base::Number]);
    let between = *rng.pick(&["", "", "", "", "optional", "optional!"]);
    let list = *rng.pick(&["many", "many!", "some", "some!"]);
    match rng.below(16) {
        0 => format!("choice({}, {})", repeated(rng, list, between, base), repeated(rng, "many", between, base)),
        1 => format!("guard(fallback({}, 3), 1..5)", repeated(rng, "count", between, base)),
        2 if between.is_empty() => format!("optional({})", repeated(rng, list, between, base)),
        3..=5 => repeated(rng, "count", between, base),
        6..=8 => repeated(rng, "last", between, base),
        _ => repeated(rng, list, between, base),
    }
}

/// A repeat over a tree, perhaps with an optional between them.
fn repeated(rng: &mut Rng, repeat: &str, between: &str, base: Base) -> String {
    let most = rng.between(0, 4);
    let tree = tree(rng, base, most);
    match between {
        "" => format!("{repeat}({tree})"),
        _ => format!("{repeat}({between}({tree}))"),
    }
}

/// A tree of choices, guards and fallbacks, at most so deep.
fn tree(rng: &mut Rng, base: Base, most: usize) -> String {
    if most == 0 {
        return leaf(rng, base);
    }
    let child = tree(rng, base, most - 1);
    match rng.below(8) {
        0 => format!("fallback({child}, {})", value(rng, base)),
        1 | 2 if base == Base::Number => format!("guard({child}, {})", bounds(rng)),
        3 | 4 if base == Base::Number => format!("guard(fallback({child}, {}), {})", value(rng, base), bounds(rng)),
        5 => child,
        _ => {
            let less = rng.below(most);
            let other = tree(rng, base, less);
            if rng.chance(1, 2) { format!("choice({child}, {other})") } else { format!("choice({other}, {child})") }
        }
    }
}

fn leaf(rng: &mut Rng, base: Base) -> String {
    match (base, rng.below(4)) {
        (Base::YesNo, 0) => "switch(-v)".to_string(),
        (Base::YesNo, _) => "flag(-q --quiet)".to_string(),
        (Base::Text, 0..=2) => "text(-w)".to_string(),
        (Base::Text, _) => "operand".to_string(),
        (Base::Number, 0..=2) => "number(-l)".to_string(),
        (Base::Number, _) => "strict#".to_string(),
    }
}

fn bounds(rng: &mut Rng) -> &'static str {
    *rng.pick(&["1..5", "1..5", "7..9", "0..9"])
}

/// The value of a fallback.
fn value(rng: &mut Rng, base: Base) -> &'static str {
    match base {
        Base::YesNo => *rng.pick(&["yes", "no"]),
        Base::Text => "\"d\"",
        Base::Number => *rng.pick(&["3", "9"]),
    }
}
