//! Two forms for one line: mostly small, so that both together keep the limits; and pairs at the limits.

use super::forms::{accepted, one_of, renumber, LISTING};
use super::sheets::Line;
use super::{contested, node_of, wanting, Rng};
use crate::format::*;
use crate::joins;
use crate::notation;

/// Two accepted forms and a line.
#[derive(Clone, Debug, PartialEq, Eq)]
pub struct Pair {
    pub first: Form,
    pub second: Form,
    pub sheet: Sheet,
}

/// Fields that a line without their options leaves at rest.
const RESTING: [&str; 18] = [
    "switch(-v)",
    "switch(-q --quiet)",
    "switch(-b)",
    "count(flag(-x -v))",
    "many(flag(-q))",
    "optional(flag(-v))",
    "optional(text(-l --label))",
    "optional(number(-n))",
    "optional(text(-b))",
    "many(number(-n --number))",
    "fallback(number(-n), 300)",
    "fallback(switch(-x), no)",
    "choice(flag(-v), switch(-q))",
    "optional!(guard(number(-w), 3..9))",
    "optional(choice(text(-w), text(-l)))",
    "optional!(operand#)",
    "many(operand)",
    "many(operand)",
];
/// Letters that are flags above are arguments here, and the other way round.
const SWAPPED: [&str; 8] = [
    "optional(text(-v))",
    "many(number(-q))",
    "fallback(text=(-x), \"x\")",
    "optional(text(-v -q))",
    "switch(-l)",
    "count(flag(-n))",
    "switch(-w)",
    "many(flag(-b -l))",
];
/// Texts of fallbacks; in the first half the text is the form's first name where the field is its first.
const TEXTS: [&str; 8] = [
    "fallback(operand, \"d\")",
    "fallback(strict, \"\")",
    "fallback(fallback(non-strict, \"a\"), \"b\")",
    "fallback(choice(operand, strict), \"c\")",
    "fallback(text(-l), \"label\")",
    "fallback(choice(text(-w), text(-t)), \"\\xff\")",
    "last(fallback(text(-t), \"t\"))",
    "many(fallback(text(-l --label), \"7\"))",
];
/// Fields that refuse many a line.
const ASKING: [&str; 10] = [
    "text(-l)",
    "number(-n)",
    "operand",
    "strict",
    "flag(-v)",
    "choice(text(-w), choice(text(-t), operand))",
    "guard(fallback(number(-w), 9), 1..5)",
    "guard(fallback(operand#, 0), 1..9)",
    "some(number(-n))",
    "choice(number(-n), operand#)",
];
#[rustfmt::skip]
const LINE: [&[u8]; 40] = [
    b"-v", b"-q", b"-x", b"-b", b"-vq", b"-qv", b"-vx", b"-bq", b"-vb", b"-vqx", b"-xl", b"-vl7", b"-qn300", b"-lv", b"-nv", b"-w",
    b"-w7", b"-w=4", b"-l", b"-la", b"-l=-v", b"--label", b"--label=x", b"--quiet", b"--number=4294967295", b"-n", b"-n300", b"-n=256",
    b"300", b"257", b"7", b"4", b"a", b"b", b"-t", b"-ta", b"--", b"-z", b"-vz", b"-",
];

/// Two accepted forms, and a line that looks at the names of both.
pub fn joining(rng: &mut Rng) -> Pair {
    match rng.below(64) {
        0 => return long(rng),
        1 | 2 => return crossing(rng),
        _ => {}
    }
    let (first, second) = match rng.below(16) {
        0..=3 => (accepted(rng), accepted(rng)),
        4 => (written(rng, &[&RESTING]), read(&wanting(rng).form)),
        5 => (read(&contested(rng).form), read(&contested(rng).form)),
        6 | 7 => (written(rng, &[&RESTING]), written(rng, &[&SWAPPED, &RESTING])),
        8..=10 => (written(rng, &[&RESTING, &TEXTS]), written(rng, &[&TEXTS, &RESTING])),
        11 | 12 => (written(rng, &[&RESTING]), written(rng, &[&RESTING, &ASKING])),
        13 => (written(rng, &[&ASKING, &TEXTS]), written(rng, &[&TEXTS, &SWAPPED, &ASKING])),
        14 => (accepted(rng), written(rng, &[&TEXTS])),
        _ => (written(rng, &[&TEXTS, &RESTING]), accepted(rng)),
    };
    let sheet = match rng.below(8) {
        0 | 1 => Sheet { arguments: (0..rng.below(4)).map(|_| rng.pick(&LINE).to_vec()).collect() },
        2 => Sheet { arguments: (0..rng.below(8)).map(|_| rng.pick(&LINE).to_vec()).collect() },
        3 => Line::new(rng, &joins::joined(&first, &second)).sparse(),
        _ => Line::new(rng, &joins::joined(&first, &second)).short(),
    };
    Pair { first, second, sheet }
}

/// Switches, and beside them an argument that has the letter of one; on a cluster that begins with it. Either form alone accepts most of
/// these lines, and both together have an ambiguous letter.
fn crossing(rng: &mut Rng) -> Pair {
    let parsed = |form: &str| notation::parse(form).expect("the notation");
    let mut letters = ['v', 'q', 'x', '1'];
    rng.shuffle(&mut letters);
    let switches: Vec<String> = letters[..rng.between(2, 4)].iter().map(|c| format!("switch(-{c})")).collect();
    let argument = match rng.below(3) {
        0 => format!("optional(text(-{}))", letters[0]),
        1 => format!("many(text(-{} -l)); switch(-n)", letters[0]),
        _ => format!("text(-{})", letters[0]),
    };
    let (mut first, mut second) = (parsed(&switches.join("; ")), parsed(&argument));
    if rng.chance(1, 3) {
        std::mem::swap(&mut first, &mut second);
    }
    let cluster = (0..rng.between(1, 3)).map(|_| letters[rng.below(2)]);
    let argument: String = ['-', letters[0]].into_iter().chain(cluster).collect();
    Pair { first, second, sheet: Sheet { arguments: vec![argument.into_bytes()] } }
}

fn read(bytes: &[u8]) -> Form {
    Form::check(bytes).expect("an accepted form")
}

/// A few fields of these lists, of the first list more.
fn written(rng: &mut Rng, lists: &[&[&str]]) -> Form {
    let field = |rng: &mut Rng| {
        let list = if rng.chance(1, 2) { lists[0] } else { *rng.pick(lists) };
        *rng.pick::<&str>(list)
    };
    let fields: Vec<&str> = (0..rng.between(1, 4)).map(|_| field(rng)).collect();
    let mut form = notation::parse(&fields.join("; ")).expect("the notation");
    if rng.chance(1, 2) {
        renumber(rng, &mut form);
    }
    form
}

/// Forms that take any number of items, and a line of about as many as there may be.
fn long(rng: &mut Rng) -> Pair {
    let (first, second) = (one_of(rng, &LISTING), one_of(rng, &LISTING));
    let sheet = Line::new(rng, &joins::joined(&first, &second)).long();
    Pair { first, second, sheet }
}

/// So many nodes, fields, names and bytes: a number positional a field, the last beneath guards, and texts that are parts of the area.
fn sized([nodes, fields, names, area]: [usize; 4]) -> Form {
    let node = |k: usize| match k < fields {
        true => node_of(POSITIONAL, 0, 0, 2),
        false => Node { hi: 9, ..node_of(GUARD, k as u16 - 1, 0, 0) },
    };
    let name = |k: usize| Name { ty: TEXT, offset: k.min(area) as u16, length: u16::from(k < area) };
    Form {
        fields: (0..fields - 1).chain([nodes - 1]).map(|k| k as u16).collect(),
        nodes: (0..nodes).map(node).collect(),
        names: (0..names).map(name).collect(),
        area: (0..area).map(|k| k as u8).collect(),
    }
}

/// Pairs that together have exactly as many of everything as there may be, or of some one more: each by itself, and all together. The
/// parts are halves, or nearly all is in one. Then pairs that have little but of one thing.
pub fn limit_pairs() -> Vec<(Form, Form)> {
    let limits = [NODES, FIELDS, NAMES, FORM_AREA];
    let parts = [[NODES / 2, FIELDS / 2, NAMES / 2, FORM_AREA / 2], [1, 1, 0, 0], [NODES - 1, FIELDS - 1, NAMES, FORM_AREA]];
    let mut pairs = Vec::new();
    for first in parts {
        for more in 0..16 {
            let second: [usize; 4] = std::array::from_fn(|k| limits[k] - first[k] + (more >> k & 1));
            // one that passes a limit by itself is another refusal
            if second[0] >= second[1] && (0..4).all(|k| second[k] <= limits[k]) {
                pairs.push((sized(first), sized(second)));
            }
        }
    }
    for (k, more) in (0..4).flat_map(|k| [(k, 0), (k, 1)]) {
        let (first, mut second) = ([2, 1, 1, 1], [2, 1, 1, 1]);
        second[k] = limits[k] - first[k] + more;
        second[0] = second[0].max(second[1]);
        pairs.push((sized(first), sized(second)));
    }
    pairs
}

#[cfg(test)]
mod tests {
    use super::*;

    #[test]
    fn pairs_are_of_accepted_forms_that_mostly_keep_the_limits() {
        let mut rng = Rng::new(10);
        let (mut kept, mut ambiguous) = (0, 0);
        for _ in 0..5_000 {
            let Pair { first, second, .. } = joining(&mut rng);
            assert!([&first, &second].iter().all(|form| Form::check(&form.write()).is_ok()));
            kept += u64::from(joins::passed(&joins::joined(&first, &second)) == [false; 4]);
            let both = |one: &Form, other: &Form| one.letters(FLAG).iter().any(|c| other.letters(ARGUMENT).contains(c));
            let alone = both(&first, &first) || both(&second, &second);
            ambiguous += u64::from(!alone && (both(&first, &second) || both(&second, &first)));
        }
        assert!(kept > 4_500 && ambiguous > 400, "{kept} {ambiguous}");
    }

    #[test]
    fn pairs_at_the_limits() {
        let pairs = limit_pairs();
        let passed: Vec<[bool; 4]> = pairs.iter().map(|(first, second)| joins::passed(&joins::joined(first, second))).collect();
        assert!(pairs.iter().all(|(first, second)| Form::check(&first.write()).is_ok() && Form::check(&second.write()).is_ok()));
        for more in 0..16 {
            assert!(passed.contains(&std::array::from_fn(|k| more >> k & 1 == 1)));
        }
        assert_eq!(passed.iter().filter(|passed| **passed == [false; 4]).count(), 3 + 4);
        let (first, second) = &pairs[0];
        assert_eq!(joins::joined(first, second).write().len(), FORM_LENGTH);
    }
}
