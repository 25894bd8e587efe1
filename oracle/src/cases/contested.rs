//! Forms whose fields want the same items, and lines of such items: a field often tries one and gives it back, and a later field
//! takes it.

use super::forms::renumber;
use super::{Case, Rng};
use crate::format::*;
use crate::notation;

const FLAGS: [&str; 4] = ["-v", "-q", "-x", "-v -q"];
const ARGUMENTS: [&str; 3] = ["-w", "-l", "-w -l"];
#[rustfmt::skip]
const LINE: [&[u8]; 20] = [
    b"a", b"b", b"7", b"9", b"42", b"+", b"-v", b"-q", b"-x", b"-vq", b"-qx", b"-w", b"-w7", b"-w=9", b"-wa", b"-l", b"-lb",
    b"-vw3", b"--", b"-z",
];

/// An accepted form and a line over the names that it may have.
pub fn contested(rng: &mut Rng) -> Case {
    let fields = match rng.below(12) {
        0 => rng.between(7, FIELDS),
        _ => rng.between(2, 6),
    };
    let written: Vec<String> = (0..fields).map(|_| field(rng)).collect();
    let mut form = notation::parse(&written.join("; ")).expect("the notation");
    if rng.chance(1, 2) {
        renumber(rng, &mut form);
    }
    let arguments = (0..rng.below(9)).map(|_| rng.pick(&LINE).to_vec()).collect();
    Case::new(&form, &Sheet { arguments })
}

/// A field that mostly swallows what goes wrong beneath it, after it has used something. It has four nodes at most, so that there
/// is room for sixteen.
fn field(rng: &mut Rng) -> String {
    let base = *rng.pick(&[Base::YesNo, Base::Text, Base::Number, Base::Number]);
    let leaf = leaf(rng, base);
    match rng.below(16) {
        0 => leaf,
        1 => format!("optional({leaf})"),
        2 | 3 => format!("optional!({leaf})"),
        4 => format!("many({leaf})"),
        5 | 6 => format!("many!({leaf})"),
        7 => format!("fallback({leaf}, {})", value(base)),
        8 => format!("last(optional!({leaf}))"),
        9 | 10 => format!("optional!(choice({leaf}, {}))", self::leaf(rng, base)),
        11 => format!("optional(some!({leaf}))"),
        12 | 13 => format!("many!(choice({leaf}, {}))", self::leaf(rng, base)),
        14 => format!("fallback(choice({leaf}, {}), {})", self::leaf(rng, base), value(base)),
        _ => format!("optional!(guard({}, 3..9))", self::leaf(rng, Base::Number)),
    }
}

fn leaf(rng: &mut Rng, base: Base) -> String {
    let (argument, number) = if base == Base::Number { ("number", "#") } else { ("text", "") };
    match (base, rng.below(12)) {
        (Base::YesNo, 0) => format!("switch({})", rng.pick(&FLAGS)),
        (Base::YesNo, _) => format!("flag({})", rng.pick(&FLAGS)),
        (_, 0..=4) => format!("{argument}({})", rng.pick(&ARGUMENTS)),
        (_, 5..=8) => format!("operand{number}"),
        (_, 9) => format!("strict{number}"),
        _ => format!("non-strict{number}"),
    }
}

/// The value of a fallback.
fn value(base: Base) -> &'static str {
    match base {
        Base::YesNo => "yes",
        Base::Text => "\"d\"",
        Base::Number => "3",
    }
}
