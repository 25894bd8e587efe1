//! Forms that take little and lines that give much, so that places are left over, and for all sorts of reasons: losers of choices,
//! names given twice, values of flags, names and letters of no node, words that no positional takes.

use super::forms::renumber;
use super::sheets::BROKEN;
use super::{Case, Rng};
use crate::format::*;
use crate::notation;

/// Few names, so that lines hit them. A letter in both lists is ambiguous in a cluster.
#[rustfmt::skip]
const FLAGS: [&str; 9] =
    ["-v", "-q", "-x", "-v --verbose", "-q --quiet", "--verbose", "-\\xc3\\xa9", "-= -v", "-\\x2d --"];
const ARGUMENTS: [&str; 7] = ["-w", "-l", "-w", "-l", "-w --width", "-l --verbose", "-x"];
const POSITIONALS: [&str; 9] = [
    "operand",
    "optional(operand)",
    "optional(operand)",
    "optional!(operand#)",
    "optional!(guard(operand#, 3..9))",
    "optional(non-strict)",
    "fallback(non-strict, \"d\")",
    "optional(choice(text(-w), strict))",
    "optional(choice(operand, text(-l)))",
];
/// Names that a form may have and none of its nodes.
const SPARE: [(u16, &str); 5] = [(SHORT, "z"), (SHORT, "x"), (SHORT, "€"), (LONG, "zone"), (TEXT, "z")];
#[rustfmt::skip]
const LINE: [&[u8]; 52] = [
    b"-v", b"-q", b"-x", b"-v", b"-q", b"-vq", "-é".as_bytes(), b"--verbose", b"--quiet", b"-w", b"-l", b"--width",
    b"-w7", b"-l3", b"-w=9", b"--width=2", b"-w-xy", b"-l-zz", b"-vw-zz", b"-w-vz",
    b"-v=7", b"-q=", b"-vq=1", b"-x=x", b"--verbose=x", b"--verbose=", b"--quiet=7", b"-==", b"--=7", b"--=",
    b"-z", b"--zone", b"--zone=3", b"--verb", b"---",
    b"a", b"b", b"7", b"4", b"42", b"", b"-", b"--", b"--",
    b"-vz", b"-zv", b"-=x", "-wé".as_bytes(), "-éz".as_bytes(), "-é=7".as_bytes(), b"-v\xff", b"--\xff",
];
const LETTERS: [&str; 11] = ["v", "q", "x", "w", "l", "z", "z", "é", "=", "-", "€"];

/// An accepted form, and a line of which it takes some.
pub fn left_over(rng: &mut Rng) -> Case {
    let mut fields: Vec<String> = (0..rng.between(1, 4)).map(|_| field(rng)).collect();
    if rng.chance(1, 2) {
        let at = rng.below(fields.len() + 1);
        fields.insert(at, rng.pick(&POSITIONALS).to_string());
    }
    let mut form = notation::parse(&fields.join("; ")).expect("the notation");
    if rng.chance(1, 3) {
        spare_name(rng, &mut form);
    }
    if rng.chance(1, 2) {
        renumber(rng, &mut form);
    }
    let arguments = line(rng, &form);
    Case::new(&form, &Sheet { arguments })
}

/// A field that is seldom refused, whatever the line has.
fn field(rng: &mut Rng) -> String {
    let [flag, other] = [(); 2].map(|()| *rng.pick(&FLAGS));
    let [argument, another] = [(); 2].map(|()| *rng.pick(&ARGUMENTS));
    match rng.below(16) {
        0..=2 => format!("switch({flag})"),
        3 => format!("count(flag({flag}))"),
        4..=6 => format!("optional(choice(flag({flag}), flag({other})))"),
        7..=9 => format!("choice(many(flag({flag})), many(flag({other})))"),
        10 => format!("optional(choice(text({argument}), text({another})))"),
        11 | 12 => format!("optional(text({argument}))"),
        13 => format!("many(text=({argument}))"),
        14 => format!("optional!(number=({argument}))"),
        _ => format!("optional!(guard(number({argument}), 1..5))"),
    }
}

pub fn spare_name(rng: &mut Rng, form: &mut Form) {
    let (ty, name) = *rng.pick(&SPARE);
    form.names.push(Name { ty, offset: form.area.len() as u16, length: name.len() as u16 });
    form.area.extend(name.as_bytes());
}

fn line(rng: &mut Rng, form: &Form) -> Vec<Vec<u8>> {
    let mut arguments: Vec<Vec<u8>> = Vec::new();
    for _ in 0..rng.between(1, 8) {
        let next = match rng.below(12) {
            0 if !arguments.is_empty() => rng.pick(&arguments).clone(),
            1..=4 => name(rng, form),
            5 | 6 => cluster(rng),
            _ => rng.pick(&LINE).to_vec(),
        };
        arguments.push(next);
    }
    arguments
}

/// A name of the form, now and then with a value that it may not want.
fn name(rng: &mut Rng, form: &Form) -> Vec<u8> {
    let k = rng.below(form.names.len());
    let dashes: &[u8] = if form.names[k].ty == SHORT { b"-" } else { b"--" };
    let value: &[u8] = if rng.chance(1, 4) { b"=7" } else { b"" };
    [dashes, form.name(k), value].concat()
}

/// A few letters behind a dash, now and then with bytes among them that are not UTF-8.
fn cluster(rng: &mut Rng) -> Vec<u8> {
    let mut argument = b"-".to_vec();
    (0..rng.between(1, 4)).for_each(|_| argument.extend(rng.pick(&LETTERS).as_bytes()));
    if rng.chance(1, 12) {
        let at = rng.below(argument.len() + 1);
        argument.splice(at..at, rng.pick(&BROKEN).iter().copied());
    }
    argument
}
