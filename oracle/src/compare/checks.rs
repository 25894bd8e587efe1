//! The form check, the sheet check, kinds and the portable mark against the reading of them in `line::format`.

use line::{cases, cases::Case, cases::Rng, format::*};
use proved::{form_check, kind, portable, sheet_check, Refused, Told};

use super::Compared;
use crate::lists::hex;

/// The refusal of a check as the library hands it out.
fn refused<T>(checked: &Result<T, Refusal>) -> Refused {
    checked.as_ref().err().copied().unwrap_or(Refusal::new(0)).into()
}

/// 1 yes/no, 2 text, 3 number; 3 more for an optional, 6 for a list, 9 for a list of optionals, 12 for an optional list.
fn kind_code(kind: Kind) -> u32 {
    let base = |b| match b {
        Base::YesNo => 1,
        Base::Text => 2,
        Base::Number => 3,
    };
    match kind {
        Kind::Base(b) => base(b),
        Kind::Optional(b) => 3 + base(b),
        Kind::List(b) => 6 + base(b),
        Kind::ListOfOptional(b) => 9 + base(b),
        Kind::OptionalList(b) => 12 + base(b),
    }
}

/// Whether every short name is one of 0..9, A..Z, a..z, and none is W.
fn is_portable(form: &Form) -> bool {
    let passes = |n: usize| matches!(form.name(n), [c] if c.is_ascii_alphanumeric() && *c != b'W');
    (0..form.names.len()).all(|n| form.names[n].ty != SHORT || passes(n))
}

impl Compared {
    fn form(&mut self, bytes: &[u8]) {
        self.cases += 1;
        let input = || hex(bytes);
        let checked = Form::check(bytes);
        let theirs = refused(&checked);
        self.same("form check", &input, form_check(bytes), theirs);
        let told = |answer| Told { number: theirs.number, place: theirs.place, answer };
        match &checked {
            Err(_) => {
                self.same("kind", &input, kind(bytes, 0), told(0));
                self.same("portable", &input, portable(bytes), told(0));
            }
            Ok(form) => {
                let kinds = form.kinds().expect("an accepted form");
                for (node, theirs) in kinds.iter().enumerate() {
                    self.same("kind", &input, kind(bytes, node), told(kind_code(*theirs)));
                }
                let past = Told { number: 28, place: 0, answer: 0 };
                self.same("kind", &input, kind(bytes, kinds.len()), past);
                self.same("portable", &input, portable(bytes), told(u32::from(is_portable(form))));
            }
        }
    }

    fn sheet(&mut self, bytes: &[u8]) {
        self.cases += 1;
        let theirs = refused(&Sheet::check(bytes));
        self.same("sheet check", &|| hex(bytes), sheet_check(bytes), theirs);
    }

    fn both(&mut self, case: &Case) {
        self.form(&case.form);
        self.sheet(&case.sheet);
    }
}

/// The form of one switch that has the first of these names: type and text of each name record.
fn switch_with(names: &[(u16, &str)]) -> Vec<u8> {
    let area: Vec<u8> = names.iter().flat_map(|(_, text)| text.bytes()).collect();
    let mut numbers = vec![1, 1, names.len() as u16, area.len() as u16, 0];
    // a flag with one name that may be absent, and no bounds
    numbers.extend([1, 0, 1, 1, 0, 0, 0, 0]);
    let mut offset = 0;
    for (ty, text) in names {
        numbers.extend([*ty, offset, text.len() as u16]);
        offset += text.len() as u16;
    }
    let mut bytes: Vec<u8> = numbers.iter().flat_map(|n| n.to_le_bytes()).collect();
    bytes.extend(area);
    bytes
}

/// Every scalar value as the one short name of a form, of which 61 are portable; and every character of ASCII as a name of each
/// type that no node uses, behind a short name that is portable and one that is not.
pub fn compare_portable() -> Compared {
    let mut compared = Compared::default();
    let mut yes = 0;
    for c in '\0'..=char::MAX {
        let bytes = switch_with(&[(SHORT, c.encode_utf8(&mut [0; 4]))]);
        compared.form(&bytes);
        yes += portable(&bytes).answer;
    }
    compared.same("portable", &|| "all scalar values".to_string(), yes, 61);
    for c in '\0'..='\x7f' {
        for ty in [SHORT, LONG, TEXT] {
            for used in ["v", "+"] {
                compared.form(&switch_with(&[(SHORT, used), (ty, c.encode_utf8(&mut [0; 4]))]));
            }
        }
    }
    compared
}

/// Every single change of a good form or sheet at each limit, and `count` random cases, two in three damaged.
pub fn compare(seed: u64, count: u64) -> Compared {
    let mut compared = Compared::default();
    cases::limits().iter().for_each(|case| compared.both(case));
    let mut rng = Rng::new(seed);
    for k in 0..count / 2 {
        let case = if k % 3 == 0 { cases::well_made(&mut rng) } else { cases::damaged(&mut rng) };
        compared.both(&case);
    }
    compared
}
