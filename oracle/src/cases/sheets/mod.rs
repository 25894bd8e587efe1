//! Well-made sheets: a line for a form, made by looking at its names.

mod long;
mod sparse;

use super::forms::{LONG_NAMES, OTHER_LETTERS};
use super::Rng;
use crate::format::*;

#[rustfmt::skip]
const WORDS: [&[u8]; 12] =
    [b"a", b"b", b"file", b"v", b"w", b"=", b"a=b", b"+", b"7", "é".as_bytes(), b"a-b", b"verbose"];
#[rustfmt::skip]
const SPECIAL: [&[u8]; 20] = [
    b"--", b"--", b"--", b"-", b"-", b"", b"", b"---", b"----", b"--=7", b"--=", b"-=", b"-=7", b"-==", b"-==7",
    b"---=7", b"--v=", b"-v=", b"-\xc3\xa9=7", b"\0",
];
#[rustfmt::skip]
const NUMBERS: [&[u8]; 30] = [
    b"0", b"1", b"4", b"5", b"6", b"7", b"7", b"9", b"42", b"4294967294", b"4294967295", b"4294967296", b"4294967303",
    b"18446744073709551623", b"99999999999999999999999999", b"000000000000004294967295", b"00012", b"+7", b"++7", b"+",
    b"+00", b"", b"-7", b"-0", b"1e3", b" 7", b"7 ", b"0x10", b"7\xff", "٣".as_bytes(),
];
/// Bytes that are no UTF-8 by themselves: never used ones, parts of characters, surrogates, overlong forms.
#[rustfmt::skip]
pub const BROKEN: [&[u8]; 9] = [
    b"\xff", b"\xc3", b"\xa9", b"\xe2\x82", b"\xed\xa0\x80", b"\xc0\x80", b"\xe0\x80\x80", b"\xf4\x90\x80\x80",
    b"\xf0\x9f\x98",
];

/// A line for a form, made by looking at its names.
pub struct Line<'a> {
    rng: &'a mut Rng,
    form: &'a Form,
    flags: Vec<char>,
    arguments: Vec<char>,
    /// Records of long names.
    longs: Vec<usize>,
    out: Vec<Vec<u8>>,
    /// Arguments that belong behind `--`.
    strict: Vec<Vec<u8>>,
}

impl<'a> Line<'a> {
    pub fn new(rng: &'a mut Rng, form: &'a Form) -> Line<'a> {
        Line::among(rng, form, form.letters(FLAG), form.letters(ARGUMENT))
    }

    /// A line whose clusters are made of these letters, whichever the form has.
    pub fn among(rng: &'a mut Rng, form: &'a Form, flags: Vec<char>, arguments: Vec<char>) -> Line<'a> {
        Line {
            rng,
            form,
            flags,
            arguments,
            longs: (0..form.names.len()).filter(|k| form.names[*k].ty == LONG).collect(),
            out: Vec::new(),
            strict: Vec::new(),
        }
    }

    /// A few arguments: what the form asks for, what goes wrong, or both.
    pub fn short(mut self) -> Sheet {
        let noise = match self.rng.below(8) {
            0..=2 => 0,
            3 => self.rng.below(2),
            4..=5 => self.rng.between(1, 4),
            6 => self.rng.between(2, 8),
            _ => self.rng.between(0, 12),
        };
        match self.rng.below(8) {
            0 | 1 => self.leaves(),
            2..=4 => self.fitting(),
            _ if noise == 0 => self.fitting(),
            _ => {}
        }
        for _ in 0..noise {
            self.noise();
        }
        self.disturb();
        self.sheet()
    }

    fn sheet(mut self) -> Sheet {
        self.out.truncate(ARGUMENTS);
        let mut area: usize = self.out.iter().map(Vec::len).sum();
        while area > SHEET_AREA {
            area -= self.out.pop().map_or(0, |a| a.len());
        }
        Sheet { arguments: self.out }
    }

    /// The order changed, an argument dropped or given twice.
    fn disturb(&mut self) {
        if self.rng.chance(1, 4) {
            self.rng.shuffle(&mut self.out);
        }
        if !self.out.is_empty() && self.rng.chance(1, 8) {
            let k = self.rng.below(self.out.len());
            self.out.remove(k);
        }
        if !self.out.is_empty() && self.rng.chance(1, 10) {
            let again = self.rng.pick(&self.out).clone();
            let at = self.rng.below(self.out.len() + 1);
            self.out.insert(at, again);
        }
    }

    // ---- arguments that fit the form

    /// What all fields ask for, in their order or another one.
    fn fitting(&mut self) {
        let mut fields = self.form.fields.clone();
        if self.rng.chance(1, 3) {
            self.rng.shuffle(&mut fields);
        }
        fields.iter().for_each(|k| self.fit(*k, 0, u32::MAX));
        if !self.strict.is_empty() {
            if self.rng.chance(15, 16) {
                self.out.push(b"--".to_vec());
            }
            self.out.append(&mut self.strict);
        }
    }

    /// What a few flags, arguments and positionals ask for, in any order.
    fn leaves(&mut self) {
        for _ in 0..self.rng.between(1, 6) {
            let leaf = self.leaf();
            self.fit(leaf, 0, u32::MAX);
        }
    }

    /// A flag, argument or positional of the form.
    fn leaf(&mut self) -> u16 {
        let n = self.form.nodes.len();
        let start = self.rng.below(n);
        let leaf = (start..n)
            .chain(0..start)
            .find(|k| self.form.nodes[*k].kind <= POSITIONAL);
        leaf.unwrap_or(0) as u16
    }

    /// What a node asks for; a number is mostly from `lo` to `hi`.
    fn fit(&mut self, k: u16, lo: u32, hi: u32) {
        let node = self.form.nodes[k as usize];
        match node.kind {
            FLAG => self.fit_flag(&node),
            ARGUMENT => self.fit_argument(&node, lo, hi),
            POSITIONAL => self.fit_positional(&node, lo, hi),
            OPTIONAL if self.rng.chance(1, 3) => {}
            FALLBACK if self.rng.chance(1, 2) => {}
            MANY..=LAST => (0..self.rng.below(4)).for_each(|_| self.fit(node.p, lo, hi)),
            CHOICE => {
                // both sides in one case of five
                let which = self.rng.below(5);
                if which <= 2 {
                    self.fit(node.p, lo, hi);
                }
                if which >= 2 {
                    self.fit(node.q, lo, hi);
                }
            }
            GUARD => self.fit(node.p, node.lo, node.hi),
            _ => self.fit(node.p, lo, hi),
        }
    }

    fn record(&mut self, node: &Node) -> usize {
        node.p as usize + self.rng.below(node.q as usize)
    }

    fn fit_flag(&mut self, node: &Node) {
        if node.r == 1 && self.rng.chance(1, 3) {
            return;
        }
        let record = self.record(node);
        let name = self.dashed(record);
        self.out.push(name);
    }

    fn fit_argument(&mut self, node: &Node, lo: u32, hi: u32) {
        let record = self.record(node);
        let value = self.value(node.r >= 2, lo, hi);
        let attached = if node.r % 2 == 1 {
            self.rng.chance(9, 10)
        } else {
            self.rng.chance(1, 2)
        };
        self.give(record, value, attached);
    }

    fn fit_positional(&mut self, node: &Node, lo: u32, hi: u32) {
        let value = self.value(node.r >= 2, lo, hi);
        let strict = match node.p {
            1 => self.rng.chance(15, 16),
            _ => self.rng.chance(1, 8),
        };
        match strict {
            true => self.strict.push(value),
            false => self.out.push(value),
        }
    }

    /// A name record as it is written in an argument.
    fn dashed(&self, record: usize) -> Vec<u8> {
        let dashes: &[u8] = if self.form.names[record].ty == SHORT {
            b"-"
        } else {
            b"--"
        };
        [dashes, self.form.name(record)].concat()
    }

    /// An argument's name and value, in one argument or in two.
    fn give(&mut self, record: usize, value: Vec<u8>, attached: bool) {
        let mut name = self.dashed(record);
        if !attached {
            self.out.push(name);
            self.out.push(value);
            return;
        }
        if self.form.names[record].ty == LONG || self.rng.chance(1, 2) {
            name.push(b'=');
        }
        name.extend(value);
        self.out.push(name);
    }

    fn value(&mut self, number: bool, lo: u32, hi: u32) -> Vec<u8> {
        if !number && self.rng.chance(7, 8) {
            return self.word();
        }
        match self.rng.below(16) {
            0 | 1 => self.rng.pick(&NUMBERS).to_vec(),
            2 => lo.wrapping_sub(1).to_string().into_bytes(),
            3 => (u64::from(hi) + 1).to_string().into_bytes(),
            4 => hi.to_string().into_bytes(),
            5 => lo.to_string().into_bytes(),
            _ => {
                let above = self.rng.below((hi - lo).min(9) as usize + 1);
                (lo + above as u32).to_string().into_bytes()
            }
        }
    }

    fn word(&mut self) -> Vec<u8> {
        match self.rng.below(24) {
            0 => self.rng.pick(&SPECIAL).to_vec(),
            1 => self.rng.pick(&BROKEN).to_vec(),
            2..=4 => self.rng.pick(&NUMBERS).to_vec(),
            _ => self.rng.pick(&WORDS).to_vec(),
        }
    }

    // ---- arguments that go wrong

    fn noise(&mut self) {
        match self.rng.below(24) {
            0..=5 => self.cluster(),
            6..=8 => self.letter(),
            9..=13 => self.long_name(),
            14..=16 => self.out.push(self.rng.pick(&SPECIAL).to_vec()),
            17..=18 => {
                let word = self.word();
                self.out.push(word);
            }
            19 => self.out.push(self.rng.pick(&NUMBERS).to_vec()),
            20 if !self.out.is_empty() => {
                let again = self.rng.pick(&self.out).clone();
                self.out.push(again);
            }
            21 => self.fitting(),
            _ => self.spoil(),
        }
    }

    /// A letter of a flag; of anything if the form has no flags.
    fn flag_letter(&mut self) -> char {
        match self.flags.is_empty() {
            true => self.any_letter(),
            false => *self.rng.pick(&self.flags),
        }
    }

    fn argument_letter(&mut self) -> char {
        match self.arguments.is_empty() {
            true => self.any_letter(),
            false => *self.rng.pick(&self.arguments),
        }
    }

    fn any_letter(&mut self) -> char {
        self.rng.pick(&OTHER_LETTERS).chars().next().unwrap_or('v')
    }

    /// A letter that is a flag's and an argument's, if the form has one.
    fn both_letter(&mut self) -> char {
        let both: Vec<char> = self
            .flags
            .iter()
            .copied()
            .filter(|c| self.arguments.contains(c))
            .collect();
        match both.is_empty() {
            true => self.argument_letter(),
            false => *self.rng.pick(&both),
        }
    }

    /// A letter on its own or with a value, in one argument or in two.
    fn letter(&mut self) {
        let letter = match self.rng.below(4) {
            0 => self.flag_letter(),
            1 => self.any_letter(),
            _ => self.argument_letter(),
        };
        let value = self.value(true, 0, 9);
        let form = self.rng.below(5);
        let middle = if form == 1 { "=" } else { "" };
        let mut argument = format!("-{letter}{middle}").into_bytes();
        if form <= 2 {
            argument.extend(&value);
        }
        self.out.push(argument);
        if form == 3 {
            self.out.push(value);
        }
    }

    /// Letters of flags, with another letter among or behind them, and perhaps a rest.
    fn cluster(&mut self) {
        let count = self.rng.between(1, 4);
        let mut letters: Vec<char> = (0..count).map(|_| self.flag_letter()).collect();
        let mut rest = Vec::new();
        match self.rng.below(9) {
            0 | 1 => letters.push(self.flag_letter()),
            2 => letters.insert(self.rng.below(count + 1), self.any_letter_of("zvé€")),
            3 => letters.insert(self.rng.below(count + 1), self.any_letter()),
            4 => letters.insert(self.rng.below(count + 1), self.both_letter()),
            5 => letters.push(self.argument_letter()),
            6 => {
                letters.push(self.argument_letter());
                rest = self.value(true, 0, 9);
            }
            7 => {
                letters.push(self.argument_letter());
                rest = [b"=", &self.value(true, 0, 9)[..]].concat();
            }
            _ => rest = self.word(),
        }
        let letters: String = letters.into_iter().collect();
        self.out.push([b"-", letters.as_bytes(), &rest].concat());
    }

    fn any_letter_of(&mut self, letters: &str) -> char {
        let letters: Vec<char> = letters.chars().collect();
        *self.rng.pick(&letters)
    }

    /// A long name of the form or another one, alone or with a value.
    fn long_name(&mut self) {
        let mut name = match self.longs.is_empty() || self.rng.chance(1, 6) {
            true => [b"--", self.rng.pick(&LONG_NAMES).as_bytes()].concat(),
            false => {
                let record = *self.rng.pick(&self.longs);
                self.dashed(record)
            }
        };
        match self.rng.below(12) {
            0 => drop(name.pop()),
            1 => name.push(b'x'),
            2 => name.extend("é".as_bytes()),
            _ => {}
        }
        match self.rng.below(4) {
            0 => self.out.push(name),
            1 => {
                name.push(b'=');
                self.out.push(name);
            }
            2 => {
                let value = self.value(true, 0, 9);
                self.out.push([&name[..], b"=", &value].concat());
            }
            _ => {
                let value = self.value(false, 0, 9);
                self.out.push(name);
                self.out.push(value);
            }
        }
    }

    /// An argument with bytes in it that are not UTF-8.
    fn spoil(&mut self) {
        self.noise();
        let broken = *self.rng.pick(&BROKEN);
        if let Some(argument) = self.out.last_mut() {
            let at = self.rng.below(argument.len() + 1);
            argument.splice(at..at, broken.iter().copied());
        }
    }
}
