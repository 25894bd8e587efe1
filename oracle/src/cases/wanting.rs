//! Forms that ask for much, and lines that give little, so that leaves are missing.

use super::forms::renumber;
use super::sheets::Line;
use super::{Case, Rng};
use crate::format::*;
use crate::notation;

/// Names of flags and of arguments: few, so that lines hit them, and some in both lists.
const FLAGS: [&str; 8] = ["-v", "-q", "-x", "-b", "-1", "--quiet", "-v --verbose", "-q -x --"];
const ARGUMENTS: [&str; 8] = ["-w", "-l", "-n", "-b", "-2", "--label", "-w --width", "-l -n --verbose"];

/// As many leaves as a tree of choices may have.
const MOST: usize = NODES / 2;

/// An accepted form in which much is required, and a line that mostly lacks some of it.
pub fn wanting(rng: &mut Rng) -> Case {
    let mut form = notation::parse(&Asking { rng, spare: 12 }.form()).expect("the notation");
    // so that the sides of a choice are not in the order of their numbers
    if rng.chance(2, 3) {
        renumber(rng, &mut form);
    }
    let sheet = match rng.below(8) {
        0 => Sheet::default(),
        1..=5 => Line::new(rng, &form).sparse(),
        _ => Line::new(rng, &form).short(),
    };
    Case::new(&form, &sheet)
}

/// Writes a form.
struct Asking<'a> {
    rng: &'a mut Rng,
    /// How many nodes beside leaves and choices the trees may yet have.
    spare: usize,
}

impl Asking<'_> {
    /// Up to three fields, the last of which swallows nothing; now and then a single one of as many leaves as there may be.
    fn form(&mut self) -> String {
        let base = self.base();
        if self.rng.chance(1, 40) {
            self.spare = 1;
            return self.tree(base, MOST, true);
        }
        let mut fields: Vec<String> = (0..self.rng.below(3)).map(|_| self.field()).collect();
        let leaves = self.leaves();
        fields.push(self.tree(base, leaves, true));
        fields.join("; ")
    }

    fn base(&mut self) -> Base {
        *self.rng.pick(&[Base::YesNo, Base::Text, Base::Text, Base::Number])
    }

    fn leaves(&mut self) -> usize {
        *self.rng.pick(&[1, 2, 2, 3, 3, 4, 6, 8])
    }

    /// A tree, or one beneath a node that swallows what is missing in it.
    fn field(&mut self) -> String {
        let (base, leaves) = (self.base(), self.leaves());
        let above = *self.rng.pick(&["", "", "", "", "", "optional", "optional!", "many", "some!", "count"]);
        match above {
            "" => self.tree(base, leaves, true),
            _ => format!("{above}({})", self.tree(base, leaves, false)),
        }
    }

    /// Choices over so many leaves, nested to either side, with other nodes between them.
    fn tree(&mut self, base: Base, leaves: usize, repeats: bool) -> String {
        match self.between(base, repeats) {
            Some("last") => format!("last({})", self.tree(base, leaves, false)),
            Some("guard") => format!("guard({}, 1..{})", self.tree(base, leaves, repeats), self.rng.between(1, 9)),
            Some(_) => format!("fallback({}, {})", self.tree(base, leaves, repeats), value(base)),
            None if leaves == 1 => self.leaf(base),
            None => {
                let first = *self.rng.pick(&[1, leaves - 1, leaves / 2]);
                format!("choice({}, {})", self.tree(base, first, repeats), self.tree(base, leaves - first, repeats))
            }
        }
    }

    /// A node that may stand above a tree and hands on what is missing, or swallows it.
    fn between(&mut self, base: Base, repeats: bool) -> Option<&'static str> {
        if self.spare == 0 || !self.rng.chance(1, 6) {
            return None;
        }
        let node = match *self.rng.pick(&["last", "last", "last", "guard", "guard", "guard", "fallback"]) {
            "last" if !repeats => return None,
            "guard" if base != Base::Number => return None,
            node => node,
        };
        self.spare -= 1;
        Some(node)
    }

    /// A flag, an argument or a positional, mostly one that can be missing.
    fn leaf(&mut self, base: Base) -> String {
        let (argument, number) = if base == Base::Number { ("number", "#") } else { ("text", "") };
        match (base, self.rng.below(36)) {
            (Base::YesNo, 0) => format!("switch({})", self.rng.pick(&FLAGS)),
            (Base::YesNo, _) => format!("flag({})", self.rng.pick(&FLAGS)),
            (_, 0..=3) => format!("{argument}=({})", self.rng.pick(&ARGUMENTS)),
            (_, 4..=21) => format!("{argument}({})", self.rng.pick(&ARGUMENTS)),
            (_, 22..=24) => format!("operand{number}"),
            (_, 25..=28) => format!("strict{number}"),
            _ => format!("non-strict{number}"),
        }
    }
}

/// The value of a fallback.
fn value(base: Base) -> &'static str {
    match base {
        Base::YesNo => "yes",
        Base::Text => "\"d\"",
        Base::Number => "3",
    }
}
