//! Accepted forms, grown node by node.

use super::{node_of, Rng};
use crate::format::*;
use crate::notation;

/// Letters of flags and of arguments: few, so that lines hit them, and some in both lists.
const FLAG_LETTERS: [&str; 8] = ["v", "v", "q", "q", "b", "x", "1", "é"];
const ARGUMENT_LETTERS: [&str; 8] = ["w", "w", "l", "l", "b", "x", "1", "é"];
pub const OTHER_LETTERS: [&str; 16] = [
    "v", "q", "w", "b", "x", "l", "1", "é", "=", "-", "€", "😀", "7", "A", " ", "\0",
];
#[rustfmt::skip]
pub const LONG_NAMES: [&str; 20] = [
    "verbose", "verbose", "quiet", "width", "width", "label", "v", "w", "x", "1", "é", "", "", "-", "--", "a-b", "€",
    "😀", "a=b", "verb",
];
#[rustfmt::skip]
const TEXTS: [&[u8]; 10] = [b"", b"text", b"7", b"-v", b"--", b"\xff", b"\xc3", b"\xed\xa0\x80", "é".as_bytes(), b"a b"];

/// Forms whose fields take any number of items, for long lines.
pub const LISTING: [&str; 8] = [
    "many(operand)",
    "many(flag(-v)); many(operand)",
    "count(flag(-v)); count(flag(-q -b)); many(number(-b)); many!(operand#); many(operand)",
    "last(operand); switch(-v)",
    "choice(many(flag(-v)), many(flag(-q))); many(number(-w --width)); optional(many(operand))",
    "choice(some(operand), some(text(-l --label))); switch(-v); switch(-l)",
    "many(optional(choice(flag(-v), flag(-q -b)))); optional!(some(text=(-b --))); many(strict)",
    "switch(-v -w); many(non-strict); many(fallback(text(-w), \"w\"))",
];

/// Forms whose choices want the same items, so that conflicts arise and are overwritten.
pub const CROSSED: [&str; 8] = [
    "choice(flag(-v), flag(-q)); choice(flag(-x), flag(-q)); count(flag(-v -q -x))",
    "choice(choice(flag(-v), flag(-q)), choice(flag(-x), flag(-q))); many(flag(-v -q -x))",
    "choice(many(flag(-v)), many(choice(flag(-q), flag(-x)))); choice(optional(flag(-q)), optional(flag(-v)))",
    "optional(choice(text(-w), operand)); choice(operand, text(-w)); many(operand)",
    "choice(count(flag(-v)), number(-w)); choice(number(-w), guard(operand#, 1..5))",
    "some(choice(flag(-v), flag(-q))); last(choice(optional(flag(-q)), optional(flag(-x))))",
    "some!(choice(operand#, number(-w))); choice(fallback(text(-w), \"a\"), operand)",
    "choice(switch(-v), flag(-q)); choice(choice(flag(-q), switch(-x)), flag(-v))",
];

/// The forms of these texts.
pub fn written(texts: &[&str]) -> Vec<Form> {
    texts
        .iter()
        .map(|text| notation::parse(text).expect("the notation"))
        .collect()
}

pub fn one_of(rng: &mut Rng, texts: &[&str]) -> Form {
    let text: &str = rng.pick::<&str>(texts);
    notation::parse(text).expect("the notation")
}

/// An accepted form: mostly small, sometimes with as many nodes, fields or names as there may be.
pub fn accepted(rng: &mut Rng) -> Form {
    let full = rng.chance(1, 50);
    let mut grower = Grower {
        form: Form::default(),
        full,
        slim: full && rng.chance(1, 2),
        rng,
    };
    let fields = match grower.rng.below(20) {
        0..=13 => grower.rng.between(1, 3),
        14..=18 => grower.rng.between(1, 5),
        _ => grower.rng.between(1, FIELDS),
    };
    for later in (0..fields).rev() {
        grower.field(later);
    }
    grower.pad();
    let mut form = grower.form;
    if rng.chance(3, 4) {
        renumber(rng, &mut form);
    }
    form
}

/// Grows a form node by node, children before their node.
struct Grower<'a> {
    rng: &'a mut Rng,
    form: Form,
    /// Whether nodes are added as long as there is room.
    full: bool,
    /// Whether one side of each choice is as small as can be, which makes trees deep.
    slim: bool,
}

/// The fewest nodes of a tree with this kind of value.
fn least(kind: Kind) -> usize {
    match kind {
        Kind::Base(_) => 1,
        Kind::Optional(_) | Kind::List(_) => 2,
        Kind::ListOfOptional(_) | Kind::OptionalList(_) => 3,
    }
}

/// The node kinds that may have this kind of value.
fn ways(kind: Kind) -> &'static [u16] {
    match kind {
        Kind::Base(Base::YesNo) => &[FLAG, LAST, CHOICE, FALLBACK],
        Kind::Base(Base::Text) => &[ARGUMENT, POSITIONAL, LAST, CHOICE, FALLBACK],
        Kind::Base(Base::Number) => &[ARGUMENT, POSITIONAL, COUNT, COUNT, LAST, CHOICE, FALLBACK, GUARD],
        Kind::Optional(_) => &[OPTIONAL, LAST, CHOICE],
        Kind::List(_) | Kind::ListOfOptional(_) => &[MANY, SOME, CHOICE],
        Kind::OptionalList(_) => &[OPTIONAL, CHOICE],
    }
}

/// The fewest nodes of a tree with this kind of value whose upper node is of kind `way`.
fn need(way: u16, kind: Kind) -> usize {
    match way {
        FLAG..=SOME => least(kind),
        COUNT => 2,
        CHOICE => 1 + 2 * least(kind),
        _ => 1 + least(kind),
    }
}

fn is_repeat(kind: u16) -> bool {
    (MANY..=LAST).contains(&kind)
}

impl Grower<'_> {
    /// One more field, with room left for as many later ones.
    fn field(&mut self, later: usize) {
        let left = NODES - self.form.nodes.len() - later;
        let room = match self.rng.below(16) {
            _ if self.full => left.min(1 + 2 * left / (later + 1)),
            0..=4 => 1,
            5..=12 => self.rng.between(2, 4),
            13..=14 => self.rng.between(3, 8),
            _ => self.rng.between(5, 16),
        };
        let kind = self.kind(room.min(left));
        let root = self.grow(kind, room.min(left), true);
        self.form.fields.push(root);
    }

    /// A kind of value that `room` nodes suffice for.
    fn kind(&mut self, room: usize) -> Kind {
        let base = *self.rng.pick(&[Base::YesNo, Base::Text, Base::Number, Base::Number]);
        match self.rng.below(if room < 2 {
            1
        } else if room < 3 {
            4
        } else {
            6
        }) {
            0 | 1 => Kind::Base(base),
            2 => Kind::Optional(base),
            3 => Kind::List(base),
            4 => Kind::ListOfOptional(base),
            _ => Kind::OptionalList(base),
        }
    }

    /// A tree of at most `room` nodes with this kind of value; the number of its upper node.
    fn grow(&mut self, kind: Kind, room: usize, repeats: bool) -> u16 {
        let way = self.way(kind, room, repeats);
        if way <= POSITIONAL {
            return self.leaf(way, kind);
        }
        let repeats = repeats && !is_repeat(way);
        let mut node = node_of(way, 0, 0, 0);
        if way == CHOICE {
            let (first, second) = self.halves(kind, room - 1);
            node.p = self.grow(kind, first, repeats);
            node.q = self.grow(kind, second, repeats);
        } else {
            let child = self.child(way, kind, room - 1);
            node.p = self.grow(child, room - 1, repeats);
        }
        self.numbers(&mut node, kind);
        self.push(node)
    }

    fn way(&mut self, kind: Kind, room: usize, repeats: bool) -> u16 {
        let mut fitting = [0; 8];
        let mut count = 0;
        // half of the trees that may end here do
        let short = !self.full && self.rng.chance(1, 2);
        let shortest = |way: u16| need(way, kind) == least(kind);
        for keep_growing in [true, false] {
            for way in ways(kind).iter().copied() {
                let wanted = if short {
                    shortest(way)
                } else {
                    !self.full || !keep_growing || !shortest(way)
                };
                if wanted && need(way, kind) <= room && (repeats || !is_repeat(way)) {
                    fitting[count] = way;
                    count += 1;
                }
            }
            if count > 0 {
                break;
            }
        }
        *self.rng.pick(&fitting[..count])
    }

    /// The room of both sides of a choice.
    fn halves(&mut self, kind: Kind, room: usize) -> (usize, usize) {
        let least = least(kind);
        let first = match self.slim {
            true => *self.rng.pick(&[least, room - least]),
            false => self.rng.between(least, room - least),
        };
        (first, room - first)
    }

    fn child(&mut self, way: u16, kind: Kind, room: usize) -> Kind {
        match (way, kind) {
            (OPTIONAL, Kind::Optional(b)) | (MANY | SOME, Kind::List(b)) => Kind::Base(b),
            (OPTIONAL, Kind::OptionalList(b)) => Kind::List(b),
            (MANY | SOME, Kind::ListOfOptional(b)) => Kind::Optional(b),
            (COUNT, _) => {
                let base = *self.rng.pick(&[Base::YesNo, Base::YesNo, Base::Text, Base::Number]);
                match room >= 2 && self.rng.chance(1, 3) {
                    true => Kind::Optional(base),
                    false => Kind::Base(base),
                }
            }
            _ => kind,
        }
    }

    /// What kinds 4 to 11 have beside their children.
    fn numbers(&mut self, node: &mut Node, kind: Kind) {
        match (node.kind, kind) {
            (OPTIONAL | MANY | SOME, _) => node.r = self.rng.below(2) as u16,
            (FALLBACK, Kind::Base(Base::YesNo)) => node.lo = self.rng.below(2) as u32,
            (FALLBACK, Kind::Base(Base::Text)) => node.r = self.text(),
            (FALLBACK, _) => node.lo = self.bound(),
            (GUARD, _) => {
                let (a, b) = (self.bound(), self.bound());
                (node.lo, node.hi) = (a.min(b), a.max(b));
            }
            _ => {}
        }
    }

    fn bound(&mut self) -> u32 {
        match self.rng.below(8) {
            0 => u32::MAX - self.rng.below(2) as u32,
            1 => 1 << 31,
            _ => *self.rng.pick(&[0, 1, 2, 5, 7, 9, 9, 42]),
        }
    }

    fn push(&mut self, node: Node) -> u16 {
        self.form.nodes.push(node);
        (self.form.nodes.len() - 1) as u16
    }

    fn leaf(&mut self, kind: u16, value: Kind) -> u16 {
        let number = if value == Kind::Base(Base::Number) { 2 } else { 0 };
        let mut node = node_of(kind, 0, 0, 0);
        match kind {
            FLAG => {
                (node.p, node.q) = self.names(&FLAG_LETTERS);
                node.r = self.rng.below(2) as u16;
            }
            ARGUMENT => {
                (node.p, node.q) = self.names(&ARGUMENT_LETTERS);
                node.r = number + u16::from(self.rng.chance(1, 3));
            }
            _ => {
                node.p = *self.rng.pick(&[0, 0, 1, 2]);
                node.r = number;
            }
        }
        self.push(node)
    }

    /// The names of a leaf: those of other leaves, or new ones; first and count.
    fn names(&mut self, letters: &[&str]) -> (u16, u16) {
        // at most 9 records are made at a time, and one text record may follow
        if self.rng.chance(1, 8) || self.form.names.len() > NAMES - 24 {
            if let Some(range) = self.shared_names() {
                return range;
            }
        }
        if self.rng.chance(1, 12) {
            self.unused_name();
        }
        let first = self.form.names.len() as u16;
        let count = match self.rng.below(16) {
            0..=9 => 1,
            10..=13 => 2,
            14 => 3,
            _ => self.rng.between(1, 8),
        };
        for _ in 0..count {
            self.letter_or_long(letters);
        }
        (first, count as u16)
    }

    fn letter_or_long(&mut self, letters: &[&str]) {
        let (ty, name) = match self.rng.below(24) {
            0..=11 => (SHORT, *self.rng.pick(letters)),
            12..=15 => (SHORT, *self.rng.pick(&OTHER_LETTERS)),
            16..=22 => (LONG, *self.rng.pick(&LONG_NAMES)),
            _ => return self.part(LONG),
        };
        self.add(ty, name.as_bytes());
    }

    /// One or more records in a row that are short or long, if there is such a record.
    fn shared_names(&mut self) -> Option<(u16, u16)> {
        let names = &self.form.names;
        let start = self.rng.below(names.len());
        let first = (start..names.len()).chain(0..start).find(|k| names[*k].ty <= LONG)?;
        let most = self.rng.between(1, 3);
        let count = names[first..].iter().take(most).take_while(|n| n.ty <= LONG).count();
        Some((first as u16, count as u16))
    }

    fn unused_name(&mut self) {
        match self.rng.below(4) {
            0 => self.letter_or_long(&FLAG_LETTERS),
            1 => self.part(LONG),
            2 => self.part(TEXT),
            _ => {
                let text = *self.rng.pick(&TEXTS);
                self.add(TEXT, text);
            }
        }
    }

    /// A record for the text of a fallback: one that is there, or a new one.
    fn text(&mut self) -> u16 {
        let names = &self.form.names;
        if names.len() > NAMES - 14 || self.rng.chance(1, 3) {
            let start = self.rng.below(names.len());
            if let Some(k) = (start..names.len()).chain(0..start).find(|k| names[*k].ty == TEXT) {
                return k as u16;
            }
        }
        match self.rng.chance(1, 4) {
            true => self.part(TEXT),
            false => {
                let text = *self.rng.pick(&TEXTS);
                self.add(TEXT, text);
            }
        }
        (self.form.names.len() - 1) as u16
    }

    /// A new record. Its bytes may be ones that other records have.
    fn add(&mut self, ty: u16, bytes: &[u8]) {
        let area = &mut self.form.area;
        let found = match self.rng.chance(1, 3) {
            true if bytes.is_empty() => Some(self.rng.below(area.len() + 1)),
            true => area.windows(bytes.len()).position(|w| w == bytes),
            false => None,
        };
        let offset = found.unwrap_or(area.len());
        if found.is_none() {
            area.extend(bytes);
        }
        self.form.names.push(Name {
            ty,
            offset: offset as u16,
            length: bytes.len() as u16,
        });
    }

    /// A new record that is any part of the area its type allows, whichever records lie there.
    fn part(&mut self, ty: u16) {
        let area = &self.form.area;
        let offset = self.rng.below(area.len() + 1);
        let length = self.rng.below((area.len() - offset).min(12) + 1);
        let good = ty == TEXT || std::str::from_utf8(&area[offset..offset + length]).is_ok();
        let length = if good { length } else { 0 };
        self.form.names.push(Name {
            ty,
            offset: offset as u16,
            length: length as u16,
        });
    }

    /// Rarely: names and area up to their limits, or bytes behind the last name.
    fn pad(&mut self) {
        if self.rng.chance(1, 200) {
            while self.form.names.len() < NAMES {
                self.unused_name();
            }
        }
        if self.rng.chance(1, 100) {
            let letter = self.rng.below(128) as u8;
            let length = match self.rng.below(4) {
                0 => FORM_AREA,
                1 => FORM_AREA - 1,
                _ => self.form.area.len() + self.rng.below(64),
            };
            self.form.area.resize(length, letter);
            if self.rng.chance(1, 2) {
                self.stretch();
            }
        }
    }

    /// One long name ends where the area ends, if it is UTF-8 up to there.
    fn stretch(&mut self) {
        let area = self.form.area.len();
        let Some(name) = self.form.names.iter_mut().find(|n| n.ty == LONG) else {
            return;
        };
        let rest = &self.form.area[name.offset as usize..];
        if std::str::from_utf8(rest).is_ok() {
            name.length = (area - name.offset as usize) as u16;
        }
    }
}

/// Other numbers for the nodes, any that leave children lower than their node.
pub fn renumber(rng: &mut Rng, form: &mut Form) {
    let n = form.nodes.len();
    let mut parent = vec![n; n];
    let mut waiting = vec![0; n + 1];
    for (k, node) in form.nodes.iter().enumerate() {
        node.children().for_each(|c| parent[c] = k);
        waiting[k] = node.children().count();
    }
    let mut ready: Vec<usize> = (0..n).filter(|k| waiting[*k] == 0).collect();
    let mut number = vec![0; n];
    let mut nodes = Vec::with_capacity(n);
    while !ready.is_empty() {
        let k = ready.swap_remove(rng.below(ready.len()));
        number[k] = nodes.len() as u16;
        nodes.push(moved(&form.nodes[k], &number));
        if parent[k] < n {
            waiting[parent[k]] -= 1;
            if waiting[parent[k]] == 0 {
                ready.push(parent[k]);
            }
        }
    }
    form.nodes = nodes;
    form.fields.iter_mut().for_each(|k| *k = number[*k as usize]);
}

/// The node with its children under their new numbers.
fn moved(node: &Node, number: &[u16]) -> Node {
    let mut node = *node;
    if node.kind >= OPTIONAL {
        node.p = number[node.p as usize];
    }
    if node.kind == CHOICE {
        node.q = number[node.q as usize];
    }
    node
}
