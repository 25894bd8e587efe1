//! Forms and sheets as data, and the refusals that need nothing but them (1 to 6).
//!
//! A second reading of the rules in docs/FORMAT.md, written apart from the Rattle code and from bpaf. Numbers are
//! little-endian, a u16 unless said.

use std::fmt;

/// Limits of a form: nodes, fields, names, bytes of its area.
pub const NODES: usize = 64;
pub const FIELDS: usize = 16;
pub const NAMES: usize = 128;
pub const FORM_AREA: usize = 4096;
/// Limits of a sheet: arguments, bytes of its area; and of its items.
pub const ARGUMENTS: usize = 256;
pub const SHEET_AREA: usize = 32768;
pub const ITEMS: usize = 256;
/// The longest form, the longest sheet, and one byte more than both: what `bench` reads at most.
pub const FORM_LENGTH: usize = 8 + 2 * FIELDS + 16 * NODES + 6 * NAMES + FORM_AREA;
pub const SHEET_LENGTH: usize = 2 + 2 * (ARGUMENTS + 1) + SHEET_AREA;
pub const BENCH_INPUT: usize = FORM_LENGTH + SHEET_LENGTH + 1;

/// A numbered refusal and the place it names, if it names one.
#[derive(Clone, Copy, Debug, PartialEq, Eq)]
pub struct Refusal {
    pub number: u32,
    pub place: Option<usize>,
}

impl Refusal {
    pub fn new(number: u32) -> Refusal {
        Refusal { number, place: None }
    }
    pub fn at(number: u32, place: usize) -> Refusal {
        Refusal { number, place: Some(place) }
    }
}

/// A leaf that refusal 20 lists: its node number plus 1, and start and end of the scope that it looked in.
pub type Entry = [u32; 3];

/// Node kinds by their number.
pub const FLAG: u16 = 1;
pub const ARGUMENT: u16 = 2;
pub const POSITIONAL: u16 = 3;
pub const OPTIONAL: u16 = 4;
pub const MANY: u16 = 5;
pub const SOME: u16 = 6;
pub const COUNT: u16 = 7;
pub const LAST: u16 = 8;
pub const CHOICE: u16 = 9;
pub const FALLBACK: u16 = 10;
pub const GUARD: u16 = 11;

/// Name types by their number.
pub const SHORT: u16 = 0;
pub const LONG: u16 = 1;
pub const TEXT: u16 = 2;

#[derive(Clone, Copy, Debug, Default, PartialEq, Eq)]
pub struct Node {
    pub kind: u16,
    pub p: u16,
    pub q: u16,
    pub r: u16,
    pub lo: u32,
    pub hi: u32,
}

#[derive(Clone, Copy, Debug, Default, PartialEq, Eq)]
pub struct Name {
    pub ty: u16,
    pub offset: u16,
    pub length: u16,
}

impl Name {
    /// The record that begins at a byte.
    pub fn read(b: &[u8], at: usize) -> Name {
        let [ty, offset, length] = [0, 2, 4].map(|k| u16_at(b, at + k) as u16);
        Name { ty, offset, length }
    }

    pub fn write(&self, out: &mut Vec<u8>) {
        [self.ty, self.offset, self.length].iter().for_each(|x| out.extend(x.to_le_bytes()));
    }

    /// The bytes of a record whose part lies in the area.
    pub fn bytes<'a>(&self, area: &'a [u8]) -> &'a [u8] {
        &area[self.offset as usize..self.offset as usize + self.length as usize]
    }

    /// Whether its type is known, its part lies in the area, and its bytes are as its type asks.
    pub fn good(&self, area: &[u8]) -> bool {
        if self.ty > TEXT || self.offset as usize + self.length as usize > area.len() {
            return false;
        }
        let text = std::str::from_utf8(self.bytes(area));
        match self.ty {
            SHORT => text.is_ok_and(|t| t.chars().count() == 1),
            LONG => text.is_ok(),
            _ => true,
        }
    }
}

#[derive(Clone, Debug, Default, PartialEq, Eq)]
pub struct Form {
    pub fields: Vec<u16>,
    pub nodes: Vec<Node>,
    pub names: Vec<Name>,
    pub area: Vec<u8>,
}

/// A base value's kind.
#[derive(Clone, Copy, Debug, PartialEq, Eq)]
pub enum Base {
    YesNo,
    Text,
    Number,
}

/// The kind of a node's value.
#[derive(Clone, Copy, Debug, PartialEq, Eq)]
pub enum Kind {
    Base(Base),
    Optional(Base),
    List(Base),
    ListOfOptional(Base),
    OptionalList(Base),
}

/// A text is the place of an item, or the name record of a fallback.
#[derive(Clone, Copy, Debug, PartialEq, Eq)]
pub enum Text {
    Item(usize),
    Name(usize),
}

#[derive(Clone, Debug, PartialEq, Eq)]
pub enum Value {
    YesNo(bool),
    Text(Text),
    Number(u32),
    Absent,
    Present(Box<Value>),
    List(Vec<Value>),
}

impl Value {
    /// Whether this value has the kind, decided on the value alone.
    pub fn has_kind(&self, kind: Kind) -> bool {
        match (self, kind) {
            (Value::YesNo(_), Kind::Base(Base::YesNo)) => true,
            (Value::Text(_), Kind::Base(Base::Text)) => true,
            (Value::Number(_), Kind::Base(Base::Number)) => true,
            (Value::Absent, Kind::Optional(_) | Kind::OptionalList(_)) => true,
            (Value::Present(v), Kind::Optional(b)) => v.has_kind(Kind::Base(b)),
            (Value::Present(v), Kind::OptionalList(b)) => v.has_kind(Kind::List(b)),
            (Value::List(vs), Kind::List(b)) => vs.iter().all(|v| v.has_kind(Kind::Base(b))),
            (Value::List(vs), Kind::ListOfOptional(b)) => vs.iter().all(|v| v.has_kind(Kind::Optional(b))),
            _ => false,
        }
    }

    /// The answer words of this value, put behind those in `out`.
    pub fn words(&self, out: &mut Vec<u32>) {
        match self {
            Value::YesNo(b) => out.push(u32::from(*b)),
            Value::Text(Text::Item(place)) => out.push(*place as u32),
            Value::Text(Text::Name(record)) => out.push(256 + *record as u32),
            Value::Number(n) => out.push(*n),
            Value::Absent => out.push(0),
            Value::Present(v) => {
                out.push(1);
                v.words(out);
            }
            Value::List(vs) => {
                out.push(vs.len() as u32);
                vs.iter().for_each(|v| v.words(out));
            }
        }
    }

    /// The longest list in this value.
    pub fn longest_list(&self) -> usize {
        match self {
            Value::List(vs) => vs.len(),
            Value::Present(v) => v.longest_list(),
            _ => 0,
        }
    }
}

pub fn u16_at(b: &[u8], i: usize) -> usize {
    b[i] as usize + 256 * b[i + 1] as usize
}

pub fn u32_at(b: &[u8], i: usize) -> u32 {
    u16_at(b, i) as u32 + 65536 * u16_at(b, i + 2) as u32
}

/// The form's length by its counts, if there are counts and they are within their limits.
fn form_length(b: &[u8]) -> Option<usize> {
    if b.len() < 8 {
        return None;
    }
    let (n, f, m, a) = (u16_at(b, 0), u16_at(b, 2), u16_at(b, 4), u16_at(b, 6));
    let within = (1..=NODES).contains(&n) && (1..=FIELDS).contains(&f) && m <= NAMES && a <= FORM_AREA;
    within.then_some(8 + 2 * f + 16 * n + 6 * m + a)
}

/// A joined input taken apart into form and sheet. An input shorter than its form, or with counts out of their limits, is all form.
pub fn split_joined(input: &[u8]) -> (&[u8], &[u8]) {
    match form_length(input) {
        Some(length) if length <= input.len() => input.split_at(length),
        _ => (input, &[]),
    }
}

impl Form {
    /// The records of a form of the right length and counts; refusal 1 otherwise.
    pub fn read(b: &[u8]) -> Result<Form, Refusal> {
        if form_length(b) != Some(b.len()) {
            return Err(Refusal::new(1));
        }
        let (n, f, m) = (u16_at(b, 0), u16_at(b, 2), u16_at(b, 4));
        let (nodes, names, area) = (8 + 2 * f, 8 + 2 * f + 16 * n, 8 + 2 * f + 16 * n + 6 * m);
        Ok(Form {
            fields: (0..f).map(|k| u16_at(b, 8 + 2 * k) as u16).collect(),
            nodes: (0..n)
                .map(|k| {
                    let at = nodes + 16 * k;
                    Node {
                        kind: u16_at(b, at) as u16,
                        p: u16_at(b, at + 2) as u16,
                        q: u16_at(b, at + 4) as u16,
                        r: u16_at(b, at + 6) as u16,
                        lo: u32_at(b, at + 8),
                        hi: u32_at(b, at + 12),
                    }
                })
                .collect(),
            names: (0..m).map(|k| Name::read(b, names + 6 * k)).collect(),
            area: b[area..].to_vec(),
        })
    }

    pub fn write(&self) -> Vec<u8> {
        let mut out = Vec::new();
        let counts = [self.nodes.len(), self.fields.len(), self.names.len(), self.area.len()];
        counts.iter().for_each(|c| out.extend((*c as u16).to_le_bytes()));
        self.fields.iter().for_each(|k| out.extend(k.to_le_bytes()));
        for n in &self.nodes {
            [n.kind, n.p, n.q, n.r].iter().for_each(|x| out.extend(x.to_le_bytes()));
            [n.lo, n.hi].iter().for_each(|x| out.extend(x.to_le_bytes()));
        }
        self.names.iter().for_each(|n| n.write(&mut out));
        out.extend(&self.area);
        out
    }

    /// The bytes of a name record whose part lies in the area.
    pub fn name(&self, record: usize) -> &[u8] {
        self.names[record].bytes(&self.area)
    }

    /// The form of these bytes, or the first of refusals 1 to 4.
    pub fn check(b: &[u8]) -> Result<Form, Refusal> {
        let form = Form::read(b)?;
        if let Some(k) = form.names.iter().position(|n| !n.good(&form.area)) {
            return Err(Refusal::at(2, k));
        }
        form.kinds()?;
        if form.fields.iter().any(|k| *k as usize >= form.nodes.len()) {
            return Err(Refusal::new(4));
        }
        let uses = form.uses();
        match uses.iter().position(|u| *u != 1) {
            Some(k) => Err(Refusal::at(4, k)),
            None => Ok(form),
        }
    }

    /// How often each node is used, as child or field.
    fn uses(&self) -> Vec<usize> {
        let mut uses = vec![0; self.nodes.len()];
        for n in &self.nodes {
            n.children().for_each(|c| uses[c] += 1);
        }
        self.fields.iter().for_each(|k| uses[*k as usize] += 1);
        uses
    }

    /// The kind of every node, or refusal 3 at the lowest node at fault.
    pub fn kinds(&self) -> Result<Vec<Kind>, Refusal> {
        let mut kinds: Vec<Kind> = Vec::new();
        // whether a node of kind 5 to 8 is this node or beneath it
        let mut repeats: Vec<bool> = Vec::new();
        for (k, node) in self.nodes.iter().enumerate() {
            let fault = Refusal::at(3, k);
            if !(FLAG..=GUARD).contains(&node.kind) || node.children().any(|c| c >= k) {
                return Err(fault);
            }
            let beneath = node.children().any(|c| repeats[c]);
            let repeat = (MANY..=LAST).contains(&node.kind);
            if repeat && beneath {
                return Err(fault);
            }
            kinds.push(self.kind_of(node, &kinds).ok_or(fault)?);
            repeats.push(repeat || beneath);
        }
        Ok(kinds)
    }

    /// The kind of a node whose children's kinds are known, if its numbers and children are as they must be.
    fn kind_of(&self, node: &Node, kinds: &[Kind]) -> Option<Kind> {
        let Node { p, q, r, lo, hi, .. } = *node;
        let child = |c: u16| kinds[c as usize];
        let zero = |xs: &[u32]| xs.iter().all(|x| *x == 0);
        let bounds_zero = lo == 0 && hi == 0;
        match node.kind {
            FLAG => (self.named(node) && r <= 1 && bounds_zero).then_some(Kind::Base(Base::YesNo)),
            ARGUMENT => (self.named(node) && r <= 3 && bounds_zero).then_some(Kind::Base(text_or_number(r))),
            POSITIONAL => {
                (p <= 2 && q == 0 && (r == 0 || r == 2) && bounds_zero).then_some(Kind::Base(text_or_number(r)))
            }
            OPTIONAL if q == 0 && r <= 1 && bounds_zero => match child(p) {
                Kind::Base(b) => Some(Kind::Optional(b)),
                Kind::List(b) => Some(Kind::OptionalList(b)),
                _ => None,
            },
            MANY | SOME if q == 0 && r <= 1 && bounds_zero => match child(p) {
                Kind::Base(b) => Some(Kind::List(b)),
                Kind::Optional(b) => Some(Kind::ListOfOptional(b)),
                _ => None,
            },
            COUNT | LAST if zero(&[q as u32, r as u32, lo, hi]) => match child(p) {
                Kind::Base(_) | Kind::Optional(_) if node.kind == COUNT => Some(Kind::Base(Base::Number)),
                kind @ (Kind::Base(_) | Kind::Optional(_)) => Some(kind),
                _ => None,
            },
            CHOICE if r == 0 && bounds_zero && child(p) == child(q) => Some(child(p)),
            FALLBACK if q == 0 && hi == 0 => match child(p) {
                Kind::Base(Base::Text) => {
                    let text = (r as usize) < self.names.len() && self.names[r as usize].ty == TEXT;
                    (text && lo == 0).then_some(child(p))
                }
                Kind::Base(Base::YesNo) => (r == 0 && lo <= 1).then_some(child(p)),
                Kind::Base(Base::Number) => (r == 0).then_some(child(p)),
                _ => None,
            },
            GUARD if q == 0 && r == 0 && lo <= hi && child(p) == Kind::Base(Base::Number) => Some(child(p)),
            _ => None,
        }
    }

    /// A flag's or argument's names: one or more, in the table, all short or long.
    fn named(&self, node: &Node) -> bool {
        let (p, q) = (node.p as usize, node.q as usize);
        q >= 1 && p + q <= self.names.len() && self.names[p..p + q].iter().all(|n| n.ty <= LONG)
    }

    /// The letters among the short names of all nodes of a kind.
    pub fn letters(&self, kind: u16) -> Vec<char> {
        let mut letters = Vec::new();
        for node in self.nodes.iter().filter(|n| n.kind == kind) {
            for record in node.p as usize..node.p as usize + node.q as usize {
                if self.names[record].ty == SHORT {
                    letters.extend(std::str::from_utf8(self.name(record)).unwrap().chars());
                }
            }
        }
        letters
    }

    /// Flags, arguments and positionals.
    pub fn leaves(&self) -> usize {
        self.nodes.iter().filter(|n| n.kind <= POSITIONAL).count()
    }
}

fn text_or_number(r: u16) -> Base {
    if r >= 2 { Base::Number } else { Base::Text }
}

impl Node {
    /// Node numbers of the children, in order.
    pub fn children(&self) -> impl Iterator<Item = usize> {
        let (p, q) = (self.p as usize, self.q as usize);
        let first = (OPTIONAL..=GUARD).contains(&self.kind).then_some(p);
        let second = (self.kind == CHOICE).then_some(q);
        first.into_iter().chain(second)
    }
}

/// A command line: its arguments.
#[derive(Clone, Debug, Default, PartialEq, Eq)]
pub struct Sheet {
    pub arguments: Vec<Vec<u8>>,
}

impl Sheet {
    /// The sheet of these bytes, or refusal 6 (read before the offsets) or 5.
    pub fn check(b: &[u8]) -> Result<Sheet, Refusal> {
        if b.len() < 2 {
            return Err(Refusal::new(5));
        }
        let n = u16_at(b, 0);
        if n > ARGUMENTS {
            return Err(Refusal::new(6));
        }
        let start = 2 + 2 * (n + 1);
        if b.len() < start || b.len() - start > SHEET_AREA {
            return Err(Refusal::new(5));
        }
        let area = &b[start..];
        let offsets: Vec<usize> = (0..=n).map(|k| u16_at(b, 2 + 2 * k)).collect();
        if offsets[0] != 0 || offsets[n] != area.len() || offsets.windows(2).any(|w| w[0] > w[1]) {
            return Err(Refusal::new(5));
        }
        Ok(Sheet { arguments: offsets.windows(2).map(|w| area[w[0]..w[1]].to_vec()).collect() })
    }

    pub fn write(&self) -> Vec<u8> {
        let mut out = (self.arguments.len() as u16).to_le_bytes().to_vec();
        let mut at = 0u16;
        out.extend(at.to_le_bytes());
        for a in &self.arguments {
            at += a.len() as u16;
            out.extend(at.to_le_bytes());
        }
        self.arguments.iter().for_each(|a| out.extend(a));
        out
    }
}

/// What `bench` prints.
#[derive(Clone, Debug, PartialEq, Eq)]
pub struct Answer {
    pub number: u32,
    pub place: Option<usize>,
    pub tries: u64,
    pub words: Vec<u32>,
}

impl Answer {
    pub fn refused(refusal: Refusal, tries: u64) -> Answer {
        Answer { number: refusal.number, place: refusal.place, tries, words: Vec::new() }
    }
}

impl fmt::Display for Answer {
    fn fmt(&self, f: &mut fmt::Formatter<'_>) -> fmt::Result {
        let place = self.place.map_or("-".to_string(), |p| p.to_string());
        writeln!(f, "answer {} place {} tries {} words {}", self.number, place, self.tries, self.words.len())?;
        self.words.iter().try_for_each(|w| writeln!(f, "{w}"))
    }
}
