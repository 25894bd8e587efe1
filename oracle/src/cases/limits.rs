//! Cases at the limits.

use super::forms::written;
use super::{node_of, Case};
use crate::format::*;

/// A number in the bytes of a form or sheet: where it stands, its width in bytes, the highest that is right there.
struct Slot {
    at: usize,
    width: usize,
    limit: u32,
}

impl Slot {
    fn read(&self, bytes: &[u8]) -> u32 {
        let part = &bytes[self.at..self.at + self.width];
        part.iter().rev().fold(0, |sum, b| 256 * sum + u32::from(*b))
    }

    fn write(&self, bytes: &mut [u8], value: u32) {
        bytes[self.at..self.at + self.width].copy_from_slice(&value.to_le_bytes()[..self.width]);
    }

    /// Other numbers for this place, each once.
    fn others(&self, old: u32) -> Vec<u32> {
        let top = if self.width == 2 { 0xffff } else { 0xffff_ffff };
        let (below, above) = (old.wrapping_sub(1) & top, old.wrapping_add(1) & top);
        let mut values = vec![
            0,
            1,
            below,
            above,
            self.limit,
            self.limit.wrapping_add(1) & top,
            0xffff,
            top,
        ];
        values.sort_unstable();
        values.dedup();
        values.retain(|value| *value != old);
        values
    }
}

/// Numbers in a row from `at` on, `width` bytes each.
fn slots(at: usize, width: usize, limits: &[usize]) -> impl Iterator<Item = Slot> + '_ {
    let slot = move |(k, limit): (usize, &usize)| Slot {
        at: at + width * k,
        width,
        limit: *limit as u32,
    };
    limits.iter().enumerate().map(slot)
}

fn form_slots(form: &Form) -> Vec<Slot> {
    let (n, f) = (form.nodes.len(), form.fields.len());
    let mut out: Vec<Slot> = slots(0, 2, &[NODES, FIELDS, NAMES, FORM_AREA]).collect();
    out.extend(slots(8, 2, &vec![n - 1; f]));
    for k in 0..n {
        let at = 8 + 2 * f + 16 * k;
        let limits = node_limits(form, k);
        out.extend(slots(at, 2, &limits[..4]));
        out.extend(slots(at + 8, 4, &limits[4..]));
    }
    for (k, name) in form.names.iter().enumerate() {
        let (offset, length, a) = (name.offset as usize, name.length as usize, form.area.len());
        out.extend(slots(
            8 + 2 * f + 16 * n + 6 * k,
            2,
            &[TEXT as usize, a - length, a - offset],
        ));
    }
    out
}

/// The highest kind, p, q, r, lo and hi that node `k` may have, the others left as they are.
fn node_limits(form: &Form, k: usize) -> [usize; 6] {
    let (node, m, top) = (form.nodes[k], form.names.len(), u32::MAX as usize);
    let kind = GUARD as usize;
    let lower = k.saturating_sub(1);
    match node.kind {
        FLAG => [kind, m - node.q as usize, m - node.p as usize, 1, 0, 0],
        ARGUMENT => [kind, m - node.q as usize, m - node.p as usize, 3, 0, 0],
        POSITIONAL => [kind, 2, 0, 2, 0, 0],
        OPTIONAL..=SOME => [kind, lower, 0, 1, 0, 0],
        CHOICE => [kind, lower, lower, 0, 0, 0],
        FALLBACK if node.lo > 1 => [kind, lower, 0, 0, top, 0],
        FALLBACK => [kind, lower, 0, m.saturating_sub(1), 1, 0],
        GUARD => [kind, lower, 0, 0, node.hi as usize, top],
        _ => [kind, lower, 0, 0, 0, 0],
    }
}

fn sheet_slots(sheet: &Sheet) -> Vec<Slot> {
    let n = sheet.arguments.len();
    let area = sheet.arguments.iter().map(Vec::len).sum();
    let mut out: Vec<Slot> = slots(0, 2, &[ARGUMENTS]).collect();
    out.extend(slots(2, 2, &vec![area; n + 1]));
    out
}

/// The bytes with one number changed, for each number and each other value it gets.
fn each_changed(bytes: &[u8], slots: &[Slot]) -> Vec<Vec<u8>> {
    let mut out = Vec::new();
    for slot in slots {
        for value in slot.others(slot.read(bytes)) {
            let mut changed = bytes.to_vec();
            slot.write(&mut changed, value);
            out.push(changed);
        }
    }
    out
}

/// The bytes cut off at and around the borders of all numbers and one byte before their end; one byte more.
fn each_cut(bytes: &[u8], slots: &[Slot]) -> Vec<Vec<u8>> {
    let borders = slots.iter().flat_map(|slot| [slot.at, slot.at + slot.width]);
    let around = borders.flat_map(|border| [border.saturating_sub(1), border, border + 1]);
    let mut lengths: Vec<usize> = around
        .chain([bytes.len().saturating_sub(1)])
        .filter(|l| *l < bytes.len())
        .collect();
    lengths.sort_unstable();
    lengths.dedup();
    let mut out: Vec<Vec<u8>> = lengths.iter().map(|length| bytes[..*length].to_vec()).collect();
    out.push([bytes, b"\0"].concat());
    out
}

fn line(arguments: &[&[u8]]) -> Sheet {
    Sheet {
        arguments: arguments.iter().map(|a| a.to_vec()).collect(),
    }
}

/// The second form has all eleven kinds.
pub fn good_forms() -> Vec<Form> {
    written(&[
        "count(flag(-v))",
        "flag(-v --verbose); optional(choice(text(-l), operand)); many!(fallback(operand, \"a\")); \
         some(guard(number=(-w --width), 1..5)); last(switch(-q)); count(optional(fallback(number(-b), 9)))",
        "operand; guard(fallback(number(-w), 9), 1..5)",
        "fallback(switch(-\\xc3\\xa9 --), yes); optional!(some!(strict#)); choice(many(non-strict), many(text=(-v)))",
    ])
}

fn good_sheets() -> Vec<Sheet> {
    vec![
        line(&[]),
        line(&[b"-v", b"-w", b"3"]),
        line(&[b"a"]),
        line(&[b"-vq", b"", b"--width=7", "-é".as_bytes(), b"--", b"-w"]),
    ]
}

/// Every number of a few good forms and sheets at and around its limits, one at a time; every way to cut them off; and
/// forms and sheets of exactly the limits and one more.
pub fn limits() -> Vec<Case> {
    let (forms, sheets) = (good_forms(), good_sheets());
    let mut cases = Vec::new();
    for (k, form) in forms.iter().enumerate() {
        cases.extend(sheets.iter().map(|sheet| Case::new(form, sheet)));
        let sheet = sheets[(k + 1) % sheets.len()].write();
        for form in each_faulty(&form.write(), &form_slots(form)) {
            // without a sheet, a form that is cut off is all there is when both are joined
            cases.push(Case { form: form.clone(), sheet: Vec::new() });
            cases.push(Case { form, sheet: sheet.clone() });
        }
    }
    for sheet in &sheets {
        let form = forms[1].write();
        let faulty = each_faulty(&sheet.write(), &sheet_slots(sheet));
        cases.extend(faulty.map(|sheet| Case { form: form.clone(), sheet }));
    }
    let listing = &written(&["many(operand)"])[0];
    cases.extend(limit_forms().iter().map(|form| Case::new(form, &line(&[b"-v", b"7"]))));
    cases.extend(limit_sheets().iter().map(|sheet| Case::new(listing, sheet)));
    cases.extend(longest());
    cases
}

fn each_faulty(bytes: &[u8], slots: &[Slot]) -> impl Iterator<Item = Vec<u8>> {
    each_changed(bytes, slots).into_iter().chain(each_cut(bytes, slots))
}

/// Forms of 64 and 65 nodes, 16 and 17 fields, 128 and 129 names, areas of 4,096 and 4,097 bytes; chains of choices.
pub fn limit_forms() -> Vec<Form> {
    let mut forms = Vec::new();
    for more in 0..2 {
        forms.push(chain(NODES + more));
        forms.push(tree(NODES + more));
        forms.push(flags(FIELDS + more, FIELDS + more));
        forms.push(flags(FIELDS, NAMES + more));
        forms.push(long_name(FORM_AREA + more));
    }
    forms.push(shared(NODES, false));
    forms.push(shared(NODES, true));
    forms
}

/// A number, and a fallback above it again and again.
pub fn chain(nodes: usize) -> Form {
    let fallback = |k: usize| Node {
        kind: FALLBACK,
        p: k as u16 - 1,
        lo: 9,
        ..Node::default()
    };
    let mut form = Form {
        fields: vec![nodes as u16 - 1],
        ..Form::default()
    };
    form.nodes.push(node_of(POSITIONAL, 0, 0, 2));
    form.nodes.extend((1..nodes).map(fallback));
    form
}

/// Choices with a positional on every side; an optional above them if the number of nodes is even.
fn tree(nodes: usize) -> Form {
    let mut form = Form::default();
    form.nodes.push(node_of(POSITIONAL, 0, 0, 0));
    while form.nodes.len() + 2 <= nodes {
        let last = form.nodes.len() as u16;
        form.nodes.push(node_of(POSITIONAL, 0, 0, 0));
        form.nodes.push(node_of(CHOICE, last - 1, last, 0));
    }
    if form.nodes.len() < nodes {
        form.nodes.push(node_of(OPTIONAL, nodes as u16 - 2, 0, 0));
    }
    form.fields.push(nodes as u16 - 1);
    form
}

/// Switches; the last one has the names that are left.
fn flags(fields: usize, names: usize) -> Form {
    let mut form = Form {
        area: b"v".to_vec(),
        ..Form::default()
    };
    for k in 0..fields {
        let q = if k + 1 == fields { names - k } else { 1 };
        form.nodes.push(node_of(FLAG, k as u16, q as u16, 1));
        form.fields.push(k as u16);
    }
    form.names = vec![
        Name {
            ty: SHORT,
            offset: 0,
            length: 1
        };
        names
    ];
    form
}

/// A switch whose name is the whole area.
fn long_name(area: usize) -> Form {
    let mut form = flags(1, 1);
    form.area = vec![b'v'; area];
    form.names[0] = Name {
        ty: LONG,
        offset: 0,
        length: area as u16,
    };
    form
}

/// A flag, and above it again and again a choice of the node below with itself: the paths double at every node. With
/// `repeats`, the second node and the last count.
pub fn shared(nodes: usize, repeats: bool) -> Form {
    let mut form = flags(1, 1);
    for k in 1..nodes as u16 {
        let kind = if repeats && (k == 1 || k as usize == nodes - 1) {
            COUNT
        } else {
            CHOICE
        };
        let q = if kind == CHOICE { k - 1 } else { 0 };
        form.nodes.push(node_of(kind, k - 1, q, 0));
    }
    form.fields[0] = nodes as u16 - 1;
    form
}

/// Sheets of 256 and 257 arguments, areas of 32,768 and 32,769 bytes, and both.
pub fn limit_sheets() -> Vec<Sheet> {
    let mut sheets = Vec::new();
    for more in 0..2 {
        sheets.push(Sheet {
            arguments: vec![Vec::new(); ARGUMENTS + more],
        });
        sheets.push(Sheet {
            arguments: vec![b"a".to_vec(); ARGUMENTS + more],
        });
        sheets.push(Sheet {
            arguments: vec![vec![b'a'; SHEET_AREA + more]],
        });
        sheets.push(Sheet {
            arguments: vec![vec![b'a'; SHEET_AREA / ARGUMENTS]; ARGUMENTS + more],
        });
        sheets.push(Sheet {
            arguments: vec![b"--a=b".to_vec(); ITEMS / 2 + more],
        });
    }
    sheets
}

/// The longest form with the longest sheet, and one byte more behind either.
pub fn longest() -> Vec<Case> {
    let mut form = flags(FIELDS, NAMES);
    let root = form.fields.pop().unwrap_or(0);
    let mut last = root;
    while form.nodes.len() < NODES {
        let number = form.nodes.len() as u16;
        form.nodes.push(node_of(FALLBACK, last, 0, 0));
        last = number;
    }
    form.fields.push(last);
    form.area.resize(FORM_AREA, b'v');
    let case = Case::new(
        &form,
        &Sheet {
            arguments: vec![vec![b'a'; SHEET_AREA / ARGUMENTS]; ARGUMENTS],
        },
    );
    let (mut form_longer, mut sheet_longer) = (case.clone(), case.clone());
    form_longer.form.push(0);
    sheet_longer.sheet.push(0);
    vec![case, form_longer, sheet_longer]
}
