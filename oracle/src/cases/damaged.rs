//! Damaged cases: a number of a well-made one is changed.

use super::sheets::BROKEN;
use super::{node_of, parts, Case, Rng};
use crate::format::*;
use crate::notation;

/// A form that is refused with each of 1 to 4.
pub fn forms_at_fault() -> Vec<(u32, Vec<u8>)> {
    let good = notation::parse("flag(-v)").expect("the notation");
    let (mut name, mut node) = (good.clone(), good.clone());
    name.names[0].ty = TEXT + 1;
    node.nodes[0].kind = GUARD + 1;
    let field = Form { fields: vec![1], ..good.clone() };
    vec![(1, good.write()[1..].to_vec()), (2, name.write()), (3, node.write()), (4, field.write())]
}

/// A well-made case in which one number, or sometimes two or three, is changed. A few are still well-made.
pub fn damaged(rng: &mut Rng) -> Case {
    let (mut form, mut sheet) = parts(rng);
    let times = *rng.pick(&[1, 1, 1, 1, 1, 1, 2, 3]);
    let (mut form_bytes, mut sheet_bytes) = (0, 0);
    for _ in 0..times {
        match rng.below(20) {
            0..=11 => damage_form(rng, &mut form),
            12..=13 => form_bytes += 1,
            14 if rng.chance(1, 4) => damage_lengths(rng, &mut sheet),
            _ => sheet_bytes += 1,
        }
    }
    let mut case = Case::new(&form, &sheet);
    (0..form_bytes).for_each(|_| damage_form_bytes(rng, &mut case.form));
    (0..sheet_bytes).for_each(|_| damage_sheet_bytes(rng, &mut case.sheet));
    case
}

fn damage_form(rng: &mut Rng, form: &mut Form) {
    match rng.below(17) {
        0 | 1 => change_node(rng, form),
        2 => change_child(rng, form),
        3 => change_kind(rng, form),
        4 => change_bounds(rng, form),
        5 => change_name_range(rng, form),
        6 | 7 => change_name(rng, form),
        8 | 9 => change_name_bytes(rng, form),
        10 => change_fallback(rng, form),
        11 => change_unused(rng, form),
        12 => change_use(rng, form),
        13 => change_field(rng, form),
        14 => wrap_field(rng, form),
        15 => nest_repeats(rng, form),
        _ => change_choice(rng, form),
    }
}

/// A node that passes the test, from a random one on.
fn find_node(rng: &mut Rng, form: &Form, test: impl Fn(&Node) -> bool) -> Option<usize> {
    let n = form.nodes.len();
    let start = rng.below(n);
    (start..n).chain(0..start).find(|k| test(&form.nodes[*k]))
}

/// A number that is often wrong in the place of `old`.
fn odd_number(rng: &mut Rng, old: u32) -> u32 {
    match rng.below(8) {
        0 => 0,
        1 => 1,
        2 => old.wrapping_sub(1),
        3 | 4 => old.wrapping_add(1),
        5 => *rng.pick(&[2, 3, 4, 11, 12, 63, 64, 65, 127, 128, 129, 256, 257]),
        6 => *rng.pick(&[0x7fff, 0x8000, 0xffff, 0x1_0000, 0xffff_ffff, 0x8000_0000]),
        _ => rng.next() as u32,
    }
}

/// Any number of any node.
fn change_node(rng: &mut Rng, form: &mut Form) {
    let Some(k) = find_node(rng, form, |_| true) else {
        return;
    };
    let node = &mut form.nodes[k];
    match rng.below(6) {
        0 => node.kind = odd_number(rng, node.kind.into()) as u16,
        1 => node.p = odd_number(rng, node.p.into()) as u16,
        2 => node.q = odd_number(rng, node.q.into()) as u16,
        3 => node.r = odd_number(rng, node.r.into()) as u16,
        4 => node.lo = odd_number(rng, node.lo),
        _ => node.hi = odd_number(rng, node.hi),
    }
}

/// A child that is the node itself, a higher one, or none at all.
fn change_child(rng: &mut Rng, form: &mut Form) {
    let n = form.nodes.len();
    let Some(k) = find_node(rng, form, |node| node.kind >= OPTIONAL) else {
        return wrap_field(rng, form);
    };
    // the node just below is mostly used elsewhere
    let child = *rng.pick(&[k, k + 1, n - 1, n, 0xffff, k.saturating_sub(1)]) as u16;
    let node = &mut form.nodes[k];
    match node.kind == CHOICE && rng.chance(1, 2) {
        true => node.q = child,
        false => node.p = child,
    }
}

fn change_kind(rng: &mut Rng, form: &mut Form) {
    let Some(k) = find_node(rng, form, |_| true) else {
        return;
    };
    let kind = rng.below(GUARD as usize + 1) as u16;
    form.nodes[k].kind = *rng.pick(&[0, GUARD + 1, kind, kind, 0xffff]);
}

fn change_bounds(rng: &mut Rng, form: &mut Form) {
    let Some(k) = find_node(rng, form, |node| node.kind == GUARD) else {
        return change_unused(rng, form);
    };
    let node = &mut form.nodes[k];
    match (node.hi.checked_add(1), node.lo.checked_sub(1)) {
        (_, Some(hi)) if rng.chance(1, 2) => node.hi = hi,
        (Some(lo), _) => node.lo = lo,
        _ => (node.lo, node.hi) = (1, 0),
    }
}

/// No names, or names up to the end of the table or one past it.
fn change_name_range(rng: &mut Rng, form: &mut Form) {
    let m = form.names.len() as u16;
    let Some(k) = find_node(rng, form, |node| node.kind <= ARGUMENT) else {
        return change_node(rng, form);
    };
    let node = &mut form.nodes[k];
    match rng.below(6) {
        0 => node.q = 0,
        1 => node.p = m.wrapping_sub(node.q).wrapping_add(1),
        2 => node.q = m.wrapping_sub(node.p).wrapping_add(1),
        3 => node.q = m.wrapping_sub(node.p),
        4 => (node.p, node.q) = (m, rng.below(2) as u16),
        _ => (node.p, node.q) = (0xffff, *rng.pick(&[1, 2, 0xffff])),
    }
}

/// The type or the part of a name record.
fn change_name(rng: &mut Rng, form: &mut Form) {
    let a = form.area.len() as u16;
    if form.names.is_empty() {
        form.names.push(Name::default());
    }
    let k = rng.below(form.names.len());
    let name = &mut form.names[k];
    match rng.below(9) {
        0 => name.ty = TEXT + 1,
        1 => name.ty = rng.below(3) as u16,
        2 => name.ty = odd_number(rng, name.ty.into()) as u16,
        3 => name.length = a.wrapping_sub(name.offset).wrapping_add(1),
        4 => (name.offset, name.length) = (a + 1, 0),
        5 => (name.offset, name.length) = (a, 0),
        6 => (name.offset, name.length) = (0xffff, *rng.pick(&[0, 1, 0xffff])),
        7 => name.offset = odd_number(rng, name.offset.into()) as u16,
        _ => name.length = odd_number(rng, name.length.into()) as u16,
    }
}

/// Bytes of a short or long name that are not UTF-8, or not one character.
fn change_name_bytes(rng: &mut Rng, form: &mut Form) {
    let short = rng.chance(1, 2);
    let ty = if short { SHORT } else { LONG };
    let wrong: [&[u8]; 6] = [b"", b"vq", "éé".as_bytes(), b"v\xff", b"\xffv", "e\u{301}".as_bytes()];
    let bytes = if rng.chance(1, 3) {
        *rng.pick(&wrong)
    } else {
        *rng.pick(&BROKEN)
    };
    match rng.below(3) {
        0 if !form.area.is_empty() => {
            let at = rng.below(form.area.len());
            form.area[at] = *rng.pick(&[0xff, 0xc3, 0x80, 0xed, 0xc0, 0xf5, b'v']);
        }
        _ => {
            let (offset, length) = (form.area.len() as u16, bytes.len() as u16);
            form.area.extend(bytes);
            let name = Name { ty, offset, length };
            match form.names.iter().position(|n| n.ty == ty) {
                Some(k) => form.names[k] = name,
                None => form.names.push(name),
            }
        }
    }
}

/// The value of a fallback: a name of another type, no name, a number where there is none.
fn change_fallback(rng: &mut Rng, form: &mut Form) {
    let m = form.names.len();
    let Some(k) = find_node(rng, form, |node| node.kind == FALLBACK) else {
        return wrap_field(rng, form);
    };
    let node = &mut form.nodes[k];
    match rng.below(6) {
        0 => node.r = m as u16,
        1 => node.r = rng.below(m + 1) as u16,
        2 => node.lo = *rng.pick(&[1, 2, 0xffff_ffff]),
        3 => node.hi = 1,
        _ => {
            let record = node.r as usize;
            if record < m {
                form.names[record].ty = LONG;
            }
        }
    }
}

/// One of the numbers that the node's kind does not use.
fn change_unused(rng: &mut Rng, form: &mut Form) {
    let Some(k) = find_node(rng, form, |_| true) else {
        return;
    };
    let node = &mut form.nodes[k];
    let value = *rng.pick(&[1, 1, 1, 0xffff]);
    match (node.kind, rng.below(4)) {
        (OPTIONAL..=LAST | FALLBACK | GUARD | POSITIONAL, 0) => node.q = value,
        (COUNT | LAST | CHOICE | GUARD, 1) => node.r = value,
        (GUARD, _) => node.q = value,
        (FALLBACK, _) => node.hi = value.into(),
        (_, 2) => node.lo = value.into(),
        _ => node.hi = value.into(),
    }
}

/// A node that is used twice or never.
fn change_use(rng: &mut Rng, form: &mut Form) {
    let n = form.nodes.len();
    match rng.below(4) {
        0 => form.nodes.push(node_of(POSITIONAL, 0, 0, 0)),
        1 => form.fields.push(rng.below(n) as u16),
        2 => drop(form.fields.pop()),
        _ => {
            let Some(k) = find_node(rng, form, |node| node.kind >= OPTIONAL) else {
                return form.fields.push(0);
            };
            form.nodes[k].p = rng.below(k) as u16;
        }
    }
}

fn change_field(rng: &mut Rng, form: &mut Form) {
    let n = form.nodes.len();
    if form.fields.is_empty() {
        return form.fields.push(n as u16);
    }
    let k = rng.below(form.fields.len());
    form.fields[k] = *rng.pick(&[n, n + 1, 0xffff, n - 1, 0, form.fields[k] as usize + 1]) as u16;
}

/// New nodes of any kind above a field, whether they fit or not.
fn wrap_field(rng: &mut Rng, form: &mut Form) {
    if form.fields.is_empty() {
        return;
    }
    let k = rng.below(form.fields.len());
    for _ in 0..rng.between(1, 3) {
        let kind = rng.between(OPTIONAL as usize, GUARD as usize) as u16;
        form.fields[k] = wrap(rng, form, kind, form.fields[k]);
    }
}

/// A new node of this kind above `child`; its number.
fn wrap(rng: &mut Rng, form: &mut Form, kind: u16, child: u16) -> u16 {
    let mut node = node_of(kind, child, 0, 0);
    match kind {
        OPTIONAL..=SOME => node.r = rng.below(2) as u16,
        CHOICE => {
            node.q = form.nodes.len() as u16;
            form.nodes.push(node_of(POSITIONAL, 0, 0, 2 * rng.below(2) as u16));
        }
        FALLBACK => node.r = form.names.iter().position(|n| n.ty == TEXT).unwrap_or(0) as u16,
        GUARD => (node.lo, node.hi) = (1, 5),
        _ => {}
    }
    form.nodes.push(node);
    (form.nodes.len() - 1) as u16
}

/// A new field with a repeat beneath a repeat, directly or through other nodes.
fn nest_repeats(rng: &mut Rng, form: &mut Form) {
    form.nodes.push(node_of(POSITIONAL, 0, 0, 2));
    let leaf = (form.nodes.len() - 1) as u16;
    let lower = *rng.pick(&[COUNT, COUNT, LAST, LAST, MANY, SOME]);
    let mut upper = wrap(rng, form, lower, leaf);
    for _ in 0..rng.below(3) {
        let through = *rng.pick(&[OPTIONAL, CHOICE, FALLBACK, GUARD]);
        upper = wrap(rng, form, through, upper);
    }
    let kind = rng.between(MANY as usize, LAST as usize) as u16;
    upper = wrap(rng, form, kind, upper);
    form.fields.push(upper);
}

/// Two fields become the sides of a choice, whatever their kinds.
fn change_choice(rng: &mut Rng, form: &mut Form) {
    if form.fields.len() < 2 {
        return wrap_field(rng, form);
    }
    let q = form.fields.remove(rng.below(form.fields.len()));
    let k = rng.below(form.fields.len());
    let p = form.fields[k];
    form.fields[k] = form.nodes.len() as u16;
    form.nodes.push(node_of(CHOICE, p, q, 0));
}

fn put_u16(bytes: &mut [u8], at: usize, value: u16) {
    if at + 2 <= bytes.len() {
        bytes[at..at + 2].copy_from_slice(&value.to_le_bytes());
    }
}

/// One of the counts, the length, or any byte.
fn damage_form_bytes(rng: &mut Rng, bytes: &mut Vec<u8>) {
    match rng.below(8) {
        0..=2 if bytes.len() >= 8 => {
            let which = rng.below(4);
            let old = u16_at(bytes, 2 * which) as u16;
            let limit = [NODES, FIELDS, NAMES, FORM_AREA][which] as u16;
            let odd = odd_number(rng, old.into()) as u16;
            let count = *rng.pick(&[
                0,
                old.wrapping_sub(1),
                old.wrapping_add(1),
                limit,
                limit + 1,
                0xffff,
                odd,
            ]);
            put_u16(bytes, 2 * which, count);
        }
        3 => shorten(rng, bytes),
        4 => bytes.push(rng.next() as u8),
        _ if !bytes.is_empty() => {
            let at = rng.below(bytes.len());
            bytes[at] = *rng.pick(&[0, 1, 2, 0xff, bytes[at].wrapping_add(1), bytes[at].wrapping_sub(1)]);
        }
        _ => {}
    }
}

/// Fewer bytes: mostly one less, or a few of them left.
fn shorten(rng: &mut Rng, bytes: &mut Vec<u8>) {
    let length = match rng.below(4) {
        0 | 1 => bytes.len().saturating_sub(1),
        2 => rng.below(10).min(bytes.len()),
        _ => rng.below(bytes.len() + 1),
    };
    bytes.truncate(length);
}

/// The count, an offset, or the length of a sheet.
pub fn damage_sheet_bytes(rng: &mut Rng, bytes: &mut Vec<u8>) {
    if bytes.len() < 4 {
        return bytes.push(0);
    }
    let n = u16_at(bytes, 0);
    let last = 2 + 2 * n;
    let at = 2 + 2 * rng.below(n + 1);
    match rng.below(10) {
        0 => put_u16(bytes, 0, *rng.pick(&[n.wrapping_sub(1), n + 1, 0]) as u16),
        1 => put_u16(
            bytes,
            0,
            *rng.pick(&[ARGUMENTS, ARGUMENTS + 1, ARGUMENTS + 1, 0xffff]) as u16,
        ),
        2 => put_u16(bytes, 2, rng.between(1, 2) as u16),
        3 => nudge(bytes, last, true),
        4 => nudge(bytes, last, false),
        5 => fall(bytes, at),
        6 => nudge(bytes, at, rng.chance(1, 2)),
        7 => put_u16(bytes, at, odd_number(rng, 0) as u16),
        8 => shorten(rng, bytes),
        _ => bytes.push(b'v'),
    }
}

/// The number at `at` raised or lowered by one.
fn nudge(bytes: &mut [u8], at: usize, up: bool) {
    if at + 2 <= bytes.len() {
        let old = u16_at(bytes, at) as u16;
        put_u16(bytes, at, if up { old.wrapping_add(1) } else { old.wrapping_sub(1) });
    }
}

/// The offset at `at` becomes one less than the one before it.
fn fall(bytes: &mut [u8], at: usize) {
    if at >= 4 && at <= bytes.len() {
        let before = u16_at(bytes, at - 2) as u16;
        put_u16(bytes, at, before.wrapping_sub(1));
    }
}

/// As many arguments or bytes as there may be, or one more.
fn damage_lengths(rng: &mut Rng, sheet: &mut Sheet) {
    let more = usize::from(rng.chance(2, 3));
    match rng.chance(1, 2) {
        true => sheet.arguments.resize(ARGUMENTS + more, b"a".to_vec()),
        false => {
            sheet.arguments.truncate(ARGUMENTS - 1);
            let area: usize = sheet.arguments.iter().map(Vec::len).sum();
            sheet
                .arguments
                .push(vec![b'a'; (SHEET_AREA + more).saturating_sub(area)]);
        }
    }
}
