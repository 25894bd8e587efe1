//! Command tables that are known: good ones, every change of one byte of a table, and tables at the limits.

use crate::commands::{write, Command, ENTRIES};
use crate::format::*;
use crate::notation;

fn form(text: &str) -> Vec<u8> {
    notation::parse(text).expect("the notation").write()
}

/// The entries of crates/rules/specs/CommandLines.antt: the short names are parts of the long ones.
pub fn wear_log() -> [Command; 2] {
    let name = |ty: u16, length: u16| Name { ty, offset: 0, length };
    let wear = Command { names: vec![name(SHORT, 1), name(LONG, 4)], area: b"wear".to_vec(), form: form("switch(-v)") };
    let log = Command { names: vec![name(LONG, 3), name(SHORT, 1)], area: b"log".to_vec(), form: form("optional(text(-v))") };
    [wear, log]
}

/// The table above, one of one entry, one with names of every sort, and one of as many entries as there may be; each with one of
/// its names.
pub fn good_tables() -> Vec<(&'static str, Vec<u8>)> {
    let names = [(LONG, "wear"), (SHORT, "é"), (LONG, ""), (LONG, "€=-"), (SHORT, "w"), (LONG, "--wear")];
    let choice = form("choice(flag(-v), flag(-q)); many(operand)");
    let sorts = [
        Command::new(&names, form("guard(fallback(number(-w --width), 9), 1..5); fallback(operand, \"a\")")),
        Command::new(&names[..1], choice),
        Command::new(&names[1..4], form("optional(operand)")),
    ];
    let most: Vec<Command> = (0..ENTRIES).map(|k| Command::new(&[(LONG, &format!("w{k}"))], form("optional(operand)"))).collect();
    vec![("wear", write(&wear_log())), ("--wear", write(&sorts[..1])), ("é", write(&sorts)), ("w31", write(&most))]
}

/// The bytes with one of them changed, each to its neighbours, to 0, 1, 2 and 255 and in its highest bit; cut off everywhere; and
/// one byte more.
pub fn each_byte(table: &[u8]) -> impl Iterator<Item = Vec<u8>> + '_ {
    let changed = (0..table.len()).flat_map(move |at| {
        let old = table[at];
        let mut values = vec![old.wrapping_sub(1), old.wrapping_add(1), 0, 1, 2, 255, old ^ 0x80];
        values.sort_unstable();
        values.dedup();
        values.retain(|value| *value != old);
        values.into_iter().map(move |value| [&table[..at], &[value], &table[at + 1..]].concat())
    });
    let cut = (0..table.len()).map(move |length| table[..length].to_vec());
    changed.chain(cut).chain([0, 255].map(move |more| [table, &[more]].concat()))
}

/// Tables at the limits, and with each whether it is refused with 11.
pub fn limit_tables() -> Vec<(Vec<u8>, bool)> {
    let offsets = limit_offsets(&write(&wear_log()));
    limit_entries().into_iter().chain(offsets.into_iter().map(|table| (table, true))).collect()
}

/// Tables of no entry, 32 and 33; entries of no name, 128 and 129 names, areas of 4,096 and 4,097 bytes, with no form and one byte
/// shorter than that; and the longest table that is accepted.
fn limit_entries() -> Vec<(Vec<u8>, bool)> {
    let [_, log] = wear_log();
    let many = |count: usize| vec![log.clone(); count];
    let names = |count: usize| vec![Command { names: vec![log.names[0]; count], ..log.clone() }];
    let sized = |size: usize| vec![Command { area: vec![b'l'; size], ..log.clone() }];
    let full = Command { names: vec![log.names[0]; NAMES], area: vec![b'l'; FORM_AREA], form: longest_form() };
    let unformed = Command { form: Vec::new(), ..log.clone() };
    let mut short = write(std::slice::from_ref(&unformed));
    short.pop();
    // so that nothing but the entry itself is too short
    short[6] -= 1;
    let commands = [
        (Vec::new(), true),
        (many(ENTRIES), false),
        (many(ENTRIES + 1), true),
        (names(0), true),
        (names(NAMES), false),
        (names(NAMES + 1), true),
        (sized(FORM_AREA), false),
        (sized(FORM_AREA + 1), true),
        (vec![unformed], false),
        (vec![full; ENTRIES], false),
    ];
    let written = commands.iter().map(|(commands, refused)| (write(commands), *refused));
    written.chain([(short, true)]).collect()
}

/// Two good parts behind a byte that is in none of them, and before one; offsets that wrap around 32 bits.
pub fn limit_offsets(good: &[u8]) -> Vec<Vec<u8>> {
    let offset = |k: usize| u32_at(good, 2 + 4 * k);
    let (start, [first, middle, end]) = (14, [0, 1, 2].map(offset));
    let with = |offsets: [u32; 3], area: &[u8]| {
        let numbers: Vec<u8> = offsets.iter().flat_map(|o| o.to_le_bytes()).collect();
        [&good[..2], &numbers, area].concat()
    };
    let area = &good[start..];
    let mut all = vec![
        with([first + 1, middle + 1, end + 1], &[b"\0", area].concat()),
        with([first, middle, end], &[area, b"\0"].concat()),
    ];
    for high in [u32::MAX, u32::MAX - start as u32 + 1, 1 << 31] {
        all.extend([[high, middle, end], [first, high, end], [first, middle, high]].map(|offsets| with(offsets, area)));
    }
    all
}

/// A form of as many bytes as there may be.
fn longest_form() -> Vec<u8> {
    let case = super::limits::longest().swap_remove(0);
    assert_eq!(case.form.len(), FORM_LENGTH);
    case.form
}
