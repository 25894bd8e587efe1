//! Command tables, and lines that mostly begin with one of their names. Clusters have letters of several forms, so that they are
//! split otherwise than under the chosen form alone.

use super::forms::{accepted, one_of};
use super::sheets::Line;
use super::{contested, damaged, wanting, Rng};
use crate::commands::{write, Command, ENTRIES};
use crate::format::*;

/// The bytes of a command table and of a sheet.
#[derive(Clone, Debug, PartialEq, Eq)]
pub struct TableCase {
    pub table: Vec<u8>,
    pub sheet: Vec<u8>,
}

/// Names: few, so that entries share them, and some that are an option as it is written.
#[rustfmt::skip]
const LONGS: [&str; 32] = [
    "wear", "wear", "pair", "log", "w", "l", "v", "", "", "-", "=", "a=b", "é", "€uro", "7", "a", "wea", "wear ",
    "-w", "-v", "-b", "-é", "-vq", "-w7", "-w=7", "-vz", "--wear", "--log", "---", "--", "--=", "--wear=x",
];
const SHORTS: [&str; 10] = ["w", "w", "p", "l", "v", "a", "7", "é", "-", "="];

/// Forms with a letter or two, so that most letters of a line are another form's.
const FEW: [&str; 10] = [
    "switch(-v)",
    "switch(-q); many(operand)",
    "count(flag(-x)); optional(operand)",
    "switch(-b); many(operand)",
    "optional(number(-w)); many(operand)",
    "optional(text(-l)); many(operand)",
    "optional(text(-b)); many(operand)",
    "optional!(number=(-x)); many(operand)",
    "many(operand); flag(-\\xc3\\xa9)",
    "some(text(-1 --width)); optional(strict)",
];

/// An accepted table and a well-made sheet.
pub fn commanded(rng: &mut Rng) -> TableCase {
    let commands = entries(rng);
    let sheet = sheet(rng, &commands);
    TableCase { table: write(&commands), sheet: sheet.write() }
}

fn entries(rng: &mut Rng) -> Vec<Command> {
    let count = match rng.below(32) {
        0 => ENTRIES,
        1 => rng.between(7, ENTRIES),
        _ => rng.between(1, 6),
    };
    (0..count).map(|_| entry(rng)).collect()
}

fn entry(rng: &mut Rng) -> Command {
    let count = match rng.below(40) {
        0 => rng.between(NAMES - 1, NAMES),
        1..=3 => rng.between(4, 9),
        4..=14 => 1,
        _ => rng.between(2, 3),
    };
    let mut command = Command { form: form(rng).write(), ..Command::default() };
    // one is long, whichever it is
    let long = rng.below(count);
    for k in 0..count {
        let (ty, name) = match k == long || rng.chance(1, 2) {
            true => (LONG, *rng.pick(&LONGS)),
            false => (SHORT, *rng.pick(&SHORTS)),
        };
        add(rng, &mut command, ty, name.as_bytes());
    }
    if rng.chance(1, 40) {
        let size = *rng.pick(&[FORM_AREA, FORM_AREA - 1, command.area.len() + 3]);
        command.area.resize(size, b'w');
    }
    command
}

/// A new record. Its bytes may be ones that other records have.
fn add(rng: &mut Rng, command: &mut Command, ty: u16, bytes: &[u8]) {
    let shared = match rng.chance(1, 3) && !bytes.is_empty() {
        true => command.area.windows(bytes.len()).position(|w| w == bytes),
        false => None,
    };
    let offset = shared.unwrap_or(command.area.len());
    if shared.is_none() {
        command.area.extend(bytes);
    }
    command.names.push(Name { ty, offset: offset as u16, length: bytes.len() as u16 });
}

/// An accepted form of any of the generators.
pub fn form(rng: &mut Rng) -> Form {
    let known = |case: super::Case| Form::check(&case.form).expect("an accepted form");
    match rng.below(12) {
        0..=5 => one_of(rng, &FEW),
        6..=8 => accepted(rng),
        9 | 10 => known(contested(rng)),
        _ => known(wanting(rng)),
    }
}

/// A line for the form of one of the entries, mostly behind one of its names.
fn sheet(rng: &mut Rng, commands: &[Command]) -> Sheet {
    let command = rng.pick(commands);
    let mut arguments = line(rng, commands, command);
    let name = rng.pick(&command.names).bytes(&command.area).to_vec();
    let others = rng.pick(commands);
    match rng.below(32) {
        0 => {}
        1 => arguments.insert(0, rng.pick(&others.names).bytes(&others.area).to_vec()),
        2 => arguments.insert(0, rng.pick(&LONGS).as_bytes().to_vec()),
        3 => arguments.insert(0, [b"-", &name[..]].concat()),
        4 => arguments.insert(0, [b"--", &name[..]].concat()),
        5 => arguments.insert(0, [b"--", &name[..], b"=x"].concat()),
        6 => drop(arguments.splice(0..0, [b"--".to_vec(), name])),
        7 => arguments.insert(rng.below(arguments.len() + 1), name),
        8 => arguments.insert(0, [&name[..], b"x"].concat()),
        _ => arguments.insert(0, name),
    }
    fitting(arguments)
}

/// A line for the form of a command; in most cases its clusters have the letters of all forms.
fn line(rng: &mut Rng, commands: &[Command], command: &Command) -> Vec<Vec<u8>> {
    let form = |c: &Command| Form::check(&c.form).expect("an accepted form");
    let own = form(command);
    let all: Vec<Form> = if rng.chance(3, 4) { commands.iter().map(form).collect() } else { vec![own.clone()] };
    let letters = |kind: u16| -> Vec<char> { all.iter().flat_map(|f| f.letters(kind)).collect() };
    let (flags, arguments) = (letters(FLAG), letters(ARGUMENT));
    let cluster = rng.chance(1, 3).then(|| cluster(rng, &flags, &arguments));
    let (long, sparse) = (rng.chance(1, 64), rng.chance(1, 4));
    let line = Line::among(rng, &own, flags, arguments);
    let sheet = match (long, sparse) {
        (true, _) => line.long(),
        (_, true) => line.sparse(),
        _ => line.short(),
    };
    cluster.into_iter().chain(sheet.arguments).collect()
}

/// Letters that are flags alone, if there are any, then perhaps any letter and a value.
fn cluster(rng: &mut Rng, flags: &[char], arguments: &[char]) -> Vec<u8> {
    let mut sure: Vec<char> = flags.iter().copied().filter(|c| !arguments.contains(c)).collect();
    if sure.is_empty() {
        sure.push('z');
    }
    let mut cluster = "-".to_string();
    (0..rng.between(1, 3)).for_each(|_| cluster.push(*rng.pick(&sure)));
    match rng.below(4) {
        0 if !arguments.is_empty() => {
            cluster.push(*rng.pick(arguments));
            cluster.push_str(*rng.pick(&["", "7", "a"]));
        }
        1 if !flags.is_empty() => cluster.push(*rng.pick(flags)),
        _ => {}
    }
    cluster.into_bytes()
}

/// As much of a line as a sheet may have.
fn fitting(mut arguments: Vec<Vec<u8>>) -> Sheet {
    arguments.truncate(ARGUMENTS);
    while arguments.iter().map(Vec::len).sum::<usize>() > SHEET_AREA {
        arguments.pop();
    }
    Sheet { arguments }
}

/// A table or a sheet with something at fault. A few are still well-made.
pub fn damaged_commands(rng: &mut Rng) -> TableCase {
    let mut commands = entries(rng);
    let sheet = sheet(rng, &commands).write();
    let k = rng.below(commands.len());
    match rng.below(12) {
        0..=3 => commands[k].form = damaged(rng).form,
        4 => return TableCase { table: write(&commands), sheet: damaged(rng).sheet },
        5..=7 => damage_names(rng, &mut commands[k]),
        8 => {
            // names and a form at once, in any order
            damage_names(rng, &mut commands[k]);
            let other = rng.below(commands.len());
            commands[other].form = damaged(rng).form;
        }
        _ => {
            let mut table = write(&commands);
            damage_bytes(rng, &mut table, commands.len());
            return TableCase { table, sheet };
        }
    }
    TableCase { table: write(&commands), sheet }
}

fn damage_names(rng: &mut Rng, command: &mut Command) {
    let size = command.area.len() as u16;
    let k = rng.below(command.names.len());
    let name = &mut command.names[k];
    match rng.below(10) {
        0 => name.ty = *rng.pick(&[TEXT, TEXT + 1, u16::MAX]),
        1 => name.ty = SHORT,
        2 => name.length = size.wrapping_sub(name.offset).wrapping_add(1),
        3 => (name.offset, name.length) = (*rng.pick(&[size, size + 1, u16::MAX]), 0),
        4 => (name.offset, name.length) = (u16::MAX, *rng.pick(&[1, u16::MAX])),
        5 => name.length = name.length.wrapping_sub(1),
        6 => command.names.iter_mut().for_each(|n| n.ty = SHORT),
        7 => command.names.resize(*rng.pick(&[0, NAMES + 1]), Name { ty: LONG, offset: 0, length: 0 }),
        8 => command.area.resize(FORM_AREA + rng.below(2), b'w'),
        _ if size > 0 => command.area[rng.below(size as usize)] = *rng.pick(&[0xff, 0xc3, 0x80, b'w']),
        _ => command.names.clear(),
    }
}

/// The count, an offset, the length, or any byte: of a table or of a batch, which have as many parts at most.
pub fn damage_bytes(rng: &mut Rng, table: &mut Vec<u8>, count: usize) {
    let at = 2 + 4 * rng.below(count + 1);
    match rng.below(8) {
        0 => table[0] = *rng.pick(&[0, (count as u8).wrapping_sub(1), count as u8 + 1, ENTRIES as u8, ENTRIES as u8 + 1]),
        1 => table[1] = 1,
        2 => table[at] = table[at].wrapping_add(*rng.pick(&[1, 255])),
        3 => table[at + 3] = *rng.pick(&[1, 0x80, 0xff]),
        4 => table.truncate(rng.below(table.len())),
        5 => table.push(0),
        _ => {
            let at = rng.below(table.len());
            table[at] = *rng.pick(&[0, 1, 2, 0xff, table[at].wrapping_add(1), table[at].wrapping_sub(1)]);
        }
    }
}
