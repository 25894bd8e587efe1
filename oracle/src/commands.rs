//! Command tables: their bytes, what refuses them (11, then 1 to 4 form by form), and the order in which their names are tried.
//! A second reading of the rules, beside the definitions in crates/rules/specs.
//!
//! A table is a count of entries, offsets of four bytes, one more than there are entries, and the entries. An entry is a count of
//! name records, the size of their area, the records and the area as in a form, then its form up to the entry's end.

use std::ops::Range;

use crate::format::*;
use crate::parts;

/// As many entries as a table may have.
pub const ENTRIES: usize = 32;

/// An entry: its names, and the bytes of its form.
#[derive(Clone, Debug, Default, PartialEq, Eq)]
pub struct Command {
    pub names: Vec<Name>,
    pub area: Vec<u8>,
    pub form: Vec<u8>,
}

impl Command {
    /// An entry whose names have parts of the area for themselves: type and text of each.
    pub fn new(names: &[(u16, &str)], form: Vec<u8>) -> Command {
        let mut command = Command { form, ..Command::default() };
        for (ty, text) in names {
            let (offset, length) = (command.area.len() as u16, text.len() as u16);
            command.names.push(Name { ty: *ty, offset, length });
            command.area.extend(text.bytes());
        }
        command
    }

    /// The entry of these bytes, if it is long enough for its names, all are good and short or long, and one is long.
    fn read(b: &[u8]) -> Option<Command> {
        if b.len() < 4 {
            return None;
        }
        let (count, size) = (u16_at(b, 0), u16_at(b, 2));
        let (area, form) = (4 + 6 * count, 4 + 6 * count + size);
        if count > NAMES || size > FORM_AREA || form > b.len() {
            return None;
        }
        let names: Vec<Name> = (0..count).map(|k| Name::read(b, 4 + 6 * k)).collect();
        let command = Command { names, area: b[area..form].to_vec(), form: b[form..].to_vec() };
        let good = |n: &Name| n.ty <= LONG && n.good(&command.area);
        let named = command.names.iter().all(good) && command.names.iter().any(|n| n.ty == LONG);
        named.then_some(command)
    }

    fn write(&self) -> Vec<u8> {
        let counts = [self.names.len() as u16, self.area.len() as u16];
        let mut out: Vec<u8> = counts.iter().flat_map(|c| c.to_le_bytes()).collect();
        self.names.iter().for_each(|n| n.write(&mut out));
        [&out[..], &self.area, &self.form].concat()
    }

    /// The names of a type, in record order.
    pub fn of_type(&self, ty: u16) -> impl Iterator<Item = &str> {
        let text = |n: &Name| std::str::from_utf8(n.bytes(&self.area)).expect("a checked name");
        self.names.iter().filter(move |n| n.ty == ty).map(text)
    }

    /// Its names in the order in which they are tried: the long ones before the short ones.
    pub fn tried(&self) -> impl Iterator<Item = &str> {
        self.of_type(LONG).chain(self.of_type(SHORT))
    }
}

/// The bytes of a table.
pub fn write(commands: &[Command]) -> Vec<u8> {
    parts::write(&commands.iter().map(Command::write).collect::<Vec<_>>())
}

/// The entries of a table, and where each lies in it; refusal 11 otherwise.
fn entries(b: &[u8]) -> Result<Vec<(Range<usize>, Command)>, Refusal> {
    let read = |part: Range<usize>| Command::read(&b[part.clone()]).map(|command| (part, command));
    let all = parts::read(b, 1..=ENTRIES).ok().and_then(|parts| parts.into_iter().map(read).collect());
    all.ok_or(Refusal::new(11))
}

/// The entries of a table, whatever their forms are; refusal 11 otherwise.
pub fn read(b: &[u8]) -> Result<Vec<Command>, Refusal> {
    entries(b).map(|all| all.into_iter().map(|(_, command)| command).collect())
}

/// Where the form of an entry lies in its table; 11, or 28 if there is no such entry.
pub fn form_part(b: &[u8], entry: usize) -> Result<Range<usize>, Refusal> {
    let all = entries(b)?;
    let (part, command) = all.get(entry).ok_or(Refusal::new(28))?;
    Ok(part.end - command.form.len()..part.end)
}

/// A table whose forms are all accepted.
#[derive(Clone, Debug, PartialEq, Eq)]
pub struct Table {
    pub commands: Vec<Command>,
    pub forms: Vec<Form>,
}

/// A refusal, and the entry whose form is at fault with 1 to 4.
#[derive(Clone, Copy, Debug, PartialEq, Eq)]
pub struct TableRefusal {
    pub refusal: Refusal,
    pub entry: Option<usize>,
}

impl From<Refusal> for TableRefusal {
    fn from(refusal: Refusal) -> TableRefusal {
        TableRefusal { refusal, entry: None }
    }
}

impl Table {
    /// The table of these bytes: 11 of any entry comes before 1 to 4 of the first form that is not accepted.
    pub fn check(b: &[u8]) -> Result<Table, TableRefusal> {
        let commands = read(b)?;
        let accepted = |(k, command): (usize, &Command)| {
            Form::check(&command.form).map_err(|refusal| TableRefusal { refusal, entry: Some(k) })
        };
        let forms = commands.iter().enumerate().map(accepted).collect::<Result<Vec<Form>, TableRefusal>>()?;
        Ok(Table { commands, forms })
    }

    /// The letters of all forms together, of the nodes of a kind.
    pub fn letters(&self, kind: u16) -> Vec<char> {
        self.forms.iter().flat_map(|form| form.letters(kind)).collect()
    }
}

#[cfg(test)]
mod tests {
    use super::*;
    use crate::cases::wear_log;

    const LOG: [(u16, &str); 2] = [(LONG, "log"), (SHORT, "l")];

    fn number(commands: &[Command]) -> u32 {
        Table::check(&write(commands)).map_or_else(|r| r.refusal.number, |_| 0)
    }

    #[test]
    fn the_bytes_of_a_table() {
        let form = vec![7, 8, 9];
        let commands = [Command::new(&LOG, form.clone()), Command::new(&[(LONG, "")], Vec::new())];
        let bytes = [
            &[2, 0, 0, 0, 0, 0, 23, 0, 0, 0, 33, 0, 0, 0][..],
            &[2, 0, 4, 0, 1, 0, 0, 0, 3, 0, 0, 0, 3, 0, 1, 0],
            b"logl",
            &form,
            &[1, 0, 0, 0, 1, 0, 0, 0, 0, 0],
        ];
        assert_eq!(write(&commands), bytes.concat());
        assert_eq!(read(&bytes.concat()), Ok(commands.to_vec()));
        let part = |entry: usize| form_part(&bytes.concat(), entry);
        assert_eq!((part(0), part(1), part(2)), (Ok(34..37), Ok(47..47), Err(Refusal::new(28))));
    }

    #[test]
    fn long_names_are_tried_before_short_ones() {
        let [wear, log] = wear_log();
        assert_eq!(wear.tried().collect::<Vec<_>>(), ["wear", "w"]);
        assert_eq!(log.tried().collect::<Vec<_>>(), ["log", "l"]);
    }

    #[test]
    fn the_first_form_at_fault_is_told() {
        let [wear, log] = wear_log();
        let unformed = Command { form: Vec::new(), ..log.clone() };
        let refused = |commands: &[Command]| Table::check(&write(commands)).map(drop);
        let at = |number: u32, entry: usize| Err(TableRefusal { refusal: Refusal::new(number), entry: Some(entry) });
        assert_eq!(refused(&[wear.clone(), log.clone()]), Ok(()));
        assert_eq!(refused(&[wear.clone(), unformed.clone()]), at(1, 1));
        assert_eq!(refused(&[unformed.clone(), wear.clone(), unformed.clone()]), at(1, 0));
        // a name at fault in the last entry comes first
        let unnamed = Command { names: Vec::new(), ..log };
        assert_eq!(refused(&[unformed, unnamed]), Err(Refusal::new(11).into()));
    }

    #[test]
    fn each_limit_of_a_table() {
        let [_, log] = wear_log();
        assert_eq!((number(&[]), number(&vec![log.clone(); ENTRIES]), number(&vec![log.clone(); ENTRIES + 1])), (11, 0, 11));
        let names = |count: usize| Command { names: vec![log.names[0]; count], ..log.clone() };
        assert_eq!((number(&[names(0)]), number(&[names(NAMES)]), number(&[names(NAMES + 1)])), (11, 0, 11));
        let sized = |size: usize| Command { area: vec![b'l'; size], ..log.clone() };
        assert_eq!((number(&[sized(2)]), number(&[sized(FORM_AREA)]), number(&[sized(FORM_AREA + 1)])), (11, 0, 11));
    }

    #[test]
    fn each_fault_of_a_name() {
        let named = |ty: u16, text: &str| number(&[Command::new(&[(LONG, "log"), (ty, text)], wear_log()[1].form.clone())]);
        assert_eq!((named(LONG, ""), named(LONG, "é=-"), named(SHORT, "é"), named(SHORT, "-")), (0, 0, 0, 0));
        assert_eq!((named(SHORT, ""), named(SHORT, "lo"), named(TEXT, "l"), named(TEXT + 1, "l")), (11, 11, 11, 11));
        let [_, log] = wear_log();
        let short = Command { names: vec![log.names[1]; 2], ..log.clone() };
        let broken = Command { area: b"l\xffg".to_vec(), ..log.clone() };
        assert_eq!((number(&[short]), number(&[broken])), (11, 11));
        let past = |offset: u16, length: u16| {
            let names = vec![log.names[0], Name { ty: LONG, offset, length }];
            number(&[Command { names, ..log.clone() }])
        };
        assert_eq!((past(3, 0), past(0, 3), past(4, 0), past(1, 3), past(u16::MAX, u16::MAX)), (0, 0, 11, 11, 11));
    }

    #[test]
    fn each_fault_of_an_offset() {
        let good = write(&wear_log());
        let length = (good.len() - 14) as u32;
        let with = |at: usize, offset: u32| {
            let mut table = good.clone();
            table[2 + 4 * at..6 + 4 * at].copy_from_slice(&offset.to_le_bytes());
            Table::check(&table).map_or_else(|r| r.refusal.number, |_| 0)
        };
        let middle = u32_at(&good, 6);
        assert_eq!((with(0, 0), with(1, middle), with(2, length)), (0, 0, 0));
        assert_eq!((with(0, 1), with(1, length + 1), with(1, u32::MAX)), (11, 11, 11));
        assert_eq!((with(2, length - 1), with(2, length + 1), with(2, 0)), (11, 11, 11));
        let cut = |length: usize| Table::check(&good[..length]).is_err_and(|r| r == Refusal::new(11).into());
        assert!((0..good.len()).all(cut));
        assert!(read(&[&good[..], &[0]].concat()).is_err());
    }
}
