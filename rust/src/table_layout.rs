//! A command table's bytes: written from names and forms, and read back as entries.

use crate::layout::{area_length, write_names};
use crate::node::{NameRecord, LONG};

/// The most commands of a table.
pub(crate) const COMMANDS: usize = 32;

/// A table's bytes: the names and the form of each command. The limits see to it that all numbers fit.
pub(crate) fn write<'a>(commands: impl Iterator<Item = (&'a [NameRecord], &'a [u8])>) -> Vec<u8> {
    let entries: Vec<Vec<u8>> = commands.map(|(names, form)| entry(names, form)).collect();
    let (lengths, mut out): (Vec<usize>, _) = (entries.iter().map(Vec::len).collect(), Vec::new());
    write_offsets(&mut out, &lengths);
    entries.iter().for_each(|entry| out.extend(entry));
    out
}

/// What stands before entries of these lengths, here and before the sheets of a batch: their count, and offsets of four bytes.
pub(crate) fn write_offsets(out: &mut Vec<u8>, lengths: &[usize]) {
    out.extend((lengths.len() as u16).to_le_bytes());
    let mut offset = 0_u32;
    out.extend(offset.to_le_bytes());
    for length in lengths {
        offset += *length as u32;
        out.extend(offset.to_le_bytes());
    }
}

fn entry(names: &[NameRecord], form: &[u8]) -> Vec<u8> {
    let mut out = Vec::new();
    [names.len(), area_length(names)].iter().for_each(|n| out.extend((*n as u16).to_le_bytes()));
    write_names(&mut out, names);
    out.extend(form);
    out
}

/// Any bytes, read as a table as far as they are one.
#[derive(Clone, Copy)]
pub(crate) struct TableLayout<'a> {
    bytes: &'a [u8],
}

impl<'a> TableLayout<'a> {
    pub fn of(bytes: &'a [u8]) -> TableLayout<'a> {
        TableLayout { bytes }
    }

    /// How many commands there are to be, if the bytes are enough to say it.
    pub fn commands(self) -> Option<usize> {
        u16_at(self.bytes, 0)
    }

    /// The bytes of an entry; none where its offsets are not there or do not fit the bytes.
    pub fn entry(self, number: usize) -> Option<EntryLayout<'a>> {
        let entries = self.bytes.get(2 + 4 * (self.commands()? + 1)..)?;
        let offset = |k: usize| {
            let at = 2 + 4 * k;
            Some(u16_at(self.bytes, at)? + (u16_at(self.bytes, at + 2)? << 16))
        };
        let (from, to) = (offset(number)?, offset(number + 1)?);
        let starts_right = number > 0 || from == 0;
        let ends_right = number + 1 < self.commands()? || to == entries.len();
        (starts_right && ends_right).then_some(EntryLayout { bytes: entries.get(from..to)? })
    }
}

/// The bytes of an entry.
#[derive(Clone, Copy)]
pub(crate) struct EntryLayout<'a> {
    bytes: &'a [u8],
}

impl<'a> EntryLayout<'a> {
    pub fn length(self) -> usize {
        self.bytes.len()
    }

    /// How many name records and how many bytes of their area there are to be.
    pub fn counts(self) -> Option<(usize, usize)> {
        Some((u16_at(self.bytes, 0)?, u16_at(self.bytes, 2)?))
    }

    /// A name record's type and bytes, if they are there.
    pub fn name(self, record: usize) -> Option<(u16, &'a [u8])> {
        let (records, area) = self.counts()?;
        let number = |k: usize| u16_at(self.bytes, 4 + 6 * record + 2 * k);
        let (ty, offset, length) = (number(0)?, number(1)?, number(2)?);
        let area_at = 4 + 6 * records;
        let area = self.bytes.get(area_at..area_at + area)?;
        Some((ty as u16, area.get(offset..offset + length)?))
    }

    /// What the command is called: its first long name.
    pub fn first_long(self) -> Option<&'a [u8]> {
        let mut names = (0..self.counts()?.0).filter_map(|record| self.name(record));
        names.find(|(ty, _)| *ty == LONG).map(|(_, name)| name)
    }
}

fn u16_at(bytes: &[u8], at: usize) -> Option<usize> {
    let two = bytes.get(at..at + 2)?;
    Some(u16::from_le_bytes([two[0], two[1]]) as usize)
}
