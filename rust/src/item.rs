//! The items that a line splits into.

use std::ffi::OsStr;
use std::ops::Range;
use std::os::unix::ffi::OsStrExt;

/// One item of a line. The number of an item, counted from 0, is its *place*.
#[derive(Clone, Debug, PartialEq, Eq)]
#[non_exhaustive]
pub struct Item<'a> {
    /// what the item is, with its character or name
    pub kind: ItemKind<'a>,
    /// of a Short or Long: the item behind it came from the same argument as its value
    pub adjacent: bool,
    /// the item's text, a part of its argument; empty for the later flags of a cluster
    pub text: &'a OsStr,
    /// the number of the argument that the item came from
    pub argument: usize,
    /// the bytes of that argument that the item stands for: a letter of a cluster, a name, a word
    pub part: Range<usize>,
    /// whether the item was used, and by which field
    pub mark: Mark,
}

/// What an item is.
#[derive(Clone, Copy, Debug, PartialEq, Eq)]
pub enum ItemKind<'a> {
    /// an option by its character
    Short(char),
    /// an option by its long name
    Long(&'a OsStr),
    /// a value behind a `=`, or the rest of a short option with a `=`
    ArgWord,
    /// any other word
    Word,
    /// a word from `--` on
    PosWord,
}

/// Whether an item was used, and by whom.
///
/// ```
/// use silverpoise::{positional, short, Mark, Text, TypedForm, UsedBy};
///
/// let form = TypedForm::of((short('l').argument::<u32>().optional(), positional::<Text>().many()))?;
/// let line = form.read_line(&["-l7", "lock", "--", "-x"])?;
/// let marks: Vec<Mark> = line.items().iter().map(|item| item.mark).collect();
/// assert_eq!(marks[3], Mark::Used(UsedBy::Marker));
///
/// // who took what, by names of your own
/// let fields = ["limit", "parts"];
/// let names: Vec<&str> = marks.iter().map(|mark| mark.field().map_or("-", |field| fields[field])).collect();
/// assert_eq!(names, ["limit", "limit", "parts", "-", "parts"]);
/// # Ok::<(), Box<dyn std::error::Error>>(())
/// ```
#[derive(Clone, Copy, Debug, PartialEq, Eq)]
pub enum Mark {
    /// it was not used
    Unused,
    /// it was used
    Used(UsedBy),
    /// a choice was decided against this item by the item at that place; it is not used
    Conflict(usize),
}

/// Who used an item.
#[derive(Clone, Copy, Debug, PartialEq, Eq)]
pub enum UsedBy {
    /// the field of this number, counted from 0 in the order of the form
    Field(usize),
    /// nobody: it is the first `--`, which is used from the start
    Marker,
    /// nobody: it is the command word of a line of commands (docs/FORMAT.md, section 12)
    Command,
}

impl Mark {
    /// A mark by its number (docs/FORMAT.md, section 5). Numbers that no call writes are read as the rules define them.
    pub(crate) fn of(mark: u16) -> Mark {
        let mark = usize::from(mark);
        match mark {
            0 | 1 => Mark::Unused,
            2..=509 => Mark::Conflict(mark - 2),
            510 => Mark::Used(UsedBy::Marker),
            511 => Mark::Used(UsedBy::Command),
            _ => Mark::Used(UsedBy::Field(mark - 512)),
        }
    }

    /// Whether the item was used, by whomever.
    pub fn is_used(self) -> bool {
        matches!(self, Mark::Used(_))
    }

    /// The number of the field that used the item, counted from 0; none where no field did.
    pub fn field(self) -> Option<usize> {
        match self {
            Mark::Used(UsedBy::Field(field)) => Some(field),
            _ => None,
        }
    }
}

/// Seven words of the item slice.
type Record = [u32; 7];

/// Arguments and where each begins in the sheet's area.
#[derive(Clone, Copy)]
pub(crate) struct Area<'r, 'a> {
    pub args: &'r [&'a OsStr],
    pub starts: &'r [usize],
}

/// Where each argument begins when all stand one behind the other, as in the area.
pub(crate) fn starts<'r>(args: &'r [&OsStr]) -> impl Iterator<Item = usize> + 'r {
    args.iter().scan(0, |end, arg| {
        let start = *end;
        *end += arg.len();
        Some(start)
    })
}

impl<'a> Area<'_, 'a> {
    /// The argument that holds a part of one byte or more at this offset: the last that begins there or before.
    fn argument(&self, offset: usize) -> usize {
        self.starts.partition_point(|start| *start <= offset) - 1
    }

    /// A part of the area. No part of an item goes beyond its argument.
    pub fn part(&self, offset: u32, length: u32) -> &'a OsStr {
        if length == 0 {
            return OsStr::new("");
        }
        let argument = self.argument(offset as usize);
        let from = offset as usize - self.starts[argument];
        OsStr::from_bytes(&self.args[argument].as_bytes()[from..from + length as usize])
    }

    /// The items of these records, with their marks.
    pub fn items(&self, records: &[u32], marks: &[u16]) -> Vec<Item<'a>> {
        let mut items: Vec<Item<'a>> = Vec::with_capacity(records.len() / 7);
        for (record, mark) in records.chunks_exact(7).zip(marks) {
            let record: Record = record.try_into().expect("seven words");
            let (kind, text) = (self.kind(&record), self.part(record[5], record[6]));
            let argument = match (items.last(), text.is_empty(), kind) {
                (_, false, _) => self.argument(record[5] as usize),
                (Some(last), true, ItemKind::Word | ItemKind::PosWord) => last.argument + 1,
                // a later letter of a cluster, or nothing behind a `=`
                (Some(last), true, _) => last.argument,
                (None, true, _) => 0,
            };
            let part = self.shown_part(&items, kind, argument, text);
            items.push(Item { kind, adjacent: record[1] == 1, text, argument, part, mark: Mark::of(*mark) });
        }
        items
    }

    fn kind(&self, record: &Record) -> ItemKind<'a> {
        match record[0] {
            1 => ItemKind::Short(char::from_u32(record[2]).unwrap_or(char::REPLACEMENT_CHARACTER)),
            2 => ItemKind::Long(self.part(record[3], record[4])),
            3 => ItemKind::ArgWord,
            4 => ItemKind::Word,
            _ => ItemKind::PosWord,
        }
    }

    /// Which bytes of its argument an item stands for, behind the items before it.
    fn shown_part(&self, before: &[Item], kind: ItemKind, argument: usize, text: &OsStr) -> Range<usize> {
        let whole = self.args[argument].as_bytes();
        match kind {
            ItemKind::Long(name) => 0..2 + name.len(),
            // words end their argument
            ItemKind::ArgWord | ItemKind::Word | ItemKind::PosWord => whole.len() - text.len()..whole.len(),
            ItemKind::Short(letter) => {
                let letters = before.iter().rev().take_while(|item| item.argument == argument);
                let from = 1 + letters.map(|item| item.part.len()).sum::<usize>();
                let end = from + letter.len_utf8();
                // a `=` behind the first byte makes that byte the whole name, so there is no cluster
                let alone = from == 1 && (end == whole.len() || whole[2..].contains(&b'='));
                if alone {
                    0..end
                } else {
                    from..end
                }
            }
        }
    }
}

#[cfg(test)]
mod tests {
    use super::*;

    /// Every number is a mark, also those that no call writes; used is what is 510 or more.
    #[test]
    fn marks_by_their_numbers() {
        assert_eq!((Mark::of(0), Mark::of(1)), (Mark::Unused, Mark::Unused));
        assert_eq!((Mark::of(2), Mark::of(257), Mark::of(509)), (Mark::Conflict(0), Mark::Conflict(255), Mark::Conflict(507)));
        assert_eq!((Mark::of(510), Mark::of(511)), (Mark::Used(UsedBy::Marker), Mark::Used(UsedBy::Command)));
        assert_eq!((Mark::of(512), Mark::of(527)), (Mark::Used(UsedBy::Field(0)), Mark::Used(UsedBy::Field(15))));
        assert_eq!(Mark::of(u16::MAX).field(), Some(usize::from(u16::MAX) - 512));
        for mark in 0..=u16::MAX {
            assert_eq!((Mark::of(mark).is_used(), Mark::of(mark).field().is_some()), (mark >= 510, mark >= 512), "{mark}");
        }
    }
}
