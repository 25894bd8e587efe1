//! Batches of sheets: their bytes, what refuses a batch (15), and what its four slices must hold. A second reading of the rules,
//! beside the definitions in crates/rules/specs.
//!
//! A batch is 0 to 32 sheets behind a count and offsets of four bytes. Each sheet has a record, and parts of the item, answer and
//! list slices that are as long as those of a single run; records and parts stand one after the other, and past them all is 0.

use std::ops::Range;

use crate::forged::{ANSWER_WORDS, ITEM_WORDS, LIST_WORDS};
use crate::looks::Misread;
use crate::parts;

pub use crate::parts::write;

/// As many sheets as a batch may have.
pub const SHEETS: usize = 32;

/// The words of a sheet's record, and of its parts of the item, answer and list slices.
pub const SINGLE: [usize; 4] = [4, ITEM_WORDS, ANSWER_WORDS, LIST_WORDS];

/// Records, items, answers and lists.
pub type Slices = [Vec<u32>; 4];

/// Why a batch is refused with 15: its bytes, or one of the four slices is too short.
#[derive(Clone, Copy, Debug, PartialEq, Eq, PartialOrd, Ord)]
pub enum Fault {
    Bytes(parts::Fault),
    Slice(usize),
}

/// The least lengths of the four slices for so many sheets.
pub fn room(sheets: usize) -> [usize; 4] {
    SINGLE.map(|words| words * sheets)
}

/// The bytes of each sheet, if the batch is well made and slices of these lengths have room for what is left of its sheets.
pub fn read(batch: &[u8], lengths: [usize; 4]) -> Result<Vec<&[u8]>, Fault> {
    let parts = parts::read(batch, 0..=SHEETS).map_err(Fault::Bytes)?;
    let least = room(parts.len());
    match (0..4).find(|k| lengths[*k] < least[*k]) {
        Some(short) => Err(Fault::Slice(short)),
        None => Ok(parts.into_iter().map(|part| &batch[part]).collect()),
    }
}

/// The number, and every word of slices of these lengths; `single` says what a single run leaves of a sheet's bytes.
pub fn run(batch: &[u8], lengths: [usize; 4], single: impl Fn(&[u8]) -> Slices) -> (u32, Slices) {
    let mut all = lengths.map(|length| vec![0; length]);
    let Ok(sheets) = read(batch, lengths) else { return (15, all) };
    for (k, sheet) in sheets.into_iter().enumerate() {
        let parts = single(sheet);
        (0..4).for_each(|j| all[j][part(j, k)].copy_from_slice(&parts[j]));
    }
    (0, all)
}

/// What a careful run leaves of a sheet of which a plain one leaves this, and in which this is the first word that looks like options.
/// The letter stands nowhere.
pub fn careful([record, items, answers, list]: Slices, misread: Option<&Misread>) -> Slices {
    match (record[0], misread) {
        (0, Some(word)) => {
            let refused = vec![50, word.place as u32 + 1, record[2], 0];
            [refused, items, vec![0; answers.len()], vec![0; list.len()]]
        }
        _ => [record, items, answers, list],
    }
}

/// Where the record of sheet k, or its part of another slice, stands in that slice.
pub fn part(slice: usize, k: usize) -> Range<usize> {
    SINGLE[slice] * k..SINGLE[slice] * (k + 1)
}

#[cfg(test)]
mod tests {
    use super::*;
    use crate::parts::Fault::*;

    fn fault(batch: &[u8]) -> Option<parts::Fault> {
        match read(batch, room(SHEETS)) {
            Ok(_) => None,
            Err(Fault::Bytes(fault)) => Some(fault),
            Err(Fault::Slice(_)) => panic!("there is room"),
        }
    }

    #[test]
    fn the_bytes_of_a_batch() {
        assert_eq!(write(&[]), [0, 0, 0, 0, 0, 0]);
        let sheets = [vec![7, 8], vec![], vec![9]];
        let batch = [&[3, 0, 0, 0, 0, 0, 2, 0, 0, 0, 2, 0, 0, 0, 3, 0, 0, 0][..], &[7, 8, 9]].concat();
        assert_eq!(write(&sheets), batch);
        assert_eq!(read(&batch, room(3)), Ok(vec![&[7, 8][..], &[], &[9]]));
    }

    #[test]
    fn each_fault_of_its_bytes() {
        let good = write(&[vec![7, 8], vec![9]]);
        let with = |at: usize, value: u8| fault(&[&good[..at], &[value], &good[at + 1..]].concat());
        assert_eq!(fault(&good), None);
        assert_eq!((with(0, 33), with(1, 1), with(0, 4)), (Some(Count), Some(Count), Some(Short)));
        assert_eq!((with(2, 1), with(5, 1)), (Some(First), Some(First)));
        assert_eq!((with(6, 4), with(9, 1), with(10, 1)), (Some(Falling), Some(Falling), Some(Falling)));
        assert_eq!((with(10, 4), with(13, 255), with(10, 2)), (Some(Past), Some(Past), Some(LeftOver)));
        assert_eq!((fault(&good[..1]), fault(&good[..13]), fault(&good[..16])), (Some(Short), Some(Short), Some(Past)));
        assert_eq!(fault(&[&good[..], &[0]].concat()), Some(LeftOver));
    }

    #[test]
    fn its_counts_and_its_length_have_their_limits() {
        let of = |count: usize, length: usize| fault(&write(&vec![vec![0; length]; count]));
        assert_eq!((of(0, 0), of(SHEETS, 0), of(SHEETS + 1, 0), of(256, 0)), (None, None, Some(Count), Some(Count)));
        // the area of a sheet ends at 32,768 bytes, a batch goes on
        assert_eq!(of(SHEETS, 70_000), None);
    }

    #[test]
    fn each_slice_has_room() {
        let batch = write(&vec![Vec::new(); 2]);
        for k in 0..4 {
            let mut lengths = room(2);
            lengths[k] -= 1;
            assert_eq!(read(&batch, lengths), Err(Fault::Slice(k)));
        }
        assert_eq!(read(&write(&[]), [0; 4]), Ok(Vec::new()));
    }

    #[test]
    fn parts_stand_one_after_the_other() {
        let single = |sheet: &[u8]| SINGLE.map(|words| vec![u32::from(sheet[0]); words]);
        let batch = write(&[vec![7], vec![9]]);
        let lengths = room(2).map(|length| length + 3);
        let (number, left) = run(&batch, lengths, single);
        assert_eq!(number, 0);
        for j in 0..4 {
            let expected = [vec![7; SINGLE[j]], vec![9; SINGLE[j]], vec![0; 3]].concat();
            assert_eq!(left[j], expected);
            assert_eq!(left[j][part(j, 1)], vec![9; SINGLE[j]]);
        }
        assert_eq!(run(&batch, [8, 9, 0, 5], single), (15, [8, 9, 0, 5].map(|length| vec![0; length])));
    }

    #[test]
    fn a_careful_run_keeps_items_and_tries() {
        let left = |record: [u32; 4]| [record.to_vec(), vec![7; 3], vec![8; 2], vec![9; 2]];
        let word = Misread { argument: 1, place: 4, letter: Some('7') };
        let refused = [vec![50, 5, 12, 0], vec![7; 3], vec![0; 2], vec![0; 2]];
        assert_eq!(careful(left([0, 0, 12, 2]), Some(&word)), refused);
        assert_eq!(careful(left([0, 0, 12, 2]), None), left([0, 0, 12, 2]));
        // what the plain run refuses stays
        assert_eq!(careful(left([27, 3, 12, 0]), Some(&word)), left([27, 3, 12, 0]));
    }
}
