//! Many lines in one call: their sheets as one batch, and what the run of each left.

use std::ffi::OsStr;

use crate::ffi;
use crate::form::Form;
use crate::rules::Slices;
use crate::sheet;
use crate::table_layout::write_offsets;

/// The most lines of a batch.
pub(crate) const LINES: usize = 32;

/// The buffers of a batch. They grow to the largest batch that was run, and are kept.
#[derive(Debug, Default)]
pub(crate) struct Batch {
    /// the sheets, one behind the other, and the length of each
    sheets: Vec<u8>,
    lengths: Vec<usize>,
    bytes: Vec<u8>,
    records: Vec<u32>,
    items: Vec<u32>,
    answers: Vec<u32>,
    list: Vec<u32>,
}

/// What the run of a line left in a batch, where it was accepted.
pub(crate) struct Accepted<'r> {
    /// the item slice: the records of the items, and zeros behind them
    pub records: &'r [u32],
    pub words: &'r [u32],
}

impl Batch {
    /// Runs a form on the lines, at most [`LINES`].
    pub fn run(&mut self, form: &Form, lines: &[Vec<&OsStr>]) {
        self.write(lines);
        let count = lines.len();
        let records = room(&mut self.records, count * ffi::BATCH_RECORD_WORDS);
        let items = room(&mut self.items, count * ffi::ITEM_WORDS);
        let answers = room(&mut self.answers, count * ffi::ANSWER_WORDS);
        let list = room(&mut self.list, count * ffi::LIST_WORDS);
        let refused = form.rules().run_batch(form.bytes(), &self.bytes, records, Slices { items, answers, list });
        assert_eq!(refused.number, 0, "a batch that is well made and has room for its lines is run");
    }

    fn write(&mut self, lines: &[Vec<&OsStr>]) {
        self.sheets.clear();
        self.lengths.clear();
        for line in lines {
            let before = self.sheets.len();
            sheet::write(&mut self.sheets, line);
            self.lengths.push(self.sheets.len() - before);
        }
        self.bytes.clear();
        write_offsets(&mut self.bytes, &self.lengths);
        self.bytes.extend(&self.sheets);
    }

    /// What line `k` of the last run left; none where it was refused.
    pub fn accepted(&self, k: usize) -> Option<Accepted<'_>> {
        let [number, _, _, words] = part(&self.records, k, ffi::BATCH_RECORD_WORDS) else { return None };
        let (records, answers) = (part(&self.items, k, ffi::ITEM_WORDS), part(&self.answers, k, ffi::ANSWER_WORDS));
        (*number == 0).then(|| Accepted { records, words: &answers[..*words as usize] })
    }
}

/// A slice of this length, for which the buffer grows if it must.
fn room(buffer: &mut Vec<u32>, length: usize) -> &mut [u32] {
    if buffer.len() < length {
        buffer.resize(length, 0);
    }
    &mut buffer[..length]
}

fn part(slice: &[u32], k: usize, length: usize) -> &[u32] {
    &slice[k * length..][..length]
}
