//! Batches that are known: a line for each number under forms that are accepted and at fault, slices of all lengths for every count
//! of sheets, every change of one byte of a few batches, and batches at the limits. Whatever else is at fault, 15 comes first.

use line::batches::{self, room, SHEETS};
use line::cases::{self, forms_at_fault, BatchCase};

use super::batches::{Batches, Given};

/// Just room for so many sheets; a word more in one slice or in all; a word less or none in one slice, or in all.
fn all_lengths(sheets: usize) -> Vec<[usize; 4]> {
    let least = room(sheets);
    let mut all = vec![least, least.map(|length| length + 1), least.map(|length| length.saturating_sub(1)), [0; 4]];
    for k in 0..4 {
        for length in [least[k] + 1, least[k] + 29, least[k].saturating_sub(1), 0] {
            let mut lengths = least;
            lengths[k] = length;
            all.push(lengths);
        }
    }
    all.sort_unstable();
    all.dedup();
    all
}

impl Batches {
    /// Every number that a sheet ends with in one batch; under a form at fault every record has the form's.
    fn each_number(&mut self) {
        let (case, numbers) = cases::each_number();
        let forms = forms_at_fault().into_iter().chain([(0, case.form.clone())]);
        for (number, form) in forms {
            let case = BatchCase { form, ..case.clone() };
            let told = self.batch(&Given::of(&case, room(numbers.len())));
            let ended: Vec<u32> = told[1].chunks_exact(4).map(|record| record[0]).collect();
            let expected = if number == 0 { numbers.clone() } else { vec![number; numbers.len()] };
            self.compared.same("numbers", &|| format!("a form with {number}"), ended, expected);
        }
    }

    /// Every count of sheets, from the numbers above in turn, over slices of all lengths.
    fn slices(&mut self) {
        let (case, _) = cases::each_number();
        for count in 0..=SHEETS {
            let sheets = case.sheets.iter().cycle().take(count).cloned().collect();
            let case = BatchCase { sheets, ..case.clone() };
            all_lengths(count).into_iter().for_each(|lengths| drop(self.batch(&Given::of(&case, lengths))));
        }
    }

    /// Every change of one byte, every length that is cut off, and a byte left over; with just room for the sheets, and for one
    /// more if there may be one.
    fn damaged(&mut self) {
        for case in cases::good_batches() {
            let good = batches::write(&case.sheets);
            for batch in cases::each_byte(&good) {
                for count in case.sheets.len()..=SHEETS.min(case.sheets.len() + 1) {
                    self.batch(&Given::new(&case.form, batch.clone(), room(count)));
                }
            }
        }
    }

    /// Batches at their limits, with room for them and without, under forms that are accepted and at fault.
    fn limits(&mut self) {
        let good = (0, cases::good_batches()[0].form.clone());
        for (_, form) in forms_at_fault().into_iter().chain([good]) {
            for batch in cases::limit_batches() {
                for lengths in [room(SHEETS + 2), room(2), [0; 4]] {
                    self.batch(&Given::new(&form, batch.clone(), lengths));
                }
            }
        }
        self.batch(&Given::of(&cases::largest_batch(), room(SHEETS)));
    }

    pub fn known(&mut self) {
        self.each_number();
        self.slices();
        self.damaged();
        self.limits();
    }
}
