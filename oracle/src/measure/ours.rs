//! The proved code as a caller sees it: the three slices that a run is lent, and what is done with them.

use std::hint::black_box;

use line::forged::{ANSWER_WORDS, ITEM_WORDS, LIST_WORDS};
use proved::{RunAnswer, SplitAnswer};

/// An item is written as so many words.
pub const RECORD_WORDS: usize = 7;

/// What a run is lent to write into.
pub struct Slices {
    pub items: Vec<u32>,
    pub answers: Vec<u32>,
    pub list: Vec<u32>,
}

impl Slices {
    pub fn new() -> Slices {
        Slices::of([ITEM_WORDS, ANSWER_WORDS, LIST_WORDS])
    }

    /// Slices of so many words: items, answers, list.
    pub fn of(words: [usize; 3]) -> Slices {
        let [items, answers, list] = words.map(|n| vec![0; n]);
        Slices { items, answers, list }
    }

    #[inline(always)]
    pub fn run(&mut self, form: &[u8], sheet: &[u8]) -> RunAnswer {
        proved::run(form, sheet, &mut self.items, &mut self.answers, &mut self.list)
    }

    pub fn split(&mut self, form: &[u8], sheet: &[u8]) -> SplitAnswer {
        proved::split(form, sheet, &mut self.items)
    }

    /// The floor of a run that leaves so many items: every word of the three slices but their records becomes 0.
    pub fn clear(&mut self, items: usize) {
        black_box(&mut self.items[RECORD_WORDS * items..]).fill(0);
        black_box(&mut self.answers[..]).fill(0);
        black_box(&mut self.list[..]).fill(0);
    }
}
