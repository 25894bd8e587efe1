//! By which rules lines are read. Here alone it is chosen which call of the proved code reads them.

use crate::ffi::{self, CarefulAnswer, CarefulCommandAnswer, Refused};

/// By which rules lines are read.
#[derive(Clone, Copy, Debug, Default, PartialEq, Eq)]
pub(crate) enum Rules {
    /// bpaf's, and then 50: an argument that looks like options is not taken for a word
    #[default]
    Careful,
    /// bpaf's alone
    Plain,
}

/// The slices that a run writes.
pub(crate) struct Slices<'r> {
    pub items: &'r mut [u32],
    pub answers: &'r mut [u32],
    pub list: &'r mut [u32],
}

/// Words for the three slices, one behind the other.
pub(crate) fn buffer() -> Vec<u32> {
    vec![0; ffi::ITEM_WORDS + ffi::ANSWER_WORDS + ffi::LIST_WORDS]
}

impl Slices<'_> {
    /// Those that a buffer has.
    pub fn of(words: &mut [u32]) -> Slices<'_> {
        let (items, rest) = words.split_at_mut(ffi::ITEM_WORDS);
        let (answers, list) = rest.split_at_mut(ffi::ANSWER_WORDS);
        Slices { items, answers, list }
    }
}

impl Rules {
    /// Those of two forms made one: bpaf's alone only if both are read so.
    pub fn of_both(self, other: Rules) -> Rules {
        match (self, other) {
            (Rules::Plain, Rules::Plain) => Rules::Plain,
            _ => Rules::Careful,
        }
    }

    pub fn run(self, form: &[u8], sheet: &[u8], Slices { items, answers, list }: Slices) -> CarefulAnswer {
        match self {
            Rules::Careful => ffi::careful(form, sheet, items, answers, list),
            Rules::Plain => {
                let ffi::RunAnswer { number, place, tries, words, state } = ffi::run(form, sheet, items, answers, list);
                CarefulAnswer { number, place, tries, words, letter: 0, state }
            }
        }
    }

    pub fn run_commands(self, table: &[u8], sheet: &[u8], Slices { items, answers, list }: Slices) -> CarefulCommandAnswer {
        match self {
            Rules::Careful => ffi::careful_commands(table, sheet, items, answers, list),
            Rules::Plain => {
                let ran = ffi::run_commands(table, sheet, items, answers, list);
                let ffi::CommandAnswer { number, place, tries, words, comparisons, entry, state } = ran;
                CarefulCommandAnswer { number, place, tries, words, comparisons, entry, letter: 0, state }
            }
        }
    }

    pub fn run_batch(self, form: &[u8], batch: &[u8], records: &mut [u32], Slices { items, answers, list }: Slices) -> Refused {
        match self {
            Rules::Careful => ffi::careful_batch(form, batch, records, items, answers, list),
            Rules::Plain => ffi::run_batch(form, batch, records, items, answers, list),
        }
    }
}
