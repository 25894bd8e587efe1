//! Test cases: well-made and damaged forms, sheets, command tables and batches from a seed, cases at the limits, all short lines.
//!
//! The same seed gives the same bytes on every machine: the only source of choice is `Rng`.

mod batches;
mod commands;
mod contested;
mod damaged;
mod dashed;
mod forms;
mod idling;
mod joining;
mod left_over;
mod limits;
mod sheets;
mod short_lines;
mod tables;
#[cfg(test)]
mod tests;
mod wanting;

pub use batches::{
    agreeing, agreeing_dashed, batched, damaged_batch, dashed_batch, each_number, good_batches, largest_batch, limit_batches, BatchCase,
};
pub use commands::{commanded, damaged_commands, TableCase};
pub use contested::contested;
pub use damaged::{damaged, forms_at_fault};
pub use dashed::{dashed, dashed_commands};
pub use idling::idling;
pub use joining::{joining, limit_pairs, Pair};
pub use left_over::left_over;
pub use limits::{chain, limits, shared};
pub use short_lines::{sample_forms, short_lines};
pub use tables::{each_byte, good_tables, limit_tables, wear_log};
pub use wanting::wanting;

use crate::format::*;
use forms::{accepted, one_of, CROSSED, LISTING};
use sheets::Line;

/// A source of choices: splitmix64.
pub struct Rng {
    state: u64,
}

impl Rng {
    pub fn new(seed: u64) -> Rng {
        Rng { state: seed }
    }

    pub fn next(&mut self) -> u64 {
        self.state = self.state.wrapping_add(0x9e37_79b9_7f4a_7c15);
        let z = (self.state ^ (self.state >> 30)).wrapping_mul(0xbf58_476d_1ce4_e5b9);
        let z = (z ^ (z >> 27)).wrapping_mul(0x94d0_49bb_1331_11eb);
        z ^ (z >> 31)
    }

    /// A number below `n`, which is at most 2^32; 0 if `n` is 0.
    pub fn below(&mut self, n: usize) -> usize {
        (((self.next() >> 32) * n as u64) >> 32) as usize
    }

    /// A number from `low` to `high`, both included.
    pub fn between(&mut self, low: usize, high: usize) -> usize {
        low + self.below(high - low + 1)
    }

    /// Yes, `times` in `of`.
    pub fn chance(&mut self, times: usize, of: usize) -> bool {
        self.below(of) < times
    }

    /// One of a list that is not empty.
    pub fn pick<'a, T>(&mut self, from: &'a [T]) -> &'a T {
        &from[self.below(from.len())]
    }

    pub fn shuffle<T>(&mut self, items: &mut [T]) {
        for k in (1..items.len()).rev() {
            items.swap(k, self.below(k + 1));
        }
    }
}

/// The bytes of a form and of a sheet.
#[derive(Clone, Debug, PartialEq, Eq)]
pub struct Case {
    pub form: Vec<u8>,
    pub sheet: Vec<u8>,
}

impl Case {
    fn new(form: &Form, sheet: &Sheet) -> Case {
        Case {
            form: form.write(),
            sheet: sheet.write(),
        }
    }

    /// The form, then the sheet: what the program `bench` reads.
    pub fn joined(&self) -> Vec<u8> {
        [&self.form[..], &self.sheet].concat()
    }
}

/// A node without bounds.
fn node_of(kind: u16, p: u16, q: u16, r: u16) -> Node {
    let (lo, hi) = (0, 0);
    Node { kind, p, q, r, lo, hi }
}

/// An accepted form and a well-made sheet.
pub fn well_made(rng: &mut Rng) -> Case {
    let (form, sheet) = parts(rng);
    Case::new(&form, &sheet)
}

fn parts(rng: &mut Rng) -> (Form, Sheet) {
    if rng.chance(1, 64) {
        let form = match rng.chance(1, 2) {
            true => one_of(rng, &LISTING),
            false => accepted(rng),
        };
        let sheet = Line::new(rng, &form).long();
        return (form, sheet);
    }
    let form = match rng.chance(1, 24) {
        true => one_of(rng, &CROSSED),
        false => accepted(rng),
    };
    let sheet = Line::new(rng, &form).short();
    (form, sheet)
}
