//! Lines that lack most of what a form asks for.

use super::Line;
use crate::format::*;

impl Line<'_> {
    /// What two leaves at most ask for, in half of the cases a `--`, and a few words on either side.
    pub fn sparse(mut self) -> Sheet {
        for _ in 0..self.rng.below(3) {
            let leaf = self.leaf();
            self.fit(leaf, 0, 9);
        }
        if self.rng.chance(1, 2) {
            self.out.push(b"--".to_vec());
            self.out.append(&mut self.strict);
        }
        for _ in 0..self.rng.below(3) {
            let word: &[u8] = *self.rng.pick::<&[u8]>(&[b"a", b"7", b"x", b"-z"]);
            let at = if self.rng.chance(3, 4) { self.out.len() } else { 0 };
            self.out.insert(at, word.to_vec());
        }
        self.sheet()
    }
}
