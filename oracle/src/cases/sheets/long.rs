//! Lines near the limits on arguments, items and bytes.

use super::Line;
use crate::format::*;

impl Line<'_> {
    pub fn long(mut self) -> Sheet {
        match self.rng.below(10) {
            0 => {
                let count = self.rng.between(ARGUMENTS - 2, ARGUMENTS);
                self.fill(count);
            }
            1 | 2 => {
                let count = self.rng.between(ITEMS - 4, ITEMS - 1);
                self.fill(count);
                self.cluster();
            }
            3 => self.pairs(),
            4..=6 => self.long_cluster(),
            7 | 8 => {
                let count = self.rng.between(64, ARGUMENTS);
                while self.out.len() < count {
                    self.noise();
                }
            }
            _ => self.wide(),
        }
        if self.rng.chance(1, 6) {
            self.disturb();
        }
        self.sheet()
    }

    /// So many arguments of one item each.
    fn fill(&mut self, count: usize) {
        let lone: [&[u8]; 6] = [b"a", b"7", b"", b"-", b"a", b"4294967296"];
        let first = self.rng.below(lone.len());
        let same = self.rng.chance(1, 2);
        for _ in 0..count {
            let word = if same { lone[first] } else { *self.rng.pick(&lone) };
            self.out.push(word.to_vec());
        }
        // the last one, or one before it, starts the positionals
        if count > 0 && self.rng.chance(1, 5) {
            let last = self.out.len() - 1;
            let at = if self.rng.chance(1, 2) {
                last
            } else {
                last - self.rng.below(count)
            };
            self.out[at] = b"--".to_vec();
        }
    }

    /// Arguments of two items each, a few words before and behind them.
    fn pairs(&mut self) {
        let (before, count, behind) = (self.rng.below(3), self.rng.between(125, 128), self.rng.below(3));
        self.fill(before);
        for _ in 0..count {
            let value = self.value(true, 0, 9);
            let name = match self.longs.is_empty() {
                true => format!("-{}", self.argument_letter()).into_bytes(),
                false => {
                    let record = *self.rng.pick(&self.longs);
                    self.dashed(record)
                }
            };
            self.out.push([&name[..], b"=", &value].concat());
        }
        self.fill(behind);
    }

    /// A letter that is only a flag's, if the form has one.
    fn sure_letter(&mut self) -> char {
        let sure: Vec<char> = self
            .flags
            .iter()
            .copied()
            .filter(|c| !self.arguments.contains(c))
            .collect();
        match sure.is_empty() {
            true => self.flag_letter(),
            false => *self.rng.pick(&sure),
        }
    }

    /// Words, then a cluster that ends near the limit on items or far behind it.
    fn long_cluster(&mut self) {
        let words = *self.rng.pick(&[0, 0, 1, 100, 250, 253, 254, 255]);
        self.fill(words);
        let letters = match self.rng.below(4) {
            0 => 1000,
            _ => (ITEMS - words + 1).saturating_sub(self.rng.below(4)).max(1),
        };
        let letter = self.sure_letter();
        let mut cluster: String = std::iter::once('-')
            .chain(std::iter::repeat_n(letter, letters))
            .collect();
        match self.rng.below(6) {
            0 => cluster.push('z'),
            1 => cluster.push(self.both_letter()),
            2 => cluster.push(self.argument_letter()),
            3 => {
                cluster.push(self.argument_letter());
                cluster.push('7');
            }
            _ => {}
        }
        self.out.push(cluster.into_bytes());
        let behind = self.rng.below(3);
        self.fill(behind);
    }

    /// An area of 32,768 bytes or one less.
    fn wide(&mut self) {
        let area = SHEET_AREA - self.rng.below(2);
        let letter = self.sure_letter();
        match self.rng.below(5) {
            0 => self.out = (0..ARGUMENTS).map(|k| vec![b'a'; (area - k) / ARGUMENTS]).collect(),
            1 => self.out.push(vec![b'a'; area]),
            2 => {
                let mut argument = b"--width=".to_vec();
                argument.resize(area, b'7');
                self.out.push(argument);
            }
            3 => {
                let mut cluster = format!("-{}", String::from(letter).repeat(area)).into_bytes();
                cluster.truncate(area);
                self.out.push(cluster);
            }
            _ => {
                self.noise();
                let used: usize = self.out.iter().map(Vec::len).sum();
                let first = self.rng.below(area.saturating_sub(used) + 1);
                self.out.push(vec![b'b'; first]);
                self.out.push(vec![b'c'; area.saturating_sub(used + first)]);
            }
        }
    }
}
