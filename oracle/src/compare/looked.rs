//! A line that was run, as a careful run looks at it: how its arguments are read, and the items that it was split into.

use line::forged::{records, State};
use line::looks::{looks_like_options, Misread, Reading};

pub struct Looked {
    pub arguments: Vec<Vec<u8>>,
    pub reading: Reading,
    pub items: Vec<[u32; 7]>,
    area: Vec<u8>,
    marks: [u16; 256],
}

impl Looked {
    /// `items` is the slice that the run left.
    pub fn new(arguments: Vec<Vec<u8>>, reading: Reading, items: &[u32], state: &State) -> Looked {
        let area = arguments.concat();
        Looked { arguments, reading, items: records(items), area, marks: state.marks }
    }

    /// The Words that are an argument which looks like options, each with its place, as the second reading has them.
    pub fn misread_words(&self) -> Vec<(usize, [u32; 7])> {
        let parts = self.parts();
        let word = |m: &Misread| (m.place, [4, 0, 0, 0, 0, parts[m.argument].0, parts[m.argument].1]);
        self.reading.misread.iter().map(word).collect()
    }

    /// The same, as the items have them.
    pub fn whole_words(&self) -> Vec<(usize, [u32; 7])> {
        let parts = self.parts();
        let whole = |record: &[u32; 7]| record[0] == 4 && parts.contains(&(record[5], record[6]));
        let words = self.items.iter().copied().enumerate().filter(|(_, record)| whole(record));
        words.filter(|(_, record)| looks_like_options(self.text(record))).collect()
    }

    /// Offset and length of each argument.
    fn parts(&self) -> Vec<(u32, u32)> {
        let mut end = 0;
        let part = |argument: &Vec<u8>| {
            let start = end;
            end += argument.len() as u32;
            (start, end - start)
        };
        self.arguments.iter().map(part).collect()
    }

    fn text(&self, record: &[u32; 7]) -> &[u8] {
        &self.area[record[5] as usize..][..record[6] as usize]
    }

    /// Whether a Word that looks like options is no whole argument, and so the rest of a cluster.
    pub fn has_rest(&self) -> bool {
        let parts = self.parts();
        let rest = |record: &[u32; 7]| record[0] == 4 && !parts.contains(&(record[5], record[6]));
        self.items.iter().any(|record| rest(record) && looks_like_options(self.text(record)))
    }

    /// Whether an item of this kind has such a text.
    pub fn has(&self, kind: u32, test: impl Fn(&[u8]) -> bool) -> bool {
        self.items.iter().any(|record| record[0] == kind && test(self.text(record)))
    }

    /// Whether the place before this one has a name with nothing behind it, and the same field used both.
    pub fn is_value(&self, place: usize) -> bool {
        place > 0 && matches!(self.items[place - 1], [1 | 2, 0, ..]) && self.marks[place - 1] == self.marks[place]
    }

    pub fn has_dash_value(&self) -> bool {
        (0..self.items.len()).any(|k| self.items[k][0] == 4 && self.text(&self.items[k]) == b"-" && self.is_value(k))
    }
}
