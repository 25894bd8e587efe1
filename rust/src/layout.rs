//! A form's bytes: written from records, and read back as records.

use crate::node::{kind, NameRecord, Node, Record};

/// The limits of a form: nodes, fields, name records, bytes of the area.
pub(crate) const NODES: usize = 64;
pub(crate) const FIELDS: usize = 16;
pub(crate) const NAMES: usize = 128;
pub(crate) const AREA: usize = 4096;

/// A form's bytes. All numbers must fit into two bytes, which the limits see to.
pub(crate) fn write(all: &Node, fields: &[usize]) -> Vec<u8> {
    let mut out = Vec::new();
    let mut put = |number: usize| out.extend((number as u16).to_le_bytes());
    [all.nodes.len(), fields.len(), all.names.len(), area_length(&all.names)].into_iter().for_each(&mut put);
    fields.iter().copied().for_each(put);
    for node in &all.nodes {
        [node.kind as usize, node.p, node.q, node.r].iter().for_each(|n| out.extend((*n as u16).to_le_bytes()));
        [node.lo, node.hi].iter().for_each(|n| out.extend(n.to_le_bytes()));
    }
    write_names(&mut out, &all.names);
    out
}

/// Name records, and the area with their bytes behind them.
pub(crate) fn write_names(out: &mut Vec<u8>, names: &[NameRecord]) {
    let mut offset = 0;
    for (ty, bytes) in names {
        [*ty as usize, offset, bytes.len()].iter().for_each(|n| out.extend((*n as u16).to_le_bytes()));
        offset += bytes.len();
    }
    names.iter().for_each(|(_, bytes)| out.extend(bytes));
}

/// The bytes of the area of these names.
pub(crate) fn area_length(names: &[NameRecord]) -> usize {
    names.iter().map(|(_, bytes)| bytes.len()).sum()
}

/// The records of a form of the right length and counts: any but one that is refused with 1.
#[derive(Clone, Copy)]
pub(crate) struct Layout<'a> {
    bytes: &'a [u8],
}

impl<'a> Layout<'a> {
    pub fn of(bytes: &'a [u8]) -> Layout<'a> {
        Layout { bytes }
    }

    fn u16_at(self, at: usize) -> usize {
        u16::from_le_bytes([self.bytes[at], self.bytes[at + 1]]) as usize
    }

    fn u32_at(self, at: usize) -> u32 {
        self.u16_at(at) as u32 + ((self.u16_at(at + 2) as u32) << 16)
    }

    pub fn nodes(self) -> usize {
        self.u16_at(0)
    }

    pub fn fields(self) -> usize {
        self.u16_at(2)
    }

    pub fn names(self) -> usize {
        self.u16_at(4)
    }

    /// The length of the area.
    pub fn area(self) -> usize {
        self.u16_at(6)
    }

    /// The length that the counts ask for.
    pub fn length(self) -> usize {
        8 + 2 * self.fields() + 16 * self.nodes() + 6 * self.names() + self.area()
    }

    /// The node number of a field.
    pub fn field(self, field: usize) -> usize {
        self.u16_at(8 + 2 * field)
    }

    pub fn node(self, node: usize) -> Record {
        let at = 8 + 2 * self.fields() + 16 * node;
        let number = |k: usize| self.u16_at(at + 2 * k);
        let (lo, hi) = (self.u32_at(at + 8), self.u32_at(at + 12));
        Record { kind: number(0) as u16, p: number(1), q: number(2), r: number(3), lo, hi, fallback: None }
    }

    /// A node of an accepted form and all that are beneath it, a choice's first side before its second.
    pub fn tree(self, node: usize) -> Vec<usize> {
        let beneath = self.node(node).children().flat_map(|child| self.tree(child));
        std::iter::once(node).chain(beneath).collect()
    }

    /// The nodes of a field of an accepted form.
    pub fn field_tree(self, field: usize) -> Vec<Record> {
        self.tree(self.field(field)).into_iter().map(|node| self.node(node)).collect()
    }

    /// The bytes of the same form, where the guards of the fields from this one on let every number through.
    pub fn without_guards(self, from: usize) -> Vec<u8> {
        let mut bytes = self.bytes.to_vec();
        let nodes = (from..self.fields()).flat_map(|field| self.tree(self.field(field)));
        for node in nodes.filter(|node| self.node(*node).kind == kind::GUARD) {
            let bounds = 8 + 2 * self.fields() + 16 * node + 8;
            bytes[bounds..bounds + 4].fill(0);
            bytes[bounds + 4..bounds + 8].fill(u8::MAX);
        }
        bytes
    }

    /// A name record's type, offset and length.
    fn name_record(self, record: usize) -> (u16, usize, usize) {
        let at = 8 + 2 * self.fields() + 16 * self.nodes() + 6 * record;
        (self.u16_at(at) as u16, self.u16_at(at + 2), self.u16_at(at + 4))
    }

    /// Whether a name record's part lies in the area.
    pub fn has_part(self, record: usize) -> bool {
        let (_, offset, length) = self.name_record(record);
        offset + length <= self.area()
    }

    /// A name record's type and bytes; no bytes where its part is not in the area.
    pub fn name(self, record: usize) -> (u16, &'a [u8]) {
        let (ty, offset, length) = self.name_record(record);
        let area = &self.bytes[self.length() - self.area()..];
        (ty, area.get(offset..offset + length).unwrap_or_default())
    }
}

#[cfg(test)]
mod tests {
    use super::*;
    use crate::names::short;
    use crate::node::Takes;

    /// The nodes of a later field may have lower numbers.
    #[test]
    fn guards_of_later_fields() {
        let guarded = |letter: char| Node::argument(short(letter), Takes::Number).guard(1..=9).guard(2..=8);
        let mut all = guarded('a');
        all.append(guarded('b'));
        let bytes = write(&all, &[5, 2]);
        let bounds = |bytes: &[u8]| [1, 2, 4, 5].map(|node| (Layout::of(bytes).node(node).lo, Layout::of(bytes).node(node).hi));
        let layout = Layout::of(&bytes);
        assert_eq!(bounds(&layout.without_guards(2)), bounds(&bytes));
        let open = (0, u32::MAX);
        assert_eq!(bounds(&layout.without_guards(1)), [open, open, (1, 9), (2, 8)]);
        assert_eq!(bounds(&layout.without_guards(0)), [open; 4]);
        assert_eq!((layout.without_guards(0).len(), layout.tree(5)), (bytes.len(), vec![5, 4, 3]));
    }
}
