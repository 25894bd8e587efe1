//! Marks: whether a place is used, and by what. A second reading of the rules, beside the definitions in crates/rules/specs.
//!
//! A mark is 0 for a place that is not used, 2 + w for one that lost to the place w and is not used either. From 510 on the
//! place is used: 510 is the opening `--`, 511 a command word, 512 + k what field k used, counted from 0.

use crate::format::*;

/// The opening `--`, which `construct` itself uses.
pub const MARKER: u16 = 510;
/// A command word, which `take_cmd` uses.
pub const COMMAND: u16 = 511;
/// What the first field uses.
pub const FIELD: u16 = 512;

/// Whether a mark says that its place is used.
pub fn used(mark: u16) -> bool {
    mark >= MARKER
}

/// The mark of what a field uses.
pub fn mark_of(field: usize) -> u16 {
    assert!(field < FIELDS, "there are at most {FIELDS} fields");
    FIELD + field as u16
}

/// How many fields there are for 28 and 29: those of the form, or as many as a form may have where a call has none.
pub fn fields_of(form: Option<&Form>) -> usize {
    form.map_or(FIELDS, |f| f.fields.len())
}

/// Whether refusal 29 lets a mark through, over so many items and so many fields: at whatever place, and however often.
pub fn mark_good(mark: u16, items: usize, fields: usize) -> bool {
    match usize::from(mark) {
        0 | 510 | 511 => true,
        m @ 512.. => m - 512 < fields,
        m => m >= 2 && m - 2 < items,
    }
}

/// Whether a node is another one or stands beneath it.
pub fn beneath(form: &Form, upper: usize, node: usize) -> bool {
    upper == node || form.nodes[upper].children().any(|child| beneath(form, child, node))
}

/// The field whose tree has a node: from each field down. Of an accepted form exactly one has it.
pub fn field_of(form: &Form, node: usize) -> usize {
    let has = |k: &usize| beneath(form, form.fields[*k] as usize, node);
    let mut fields = (0..form.fields.len()).filter(has);
    let first = fields.next().expect("each node is in a field's tree");
    assert_eq!(fields.next(), None, "no node is in two fields' trees");
    first
}

#[cfg(test)]
mod tests {
    use super::*;
    use crate::cases::{well_made, Rng};
    use crate::notation;

    #[test]
    fn marks_about_each_limit() {
        let good = |items: usize, fields: usize| (0..=u16::MAX).filter(|m| mark_good(*m, items, fields)).collect::<Vec<_>>();
        assert_eq!(good(0, 1), [0, 510, 511, 512]);
        assert_eq!(good(3, 2), [0, 2, 3, 4, 510, 511, 512, 513]);
        let most = good(256, 16);
        let conflicts: Vec<u16> = (2..=257).collect();
        assert_eq!(most, [&[0], &conflicts[..], &(510..=527).collect::<Vec<_>>()].concat());
        assert!((0..510).all(|m| !used(m)) && (510..=u16::MAX).all(used));
    }

    #[test]
    fn the_mark_of_a_field_is_good_under_its_number_alone() {
        for field in 0..FIELDS {
            let mark = mark_of(field);
            assert_eq!(usize::from(mark), 512 + field);
            assert!(used(mark) && mark_good(mark, 0, field + 1) && !mark_good(mark, 0, field));
        }
    }

    #[test]
    fn calls_without_a_form_have_sixteen_fields() {
        let form = notation::parse("switch(-v); many(operand)").expect("a form");
        assert_eq!((fields_of(Some(&form)), fields_of(None)), (2, 16));
    }

    #[test]
    fn the_field_of_a_node_in_a_written_form() {
        let mut form = notation::parse("switch(-v); choice(flag(-q), flag(-x)); optional(number(-w))").expect("a form");
        let fields = |form: &Form| (0..6).map(|k| field_of(form, k)).collect::<Vec<_>>();
        assert_eq!(fields(&form), [0, 1, 1, 1, 2, 2]);
        // fields go by their order in the form, not by the numbers of their nodes
        form.fields.rotate_left(1);
        assert_eq!(fields(&form), [2, 0, 0, 0, 1, 1]);
    }

    /// From the node up instead of from the fields down.
    fn climbed(form: &Form, node: usize) -> usize {
        let above = (0..form.nodes.len()).find(|k| form.nodes[*k].children().any(|c| c == node));
        match above {
            Some(parent) => climbed(form, parent),
            None => form.fields.iter().position(|k| *k as usize == node).expect("a field"),
        }
    }

    #[test]
    fn each_node_of_an_accepted_form_has_one_field() {
        let mut rng = Rng::new(8);
        for _ in 0..2_000 {
            let form = Form::check(&well_made(&mut rng).form).expect("an accepted form");
            (0..form.nodes.len()).for_each(|k| assert_eq!(field_of(&form, k), climbed(&form, k)));
        }
    }
}
