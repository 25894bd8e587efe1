//! What a take would do. A second reading of docs/FORMAT.md, written apart from the Rattle code: here the places are said by the
//! rule of each take, and not found by comparing marks.

use crate::forged::{records, refusal, Call, Lent, State};
use crate::format::*;
use crate::marks::{mark_of, used, COMMAND};

/// The number and the place plus 1, the answer in three numbers, the places, and the state that would result.
#[derive(Clone, Debug, PartialEq, Eq)]
pub struct Preview {
    pub told: [u32; 5],
    pub places: Vec<usize>,
    pub state: State,
}

/// Kinds of items by their number.
const SHORT_ITEM: u32 = 1;
const LONG_ITEM: u32 = 2;
const ARG_WORD: u32 = 3;
const WORD: u32 = 4;
const POS_WORD: u32 = 5;

/// An item record, with its bytes.
struct Item {
    kind: u32,
    adjacent: bool,
    character: u32,
    name: Vec<u8>,
    text: Vec<u8>,
}

fn items(lent: &Lent) -> Vec<Item> {
    let area = Sheet::check(lent.sheet).expect("a sheet that was let through").arguments.concat();
    let part = |at: u32, length: u32| area[at as usize..][..length as usize].to_vec();
    let read = |r: &[u32; 7]| Item {
        kind: r[0],
        adjacent: r[1] == 1,
        character: r[2],
        name: part(r[3], r[4]),
        text: part(r[5], r[6]),
    };
    records(lent.items).iter().map(read).collect()
}

/// Whether an item has one of a node's names; an adjacent argument asks that a value hangs on it.
fn has_name(form: &Form, node: usize, item: &Item) -> bool {
    let node = form.nodes[node];
    let names = (node.p as usize..node.p as usize + node.q as usize).map(|k| (form.names[k].ty, form.name(k)));
    let named = |(ty, name): (u16, &[u8])| match ty {
        SHORT => item.kind == SHORT_ITEM && std::str::from_utf8(name).is_ok_and(|n| n.chars().eq(char::from_u32(item.character))),
        _ => item.kind == LONG_ITEM && item.name == name,
    };
    let adjacent = node.kind == ARGUMENT && node.r % 2 == 1;
    names.into_iter().any(named) && (item.adjacent || !adjacent)
}

/// Whether a command's name may be compared with the text of an item.
fn may_be_command(item: &Item) -> bool {
    match item.kind {
        SHORT_ITEM | WORD => true,
        LONG_ITEM => !item.adjacent,
        _ => false,
    }
}

/// Refused: the state as it was given, and no places.
fn refused(number: u32, place: Option<usize>, state: &State) -> Preview {
    Preview { told: [number, place.map_or(0, |p| p as u32 + 1), 0, 0, 0], places: Vec::new(), state: *state }
}

/// These places are used with this mark, and the last of them is the current one.
fn using(mark: u16, places: &[usize], state: &State, [found, first, second]: [u32; 3]) -> Preview {
    let mut left = *state;
    for place in places {
        left.marks[*place] = mark;
        left.remaining -= 1;
        left.current = *place as u32 + 1;
    }
    Preview { told: [0, 0, found, first, second], places: places.to_vec(), state: left }
}

/// What one of the four takes would do.
pub fn preview(lent: &Lent, call: &Call) -> Preview {
    let state = lent.state;
    if let Some(r) = refusal(lent, call) {
        return refused(r.number, r.place, state);
    }
    let items = items(lent);
    let present = |k: &usize| !used(state.marks[*k]);
    let mut free = (state.start as usize..state.end as usize).filter(present);
    let form = || Form::check(lent.form).expect("a form that was let through");
    match *call {
        Call::TakeFlag(node, field) => match free.find(|k| has_name(&form(), node, &items[*k])) {
            None => using(0, &[], state, [0; 3]),
            Some(k) => using(mark_of(field), &[k], state, [1, 0, 0]),
        },
        Call::TakeArg(node, field) => {
            let Some(key) = free.find(|k| has_name(&form(), node, &items[*k])) else {
                return using(0, &[], state, [0; 3]);
            };
            match free.next() {
                Some(k) if k == key + 1 && [ARG_WORD, WORD].contains(&items[k].kind) => {
                    using(mark_of(field), &[key, k], state, [1, k as u32, 0])
                }
                _ => refused(22, Some(key), state),
            }
        }
        Call::TakePositional(field) => match free.find(|k| [WORD, POS_WORD].contains(&items[*k].kind)) {
            None => refused(20, None, state),
            Some(k) => using(mark_of(field), &[k], state, [1, k as u32, u32::from(items[k].kind == POS_WORD)]),
        },
        Call::TakeCmd(record) => match free.next().filter(|k| may_be_command(&items[*k]) && items[*k].text == form().name(record)) {
            None => using(0, &[], &State { current: 0, ..*state }, [0; 3]),
            Some(k) => using(COMMAND, &[k], state, [1, 0, 0]),
        },
        _ => unreachable!("not a take"),
    }
}

#[cfg(test)]
mod tests {
    use super::*;
    use crate::forged::ITEM_WORDS;
    use crate::notation;

    /// `-v`, `-w`, `x`, `y`, of which the marks are told.
    fn on(call: Call, marks: [u16; 4], current: u32) -> Preview {
        let form = notation::parse("flag(-v); text(-w); operand").expect("a form").write();
        let sheet = Sheet { arguments: ["-v", "-w", "x", "y"].map(|a| a.as_bytes().to_vec()).to_vec() }.write();
        let mut items = vec![0; ITEM_WORDS];
        let table = [[1, 0, 'v' as u32, 0, 0, 0, 2], [1, 0, 'w' as u32, 0, 0, 2, 2], [4, 0, 0, 0, 0, 4, 1], [4, 0, 0, 0, 0, 5, 1]];
        items[..28].copy_from_slice(&table.concat());
        let mut all = [0; 256];
        all[..4].copy_from_slice(&marks);
        let remaining = marks.iter().filter(|m| !used(**m)).count() as u32;
        let state = State { marks: all, count: 4, remaining, current, start: 0, end: 4 };
        preview(&Lent { form: &form, sheet: &sheet, items: &items, state: &state }, &call)
    }

    #[test]
    fn the_places_of_each_take() {
        let free = [0; 4];
        assert_eq!(on(Call::TakeFlag(0, 2), free, 0).places, [0]);
        assert_eq!(on(Call::TakeArg(1, 1), free, 0).places, [1, 2]);
        assert_eq!(on(Call::TakePositional(2), free, 0).places, [2]);
        assert_eq!(on(Call::TakePositional(2), [0, 0, 514, 0], 0).places, [3]);
        assert_eq!(on(Call::TakeCmd(0), free, 3).told, [0; 5], "`-v` is not `v`");
    }

    #[test]
    fn a_place_in_conflict_is_present() {
        let taken = on(Call::TakeArg(1, 1), [512, 2, 5, 3], 1);
        assert_eq!((taken.places, &taken.state.marks[..4]), (vec![1, 2], &[512, 513, 513, 3][..]));
        assert_eq!((taken.state.remaining, taken.state.current), (1, 3));
    }

    #[test]
    fn a_refused_take_has_no_places() {
        let refused = on(Call::TakeArg(1, 1), [0, 0, 514, 0], 3);
        assert_eq!((refused.told, refused.places.len(), refused.state.current), ([22, 2, 0, 0, 0], 0, 3));
        assert_eq!(on(Call::TakePositional(0), [0, 0, 512, 513], 4).told, [20, 0, 0, 0, 0]);
        assert_eq!(on(Call::TakeFlag(0, 3), [0; 4], 0).told, [28, 0, 0, 0, 0]);
    }

    #[test]
    fn a_command_that_is_not_taken_clears_current() {
        let not = on(Call::TakeCmd(0), [512, 0, 0, 0], 1);
        assert_eq!((not.told, not.places.len(), not.state.current), ([0; 5], 0, 0));
    }
}
