//! Why an item was left over, or is a word.

use crate::ffi::{place, WhyAnswer};
use crate::shown::quoted;

/// Why an item of a line that is refused with 27 was left over: the first of these that holds of it, in this order
/// (docs/FORMAT.md, section 14). [`ReadError::reason`](crate::ReadError::reason) tells it of the item that the refusal is about,
/// [`Form::why`](crate::Form::why) of any other too.
///
/// It also says why an argument that looks like options is a word, where a line is refused with 50 (section 15): `UnknownLetter`
/// or `NotUtf8`.
#[derive(Clone, Copy, Debug, PartialEq, Eq)]
pub enum Reason {
    /// it lost a choice: the item at this place decided it for the other side
    LostTo(usize),
    /// it is an option that was given earlier too, by the same name: at this place, the nearest one
    GivenEarlier(usize),
    /// it is a value behind a `=`, and its option, the item before it, is used: it was taken without a value
    KeyUsed,
    /// it is an option, and the form has none of this name
    Unnamed,
    /// it is a word, and the form has no positional
    NoPositional,
    /// it is a word that looks like several options, as `-vx` does, and no option has this letter; it is the first such
    UnknownLetter(char),
    /// it is none of these
    Other,
    /// it is a word that looks like an option, and its name is not UTF-8; told of a word only, not of what was left over
    NotUtf8,
}

impl Reason {
    /// What the proved code told; none where it refused.
    pub(crate) fn of(why: WhyAnswer) -> Option<Reason> {
        match why.reason {
            1 => place(why.detail).map(Reason::LostTo),
            2 => place(why.detail).map(Reason::GivenEarlier),
            3 => Some(Reason::KeyUsed),
            4 => Some(Reason::Unnamed),
            5 => Some(Reason::NoPositional),
            6 => char::from_u32(why.detail).map(Reason::UnknownLetter),
            7 => Some(Reason::Other),
            _ => None,
        }
    }

    /// Why an argument that looks like options is a word, by the letter that a careful run gives with 50: there is no third cause.
    pub(crate) fn of_word(letter: u32) -> Reason {
        letter.checked_sub(1).and_then(char::from_u32).map_or(Reason::NotUtf8, Reason::UnknownLetter)
    }

    /// Why an argument that looks like options is a word, in words.
    pub(crate) fn word_cause(self) -> String {
        match self {
            Reason::UnknownLetter(letter) => format!("no option has the letter {}", quoted(letter.to_string().as_bytes())),
            _ => "its name is not UTF-8".to_string(),
        }
    }
}

#[cfg(test)]
mod tests {
    use super::*;

    /// Each number of docs/FORMAT.md, section 14, with its detail.
    #[test]
    fn reasons_by_their_numbers() {
        let of = |reason: u32, detail: u32| Reason::of(WhyAnswer { number: 0, place: 0, reason, detail });
        assert_eq!((of(1, 1), of(1, 256)), (Some(Reason::LostTo(0)), Some(Reason::LostTo(255))));
        assert_eq!((of(2, 1), of(2, 256)), (Some(Reason::GivenEarlier(0)), Some(Reason::GivenEarlier(255))));
        assert_eq!((of(3, 0), of(4, 0), of(5, 0)), (Some(Reason::KeyUsed), Some(Reason::Unnamed), Some(Reason::NoPositional)));
        assert_eq!((of(6, 0x10ffff), of(7, 0)), (Some(Reason::UnknownLetter('\u{10ffff}')), Some(Reason::Other)));
        assert_eq!(Reason::of(WhyAnswer { number: 28, place: 0, reason: 0, detail: 0 }), None);
        assert_eq!((Reason::of_word(0), Reason::of_word(1)), (Reason::NotUtf8, Reason::UnknownLetter('\0')));
        assert_eq!(Reason::of_word(0x110000), Reason::UnknownLetter('\u{10ffff}'));
    }
}
