//! Kinds of values.

#[derive(Clone, Copy, Debug, PartialEq, Eq)]
pub(crate) enum Base {
    YesNo,
    Text,
    Number,
}

#[derive(Clone, Copy, Debug, PartialEq, Eq)]
pub(crate) enum Kind {
    Base(Base),
    Optional(Base),
    List(Base),
    ListOfOptional(Base),
    OptionalList(Base),
}

impl Kind {
    /// A kind by the number that the proved code has for it.
    pub fn of_code(code: u32) -> Option<Kind> {
        let base = [Base::YesNo, Base::Text, Base::Number][(code.checked_sub(1)? % 3) as usize];
        Some(match (code - 1) / 3 {
            0 => Kind::Base(base),
            1 => Kind::Optional(base),
            2 => Kind::List(base),
            3 => Kind::ListOfOptional(base),
            4 => Kind::OptionalList(base),
            _ => return None,
        })
    }
}
