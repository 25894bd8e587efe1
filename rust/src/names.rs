//! The names of a flag or an argument.

/// The names of one option: one or more, short (`-w`) and long (`--weight`) in any order.
///
/// Made by [`short`](crate::short) or [`long`](crate::long); `Names::default()` has none, and no form accepts an option
/// without a name.
#[derive(Clone, Debug, Default, PartialEq, Eq)]
pub struct Names {
    pub(crate) names: Vec<Name>,
}

#[derive(Clone, Debug, PartialEq, Eq)]
pub(crate) enum Name {
    Short(char),
    Long(String),
}

/// A short name, without its dash.
pub fn short(name: char) -> Names {
    Names::default().short(name)
}

/// A long name, without its two dashes.
pub fn long(name: impl Into<String>) -> Names {
    Names::default().long(name)
}

impl Names {
    /// A further short name.
    pub fn short(mut self, name: char) -> Names {
        self.names.push(Name::Short(name));
        self
    }

    /// A further long name.
    pub fn long(mut self, name: impl Into<String>) -> Names {
        self.names.push(Name::Long(name.into()));
        self
    }
}
