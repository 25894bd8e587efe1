//! Stands in for bpaf's src/meta_youmean.rs, which was not at hand. Only the rendering of messages uses it; no run does.

use crate::{args::State, item::ShortLong, Meta};

#[derive(Debug)]
pub(crate) enum Variant {
    CommandLong(&'static str),
    Flag(ShortLong),
}

#[derive(Debug)]
pub(crate) enum Suggestion {
    Variant(Variant),
    MissingDash(&'static str),
    ExtraDash(char),
    Nested(String, Variant),
}

pub(crate) fn suggest(_args: &State, _meta: &Meta) -> Option<(usize, Suggestion)> {
    panic!("stand-in reached: meta_youmean::suggest")
}
