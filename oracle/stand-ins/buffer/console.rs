//! Stands in for bpaf's src/buffer/console.rs, which was not at hand. Only the rendering of messages uses it; no run does.
//! Being inside `buffer`, it sees what a `Doc` holds, so it also tells the harness the text of a help.

use super::Doc;

pub(crate) const MAX_WIDTH: usize = 100;

#[derive(Clone, Copy, Debug, Default)]
pub(crate) enum Color {
    #[default]
    Monochrome,
}

impl Doc {
    /// All of the text, with no style.
    pub(crate) fn plain(&self) -> &str {
        &self.payload
    }

    pub(crate) fn render_console(&self, _full: bool, _color: Color, _max_width: usize) -> String {
        panic!("stand-in reached: Doc::render_console")
    }

    pub fn monochrome(&self, _full: bool) -> String {
        panic!("stand-in reached: Doc::monochrome")
    }
}
