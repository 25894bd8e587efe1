//! What looked in vain, where a line is refused with 20.

use std::fmt;
use std::ops::Range;

use crate::layout::Layout;
use crate::needs::{given, leaf_words};

/// A flag, an argument or a positional that looked for something and did not find it. Its `Display` says what that is, as in
/// "`-l` or `--limit`" or "an operand".
#[derive(Clone, Debug, PartialEq, Eq)]
#[non_exhaustive]
pub struct Missing {
    /// its names as they are given on a line, such as `-l` and `--limit`; a positional has none
    pub names: Vec<String>,
    /// the number of its node, counted as by [`FormError::place`](crate::FormError::place)
    pub node: usize,
    /// the places that it looked at
    pub scope: Range<usize>,
    words: String,
}

impl fmt::Display for Missing {
    fn fmt(&self, f: &mut fmt::Formatter<'_>) -> fmt::Result {
        f.write_str(&self.words)
    }
}

/// The entries of a list: node plus 1, scope start and scope end each, up to the zeros behind them.
pub(crate) fn read(layout: Layout, list: &[u32]) -> Vec<Missing> {
    let entries = list.chunks_exact(3).take_while(|entry| entry[0] > 0);
    entries.map(|entry| of(layout, entry[0] as usize - 1, entry[1] as usize..entry[2] as usize)).collect()
}

fn of(layout: Layout, node: usize, scope: Range<usize>) -> Missing {
    let record = layout.node(node);
    Missing { names: given(layout, &record), node, scope, words: leaf_words(layout, &record) }
}

#[cfg(test)]
mod tests {
    use super::*;
    use crate::layout;
    use crate::names::short;
    use crate::node::{Node, Takes};

    /// A list is read up to its zeros, or to its end. Names are as they are given, and escaped only in the words.
    #[test]
    fn lists() {
        let mut all = Node::argument(short('l').long("li\u{1b}mit"), Takes::Text).adjacent();
        all.append(Node::positional(Takes::Text).non_strict());
        let bytes = layout::write(&all, &[0, 1]);
        let seen = |list: &[u32]| read(Layout::of(&bytes), list);
        assert_eq!(seen(&[0; 192]), []);
        assert_eq!(seen(&[[2, 0, 3]; 64].concat()).len(), 64);

        let both = seen(&[2, 0, 3, 1, 1, 2, 0, 0, 0]);
        assert_eq!(
            (both.len(), both[0].node, both[0].scope.clone(), both[1].node, both[1].scope.clone()),
            (2, 1, 0..3, 0, 1..2)
        );
        assert_eq!((both[0].names.len(), both[0].to_string()), (0, "an operand before `--`".to_string()));
        assert_eq!(both[1].names, ["-l", "--li\u{1b}mit"]);
        assert_eq!(both[1].to_string(), "`-l` or `--li\\u{1b}mit` with its value in the same argument");
    }
}
