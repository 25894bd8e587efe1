//! Parsers with types: what the form check would refuse does not compile.

use std::ffi::OsStr;
use std::fmt;
use std::marker::PhantomData;
use std::ops::RangeInclusive;

use crate::names::Names;
use crate::node::{Node, Takes};
use crate::shape::{Argument, Catch, Many, Once, Positional, Repeated, Shape, Single};
use crate::value::Words;

mod sealed {
    pub trait Sealed {}
}

/// Stands for a text in the type of a parser. Its value is an `&OsStr`, a part of the caller's arguments.
#[derive(Clone, Copy, Debug)]
pub enum Text {}

/// A kind of value: a [`Base`], an optional one, a list, a list of optional ones, or an optional list.
pub trait Kind: sealed::Sealed {
    /// The value as it is handed out; texts live as long as the arguments and the form.
    type Value<'a>;

    #[doc(hidden)]
    fn read<'a>(words: &mut Words<'_, 'a>) -> Self::Value<'a>;
}

/// A base value: `bool` (yes/no), `u32` (a number) or [`Text`].
pub trait Base: Kind {}

/// What an argument or a positional can take: `u32` or [`Text`].
pub trait Taken: Base {
    #[doc(hidden)]
    const TAKES: Takes;
}

/// What can be repeated: a [`Base`] or an optional one.
pub trait Element: Kind {}

impl sealed::Sealed for bool {}
impl Base for bool {}
impl Element for bool {}
impl Kind for bool {
    type Value<'a> = bool;
    fn read<'a>(words: &mut Words<'_, 'a>) -> bool {
        words.yes_no()
    }
}

impl sealed::Sealed for u32 {}
impl Base for u32 {}
impl Element for u32 {}
impl Kind for u32 {
    type Value<'a> = u32;
    fn read<'a>(words: &mut Words<'_, 'a>) -> u32 {
        words.number()
    }
}
impl Taken for u32 {
    const TAKES: Takes = Takes::Number;
}

impl sealed::Sealed for Text {}
impl Base for Text {}
impl Element for Text {}
impl Kind for Text {
    type Value<'a> = &'a OsStr;
    fn read<'a>(words: &mut Words<'_, 'a>) -> &'a OsStr {
        words.text()
    }
}
impl Taken for Text {
    const TAKES: Takes = Takes::Text;
}

impl<K: Kind> sealed::Sealed for Option<K> {}
impl<B: Base> Element for Option<B> {}
impl<K: Kind> Kind for Option<K> {
    type Value<'a> = Option<K::Value<'a>>;
    fn read<'a>(words: &mut Words<'_, 'a>) -> Self::Value<'a> {
        words.optional(K::read)
    }
}

impl<K: Kind> sealed::Sealed for Vec<K> {}
impl<K: Kind> Kind for Vec<K> {
    type Value<'a> = Vec<K::Value<'a>>;
    fn read<'a>(words: &mut Words<'_, 'a>) -> Self::Value<'a> {
        words.list(K::read)
    }
}

/// A parser whose value is of the kind `K`. `S` says what may still be put to it, and is never written by hand.
///
/// Made by [`Names::switch`], [`Names::flag`], [`Names::argument`] and [`positional`], and from others by the methods here.
/// What cannot be right does not compile: a bound on a text, a repeat over a repeat, `catch` on what has none.
///
/// ```compile_fail
/// use silverpoise::{short, Text};
/// short('l').argument::<Text>().guard(1..=5); // a text is no number
/// ```
///
/// ```compile_fail
/// use silverpoise::short;
/// short('v').flag().count().optional().many(); // a many over a count
/// ```
///
/// ```compile_fail
/// use silverpoise::{positional, short};
/// positional::<u32>().or(short('v').flag()); // a number or a yes/no
/// ```
///
/// ```compile_fail
/// use silverpoise::{positional, Text};
/// positional::<Text>().last().catch(); // only optional, many and some have a catch
/// ```
pub struct Parser<K, S = Single> {
    node: Node,
    marker: PhantomData<fn() -> (K, S)>,
}

impl<K, S> Clone for Parser<K, S> {
    fn clone(&self) -> Parser<K, S> {
        Parser { node: self.node.clone(), marker: PhantomData }
    }
}

impl<K, S> fmt::Debug for Parser<K, S> {
    fn fmt(&self, f: &mut fmt::Formatter<'_>) -> fmt::Result {
        self.node.fmt(f)
    }
}

/// A word that is no option's value: a [`Text`] or a `u32`.
pub fn positional<T: Taken>() -> Parser<T, Positional> {
    Parser::of(Node::positional(T::TAKES))
}

impl Names {
    /// A flag that may be given: `true` or `false`.
    pub fn switch(self) -> Parser<bool> {
        Parser::of(Node::switch(self))
    }

    /// A flag that must be given; its value is `true`. Mostly under [`optional`](Parser::optional), [`count`](Parser::count)
    /// or [`or`](Parser::or): a switch that nobody gave counts as one.
    pub fn flag(self) -> Parser<bool> {
        Parser::of(Node::flag(self))
    }

    /// An option with a value: a [`Text`] or a `u32`.
    pub fn argument<T: Taken>(self) -> Parser<T, Argument> {
        Parser::of(Node::argument(self, T::TAKES))
    }
}

impl<K: Kind, S: Shape> From<Parser<K, S>> for Node {
    fn from(parser: Parser<K, S>) -> Node {
        parser.node
    }
}

impl<K: Kind, S: Shape> Parser<K, S> {
    fn of(node: Node) -> Parser<K, S> {
        Parser { node, marker: PhantomData }
    }

    /// Whichever of the two took what stands further left on the line. Both are tried; what the other took is left over.
    pub fn or<T: Shape>(self, other: Parser<K, T>) -> Parser<K, S::Or<T>> {
        Parser::of(self.node.or(other.node))
    }
}

impl<B: Base, S: Shape> Parser<B, S> {
    /// `None` where this parser finds nothing.
    pub fn optional(self) -> Parser<Option<B>, S::Optional> {
        Parser::of(self.node.optional())
    }
}

impl<B: Base, S: Shape> Parser<Vec<B>, S> {
    /// `None` where this parser finds nothing: of a [`some`](Parser::some) an empty list, else what makes no list.
    pub fn optional(self) -> Parser<Option<Vec<B>>, S::Optional> {
        Parser::of(self.node.optional())
    }
}

impl<E: Element, S: Once> Parser<E, S> {
    /// All that this parser finds, perhaps nothing.
    pub fn many(self) -> Parser<Vec<E>, Many> {
        Parser::of(self.node.many())
    }

    /// All that this parser finds, one at least.
    pub fn some(self) -> Parser<Vec<E>, Many> {
        Parser::of(self.node.some())
    }

    /// How often this parser finds something.
    pub fn count(self) -> Parser<u32, Repeated> {
        Parser::of(self.node.count())
    }

    /// The last that this parser finds.
    pub fn last(self) -> Parser<E, Repeated> {
        Parser::of(self.node.last())
    }
}

impl<K: Kind, S: Catch> Parser<K, S> {
    /// A value that is no number or out of its bounds counts as absent too, and is left over.
    pub fn catch(self) -> Parser<K, S> {
        Parser::of(self.node.catch())
    }
}

impl<T: Taken> Parser<T, Argument> {
    /// Its value must stand in the same argument of the line: `-w7`, `-w=7` or `--weight=7`, not `-w 7`.
    pub fn adjacent(self) -> Parser<T, Argument> {
        Parser::of(self.node.adjacent())
    }
}

impl<T: Taken> Parser<T, Positional> {
    /// Only words behind `--`; a word before it is refused.
    pub fn strict(self) -> Parser<T, Positional> {
        Parser::of(self.node.strict())
    }

    /// Only words before `--`.
    pub fn non_strict(self) -> Parser<T, Positional> {
        Parser::of(self.node.non_strict())
    }
}

impl<S: Shape> Parser<bool, S> {
    /// This value where the parser finds nothing.
    pub fn fallback(self, value: bool) -> Parser<bool, S::Plain> {
        Parser::of(self.node.fallback(value))
    }
}

impl<S: Shape> Parser<Text, S> {
    /// This value where the parser finds nothing.
    pub fn fallback(self, value: impl AsRef<OsStr>) -> Parser<Text, S::Plain> {
        Parser::of(self.node.fallback(value.as_ref()))
    }
}

impl<S: Shape> Parser<u32, S> {
    /// This value where the parser finds nothing.
    pub fn fallback(self, value: u32) -> Parser<u32, S::Plain> {
        Parser::of(self.node.fallback(value))
    }

    /// Refuses a number out of these bounds, a fallback's included.
    pub fn guard(self, bounds: RangeInclusive<u32>) -> Parser<u32, S::Plain> {
        Parser::of(self.node.guard(bounds))
    }
}
