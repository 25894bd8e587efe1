//! What may be put to a parser, as types: the second parameter of [`Parser`](crate::Parser).

mod sealed {
    pub trait Sealed {}
}

/// Every type of this module.
pub trait Shape: sealed::Sealed {
    /// behind a fallback or a guard
    type Plain: Shape;
    /// behind an optional
    type Optional: Shape;
    /// in a choice with another
    type Or<S: Shape>: Shape;
}

/// No repeat stands in the parser, so it may be repeated.
pub trait Once: Shape {}

/// The parser may have `catch`.
pub trait Catch: Shape {}

/// A flag, or a parser over others without a repeat.
pub enum Single {}
/// An argument: it may be adjacent.
pub enum Argument {}
/// A positional: it may be strict or non-strict.
pub enum Positional {}
/// An optional without a repeat.
pub enum Optional {}
/// A many, a some, or an optional over a repeat.
pub enum Many {}
/// Any other parser with a repeat in it.
pub enum Repeated {}

macro_rules! once {
    ($($shape:ty),+) => { $(
        impl sealed::Sealed for $shape {}
        impl Once for $shape {}
        impl Shape for $shape {
            type Plain = Single;
            type Optional = Optional;
            type Or<S: Shape> = S::Plain;
        }
    )+ };
}

macro_rules! repeated {
    ($($shape:ty),+) => { $(
        impl sealed::Sealed for $shape {}
        impl Shape for $shape {
            type Plain = Repeated;
            type Optional = Many;
            type Or<S: Shape> = Repeated;
        }
    )+ };
}

once!(Single, Argument, Positional, Optional);
repeated!(Many, Repeated);
impl Catch for Optional {}
impl Catch for Many {}
