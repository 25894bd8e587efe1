//! Forms whose values are a tuple of Rust types.

use std::ffi::OsStr;
use std::fmt;
use std::marker::PhantomData;

use crate::form::Form;
use crate::form_error::FormError;
use crate::line::Line;
use crate::node::Node;
use crate::parser::{Kind, Parser};
use crate::read_error::ReadError;
use crate::reader::Reader;
use crate::shape::Shape;
use crate::value::Words;
use crate::warning::Warning;

mod sealed {
    pub trait Kinds {}
    pub trait Fields {}
}

/// The kinds of a form's fields: a tuple of one to sixteen [`Kind`]s, or of two forms those of each ([`Joined`]).
pub trait Kinds: sealed::Kinds {
    /// The values in field order: a tuple, or a pair of what each of two forms has.
    type Values<'a>;

    #[doc(hidden)]
    fn read<'a>(words: &mut Words<'_, 'a>) -> Self::Values<'a>;
}

/// The fields of a form: a tuple of one to sixteen [`Parser`]s.
pub trait Fields: sealed::Fields {
    /// The kinds of their values.
    type Kinds: Kinds;

    #[doc(hidden)]
    fn nodes(self) -> Vec<Node>;
}

macro_rules! tuples {
    ($($kind:ident $shape:ident),+) => {
        impl<$($kind: Kind),+> sealed::Kinds for ($($kind,)+) {}
        impl<$($kind: Kind),+> Kinds for ($($kind,)+) {
            type Values<'a> = ($($kind::Value<'a>,)+);
            fn read<'a>(words: &mut Words<'_, 'a>) -> Self::Values<'a> {
                ($($kind::read(words),)+)
            }
        }
        impl<$($kind: Kind, $shape: Shape),+> sealed::Fields for ($(Parser<$kind, $shape>,)+) {}
        impl<$($kind: Kind, $shape: Shape),+> Fields for ($(Parser<$kind, $shape>,)+) {
            type Kinds = ($($kind,)+);
            #[allow(non_snake_case)]
            fn nodes(self) -> Vec<Node> {
                let ($($kind,)+) = self;
                vec![$($kind.into()),+]
            }
        }
    };
}

/// The tuple, and every one that is shorter.
macro_rules! tuples_up_to {
    () => {};
    ($kind:ident $shape:ident $(, $kinds:ident $shapes:ident)*) => {
        tuples!($kind $shape $(, $kinds $shapes)*);
        tuples_up_to!($($kinds $shapes),*);
    };
}

tuples_up_to!(A Sa, B Sb, C Sc, D Sd, E Se, F Sf, G Sg, H Sh, I Si, J Sj, K Sk, L Sl, M Sm, N Sn, O So, P Sp);

/// The kinds of two forms that were joined ([`TypedForm::join`]); their values are a pair of the values of each.
pub struct Joined<A, B>(PhantomData<fn() -> (A, B)>);

impl<A: Kinds, B: Kinds> sealed::Kinds for Joined<A, B> {}
impl<A: Kinds, B: Kinds> Kinds for Joined<A, B> {
    type Values<'a> = (A::Values<'a>, B::Values<'a>);
    fn read<'a>(words: &mut Words<'_, 'a>) -> Self::Values<'a> {
        (A::read(words), B::read(words))
    }
}

/// A form whose values are a tuple of Rust types, in the order of its fields.
///
/// ```
/// use std::ffi::OsStr;
/// use silverpoise::{positional, short, Text, TypedForm};
///
/// let form = TypedForm::of((
///     short('v').long("verbose").switch(),
///     short('w').long("weight").argument::<u32>().guard(1..=9999).optional(),
///     positional::<Text>().many(),
/// ))?;
/// let (verbose, weight, words) = form.read(&["-vw7", "lock"])?;
/// assert_eq!((verbose, weight, words), (true, Some(7), vec![OsStr::new("lock")]));
/// # Ok::<(), Box<dyn std::error::Error>>(())
/// ```
pub struct TypedForm<K> {
    form: Form,
    fields: Vec<Node>,
    kinds: PhantomData<fn() -> K>,
}

impl<K> fmt::Debug for TypedForm<K> {
    fn fmt(&self, f: &mut fmt::Formatter<'_>) -> fmt::Result {
        self.form.fmt(f)
    }
}

impl<K: Kinds> TypedForm<K> {
    /// The form of these fields, a tuple of one to sixteen parsers. What the types let through and no form may have (an option
    /// without a name, bounds that hold nothing, too many names) is an error here.
    pub fn of(fields: impl Fields<Kinds = K>) -> Result<TypedForm<K>, FormError> {
        let fields = fields.nodes();
        let form = Form::of(fields.iter().cloned())?;
        Ok(TypedForm { form, fields, kinds: PhantomData })
    }

    /// This form's fields and then the other's on one line, as [`Form::join`] has it. The values are a pair: those of this form,
    /// and those of the other.
    ///
    /// ```
    /// use std::ffi::OsStr;
    /// use silverpoise::{positional, short, Text, TypedForm};
    ///
    /// let cradles = TypedForm::of((short('1').switch(), short('2').switch()))?;
    /// let rides = TypedForm::of((short('l').long("laps").argument::<u32>().fallback(1), positional::<Text>()))?;
    /// let both = cradles.join(&rides)?;
    /// let ((first, second), (laps, label)) = both.read(&["-2l7", "lock"])?;
    /// assert_eq!((first, second, laps, label), (false, true, 7, OsStr::new("lock")));
    /// # Ok::<(), Box<dyn std::error::Error>>(())
    /// ```
    ///
    /// A join is a form like others: it can be joined again, be a command's, and have help, which comes last:
    /// `a.join(&b)?.with_help()`.
    pub fn join<L: Kinds>(&self, other: &TypedForm<L>) -> Result<TypedForm<Joined<K, L>>, FormError> {
        let fields = [&self.fields[..], &other.fields].concat();
        Ok(TypedForm { form: self.form.join(&other.form)?, fields, kinds: PhantomData })
    }

    /// The same form, whose lines are read by bpaf's rules alone, as [`Form::as_bpaf`] has it.
    pub fn as_bpaf(self) -> TypedForm<K> {
        TypedForm { form: self.form.as_bpaf(), ..self }
    }

    /// Reads a line. The arguments are those behind the program's name ([`args`](crate::args) gives them); texts are parts of
    /// them, not copies. An argument that looks like options is not taken for a word ([`Form::as_bpaf`] shows the difference).
    pub fn read<'a, A: AsRef<OsStr>>(&'a self, args: &'a [A]) -> Result<K::Values<'a>, ReadError> {
        Reader::new().read(self, args)
    }

    /// Reads many lines, as [`Reader::read_many`] does.
    pub fn read_many<'a, L: AsRef<[A]>, A: AsRef<OsStr> + 'a>(
        &'a self,
        lines: &'a [L],
    ) -> Vec<Result<K::Values<'a>, ReadError>> {
        Reader::new().read_many(self, lines)
    }

    /// Reads a line, and keeps its items, which field used each of them, and the count of tries. The number of a field is its
    /// place in the tuple; in a join those of the second form are counted on.
    pub fn read_line<'a, A: AsRef<OsStr>>(&'a self, args: &'a [A]) -> Result<Line<'a, K::Values<'a>>, ReadError> {
        let mut reader = Reader::new();
        let run = reader.run(&self.form, args)?;
        Ok(Line::new(K::read(&mut Words::new(&run)), &run))
    }

    /// What of the form is easily overlooked, as [`Form::warnings`] has it.
    pub fn warnings(&self) -> Vec<Warning> {
        self.form.warnings()
    }

    /// The same form without types.
    pub fn form(&self) -> &Form {
        &self.form
    }

    pub(crate) fn into_form(self) -> Form {
        self.form
    }

    pub(crate) fn fields(&self) -> &[Node] {
        &self.fields
    }
}

impl Reader {
    /// Reads a line under a form with types, as [`TypedForm::read`] does.
    pub fn read<'a, K: Kinds, A: AsRef<OsStr>>(
        &mut self,
        form: &'a TypedForm<K>,
        args: &'a [A],
    ) -> Result<K::Values<'a>, ReadError> {
        let run = self.run(form.form(), args)?;
        Ok(K::read(&mut Words::new(&run)))
    }

    /// Reads many lines under a form with types: a result for each line, in order, and each the one that
    /// [`read`](Reader::read) gives. A line that is refused stops no other.
    ///
    /// ```
    /// use std::ffi::OsStr;
    /// use silverpoise::{positional, short, Reader, Text, TypedForm};
    ///
    /// let form = TypedForm::of((short('l').long("limit").argument::<u32>().fallback(500), positional::<Text>()))?;
    /// let orders = "lock -l7\nchain -l many\nbolt";
    /// let lines: Vec<Vec<&str>> = orders.lines().map(|order| order.split(' ').collect()).collect();
    ///
    /// let read = Reader::new().read_many(&form, &lines);
    /// assert_eq!((&read[0], &read[2]), (&Ok((7, OsStr::new("lock"))), &Ok((500, OsStr::new("bolt")))));
    /// assert_eq!(read[1].as_ref().unwrap_err().to_string(), "\
    /// `many` is not a number from 0 to 4294967295
    ///   chain -l many
    ///            ^^^^");
    /// # Ok::<(), Box<dyn std::error::Error>>(())
    /// ```
    ///
    /// There may be any number of lines: one call of the proved code reads 32 of them. A line that is refused is then read once
    /// more by itself, since its error has what such a call does not report: which field used which item, and why one was left
    /// over.
    pub fn read_many<'a, K: Kinds, L: AsRef<[A]>, A: AsRef<OsStr> + 'a>(
        &mut self,
        form: &'a TypedForm<K>,
        lines: &'a [L],
    ) -> Vec<Result<K::Values<'a>, ReadError>> {
        self.read_each(form.form(), lines, K::read)
    }
}
