//! Values as text, written alike for both sides, so that what is timed is known to be the same answer.

use std::ffi::OsString;

use line::{forged::records, format::*};

/// A value that one of bpaf's parsers hands out.
pub trait Shown {
    fn show(&self) -> String;
}

impl Shown for bool {
    fn show(&self) -> String {
        if *self { "yes" } else { "no" }.to_string()
    }
}

impl Shown for u32 {
    fn show(&self) -> String {
        self.to_string()
    }
}

/// What bpaf's `count` gives.
impl Shown for usize {
    fn show(&self) -> String {
        self.to_string()
    }
}

impl Shown for OsString {
    fn show(&self) -> String {
        format!("{:?}", self.to_string_lossy())
    }
}

impl<T: Shown> Shown for Option<T> {
    fn show(&self) -> String {
        self.as_ref().map_or("absent".to_string(), |v| format!("present {}", v.show()))
    }
}

impl<T: Shown> Shown for Vec<T> {
    fn show(&self) -> String {
        format!("[{}]", self.iter().map(Shown::show).collect::<Vec<_>>().join(", "))
    }
}

macro_rules! shown_tuples {
    ($($($field:ident)+;)+) => {$(
        impl<$($field: Shown),+> Shown for ($($field,)+) {
            #[allow(non_snake_case)]
            fn show(&self) -> String {
                let ($($field,)+) = self;
                [$($field.show()),+].join("; ")
            }
        }
    )+};
}

shown_tuples! {
    A;
    A B;
    A B C;
    A B C D;
    A B C D E;
    A B C D E F;
    A B C D E F G H I;
}

/// An answer of the proved code as the same text.
pub struct Answered<'a> {
    pub form: &'a Form,
    pub arguments: &'a [Vec<u8>],
    pub items: &'a [u32],
    pub words: &'a [u32],
}

impl Answered<'_> {
    /// The fields' values, in order.
    pub fn show(&self) -> String {
        let kinds = self.form.kinds().expect("an accepted form");
        let mut words = self.words.iter().copied();
        let fields: Vec<String> = self.form.fields.iter().map(|k| self.value(kinds[*k as usize], &mut words)).collect();
        assert_eq!(words.next(), None, "every word belongs to a field");
        fields.join("; ")
    }

    fn value(&self, kind: Kind, words: &mut impl Iterator<Item = u32>) -> String {
        let first = words.next().expect("a word of the answer");
        match kind {
            Kind::Base(Base::YesNo) => (first == 1).show(),
            Kind::Base(Base::Number) => first.show(),
            Kind::Base(Base::Text) => format!("{:?}", String::from_utf8_lossy(&self.text(first))),
            Kind::Optional(_) | Kind::OptionalList(_) if first == 0 => "absent".to_string(),
            Kind::Optional(base) => format!("present {}", self.value(Kind::Base(base), words)),
            Kind::OptionalList(base) => format!("present {}", self.value(Kind::List(base), words)),
            Kind::List(base) => self.list(first, Kind::Base(base), words),
            Kind::ListOfOptional(base) => self.list(first, Kind::Optional(base), words),
        }
    }

    fn list(&self, length: u32, element: Kind, words: &mut impl Iterator<Item = u32>) -> String {
        let mut all = Vec::new();
        for _ in 0..length {
            all.push(self.value(element, words));
        }
        format!("[{}]", all.join(", "))
    }

    fn text(&self, word: u32) -> Vec<u8> {
        if word >= 256 {
            return self.form.name(word as usize - 256).to_vec();
        }
        let [.., offset, length] = records(self.items)[word as usize];
        self.arguments.concat()[offset as usize..][..length as usize].to_vec()
    }
}
