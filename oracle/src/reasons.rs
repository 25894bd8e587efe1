//! Why a place was left over: a second reading of the rules, beside the definitions in crates/rules/specs.
//!
//! A run that ends in 27 leaves places that are still present. Of such a place the first of six facts is given that holds of the
//! state, the items, the form and the sheet, or that none does.

use crate::format::*;
use crate::marks::used;

#[derive(Clone, Copy, Debug, PartialEq, Eq)]
pub enum Reason {
    /// it lost a choice to this place
    LostChoice(usize),
    /// it is a name, and this is the nearest earlier place with the same
    GivenEarlier(usize),
    /// it is an ArgWord whose key is used
    KeyUsed,
    /// it is a Short or Long that no node names
    Unnamed,
    /// it is a Word or PosWord, and the form has no positional
    NoPositional,
    /// it is a cluster but for this letter, which is the first unknown one
    UnknownLetter(char),
    NoneOfThese,
}

impl Reason {
    /// The number of the reason, and its detail: a place plus 1, a character, or 0.
    pub fn numbers(self) -> (u32, u32) {
        match self {
            Reason::LostChoice(winner) => (1, winner as u32 + 1),
            Reason::GivenEarlier(place) => (2, place as u32 + 1),
            Reason::KeyUsed => (3, 0),
            Reason::Unnamed => (4, 0),
            Reason::NoPositional => (5, 0),
            Reason::UnknownLetter(letter) => (6, letter as u32),
            Reason::NoneOfThese => (7, 0),
        }
    }
}

/// As much of an item as the facts are about.
#[derive(PartialEq, Eq)]
enum Item<'a> {
    Short(u32),
    Long(&'a [u8]),
    ArgWord,
    /// offset and length of its text
    Word(usize, usize),
    PosWord,
}

/// The item of a record, whose parts lie in this area.
fn item<'a>(record: &[u32; 7], area: &'a [u8]) -> Item<'a> {
    let [kind, _, character, name_at, name_length, text_at, text_length] = record.map(|word| word as usize);
    match kind {
        1 => Item::Short(character as u32),
        2 => Item::Long(&area[name_at..][..name_length]),
        3 => Item::ArgWord,
        4 => Item::Word(text_at, text_length),
        5 => Item::PosWord,
        _ => panic!("an item of kind {kind}"),
    }
}

/// The nearest earlier place with the name that is given at a place, if that has one. Whether they are used does not matter.
pub fn given_earlier(items: &[[u32; 7]], area: &[u8], place: usize) -> Option<usize> {
    let name = item(&items[place], area);
    match name {
        Item::Short(_) | Item::Long(_) => (0..place).rev().find(|k| item(&items[*k], area) == name),
        _ => None,
    }
}

/// What a run was given, the refusal that it ended with (number 0 for none), and the items and marks that it left.
pub struct Ran<'a> {
    pub form: &'a [u8],
    pub sheet: &'a [u8],
    pub ended: Refusal,
    pub items: &'a [[u32; 7]],
    pub marks: &'a [u16],
}

impl Ran<'_> {
    /// Why a place was left over, or the refusal of the question.
    pub fn why(&self, place: usize) -> Result<Reason, Refusal> {
        let present = self.marks.get(place).is_some_and(|mark| !used(*mark));
        match self.ended.number {
            1..=9 | 14 => Err(self.ended),
            27 if present => Ok(self.left(place).reason()),
            _ => Err(Refusal::new(28)),
        }
    }

    fn left(&self, place: usize) -> Left<'_> {
        let form = Form::check(self.form).expect("27 comes with an accepted form");
        let sheet = Sheet::check(self.sheet).expect("27 comes with an accepted sheet");
        Left { form, area: sheet.arguments.concat(), sheet, items: self.items, marks: self.marks, place }
    }
}

/// A place that was left over, and what the facts about it are read off.
struct Left<'a> {
    form: Form,
    sheet: Sheet,
    area: Vec<u8>,
    items: &'a [[u32; 7]],
    marks: &'a [u16],
    place: usize,
}

impl Left<'_> {
    fn reason(&self) -> Reason {
        self.lost_choice()
            .or_else(|| self.given_earlier())
            .or_else(|| self.key_used())
            .or_else(|| self.unnamed())
            .or_else(|| self.no_positional())
            .or_else(|| self.unknown_letter())
            .unwrap_or(Reason::NoneOfThese)
    }

    fn item(&self) -> Item<'_> {
        item(&self.items[self.place], &self.area)
    }

    /// A present place has mark 0, or 2 and the winner.
    fn lost_choice(&self) -> Option<Reason> {
        let mark = usize::from(self.marks[self.place]);
        (mark != 0).then(|| Reason::LostChoice(mark - 2))
    }

    fn given_earlier(&self) -> Option<Reason> {
        given_earlier(self.items, &self.area, self.place).map(Reason::GivenEarlier)
    }

    fn key_used(&self) -> Option<Reason> {
        // the split puts an ArgWord right behind its key
        let value = self.item() == Item::ArgWord;
        (value && used(self.marks[self.place - 1])).then_some(Reason::KeyUsed)
    }

    fn unnamed(&self) -> Option<Reason> {
        let named = match self.item() {
            Item::Short(character) => char::from_u32(character).is_some_and(|c| self.letter_known(c)),
            Item::Long(name) => self.long_known(name),
            _ => return None,
        };
        (!named).then_some(Reason::Unnamed)
    }

    /// Whether a flag or an argument has a short name.
    fn letter_known(&self, letter: char) -> bool {
        [FLAG, ARGUMENT].iter().any(|kind| self.form.letters(*kind).contains(&letter))
    }

    /// Whether a flag or an argument has a long name.
    fn long_known(&self, name: &[u8]) -> bool {
        let named = |node: &&Node| [FLAG, ARGUMENT].contains(&node.kind);
        let mut records = self.form.nodes.iter().filter(named).flat_map(|node| node.p..node.p + node.q).map(usize::from);
        records.any(|k| self.form.names[k].ty == LONG && self.form.name(k) == name)
    }

    fn no_positional(&self) -> Option<Reason> {
        let word = matches!(self.item(), Item::Word(..) | Item::PosWord);
        let positional = self.form.nodes.iter().any(|node| node.kind == POSITIONAL);
        (word && !positional).then_some(Reason::NoPositional)
    }

    fn unknown_letter(&self) -> Option<Reason> {
        let Item::Word(at, length) = self.item() else { return None };
        let name = cluster_name(self.argument(at, length)?)?;
        let unknown = name.chars().find(|c| !self.letter_known(*c))?;
        Some(Reason::UnknownLetter(unknown))
    }

    /// The argument that is this part of the area. The rest of a cluster is none.
    fn argument(&self, at: usize, length: usize) -> Option<&[u8]> {
        let mut start = 0;
        for argument in &self.sheet.arguments {
            if (start, argument.len()) == (at, length) {
                return Some(argument);
            }
            start += argument.len();
        }
        None
    }
}

/// What stands behind one dash, if it is UTF-8 of two letters or more and has no `=` behind its first byte.
fn cluster_name(argument: &[u8]) -> Option<&str> {
    let name = argument.strip_prefix(b"-").filter(|name| !name.starts_with(b"-"))?;
    let text = std::str::from_utf8(name).ok()?;
    let letters = text.chars().count() >= 2 && !name[1..].contains(&b'=');
    letters.then_some(text)
}

#[cfg(test)]
mod tests {
    use super::*;
    use crate::notation;

    /// A line with its items: kind, character, and the part that is a name or a text, as offset and length.
    struct Known {
        form: Vec<u8>,
        sheet: Vec<u8>,
        items: Vec<[u32; 7]>,
        marks: Vec<u16>,
    }

    fn known(form: &str, line: &[&[u8]], items: &[(u32, char, u32, u32)], marks: &[u16]) -> Known {
        let record = |(kind, c, at, length): &(u32, char, u32, u32)| match kind {
            1 => [1, 0, *c as u32, 0, 0, 0, 0],
            2 => [2, 0, 0, *at, *length, 0, 0],
            kind => [*kind, 0, 0, 0, 0, *at, *length],
        };
        Known {
            form: notation::parse(form).expect("a form").write(),
            sheet: Sheet { arguments: line.iter().map(|a| a.to_vec()).collect() }.write(),
            items: items.iter().map(record).collect(),
            marks: marks.to_vec(),
        }
    }

    impl Known {
        fn ended(&self, ended: Refusal, place: usize) -> Result<Reason, Refusal> {
            Ran { form: &self.form, sheet: &self.sheet, ended, items: &self.items, marks: &self.marks }.why(place)
        }

        fn why(&self, place: usize) -> Result<Reason, Refusal> {
            self.ended(Refusal::at(27, 0), place)
        }
    }

    /// One argument that is a Word, under a form with a positional.
    fn word(form: &str, argument: &[u8]) -> Reason {
        let items = [(4, '-', if argument.is_empty() { 0 } else { 1 }, argument.len() as u32)];
        let line = known(form, &[b"a", argument], &[&[(4, '-', 0, 1)], &items[..]].concat(), &[512, 0]);
        line.why(1).expect("a reason")
    }

    #[test]
    fn each_fact_has_a_line() {
        let lost = known("choice(flag(-v), flag(-q))", &[b"-q", b"-v"], &[(1, 'q', 0, 0), (1, 'v', 0, 0)], &[512, 2]);
        assert_eq!(lost.why(1), Ok(Reason::LostChoice(0)));
        let again = known("switch(-v)", &[b"-v", b"-v"], &[(1, 'v', 0, 0); 2], &[512, 0]);
        assert_eq!(again.why(1), Ok(Reason::GivenEarlier(0)));
        let value = known("switch(-v)", &[b"-v=7"], &[(1, 'v', 0, 0), (3, '-', 3, 1)], &[512, 0]);
        assert_eq!(value.why(1), Ok(Reason::KeyUsed));
        let other = known("switch(-v); switch(--all)", &[b"-x", b"--al"], &[(1, 'x', 0, 0), (2, '-', 4, 2)], &[0, 0]);
        assert_eq!([0, 1].map(|k| other.why(k)), [Ok(Reason::Unnamed); 2]);
        let words = known("switch(-v)", &[b"a", b"--", b"b"], &[(4, '-', 0, 1), (5, '-', 1, 2), (5, '-', 3, 1)], &[0, 510, 0]);
        assert_eq!([0, 2].map(|k| words.why(k)), [Ok(Reason::NoPositional); 2]);
        assert_eq!(word("operand; switch(-v)", b"-vx"), Reason::UnknownLetter('x'));
        assert_eq!(word("operand; switch(-v)", b"b"), Reason::NoneOfThese);
    }

    #[test]
    fn the_first_fact_that_holds_is_given() {
        let twice = known("switch(-v)", &[b"-x", b"-x"], &[(1, 'x', 0, 0); 2], &[0, 2]);
        assert_eq!([0, 1].map(|k| twice.why(k)), [Ok(Reason::Unnamed), Ok(Reason::LostChoice(0))]);
        let unknown = Known { marks: vec![0, 0], ..twice };
        assert_eq!(unknown.why(1), Ok(Reason::GivenEarlier(0)));
        assert_eq!(word("switch(-v)", b"-vx"), Reason::NoPositional);
    }

    #[test]
    fn the_nearest_earlier_name_is_given_whether_it_is_used_or_not() {
        let items = [(1, 'v', 0, 0), (1, 'v', 0, 0), (2, '-', 6, 1), (4, '-', 7, 1), (1, 'v', 0, 0), (2, '-', 12, 1)];
        let line = known("switch(-v)", &[b"-v", b"-v", b"--v", b"v", b"-v", b"--v"], &items, &[512, 0, 0, 0, 0, 0]);
        let earlier = [1, 4, 5].map(|k| line.why(k));
        assert_eq!(earlier, [0, 1, 2].map(|k| Ok(Reason::GivenEarlier(k))));
        // a Short and a Long of the same text are two names
        assert_eq!(line.why(2), Ok(Reason::Unnamed));
    }

    #[test]
    fn a_key_that_is_not_used_leaves_no_reason_for_its_value() {
        let items = [(1, 'v', 0, 0), (1, 'v', 0, 0), (3, '-', 5, 1)];
        let line = known("switch(-v)", &[b"-v", b"-v=7"], &items, &[512, 0, 0]);
        assert_eq!([1, 2].map(|k| line.why(k)), [Ok(Reason::GivenEarlier(0)), Ok(Reason::NoneOfThese)]);
    }

    #[test]
    fn names_count_whether_adjacent_or_not_but_only_those_of_nodes() {
        let items = [(1, 'w', 0, 0), (2, '-', 4, 5), (4, '-', 9, 1)];
        let line = known("optional(number=(-w --width))", &[b"-w", b"--width", b"7"], &items, &[0, 0, 0]);
        assert_eq!([0, 1].map(|k| line.why(k)), [Ok(Reason::NoneOfThese); 2]);
        let mut form = Form::check(&line.form).expect("a form");
        (form.nodes[0].p, form.nodes[0].q) = (1, 1);
        let long = Known { form: form.write(), ..line };
        assert_eq!([0, 1].map(|k| long.why(k)), [Ok(Reason::Unnamed), Ok(Reason::NoneOfThese)]);
        (form.nodes[0].p, form.nodes[0].q) = (0, 1);
        let short = Known { form: form.write(), ..long };
        assert_eq!([0, 1].map(|k| short.why(k)), [Ok(Reason::NoneOfThese), Ok(Reason::Unnamed)]);
    }

    #[test]
    fn letters_of_a_word() {
        let form = "operand; switch(-v); switch(-\\xc3\\xa9); optional(text(-w))";
        let unknown = |argument: &str| word(form, argument.as_bytes());
        assert_eq!(unknown("-vzx"), Reason::UnknownLetter('z'));
        assert_eq!(unknown("-é€w"), Reason::UnknownLetter('€'));
        // the byte behind the dash belongs to the name even if it is `=`
        assert_eq!(unknown("-=v"), Reason::UnknownLetter('='));
        for argument in ["", "-", "b", "-é=z", "--z", "---"] {
            assert_eq!(unknown(argument), Reason::NoneOfThese, "{argument}");
        }
        assert_eq!(word(form, b"-vz\xff"), Reason::NoneOfThese, "not UTF-8");
        assert_eq!(word(form, b"--\xff"), Reason::NoneOfThese, "two dashes");
    }

    #[test]
    fn the_rest_of_a_cluster_is_no_argument() {
        let items = [(1, 'w', 0, 0), (4, '-', 2, 3), (4, '-', 5, 3)];
        let line = known("operand; optional(number=(-w))", &[b"-w-zx", b"-zx"], &items, &[0, 0, 0]);
        assert_eq!([1, 2].map(|k| line.why(k)), [Ok(Reason::NoneOfThese), Ok(Reason::UnknownLetter('z'))]);
    }

    #[test]
    fn refused_as_the_run_or_with_28() {
        let line = known("switch(-v)", &[b"-v", b"-v"], &[(1, 'v', 0, 0); 2], &[512, 0]);
        for number in (1..=9).chain([14]) {
            let ended = Refusal::at(number, 3);
            assert_eq!([0, 1, 2].map(|k| line.ended(ended, k)), [Err(ended); 3]);
        }
        for number in (20..=26).chain([0]) {
            assert_eq!(line.ended(Refusal::at(number, 1), 1), Err(Refusal::new(28)));
        }
        for place in [0, 2, 3, usize::MAX] {
            assert_eq!(line.why(place), Err(Refusal::new(28)));
        }
    }
}
