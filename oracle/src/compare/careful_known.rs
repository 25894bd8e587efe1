//! Lines of which it is known how a careful run ends, long ones among them; every argument of a few symbols or bytes; and every number over
//! slices of all lengths.

use line::cases::{each_number, forms_at_fault, short_lines, Case};
use line::format::*;

use super::careful::{Careful, Line};
use super::run::LEAST;
use super::split::arguments;
use super::why_known::{all_lengths, of, parsed};

/// Number, place plus 1, and letter plus 1.
pub type Ended = (u32, u32, u32);

pub const ACCEPTED: Ended = (0, 0, 0);

/// Refused as the run is.
pub const fn refused(number: u32, place: u32) -> Ended {
    (number, place + 1, 0)
}

/// No option has this letter.
pub const fn unknown(place: u32, letter: char) -> Ended {
    (50, place + 1, letter as u32 + 1)
}

/// The name is not UTF-8.
pub const fn bad_name(place: u32) -> Ended {
    (50, place + 1, 0)
}

/// The form of rust/forms/wear.form, and one whose limit is a text and that asks for nothing.
const WEAR: &str = "optional(guard(number(-l --limit), 1..9999)); switch(-1); switch(-2); switch(-3); switch(-4); switch(-5); \
    switch(-6); operand; many(operand)";
const TEXT: &str = "optional(text(-l --limit)); switch(-1); switch(-2); many(operand)";

type Known<'a> = (&'a str, &'a [&'a [u8]], Ended);

/// What `wear` takes for its label and what not.
const UNDER_WEAR: [Known; 24] = [
    (WEAR, &[b"-17"], unknown(0, '7')),
    (WEAR, &[b"-12x"], unknown(0, 'x')),
    (WEAR, &[b"-xh"], unknown(0, 'x')),
    (WEAR, &[b"-v\xff"], bad_name(0)),
    (WEAR, &["-é=7".as_bytes()], bad_name(0)),
    (WEAR, &[b"a", b"-17"], unknown(1, '7')),
    (WEAR, &[b"-l", b"7", b"-12", b"a", b"-xh"], unknown(5, 'x')),
    // the first of them, whatever it is for
    (WEAR, &[b"-17", b"-v\xff"], unknown(0, '7')),
    (WEAR, &[b"a", b"-v\xff", b"-17", b"-xh"], bad_name(1)),
    (WEAR, &[b"-17", b"--", b"-xh"], unknown(0, '7')),
    // no number begins with a dash: the run's own refusal
    (WEAR, &[b"-l", b"-17", b"a"], refused(25, 1)),
    (WEAR, &[b"--limit", b"-17", b"a"], refused(25, 1)),
    (WEAR, &[b"-l-17", b"a"], refused(25, 1)),
    (WEAR, &[b"--limit=-17", b"a"], refused(25, 1)),
    (WEAR, &[b"-l", b"-", b"a"], refused(25, 1)),
    // refused for something else, the word does not matter
    (WEAR, &[b"-17", b"-x"], refused(27, 1)),
    (WEAR, &[b"-x", b"-17"], refused(27, 0)),
    (WEAR, &[b"-l", b"-1", b"-17"], refused(22, 0)),
    (WEAR, &[b"-l", b"--", b"-17"], refused(22, 0)),
    (WEAR, &[b"--", b"-17"], ACCEPTED),
    (WEAR, &[b"-"], ACCEPTED),
    (WEAR, &[b"-", b"-", b"", b"a-b"], ACCEPTED),
    (WEAR, &[b"-12", b"-3l7", b"a", b"-65"], ACCEPTED),
    (WEAR, &[b"--limit=7", b"-", b"--", b"-17", b"--", b"-v\xff", "-é=7".as_bytes()], ACCEPTED),
];

/// Values, and what counts as a value.
const UNDER_TEXT: [Known; 22] = [
    (TEXT, &[b"-l", b"-17"], unknown(1, '7')),
    (TEXT, &[b"--limit", b"-17"], unknown(1, '7')),
    (TEXT, &[b"-1l", b"-17"], unknown(2, '7')),
    (TEXT, &[b"-l", b"-foo"], unknown(1, 'f')),
    (TEXT, &[b"-l", b"-\xff"], bad_name(1)),
    (TEXT, &[b"-l-17"], ACCEPTED),
    (TEXT, &[b"-l=-17"], ACCEPTED),
    (TEXT, &[b"--limit=-17"], ACCEPTED),
    (TEXT, &[b"-l-foo"], ACCEPTED),
    (TEXT, &[b"-12l-foo"], ACCEPTED),
    (TEXT, &[b"-l--"], ACCEPTED),
    (TEXT, &[b"-l", b"-"], ACCEPTED),
    (TEXT, &[b"--limit", b"-", b"-"], ACCEPTED),
    (TEXT, &[b"--limit=\xff"], ACCEPTED),
    (TEXT, &[b"-l=\xff"], ACCEPTED),
    // the rest of a cluster is UTF-8, or the whole is a word
    (TEXT, &[b"-l\xff"], bad_name(0)),
    (TEXT, &["-lé".as_bytes()], ACCEPTED),
    // a rest that is another argument is none, and is a word there
    (TEXT, &[b"-l-17", b"-17"], unknown(2, '7')),
    (TEXT, &[b"-17", b"-l-17"], unknown(0, '7')),
    (TEXT, &[b"--limit=-17", b"-17"], unknown(2, '7')),
    ("many(operand); optional(text=(-l))", &[b"-l-17"], refused(22, 0)),
    ("optional(text=(-l)); many(operand)", &[b"-l", b"-17"], refused(27, 0)),
];

/// Letters and names of all sorts.
const NAMES: [Known; 26] = [
    ("many(operand)", &[b"-17"], unknown(0, '1')),
    ("many(operand)", &[b"-x"], refused(27, 0)),
    ("many(operand)", &[b"---"], refused(27, 0)),
    ("switch(-1)", &[b"-17"], refused(27, 0)),
    // the first letter that no option has, as its number plus 1
    (TEXT, &[b"-2x1y"], unknown(0, 'x')),
    (TEXT, &[b"-xl1"], unknown(0, 'x')),
    (TEXT, &[b"-1\0"], unknown(0, '\0')),
    (TEXT, &["-1é2".as_bytes()], unknown(0, 'é')),
    (TEXT, &["-1😀".as_bytes()], unknown(0, '😀')),
    (TEXT, &["-\u{10ffff}1".as_bytes()], unknown(0, '\u{10ffff}')),
    ("switch(-\\xc3\\xa9); many(operand)", &["-éé".as_bytes()], refused(27, 1)),
    ("count(flag(-\\xc3\\xa9)); many(operand)", &["-éé".as_bytes()], ACCEPTED),
    ("count(flag(-\\xc3\\xa9)); many(operand)", &["-éè".as_bytes()], unknown(0, 'è')),
    // a dash that is not the first is a letter
    (TEXT, &[b"-1-"], unknown(0, '-')),
    (TEXT, &[b"-1-2"], unknown(0, '-')),
    ("switch(-1); switch(-\\x2d); many(operand)", &[b"-1-"], ACCEPTED),
    // `=` right behind the dash is a letter, a later one ends the name
    (TEXT, &[b"-=1"], unknown(0, '=')),
    ("count(flag(-=)); many(operand)", &[b"-="], ACCEPTED),
    ("count(flag(-=)); many(operand)", &[b"-=x"], unknown(0, 'x')),
    ("many(text(-=)); many(operand)", &[b"-=x", b"-=="], ACCEPTED),
    (TEXT, &[b"-1x=7"], refused(27, 1)),
    ("many(text(-v)); many(operand)", &[b"-v\xff=7"], ACCEPTED),
    // a name that is not UTF-8, whatever else it has
    (TEXT, &[b"-x\xff"], bad_name(0)),
    (TEXT, &[b"-\xc3=", b"-17"], bad_name(0)),
    (TEXT, &[b"--limit\xff=7"], bad_name(0)),
    (TEXT, &[b"a", b"--\xff"], bad_name(1)),
];

impl Careful {
    fn known_line(&mut self, case: Case, want: Ended) {
        let line = Line::new(case, LEAST);
        let ended = self.run(&line);
        self.compared.same("known line", &|| line.input(), (ended.number, ended.place, ended.letter), want);
    }

    /// A name record that no node has is no letter of the form, whichever node has those beside it.
    fn spare_names(&mut self) {
        let mut form = parsed("count(flag(-v)); switch(-x -y --all); many(operand)");
        let flag = form.nodes.iter().position(|node| node.q == 3).expect("three names");
        form.nodes[flag].p += 1;
        form.nodes[flag].q = 1;
        self.known_line(of(&form, &[b"-vx"]), unknown(0, 'x'));
        self.known_line(of(&form, &[b"-vy"]), ACCEPTED);
        form.nodes[flag].p += 1;
        self.known_line(of(&form, &[b"-vy"]), unknown(0, 'y'));
    }

    /// As many items as there may be, and the longest argument.
    fn longest(&mut self) {
        let all = parsed("count(flag(-v)); many(operand)");
        let line = |first: &[u8], last: &[u8]| of(&all, &[&[first; ITEMS - 1][..], &[last]].concat());
        self.known_line(line(b"-", b"a"), ACCEPTED);
        self.known_line(line(b"-v", b"-vz"), unknown(ITEMS as u32 - 1, 'z'));
        self.known_line(line(b"-zv", b"-v\xff"), unknown(0, 'z'));
        self.known_line(line(b"a", b"-v\xff"), bad_name(ITEMS as u32 - 1));
        self.known_line(of(&all, &[&[b"--" as &[u8]], &[b"-vz" as &[u8]; ITEMS - 1][..]].concat()), ACCEPTED);
        let mut cluster = vec![b'v'; ITEMS];
        cluster[0] = b'-';
        self.known_line(of(&all, &[&cluster, b"-vz"]), unknown(ITEMS as u32 - 1, 'z'));
        cluster.resize(SHEET_AREA, b'v');
        cluster[SHEET_AREA - 1] = b'z';
        self.known_line(of(&all, &[&cluster]), unknown(0, 'z'));
        cluster[SHEET_AREA - 1] = 0xff;
        self.known_line(of(&all, &[&cluster]), bad_name(0));
    }

    /// Every argument of a few symbols, and of a few bytes: by itself, as the value of an option, before and behind `--`.
    fn each_argument(&mut self) {
        let form = parsed("count(flag(-v)); many(flag(-\\xc3\\xa9)); many(text(-w --w)); many(operand)");
        let bytes = short_lines(b"-vwz=\xc3\xa9", 1, 4).flat_map(|sheet| sheet.arguments);
        for argument in arguments(3).into_iter().chain(bytes) {
            let lines: [&[&[u8]]; 4] = [&[&argument], &[b"--w", &argument], &[b"-v", &argument, b"--"], &[b"--", &argument]];
            for line in lines {
                self.run(&Line::new(of(&form, line), LEAST));
            }
        }
    }

    /// Each number that a careful run ends with, over slices of all lengths.
    fn each_number(&mut self) {
        let (lines, numbers) = each_number();
        let sheets = lines.sheets.iter().zip(numbers);
        let run = sheets.map(|(sheet, number)| (number, Case { form: lines.form.clone(), sheet: sheet.clone() }));
        let faults = forms_at_fault().into_iter().map(|(number, form)| (number, Case { form, sheet: lines.sheets[0].clone() }));
        let words: [&[u8]; 2] = [b"-17", b"-v\xff"];
        let misread = words.map(|word| (50, of(&parsed(WEAR), &[b"-l7", word])));
        for (number, case) in run.chain(faults).chain(misread) {
            for lengths in all_lengths() {
                let line = Line::new(case.clone(), lengths);
                let ended = self.run(&line).number;
                self.compared.same("number", &|| line.input(), [number, 7, 14].contains(&ended), true);
            }
        }
    }

    pub fn known(&mut self) {
        let all = UNDER_WEAR.iter().chain(&UNDER_TEXT).chain(&NAMES);
        all.for_each(|(form, line, want)| self.known_line(of(&parsed(form), line), *want));
        self.spare_names();
        self.longest();
        self.each_argument();
        self.each_number();
    }
}
