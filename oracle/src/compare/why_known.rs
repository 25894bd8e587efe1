//! Lines on which it is known why each place was left over, long ones among them; every argument of a few symbols; and every refusal
//! over slices of all lengths.

use line::cases::{each_number, forms_at_fault, Case};
use line::format::*;
use line::notation;
use proved::WhyAnswer;

use super::run::{Lengths, LEAST};
use super::split::arguments;
use super::why::{Asked, Whys};

/// A used place, at which the question is refused.
const USED: (u32, u32) = (0, 0);

/// A form, a line, and reason and detail at each place of its items.
type Known<'a> = (&'a str, &'a [&'a [u8]], &'a [(u32, u32)]);

/// One line or more for each reason.
const EACH: [Known; 15] = [
    ("choice(flag(-v), flag(-q))", &[b"-q", b"-v"], &[USED, (1, 1)]),
    ("optional(operand); choice(many(flag(-v)), many(flag(-q)))", &[b"a", b"-v", b"-q", b"-q"], &[USED, USED, (1, 2), (1, 2)]),
    ("switch(-v)", &[b"-v", b"-v", b"-v"], &[USED, (2, 1), (2, 2)]),
    ("switch(--all)", &[b"--all", b"--all=7"], &[USED, (2, 1), (7, 0)]),
    ("switch(-v)", &[b"-v=7"], &[USED, (3, 0)]),
    ("switch(--all); operand", &[b"a", b"--all="], &[USED, USED, (3, 0)]),
    ("switch(--)", &[b"--=7"], &[USED, (3, 0)]),
    ("switch(-v)", &[b"-x", b"--v", b"-x"], &[(4, 0), (4, 0), (2, 1)]),
    ("switch(-v); operand", &[b"a", b"--=7"], &[USED, (4, 0), (7, 0)]),
    ("switch(-v)", &[b"a", b"-vx", b"--", b"-v", b"--"], &[(5, 0), (5, 0), USED, (5, 0), (5, 0)]),
    ("switch(-v); operand", &[b"a", b"-vxy"], &[USED, (6, 'x' as u32)]),
    ("operand", &[b"a", "-😀é".as_bytes()], &[USED, (6, '😀' as u32)]),
    ("operand", &[b"a", b"b"], &[USED, (7, 0)]),
    ("switch(-v); operand", &[b"a", b"--", b"-vx"], &[USED, USED, (7, 0)]),
    ("optional(choice(text(-w), strict))", &[b"-w", b"7", b"a", b"-ab"], &[USED, USED, (7, 0), (6, 'a' as u32)]),
];

/// One line or more for each doubtful word, and for two reasons of which the first is given.
const DOUBTFUL: [Known; 17] = [
    // a choice that was lost, and a name given earlier that lost none
    ("choice(flag(-v), flag(-q))", &[b"-v", b"-q", b"-q"], &[USED, (1, 1), (2, 2)]),
    ("choice(text(-w), operand)", &[b"a", b"-wb"], &[USED, (1, 1), (1, 1)]),
    // a Short and a Long are two names, whatever they are; a value does not matter
    ("switch(-v); switch(--v)", &[b"-v", b"--v", b"--v=1", b"-v"], &[USED, USED, (2, 2), (7, 0), (2, 1)]),
    // the key is not used
    ("switch(-v)", &[b"-v", b"-v=7"], &[USED, (2, 1), (7, 0)]),
    ("optional!(number(-w)); operand", &[b"a", b"-w=x"], &[USED, (7, 0), (7, 0)]),
    // an adjacent argument names what it does not take
    ("optional(number=(-w --width))", &[b"-w", b"--width", b"7"], &[(7, 0), (7, 0), (5, 0)]),
    // the rest of a cluster is no argument, though it be that of another
    ("operand; optional!(number=(-w))", &[b"a", b"-w-xy", b"-xy"], &[USED, (7, 0), (7, 0), (6, 'x' as u32)]),
    // the byte behind the dash belongs to the name even if it is `=`; a later one ends it
    ("operand", &[b"a", b"-=x"], &[USED, (6, '=' as u32)]),
    ("operand; switch(-=)", &[b"a", b"-=x"], &[USED, (6, 'x' as u32)]),
    ("operand", &[b"a", "-é=x".as_bytes()], &[USED, (7, 0)]),
    ("operand", &[b"a", b"-==", b"-="], &[USED, (4, 0), (7, 0), (2, 2)]),
    // letters of flags and of arguments are known, whichever node has them
    ("operand; switch(-v); optional(text(-w))", &[b"a", b"-vzw", b"-vvz"], &[USED, (6, 'z' as u32), (6, 'z' as u32)]),
    ("operand; switch(-v --x)", &[b"a", b"-vx"], &[USED, (6, 'x' as u32)]),
    // no dash, nothing behind it, two dashes, not UTF-8
    ("operand", &[b"a", b"", b"-", b"a-b"], &[USED, (7, 0), (7, 0), (7, 0)]),
    ("operand", &[b"a", b"--\xff", b"---\xff"], &[USED, (7, 0), (7, 0)]),
    ("operand", &[b"a", b"-xy\xff", b"-\xff", b"-\xffxy"], &[USED, (7, 0), (7, 0), (7, 0)]),
    // one letter is a name, however long it is
    ("operand", &[b"a", "-😀".as_bytes(), b"-x"], &[USED, (4, 0), (4, 0)]),
];

pub fn of(form: &Form, arguments: &[&[u8]]) -> Case {
    let sheet = Sheet { arguments: arguments.iter().map(|a| a.to_vec()).collect() };
    Case { form: form.write(), sheet: sheet.write() }
}

pub fn parsed(form: &str) -> Form {
    notation::parse(form).expect("the notation")
}

/// The least lengths; each slice longer, a word short or none; all longer, all short, and none.
pub fn all_lengths() -> Vec<Lengths> {
    let mut all = vec![LEAST, LEAST.map(|length| length + 29), LEAST.map(|length| length - 1), [0; 3]];
    for k in 0..3 {
        for length in [LEAST[k] + 1, LEAST[k] + 100, LEAST[k] - 1, 0] {
            let mut lengths = LEAST;
            lengths[k] = length;
            all.push(lengths);
        }
    }
    all
}

impl Whys {
    /// A run of which the reason at each place is known. Places that are not there are refused, such as look alike in fewer bits
    /// among them.
    fn known_line(&mut self, case: Case, want: &[(u32, u32)]) {
        let asked = Asked::new(case, LEAST);
        let count = want.len();
        let wrapped = [1 << 8, 1 << 16, 1 << 32].into_iter().flat_map(|past| (0..count.min(9)).map(move |k| k + past));
        let absent = wrapped.chain([count, count + 1, usize::MAX]).filter(|place| *place >= count);
        let places: Vec<usize> = (0..count).chain(absent).collect();
        let told = self.run(&asked, &places);
        let want = want.iter().chain(std::iter::repeat(&USED));
        for ((place, why), (reason, detail)) in places.into_iter().zip(told).zip(want) {
            let number = if *reason == 0 { 28 } else { 0 };
            let want = WhyAnswer { number, place: 0, reason: *reason, detail: *detail };
            self.compared.same("known reason", &|| asked.input(place), why, want);
        }
        self.compared.same("items", &|| asked.input(0), asked.count(), count);
    }

    /// A name record that no node has is no name of the form.
    fn spare_names(&mut self) {
        let mut form = parsed("operand; switch(-v); switch(-x --all)");
        form.nodes[2].p += 1;
        form.nodes[2].q = 1;
        self.known_line(of(&form, &[b"a", b"-x", b"--all"]), &[USED, (4, 0), USED]);
        self.known_line(of(&form, &[b"a", b"-vx"]), &[USED, (6, 'x' as u32)]);
        form.nodes[2].p -= 1;
        self.known_line(of(&form, &[b"a", b"-x", b"--all"]), &[USED, USED, (4, 0)]);
    }

    /// As many items as there may be, and the longest argument.
    fn longest(&mut self) {
        let again: Vec<(u32, u32)> = (1..256).map(|k| (2, k)).collect();
        self.known_line(of(&parsed("switch(-v)"), &[b"-v" as &[u8]; 256]), &[&[USED], &again[..]].concat());
        let letter = [(6, 'z' as u32); 255];
        self.known_line(of(&parsed("operand"), &[b"-zv" as &[u8]; 256]), &[&[USED], &letter[..]].concat());
        let mut cluster = vec![b'v'; SHEET_AREA - 1];
        cluster[0] = b'-';
        cluster[SHEET_AREA - 2] = b'z';
        self.known_line(of(&parsed("operand; switch(-v)"), &[b"a", &cluster]), &[USED, (6, 'z' as u32)]);
        // nothing behind the dash but one letter of four bytes, at the end of the area
        cluster.truncate(SHEET_AREA - 6);
        cluster.extend("😀".as_bytes());
        self.known_line(of(&parsed("operand; switch(-v)"), &[b"a", &cluster]), &[USED, (6, '😀' as u32)]);
    }

    /// Every argument of a few symbols, behind a word that the positional takes, and where there is none.
    fn each_argument(&mut self) {
        let used = parsed("operand; switch(-v); switch(-\\xc3\\xa9); optional!(number(-w))");
        let none = parsed("switch(-v); optional!(number=(-w))");
        for argument in arguments(4) {
            for case in [of(&used, &[b"a", &argument]), of(&none, &[&argument])] {
                let asked = Asked::new(case, LEAST);
                let places: Vec<usize> = (0..=asked.count()).collect();
                self.run(&asked, &places);
            }
        }
    }

    /// Each number that a run ends with, over slices of all lengths.
    fn each_number(&mut self) {
        let (lines, numbers) = each_number();
        let sheets = lines.sheets.iter().zip(numbers);
        let run = sheets.map(|(sheet, number)| (number, Case { form: lines.form.clone(), sheet: sheet.clone() }));
        let faults = forms_at_fault().into_iter().map(|(number, form)| (number, Case { form, sheet: lines.sheets[0].clone() }));
        for (number, case) in run.chain(faults) {
            for lengths in all_lengths() {
                let asked = Asked::new(case.clone(), lengths);
                let count = asked.count();
                let ended = asked.answer.number;
                self.compared.same("number", &|| asked.input(0), [number, 7, 14].contains(&ended), true);
                self.run(&asked, &[0, 1, count / 2, count.wrapping_sub(1), count, count + 1, 256, 1 << 32, usize::MAX]);
            }
        }
    }

    pub fn known(&mut self) {
        EACH.iter().chain(&DOUBTFUL).for_each(|(form, line, want)| self.known_line(of(&parsed(form), line), want));
        self.spare_names();
        self.longest();
        self.each_argument();
        self.each_number();
    }
}
