//! Lines of commands of which it is known how a careful run ends, long ones among them; every argument of a few symbols or bytes, behind a
//! command word and as one; and every number over slices of all lengths.

use line::cases::{short_lines, TableCase};
use line::commands::{write, Command};
use line::format::*;

use super::careful_commands::{Careful, Given};
use super::careful_known::{bad_name, refused, unknown, Ended, ACCEPTED};
use super::command_slices;
use super::run::LEAST;
use super::split::arguments;
use super::why_known::parsed;

/// No command has the word.
const UNMATCHED: Ended = (31, 0, 0);

/// The letters are 1, l, 2, s and x; of one form the command word looks like options.
const WEAR: &str = "optional(text(-l --limit)); switch(-1); many(operand)";
const LOG: &str = "switch(-2); optional(text(-s --since)); many(operand)";
const DASHES: &str = "many(flag(-x)); many(operand)";

fn entry(names: &[(u16, &str)], form: &str) -> Command {
    Command::new(names, parsed(form).write())
}

fn workshop() -> Vec<u8> {
    let dashes = ["-17", "-é=7", "--back", "-12", "-z", "-x\0"].map(|name| (LONG, name));
    write(&[entry(&[(LONG, "wear"), (SHORT, "w")], WEAR), entry(&[(LONG, "log")], LOG), entry(&dashes, DASHES)])
}

type Known<'a> = (&'a [&'a [u8]], Ended);

/// What stands behind a command word.
const BEHIND: [Known; 30] = [
    (&[b"wear", b"-17"], unknown(1, '7')),
    (&[b"w", b"-17"], unknown(1, '7')),
    (&[b"wear", b"-1", b"a", b"-l7"], ACCEPTED),
    (&[b"wear", b"a", b"-v\xff", b"-17"], bad_name(2)),
    (&[b"wear", b"-17", b"-v\xff"], unknown(1, '7')),
    (&[b"wear", "-é=7".as_bytes()], bad_name(1)),
    (&[b"wear", b"--\xff"], bad_name(1)),
    (&[b"wear", b"--limit\xff=7"], bad_name(1)),
    // a letter that only another form has is a letter: the argument is no word
    (&[b"wear", b"-12"], refused(27, 2)),
    (&[b"wear", b"-sx"], refused(27, 1)),
    (&[b"wear", b"-xx"], refused(27, 1)),
    (&[b"log", b"-21"], refused(27, 2)),
    (&[b"wear", b"-12", b"-17"], refused(27, 2)),
    // and the first that no form has is told
    (&[b"wear", b"-27"], unknown(1, '7')),
    (&[b"log", b"-2x1y"], unknown(1, 'y')),
    (&[b"log", b"-17", b"-27"], unknown(1, '7')),
    (&[b"wear", "-1x2é".as_bytes()], unknown(1, 'é')),
    (&[b"wear", b"-1\0"], unknown(1, '\0')),
    // values
    (&[b"wear", b"-l", b"-17"], unknown(2, '7')),
    (&[b"wear", b"--limit", b"-17"], unknown(2, '7')),
    (&[b"log", b"-2s", b"-17"], unknown(3, '7')),
    (&[b"log", b"-s", b"-\xff"], bad_name(2)),
    (&[b"wear", b"-l-17", b"-"], ACCEPTED),
    (&[b"wear", b"-l=-17"], ACCEPTED),
    (&[b"wear", b"--limit=-17"], ACCEPTED),
    (&[b"wear", b"-l", b"-"], ACCEPTED),
    (&[b"log", b"--since", b"-", b"-", b"--", b"-17", b"-v\xff"], ACCEPTED),
    (&[b"wear", b"-l-17", b"-17"], unknown(3, '7')),
    (&[b"wear", b"-l"], refused(22, 1)),
    (&[b"wear", b"-1", b"-17", b"-1"], refused(27, 3)),
];

/// Command words that look like options, and lines without one.
const WORDS: [Known; 22] = [
    (&[b"-17"], ACCEPTED),
    (&[b"-17", b"a", b"-", b"-x"], ACCEPTED),
    (&[b"-17", b"-17"], unknown(1, '7')),
    (&[b"-17", b"-x", b"-xy"], unknown(2, 'y')),
    (&[b"-17", b"--", b"-17"], ACCEPTED),
    (&[b"-17", b"-\xff"], bad_name(1)),
    (&["-é=7".as_bytes()], ACCEPTED),
    (&["-é=7".as_bytes(), "-é=7".as_bytes()], bad_name(1)),
    (&[b"-x\0", b"-x"], ACCEPTED),
    (&[b"-x\0", b"-x\0"], unknown(1, '\0')),
    (&[b"--back"], ACCEPTED),
    (&[b"--back", b"-17"], unknown(1, '7')),
    (&[b"-z"], ACCEPTED),
    (&[b"-z", b"-zz"], unknown(1, 'z')),
    // a command word that is two options: the second is left over
    (&[b"-12"], refused(27, 1)),
    (&[b"-12", b"-17"], refused(27, 1)),
    (&[], UNMATCHED),
    (&[b"-17x"], UNMATCHED),
    (&[b"-xh", b"-17"], UNMATCHED),
    (&[b"--", b"-17"], UNMATCHED),
    (&[b"-v\xff", b"wear"], UNMATCHED),
    (&[b"a", b"wear", b"-17"], UNMATCHED),
];

fn line_of(table: &[u8], line: &[&[u8]]) -> Given {
    let sheet = Sheet { arguments: line.iter().map(|a| a.to_vec()).collect() }.write();
    Given { case: TableCase { table: table.to_vec(), sheet }, lengths: LEAST }
}

impl Careful {
    fn known_line(&mut self, table: &[u8], line: &[&[u8]], want: Ended) {
        let given = line_of(table, line);
        let ended = self.ended(given.clone());
        self.compared.same("known line", &|| given.input(), ended, want);
    }

    /// A name record that no node has is no letter, in whichever form; one that a node of another form has is.
    fn spare_names(&mut self) {
        let mut spare = parsed("switch(-x -y); many(operand)");
        spare.nodes[0].q = 1;
        let table = |other: &str| write(&[Command::new(&[(LONG, "a")], spare.write()), entry(&[(LONG, "b")], other)]);
        for (other, want) in [("switch(-v)", unknown(1, 'y')), ("switch(-y)", refused(27, 2)), ("text(-y)", refused(27, 2))] {
            self.known_line(&table(other), &[b"a", b"-xy"], want);
        }
        self.known_line(&table("switch(-y); many(operand)"), &[b"b", b"-yx", b"-yz"], refused(27, 2));
        self.known_line(&table("switch(-y); many(operand)"), &[b"b", b"-yz"], unknown(1, 'z'));
    }

    /// A letter of the last of as many forms as there may be, and of none.
    fn most_entries(&mut self) {
        let form = |k: u8| format!("switch(-\\x{:02x}); many(operand)", b'A' + k);
        let entries: Vec<Command> = (0..32).map(|k| entry(&[(LONG, &format!("c{k}"))], &form(k))).collect();
        let table = write(&entries);
        for word in [b"c0" as &[u8], b"c31", b"c7"] {
            self.known_line(&table, &[word, b"-A`z"], unknown(1, 'z'));
            self.known_line(&table, &[word, b"-a`"], unknown(1, 'a'));
            self.known_line(&table, &[word, b"-", b"--", b"-a"], ACCEPTED);
        }
        self.known_line(&table, &[b"c31", b"-``"], refused(27, 2));
        self.known_line(&table, &[b"c32", b"-az"], UNMATCHED);
    }

    /// As many items as there may be, and the longest argument.
    fn longest(&mut self) {
        let table = write(&[entry(&[(LONG, "-zv")], "many(flag(-v)); many(operand)")]);
        let line = |first: &'static [u8], last: &'static [u8]| [&[b"-zv" as &[u8]], &[first; ITEMS - 2][..], &[last]].concat();
        self.known_line(&table, &line(b"-", b"a"), ACCEPTED);
        self.known_line(&table, &line(b"-v", b"-vz"), unknown(ITEMS as u32 - 1, 'z'));
        self.known_line(&table, &line(b"-zv", b"-v\xff"), unknown(1, 'z'));
        self.known_line(&table, &line(b"a", b"-v\xff"), bad_name(ITEMS as u32 - 1));
        let mut cluster = vec![b'v'; SHEET_AREA - 3];
        cluster[0] = b'-';
        cluster[SHEET_AREA - 4] = b'z';
        self.known_line(&table, &[b"-zv", &cluster], unknown(1, 'z'));
        cluster[SHEET_AREA - 4] = 0xff;
        self.known_line(&table, &[b"-zv", &cluster], bad_name(1));
    }

    /// Every argument of a few symbols, and of a few bytes: behind the command word, as the value of an option, behind `--`, and as the
    /// command word.
    fn each_argument(&mut self) {
        let all = "many(flag(-v)); many(text(-w --w)); many(operand)";
        let words = ["-x", "-vx", "-é=", "--", "--x", "é", "-bb", ""].map(|name| (LONG, name));
        let table = write(&[entry(&[(LONG, "a")], all), entry(&words, "many(flag(-\\xc3\\xa9)); many(operand)")]);
        let bytes = short_lines(b"-vwz=\xc3\xa9", 1, 3).flat_map(|sheet| sheet.arguments);
        for argument in arguments(3).into_iter().chain(bytes) {
            let lines: [&[&[u8]]; 4] = [&[b"a", &argument], &[b"a", b"--w", &argument], &[b"a", b"--", &argument], &[&argument, &argument]];
            for line in lines {
                self.ended(line_of(&table, line));
            }
        }
    }

    /// Every table at fault with every sheet at fault and a line for each number, over slices of all lengths.
    fn each_number(&mut self) {
        let misread = line_of(&[], &[b"some", b"-17"]).case.sheet;
        let sheets: Vec<(u32, Vec<u8>)> = command_slices::sheets().into_iter().chain([(50, misread)]).collect();
        for (by_table, table) in command_slices::tables() {
            for (by_sheet, sheet) in &sheets {
                for lengths in command_slices::all_lengths() {
                    let ended = self.ended(Given { case: TableCase { table: table.clone(), sheet: sheet.clone() }, lengths }).0;
                    let input = || format!("table {by_table}, sheet {by_sheet}, {lengths:?}");
                    self.compared.same("number", &input, ended, command_slices::number(by_table, *by_sheet, lengths));
                }
            }
        }
    }

    pub fn known(&mut self) {
        let table = workshop();
        BEHIND.iter().chain(&WORDS).for_each(|(line, want)| self.known_line(&table, line, *want));
        self.spare_names();
        self.most_entries();
        self.longest();
        self.each_argument();
        self.each_number();
    }
}
