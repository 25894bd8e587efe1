//! All short sheets: the proved step, from the empty sheet to the last, against the enumeration in `line::shorts`; its refusals; and
//! what it was asked for, the proved run against the real bpaf on every sheet over a small alphabet.

use line::cases::Rng;
use line::format::Sheet;
use line::shorts;
use proved::NextSheet;

use super::{byte_pattern, Compared, Goal};
use crate::lists::hex;
#[cfg(live)]
use super::run::LEAST;
#[cfg(live)]
use line::{cases::Case, notation};

/// The alphabets that are walked from end to end, and how many sheets each has.
const WALKED: [(&[u8], u64); 6] =
    [(b"-", 156), (b"\0", 156), (b"=-", 30_784), (b"-=", 30_784), (b"-=v", 1_786_324), (b"v-\xff", 1_786_324)];

/// The lengths of outputs, about the least one.
const ROOMS: [usize; 7] = [0, 1, 21, 22, 23, 24, 64];

/// The forms that every short line over `-`, `=` and `v` is read under.
#[cfg(live)]
const FORMS: [&str; 3] = [
    "count(flag(-v)); many(operand)",
    "optional(text(-v --v)); many(non-strict); many(strict)",
    "many!(text=(-v)); switch(--vv); optional(operand)",
];

/// What a step must answer and leave: the number, whether the sheet was the last, and the next sheet with zeros after it.
fn expected(room: usize, number: u32, last: bool, next: &[u8]) -> (NextSheet, Vec<u8>) {
    let mut left = vec![0; room];
    left[..next.len()].copy_from_slice(next);
    (NextSheet { number, place: 0, last: last.into(), length: next.len() as u32 }, left)
}

/// What the steps met.
#[derive(Default)]
struct Seen {
    steps: u64,
    last: u64,
    bad_alphabets: u64,
    damaged: u64,
    others: u64,
    short_outputs: u64,
    #[cfg(live)]
    dashes: u64,
    #[cfg(live)]
    names: u64,
}

impl Compared {
    fn stepped(&mut self, alphabet: &[u8], sheet: &[u8], room: usize, want: (NextSheet, Vec<u8>)) -> Vec<u8> {
        self.cases += 1;
        let mut out = byte_pattern(room);
        let ours = proved::next_sheet(alphabet, sheet, &mut out);
        self.answered(ours.number);
        let input = || format!("{} {} {room}", hex(alphabet), hex(sheet));
        self.same("step", &input, ours, want.0);
        self.same("output", &input, &out, &want.1);
        out.truncate(ours.length as usize);
        out
    }

    /// One step, against the second reading.
    fn step(&mut self, seen: &mut Seen, alphabet: &[u8], sheet: &[u8], room: usize) {
        let want = match shorts::refusal(alphabet, sheet, room) {
            Some(number) => {
                seen.bad_alphabets += u64::from(number == 16);
                seen.damaged += u64::from(number == 17 && Sheet::check(sheet).is_err());
                seen.others += u64::from(number == 17 && Sheet::check(sheet).is_ok());
                seen.short_outputs += u64::from(number == 19);
                expected(room, number, false, &[])
            }
            None => match shorts::after(alphabet, &Sheet::check(sheet).expect("a sheet")) {
                Some(next) => expected(room, 0, false, &next.write()),
                None => expected(room, 0, true, &[]),
            },
        };
        seen.steps += u64::from(want.0.number == 0);
        seen.last += u64::from(want.0.last);
        self.stepped(alphabet, sheet, room, want);
    }

    /// Every sheet of an alphabet by the proved step, each from the one that it gave before.
    fn walk(&mut self, alphabet: &[u8], total: u64) {
        let (mut now, mut met) = (Sheet::default().write(), 0);
        shorts::each(alphabet, &mut |sheet| {
            let want = sheet.write();
            if met > 0 {
                let room = ROOMS[3 + met as usize % 4];
                now = self.stepped(alphabet, &now, room, expected(room, 0, false, &want));
            }
            self.same("walk", &|| format!("{} sheet {met}", hex(alphabet)), &now, &want);
            now = want;
            met += 1;
        });
        self.stepped(alphabet, &now, 22, expected(22, 0, true, &[]));
        self.same("sheets", &|| hex(alphabet), met, total);
    }

    /// Every alphabet at fault with every sheet at fault, and both that are not, over outputs of every length: whatever stands first in
    /// the order of refusals must be given.
    fn refusals(&mut self, seen: &mut Seen) {
        let alphabets: [&[u8]; 9] =
            [b"", b"vwv", b"vv", b"-=vwxyz77", b"-=vwxyz78", b"0123456776543210", b"-", b"-=", b"-=vwxyz7"];
        let sheet = |arguments: &[&str]| Sheet { arguments: arguments.iter().map(|a| a.as_bytes().to_vec()).collect() }.write();
        let known: [&[&str]; 13] = [
            &[], &[""], &["-"], &["=-"], &["----"], &["-----"], &["v"], &["-", "", "--"], &["-", "-", "-", ""],
            &["----", "----", "----"], &["====", "====", "===="], &["7777", "7777", "7777"], &["7777", "777?", "7777"],
        ];
        let mut sheets: Vec<Vec<u8>> = known.map(sheet).into();
        let whole = sheet(&["-=", "-"]);
        sheets.extend((0..whole.len()).map(|k| whole[..k].to_vec()));
        sheets.extend((0..whole.len()).flat_map(|k| [1, 255].map(|x| with(&whole, k, x))));
        sheets.extend([[&whole[..], b"-"].concat(), [&257u16.to_le_bytes()[..], &[0; 516]].concat(), vec![0, 0, 0, 1], vec![]]);
        for alphabet in alphabets {
            for sheet in &sheets {
                ROOMS.iter().for_each(|room| self.step(seen, alphabet, sheet, *room));
            }
        }
    }

    /// Sheets over alphabets of up to eight bytes, one in four with a fault.
    fn random(&mut self, seen: &mut Seen, rng: &mut Rng) {
        let mut alphabet: Vec<u8> = Vec::new();
        for _ in 0..rng.between(1, 8) {
            let byte = if rng.chance(1, 2) { b"-=vw17\0\xff"[rng.below(8)] } else { rng.below(256) as u8 };
            if !alphabet.contains(&byte) {
                alphabet.push(byte);
            }
        }
        // most bytes are the last letter, so that much is carried
        let argument = |rng: &mut Rng| -> Vec<u8> {
            let length = if rng.chance(1, 2) { 4 } else { rng.below(5) };
            let letter = |rng: &mut Rng| if rng.chance(3, 4) { alphabet.len() - 1 } else { rng.below(alphabet.len()) };
            (0..length).map(|_| alphabet[letter(rng)]).collect()
        };
        let mut sheet = Sheet { arguments: (0..rng.below(4)).map(|_| argument(rng)).collect() }.write();
        if rng.chance(1, 8) {
            let k = rng.below(sheet.len());
            sheet[k] = rng.below(256) as u8;
        }
        if rng.chance(1, 8) {
            alphabet.push(alphabet[rng.below(alphabet.len())]);
        }
        let room = if rng.chance(1, 8) { rng.below(22) } else { rng.between(22, 60) };
        self.step(seen, &alphabet, &sheet, room);
    }

    /// The proved run against the real bpaf, on `count` sheets over `-`, `=` and `v`, or on all; every sheet is one that the proved
    /// step gave.
    #[cfg(live)]
    fn runs(&mut self, seen: &mut Seen, count: Option<u64>) {
        let forms = FORMS.map(|form| notation::parse(form).expect("a form").write());
        let (alphabet, total) = WALKED[4];
        let apart = count.map_or(1, |count| (total / count.max(1)).max(1));
        let (mut sheet, mut met) = (Sheet::default().write(), 0);
        loop {
            if met % apart == 0 {
                let arguments = Sheet::check(&sheet).expect("a sheet").arguments;
                seen.dashes += u64::from(arguments.contains(&b"-".to_vec()));
                seen.names += u64::from(arguments.iter().any(|a| a.starts_with(b"--=")));
                for form in &forms {
                    self.run(&Case { form: form.clone(), sheet: sheet.clone() }, LEAST);
                }
            }
            let mut out = vec![0; 22];
            let next = proved::next_sheet(alphabet, &sheet, &mut out);
            met += 1;
            if next.number != 0 || next.last == 1 {
                break;
            }
            out.truncate(next.length as usize);
            sheet = out;
        }
        self.same("sheets that were run", &|| hex(alphabet), met, total);
    }
}

/// A sheet with this put for a byte.
fn with(sheet: &[u8], at: usize, byte: u8) -> Vec<u8> {
    let mut sheet = sheet.to_vec();
    sheet[at] = byte;
    sheet
}

/// Everything: the walks, the refusals, `count` steps of random sheets, and as many lines against the real bpaf; without a count a
/// million steps, and every line.
pub fn compare(seed: u64, count: Option<u64>) -> Compared {
    let (mut compared, mut seen, mut rng) = (Compared::default(), Seen::default(), Rng::new(seed));
    WALKED.iter().for_each(|(alphabet, total)| compared.walk(alphabet, *total));
    compared.refusals(&mut seen);
    let steps = count.unwrap_or(1_000_000);
    (0..steps).for_each(|_| compared.random(&mut seen, &mut rng));
    let goal = |what: &'static str, met: u64, least: u64| Goal { what, met, least };
    compared.goals = vec![
        goal("steps of single sheets", seen.steps, steps / 2),
        goal("after the last sheet", seen.last, 20 + steps / 1000),
        goal("alphabets at fault", seen.bad_alphabets, 100 + steps / 20),
        goal("damaged sheets", seen.damaged, 100 + steps / 100),
        goal("sheets that are not short", seen.others, 100 + steps / 100),
        goal("outputs that are too short", seen.short_outputs, 100 + steps / 20),
    ];
    #[cfg(live)]
    {
        compared.runs(&mut seen, count);
        let lines = count.unwrap_or(WALKED[4].1);
        compared.goals.push(goal("lines with a lone dash, under three forms each", seen.dashes, lines / 1000));
        compared.goals.push(goal("lines with `--=`, in the same way", seen.names, lines / 1000));
    }
    compared
}
