//! UTF-8 against `str::from_utf8`.

use line::cases::Rng;
use proved::{utf8_decode, utf8_valid, Decoding};

use super::Compared;
use crate::lists::first_character;

/// What the standard library says of the character at a place.
fn expected(s: &[u8], at: usize) -> Decoding {
    let character = s.get(at..).and_then(first_character);
    let (code, size) = character.map_or((0, 0), |c| (c as u32, c.len_utf8() as u32));
    Decoding { found: character.is_some(), character: code, size }
}

/// Whether bytes are valid; whether there is a first character, its value and its size.
pub fn listed(bytes: &[u8]) -> [u32; 4] {
    let first = utf8_decode(bytes, 0);
    [u32::from(utf8_valid(bytes)), u32::from(first.found), first.character, first.size]
}

/// Each of this program's own arguments: its characters, or the byte where it stops being UTF-8.
pub fn show_arguments() -> bool {
    for argument in std::env::args_os().skip(2) {
        let bytes = argument.as_encoded_bytes();
        let (mut at, mut shown) = (0, String::new());
        loop {
            let decoding = utf8_decode(bytes, at);
            if !decoding.found {
                break;
            }
            shown.push_str(&format!(" U+{:04X}", decoding.character));
            at += decoding.size as usize;
        }
        match utf8_valid(bytes) {
            true => println!("utf-8{shown}"),
            false => println!("not utf-8 at byte {at}:{shown}"),
        }
    }
    true
}

impl Compared {
    fn utf8(&mut self, s: &[u8], places: std::ops::RangeInclusive<usize>) {
        self.cases += 1;
        let input = || format!("{s:02x?}");
        self.same("utf8 valid", &input, utf8_valid(s), std::str::from_utf8(s).is_ok());
        for at in places {
            self.same("utf8 decode", &input, utf8_decode(s, at), expected(s, at));
        }
    }
}

/// All sequences of up to three bytes, and `count` of four or more.
pub fn compare(seed: u64, count: u64) -> Compared {
    let mut compared = Compared::default();
    compared.utf8(&[], 0..=2);
    for first in 0..=255u8 {
        compared.utf8(&[first], 0..=2);
        for second in 0..=255u8 {
            compared.utf8(&[first, second], 0..=3);
            for third in 0..=255u8 {
                compared.utf8(&[first, second, third], 0..=0);
            }
        }
    }
    let mut rng = Rng::new(seed);
    let mut bytes = [0u8; 12];
    for k in 0..count {
        // four bytes mostly; sometimes up to twelve, so that characters follow one another
        let length = if k % 8 == 0 { 4 + rng.below(9) } else { 4 };
        bytes[..length].iter_mut().for_each(|b| *b = likely_byte(&mut rng));
        compared.utf8(&bytes[..length], 0..=length);
    }
    compared.utf8(&bytes, usize::MAX..=usize::MAX);
    compared
}

/// Any byte, or one near an edge of the table, so that well-formed and nearly well-formed sequences are common.
fn likely_byte(rng: &mut Rng) -> u8 {
    const EDGES: [u8; 22] = [
        0x00, 0x41, 0x7f, 0x80, 0x8f, 0x90, 0x9f, 0xa0, 0xbf, 0xc0, 0xc1, 0xc2, 0xdf, 0xe0, 0xec, 0xed, 0xef, 0xf0, 0xf1, 0xf4,
        0xf5, 0xff,
    ];
    match rng.below(3) {
        0 => rng.below(256) as u8,
        1 => 0x80 + rng.below(0x40) as u8,
        _ => EDGES[rng.below(EDGES.len())],
    }
}
