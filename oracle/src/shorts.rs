//! All short sheets, in their order, and what refuses a step: a second reading, beside the definitions in crates/rules_short/specs.
//!
//! The order is walked by loops in loops, from the left, and not by a step. Behind one sheet alone stands the one whose number is
//! the next: its bytes are the digits of a number, and so are its lengths.

use crate::format::Sheet;

/// The most arguments, the most bytes of one, the most bytes of a short sheet, and the most bytes of an alphabet.
pub const ARGUMENTS: usize = 3;
pub const BYTES: usize = 4;
pub const LENGTH: usize = 22;
pub const LETTERS: usize = 8;

/// Every short sheet over the alphabet: by its number of arguments, then by its lengths, then by its bytes.
pub fn each(alphabet: &[u8], see: &mut dyn FnMut(&Sheet)) {
    for count in 0..=ARGUMENTS {
        each_length(alphabet, &mut Vec::new(), count, see);
    }
}

/// Every list of lengths that begins with these and has so many more.
fn each_length(alphabet: &[u8], lengths: &mut Vec<usize>, more: usize, see: &mut dyn FnMut(&Sheet)) {
    if more == 0 {
        let mut sheet = Sheet { arguments: lengths.iter().map(|_| Vec::new()).collect() };
        return each_text(alphabet, lengths, &mut sheet, 0, see);
    }
    for length in 0..=BYTES {
        lengths.push(length);
        each_length(alphabet, lengths, more - 1, see);
        lengths.pop();
    }
}

/// Every way to fill the arguments from the k-th on.
fn each_text(alphabet: &[u8], lengths: &[usize], sheet: &mut Sheet, k: usize, see: &mut dyn FnMut(&Sheet)) {
    if k == lengths.len() {
        return see(sheet);
    }
    if sheet.arguments[k].len() == lengths[k] {
        return each_text(alphabet, lengths, sheet, k + 1, see);
    }
    for letter in alphabet {
        sheet.arguments[k].push(*letter);
        each_text(alphabet, lengths, sheet, k, see);
        sheet.arguments[k].pop();
    }
}

/// What a step is refused for: 16, 17 or 19.
pub fn refusal(alphabet: &[u8], sheet: &[u8], room: usize) -> Option<u32> {
    let twice = |k: usize| alphabet[..k].contains(&alphabet[k]);
    if alphabet.is_empty() || alphabet.len() > LETTERS || (0..alphabet.len()).any(twice) {
        return Some(16);
    }
    let short = |a: &Vec<u8>| a.len() <= BYTES && a.iter().all(|b| alphabet.contains(b));
    match Sheet::check(sheet) {
        Ok(sheet) if sheet.arguments.len() <= ARGUMENTS && sheet.arguments.iter().all(short) => {}
        _ => return Some(17),
    }
    (room < LENGTH).then_some(19)
}

/// The short sheet behind one, by number; none behind the last.
pub fn after(alphabet: &[u8], sheet: &Sheet) -> Option<Sheet> {
    let lengths: Vec<u64> = sheet.arguments.iter().map(|a| a.len() as u64).collect();
    let place = |b: u8| alphabet.iter().position(|a| *a == b).expect("a letter") as u64;
    let places: Vec<u64> = sheet.arguments.concat().into_iter().map(place).collect();
    if let Some(places) = behind(&places, alphabet.len() as u64) {
        return Some(cut(alphabet, &lengths, &places));
    }
    let lengths = match behind(&lengths, BYTES as u64 + 1) {
        Some(lengths) => lengths,
        None if lengths.len() < ARGUMENTS => vec![0; lengths.len() + 1],
        None => return None,
    };
    Some(cut(alphabet, &lengths, &vec![0; lengths.iter().sum::<u64>() as usize]))
}

/// The digits of the next number, as many as there are.
fn behind(digits: &[u64], base: u64) -> Option<Vec<u64>> {
    let next = digits.iter().fold(0, |number, digit| number * base + digit) + 1;
    let weight = |k: usize| base.pow((digits.len() - k) as u32);
    (next < weight(0)).then(|| (0..digits.len()).map(|k| next % weight(k) / weight(k + 1)).collect())
}

fn cut(alphabet: &[u8], lengths: &[u64], places: &[u64]) -> Sheet {
    let mut bytes = places.iter().map(|k| alphabet[*k as usize]);
    Sheet { arguments: lengths.iter().map(|n| bytes.by_ref().take(*n as usize).collect()).collect() }
}

#[cfg(test)]
mod tests {
    use super::*;

    fn all(alphabet: &[u8]) -> Vec<Sheet> {
        let mut all = Vec::new();
        each(alphabet, &mut |sheet| all.push(sheet.clone()));
        all
    }

    #[test]
    fn totals() {
        assert_eq!(all(b"-").len(), 156);
        assert_eq!(all(b"=-").len(), 30_784);
    }

    #[test]
    fn by_loops_and_by_number() {
        for alphabet in [&b"-"[..], b"=-"] {
            let all = all(alphabet);
            assert!(all.windows(2).all(|two| after(alphabet, &two[0]).as_ref() == Some(&two[1])));
            assert_eq!(after(alphabet, all.last().expect("one")), None);
        }
    }

    #[test]
    fn by_place_and_not_by_value() {
        let all = all(b"=-");
        let text = |k: usize| all[k].arguments.iter().map(|a| String::from_utf8_lossy(a).into_owned()).collect::<Vec<_>>();
        assert_eq!([text(0), text(1), text(2), text(3)], [vec![], vec!["".into()], vec!["=".to_string()], vec!["-".into()]]);
        assert_eq!(text(all.len() - 1), ["----", "----", "----"]);
    }

    #[test]
    fn refused() {
        let empty = Sheet::default().write();
        assert_eq!(refusal(b"", &empty, 0), Some(16));
        assert_eq!(refusal(b"vwv", &empty, 0), Some(16));
        assert_eq!(refusal(b"vw", b"", 0), Some(17));
        assert_eq!(refusal(b"vw", &empty, 21), Some(19));
        assert_eq!(refusal(b"vw", &empty, 22), None);
    }
}
