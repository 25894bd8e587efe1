//! The form of a fixed list: a counted offset table, as wire reads it. Its first entry is the command that makes the list
//! again; behind it each case has seven, its parts. Numbers are little-endian words, and zeros at the end of a part are left
//! out.

use crate::lists::hex;

/// The calls, by their numbers in a list, and how many numbers each is told.
const CALLS: [(&str, usize); 20] = [
    ("utf8", 0),
    ("check", 0),
    ("split", 0),
    ("run", 0),
    ("text", 1),
    ("eval", 1),
    ("get", 1),
    ("remove", 2),
    ("pick_winner", 0),
    ("save_conflicts", 1),
    ("set_scope", 2),
    ("adjacent_scope", 0),
    ("adjacently_available_from", 1),
    ("conflict", 0),
    ("take_positional_word", 1),
    ("only_once", 1),
    ("matches_arg", 2),
    ("take_flag", 2),
    ("take_arg", 2),
    ("take_cmd", 1),
];

const PARTS: usize = 7;

/// A call, what it is given, and what it must answer. A place is itself plus 1, or 0 for none.
#[derive(Default)]
pub struct Case {
    /// the call's number, and the numbers that it is told
    pub head: Vec<u32>,
    /// the bytes themselves for utf8
    pub form: Vec<u8>,
    pub sheet: Vec<u8>,
    /// states: count, remaining, current, scope and marks
    pub given: Vec<u32>,
    pub second: Vec<u32>,
    /// number, place, tries, words, found, first, second and the state that is left; utf8 and check have numbers of their own
    pub answer: Vec<u32>,
    /// the words of the slice that the call writes, or the bytes of a text
    pub written: Vec<u8>,
}

/// Words as bytes, without the zeros at the end.
pub fn bytes(words: &[u32]) -> Vec<u8> {
    let end = words.iter().rposition(|w| *w != 0).map_or(0, |last| last + 1);
    words[..end].iter().flat_map(|w| w.to_le_bytes()).collect()
}

pub fn words(bytes: &[u8]) -> Vec<u32> {
    bytes.chunks_exact(4).map(|b| u32::from_le_bytes([b[0], b[1], b[2], b[3]])).collect()
}

impl Case {
    pub fn new(call: &str, told: &[u32], form: &[u8], sheet: &[u8]) -> Case {
        let number = CALLS.iter().position(|c| c.0 == call).unwrap_or_else(|| panic!("no such call: {call}"));
        let head = [&[number as u32], told].concat();
        Case { head, form: form.to_vec(), sheet: sheet.to_vec(), ..Case::default() }
    }

    fn parts(&self) -> [Vec<u8>; PARTS] {
        let (head, given, second) = (bytes(&self.head), bytes(&self.given), bytes(&self.second));
        [head, self.form.clone(), self.sheet.clone(), given, second, bytes(&self.answer), self.written.clone()]
    }

    fn read(parts: &[&[u8]]) -> Case {
        Case {
            head: words(parts[0]),
            form: parts[1].to_vec(),
            sheet: parts[2].to_vec(),
            given: words(parts[3]),
            second: words(parts[4]),
            answer: words(parts[5]),
            written: parts[6].to_vec(),
        }
    }

    /// Word k of the head: the call, then what it is told.
    pub fn told(&self, k: usize) -> u32 {
        self.head.get(k).copied().unwrap_or(0)
    }

    /// The call by its name.
    pub fn call(&self) -> &'static str {
        CALLS.get(self.told(0) as usize).map_or("?", |c| c.0)
    }

    /// The case as a line: form and sheet, the call, the states that it is given, its answer, the state that is left and what is
    /// written. Bytes are in hexadecimal, numbers in decimal, a dash is nothing.
    pub fn show(&self) -> String {
        let told = CALLS.get(self.told(0) as usize).map_or(2, |c| c.1);
        let call: String = (1..=told).map(|k| format!(" {}", self.told(k))).collect();
        let numbers = match self.call() {
            "utf8" | "check" => 4,
            "text" => 2,
            _ => 7,
        };
        let (answer, left) = self.answer.split_at(self.answer.len().min(numbers));
        let written = match self.call() {
            "text" => hex(&self.written),
            _ => decimal(&words(&self.written), 0),
        };
        let given = format!("{}{call} ; {} ; {}", self.call(), state(&self.given), state(&self.second));
        let said = format!("{} ; {} ; {written}", decimal(answer, numbers), state(left));
        format!("{} {} ; {given} ; {said}", hex(&self.form), hex(&self.sheet))
    }
}

/// Words in decimal, with the zeros that a list leaves out, up to a count.
fn decimal(words: &[u32], count: usize) -> String {
    let all = words.iter().copied().chain((words.len()..count).map(|_| 0));
    let shown: Vec<String> = all.map(|w| w.to_string()).collect();
    if shown.is_empty() { "-".to_string() } else { shown.join(" ") }
}

fn state(words: &[u32]) -> String {
    decimal(words, words.first().map_or(0, |count| 5 + *count as usize))
}

/// A list as a file.
pub fn write(command: &str, cases: &[Case]) -> Vec<u8> {
    let mut entries = vec![command.as_bytes().to_vec()];
    entries.extend(cases.iter().flat_map(Case::parts));
    let mut out = (entries.len() as u16).to_le_bytes().to_vec();
    let mut offset = 0;
    for entry in std::iter::once(&Vec::new()).chain(&entries) {
        offset += entry.len();
        let offset = u16::try_from(offset).expect("a list of at most 65,535 bytes");
        out.extend(offset.to_le_bytes());
    }
    out.extend(entries.concat());
    out
}

/// The command and the cases of a file; none if it is no list.
pub fn read(file: &[u8]) -> Option<(String, Vec<Case>)> {
    let number = |at: usize| file.get(at..at + 2).map(|b| usize::from(u16::from_le_bytes([b[0], b[1]])));
    let count = number(0)?;
    let area = file.get(2 + 2 * (count + 1)..)?;
    let offsets = (0..=count).map(|k| number(2 + 2 * k)).collect::<Option<Vec<_>>>()?;
    let entries = offsets.windows(2).map(|w| area.get(w[0]..w[1])).collect::<Option<Vec<_>>>()?;
    let (command, parts) = entries.split_first()?;
    let whole = parts.len() % PARTS == 0 && offsets[0] == 0 && offsets[count] == area.len();
    let command = String::from_utf8(command.to_vec()).ok()?;
    whole.then(|| (command, parts.chunks(PARTS).map(Case::read).collect()))
}
