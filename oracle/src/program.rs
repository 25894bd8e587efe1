//! The program `bench`, run as a process, against the real bpaf: what it prints, byte for byte.

use std::io::Write;
use std::process::{Command, Stdio};

use bpaf::doc::harness::{run_bytes, Wanted};
use line::{cases, cases::Rng, format::*, notation};

use crate::lists::hex;

/// The worked example of the rules: a count of switches `-v` on `-vv`.
fn worked_example() -> Vec<u8> {
    let mut bytes = vec![2, 0, 1, 0, 1, 0, 1, 0, 1, 0, 1, 0, 0, 0, 1, 0];
    bytes.extend([0; 10]);
    bytes.extend([7, 0]);
    bytes.extend([0; 14]);
    bytes.extend([0, 0, 0, 0, 1, 0, 0x76, 1, 0, 0, 0, 3, 0, 0x2d, 0x76, 0x76]);
    bytes
}

fn joined(form: &str, arguments: &[&[u8]]) -> Vec<u8> {
    let sheet = Sheet { arguments: arguments.iter().map(|a| a.to_vec()).collect() };
    [notation::parse(form).expect("a form").write(), sheet.write()].concat()
}

/// Lines of the rules that are run and not proved, with the beginning of the answer that they give.
fn known() -> Vec<(Vec<u8>, &'static str)> {
    let number = "optional(number(-w)); many(operand)";
    let word: &[u8] = b"a";
    vec![
        (worked_example(), "answer 0 place - tries 3 words 1\n2\n"),
        (Vec::new(), "answer 1 place - tries 0 words 0\n"),
        (worked_example()[..7].to_vec(), "answer 1 place - tries 0 words 0\n"),
        (notation::parse(number).expect("a form").write(), "answer 5 place - tries 0 words 0\n"),
        (joined(number, &[b"-w", b"-7"]), "answer 22 place 0 "),
        (joined(number, &[b"-w=-7"]), "answer 25 place 1 "),
        (joined(number, &[b"-w", b"4294967295"]), "answer 0 "),
        (joined(number, &[b"-w", b"4294967296"]), "answer 25 place 1 "),
        (joined(number, &[word; 256]), "answer 0 place - tries 258 words 258\n"),
        (joined(number, &[word; 257]), "answer 6 place - tries 0 words 0\n"),
    ]
}

/// The longest form and sheet that there are, joined; then a byte more, and more than the program reads.
fn longest() -> Vec<Vec<u8>> {
    let longest = cases::limits().iter().map(|c| c.joined()).filter(|b| b.len() == BENCH_INPUT - 1).last().expect("a longest case");
    let more = |n: usize| [&longest[..], &vec![0x61; n]].concat();
    vec![longest.clone(), more(1), more(2), more(4000)]
}

fn printed(program: &str, input: &[u8]) -> String {
    let mut child = Command::new(program).stdin(Stdio::piped()).stdout(Stdio::piped()).spawn().expect("the program starts");
    // the program may end before it has read all that is there
    let _ = child.stdin.take().expect("its input").write_all(input);
    String::from_utf8_lossy(&child.wait_with_output().expect("the program ends").stdout).into_owned()
}

pub fn compare(program: &str, seed: u64, count: u64) -> bool {
    let (mut cases_run, mut differ) = (0, 0);
    let mut each = |input: &[u8], begins: &str| {
        let (form, sheet) = split_joined(&input[..input.len().min(BENCH_INPUT)]);
        let theirs = run_bytes(form, sheet, Wanted::default()).answer.to_string();
        let ours = printed(program, input);
        cases_run += 1;
        if ours != theirs || !ours.starts_with(begins) {
            differ += 1;
            println!("DIFFER on {} bytes {}: ours {ours:?}, the Rust's {theirs:?}, known {begins:?}", input.len(), hex(&input[..input.len().min(400)]));
        }
    };
    known().iter().for_each(|(input, begins)| each(input, begins));
    longest().iter().for_each(|input| each(input, ""));
    let mut rng = Rng::new(seed);
    for k in 0..count {
        let case = if k % 8 == 0 { cases::damaged(&mut rng) } else { cases::well_made(&mut rng) };
        each(&case.joined(), "");
    }
    println!("bench: {cases_run} inputs, {differ} differ");
    cases_run > 0 && differ == 0
}
