//! The command `silverpoise`, run as it was built: what it prints, its errors with line and column, and its forms as bytes.

use std::ffi::{OsStr, OsString};
use std::io::Write;
use std::os::unix::ffi::OsStrExt;
use std::path::{Path, PathBuf};
use std::process::{Command, Output, Stdio};

use silverpoise::{long, short, CommandTable, Form, Node, Takes};

/// Runs a program with this on its standard input.
fn run(program: impl AsRef<OsStr>, args: &[impl AsRef<OsStr>], input: &[u8]) -> Output {
    let mut command = Command::new(program);
    command.args(args).stdin(Stdio::piped()).stdout(Stdio::piped()).stderr(Stdio::piped());
    let mut child = command.spawn().expect("the program starts");
    // a program that does not read its input may be gone already
    let _ = child.stdin.take().expect("piped").write_all(input);
    child.wait_with_output().expect("the program ends")
}

fn command(args: &[impl AsRef<OsStr>], input: &[u8]) -> Output {
    run(env!("CARGO_BIN_EXE_silverpoise"), args, input)
}

fn form_file(name: &str) -> PathBuf {
    Path::new(env!("CARGO_MANIFEST_DIR")).join("forms").join(name)
}

/// Reads a line by a form of rust/forms, and compares the exit status and all that is printed.
fn shows(form: &str, line: &[&str], status: i32, expected: &str) {
    shows_with(&[], form, line, status, expected);
}

/// The same with options of the command.
fn shows_with(options: &[&str], form: &str, line: &[&str], status: i32, expected: &str) {
    let (options, words) = (options.iter().map(OsString::from), line.iter().map(OsString::from));
    let args: Vec<OsString> = options.chain([form_file(form).into_os_string()]).chain(words).collect();
    let Output { status: ended, stdout, stderr } = command(&args, b"");
    assert_eq!(String::from_utf8_lossy(&stdout), expected.trim_start_matches('\n'), "{form} {line:?}");
    assert_eq!((ended.code(), stderr), (Some(status), Vec::new()), "{form} {line:?}");
}

#[test]
fn a_line_of_the_workshop() {
    let expected = r#"
line  -l7 -13 lock chain bolt
   0   ^                       Short, adjacent  used by limit
   1    ^                      Word             used by limit
   2       ^                   Short            used by cradle-1
   3        ^                  Short            used by cradle-3
   4          ^^^^             Word             used by label
   5               ^^^^^       Word             used by parts
   6                     ^^^^  Word             used by parts

values in 11 tries
  limit     7
  cradle-1  yes
  cradle-2  no
  cradle-3  yes
  cradle-4  no
  cradle-5  no
  cradle-6  no
  label     "lock"
  parts     ["chain", "bolt"]
"#;
    shows("wear.form", &["-l7", "-13", "lock", "chain", "bolt"], 0, expected);
}

#[test]
fn an_unknown_letter_in_a_cluster() {
    let expected = r#"
line  -vx lock
   0  ^^^       Word  used by parts
   1      ^^^^  Word  used by parts

refused with 50 at place 0 in 6 tries
  `-vx` looks like options and was read as a word: no option has the letter `x`; to be a word it must come after `--`
    -vx lock
    ^^^
"#;
    shows("bench.form", &["-vx", "lock"], 1, expected);
    let expected = r#"
line  -vx lock
   0  ^^^       Word  used by parts
   1      ^^^^  Word  used by parts

values in 6 tries
  verbose  no
  quiet    no
  weight   absent
  parts    ["-vx", "lock"]
note: `-vx` is one word, not options: no option has the letter `x`
"#;
    shows_with(&["--as-bpaf"], "bench.form", &["-vx", "lock"], 0, expected);
}

/// The wear order with a cradle too many: no label.
#[test]
fn a_cradle_that_there_is_not() {
    let expected = r#"
line  -17 lock
   0  ^^^       Word  used by label
   1      ^^^^  Word  used by parts

refused with 50 at place 0 in 10 tries
  `-17` looks like options and was read as a word: no option has the letter `7`; to be a word it must come after `--`
    -17 lock
    ^^^
"#;
    shows("wear.form", &["-17", "lock"], 1, expected);
}

/// What to write instead is shown where an option took the word.
#[test]
fn a_value_that_looks_like_options() {
    let printed = command(&["-", "--label", "-17", "-é=7"], b"label: text -l --label\nparts: text, many\n");
    let expected = "line  --label -17 -é=7
   0  ^^^^^^^           Long  used by label
   1          ^^^       Word  used by label
   2              ^^^^  Word  used by parts

refused with 50 at place 1 in 3 tries
  `-17` looks like options and was read as a word: no option has the letter `1`; as a value write `--label=-17`
    --label -17 -é=7
            ^^^
note: `-é=7` is one word, not options: its name is not UTF-8
";
    assert_eq!((printed.status.code(), String::from_utf8_lossy(&printed.stdout).as_ref()), (Some(1), expected));
}

/// Each warning has its field, and its command if there are commands.
#[test]
fn warnings_of_a_form() {
    let said = |text: &[u8]| {
        let Output { status, stdout, stderr } = command(&["--check", "-"], text);
        assert_eq!(stderr, []);
        (status.code(), String::from_utf8(stdout).expect("UTF-8"))
    };
    assert_eq!(said(b"verbose: switch -v\nparts: text, many\n"), (Some(0), "no warnings\n".to_string()));
    let all = "verbose: switch -v, count
label:   text
weight:  number -w, else 0, 1..9
rest:    text, many
more:    switch -v ---x
last:    text, optional
";
    let expected =
        "warning: verbose: the count of `-v` is 1 where nothing is given: a switch always has a value, a flag only if it is given
warning: weight: an operand comes before `-w` and may take its value: put operands last
warning: weight: the fallback 0 is not in the bounds 1..9: where nothing is given, it is refused
warning: more: `-v` is an option of an earlier field too, which takes it first
warning: more: the long name `-x` begins with a dash: it is given as `---x`
warning: last: no operand is left: an earlier field takes all
";
    assert_eq!(said(all.as_bytes()), (Some(1), expected.to_string()));
    let commands = b"[wear]\na: switch -a\n[log]\nb: text, many\n\x1bc: text\n";
    let expected = "warning: log: \\u{1b}c: no operand is left: an earlier field takes all\n";
    assert_eq!(said(commands), (Some(1), expected.to_string()));
}

/// The forms of rust/forms that show what is easily overlooked are those that have a warning.
#[test]
fn warnings_of_the_folder() {
    let warned = |name: &str| command(&[OsStr::new("--check"), form_file(name).as_os_str()], b"").status.code() == Some(1);
    let quiet = ["bench.form", "cradles.form", "rides.form", "strict.form", "wear.form", "workshop.form"];
    assert_eq!((quiet.map(warned), ["count.form", "label-first.form"].map(warned)), ([false; 6], [true; 2]));
}

#[test]
fn a_switch_that_nobody_gave_counts_one() {
    let expected = "
line  (no arguments)

values in 1 try
  verbose  1
note: the count of `-v` is 1 although it took nothing: a switch always has a value, a flag only if it is given
";
    shows("count.form", &[], 0, expected);
    let given = "
line  -v
   0  ^^  Short  used by verbose

values in 2 tries
  verbose  1
";
    shows("count.form", &["-v"], 0, given);
}

#[test]
fn a_word_used_up_by_a_refusal() {
    let expected = "
line  -v lock
   0  ^^       Short  used by verbose
   1     ^^^^  Word   used by part

refused with 23 at place 1 in 2 tries
  `lock` must come after `--`
    -v lock
       ^^^^
note: place 1 stays used: a word is not given back when it is refused
";
    shows("strict.form", &["-v", "lock"], 1, expected);
}

#[test]
fn a_positional_that_takes_the_rest_of_a_cluster() {
    let expected = "
line  -vw7
   0   ^    Short            used by verbose
   1    ^   Short, adjacent  not used
   2     ^  Word             used by label

refused with 22 at place 1 in 3 tries
  `-w` needs a value, and `7` after it is taken already
    -vw7
      ^
note: a positional took `7`, the rest of `-vw7`, before `-w` looked for its value
";
    shows("label-first.form", &["-vw7"], 1, expected);
}

#[test]
fn a_value_for_a_flag() {
    let expected = "
line  -v=7
   0  ^^    Short, adjacent  used by verbose
   1     ^  ArgWord          not used

refused with 27 at place 1 in 4 tries
  `-v` is taken as a flag, and `7` is given to it as a value
    -v=7
       ^
";
    shows("bench.form", &["-v=7"], 1, expected);
}

#[test]
fn a_command_of_the_workshop() {
    let expected = r#"
line  pair -f lock chain
   0  ^^^^                Word   the command pair
   1       ^^             Short  used by force
   2          ^^^^        Word   used by first
   3               ^^^^^  Word   used by second

values of pair in 3 tries, 3 comparisons
  force   yes
  first   "lock"
  second  "chain"
"#;
    shows("workshop.form", &["pair", "-f", "lock", "chain"], 0, expected);
    let short = r#"
line  w lock
   0  ^       Word  the command wear
   1    ^^^^  Word  used by label

values of wear in 9 tries, 2 comparisons
  limit     absent
  cradle-1  no
  cradle-2  no
  cradle-3  no
  cradle-4  no
  cradle-5  no
  cradle-6  no
  label     "lock"
  parts     []
"#;
    shows("workshop.form", &["w", "lock"], 0, short);
}

#[test]
fn a_line_that_is_no_command() {
    let expected = "
line  wera lock
   0  ^^^^       Word  not used
   1       ^^^^  Word  not used

refused with 31 in 0 tries, 4 comparisons
  `wera` is not a command; the commands are wear, pair, log
    wera lock
    ^^^^
";
    shows("workshop.form", &["wera", "lock"], 1, expected);
    let empty = "
line  (no arguments)

refused with 31 in 0 tries, 4 comparisons
  a command is required: wear, pair, log
";
    shows("workshop.form", &[], 1, empty);
}

/// Each sentence has the command before it.
#[test]
fn a_command_that_is_refused() {
    let expected = "
line  pair --forc lock
   0  ^^^^              Word  the command pair
   1       ^^^^^^       Long  not used
   2              ^^^^  Word  used by first

refused with 20 in 3 tries, 3 comparisons
  pair: `--forc` is not a known option
    pair --forc lock
         ^^^^^^
  pair: an operand is required, and was not found
";
    shows("workshop.form", &["pair", "--forc", "lock"], 1, expected);
    let number = "
line  w lock -l 10000
   0  ^                Word   the command wear
   1    ^^^^           Word   not used
   2         ^^        Short  used by limit
   3            ^^^^^  Word   used by limit

refused with 26 at place 3 in 1 try, 2 comparisons
  wear: a number is out of its bounds; the word that was taken last is shown
    w lock -l 10000
              ^^^^^
note: place 3 stays used: a word is not given back when it is refused
";
    shows("workshop.form", &["w", "lock", "-l", "10000"], 1, number);
}

/// The letters of all commands split a line, whichever is given.
#[test]
fn letters_of_another_command() {
    let form = b"[wear]\nlimit: number -l, optional\nrest: text, many\n[log]\nlong: switch -l\n";
    let printed = command(&["-", "wear", "-l7"], form);
    let expected = "line  wear -l7
   0  ^^^^      Word  not used
   1       ^^^  Word  not used

refused with 9 at place 1 in 0 tries, 0 comparisons
  the letter `l` in `-l7` is a flag of log and takes a value in wear: under every command it must be given separately
    wear -l7
          ^
";
    assert_eq!((printed.status.code(), String::from_utf8_lossy(&printed.stdout).as_ref()), (Some(1), expected));
    // a letter that only another command has is no unknown letter: the cluster is no word
    let printed = |word: &str| {
        String::from_utf8(command(&["-", "a", word], b"[a1]\na: switch -a\nr: text, many\n[b1 a]\nb: switch -b\n").stdout)
    };
    assert!(printed("-bb").expect("UTF-8").contains("b1: `-b` is not expected here"));
    let note = "note: `-bx` is one word, not options: no option has the letter `x`\n";
    assert!(printed("-bx").expect("UTF-8").ends_with(note));
    let misread = "a1: `-bx` looks like options and was read as a word: no option has the letter `x`";
    let form = b"[a1]\na: switch -a\nr: text, many\n[b1 a]\nb: switch -b\n";
    let read = |args: &[&str]| String::from_utf8(command(args, form).stdout).expect("UTF-8");
    assert!(read(&["-", "a1", "-bx"]).contains(misread));
    assert!(read(&["--as-bpaf", "-", "a1", "-bx"]).ends_with(note));
}

/// The word that was taken last is shown, and was not refused.
#[test]
fn a_number_of_another_field() {
    let form = b"a: number -a, optional\nn: number -n, else 0, 1..9\n";
    let printed = String::from_utf8(command(&["-", "-a", "5"], form).stdout).expect("UTF-8");
    assert!(printed.contains("refused with 26 at place 1 in 2 tries\n") && !printed.contains("note:"), "{printed}");
}

/// Where no word was taken, the place of 26 is that of the command, which is not refused.
#[test]
fn a_number_that_no_word_gave() {
    let printed = command(&["-", "ab"], b"[ab]\nn: number -n, else 9, 1..5\n");
    let expected = "line  ab
   0  ^^  Word  the command ab

refused with 26 at place 0 in 1 try, 1 comparison
  ab: a number is out of its bounds; the word that was taken last is shown
    ab
    ^^
";
    assert_eq!((printed.status.code(), String::from_utf8_lossy(&printed.stdout).as_ref()), (Some(1), expected));
}

/// Each that looked in vain is named, in order.
#[test]
fn something_missing() {
    let expected = "
line  -1
   0  ^^  Short  used by cradle-1

refused with 20 in 8 tries
  an operand is required, and was not found
";
    shows("wear.form", &["-1"], 1, expected);
    let form = b"verbose: switch -v\nstand: (text -s --stand or text), last\n";
    let printed = command(&["-", "-v"], form);
    let expected = "line  -v
   0  ^^  Short  used by verbose

refused with 20 in 5 tries
  `-s` or `--stand`, or an operand is required, and was not found
";
    assert_eq!((printed.status.code(), String::from_utf8_lossy(&printed.stdout).as_ref()), (Some(1), expected));
}

/// A mistyped option is said before what is missing.
#[test]
fn an_unknown_option_and_something_missing() {
    let expected = "
line  --limt=7
   0  ^^^^^^    Long, adjacent  not used
   1         ^  ArgWord         not used

refused with 20 in 8 tries
  `--limt` is not a known option
    --limt=7
    ^^^^^^
  an operand is required, and was not found
";
    shows("wear.form", &["--limt=7"], 1, expected);
}

/// A word that one field took and gave back is used by the next; the first `--` is used by none, the second by a field.
#[test]
fn each_row_names_its_field() {
    let form = b"limits: number, many, catch\nswitch: switch -s\nparts: text, many\n";
    let Output { status, stdout, stderr } = command(&["-", "1", "2", "lock", "-s", "--", "--"], form);
    let expected = r#"line  1 2 lock -s -- --
   0  ^                  Word     used by limits
   1    ^                Word     used by limits
   2      ^^^^           Word     used by parts
   3           ^^        Short    used by switch
   4              ^^     PosWord  ends the options
   5                 ^^  PosWord  used by parts

values in 7 tries
  limits  [1, 2]
  switch  yes
  parts   ["lock", "--"]
"#;
    assert_eq!(String::from_utf8_lossy(&stdout), expected);
    assert_eq!((status.code(), stderr), (Some(0), Vec::new()));
}

/// The field that won a choice, the option that lost it, and an option that is left over, under one refusal.
#[test]
fn a_conflict_and_its_winner() {
    let form = b"verbose: switch -v\nstand: text --cradle or text --stand\n";
    let printed = command(&["-", "--stand=b", "--cradle=a", "-v", "-v"], form);
    let expected = "line  --stand=b --cradle=a -v -v
   0  ^^^^^^^                     Long, adjacent  used by stand
   1          ^                   ArgWord         used by stand
   2            ^^^^^^^^          Long, adjacent  conflict with 0
   3                     ^        ArgWord         conflict with 0
   4                       ^^     Short           used by verbose
   5                          ^^  Short           not used

refused with 27 at place 2 in 3 tries
  `--cradle` lost to `--stand` at place 0: they cannot be given together
    --stand=b --cradle=a -v -v
              ^^^^^^^^
";
    assert_eq!((printed.status.code(), String::from_utf8_lossy(&printed.stdout).as_ref()), (Some(1), expected));
}

/// A cluster with an unknown letter that is left over: the refusal says so, and no note says it again. One that is used by a
/// field has its note all the same.
#[test]
fn an_unknown_letter_that_is_left_over() {
    let printed = command(&["-", "-vx", "-yv"], b"verbose: switch -v\nlabel: text\n");
    let expected = "line  -vx -yv
   0  ^^^      Word  used by label
   1      ^^^  Word  not used

refused with 27 at place 1 in 2 tries
  `-yv` is read as a word: no option has the letter `y`
    -vx -yv
        ^^^
note: `-vx` is one word, not options: no option has the letter `x`
";
    assert_eq!((printed.status.code(), String::from_utf8_lossy(&printed.stdout).as_ref()), (Some(1), expected));
}

/// Quotes about what is empty or has a space, escapes, the nothing behind a `=`, and the word `--`, used from the start.
#[test]
fn every_kind_of_item_and_escapes() {
    let expected = "
line  --weight= \"\" \"a b\" -- x \\u{1b}[1m\\\\
   0  ^^^^^^^^                             Long, adjacent  used by weight
   1           ^                           ArgWord         used by weight
   2            ^^                         Word            not used
   3                ^^^                    Word            not used
   4                     ^^                PosWord         ends the options
   5                        ^              PosWord         not used
   6                          ^^^^^^^^^^^  PosWord         not used

refused with 25 at place 1 in 3 tries
  `` is not a number from 0 to 4294967295
    --weight= \"\" \"a b\" -- x \\u{1b}[1m\\\\
             ^
note: place 1 stays used: a word is not given back when it is refused
";
    shows("bench.form", &["--weight=", "", "a b", "--", "x", "\x1b[1m\\"], 1, expected);
}

#[test]
fn bytes_that_are_no_text() {
    let file = form_file("bench.form");
    let line = [file.as_os_str(), OsStr::from_bytes(b"\xff7"), OsStr::from_bytes(b"-v\xff")];
    let expected = r#"line  \xff7 -v\xff
   0  ^^^^^         Word  used by parts
   1        ^^^^^^  Word  used by parts

values in 6 tries
  verbose  no
  quiet    no
  weight   absent
  parts    ["\xff7", "-v\xff"]
note: `-v\xff` is one word, not options: its name is not UTF-8
"#;
    let plain = [&[OsStr::new("--as-bpaf")][..], &line].concat();
    assert_eq!(String::from_utf8_lossy(&command(&plain, b"").stdout), expected);
    let refused = String::from_utf8(command(&line, b"").stdout).expect("UTF-8");
    assert!(refused.contains("`-v\\xff` looks like options and was read as a word: its name is not UTF-8; "), "{refused}");
}

/// A long line goes to several rows, a long argument is cut off, and a long list is wrapped.
#[test]
fn long_lines() {
    let words: Vec<String> = (10..50).map(|k| format!("part-{k}")).collect();
    let long = "x".repeat(80);
    let mut line: Vec<&str> = words.iter().map(String::as_str).collect();
    line.push(&long);
    let args: Vec<OsString> = std::iter::once(form_file("bench.form").into()).chain(line.iter().map(OsString::from)).collect();
    let printed = String::from_utf8(command(&args, b"").stdout).expect("UTF-8");
    let rows: Vec<&str> = printed.lines().collect();
    assert_eq!(rows.iter().filter(|row| row.starts_with("line")).count(), 6 + 1);
    assert_eq!(rows[0], "line  part-10 part-11 part-12 part-13 part-14 part-15 part-16");
    assert_eq!(rows[7], "   6                                                  ^^^^^^^   Word  used by parts");
    assert_eq!(rows[8], "line  part-17 part-18 part-19 part-20 part-21 part-22 part-23");
    assert_eq!(rows[9], "   7  ^^^^^^^                                                   Word  used by parts");
    assert_eq!(rows[46], format!("line  {}...", "x".repeat(53)));
    assert_eq!(rows[47], format!("  40  {}  Word  used by parts", "^".repeat(56)));
    assert!(rows.iter().all(|row| row.len() <= 100));
    let list: String = rows[rows.iter().position(|row| row.starts_with("  parts")).expect("the list")..].concat();
    let shown: Vec<&str> = list.split('"').skip(1).step_by(2).collect();
    assert_eq!(shown, line);
}

/// Rows have room for 56 columns; what was cut off stands under the dots.
#[test]
fn rows_are_filled() {
    let printed = |line: &[&str]| {
        let args: Vec<OsString> =
            std::iter::once(form_file("bench.form").into()).chain(line.iter().map(OsString::from)).collect();
        String::from_utf8(command(&args, b"").stdout).expect("UTF-8")
    };
    let (shorter, longer) = ("x".repeat(27), "x".repeat(28));
    assert_eq!(printed(&[&shorter, &longer]).matches("line  ").count(), 1);
    assert_eq!(printed(&[&longer, &longer]).matches("line  ").count(), 2);
    let name = "y".repeat(60);
    let rows = printed(&[&format!("--{name}=7")]);
    let rows: Vec<&str> = rows.lines().take(3).collect();
    let (cut, under) = (&name[..51], "^".repeat(56));
    let dots = format!("   1  {}^^^  ArgWord         not used", " ".repeat(53));
    assert_eq!(rows, [format!("line  --{cut}..."), format!("   0  {under}  Long, adjacent  not used"), dots]);
}

#[test]
fn lines_that_are_not_split() {
    let line = ["a"; 257];
    let expected = "
line  (not split)

refused with 6 in 0 tries
  there are 257 arguments, and at most 256 are read
";
    shows("bench.form", &line, 1, expected);
}

/// Only as far as the ambiguous letter there are items.
#[test]
fn an_ambiguous_letter() {
    let form = b"b: switch -b\nc: text -b, optional\nrest: text, many\n";
    let printed = command(&["-", "a", "-bb", "x"], form);
    let expected = "line  a -bb x
   0  ^        Word  not used
   1    ^^^    Word  not used

refused with 9 at place 1 in 0 tries
";
    assert_eq!(printed.status.code(), Some(1));
    assert!(String::from_utf8_lossy(&printed.stdout).starts_with(expected));
}

/// Lines that come near to a note, and of which it would not be true.
#[test]
fn no_note_where_its_fact_does_not_hold() {
    let noted = |form: &[u8], word: &str| {
        let printed = command(&["--as-bpaf", "-", word], form).stdout;
        String::from_utf8_lossy(&printed).contains("note:")
    };
    // the letter b is at fault, not x behind it
    let both = b"b: switch -b\nc: text -b, optional\nrest: text, many\n";
    assert!(noted(both, "-xb") && !noted(both, "-bx"));
    // what was taken from an argument, or comes after `--`
    assert!(noted(both, "-\u{e9}7") && noted(both, "-\u{e9}=7") && !noted(both, "-b=-x7") && !noted(both, "-"));
    // an `else` gives the word back
    assert!(noted(b"n: number\n", "a") && !noted(b"n: number, else 9\n", "a"));
}

/// The cradle options and the ride options on one line, and a third form of standard input.
#[test]
fn a_line_of_two_forms() {
    let expected = r#"
line  -vc2 -l7 -c 5 lock
   0   ^                  Short            used by verbose
   1    ^                 Short, adjacent  used by cradle
   2     ^                Word             used by cradle
   3        ^             Short, adjacent  used by laps
   4         ^            Word             used by laps
   5           ^^         Short            used by cradle
   6              ^       Word             used by cradle
   7                ^^^^  Word             used by parts

values in 9 tries
  verbose  yes
  quiet    no
  cradle   [2, 5]
  laps     7
  rider    "bench"
  parts    ["lock"]
"#;
    let cradles = form_file("cradles.form").display().to_string();
    let line = ["-vc2", "-l7", "-c", "5", "lock"];
    shows_with(&["--join", &cradles], "rides.form", &line, 0, expected);
    shows_with(&[&format!("--join={cradles}"), "--"], "rides.form", &line, 0, expected);

    let rides = form_file("rides.form").display().to_string();
    let printed = command(&["--join", "-", "--as-bpaf", "--join", &cradles, &rides, "-d7"], b"dry: switch -d\n");
    let values = "values in 8 tries
  dry      no
  verbose  no
  quiet    no
  cradle   []
  laps     absent
  rider    \"bench\"
  parts    [\"-d7\"]
note: `-d7` is one word, not options: no option has the letter `7`
";
    let stdout = String::from_utf8_lossy(&printed.stdout).into_owned();
    assert!(stdout.ends_with(values), "{stdout}");
}

/// What is asked of a form is asked of the whole.
#[test]
fn joined_forms() {
    let cradles = form_file("cradles.form").display().to_string();
    let said = |option: &str, text: &[u8]| {
        let Output { status, stdout, stderr } = command(&[option, "--join", &cradles, "-"], text);
        assert_eq!(stderr, []);
        (status.code(), stdout)
    };
    let text = |option: &str, text: &[u8]| said(option, text).1.into_iter().map(char::from).collect::<String>();
    let rides = std::fs::read(form_file("rides.form")).expect("the form");
    let [first, second] = ["cradles.form", "rides.form"].map(|name| {
        let bytes = command(&[OsStr::new("--emit"), form_file(name).as_os_str()], b"").stdout;
        Form::from_bytes(&bytes).expect("accepted")
    });
    assert_eq!(said("--emit", &rides), (Some(0), first.join(&second).expect("it fits").bytes().to_vec()));
    assert_eq!(said("--check", &rides), (Some(0), b"no warnings\n".to_vec()));
    let twice = "warning: volume: `-v` is an option of an earlier field too, which takes it first, and with other letters it \
                 is refused\n";
    assert_eq!(text("--check", b"volume: text -v, optional\n"), twice);
    assert_eq!(text("--portable", b"more: switch -+\n"), "not portable:\n  `-+` is none of 0..9, A..Z, a..z\n");
    assert_eq!(said("--portable", &rides).0, Some(0));
}

/// Each message names the file that is at fault.
#[test]
fn forms_that_cannot_be_joined() {
    let named = |name: &str| form_file(name).display().to_string();
    let (cradles, rides, workshop) = (named("cradles.form"), named("rides.form"), named("workshop.form"));
    let wrong = |args: &[&str], text: &str, words: &str| {
        let Output { status, stdout, stderr } = command(args, text.as_bytes());
        assert_eq!((status.code(), stdout), (Some(2), Vec::new()), "{args:?}");
        assert_eq!(String::from_utf8_lossy(&stderr), words, "{args:?}");
    };
    wrong(&["--join", "-", "-"], "", "silverpoise: standard input can be only one of the forms\n");
    wrong(&["--join", "no.form", &rides], "", "silverpoise: no.form: No such file or directory (os error 2)\n");
    wrong(&["--join", "", &rides], "", "silverpoise: : No such file or directory (os error 2)\n");
    for args in [["--join", &workshop, &rides], ["--join", &rides, &workshop]] {
        wrong(&args, "", &format!("silverpoise: {workshop}: it has commands, and only forms can be joined\n"));
    }
    let twice = |file: &str| format!("<stdin>:3:2: a field of {file} is called `laps` too\n   laps : number -n\n   ^\n");
    let text = "# more\nmore: switch -m\n laps : number -n\n";
    wrong(&["--join", &cradles, "--join", &rides, "-"], text, &twice(&rides));
    wrong(&["--join", &rides, "--join", "-", &cradles], text, &twice(&rides));
    wrong(
        &["--join", "-", &rides],
        "a: text or number\n",
        "<stdin>:1:9: its sides are a text and a number, and must be the same\n  a: text or number\n          ^\n",
    );
    let fields: String = (0..14).map(|k| format!("f{k}: switch -v\n")).collect();
    let words = "together the forms have 17 fields, 1 more than the 16 that are allowed\n";
    wrong(&["--join", &cradles, "-"], &fields, &format!("silverpoise: <stdin>: {words}"));
    wrong(&["--join", "-", &cradles], &fields, &format!("silverpoise: {cradles}: {words}"));
}

#[test]
fn values_of_every_kind() {
    let form = br#"
choice: flag -a or flag -b
list:   number -n, many            # two of them
empty:  text -e, many
within: (text -t, some), optional  # absent, not an empty list
absent: flag -f, optional, many
last:   number -l, last, optional
text:   text -x, else "a \"quoted\" \xff"
no:     switch -y, optional
"#;
    let printed = command(&["-", "-b", "-a", "-n1", "-n=2"], form);
    let expected = r#"line  -b -a -n1 -n=2
   0  ^^              Short            used by choice
   1     ^^           Short            conflict with 0
   2         ^        Short, adjacent  used by list
   3          ^       Word             used by list
   4            ^^    Short, adjacent  used by list
   5               ^  ArgWord          used by list

refused with 27 at place 1 in 13 tries
"#;
    let stdout = String::from_utf8_lossy(&printed.stdout).into_owned();
    assert!(stdout.starts_with(expected), "{stdout}");
    let printed = command(&["-", "-b", "-n1", "-n=2"], form);
    let values = r#"values in 13 tries
  choice  yes
  list    [1, 2]
  empty   []
  within  absent
  absent  [absent]
  last    absent
  text    "a \"quoted\" \xff"
  no      no
note: the list of `-f` has one value although it took nothing: an optional always has a value
"#;
    let stdout = String::from_utf8_lossy(&printed.stdout).into_owned();
    assert!(stdout.ends_with(values), "{stdout}");
}

#[test]
fn wrong_use_and_help() {
    let usage = "usage: silverpoise [--as-bpaf | --check | --emit | --portable] [--join FORM]... [--] FORM WORD...\n";
    let wrong = |args: &[&str], words: &str| {
        let Output { status, stdout, stderr } = command(args, b"");
        assert_eq!((status.code(), stdout), (Some(2), Vec::new()), "{args:?}");
        assert_eq!(String::from_utf8_lossy(&stderr), words, "{args:?}");
    };
    wrong(&[], &format!("silverpoise: a form is needed\n{usage}"));
    wrong(&["--emit", "--"], &format!("silverpoise: a form is needed\n{usage}"));
    wrong(&["--emti", "x"], &format!("silverpoise: there is no option `--emti`\n{usage}"));
    for option in ["--emit", "--portable", "--check"] {
        wrong(&[option, "x", "-v"], &format!("silverpoise: `{option}` takes no words after the form\n{usage}"));
        wrong(&["--as-bpaf", option, "x"], &format!("silverpoise: `--as-bpaf` and `{option}` do not go together\n{usage}"));
    }
    for args in [&["--join"][..], &["--join", "--check", "x"], &["--join", "--", "x"]] {
        wrong(args, &format!("silverpoise: `--join` needs a form\n{usage}"));
    }
    wrong(&["--join", "x"], &format!("silverpoise: a form is needed\n{usage}"));
    wrong(&["--join", "x", "--joim=x"], &format!("silverpoise: there is no option `--joim=x`\n{usage}"));
    wrong(&["--emit", "--portable", "x"], &format!("silverpoise: `--emit` and `--portable` do not go together\n{usage}"));
    wrong(&["no/such.form"], "silverpoise: no/such.form: No such file or directory (os error 2)\n");
    wrong(&["--", "--help"], "silverpoise: --help: No such file or directory (os error 2)\n");
    let printed = |args: &[&str]| String::from_utf8(command(args, b"").stdout).expect("UTF-8");
    assert!(printed(&["--help"]).contains(usage));
    assert_eq!(printed(&["--version"]), concat!("silverpoise ", env!("CARGO_PKG_VERSION"), "\n"));
}

#[test]
fn the_portable_mark() {
    let said = |text: &[u8]| {
        let Output { status, stdout, stderr } = command(&["--portable", "-"], text);
        assert_eq!(stderr, []);
        (status.code(), String::from_utf8(stdout).expect("UTF-8"))
    };
    let yes = "portable: every short option is one of 0..9, A..Z, a..z, and none is W\n";
    assert_eq!(said(&std::fs::read(form_file("wear.form")).expect("the form")), (Some(0), yes.into()));
    assert_eq!(said(b"parts: text, many\n"), (Some(0), yes.into()));
    let no = "not portable:\n  `-W` is reserved for vendor options\n  `-+` is none of 0..9, A..Z, a..z\n";
    assert_eq!(said(b"a: switch -W --wide\nb: text -+, optional\nc: flag -v, count\n"), (Some(1), no.into()));
    // of commands every form must be so; the commands' own short names do not matter
    assert_eq!(said(b"[wear +]\na: switch -a\n[log W]\nb: switch -b\n"), (Some(0), yes.into()));
    let no = "not portable:\n  log: `-W` is reserved for vendor options\n  pair: `-+` is none of 0..9, A..Z, a..z\n";
    let commands = b"[wear]\na: switch -a\n[log]\nb: switch -W\n[p pair]\nc: switch -+\n";
    assert_eq!(said(commands), (Some(1), no.into()));
}

/// The words behind the form are the line, those of the command's own options included.
#[test]
fn the_line_is_left_alone() {
    let form = b"emit: switch --emit\nhelp: switch --help\nrest: text, many\n";
    let printed = command(&["-", "--emit", "--help", "--", "--version"], form);
    let values = "values in 4 tries\n  emit  yes\n  help  yes\n  rest  [\"--version\"]\n";
    assert!(String::from_utf8_lossy(&printed.stdout).ends_with(values));
}

/// The first line of the error, and that the line of the text follows with a caret under the column.
fn fault(text: &[u8]) -> String {
    let Output { status, stdout, stderr } = command(&["-", "-v"], text);
    assert_eq!((status.code(), stdout), (Some(2), Vec::new()));
    let error = String::from_utf8(stderr).expect("UTF-8");
    let lines: Vec<&str> = error.lines().collect();
    assert_eq!(lines.len(), 3, "{error}");
    let first = lines[0].strip_prefix("<stdin>:").expect("the file's name");
    let numbers: Vec<usize> = first.split(':').take(2).map(|number| number.parse().expect("a number")).collect();
    let written = String::from_utf8_lossy(text);
    let shown = lines[1].strip_prefix("  ").expect("indented");
    if written.lines().nth(numbers[0] - 1).is_some_and(|line| line.chars().count() <= 100) {
        assert_eq!(shown, written.lines().nth(numbers[0] - 1).expect("the line").replace('\t', " "));
        assert_eq!(lines[2], format!("{}^", " ".repeat(numbers[1] + 1)));
    }
    first.to_string()
}

#[test]
fn every_error_of_the_notation() {
    let base = "`switch`, `flag`, `text`, `number` or `(` must be here";
    let modifier = "a modifier must be here: \
                    optional, many, some, count, last, catch, adjacent, strict, non-strict, LO..HI, else";
    let expected: &[(&str, &str)] = &[
        ("# nothing\n", "1:1: the form has no field"),
        (": switch -v", "1:1: a field begins with its name, as in `limit: number -l`"),
        ("\n\n\tv switch -v", "3:4: a `:` comes after the field's name, as in `limit: number -l`"),
        ("v: switch -v\nv: text", "2:1: a field before this one is called `v` too"),
        ("v: # nothing", &format!("1:4: {base}")),
        ("v: swich -v", &format!("1:4: {base}")),
        ("v: flag -v or", &format!("1:14: {base}")),
        ("v: switch # -v", "1:11: a name must be here, as in `-v` or `--verbose`"),
        ("v: switch -v,", &format!("1:14: {modifier}")),
        ("v: switch -v, lots", &format!("1:15: {modifier}")),
        ("v: switch -vq", "1:11: a name after one dash is one character; a longer one has two dashes"),
        ("v: switch -", "1:11: a name after one dash is one character; a longer one has two dashes"),
        ("é: text --a=b", "1:9: a long name with a `=` could never be given"),
        ("w: text \"-\\xff\"", "1:9: a name must be UTF-8"),
        ("w: text -w optional", "1:12: a comma, `or` or the end of the line must be here"),
        ("w: text -w)", "1:11: a comma, `or` or the end of the line must be here"),
        ("w: (text -w", "1:12: a comma, `or` or `)` must be here"),
        ("w: text, else \"abc", "1:15: the quotes are not closed on this line"),
        ("w: text, else \"a\\q\"", "1:17: there is no such escape: there are `\\\\`, `\\\"`, `\\n`, `\\r`, `\\t` and `\\xff`"),
        ("w: text, else \"\\xfg\"", "1:16: `\\x` needs two hexadecimal digits, as in `\\xff`"),
        ("w: text -\\x", "1:10: an escape must be in quotes, as in `\"\\xff\"`"),
        ("w: text, else maybe", "1:15: `yes`, `no`, a number or a text in quotes must be here"),
        ("w: number, else 4294967296", "1:17: `4294967296` is no number from 0 to 4294967295"),
        ("w: number, 1..+9", "1:12: `+9` is no number from 0 to 4294967295"),
        ("w: text -w, strict", "1:13: `strict` comes right after a text or number without a name"),
        ("w: flag -w, non-strict", "1:13: `non-strict` comes right after a text or number without a name"),
        ("w: text, adjacent", "1:10: `adjacent` comes right after a text or number with a name"),
        ("w: text, last, catch", "1:16: `catch` comes right after `optional`, `many` or `some`"),
    ];
    for (text, words) in expected {
        assert_eq!(fault(text.as_bytes()), *words, "{text}");
    }
    let not_utf8 = "2:5: this byte is not UTF-8; in quotes it can be written as in `\"\\xff\"`";
    assert_eq!(fault(b"v: switch -v\nw: \xc3\xa9\xff"), not_utf8);
}

#[test]
fn every_error_of_a_heading() {
    let name = "a command's name or `]` must be here, as in `[wear w]`";
    let no_long = "a command has a name of two characters or more, as in `[wear w]`";
    let expected: &[(&str, &str)] = &[
        ("[]\na: text", &format!("1:1: {no_long}")),
        ("[w]\na: text", &format!("1:1: {no_long}")),
        ("[wear", &format!("1:6: {name}")),
        ("[wear: w]", &format!("1:6: {name}")),
        ("[[wear]", &format!("1:2: {name}")),
        ("[wear] a: text", "1:8: the line of a command ends with `]`"),
        ("[wear -w]", "1:7: a command's name has no dashes; in quotes it is taken as it is"),
        ("[wear \"\\xff\"]", "1:7: a name must be UTF-8"),
        ("[wear wear]", "1:7: this name is a command's already"),
        ("[wear w]\na: text\n[w log]", "3:2: this name is a command's already"),
        ("a: text\n[wear]\nb: text", "2:1: fields come before the first command: they belong to none"),
        ("[wear]\n# nothing\n[log]\na: text", "1:1: the command has no field"),
        ("[wear]\na: text\n  [log]", "3:3: the command has no field"),
        // each form has its own fields, and its faults their own lines
        ("[wear]\na: text\n[log]\na: text\na: text", "5:1: a field before this one is called `a` too"),
        ("[wear]\na: text\n[log]\nb: number, 9..1", "4:12: nothing is within 9..1"),
    ];
    for (text, words) in expected {
        assert_eq!(fault(text.as_bytes()), *words, "{text}");
    }
}

#[test]
fn limits_of_commands() {
    let commands = |count: usize| -> String { (0..count).map(|k| format!("[c{k}]\na: switch -v\n")).collect() };
    assert_eq!(emitted(commands(32).as_bytes()).0, Some(0));
    assert_eq!(fault(commands(33).as_bytes()), "65:1: a file has at most 32 commands");
    let names = |count: usize| format!("[{}]\na: text", (0..count).map(|k| format!(" n{k}")).collect::<String>());
    assert_eq!(emitted(names(128).as_bytes()).0, Some(0));
    assert_eq!(fault(names(129).as_bytes()), "1:1: it has 129 names, and at most 128 are allowed");
    // the limits of a form are those of each command's
    let two: String = ["ab", "cd"].map(|name| format!("[{name}]\nv: switch{}\n", " -v".repeat(128))).concat();
    assert_eq!(emitted(two.as_bytes()).0, Some(0));
}

/// What the form check refuses is found again in the text: the place is that of the word that made the node.
#[test]
fn refusals_of_the_form_check_have_their_place() {
    let expected = [
        ("w: number, 9..1", "1:12: "),
        ("v: switch -v\nw: text -w, 1..9, optional", "2:13: "),
        ("v: flag -v\n# two\nw: (flag -a or flag -b, count), many", "3:13: "),
        ("a: flag -a, many\nw: flag -a, count, many", "2:20: "),
        ("w: (flag -a or (flag -b or number -c)), optional", "1:25: "),
        ("w: number -n, else \"x\"", "1:15: "),
        ("w: text, optional, else \"x\"", "1:20: "),
        ("w: text, many, optional, optional", "1:26: "),
    ];
    for (text, place) in expected {
        let words = fault(text.as_bytes());
        assert!(words.starts_with(place) && !words.contains("node "), "{text}: {words}");
    }
}

#[test]
fn limits_have_their_place() {
    let fields: String = (0..17).map(|k| format!("f{k}: switch -v\n")).collect();
    assert_eq!(fault(fields.as_bytes()), "17:1: a form has at most 16 fields");
    let or = format!("v: switch -v{}", " or switch -v".repeat(32));
    assert!(fault(or.as_bytes()).starts_with(&format!("1:{}: a form has at most 64 nodes: ", 14 + 13 * 31)));
    let names = format!("v: switch{}", " -v".repeat(129));
    assert_eq!(fault(names.as_bytes()), format!("1:{}: a form has at most 128 names and texts after `else`", 11 + 3 * 128));
    let area = format!("v: text --{}, else \"x\"", "v".repeat(4096));
    let words = "the names and the texts after `else` have at most 4096 bytes together";
    assert_eq!(fault(area.as_bytes()), format!("1:{}: {words}", 3 + 7 + 4096 + 8));
    let brackets = format!("v: {}switch -v{}", "(".repeat(65), ")".repeat(65));
    assert_eq!(fault(brackets.as_bytes()), "1:68: brackets are at most 64 deep");
}

/// At the limits a form is still accepted.
#[test]
fn limits_are_reached() {
    let accepted = |text: String| assert_eq!(emitted(text.as_bytes()).0, Some(0), "{text}");
    accepted((0..16).map(|k| format!("f{k}: switch -v\n")).collect());
    accepted(format!("v: (switch -v{}), optional", " or switch -v".repeat(31)));
    accepted(format!("v: switch{}", " -v".repeat(128)));
    accepted(format!("v: text --{}, else \"x\"", "v".repeat(4095)));
    accepted(format!("v: {}switch -v{}", "(".repeat(64), ")".repeat(64)));
}

/// The exit status and the bytes of `--emit`.
fn emitted(text: &[u8]) -> (Option<i32>, Vec<u8>) {
    let Output { status, stdout, .. } = command(&["--emit", "-"], text);
    (status.code(), stdout)
}

/// Every node and every modifier, in the notation and as the crate builds it.
#[test]
fn emitted_forms_are_those_of_the_crate() {
    let text = r#"
        # each kind of node
        a: flag -f --flag "--two words"
        b: switch -1 -é
        c: text -t --, adjacent, optional
        d: number --number, adjacent, many, catch
        e: text, strict, some
        f: number, non-strict, optional, catch
        g: text -t, last
        h: number -n, 0..4294967295, else 7
        i: (switch -v, count) or number -c
        j: flag -x or flag -y or flag -z, else yes
        k: (flag -x or (flag -y or flag -z)), optional
        l: text -l, else "\"\\\n\r\t\x00\xff#"
        m: switch "-," "-\x2d" ---
        n: text, some, catch, optional
    "#;
    let (x, y, z) = (Node::flag(short('x')), Node::flag(short('y')), Node::flag(short('z')));
    let last = OsStr::from_bytes(b"\"\\\n\r\t\x00\xff#");
    let form = Form::of([
        Node::flag(short('f').long("flag").long("two words")),
        Node::switch(short('1').short('é')),
        Node::argument(short('t').long(""), Takes::Text).adjacent().optional(),
        Node::argument(long("number"), Takes::Number).adjacent().many().catch(),
        Node::positional(Takes::Text).strict().some(),
        Node::positional(Takes::Number).non_strict().optional().catch(),
        Node::argument(short('t'), Takes::Text).last(),
        Node::argument(short('n'), Takes::Number).guard(0..=u32::MAX).fallback(7),
        Node::switch(short('v')).count().or(Node::argument(short('c'), Takes::Number)),
        x.clone().or(y.clone()).or(z.clone().fallback(true)),
        x.or(y.or(z)).optional(),
        Node::argument(short('l'), Takes::Text).fallback(last),
        Node::switch(short(',').short('-').long("-")),
        Node::positional(Takes::Text).some().catch().optional(),
    ]);
    let form = form.expect("accepted");
    assert_eq!(emitted(text.as_bytes()), (Some(0), form.bytes().to_vec()));
    assert_eq!(Form::from_bytes(form.bytes()), Ok(form));
}

/// Names of every kind, and square brackets, which mean nothing on other lines.
#[test]
fn emitted_commands_are_those_of_the_crate() {
    let text = "# two\n [wear w \"two words\" \"-w\" \u{e9}] # names\n  a]: switch -[ --[x]\n[\"\" log]\nb: text\n";
    let wear = Form::of([Node::switch(short('[').long("[x]"))]).expect("accepted");
    let log = Form::of([Node::positional(Takes::Text)]).expect("accepted");
    let names = long("wear").short('w').long("two words").long("-w").short('\u{e9}');
    let table = CommandTable::of([(names, wear), (long("").long("log"), log)]).expect("accepted");
    assert_eq!(emitted(text.as_bytes()), (Some(0), table.bytes().to_vec()));
}

/// The forms of rust/forms are accepted, and what is emitted is read back.
#[test]
fn forms_of_the_folder() {
    let folder = std::fs::read_dir(form_file("")).expect("the folder");
    let mut count = 0;
    for file in folder {
        let path = file.expect("a file").path();
        let Output { status, stdout, stderr } = command(&[OsStr::new("--emit"), path.as_os_str()], b"");
        assert_eq!((status.code(), stderr), (Some(0), Vec::new()), "{path:?}");
        match path.ends_with("workshop.form") {
            true => assert_eq!(CommandTable::from_bytes(&stdout).expect("accepted").bytes(), stdout),
            false => assert_eq!(Form::from_bytes(&stdout).expect("accepted").bytes(), stdout),
        }
        count += 1;
    }
    assert_eq!(count, 8);
}

/// The wear order is the same alone and as a command.
#[test]
fn the_wear_order_of_the_workshop() {
    let emitted = |name: &str| command(&[OsStr::new("--emit"), form_file(name).as_os_str()], b"").stdout;
    let table = CommandTable::from_bytes(&emitted("workshop.form")).expect("accepted");
    assert_eq!(table.names(), ["wear", "pair", "log"]);
    assert_eq!(table.forms()[0].bytes(), emitted("wear.form"));
}

/// The proved program `bench` reads what is emitted, a sheet behind it. It is left out where `tools/programs bench` was not run.
#[test]
fn bench_reads_emitted_forms() {
    let bench = Path::new(env!("CARGO_MANIFEST_DIR")).join("../target/bin/bench");
    if !bench.is_file() {
        eprintln!("left out: {} is not built", bench.display());
        return;
    }
    let mut input = emitted(b"verbose: flag -v, count\n").1;
    input.extend(b"\x01\0\0\0\x03\0-vv");
    let printed = run(&bench, &[] as &[&str], &input);
    assert_eq!(String::from_utf8_lossy(&printed.stdout), "answer 0 place - tries 3 words 1\n2\n");
}
