//! What of a line is easily overlooked.

use std::ffi::{OsStr, OsString};
use std::os::unix::ffi::OsStringExt;

use silverpoise::{long, positional, short, CommandTable, Form, Node, Note, Reason, Takes, Text, TypedForm};

fn text() -> Node {
    Node::positional(Takes::Text)
}

fn number(letter: char) -> Node {
    Node::argument(short(letter), Takes::Number)
}

fn switch(letter: char) -> Node {
    Node::switch(short(letter))
}

/// The notes of a line, whether it is accepted or not.
fn notes(form: &Form, args: &[impl AsRef<OsStr>]) -> Vec<Note> {
    match form.read_values(args) {
        Ok(line) => line.notes().to_vec(),
        Err(error) => error.notes().to_vec(),
    }
}

fn words(form: &Form, args: &[impl AsRef<OsStr>]) -> Vec<String> {
    notes(form, args).iter().map(Note::to_string).collect()
}

fn form<const N: usize>(fields: [Node; N]) -> Form {
    Form::of(fields).unwrap()
}

const NONE: [Note; 0] = [];

/// By bpaf's rules each word that looks like options has its note, with the letter or without.
#[test]
fn words_that_look_like_options() {
    let plain = form([switch('v'), number('w').optional(), text().many()]).as_bpaf();
    let args = ["-vx", "lock", "-17", "-é=7", "-", "-w7", "--", "-vx"];
    let word = |place: usize, word: &str, reason: Reason| Note::Word { place, word: word.into(), reason };
    let letter = |letter: char| Reason::UnknownLetter(letter);
    let expected = [word(0, "-vx", letter('x')), word(2, "-17", letter('1')), word(3, "-é=7", Reason::NotUtf8)];
    assert_eq!(notes(&plain, &args), expected);
    assert_eq!(
        words(&plain, &args),
        [
            "`-vx` is one word, not options: no option has the letter `x`",
            "`-17` is one word, not options: no option has the letter `1`",
            "`-é=7` is one word, not options: its name is not UTF-8",
        ]
    );
    let bytes = [&b"-v\xff"[..], b"--\xff=1"].map(|bytes| OsString::from_vec(bytes.to_vec()));
    assert_eq!(
        words(&plain, &bytes),
        [
            "`-v\\xff` is one word, not options: its name is not UTF-8",
            "`--\\xff=1` is one word, not options: its name is not UTF-8"
        ]
    );
    // the letters of flags and of arguments are known, and the first that is not is told
    assert_eq!(words(&plain, &["-vyx"]), ["`-vyx` is one word, not options: no option has the letter `y`"]);
    assert_eq!(words(&plain, &["-\u{1b}v"]), ["`-\\u{1b}v` is one word, not options: no option has the letter `\\u{1b}`"]);
}

/// A refused line has them too, but for the one of which the refusal says it.
#[test]
fn words_of_a_refused_line() {
    let careful = form([switch('v'), text()]);
    for form in [careful.clone(), careful.clone().as_bpaf()] {
        let note = Note::Word { place: 0, word: "-vx".into(), reason: Reason::UnknownLetter('x') };
        // 27 for the second word, of which the refusal has the letter
        assert_eq!(notes(&form, &["-vx", "-yv"]), std::slice::from_ref(&note));
        // 27 for another reason
        assert_eq!(notes(&form, &["-vx", "-x"]), [note]);
    }
    // 50 says it of the first
    let second = Note::Word { place: 1, word: "-yv".into(), reason: Reason::UnknownLetter('y') };
    assert_eq!(notes(&form([text().many()]), &["-vx", "-yv"]), [second]);
    // 27 says another reason: there is no operand
    assert_eq!(words(&form([switch('v')]), &["-vx"]), ["`-vx` is one word, not options: no option has the letter `x`"]);
    // a line that is not split has none
    assert_eq!(notes(&careful, &["-vx"; 257]), NONE);
}

/// The letters of all commands count, and the command's own word is none.
#[test]
fn words_of_a_line_of_commands() {
    let forms = [form([switch('a'), text().many()]), form([switch('b')])];
    let names = [long("wear").long("-wx"), long("log")];
    let table = CommandTable::of(names.into_iter().zip(forms)).unwrap().as_bpaf();
    let noted = |args: &[&str]| table.read_values(args).map(|line| line.notes().to_vec()).unwrap();
    let note = Note::Word { place: 1, word: "-bx".into(), reason: Reason::UnknownLetter('x') };
    assert_eq!(
        (noted(&["wear", "-bx"]), noted(&["-wx", "-bx"]), noted(&["-wx", "a"])),
        (vec![note.clone()], vec![note], vec![])
    );
    let error = table.read_values(&["log", "-ax"]).unwrap_err();
    assert_eq!(error.notes(), [Note::Word { place: 1, word: "-ax".into(), reason: Reason::UnknownLetter('x') }]);
}

/// More letters than a form has names.
#[test]
fn many_letters() {
    let letters: Vec<char> = ('\u{4e00}'..).take(128).collect();
    let names = letters.iter().fold(silverpoise::Names::default(), |names, letter| names.short(*letter));
    let form = form([Node::switch(names), text()]).as_bpaf();
    let word: String = std::iter::once('-').chain(letters).chain(['x']).collect();
    assert_eq!(words(&form, &[&word]), [format!("`{word}` is one word, not options: no option has the letter `x`")]);
}

#[test]
fn a_rest_that_is_taken() {
    let form = form([text(), switch('v'), number('w').optional()]);
    let note = Note::RestTaken { place: 2, rest: "7".into(), argument: "-vw7".into(), letter: 'w' };
    assert_eq!(notes(&form, &["-vw7"]), [note]);
    let sentence = "a positional took `7`, the rest of `-vw7`, before `-w` looked for its value";
    assert_eq!(words(&form, &["-vw7"]), [sentence]);
    assert_eq!(notes(&form, &["a", "-vw7"]), NONE);
}

/// A count or a list that nothing on the line gave.
#[test]
fn values_from_nothing() {
    let why = |words: &[String]| words.join("; ");
    let switch_words = "although it took nothing: a switch always has a value, a flag only if it is given";
    assert_eq!(why(&words(&form([switch('v').count()]), &[""; 0])), format!("the count of `-v` is 1 {switch_words}"));
    assert_eq!(why(&words(&form([switch('v').many()]), &[""; 0])), format!("the list of `-v` has one value {switch_words}"));
    let optional = "the list of `-n` has one value although it took nothing: an optional always has a value";
    assert_eq!(why(&words(&form([number('n').optional().some()]), &[""; 0])), optional);
    let fallback = "the count of `-n` is 1 although it took nothing: with a fallback there is always a value";
    assert_eq!(why(&words(&form([number('n').fallback(1).guard(1..=5).count()]), &[""; 0])), fallback);
    let sides = Node::flag(short('a')).or(switch('b')).count();
    let choice = "the count of `-a` or `-b` is 1 although it took nothing: one of its sides always has a value";
    assert_eq!(why(&words(&form([sides]), &[""; 0])), choice);

    let [Note::FromNothing(idle)] = &notes(&form([switch('q'), switch('v').count()]), &["-q"])[..] else { panic!("one note") };
    assert_eq!((idle.field, idle.node), (1, 2));
    // given, or nothing that is easily overlooked
    for form in [form([switch('v').count()]), form([switch('v').many()])] {
        assert_eq!(notes(&form, &["-v"]), NONE);
    }
    assert_eq!(notes(&form([Node::flag(short('v')).count(), switch('q'), switch('x').last()]), &[""; 0]), NONE);
    // the other side of the choice has the value 0
    let other = Node::flag(short('q')).count().or(switch('v').count());
    assert_eq!(notes(&form([other]), &[""; 0]), NONE);
    // an earlier field took it
    assert_eq!(notes(&form([switch('v'), switch('v').count()]), &["-v"]).len(), 1);
    // with types, and behind a command
    let typed = TypedForm::of((short('v').switch().count(), positional::<Text>().many())).unwrap();
    assert_eq!(typed.read_line(&["a"]).unwrap().notes().len(), 1);
    let table = CommandTable::of([(long("log"), form([switch('v').count()]))]).unwrap();
    assert_eq!(table.read_values(&["log"]).unwrap().notes().len(), 1);
    assert_eq!(table.read_values(&["log", "-v"]).unwrap().notes(), NONE);
}

/// The word that is refused stays used; a word that is not refused is not said to be.
#[test]
fn words_that_stay_used() {
    let stays = |place: usize| [Note::StaysUsed { place }];
    let operand = |takes| Node::positional(takes);
    assert_eq!(notes(&form([text().strict()]), &["a"]), stays(0));
    assert_eq!(notes(&form([text().non_strict()]), &["--", "a"]), stays(1));
    assert_eq!(notes(&form([operand(Takes::Number)]), &["a"]), stays(0));
    assert_eq!(notes(&form([number('n').guard(1..=5)]), &["-n9"]), stays(1));
    let sentence = "place 1 stays used: a word is not given back when it is refused";
    assert_eq!(words(&form([number('n').guard(1..=5)]), &["-n9"]), [sentence]);
    // an `else` gives the word back
    assert_eq!(notes(&form([operand(Takes::Number).fallback(9)]), &["a"]), NONE);
    // the word is accepted, and the fallback of a later field is refused
    let fallback = || number('n').fallback(0).guard(1..=9);
    assert_eq!(notes(&form([number('a').optional(), fallback()]), &["-a", "5"]), NONE);
    assert_eq!(notes(&form([number('a').guard(1..=9), fallback()]), &["-a", "5"]), NONE);
    assert_eq!(notes(&form([text().many(), fallback()]), &["a", "b"]), NONE);
    // it is its own field that is refused, before a later one would be
    assert_eq!(notes(&form([number('a').guard(1..=9), fallback()]), &["-a", "10"]), stays(1));
    assert_eq!(notes(&form([fallback().or(number('a').guard(1..=9)), text()]), &["-a", "10"]), NONE);
    // no word was taken
    assert_eq!(notes(&form([fallback()]), &[""; 0]), NONE);
    assert_eq!(notes(&form([text()]), &["a", "b"]), NONE);
}

#[test]
fn words_that_stay_used_under_a_command() {
    let form = form([number('a').guard(1..=9).optional(), number('n').fallback(0).guard(1..=9)]);
    let other = Form::of([switch('v')]).unwrap();
    let table = CommandTable::of([(long("wear"), other), (long("log"), form)]).unwrap();
    let noted = |args: &[&str]| {
        let error = table.read_values(args).unwrap_err();
        assert_eq!(error.number(), 26);
        error.notes().to_vec()
    };
    assert_eq!(noted(&["log", "-a", "10"]), [Note::StaysUsed { place: 2 }]);
    assert_eq!(noted(&["log", "-n", "10"]), [Note::StaysUsed { place: 2 }]);
    assert_eq!((noted(&["log", "-a", "5"]), noted(&["log"])), (vec![], vec![]));
}
