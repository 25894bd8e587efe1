//! Why an item was left over.

use std::ffi::{OsStr, OsString};
use std::os::unix::ffi::OsStringExt;

use silverpoise::{long, short, CommandTable, Form, ItemKind, Mark, Node, Reader, Reason, Takes};

use super::typed::lines;

fn text() -> Node {
    Node::positional(Takes::Text)
}

fn switch(letter: char) -> Node {
    Node::switch(short(letter))
}

fn argument(letter: char) -> Node {
    Node::argument(short(letter), Takes::Text)
}

/// The reasons of all places, where each that is used has none; those of the error are the same at its own place.
fn reasons<const N: usize>(fields: [Node; N], args: &[impl AsRef<OsStr>]) -> Vec<Option<Reason>> {
    let form = Form::of(fields).unwrap();
    let error = form.read_values(args).unwrap_err();
    let all: Vec<Option<Reason>> = (0..error.items().len()).map(|place| form.why(args, place)).collect();
    let place = error.place().unwrap();
    assert_eq!((error.number(), error.reason(), all[place].is_some()), (27, all[place], true));
    assert_eq!(form.why(args, all.len()), None);
    all
}

#[test]
fn each_reason() {
    let choice = Node::flag(short('v')).or(Node::flag(short('q')));
    assert_eq!(reasons([switch('x'), choice], &["-x", "-q", "-v"]), [None, None, Some(Reason::LostTo(1))]);
    assert_eq!(
        reasons([switch('v')], &["-v", "-v", "--v", "-v"]),
        [None, Some(Reason::GivenEarlier(0)), Some(Reason::Unnamed), Some(Reason::GivenEarlier(1))]
    );
    assert_eq!(reasons([switch('v')], &["-vw=7"]), [None, Some(Reason::KeyUsed)]);
    assert_eq!(reasons([switch('v')], &["--", "-v"]), [None, Some(Reason::NoPositional)]);
    assert_eq!(reasons([switch('v'), text()], &["a", "-vé"]), [None, Some(Reason::UnknownLetter('é'))]);
    assert_eq!(reasons([text()], &["a", "b", "--", "c"]), [None, Some(Reason::Other), None, Some(Reason::Other)]);
}

/// The examples of docs/FORMAT.md, 14.4, that are not above.
#[test]
fn examples() {
    let fields = || {
        let weight = Node::argument(short('w'), Takes::Number);
        [switch('v'), switch('q'), weight.optional(), Node::flag(short('b')).optional(), argument('b').optional()]
    };
    assert_eq!(reasons(fields(), &["-vw=7"]), [None, Some(Reason::KeyUsed)]);
    assert_eq!(reasons(fields(), &["-x", "-x"]), [Some(Reason::Unnamed), Some(Reason::GivenEarlier(0))]);
    assert_eq!(reasons(fields(), &["-vx"]), [Some(Reason::NoPositional)]);
    assert_eq!(reasons(fields(), &["--=7"]), [Some(Reason::Unnamed), Some(Reason::Other)]);
    let form = Form::of(fields()).unwrap();
    for (args, number) in [(["-vw7"], 0), (["-vw"], 22), (["-vb"], 9)] {
        assert_eq!(form.read_values(&args).map_or_else(|error| error.number(), |_| 0), number);
        assert!((0..4).all(|place| form.why(&args, place).is_none()), "{args:?}");
    }
    // by another name
    let verbose = Node::switch(short('v').long("verbose"));
    assert_eq!(reasons([verbose], &["-v", "--verbose"]), [None, Some(Reason::Other)]);
}

/// The first that holds is told, though others do too.
#[test]
fn the_first_reason() {
    // it lost a choice, and is given twice
    let adjacent = argument('w').or(argument('w').adjacent());
    let lost = Some(Reason::LostTo(0));
    assert_eq!(reasons([adjacent], &["-w", "7", "-w8"]), [None, None, lost, lost]);
    // given earlier too, and by a name that no option has
    assert_eq!(reasons([switch('v')], &["-x", "-x"]), [Some(Reason::Unnamed), Some(Reason::GivenEarlier(0))]);
    // no positional, and an unknown letter
    assert_eq!(reasons([switch('v')], &["-vx"]), [Some(Reason::NoPositional)]);
    // of several unknown letters the first
    assert_eq!(reasons([switch('v'), text()], &["a", "-vyx"]), [None, Some(Reason::UnknownLetter('y'))]);
}

/// A word that looks like options and has no unknown letter: not UTF-8, with a value, or behind `--`.
#[test]
fn words_without_an_unknown_letter() {
    for word in [&b"-v\xff"[..], b"-\xc3\xa9=7", b"--\xff"] {
        let args = [OsString::from("a"), OsString::from_vec(word.to_vec())];
        assert_eq!(reasons([switch('v'), text()], &args), [None, Some(Reason::Other)], "{word:?}");
    }
    assert_eq!(reasons([switch('v'), text()], &["--", "a", "-vx"]), [None, None, Some(Reason::Other)]);
    // it is no whole argument
    let fields = [argument('w').adjacent().or(text()), switch('v')];
    let lost = Some(Reason::LostTo(0));
    assert_eq!(reasons(fields, &["a", "-w-vx"]), [None, lost, lost]);
}

/// An argument that asks for its value in the same argument names an item that has none.
#[test]
fn an_adjacent_argument_has_its_name() {
    assert_eq!(reasons([argument('w').adjacent().optional()], &["-w", "7"]), [Some(Reason::Other), Some(Reason::NoPositional)]);
}

/// A line that is accepted, or is refused with another number, leaves nothing over.
#[test]
fn no_reason() {
    let form = Form::of([switch('v'), argument('w').optional()]).unwrap();
    let mut reader = Reader::new();
    for (args, number) in [(&["-v"][..], 0), (&["-vw"], 22), (&["a"; 257], 6)] {
        let read = form.read_values(args);
        assert_eq!(read.as_ref().map_or_else(|error| (error.number(), error.reason()), |_| (0, None)), (number, None));
        let places = [0, 1, 255, 256, u32::MAX as usize, usize::MAX];
        assert!(places.iter().all(|place| reader.why(&form, args, *place).is_none()), "{args:?}");
    }
}

/// The proved call knows one form, and the letters of all commands split a line.
#[test]
fn lines_of_commands_have_no_reason() {
    let form = Form::of([switch('v'), Node::flag(short('q')).or(Node::flag(long("quiet")))]).unwrap();
    let table = CommandTable::of([(long("wear"), form)]).unwrap();
    let refused = |args: &[&str]| {
        let error = table.read_values(args).unwrap_err();
        assert_eq!((error.number(), error.reason()), (27, None));
        error.to_string().split('\n').next().unwrap().to_string()
    };
    assert_eq!(refused(&["wear", "-q", "--quiet"]), "wear: `--quiet` lost to `-q` at place 1: they cannot be given together");
    assert_eq!(refused(&["wear", "-q", "-v=7"]), "wear: `-v` is taken as a flag, and `7` is given to it as a value");
    assert_eq!(refused(&["wear", "-q", "-x"]), "wear: `-x` is not a known option");
    assert_eq!(refused(&["wear", "-q", "-v", "-v"]), "wear: `-v` is not expected here");
    assert_eq!(refused(&["wear", "-q", "-vx"]), "wear: `-vx` is not expected here: it is read as a word, not as options");
}

/// A command's own word may be a key; it is no flag that was taken.
#[test]
fn a_command_that_has_a_value() {
    let table = CommandTable::of([(long("-v=7"), Form::of([switch('x')]).unwrap())]).unwrap();
    let error = table.read_values(&["-v=7"]).unwrap_err();
    assert_eq!(error.to_string(), "-v=7: `7` is not expected here\n  -v=7\n     ^");
}

/// Of every short line that is refused with 27 each item that is not used has a reason, which its mark and kind bear out; a
/// reader that has read other lines tells the same.
#[test]
fn every_short_line() {
    let form = Form::of([
        switch('v'),
        Node::argument(short('w'), Takes::Number).optional(),
        Node::argument(long("list"), Takes::Text).or(text()),
    ])
    .unwrap();
    let (mut reader, mut seen) = (Reader::new(), 0);
    for line in lines().filter(|line| line.len() < 4) {
        let Err(error) = form.read_values(&line) else { continue };
        if error.number() != 27 {
            continue;
        }
        for (place, item) in error.items().iter().enumerate() {
            let reason = reader.why(&form, &line, place);
            assert_eq!(reason.is_some(), !item.mark.is_used(), "{line:?} {place}");
            let borne_out = match reason {
                None => true,
                Some(Reason::LostTo(winner)) => item.mark == Mark::Conflict(winner),
                Some(Reason::GivenEarlier(earlier)) => earlier < place && error.items()[earlier].kind == item.kind,
                Some(Reason::KeyUsed) => item.kind == ItemKind::ArgWord && error.items()[place - 1].mark.is_used(),
                Some(Reason::Unnamed) => matches!(item.kind, ItemKind::Short(_) | ItemKind::Long(_)),
                Some(Reason::UnknownLetter(letter)) => item.text.to_str().unwrap().contains(letter),
                Some(Reason::Other) => true,
                Some(Reason::NoPositional | Reason::NotUtf8) => false,
            };
            assert!(borne_out && (reason == error.reason() || Some(place) != error.place()), "{line:?} {place} {reason:?}");
            seen += 1;
        }
    }
    assert!(seen > 100, "{seen}");
}
