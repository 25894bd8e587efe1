//! Help and version beside the values.

use silverpoise::{long, positional, short, Answer, Names, Reader, Text, TypedForm};

/// A switch v, a number w and a word that must be given, with help.
fn answer(args: &[&str]) -> String {
    let form = TypedForm::of((short('v').switch(), short('w').argument::<u32>().optional(), positional::<Text>())).unwrap();
    let form = form.with_help().unwrap();
    let answer = match form.read(args) {
        Ok(Answer::Values(values)) => format!("{values:?}"),
        Ok(Answer::Help) => "help".to_string(),
        Ok(Answer::Version) => "version".to_string(),
        Err(error) => error.number().to_string(),
    };
    answer
}

#[test]
fn asked_for() {
    for args in [&["-h"][..], &["-vh"], &["-vhw7"], &["--help", "lock"], &["lock", "-h"], &["-Vh"], &["--version", "--help"]] {
        assert_eq!(answer(args), "help", "{args:?}");
    }
    for args in [&["-V"][..], &["-vV", "lock"], &["--version"]] {
        assert_eq!(answer(args), "version", "{args:?}");
    }
}

/// Help wins also where the rest is refused: a value missing (22), too often (27), no number (25), a value for help (27), a word
/// that looks like options (50).
#[test]
fn asked_for_on_a_line_that_is_refused() {
    for args in [&["-w", "-h"][..], &["-h", "-h"], &["-wx", "-h", "a"], &["--help=7", "a"], &["a", "-x", "-h"], &["-17", "-h"]]
    {
        assert_eq!(answer(args), "help", "{args:?}");
    }
    assert_eq!((answer(&["-17", "-V"]), answer(&["-17"])), ("version".to_string(), "50".to_string()));
}

/// The items and the tries of a line, as a form without help has them; a reader reads such lines too.
#[test]
fn lines_and_readers() {
    let fields = || (short('v').switch(), positional::<Text>());
    let form = TypedForm::of(fields()).unwrap().with_help().unwrap();
    let (args, mut reader) = (["-v", "lock"], Reader::new());
    let Ok(Answer::Values(line)) = form.read_line(&args) else { panic!("values") };
    assert_eq!((line.tries(), line.notes().len()), (4, 0));
    assert_eq!(line.items(), TypedForm::of(fields()).unwrap().read_line(&args).unwrap().items());
    for _ in 0..2 {
        assert_eq!(reader.read_help(&form, &args), Ok(Answer::Values((true, "lock".as_ref()))));
        assert_eq!(reader.read_help(&form, &["-xh", "--help"]), Ok(Answer::Help));
        assert_eq!(reader.read_help(&form, &["-V"]), Ok(Answer::Version));
        assert_eq!(reader.read_help(&form, &["-xh"]), Err(form.read_line(&["-xh"]).unwrap_err()));
    }
    assert_eq!(form.read_line(&["-h"]), Ok(Answer::Help));
    assert_eq!(form.read_line(&["-17", "-V"]), Ok(Answer::Version));
}

#[test]
fn not_asked_for() {
    assert_eq!(answer(&["lock"]), "(false, None, \"lock\")");
    assert_eq!(answer(&["-v", "--", "-h"]), "(true, None, \"-h\")");
    assert_eq!(answer(&["-w=7", "--", "--help"]), "(false, Some(7), \"--help\")");
    // an unknown letter makes the cluster a word
    assert_eq!(answer(&["-xh"]), "50");
    assert_eq!(answer(&["-w-h", "a"]), "25");
    assert_eq!(answer(&["--hel", "a"]), "27");
    assert_eq!(answer(&[]), "20");
    // a line that is not split says nothing
    assert_eq!(answer(&["-h"; 257]), "6");
}

/// Behind an ambiguous letter nothing is split, so only what stands before it is seen.
#[test]
fn beside_an_ambiguous_letter() {
    let form = TypedForm::of((short('v').switch(), short('b').switch(), short('b').argument::<Text>().optional())).unwrap();
    let form = form.with_help().unwrap();
    assert_eq!(form.read(&["-h", "-vb"]), Ok(Answer::Help));
    assert_eq!(form.read(&["-vb", "-h"]).unwrap_err().number(), 9);
}

#[test]
fn names_that_are_taken() {
    let taken = |names: Names| {
        let error = TypedForm::of((short('v').switch(), names.switch())).unwrap().with_help().unwrap_err();
        (error.number(), error.place(), error.to_string())
    };
    let words = |name: &str| format!("the form has an option `{name}`, which is wanted for help or version");
    assert_eq!(taken(short('h')), (2, Some(1), words("-h")));
    assert_eq!(taken(long("x").long("help")), (2, Some(2), words("--help")));
    assert_eq!(taken(short('V')), (2, Some(1), words("-V")));
    assert_eq!(taken(long("version")), (2, Some(1), words("--version")));
}

#[test]
fn too_many_fields_for_help() {
    let s = || short('s').switch();
    let fields = (s(), s(), s(), s(), s(), s(), s(), s(), s(), s(), s(), s(), s(), s(), s());
    let error = TypedForm::of(fields).unwrap().with_help().unwrap_err();
    assert_eq!(error.to_string(), "the form has 17 fields, and 1 to 16 are allowed");
}

#[test]
fn the_form_has_the_switches() {
    let form = TypedForm::of((short('v').switch(),)).unwrap().with_help().unwrap();
    let switches = (short('v').switch(), short('h').long("help").switch(), short('V').long("version").switch());
    assert_eq!(form.form(), TypedForm::of(switches).unwrap().form());
    assert_eq!(format!("{form:?}"), format!("{:?}", form.form()));
}
