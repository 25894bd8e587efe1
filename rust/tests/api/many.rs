//! Many lines at once: each result is that of a single read.

use std::cell::Cell;
use std::collections::BTreeSet;
use std::ffi::{OsStr, OsString};
use std::os::unix::ffi::OsStrExt;

use silverpoise::{long, positional, short, Form, Line, Node, ReadError, Reader, Takes, Text, TypedForm, Value};

use super::typed::lines;

/// A switch, and numbers.
fn numbers() -> Form {
    Form::of([Node::switch(short('v')), Node::positional(Takes::Number).many()]).unwrap()
}

/// Reads the lines at once and one by one, and finds the same; the numbers of the refusals, where 0 is none.
fn same<A: AsRef<OsStr>>(reader: &mut Reader, form: &Form, lines: &[Vec<A>]) -> Vec<u32> {
    let single: Vec<Result<Vec<Value>, ReadError>> =
        lines.iter().map(|line| form.read_values(line).map(Line::into_values)).collect();
    let many = reader.read_many_values(form, lines);
    assert!(many == single, "{many:?}\n{single:?}");
    many.iter().map(|read| read.as_ref().map_or_else(ReadError::number, |_| 0)).collect()
}

/// Every short line under a form that refuses in many ways. Errors are compared with all that they have: 27 also where a choice
/// was decided against an item, which only the marks tell.
#[test]
fn every_short_line() {
    let form = TypedForm::of((
        short('v').switch(),
        short('w').argument::<u32>().optional(),
        long("list").argument::<Text>().or(positional::<Text>()),
        positional::<u32>().many(),
        positional::<Text>().strict().optional(),
    ))
    .unwrap();
    let (lines, mut reader): (Vec<_>, _) = (lines().filter(|line| line.len() < 4).collect(), Reader::new());
    let seen: BTreeSet<u32> = same(&mut reader, form.form(), &lines).into_iter().collect();
    assert_eq!(seen, [0, 20, 25, 27].into());
    let typed = reader.read_many(&form, &lines);
    assert!(typed.iter().zip(&lines).all(|(read, line)| *read == form.read(line)) && typed.len() == lines.len());
    let conflicts = typed.iter().filter(|read| read.as_ref().is_err_and(|error| error.to_string().contains(" lost to ")));
    assert!(conflicts.count() > 10 && typed == form.read_many(&lines));
}

/// Any number of lines, in order. Every fifth is refused, and stops none behind it.
#[test]
fn any_number_of_lines() {
    let (form, mut reader) = (numbers(), Reader::new());
    for count in [0, 1, 32, 33, 70, 3, 0, 64] {
        let line = |k: usize| vec![if k % 5 == 4 { format!("x{k}") } else { k.to_string() }];
        let lines: Vec<Vec<String>> = (0..count).map(line).collect();
        let expected: Vec<u32> = (0..count).map(|k| if k % 5 == 4 { 25 } else { 0 }).collect();
        assert_eq!(same(&mut reader, &form, &lines), expected, "{count}");
        for (k, read) in form.read_many_values(&lines).into_iter().enumerate() {
            let number = || vec![Value::YesNo(false), Value::List(vec![Value::Number(k as u32)])];
            assert!(read.as_ref().map_or_else(|error| error.to_string().contains(&lines[k][0]), |values| *values == number()));
        }
    }
}

/// What no sheet can hold is refused as it is on a single line, and so is what gives too many items.
#[test]
fn lines_that_are_too_long() {
    let (form, mut reader) = (numbers(), Reader::new());
    let good = || vec!["7".to_string()];
    let lines = [
        vec!["x".repeat(32_769)],
        good(),
        vec!["7".to_string(); 257],
        good(),
        vec!["7".to_string(); 70_000],
        vec![format!("-{}", "v".repeat(257))],
        vec!["x".repeat(1 << 20), String::new()],
        vec!["0".repeat(128); 256],
        good(),
        vec![],
    ];
    assert_eq!(same(&mut reader, &form, &lines), [5, 0, 6, 0, 6, 8, 5, 0, 0, 0]);
    let words = form.read_many_values(&lines[..3])[2].as_ref().unwrap_err().to_string();
    assert_eq!(words, "there are 257 arguments, and at most 256 are read");
    // as many of the longest lines as a batch can have
    let longest = vec![vec!["0".repeat(128); 256]; 33];
    assert_eq!(same(&mut reader, &form, &longest), [0; 33]);
}

/// What a batch leaves in the buffers shows neither in the next one nor in a single read, and the other way round.
#[test]
fn a_reader_reads_many_and_single_lines() {
    let (form, mut reader) = (numbers(), Reader::new());
    let words = Form::of([Node::positional(Takes::Text).fallback("none")]).unwrap();
    let (full, short): (Vec<Vec<String>>, _) = (vec![vec!["1".to_string(); 256]; 40], vec![vec!["-v".to_string()], vec![]]);
    for _ in 0..2 {
        assert_eq!(same(&mut reader, &form, &full), [0; 40]);
        assert_eq!(reader.read_values(&form, &full[0]).unwrap().items().len(), 256);
        assert_eq!(same(&mut reader, &form, &short), [0, 0]);
        assert_eq!(same(&mut reader, &words, &short), [27, 0]);
        assert_eq!(reader.read_values(&words, &short[1]).unwrap().into_values(), [Value::Text("none".as_ref())]);
    }
}

/// Lines are slices of anything, and the texts are the caller's own bytes, which outlive the reader.
#[test]
fn lines_are_borrowed() {
    let form = TypedForm::of((positional::<Text>(),)).unwrap();
    let lines: Vec<Vec<OsString>> = vec![vec!["a".into()], vec!["b".into()]];
    let read = Reader::new().read_many(&form, &lines);
    for (read, line) in read.iter().zip(&lines) {
        let (text,) = read.as_ref().unwrap();
        assert_eq!(text.as_bytes().as_ptr(), line[0].as_bytes().as_ptr());
    }
    assert_eq!(form.read_many(&[["a"], ["b"]]), read);
    assert_eq!(form.read_many(&[&["a"][..], &["b"]]), read);
    assert_eq!(form.read_many(&[&lines[0], &lines[1]]), read);
    assert_eq!(form.read_many(&[&lines[0][..], &lines[1][..]]), read);
    assert!(form.read_many(&[[""; 0]; 2]).iter().all(|read| read.as_ref().is_err_and(|error| error.number() == 20)));
}

/// An argument is asked once for its text, also on a line that is refused.
#[test]
fn arguments_are_asked_once() {
    struct Counted(&'static str, Cell<u32>);
    impl AsRef<OsStr> for Counted {
        fn as_ref(&self) -> &OsStr {
            self.1.set(self.1.get() + 1);
            OsStr::new(self.0)
        }
    }
    let lines = ["7", "x", "-x"].map(|text| [Counted(text, Cell::new(0))]);
    let numbers: Vec<_> = numbers().read_many_values(&lines).iter().map(|read| read.is_ok()).collect();
    assert_eq!((numbers, lines.map(|[argument]| argument.1.get())), (vec![true, false, false], [1; 3]));
}
