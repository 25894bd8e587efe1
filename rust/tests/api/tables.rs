//! Command tables, from forms and from bytes.

use silverpoise::{long, short, CommandTable, Form, FormError, Mark, Node, ReadError, Takes, UsedBy, Value};

/// The table of docs/FORMAT.md, section 12: `wear` or `w` with the switch v, `log` or `l` with the optional text argument v.
const WEAR_LOG: &[u8] = b"\x02\0\0\0\0\0\x35\0\0\0\x79\0\0\0\
    \x02\0\x04\0\0\0\0\0\x01\0\x01\0\0\0\x04\0wear\
    \x01\0\x01\0\x01\0\x01\0\0\0\x01\0\0\0\x01\0\x01\0\0\0\0\0\0\0\0\0\0\0\0\0\x01\0v\
    \x02\0\x03\0\x01\0\0\0\x03\0\0\0\0\0\x01\0log\
    \x02\0\x01\0\x01\0\x01\0\x01\0\x02\0\0\0\x01\0\0\0\0\0\0\0\0\0\0\0\x04\0\0\0\0\0\0\0\0\0\0\0\0\0\0\0\0\0\0\0\x01\0v";

fn wear_log() -> CommandTable {
    CommandTable::from_bytes(WEAR_LOG).unwrap()
}

/// The lines of docs/FORMAT.md, section 12: number, place, command, comparisons, and the marks of the items.
#[test]
fn lines_of_the_documents() {
    let table = wear_log();
    let read = |args: &[&str]| match table.read_values(args) {
        Ok(line) => (0, None, line.command(), line.comparisons(), line.items().iter().map(|item| item.mark).collect()),
        Err(error) => {
            let marks: Vec<Mark> = error.items().iter().map(|item| item.mark).collect();
            (error.number(), error.place(), error.command(), error.comparisons(), marks)
        }
    };
    let (command, field) = (Mark::Used(UsedBy::Command), Mark::Used(UsedBy::Field(0)));
    let none = Mark::Unused;
    assert_eq!(read(&["wear"]), (0, None, Some(0), 1, vec![command]));
    assert_eq!(read(&["w", "-v"]), (0, None, Some(0), 2, vec![command, field]));
    assert_eq!(read(&["log"]), (0, None, Some(1), 3, vec![command]));
    assert_eq!(read(&["wear", "-vv"]), (9, Some(1), None, 0, vec![none, none]));
    assert_eq!(read(&["a"]), (31, None, None, 4, vec![none]));
    assert_eq!(read(&[]), (31, None, None, 4, vec![]));
    assert_eq!(read(&["-v", "wear"]), (31, None, None, 4, vec![none, none]));
    assert_eq!(read(&["--", "wear"]), (31, None, None, 4, vec![Mark::Used(UsedBy::Marker), none]));
}

#[test]
fn values_of_the_command() {
    let (table, args) = (wear_log(), ["l", "-v", "x"]);
    let text = Value::Optional(Some(Box::new(Value::Text("x".as_ref()))));
    assert_eq!(table.read_values(&args).unwrap().into_values(), [text]);
    assert_eq!(table.read_values(&["wear", "-v"]).unwrap().into_values(), [Value::YesNo(true)]);
    assert_eq!((table.names(), table.forms().len()), (&["wear".to_string(), "log".to_string()][..], 2));
    assert_eq!(table.ambiguous_letters(), ['v']);
}

/// The same forms and names, put together; the bytes differ, since no name shares another's bytes.
#[test]
fn tables_of_forms() {
    let v = || short('v');
    let wear = Form::of([Node::switch(v())]).unwrap();
    let log = Form::of([Node::argument(v(), Takes::Text).optional()]).unwrap();
    let table = CommandTable::of([(short('w').long("wear"), wear), (long("log").short('l'), log)]).unwrap();
    assert_eq!((table.forms(), table.names()), (wear_log().forms(), wear_log().names()));
    assert_eq!(CommandTable::from_bytes(table.bytes()), Ok(table.clone()));
    assert_eq!(table.bytes().len(), WEAR_LOG.len() + 2);
    assert_eq!(&table.bytes()[10..36], b"\x7b\0\0\0\x02\0\x05\0\0\0\0\0\x01\0\x01\0\x01\0\x04\0wwear\x01");
    for args in [&["w", "-v"][..], &["l", "-vx"], &["x"]] {
        let read =
            |table: &CommandTable| table.read_values(args).map(|line| (line.command(), line.comparisons())).map_err(number);
        assert_eq!(read(&table), read(&wear_log()), "{args:?}");
    }
}

fn number(error: ReadError) -> u32 {
    error.number()
}

fn with(changes: &[(usize, u8)]) -> FormError {
    let mut bytes = WEAR_LOG.to_vec();
    changes.iter().for_each(|(at, byte)| bytes[*at] = *byte);
    CommandTable::from_bytes(&bytes).unwrap_err()
}

#[test]
fn tables_at_fault() {
    let is = |error: FormError, command: Option<usize>, words: &str| {
        assert_eq!((error.number(), error.place(), error.command(), error.to_string()), (11, None, command, words.to_string()));
    };
    let cut = |length: usize| CommandTable::from_bytes(&WEAR_LOG[..length]).unwrap_err();
    is(cut(1), None, "the table has 1 bytes, and its count alone needs 2");
    is(with(&[(0, 0)]), None, "the table has 0 commands, and 1 to 32 are allowed");
    is(with(&[(0, 33)]), None, "the table has 33 commands, and 1 to 32 are allowed");
    let offsets = "the table's offsets are not there, or do not fit its bytes";
    is(cut(13), None, offsets);
    is(cut(WEAR_LOG.len() - 1), None, offsets);
    is(with(&[(2, 1)]), None, offsets); // the first is not 0
    is(with(&[(6, 0x7a)]), None, offsets); // one falls
    is(with(&[(10, 0x78)]), None, offsets); // something is behind the last
    is(with(&[(6, 3)]), Some(0), "command 0: its entry has 3 bytes, too few for its names");
    is(with(&[(6, 19)]), Some(0), "command 0: its entry has 19 bytes, too few for its names");
    is(with(&[(14, 129)]), Some(0), "command 0: it has 129 names, and at most 128 are allowed");
    is(with(&[(17, 17)]), Some(0), "command 0: its names have 4356 bytes, and at most 4096 are allowed");
    is(with(&[(24, 2)]), Some(0), "command 0: its name record 1 has the type 2, and a command's names are of type 0 or 1");
    is(with(&[(28, 5)]), Some(0), "command 0: the part of its name record 1 is outside the area");
    is(with(&[(22, 2)]), Some(0), "command 0: its short name `we` is not one UTF-8 character");
    is(with(&[(31, 0xff)]), Some(0), "command 0: its long name `w\\xffar` is not UTF-8");
    is(with(&[(24, 0), (28, 1)]), Some(0), "command 0: it has no long name");
    // also of the last entry, and before a form at fault
    is(
        with(&[(44, 0), (71, 2)]),
        Some(1),
        "command 1: its name record 0 has the type 2, and a command's names are of type 0 or 1",
    );
}

/// A form at fault is refused as it is alone, with its command.
#[test]
fn forms_at_fault() {
    let error = with(&[(44, 12)]);
    assert_eq!((error.number(), error.place(), error.command()), (3, Some(0), Some(0)));
    assert_eq!(error.to_string(), "wear: node 0, of kind 12: there is no kind 12 of nodes");
    let error = with(&[(94, 0)]);
    assert_eq!((error.number(), error.place(), error.command()), (4, Some(0), Some(1)));
    assert_eq!(error.reason(), "it is used 2 times, and must be used once");
    assert!(error.to_string().starts_with("log: node 0, text(-v): "));
    // no form behind the names of `log`
    let mut unformed = WEAR_LOG[..86].to_vec();
    unformed[10] -= 49;
    let error = CommandTable::from_bytes(&unformed).unwrap_err();
    assert_eq!((error.number(), error.command()), (1, Some(1)));
    assert_eq!(error.to_string(), "log: the form has 0 bytes, and its counts alone need 8");
}

/// Every cut of a table, and every byte of it changed, is a table or an error; a table reads a line.
#[test]
fn damaged_tables() {
    let mut accepted = 0;
    let mut try_table = |bytes: &[u8]| match CommandTable::from_bytes(bytes) {
        Ok(table) => {
            accepted += 1;
            let _ = table.read_values(&["wear", "-v"]);
        }
        Err(error) => {
            assert!([1, 2, 3, 4, 11].contains(&error.number()) && !error.to_string().contains("is refused"), "{error}")
        }
    };
    (0..WEAR_LOG.len()).for_each(|length| try_table(&WEAR_LOG[..length]));
    for at in 0..WEAR_LOG.len() {
        for value in [0, 1, 2, 3, 5, 9, 11, 32, 33, 64, 127, 255] {
            let mut changed = WEAR_LOG.to_vec();
            changed[at] = value;
            try_table(&changed);
        }
    }
    assert!(accepted > 20, "{accepted}");
}
