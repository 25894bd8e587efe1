//! Generated forms and lines through the safe API of the crate, against the real bpaf, in one process.
//!
//! Built by `rust/test` with the libraries of `oracle/build`: `line` (formats and cases) and `bpaf` (with the harness).
//! Compared for every line: number, place, tries, items, marks, what is missing, values with their texts; that texts are parts
//! of the caller's arguments; that each item's part of its argument is what it stands for; the same form built from nodes, and
//! joined of two parts; that exactly the items that a 27 left over have a reason. Of every second line: that read carefully it
//! is the same but for a 50, that it has just the notes that it should have, and its form a warning for each value from nothing.
//! Of every fourth line: that it is the same where it is read at once with another. bpaf's rules are those of `as_bpaf`.

use std::collections::BTreeMap;
use std::ffi::{OsStr, OsString};
use std::os::unix::ffi::{OsStrExt, OsStringExt};
use std::process::ExitCode;

use bpaf::doc::harness::{self, Wanted};
use line::cases::{self, Case, Rng};
use line::format::{self, Base, Kind};
use silverpoise::{
    Item, ItemKind, Line, Mark, Missing, Names, Node, Note, ReadError, Reader, Reason, Takes, UsedBy, Value, Warning,
};

/// What is compared of one read.
#[derive(Debug, PartialEq)]
struct Seen<'a> {
    number: u32,
    place: Option<usize>,
    tries: u64,
    values: Vec<Value<'a>>,
}

#[derive(Default)]
struct Compared {
    lines: u64,
    forms_refused: u64,
    sheets_left_out: u64,
    rebuilt: u64,
    too_large: u64,
    joined: u64,
    differ: u64,
    /// lines that are refused with 50 where they are read carefully
    misread: u64,
    /// notes of values from nothing, of words that stay used, and of 26 where the word at its place was not refused
    noted: u64,
    stay: u64,
    others: u64,
    /// accepted lines of fields with no operand left for them
    none_left: u64,
    numbers: BTreeMap<u32, u64>,
    /// the arguments of a line before
    before: Vec<OsString>,
}

impl Compared {
    fn must(&mut self, holds: bool, case: &Case, what: impl FnOnce() -> String) {
        if !holds {
            self.differ += 1;
            if self.differ <= 10 {
                println!("DIFFER {}\n  form {:02x?}\n  sheet {:02x?}", what(), case.form, case.sheet);
            }
        }
    }

    fn case(&mut self, reader: &mut Reader, case: &Case) {
        match (format::Form::check(&case.form), silverpoise::Form::from_bytes(&case.form).map(silverpoise::Form::as_bpaf)) {
            (Err(theirs), Err(ours)) => {
                self.forms_refused += 1;
                let same = (theirs.number, theirs.place) == (ours.number(), ours.place());
                // the words are found by a reading of their own, which must find a reason
                let words = ours.to_string();
                self.must(same && !words.contains("refused"), case, || format!("form {theirs:?}: {ours:?}"));
            }
            (Ok(theirs), Ok(ours)) => match format::Sheet::check(&case.sheet) {
                Ok(sheet) => self.line(reader, case, &theirs, &ours, &sheet),
                // no arguments give such a sheet
                Err(_) => self.sheets_left_out += 1,
            },
            (theirs, ours) => self.must(false, case, || format!("form {:?}: {:?}", theirs.err(), ours.err())),
        }
    }

    /// A warning for each repeat whose child may have a value from nothing, by a reading of the form's own.
    fn warnings(&mut self, case: &Case, form: &format::Form, warnings: &[Warning]) {
        let repeats = (0..form.nodes.len()).filter(|node| {
            let record = &form.nodes[*node];
            (format::MANY..=format::LAST).contains(&record.kind) && may_be_idle(form, record.p)
        });
        let mut told: Vec<usize> = warnings
            .iter()
            .filter_map(|warning| match warning {
                Warning::FromNothing(one) => Some(one.node),
                _ => None,
            })
            .collect();
        told.sort_unstable();
        let worded = warnings.iter().all(|warning| !warning.to_string().is_empty() && warning.field() < form.fields.len());
        self.must(repeats.eq(told.iter().copied()) && worded, case, || format!("warnings {warnings:?}"));
    }

    fn line(&mut self, reader: &mut Reader, case: &Case, form: &format::Form, ours: &silverpoise::Form, sheet: &format::Sheet) {
        self.lines += 1;
        let args: Vec<OsString> = sheet.arguments.iter().map(|arg| OsString::from_vec(arg.clone())).collect();
        let theirs = harness::run(form, sheet, Wanted { items: true, ..Wanted::default() });
        let expected = expected(form, sheet, &theirs);
        *self.numbers.entry(expected.number).or_default() += 1;

        let read = reader.read_values(ours, &args);
        let items = match &read {
            Ok(line) => line.items().to_vec(),
            Err(error) => error.items(),
        };
        self.items(case, &args, &theirs, &items);
        self.missing(case, form, &theirs, read.as_ref().map_or_else(ReadError::missing, |_| &[]));
        if let Err(error) = &read {
            self.must(shown_well(error), case, || format!("shown {error}"));
            self.reasons(reader, case, ours, &args, error);
        }
        if let Ok(line) = &read {
            let borrowed = line.values().iter().all(|value| borrowed(value, &args, ours.bytes()));
            self.must(borrowed, case, || "a text is copied".to_string());
        }
        let seen = seen(read.as_ref().map(|line| (line.values(), line.tries())));
        self.must(seen == expected, case, || format!("{seen:?}, expected {expected:?}"));
        self.rebuilt(reader, case, form, &args, &expected);
        if self.lines % 2 == 0 {
            self.overlooked(reader, case, form, &args, &read);
        }
        if self.lines % 4 == 0 {
            self.many(reader, case, ours, &args);
        }
    }

    /// What bpaf does not tell: the line as it is read carefully, its notes, and the form's warnings.
    fn overlooked(
        &mut self,
        reader: &mut Reader,
        case: &Case,
        form: &format::Form,
        args: &[OsString],
        read: &Result<Line<Vec<Value>>, ReadError>,
    ) {
        let careful = silverpoise::Form::from_bytes(&case.form).expect("it was accepted before");
        self.careful(reader, case, &careful, args, read);
        let warnings = careful.warnings();
        self.warnings(case, form, &warnings);
        match read {
            Ok(line) => {
                self.from_nothing(case, form, line);
                self.none_left(case, &warnings, line.items());
            }
            Err(error) => self.stays_used(reader, case, form, args, error),
        }
    }

    /// Why each item was left over, by its mark, and at the place of the error what the error says; no reason where it was not 27.
    fn reasons(&mut self, reader: &mut Reader, case: &Case, form: &silverpoise::Form, args: &[OsString], error: &ReadError) {
        let left_over = error.number() == 27;
        self.must(error.reason().is_some() == left_over, case, || format!("reason {:?}", error.reason()));
        for (place, item) in error.items().iter().enumerate() {
            let reason = reader.why(form, args, place);
            let told = match item.mark {
                Mark::Conflict(winner) if left_over => reason == Some(Reason::LostTo(winner)),
                Mark::Unused if left_over => reason.is_some_and(|reason| !matches!(reason, Reason::LostTo(_))),
                _ => reason.is_none(),
            };
            let same = reason == error.reason() || error.place() != Some(place);
            self.must(told && same, case, || format!("why {place}: {reason:?} of {item:?}"));
        }
    }

    /// The line as it is read without `as_bpaf`: the same, but refused with 50 where it is accepted and an argument before `--`
    /// that looks like options has no Short and no Long. Its notes then name all the others.
    fn careful(
        &mut self,
        reader: &mut Reader,
        case: &Case,
        form: &silverpoise::Form,
        args: &[OsString],
        plain: &Result<Line<Vec<Value>>, ReadError>,
    ) {
        let read = reader.read_values(form, args);
        let items = plain.as_ref().map_or(&[][..], |line| line.items());
        let end = args.iter().position(|arg| arg == "--").unwrap_or(args.len());
        let dashed = (0..end).filter(|k| args[*k].len() > 1 && args[*k].as_bytes()[0] == b'-');
        let option = |item: &Item| matches!(item.kind, ItemKind::Short(_) | ItemKind::Long(_));
        let first = |argument: usize| items.iter().position(|item| item.argument == argument);
        let misread: Vec<usize> = dashed.filter_map(first).filter(|place| !option(&items[*place])).collect();
        let same = match (&read, misread.first()) {
            (Err(error), Some(place)) => {
                self.misread += 1;
                let notes = error.notes().iter().chain(plain.as_ref().map_or(&[][..], |line| line.notes()));
                let words = notes.filter(|note| matches!(note, Note::Word { .. })).count();
                (error.number(), error.place()) == (50, Some(*place))
                    && matches!(error.reason(), Some(Reason::UnknownLetter(_) | Reason::NotUtf8))
                    && words == 2 * misread.len() - 1
            }
            (_, None) => read == *plain,
            _ => false,
        };
        self.must(same, case, || format!("carefully {read:?}, misread {misread:?}"));
    }

    /// A field with the warning that no operand is left for it takes none on any line that is accepted: what it takes is an option,
    /// or the value of the one before.
    fn none_left(&mut self, case: &Case, warnings: &[Warning], items: &[Item]) {
        for warning in warnings.iter().filter(|warning| matches!(warning, Warning::NoneLeft { .. })) {
            let took = |place: &usize| items[*place].mark.field() == Some(warning.field());
            let option = |place: usize| matches!(items[place].kind, ItemKind::Short(_) | ItemKind::Long(_));
            let operand = (0..items.len()).filter(took).find(|place| !option(*place) && (*place == 0 || !option(place - 1)));
            self.must(operand.is_none(), case, || format!("{warning:?}, and {operand:?} is taken"));
            self.none_left += 1;
        }
    }

    /// A note for each count and each list of one value that took nothing: always where it is the whole field.
    fn from_nothing(&mut self, case: &Case, form: &format::Form, line: &Line<Vec<Value>>) {
        let noted = |field: usize| line.notes().iter().any(|note| matches!(note, Note::FromNothing(one) if one.field == field));
        for (field, value) in line.values().iter().enumerate() {
            let took = line.items().iter().any(|item| item.mark.field() == Some(field));
            let one = |value: &Value| *value == Value::Number(1) || matches!(value, Value::List(list) if list.len() == 1);
            let within = matches!(value, Value::Optional(Some(value)) if one(value));
            let whole = matches!(form.nodes[form.fields[field] as usize].kind, format::MANY | format::SOME | format::COUNT);
            let good = if noted(field) { !took && (one(value) || within) } else { !whole || took || !one(value) };
            self.must(good, case, || format!("field {field}: {value:?} with the notes {:?}", line.notes()));
            self.noted += u64::from(noted(field));
        }
    }

    /// A note that the place of a 23 to 26 stays used, where its own field is refused: that is so if the fields up to that one are
    /// refused alike, with what splits the line as the others do.
    fn stays_used(&mut self, reader: &mut Reader, case: &Case, form: &format::Form, args: &[OsString], error: &ReadError) {
        let place = error.place().filter(|_| (23..=26).contains(&error.number()));
        let field = place.and_then(|place| error.items()[place].mark.field());
        let noted = error.notes().iter().any(|note| matches!(note, Note::StaysUsed { place: at } if Some(*at) == place));
        let expected = match (error.number(), field) {
            (26, Some(field)) => {
                let names = |kind: u16| form.letters(kind).into_iter().fold(Names::default(), Names::short);
                let others = [
                    (!form.letters(format::FLAG).is_empty()).then(|| Node::flag(names(format::FLAG)).many()),
                    (!form.letters(format::ARGUMENT).is_empty())
                        .then(|| Node::argument(names(format::ARGUMENT), Takes::Text).many()),
                ];
                let fields = form.fields[..=field].iter().map(|field| node(form, *field));
                let Ok(first) = silverpoise::Form::of(fields.chain(others.into_iter().flatten())) else { return };
                let read = reader.read_values(&first, args);
                read.is_err_and(|error| error.number() == 26)
            }
            (_, field) => field.is_some(),
        };
        self.must(noted == expected, case, || format!("notes {:?}, stays used: {expected}", error.notes()));
        self.stay += u64::from(noted);
        self.others += u64::from(!noted && error.number() == 26 && field.is_some());
    }

    /// The line in one call with one that stands before it: each has the result of a single read.
    fn many(&mut self, reader: &mut Reader, case: &Case, form: &silverpoise::Form, args: &[OsString]) {
        let before = std::mem::replace(&mut self.before, args.to_vec());
        let lines = [&before[..], args];
        let single = lines.map(|line| reader.read_values(form, line).map(Line::into_values));
        let many = reader.read_many_values(form, &lines);
        self.must(many == single, case, || format!("at once {many:?}, expected {single:?}"));
    }

    /// The same form from nodes. Shared names become names of their own, so a large form may pass a limit.
    fn rebuilt(&mut self, reader: &mut Reader, case: &Case, form: &format::Form, args: &[OsString], expected: &Seen) {
        let nodes: Vec<Node> = form.fields.iter().map(|field| node(form, *field)).collect();
        match silverpoise::Form::of(nodes.iter().cloned()).map(silverpoise::Form::as_bpaf) {
            Err(error) => {
                self.too_large += 1;
                self.must(error.number() == 1, case, || format!("form of nodes: {error}"));
            }
            Ok(ours) => {
                self.rebuilt += 1;
                let read = reader.read_values(&ours, args);
                let seen = seen(read.as_ref().map(|line| (line.values(), line.tries())));
                self.must(seen == *expected, case, || format!("form of nodes: {seen:?}, expected {expected:?}"));
                self.joined(case, &nodes, &ours);
            }
        }
    }

    /// Cut somewhere, the fields of a form are joined to that form again.
    fn joined(&mut self, case: &Case, fields: &[Node], whole: &silverpoise::Form) {
        if fields.len() > 1 {
            self.joined += 1;
            let (first, second) = fields.split_at(1 + self.lines as usize % (fields.len() - 1));
            let [first, second] = [first, second].map(|part| {
                silverpoise::Form::of(part.iter().cloned()).map(silverpoise::Form::as_bpaf).expect("its whole is accepted")
            });
            let joined = first.join(&second);
            self.must(joined.as_ref() == Ok(whole), case, || format!("joined at {}: {joined:?}", first.bytes()[2]));
        }
    }

    fn items(&mut self, case: &Case, args: &[OsString], theirs: &harness::Run, items: &[Item]) {
        let same_count = items.len() == theirs.records.len();
        self.must(same_count, case, || format!("{} items", items.len()));
        let area: Vec<u8> = args.iter().flat_map(|arg| arg.as_bytes()).copied().collect();
        for (place, (item, record)) in items.iter().zip(&theirs.records).enumerate() {
            let same = same_item(item, record, &area) && mark(item.mark) == usize::from(theirs.state.marks[place]);
            self.must(same, case, || format!("item {place}: {item:?}, expected {record:?}"));
            let part = &args[item.argument].as_bytes()[item.part.clone()];
            self.must(stands_for(item, part), case, || format!("part of item {place}: {item:?}"));
        }
        // every argument has an item, up to one with an ambiguous letter
        let numbers: Vec<usize> = items.iter().map(|item| item.argument).collect();
        let whole = numbers.last() == args.len().checked_sub(1).as_ref() || [8, 9].contains(&theirs.answer.number);
        let in_order = numbers.first().is_none_or(|first| *first == 0) && numbers.windows(2).all(|two| two[1] - two[0] <= 1);
        self.must(whole && in_order, case, || format!("arguments of items: {numbers:?}"));
    }

    /// What is missing, in order, each with the names that the form has for it.
    fn missing(&mut self, case: &Case, form: &format::Form, theirs: &harness::Run, missing: &[Missing]) {
        let entry = |m: &Missing| [m.node as u32 + 1, m.scope.start as u32, m.scope.end as u32];
        let same = missing.iter().map(entry).eq(theirs.missing.iter().copied());
        let named = missing.iter().all(|m| form.nodes.get(m.node).is_some_and(|node| m.names == given_names(form, node)));
        self.must(same && named, case, || format!("missing {missing:?}, expected {:?}", theirs.missing));
    }
}

/// A mark by its number: who used an item counts too.
fn mark(mark: Mark) -> usize {
    match mark {
        Mark::Unused => 0,
        Mark::Conflict(winner) => 2 + winner,
        Mark::Used(UsedBy::Marker) => 510,
        Mark::Used(UsedBy::Command) => 511,
        Mark::Used(UsedBy::Field(field)) => 512 + field,
    }
}

fn same_item(item: &Item, record: &[u32; 7], area: &[u8]) -> bool {
    let part = |k: usize| OsStr::from_bytes(&area[record[k] as usize..][..record[k + 1] as usize]);
    let kind = match item.kind {
        ItemKind::Short(letter) => record[0] == 1 && record[2] == letter as u32,
        ItemKind::Long(name) => record[0] == 2 && part(3) == name,
        ItemKind::ArgWord => record[0] == 3,
        ItemKind::Word => record[0] == 4,
        ItemKind::PosWord => record[0] == 5,
    };
    kind && record[1] == u32::from(item.adjacent) && part(5) == item.text
}

/// Whether these bytes of an argument are what the item stands for.
fn stands_for(item: &Item, part: &[u8]) -> bool {
    match item.kind {
        // a dash in a cluster is itself a letter
        ItemKind::Short('-') => part == b"-",
        ItemKind::Short(letter) => part.strip_prefix(b"-").unwrap_or(part) == letter.to_string().as_bytes(),
        ItemKind::Long(name) => part.strip_prefix(b"--") == Some(name.as_bytes()),
        _ => part == item.text.as_bytes(),
    }
}

/// A sentence alone, or a sentence, the line and carets; for 20 perhaps both, an unknown option first. What is missing is
/// always named, and nothing is for any other refusal.
fn shown_well(error: &ReadError) -> bool {
    let (text, number) = (error.to_string(), error.number());
    let named = error.missing().iter().all(|missing| text.contains(&missing.to_string()));
    if text == "something required was not found" || !named || error.missing().is_empty() == (number == 20) {
        return false;
    }
    let lines: Vec<&str> = text.split('\n').collect();
    match (error.place(), &lines[..]) {
        (None, [sentence]) => !sentence.is_empty(),
        (None, [unknown, line, carets, _]) => {
            number == 20 && unknown.ends_with(" is not a known option") && under(line, carets)
        }
        (Some(_), [_, line, carets]) => under(line, carets),
        _ => false,
    }
}

/// Whether there are carets, and all of them stand under the line or right behind it.
fn under(line: &str, carets: &str) -> bool {
    let within = carets.chars().count() <= line.chars().count() + 1;
    within && carets.trim_start().chars().all(|c| c == '^') && carets.contains('^')
}

/// Whether every text of a value is a part of the arguments' own bytes, or of the form's for a fallback.
fn borrowed(value: &Value, args: &[OsString], form: &[u8]) -> bool {
    let within = |part: &[u8], whole: &[u8]| whole.as_ptr_range().contains(&part.as_ptr());
    match value {
        Value::Text(text) => {
            let bytes = text.as_bytes();
            bytes.is_empty() || within(bytes, form) || args.iter().any(|arg| within(bytes, arg.as_bytes()))
        }
        Value::Optional(Some(value)) => borrowed(value, args, form),
        Value::List(values) => values.iter().all(|value| borrowed(value, args, form)),
        _ => true,
    }
}

fn seen<'a>(read: Result<(&Vec<Value<'a>>, u32), &ReadError>) -> Seen<'a> {
    match read {
        Ok((values, tries)) => Seen { number: 0, place: None, tries: tries.into(), values: values.clone() },
        Err(e) => Seen { number: e.number(), place: e.place(), tries: e.tries().into(), values: Vec::new() },
    }
}

/// What bpaf answered, its words read as values.
fn expected<'a>(form: &'a format::Form, sheet: &'a format::Sheet, run: &harness::Run) -> Seen<'a> {
    let a = &run.answer;
    let mut values = Vec::new();
    if a.number == 0 {
        let kinds = form.kinds().expect("an accepted form");
        let mut words = Words { rest: a.words.iter(), form, sheet, run };
        values = form.fields.iter().map(|field| words.value(kinds[*field as usize])).collect();
        assert!(words.rest.next().is_none(), "no word is left");
    }
    Seen { number: a.number, place: a.place, tries: a.tries, values }
}

struct Words<'r, 'a> {
    rest: std::slice::Iter<'r, u32>,
    form: &'a format::Form,
    sheet: &'a format::Sheet,
    run: &'r harness::Run,
}

impl<'a> Words<'_, 'a> {
    fn next(&mut self) -> u32 {
        *self.rest.next().expect("a word")
    }

    fn base(&mut self, base: Base) -> Value<'a> {
        let word = self.next();
        match base {
            Base::YesNo => Value::YesNo(word == 1),
            Base::Number => Value::Number(word),
            Base::Text if word >= 256 => Value::Text(OsStr::from_bytes(self.form.name(word as usize - 256))),
            Base::Text => Value::Text(self.item_text(word as usize)),
        }
    }

    /// The text of an item: the end of the argument that holds its last byte.
    fn item_text(&self, place: usize) -> &'a OsStr {
        let [.., offset, length] = self.run.records[place];
        let (mut from, length) = (offset as usize, length as usize);
        for argument in self.sheet.arguments.iter().filter(|_| length > 0) {
            if from < argument.len() {
                return OsStr::from_bytes(&argument[from..from + length]);
            }
            from -= argument.len();
        }
        OsStr::new("")
    }

    fn list(&mut self, element: impl Fn(&mut Self) -> Value<'a>) -> Value<'a> {
        Value::List((0..self.next()).map(|_| element(self)).collect())
    }

    fn optional(&mut self, value: impl Fn(&mut Self) -> Value<'a>) -> Value<'a> {
        Value::Optional((self.next() == 1).then(|| Box::new(value(self))))
    }

    fn value(&mut self, kind: Kind) -> Value<'a> {
        match kind {
            Kind::Base(base) => self.base(base),
            Kind::Optional(base) => self.optional(|words| words.base(base)),
            Kind::List(base) => self.list(|words| words.base(base)),
            Kind::ListOfOptional(base) => self.list(|words| words.optional(|words| words.base(base))),
            Kind::OptionalList(base) => self.optional(|words| words.list(|words| words.base(base))),
        }
    }
}

/// Whether a node may have a value although nothing on the line is its.
fn may_be_idle(form: &format::Form, node: u16) -> bool {
    let record = &form.nodes[node as usize];
    match record.kind {
        format::FLAG => record.r == 1,
        format::OPTIONAL | format::FALLBACK => true,
        format::GUARD => may_be_idle(form, record.p),
        format::CHOICE => may_be_idle(form, record.p) || may_be_idle(form, record.q),
        _ => false,
    }
}

/// A node of a form by the crate's constructors.
fn node(form: &format::Form, number: u16) -> Node {
    let record = &form.nodes[number as usize];
    let takes = if record.r & 2 == 2 { Takes::Number } else { Takes::Text };
    let child = |number: u16| node(form, number);
    let caught = |node: Node| if record.r == 1 { node.catch() } else { node };
    match record.kind {
        format::FLAG if record.r == 1 => Node::switch(names(form, record)),
        format::FLAG => Node::flag(names(form, record)),
        format::ARGUMENT if record.r & 1 == 1 => Node::argument(names(form, record), takes).adjacent(),
        format::ARGUMENT => Node::argument(names(form, record), takes),
        format::POSITIONAL => match record.p {
            0 => Node::positional(takes),
            1 => Node::positional(takes).strict(),
            _ => Node::positional(takes).non_strict(),
        },
        format::OPTIONAL => caught(child(record.p).optional()),
        format::MANY => caught(child(record.p).many()),
        format::SOME => caught(child(record.p).some()),
        format::COUNT => child(record.p).count(),
        format::LAST => child(record.p).last(),
        format::CHOICE => child(record.p).or(child(record.q)),
        format::GUARD => child(record.p).guard(record.lo..=record.hi),
        _ => match form.kinds().expect("an accepted form")[number as usize] {
            Kind::Base(Base::YesNo) => child(record.p).fallback(record.lo == 1),
            Kind::Base(Base::Number) => child(record.p).fallback(record.lo),
            _ => child(record.p).fallback(OsStr::from_bytes(form.name(record.r as usize))),
        },
    }
}

fn names(form: &format::Form, node: &format::Node) -> Names {
    (node.p..node.p + node.q).fold(Names::default(), |names, record| {
        let name = utf8(form, record);
        match form.names[record as usize].ty {
            format::SHORT => names.short(name.chars().next().expect("one character")),
            _ => names.long(name),
        }
    })
}

/// The names of a leaf as they are given on a line; a positional has none.
fn given_names(form: &format::Form, leaf: &format::Node) -> Vec<String> {
    let records = if leaf.kind == format::POSITIONAL { 0..0 } else { leaf.p..leaf.p + leaf.q };
    let dashes = |record: u16| if form.names[record as usize].ty == format::SHORT { "-" } else { "--" };
    records.map(|record| format!("{}{}", dashes(record), utf8(form, record))).collect()
}

fn utf8(form: &format::Form, record: u16) -> &str {
    std::str::from_utf8(form.name(record as usize)).expect("a name is UTF-8")
}

fn main() -> ExitCode {
    let words: Vec<u64> = std::env::args().skip(1).map(|word| word.parse().expect("SEED COUNT")).collect();
    let [seed, count] = words[..] else { panic!("SEED COUNT") };
    let (mut compared, mut reader, mut rng) = (Compared::default(), Reader::new(), Rng::new(seed));
    cases::limits().iter().for_each(|case| compared.case(&mut reader, case));
    while compared.lines < count {
        let case = match rng.below(8) {
            0 => cases::damaged(&mut rng),
            1 => cases::contested(&mut rng),
            _ => cases::well_made(&mut rng),
        };
        compared.case(&mut reader, &case);
    }
    let c = &compared;
    println!("answered {:?}", c.numbers);
    println!("{} forms refused, {} sheets that no arguments give", c.forms_refused, c.sheets_left_out);
    println!("{} forms from nodes, {} too large for it; {} of two parts joined", c.rebuilt, c.too_large, c.joined);
    println!("{} lines accepted that are refused with 50 where they are read carefully", c.misread);
    println!("{} values from nothing, {} words that stay used, {} that another field took", c.noted, c.stay, c.others);
    println!("{} times no operand was left for a field, as its warning says", c.none_left);
    println!("{} lines, {} differ", c.lines, c.differ);
    if c.lines > 0 && c.differ == 0 && c.misread > 0 && c.joined > 0 {
        ExitCode::SUCCESS
    } else {
        ExitCode::FAILURE
    }
}
