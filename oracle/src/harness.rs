//! The real bpaf on forms and sheets. Compiled as a module inside the bpaf crate, so that it sees `State` and its calls.
//!
//! Each node becomes the bpaf parser that it stands for. A leaf is wrapped so that tries are counted and the place of a
//! text is known; in a probed run every node is wrapped by `Visit`, which looks at the states and the value. A leaf carries its
//! node number in its help or metavar, so that it is known again in what bpaf says is missing.
//!
//! bpaf knows that a place is used, and not by which field. `Numbers` finds that out: the fields run one after the other on one
//! state, and what became used between two looks at it has the number of the field that ran between them.
//!
//! An entry of a command table becomes bpaf's own command, with the fields of its form inside it.
//!
//! Two forms on one line are never joined here: their parsers run one after the other on one state.

use std::{
    cell::{Cell, RefCell},
    collections::HashSet,
    ffi::OsString,
    marker::PhantomData,
    ops::Range,
    os::unix::ffi::{OsStrExt, OsStringExt},
    rc::Rc,
};

use line::{
    commands::{Command, Table},
    format::*,
    joins, marks,
};

use crate::{
    args::{Arg, Args, State},
    error::{Message, MissingItem},
    item::Item,
    meta_help::Metavar,
    params::{NamedArg, ParseCommand},
    positional,
    structs::{
        ParseCount, ParseFallback, ParseGuard, ParseLast, ParseMany, ParseOptional, ParseOrElse, ParseSome,
    },
    Error, Meta, ParseFailure, Parser,
};

/// `only_once` is private to error.rs, so the file is compiled once more, beside one function that hands it out.
#[allow(dead_code)]
mod error_again {
    include!("error.rs");

    pub(super) fn first_of_two(args: &State, cur: usize) -> Option<usize> {
        only_once(args, cur)
    }
}

type Node = Box<dyn Parser<Value>>;

/// The state as numbers, with the marks of `line::marks`.
#[derive(Clone, Debug, PartialEq, Eq)]
pub struct View {
    pub marks: Vec<u16>,
    pub remaining: usize,
    pub current: Option<usize>,
    pub scope: Range<usize>,
}

impl View {
    pub fn empty() -> View {
        View { marks: Vec::new(), remaining: 0, current: None, scope: 0..0 }
    }

    /// Places in scope that are not parsed, counted.
    pub fn unused(&self) -> usize {
        self.scope.clone().filter(|k| !self.used(*k)).count()
    }

    /// Whether there is such a place, and it is used.
    fn used(&self, place: usize) -> bool {
        self.marks.get(place).is_some_and(|mark| marks::used(*mark))
    }
}

/// Whether bpaf has used a place.
fn used(state: &State, place: usize) -> bool {
    state.present(place) == Some(false)
}

/// The mark of each used place, and 0 for the others.
#[derive(Clone, Default)]
struct Numbers(Vec<u16>);

impl Numbers {
    /// Every place that is used has the same mark.
    fn all(state: &State, mark: u16) -> Numbers {
        let mut numbers = Numbers(vec![0; state.items.len()]);
        numbers.look(state, mark);
        numbers
    }

    /// After the split: what `construct` used is the opening `--`, and nothing else.
    fn split(state: &State) -> Numbers {
        let numbers = Numbers::all(state, marks::MARKER);
        let opening = (0..state.items.len()).find(|k| matches!(state.items[*k], Arg::PosWord(_)));
        let good = (0..state.items.len()).all(|k| used(state, k) == (Some(k) == opening));
        assert!(good, "only the first operand behind the options is used by the split: `--`");
        numbers
    }

    /// What is used now and was not at the last look has this mark; what was used then keeps its own.
    fn look(&mut self, state: &State, mark: u16) {
        for (place, number) in self.0.iter_mut().enumerate() {
            *number = match used(state, place) {
                false => 0,
                true if *number == 0 => mark,
                true => *number,
            };
        }
    }
}

fn view(state: &State, numbers: &Numbers) -> View {
    // marks are private: a conflict shows by the crate's own `conflict` in a scope of one place
    let mut narrow = state.clone();
    let mark = |place: usize| {
        let number = numbers.0[place];
        assert_eq!(number != 0, used(state, place), "a used place has a number, and no other");
        if number != 0 {
            return number;
        }
        narrow.set_scope(place..place + 1);
        narrow.conflict().map_or(0, |(_, winner)| 2 + winner as u16)
    };
    View {
        marks: (0..state.items.len()).map(mark).collect(),
        remaining: state.len(),
        current: state.current,
        scope: state.scope(),
    }
}

/// What is shared by all nodes of one run: the count of tries, the choices crossed (`Sides`), the places that were used at some
/// moment of a field and, if probed, the facts found broken.
#[derive(Default)]
struct Watch {
    tries: Cell<u64>,
    crossed: RefCell<Vec<usize>>,
    /// whether it is wanted what a field puts back
    looks: bool,
    touched: RefCell<Vec<bool>>,
    put_back: RefCell<Vec<PutBack>>,
    visits: Cell<u64>,
    longest: Cell<usize>,
    broken: RefCell<Vec<String>>,
}

impl Watch {
    fn must(&self, holds: bool, what: impl FnOnce() -> String) {
        if !holds {
            self.broken.borrow_mut().push(what());
        }
    }

    /// A field begins: no place was used in it yet.
    fn field_begins(&self, state: &State) {
        let places = if self.looks { state.items.len() } else { 0 };
        self.touched.replace(vec![false; places]);
    }

    /// All that is ever used is used by a leaf, so it is enough to look whenever a leaf is done.
    fn leaf_ends(&self, state: &State) {
        self.touched.borrow_mut().iter_mut().enumerate().for_each(|(place, touched)| *touched |= used(state, place));
    }

    /// A field ends: what was used in it and no longer is was put back.
    fn field_ends(&self, field: usize, state: &State) {
        let touched = self.touched.take();
        let places = (0..touched.len()).filter(|place| touched[*place] && !used(state, *place));
        self.put_back.borrow_mut().extend(places.map(|place| PutBack { field, place }));
    }

    /// What holds of every state that a node is given or leaves.
    fn state(&self, node: usize, state: &View) {
        self.must(state.remaining == state.unused(), || format!("node {node}: remaining in {state:?}"));
        let current = state.current.map_or(true, |c| state.used(c));
        self.must(current, || format!("node {node}: current is no used place in {state:?}"));
        let conflicts = state.marks.iter().enumerate().filter(|(_, m)| **m != 0 && !marks::used(**m));
        for (place, mark) in conflicts {
            let winner = *mark as usize - 2;
            let left = winner < place && state.used(winner);
            self.must(left, || format!("node {node}: winner of place {place} in {state:?}"));
        }
    }

    /// What holds of one evaluation.
    fn evaluation(&self, node: usize, kind: Kind, given: &View, left: &View, result: &Result<Value, Error>) {
        self.visits.set(self.visits.get() + 1);
        self.state(node, given);
        self.state(node, left);
        self.must(given.scope == left.scope, || format!("node {node}: scope changed"));
        // so a place keeps the number of the field that used it
        let kept = (0..given.marks.len()).all(|place| !given.used(place) || left.used(place));
        self.must(kept, || format!("node {node}: {given:?} became {left:?}, a used place is not"));
        let by_leaf = self.touched.borrow().iter().enumerate().all(|(place, touched)| *touched || !left.used(place));
        self.must(by_leaf, || format!("node {node}: {left:?} has a place that no leaf used"));
        match result {
            Ok(value) => {
                self.must(value.has_kind(kind), || format!("node {node}: {value:?} is not of kind {kind:?}"));
                let idle = given.remaining == left.remaining;
                self.must(!idle || given == left, || format!("node {node}: {given:?} became {left:?}, nothing used"));
                self.longest.set(self.longest.get().max(value.longest_list()));
            }
            Err(Error(message)) => {
                let missing = matches!(message, Message::Missing(_));
                let used = given.remaining != left.remaining;
                self.must(!(missing && used), || format!("node {node}: missing with something used"));
                let listed = entries(message);
                let scope = [given.scope.start as u32, given.scope.end as u32];
                let whole = listed.is_empty() != missing && listed.iter().all(|e| e[1..] == scope);
                self.must(whole, || format!("node {node}: {listed:?} is listed in {given:?}"));
            }
        }
    }
}

/// Looks at one node's evaluations.
struct Visit {
    node: usize,
    kind: Kind,
    inner: Node,
    watch: Rc<Watch>,
}

impl Parser<Value> for Visit {
    fn eval(&self, args: &mut State) -> Result<Value, Error> {
        // which field used a place does not matter here
        let seen = |state: &State| view(state, &Numbers::all(state, marks::FIELD));
        let given = seen(args);
        let result = self.inner.eval(args);
        self.watch.evaluation(self.node, self.kind, &given, &seen(args), &result);
        result
    }

    fn meta(&self) -> Meta {
        self.inner.meta()
    }
}

/// One side of a choice, and the number that it was refused with last: 0 for none.
struct Side {
    inner: Node,
    ended: Rc<Cell<u32>>,
}

impl Parser<Value> for Side {
    fn eval(&self, args: &mut State) -> Result<Value, Error> {
        let result = self.inner.eval(args);
        self.ended.set(result.as_ref().err().map_or(0, |Error(message)| refusal(message).number));
        result
    }

    fn meta(&self) -> Meta {
        self.inner.meta()
    }
}

/// A choice whose sides are looked at: it is crossed if the first is refused with 24 and the second with 20.
struct Sides {
    node: usize,
    inner: ParseOrElse<Value>,
    ended: [Rc<Cell<u32>>; 2],
    watch: Rc<Watch>,
}

impl Parser<Value> for Sides {
    fn eval(&self, args: &mut State) -> Result<Value, Error> {
        let result = self.inner.eval(args);
        if self.ended.iter().map(|side| side.get()).eq([24, 20]) {
            self.watch.crossed.borrow_mut().push(self.node);
        }
        result
    }

    fn meta(&self) -> Meta {
        self.inner.meta()
    }
}

/// A flag, argument or positional: each evaluation is a try.
struct Leaf<P, T> {
    inner: P,
    value: fn(T, &State) -> Value,
    watch: Rc<Watch>,
    ty: PhantomData<T>,
}

impl<P: Parser<T>, T> Parser<Value> for Leaf<P, T> {
    fn eval(&self, args: &mut State) -> Result<Value, Error> {
        self.watch.tries.set(self.watch.tries.get() + 1);
        let result = self.inner.eval(args);
        self.watch.leaf_ends(args);
        Ok((self.value)(result?, args))
    }

    fn meta(&self) -> Meta {
        self.inner.meta()
    }
}

fn leaf<P: Parser<T> + 'static, T: 'static>(inner: P, value: fn(T, &State) -> Value, watch: &Rc<Watch>) -> Node {
    Box::new(Leaf { inner, value, watch: watch.clone(), ty: PhantomData })
}

fn yes_no(value: bool, _: &State) -> Value {
    Value::YesNo(value)
}

fn number(value: u32, _: &State) -> Value {
    Value::Number(value)
}

/// A taken text is that of the item at `current`.
fn text(value: OsString, args: &State) -> Value {
    let place = args.current.expect("a taken text has a place");
    assert_eq!(args.items[place].os_str(), value, "the text of the item at `current`");
    Value::Text(Text::Item(place))
}

/// bpaf asks for names that live as long as the program; each is kept once.
fn intern(name: &str) -> &'static str {
    thread_local!(static NAMES: RefCell<HashSet<&'static str>> = RefCell::new(HashSet::new()));
    NAMES.with(|names| {
        let mut names = names.borrow_mut();
        if let Some(known) = names.get(name) {
            return *known;
        }
        let kept: &'static str = Box::leak(name.to_owned().into_boxed_str());
        names.insert(kept);
        kept
    })
}

fn utf8(form: &Form, record: usize) -> &str {
    std::str::from_utf8(form.name(record)).expect("a checked name")
}

/// The names of a flag or argument node, with its number as help.
fn named(form: &Form, node: usize) -> NamedArg {
    let help = Some(tag(node).into());
    let node = form.nodes[node];
    let mut named = NamedArg { short: Vec::new(), long: Vec::new(), env: Vec::new(), help };
    for record in node.p as usize..node.p as usize + node.q as usize {
        let name = utf8(form, record);
        match form.names[record].ty {
            SHORT => named.short.extend(name.chars()),
            _ => named.long.push(intern(name)),
        }
    }
    named
}

/// The number of a node as bpaf carries it, in a help or a metavar: no evaluation looks at these.
fn tag(node: usize) -> &'static str {
    intern(&node.to_string())
}

/// The leaf that a missing item is of.
fn leaf_of(item: &Item) -> u32 {
    let tag = match item {
        Item::Flag { help, .. } | Item::Argument { help, .. } => help.as_ref().expect("a named leaf has a help").plain(),
        Item::Positional { metavar, .. } => metavar.0,
        other => panic!("an item of no leaf: {other:?}"),
    };
    tag.parse().expect("the number of a node")
}

/// What bpaf says is missing, in its own order and with its own scopes; nothing unless it says so.
fn entries(message: &Message) -> Vec<Entry> {
    let Message::Missing(items) = message else { return Vec::new() };
    let entry = |m: &MissingItem| [leaf_of(&m.item) + 1, m.scope.start as u32, m.scope.end as u32];
    items.iter().map(entry).collect()
}

/// Builds the parser of a node out of those of its children.
struct Builder<'a> {
    form: &'a Form,
    kinds: Vec<Kind>,
    watch: Rc<Watch>,
    wanted: Wanted,
}

impl Builder<'_> {
    fn new(form: &Form, wanted: Wanted) -> Builder<'_> {
        let watch = Watch { looks: wanted.put_back, ..Watch::default() };
        Builder::watched(form, wanted, Rc::new(watch))
    }

    fn watched(form: &Form, wanted: Wanted, watch: Rc<Watch>) -> Builder<'_> {
        Builder { form, kinds: form.kinds().expect("a checked form"), watch, wanted }
    }

    fn node(&self, k: usize) -> Node {
        let inner = match self.form.nodes[k].kind {
            FLAG | ARGUMENT | POSITIONAL => self.leaf(k),
            _ => self.combinator(k),
        };
        if !self.wanted.probe {
            return inner;
        }
        Box::new(Visit { node: k, kind: self.kinds[k], inner, watch: self.watch.clone() })
    }

    fn leaf(&self, k: usize) -> Node {
        let node = self.form.nodes[k];
        let watch = &self.watch;
        match (node.kind, node.r) {
            (FLAG, 0) => leaf(named(self.form, k).req_flag(true), yes_no, watch),
            (FLAG, _) => leaf(named(self.form, k).switch(), yes_no, watch),
            (ARGUMENT, 0) => leaf(named(self.form, k).argument("A"), text, watch),
            (ARGUMENT, 1) => leaf(named(self.form, k).argument("A").adjacent(), text, watch),
            (ARGUMENT, 2) => leaf(named(self.form, k).argument("A"), number, watch),
            (ARGUMENT, _) => leaf(named(self.form, k).argument("A").adjacent(), number, watch),
            (_, 0) => match node.p {
                0 => leaf(positional(tag(k)), text, watch),
                1 => leaf(positional(tag(k)).strict(), text, watch),
                _ => leaf(positional(tag(k)).non_strict(), text, watch),
            },
            _ => match node.p {
                0 => leaf(positional(tag(k)), number, watch),
                1 => leaf(positional(tag(k)).strict(), number, watch),
                _ => leaf(positional(tag(k)).non_strict(), number, watch),
            },
        }
    }

    fn combinator(&self, k: usize) -> Node {
        let node = self.form.nodes[k];
        let inner = self.node(node.p as usize);
        let catch = node.r == 1;
        match node.kind {
            OPTIONAL => Box::new(ParseOptional { inner, catch }.map(optional)),
            MANY => Box::new(ParseMany { inner, catch }.map(Value::List)),
            SOME => Box::new(ParseSome { inner, message: "some", catch }.map(Value::List)),
            COUNT => Box::new(ParseCount { inner, ctx: PhantomData::<Value> }.map(|n| Value::Number(n as u32))),
            LAST => Box::new(ParseLast { inner }),
            CHOICE => self.choice(k, inner),
            FALLBACK => Box::new(ParseFallback { inner, value: self.fallback(k), value_str: String::new() }),
            _ => {
                let check = move |value: &Value| match value {
                    Value::Number(n) => (node.lo..=node.hi).contains(n),
                    other => panic!("a guard on {other:?}"),
                };
                Box::new(ParseGuard { inner, check, message: "guard" })
            }
        }
    }

    /// A choice, with its sides looked at if that is wanted.
    fn choice(&self, k: usize, this: Node) -> Node {
        let that = self.node(self.form.nodes[k].q as usize);
        if !self.wanted.sides {
            return Box::new(ParseOrElse { this, that });
        }
        let ended: [Rc<Cell<u32>>; 2] = Default::default();
        let side = |inner: Node, ended: &Rc<Cell<u32>>| Box::new(Side { inner, ended: ended.clone() });
        let inner = ParseOrElse { this: side(this, &ended[0]), that: side(that, &ended[1]) };
        Box::new(Sides { node: k, inner, ended, watch: self.watch.clone() })
    }

    fn fallback(&self, k: usize) -> Value {
        let node = self.form.nodes[k];
        match self.kinds[k] {
            Kind::Base(Base::YesNo) => Value::YesNo(node.lo == 1),
            Kind::Base(Base::Text) => Value::Text(Text::Name(node.r as usize)),
            _ => Value::Number(node.lo),
        }
    }

    fn fields(&self) -> Vec<Node> {
        self.form.fields.iter().map(|k| self.node(*k as usize)).collect()
    }
}

fn optional(value: Option<Value>) -> Value {
    value.map_or(Value::Absent, |v| Value::Present(Box::new(v)))
}

/// The number and place of what bpaf refuses with.
fn refusal(message: &Message) -> Refusal {
    match message {
        Message::Missing(_) => Refusal::new(20),
        Message::ParseSome(_) => Refusal::new(21),
        Message::NoArgument(key, _) => Refusal::at(22, *key),
        Message::StrictPos(place, _) => Refusal::at(23, *place),
        Message::NonStrictPos(place, _) => Refusal::at(24, *place),
        Message::ParseFailed(place, _) => Refusal { number: 25, place: *place },
        Message::GuardFailed(place, _) => Refusal { number: 26, place: *place },
        Message::Unconsumed(place) => Refusal::at(27, *place),
        Message::Ambiguity(place, _) => Refusal::at(9, *place),
        other => panic!("a message that no node gives: {other:?}"),
    }
}

/// The message of a refusal number, for the calls on refusals.
fn message(of: Refusal) -> Option<Message> {
    let place = of.place.unwrap_or(0);
    Some(match of.number {
        9 => Message::Ambiguity(place, String::new()),
        20 => Message::Missing(Vec::new()),
        21 => Message::ParseSome("some"),
        22 => Message::NoArgument(place, Metavar("A")),
        23 => Message::StrictPos(place, Metavar("P")),
        24 => Message::NonStrictPos(place, Metavar("P")),
        25 => Message::ParseFailed(of.place, String::new()),
        26 => Message::GuardFailed(of.place, "guard"),
        27 => Message::Unconsumed(place),
        _ => return None,
    })
}

pub fn can_catch(of: Refusal) -> Option<bool> {
    message(of).map(|m| m.can_catch())
}

pub fn wrong_input(of: Refusal) -> Option<bool> {
    message(of).map(|m| m.wrong_input())
}

pub fn combine_with(first: Refusal, second: Refusal) -> Option<Refusal> {
    Some(refusal(&message(first)?.combine_with(message(second)?)))
}

/// The letters that bpaf itself collects for fields or commands: of flags, of arguments.
fn letters<T>(parsers: &[impl Parser<T>]) -> (Vec<char>, Vec<char>) {
    let (mut flags, mut args) = (Vec::new(), Vec::new());
    parsers.iter().for_each(|p| p.meta().collect_shorts(&mut flags, &mut args));
    (flags, args)
}

/// The real `construct`, and refusal 8 or 9.
fn construct(sheet: &[Vec<u8>], flags: &[char], args: &[char]) -> (State, Option<Refusal>) {
    let os: Vec<OsString> = sheet.iter().map(|a| OsString::from_vec(a.clone())).collect();
    let mut err = None;
    let state = State::construct(Args::from(&os[..]), flags, args, &mut err);
    let refused = if state.items.len() > ITEMS { Some(Refusal::new(8)) } else { err.as_ref().map(refusal) };
    (state, refused)
}

/// An item record: kind, adjacent, character, name offset and length, text offset and length.
pub type Record = [u32; 7];

/// Item records with offsets. bpaf's items hold copies, so each argument is split by itself once more: its items must be
/// those of the whole, a text is the end of its argument, and a long name stands behind two dashes.
fn records(sheet: &Sheet, state: &State, flags: &[char], args: &[char]) -> Vec<Record> {
    let (mut out, mut start, mut operands) = (Vec::new(), 0, false);
    for argument in &sheet.arguments {
        if out.len() == state.items.len() {
            break;
        }
        let alone: Vec<Arg> = if operands {
            vec![Arg::PosWord(OsString::from_vec(argument.clone()))]
        } else {
            construct(std::slice::from_ref(argument), flags, args).0.items.to_vec()
        };
        operands |= argument == b"--";
        for arg in alone {
            assert_eq!(arg, state.items[out.len()], "an argument split by itself");
            out.push(record(&arg, argument, start));
        }
        start += argument.len();
    }
    assert_eq!(out.len(), state.items.len(), "the items of all arguments");
    out
}

fn record(arg: &Arg, argument: &[u8], start: usize) -> Record {
    let bytes = arg.os_str().as_bytes();
    assert!(argument.ends_with(bytes), "a text is the end of its argument");
    let part = |offset: usize, length: usize| if length == 0 { (0, 0) } else { (offset as u32, length as u32) };
    let (at, length) = part(start + argument.len() - bytes.len(), bytes.len());
    match arg {
        Arg::Short(c, adjacent, _) => [1, u32::from(*adjacent), *c as u32, 0, 0, at, length],
        Arg::Long(name, adjacent, _) => {
            assert!(argument[2..].starts_with(name.as_bytes()), "a long name stands behind two dashes");
            let (name_at, name_length) = part(start + 2, name.len());
            [2, u32::from(*adjacent), 0, name_at, name_length, at, length]
        }
        Arg::ArgWord(_) => [3, 0, 0, 0, 0, at, length],
        Arg::Word(_) => [4, 0, 0, 0, 0, at, length],
        Arg::PosWord(_) => [5, 0, 0, 0, 0, at, length],
    }
}

/// A place that a field used at some moment and that is not used at the field's end.
#[derive(Clone, Copy, Debug, PartialEq, Eq)]
pub struct PutBack {
    pub field: usize,
    pub place: usize,
}

/// All that a run shows.
#[derive(Clone, Debug, PartialEq, Eq)]
pub struct Run {
    pub answer: Answer,
    /// what is missing, with refusal 20
    pub missing: Vec<Entry>,
    pub records: Vec<Record>,
    pub state: View,
    /// the choices whose first side was refused with 24 and whose second with 20, if that was looked at
    pub crossed: Vec<usize>,
    /// the places that were put back, field by field, if that was looked at
    pub put_back: Vec<PutBack>,
    /// evaluations looked at, and the facts found broken, in a probed run
    pub visits: u64,
    pub broken: Vec<String>,
}

/// How much of a run is wanted besides the answer.
#[derive(Clone, Copy, Default)]
pub struct Wanted {
    pub items: bool,
    pub probe: bool,
    pub sides: bool,
    pub put_back: bool,
}

/// A form and a sheet in bytes, run by the real bpaf; refusals 1 to 6 are those of `line::format`.
pub fn run_bytes(form: &[u8], sheet: &[u8], wanted: Wanted) -> Run {
    let checked = Form::check(form).and_then(|f| Sheet::check(sheet).map(|s| (f, s)));
    match checked {
        Ok((form, sheet)) => run(&form, &sheet, wanted),
        Err(refused) => refused_run(refused),
    }
}

/// A run that was refused before anything was evaluated.
pub fn refused_run(refused: Refusal) -> Run {
    Run {
        answer: Answer::refused(refused, 0),
        missing: Vec::new(),
        records: Vec::new(),
        state: View::empty(),
        crossed: Vec::new(),
        put_back: Vec::new(),
        visits: 0,
        broken: Vec::new(),
    }
}

/// An accepted form on a sheet.
pub fn run(form: &Form, sheet: &Sheet, wanted: Wanted) -> Run {
    run_held(form, sheet, wanted).0
}

/// The same, and the state that is left; after 8 that of no arguments.
pub fn run_held(form: &Form, sheet: &Sheet, wanted: Wanted) -> (Run, Held) {
    let builder = Builder::new(form, wanted);
    let fields = builder.fields();
    let (flags, args) = letters(&fields);
    let (state, refused) = construct(&sheet.arguments, &flags, &args);
    if refused.is_some_and(|r| r.number == 8) {
        return (refused_run(Refusal::new(8)), Held::after_split(construct(&[], &flags, &args).0));
    }
    let records = if wanted.items { records(sheet, &state, &flags, &args) } else { Vec::new() };
    let (mut held, watch) = (Held::after_split(state), &builder.watch);
    let ran = match refused {
        Some(r) => Err((r, Vec::new())),
        None => run_fields(&fields, &mut held, watch),
    };
    if wanted.probe {
        probe_letters(std::slice::from_ref(form), &flags, &args, watch);
        if refused.is_none() {
            probe_counts(form.leaves(), unused_by_split(sheet, &held.state), watch);
        }
    }
    (reported(ran, records, &held, watch), held)
}

/// All that is shown of fields that were run.
fn reported(ran: Ran, records: Vec<Record>, held: &Held, watch: &Watch) -> Run {
    let (answer, missing) = ended(ran, watch.tries.get());
    Run {
        answer,
        missing,
        records,
        state: held.view(),
        crossed: watch.crossed.take(),
        put_back: watch.put_back.take(),
        visits: watch.visits.get(),
        broken: watch.broken.take(),
    }
}

/// A refusal, and what is missing with it.
type Refused = (Refusal, Vec<Entry>);

/// The answer words of all fields, or a refusal.
type Ran = Result<Vec<u32>, Refused>;

fn refused_with(Error(message): Error) -> Refused {
    (refusal(&message), entries(&message))
}

/// The answer to words or a refusal, and what is missing.
fn ended(ran: Ran, tries: u64) -> (Answer, Vec<Entry>) {
    match ran {
        Ok(words) => (Answer { number: 0, place: None, tries, words }, Vec::new()),
        Err((r, missing)) => (Answer::refused(r, tries), missing),
    }
}

/// Each field's `eval` on one state, then `items_iter`.
fn run_fields(fields: &[Node], held: &mut Held, watch: &Watch) -> Ran {
    let values = eval_fields(0, fields, held, watch)?;
    left_over(held)?;
    Ok(words(&values))
}

/// Each field's `eval` on one state, the first of them as number `from`. Between two fields the state is looked at.
fn eval_fields(from: usize, fields: &[Node], held: &mut Held, watch: &Watch) -> Result<Vec<Value>, Refused> {
    let mut values = Vec::new();
    for (k, field) in fields.iter().enumerate() {
        watch.field_begins(&held.state);
        let result = held.marked(marks::mark_of(from + k), |state| field.eval(state));
        watch.field_ends(from + k, &held.state);
        values.push(result.map_err(refused_with)?);
    }
    Ok(values)
}

/// 27 if `items_iter` has an item.
fn left_over(held: &Held) -> Result<(), Refused> {
    match held.state.items_iter().next() {
        Some((place, _)) => Err((Refusal::at(27, place), Vec::new())),
        None => Ok(()),
    }
}

fn words(values: &[Value]) -> Vec<u32> {
    let mut words = Vec::new();
    values.iter().for_each(|value| value.words(&mut words));
    words
}

/// A run of two forms, and what the second alone tells in it.
#[derive(Clone, Debug, PartialEq, Eq)]
pub struct Both {
    pub run: Run,
    pub later: Later,
}

/// Whether the second form's fields were begun, and their values, if all had one.
#[derive(Clone, Debug, Default, PartialEq, Eq)]
pub struct Later {
    pub begun: bool,
    pub values: Vec<Value>,
}

/// Two accepted forms on a sheet that is split with the letters of both: the first's fields and then the second's on one state, and
/// `items_iter` once, at the end.
pub fn run_both(first: &Form, second: &Form, sheet: &Sheet, wanted: Wanted) -> Both {
    let builder = Builder::new(first, wanted);
    let behind = Builder::watched(second, wanted, builder.watch.clone());
    let fields = [builder.fields(), behind.fields()];
    let (mut flags, mut args) = letters(&fields[0]);
    let (more_flags, more_args) = letters(&fields[1]);
    flags.extend(more_flags);
    args.extend(more_args);
    let (state, refused) = construct(&sheet.arguments, &flags, &args);
    if refused.is_some_and(|r| r.number == 8) {
        return Both { run: refused_run(Refusal::new(8)), later: Later::default() };
    }
    let records = if wanted.items { records(sheet, &state, &flags, &args) } else { Vec::new() };
    let (mut held, mut later, watch) = (Held::after_split(state), Later::default(), &builder.watch);
    let ran = match refused {
        Some(r) => Err((r, Vec::new())),
        None => fields_of_both(first, fields, &mut held, watch, &mut later),
    };
    if wanted.probe {
        probe_letters(&[first.clone(), second.clone()], &flags, &args, watch);
        if refused.is_none() {
            probe_counts(first.leaves() + second.leaves(), unused_by_split(sheet, &held.state), watch);
        }
    }
    Both { run: reported(ran, records, &held, watch), later }
}

/// What the second form tells is told by the numbers of both: its fields follow the first's, its names those of the first in values, and
/// its nodes those of the first in the list.
fn fields_of_both(first: &Form, fields: [Vec<Node>; 2], held: &mut Held, watch: &Watch, later: &mut Later) -> Ran {
    let (nodes, names) = (first.nodes.len() as u32, first.names.len());
    let mut values = eval_fields(0, &fields[0], held, watch)?;
    later.begun = true;
    let told = eval_fields(fields[0].len(), &fields[1], held, watch);
    later.values = told.map_err(|(refusal, mut missing)| {
        missing.iter_mut().for_each(|entry| entry[0] += nodes);
        (refusal, missing)
    })?;
    left_over(held)?;
    values.extend(later.values.iter().map(|value| joins::moved(value, names)));
    Ok(words(&values))
}

/// bpaf collects the letters of all forms.
fn probe_letters(forms: &[Form], flags: &[char], args: &[char], watch: &Watch) {
    let all = |kind: u16| forms.iter().flat_map(|form| form.letters(kind)).collect::<HashSet<char>>();
    let set = |letters: &[char]| letters.iter().copied().collect::<HashSet<char>>();
    watch.must(set(flags) == all(FLAG), || "letters of flags".to_string());
    watch.must(set(args) == all(ARGUMENT), || "letters of arguments".to_string());
}

/// R of a line that was split: its items, but for an opening `--`.
fn unused_by_split(sheet: &Sheet, state: &State) -> usize {
    state.items.len() - usize::from(sheet.arguments.iter().any(|a| a == b"--"))
}

/// What holds of a whole run of L leaves on R places: the bounds on tries and on lists.
fn probe_counts(leaves: usize, r: usize, watch: &Watch) {
    let tries = watch.tries.get() as usize;
    watch.must(tries <= (r + 2) * leaves, || format!("{tries} tries, R {r}, L {leaves}"));
    watch.must(tries <= (r + 1).max(2) * leaves, || format!("{tries} tries, R {r}, L {leaves}: the sharper bound"));
    let longest = watch.longest.get();
    watch.must(longest <= r.max(1), || format!("a list of {longest} elements, R {r}"));
}

/// The run of a table: that of the form whose command was taken; how many names were compared; and the entry, for 1 to 4 the one
/// whose form is at fault.
#[derive(Clone, Debug, PartialEq, Eq)]
pub struct Commanded {
    pub run: Run,
    pub comparisons: usize,
    pub entry: Option<usize>,
}

impl Commanded {
    /// Refused before any name was compared.
    pub fn refused(refusal: Refusal, entry: Option<usize>) -> Commanded {
        Commanded { run: refused_run(refusal), comparisons: 0, entry }
    }
}

/// What a command and the run around it hand to each other, past bpaf: the marks, and how the fields ended.
#[derive(Default)]
struct Handed {
    numbers: RefCell<Numbers>,
    ran: RefCell<Option<Ran>>,
}

/// The fields of a form, inside a command. They are run as those of a form alone, and how they ended is handed over: of a refusal
/// bpaf would look for a help option next, which changes the state, and then render it. It does not if a failure is final.
struct Inside {
    entry: usize,
    fields: Vec<Node>,
    watch: Rc<Watch>,
    handed: Rc<Handed>,
}

impl Parser<usize> for Inside {
    fn eval(&self, args: &mut State) -> Result<usize, Error> {
        let mut held = Held { state: args.clone(), numbers: self.handed.numbers.take() };
        held.marked(marks::COMMAND, |_| ());
        let ran = run_fields(&self.fields, &mut held, &self.watch);
        *args = held.state;
        self.handed.numbers.replace(held.numbers);
        let accepted = ran.is_ok();
        self.handed.ran.replace(Some(ran));
        match accepted {
            true => Ok(self.entry),
            false => Err(Error(Message::ParseFailure(ParseFailure::Completion(String::new())))),
        }
    }

    fn meta(&self) -> Meta {
        Meta::And(self.fields.iter().map(|f| f.meta()).collect())
    }
}

/// The command of an entry. bpaf keeps long and short names apart, each in the order of the records.
fn command(entry: &Command, inside: Inside) -> ParseCommand<usize> {
    let mut longs = entry.of_type(LONG).map(intern);
    let first = inside.to_options().command(longs.next().expect("an entry has a long name"));
    let named = longs.fold(first, ParseCommand::long);
    entry.of_type(SHORT).flat_map(str::chars).fold(named, ParseCommand::short)
}

/// The names of a command that are compared until one is taken, on a state on which one is.
fn compared(command: &ParseCommand<usize>, given: &State) -> usize {
    let shorts = command.shorts.iter().map(char::to_string);
    let mut names = command.longs.iter().map(|long| long.to_string()).chain(shorts);
    1 + names.position(|name| given.clone().take_cmd(&name)).expect("the name that was taken")
}

/// Each command's `eval` on one state, until one takes its word: its entry, and the names that were compared.
fn try_commands(commands: &[ParseCommand<usize>], state: &mut State) -> (Option<usize>, usize) {
    let mut comparisons = 0;
    for (entry, command) in commands.iter().enumerate() {
        let given = state.clone();
        match command.eval(state) {
            Err(Error(Message::Missing(_))) => comparisons += command.longs.len() + command.shorts.len(),
            _ => return (Some(entry), comparisons + compared(command, &given)),
        }
    }
    (None, comparisons)
}

/// The commands of a table, and the letters that bpaf collects for all of them.
struct Commands<'a> {
    table: &'a Table,
    builders: Vec<Builder<'a>>,
    parsers: Vec<ParseCommand<usize>>,
    handed: Rc<Handed>,
    flags: Vec<char>,
    args: Vec<char>,
}

impl Commands<'_> {
    fn new(table: &Table, wanted: Wanted) -> Commands<'_> {
        let handed = Rc::new(Handed::default());
        let builders: Vec<Builder> = table.forms.iter().map(|form| Builder::new(form, wanted)).collect();
        let inside = |entry: usize, b: &Builder| {
            let (fields, watch, handed) = (b.fields(), b.watch.clone(), handed.clone());
            command(&table.commands[entry], Inside { entry, fields, watch, handed })
        };
        let parsers: Vec<_> = builders.iter().enumerate().map(|(entry, b)| inside(entry, b)).collect();
        let (flags, args) = letters(&parsers);
        Commands { table, builders, parsers, handed, flags, args }
    }

    /// After the split: the names are tried, and the form of the entry that is taken has run then.
    fn run(&self, mut held: Held, records: Vec<Record>) -> Commanded {
        self.handed.numbers.replace(held.numbers.clone());
        let (entry, comparisons) = try_commands(&self.parsers, &mut held.state);
        let run = match entry {
            None => Run { records, state: held.view(), ..refused_run(Refusal::new(31)) },
            Some(k) => {
                held.numbers = self.handed.numbers.take();
                let ran = self.handed.ran.take().expect("a command that is taken runs its fields");
                reported(ran, records, &held, &self.builders[k].watch)
            }
        };
        Commanded { run, comparisons, entry }
    }

    /// What holds of a run in which `entry` was taken: as of a form alone, but R does not count the command word.
    fn probe(&self, entry: usize, r: usize) {
        let watch = &self.builders[entry].watch;
        probe_letters(&self.table.forms, &self.flags, &self.args, watch);
        probe_counts(self.table.forms[entry].leaves(), r - 1, watch);
    }
}

/// A table and a sheet in bytes, run by the real bpaf; 11 and 1 to 6 are those of `line`, and `short` refuses slices that are too
/// short.
pub fn run_table(table: &[u8], sheet: &[u8], short: Option<Refusal>, wanted: Wanted) -> Commanded {
    let sheets = |table: Table| Ok((table, Sheet::check(sheet)?));
    match (Table::check(table).and_then(sheets), short) {
        (Err(refused), _) => Commanded::refused(refused.refusal, refused.entry),
        (_, Some(refusal)) => Commanded::refused(refusal, None),
        (Ok((table, sheet)), None) => run_commands(&table, &sheet, wanted),
    }
}

/// An accepted table on a sheet: bpaf's own commands, in the order of the entries.
fn run_commands(table: &Table, sheet: &Sheet, wanted: Wanted) -> Commanded {
    let commands = Commands::new(table, wanted);
    let (flags, args) = (&commands.flags, &commands.args);
    let (state, refused) = construct(&sheet.arguments, flags, args);
    if refused.is_some_and(|r| r.number == 8) {
        return Commanded::refused(Refusal::new(8), None);
    }
    let records = if wanted.items { records(sheet, &state, flags, args) } else { Vec::new() };
    let held = Held::after_split(state);
    if let Some(refusal) = refused {
        let run = Run { records, state: held.view(), ..refused_run(refusal) };
        return Commanded { run, comparisons: 0, entry: None };
    }
    let r = unused_by_split(sheet, &held.state);
    let mut ran = commands.run(held, records);
    if let (true, Some(entry)) = (wanted.probe, ran.entry) {
        commands.probe(entry, r);
        ran.run.broken.extend(commands.builders[entry].watch.broken.take());
    }
    ran
}

/// What bpaf's own choice of several commands ends with.
#[derive(Clone, Copy, Debug, PartialEq, Eq)]
pub enum Chosen {
    Accepted(usize),
    Refused,
    Unmatched,
}

/// bpaf's own choice of all commands of a table, on a line that was split, and the state that it leaves. It runs every command
/// that has the word, each on a copy: where no two have it, that is the run of a table. All used places have the same mark.
pub fn choose(table: &Table, sheet: &Sheet) -> (Chosen, View) {
    let commands = Commands::new(table, Wanted::default());
    let mut state = construct(&sheet.arguments, &commands.flags, &commands.args).0;
    let boxed = commands.parsers.into_iter().map(|p| Box::new(p) as Box<dyn Parser<usize>>);
    let choice = boxed.reduce(|this, that| Box::new(ParseOrElse { this, that })).expect("a table has an entry");
    let chosen = match choice.eval(&mut state) {
        Ok(entry) => Chosen::Accepted(entry),
        Err(Error(Message::Missing(_))) => Chosen::Unmatched,
        Err(_) => Chosen::Refused,
    };
    (chosen, view(&state, &Numbers::all(&state, marks::FIELD)))
}

/// What `run_inner` makes of a line, for the findings about it in docs/DIFFERENCES.md; a run is never compared with it.
#[derive(Debug, PartialEq, Eq)]
pub enum Whole {
    Words(Vec<u32>),
    Printed,
    Refused,
}

pub fn run_inner(form: &Form, sheet: &Sheet) -> Whole {
    struct Fields(Vec<Node>);
    impl Parser<Vec<u32>> for Fields {
        fn eval(&self, args: &mut State) -> Result<Vec<u32>, Error> {
            let mut words = Vec::new();
            self.0.iter().try_for_each(|f| f.eval(args).map(|v| v.words(&mut words)))?;
            Ok(words)
        }
        fn meta(&self) -> Meta {
            Meta::And(self.0.iter().map(|f| f.meta()).collect())
        }
    }
    let os: Vec<OsString> = sheet.arguments.iter().map(|a| OsString::from_vec(a.clone())).collect();
    match Fields(Builder::new(form, Wanted::default()).fields()).to_options().run_inner(&os[..]) {
        Ok(words) => Whole::Words(words),
        Err(ParseFailure::Stdout(..)) => Whole::Printed,
        Err(_) => Whole::Refused,
    }
}

/// A state, with the marks that say what used its places.
#[derive(Clone)]
pub struct Held {
    state: State,
    numbers: Numbers,
}

impl Held {
    fn after_split(state: State) -> Held {
        let numbers = Numbers::split(&state);
        Held { state, numbers }
    }

    /// What is done to the state, and the mark of what that uses.
    fn marked<T>(&mut self, mark: u16, change: impl FnOnce(&mut State) -> T) -> T {
        let told = change(&mut self.state);
        self.numbers.look(&self.state, mark);
        told
    }

    /// Other marks for the used places: bpaf does not know them, so whatever is done to the state goes on as before.
    pub fn relabel(&mut self, mut mark: impl FnMut(u16) -> u16) {
        self.numbers.0.iter_mut().filter(|number| **number != 0).for_each(|number| *number = mark(*number));
    }

    /// The state and item records after splitting; 8 or 9 beside it.
    pub fn split(form: &Form, sheet: &Sheet) -> (Held, Vec<Record>, Option<Refusal>) {
        let builder = Builder::new(form, Wanted::default());
        let (flags, args) = letters(&builder.fields());
        let (state, refused) = construct(&sheet.arguments, &flags, &args);
        if refused.is_some_and(|r| r.number == 8) {
            let none = construct(&[], &flags, &args).0;
            return (Held::after_split(none), Vec::new(), refused);
        }
        let records = records(sheet, &state, &flags, &args);
        (Held::after_split(state), records, refused)
    }

    pub fn view(&self) -> View {
        view(&self.state, &self.numbers)
    }

    pub fn remove(&mut self, place: usize, field: usize) {
        self.marked(marks::mark_of(field), |state| state.remove(place));
    }

    /// The places that bpaf's own `present` says are not used.
    pub fn present(&self) -> Vec<usize> {
        (0..self.state.items.len()).filter(|k| self.state.present(*k) == Some(true)).collect()
    }

    /// Whether `get` gives the item at the place.
    pub fn get(&self, place: usize) -> bool {
        let got = self.state.get(place);
        assert!(got.is_none() || got == self.state.items.get(place), "`get` gives the item at its place");
        got.is_some()
    }

    /// The text of the item at the place.
    pub fn text(&self, place: usize) -> Option<Vec<u8>> {
        self.state.items.get(place).map(|item| item.os_str().as_bytes().to_vec())
    }

    pub fn conflict(&self) -> Option<(usize, usize)> {
        self.state.conflict()
    }

    pub fn pick_winner(&self, other: &Held) -> (bool, Option<usize>) {
        self.state.pick_winner(&other.state)
    }

    pub fn save_conflicts(&mut self, loser: &Held, winner: usize) {
        self.state.save_conflicts(&loser.state, winner);
    }

    pub fn set_scope(&mut self, scope: Range<usize>) {
        self.state.set_scope(scope);
    }

    pub fn adjacent_scope(&self, original: &Held) -> Option<Range<usize>> {
        self.state.adjacent_scope(&original.state)
    }

    pub fn adjacently_available_from(&self, start: usize) -> Range<usize> {
        self.state.adjacently_available_from(start)
    }

    pub fn only_once(&self, place: usize) -> Option<usize> {
        error_again::first_of_two(&self.state, place)
    }

    /// Whether the item at the place is one of the node's names.
    pub fn matches_arg(&self, form: &Form, node: usize, place: usize) -> Option<bool> {
        let item = self.state.items.get(place)?;
        Some(named(form, node).matches_arg(item, adjacent(form, node)))
    }

    pub fn take_flag(&mut self, form: &Form, node: usize, field: usize) -> bool {
        self.marked(marks::mark_of(field), |state| state.take_flag(&named(form, node)))
    }

    /// The place of the value, or nothing, or 22 at the key.
    pub fn take_arg(&mut self, form: &Form, node: usize, field: usize) -> Result<Option<usize>, Refusal> {
        let (names, adjacent) = (named(form, node), adjacent(form, node));
        let taken = self.marked(marks::mark_of(field), |state| state.take_arg(&names, adjacent, Metavar("A")));
        match taken {
            Ok(value) => Ok(value.map(|v| {
                let place = self.state.current.expect("a taken value has a place");
                assert_eq!(self.state.items[place].os_str(), v, "the text of the item at `current`");
                place
            })),
            Err(Error(m)) => Err(refusal(&m)),
        }
    }

    /// The place and whether it is a PosWord, or 20.
    pub fn take_positional_word(&mut self, field: usize) -> Result<(usize, bool), Refusal> {
        match self.marked(marks::mark_of(field), |state| state.take_positional_word(Metavar("P"))) {
            Ok((place, strict, _)) => Ok((place, strict)),
            Err(Error(m)) => Err(refusal(&m)),
        }
    }

    /// `word` is a name record of type 0 or 1.
    pub fn take_cmd(&mut self, form: &Form, record: usize) -> bool {
        self.marked(marks::COMMAND, |state| state.take_cmd(utf8(form, record)))
    }

    /// One node's `eval` on this state: its words or its refusal, and the tries; and what is missing. What it uses is used by
    /// the field whose tree has the node.
    pub fn eval(&mut self, form: &Form, node: usize) -> (Answer, Vec<Entry>) {
        let builder = Builder::new(form, Wanted::default());
        let mark = marks::mark_of(marks::field_of(form, node));
        let result = self.marked(mark, |state| builder.node(node).eval(state)).map_err(refused_with);
        let words = |value: Value| {
            let mut words = Vec::new();
            value.words(&mut words);
            words
        };
        ended(result.map(words), builder.watch.tries.get())
    }
}

/// Whether an argument node takes only items marked adjacent; a flag takes any.
fn adjacent(form: &Form, node: usize) -> bool {
    let node = form.nodes[node];
    node.kind == ARGUMENT && node.r % 2 == 1
}

/// The letters that bpaf collects for the parsers of a line, once, before any line is read.
pub struct Letters {
    flags: Vec<char>,
    args: Vec<char>,
}

impl Letters {
    pub fn of(fields: &[Meta]) -> Letters {
        let (mut flags, mut args) = (Vec::new(), Vec::new());
        fields.iter().for_each(|meta| meta.collect_shorts(&mut flags, &mut args));
        Letters { flags, args }
    }
}

/// A line read by bpaf's own parsers, with nothing of this harness between them, for measuring: `construct`, what `fields`
/// evaluates on the state, then `items_iter`.
pub fn read<T>(
    line: &[OsString],
    letters: &Letters,
    fields: impl Fn(&mut State) -> Result<T, Error>,
) -> Result<T, Refusal> {
    let mut err = None;
    let mut state = State::construct(Args::from(line), &letters.flags, &letters.args, &mut err);
    if let Some(message) = err {
        return Err(refusal(&message));
    }
    let values = fields(&mut state).map_err(|Error(message)| refusal(&message))?;
    match state.items_iter().next() {
        Some((place, _)) => Err(Refusal::at(27, place)),
        None => Ok(values),
    }
}
