//! A text notation for forms, so that tests and documents can be read.
//!
//! Fields are separated by `;`. A field is one of
//!
//! ```text
//! flag(-v --verbose)   switch(-v)                          a required flag, a switch
//! text(-l --label)     number(-w)                          an argument; text=(..), number=(..) the adjacent ones
//! operand  strict  non-strict                              a positional, text; with # behind the word, a number
//! optional(E)  many(E)  some(E)                            with ! behind the word, catch is set
//! count(E)  last(E)  choice(E, E)  guard(E, 1..5)
//! fallback(E, 9)  fallback(E, yes)  fallback(E, no)  fallback(E, "text")
//! ```
//!
//! `-x` is a short name, `--name` a long one and `--` the empty long one; the short name `-` is written `-\x2d`. Bytes
//! outside printable ASCII, spaces and any of `()",;\` are written `\xHH` in names and texts.

use crate::format::*;

/// The word of each node: its kind, then p of a positional, then r of kinds 1 to 6.
const WORDS: [(&str, u16, u16, u16); 23] = [
    ("flag", FLAG, 0, 0),
    ("switch", FLAG, 0, 1),
    ("text", ARGUMENT, 0, 0),
    ("text=", ARGUMENT, 0, 1),
    ("number", ARGUMENT, 0, 2),
    ("number=", ARGUMENT, 0, 3),
    ("operand", POSITIONAL, 0, 0),
    ("operand#", POSITIONAL, 0, 2),
    ("strict", POSITIONAL, 1, 0),
    ("strict#", POSITIONAL, 1, 2),
    ("non-strict", POSITIONAL, 2, 0),
    ("non-strict#", POSITIONAL, 2, 2),
    ("optional", OPTIONAL, 0, 0),
    ("optional!", OPTIONAL, 0, 1),
    ("many", MANY, 0, 0),
    ("many!", MANY, 0, 1),
    ("some", SOME, 0, 0),
    ("some!", SOME, 0, 1),
    ("count", COUNT, 0, 0),
    ("last", LAST, 0, 0),
    ("choice", CHOICE, 0, 0),
    ("fallback", FALLBACK, 0, 0),
    ("guard", GUARD, 0, 0),
];

/// The form written in `text`. Only the notation is read: `Form::check` says whether such a form is accepted.
pub fn parse(text: &str) -> Result<Form, String> {
    let mut parser = Parser {
        text: text.as_bytes(),
        at: 0,
        form: Form::default(),
    };
    loop {
        let field = parser.expression()?;
        parser.form.fields.push(field);
        if !parser.accept(b';') {
            break;
        }
    }
    if parser.at < parser.text.len() {
        return parser.fail("expected `;` or the end");
    }
    let form = parser.form;
    // more of them cannot be numbered by a u16, so the numbers above would be wrong
    let longest = [form.fields.len(), form.nodes.len(), form.names.len(), form.area.len()];
    if longest.iter().any(|n| *n > u16::MAX as usize) {
        return Err("the form is too large".to_string());
    }
    Ok(form)
}

struct Parser<'a> {
    text: &'a [u8],
    at: usize,
    form: Form,
}

impl Parser<'_> {
    fn fail<T>(&self, what: &str) -> Result<T, String> {
        Err(format!("{what}, at byte {}", self.at))
    }

    fn peek(&self) -> Option<u8> {
        self.text.get(self.at).copied()
    }

    fn skip_spaces(&mut self) {
        while self.peek().is_some_and(|b| b.is_ascii_whitespace()) {
            self.at += 1;
        }
    }

    /// Whether `byte` comes next, spaces aside; if so it is read.
    fn accept(&mut self, byte: u8) -> bool {
        self.skip_spaces();
        let next = self.peek() == Some(byte);
        self.at += usize::from(next);
        next
    }

    fn expect(&mut self, byte: u8) -> Result<(), String> {
        match self.accept(byte) {
            true => Ok(()),
            false => self.fail(&format!("expected `{}`", byte as char)),
        }
    }

    /// The longest run of bytes that pass the test, spaces before it aside.
    fn run(&mut self, test: fn(u8) -> bool) -> String {
        self.skip_spaces();
        let start = self.at;
        while self.peek().is_some_and(test) {
            self.at += 1;
        }
        String::from_utf8_lossy(&self.text[start..self.at]).into_owned()
    }

    /// One node with all beneath it; its number.
    fn expression(&mut self) -> Result<u16, String> {
        let word = self.run(|b| b.is_ascii_lowercase() || b"-!=#".contains(&b));
        let Some((_, kind, p, r)) = WORDS.iter().find(|w| w.0 == word) else {
            return self.fail(&format!("no node is called `{word}`"));
        };
        let mut node = Node {
            kind: *kind,
            p: *p,
            r: *r,
            ..Node::default()
        };
        if *kind != POSITIONAL {
            self.expect(b'(')?;
            match *kind {
                FLAG | ARGUMENT => self.names(&mut node)?,
                _ => self.children(&mut node)?,
            }
            self.expect(b')')?;
        }
        self.form.nodes.push(node);
        Ok((self.form.nodes.len() - 1) as u16)
    }

    /// The names of a flag or argument, up to the closing bracket.
    fn names(&mut self, node: &mut Node) -> Result<(), String> {
        node.p = self.form.names.len() as u16;
        while self.accept(b'-') {
            let ty = if self.peek() == Some(b'-') { LONG } else { SHORT };
            self.at += usize::from(ty == LONG);
            let bytes = self.bytes(b" \t\r\n()\",;")?;
            let characters = std::str::from_utf8(&bytes).map(|name| name.chars().count());
            match characters {
                Err(_) => return self.fail("a name that is not UTF-8"),
                Ok(n) if ty == SHORT && n != 1 => return self.fail("a short name is one character"),
                Ok(_) => self.name(ty, &bytes),
            };
            node.q += 1;
        }
        Ok(())
    }

    /// Kinds 4 to 11: the child or children, and what comes behind them.
    fn children(&mut self, node: &mut Node) -> Result<(), String> {
        node.p = self.expression()?;
        if (CHOICE..=GUARD).contains(&node.kind) {
            self.expect(b',')?;
        }
        match node.kind {
            CHOICE => node.q = self.expression()?,
            FALLBACK => self.fallback(node)?,
            GUARD => {
                node.lo = self.number()?;
                self.expect(b'.')?;
                self.expect(b'.')?;
                node.hi = self.number()?;
            }
            _ => {}
        }
        Ok(())
    }

    fn fallback(&mut self, node: &mut Node) -> Result<(), String> {
        if self.accept(b'"') {
            let bytes = self.bytes(b"\"")?;
            node.r = self.name(TEXT, &bytes);
            return self.expect(b'"');
        }
        match self.run(|b| b.is_ascii_lowercase()).as_str() {
            "yes" => node.lo = 1,
            "no" => node.lo = 0,
            _ => node.lo = self.number()?,
        }
        Ok(())
    }

    fn number(&mut self) -> Result<u32, String> {
        let digits = self.run(|b| b.is_ascii_digit());
        digits.parse().or_else(|_| self.fail("expected a number below 2^32"))
    }

    /// The bytes up to one of `stop` or the end, escapes replaced.
    fn bytes(&mut self, stop: &[u8]) -> Result<Vec<u8>, String> {
        let mut out = Vec::new();
        while let Some(b) = self.peek().filter(|b| !stop.contains(b)) {
            self.at += 1;
            out.push(if b == b'\\' { self.escape()? } else { b });
        }
        Ok(out)
    }

    /// The byte of an escape whose backslash is read.
    fn escape(&mut self) -> Result<u8, String> {
        let digit = |at: usize| self.text.get(at).and_then(|b| (*b as char).to_digit(16));
        match (self.peek(), digit(self.at + 1), digit(self.at + 2)) {
            (Some(b'x'), Some(high), Some(low)) => {
                self.at += 3;
                Ok((16 * high + low) as u8)
            }
            _ => self.fail("an escape is `\\x` and two hexadecimal digits"),
        }
    }

    /// A new name record with its own part of the area; its number.
    fn name(&mut self, ty: u16, bytes: &[u8]) -> u16 {
        let (offset, length) = (self.form.area.len() as u16, bytes.len() as u16);
        self.form.area.extend(bytes);
        self.form.names.push(Name { ty, offset, length });
        (self.form.names.len() - 1) as u16
    }
}

/// An accepted form in the notation. Unused name records are not shown.
pub fn show(form: &Form) -> String {
    let kinds = form.kinds().expect("an accepted form");
    let fields: Vec<String> = form.fields.iter().map(|k| show_node(form, &kinds, *k)).collect();
    fields.join("; ")
}

fn show_node(form: &Form, kinds: &[Kind], k: u16) -> String {
    let node = &form.nodes[k as usize];
    let child = |c: u16| show_node(form, kinds, c);
    let inside = match node.kind {
        POSITIONAL => return word(node).to_string(),
        FLAG | ARGUMENT => show_names(form, node),
        CHOICE => format!("{}, {}", child(node.p), child(node.q)),
        FALLBACK => format!("{}, {}", child(node.p), show_fallback(form, kinds, node)),
        GUARD => format!("{}, {}..{}", child(node.p), node.lo, node.hi),
        _ => child(node.p),
    };
    format!("{}({inside})", word(node))
}

fn word(node: &Node) -> &'static str {
    let p = if node.kind == POSITIONAL { node.p } else { 0 };
    // r of a fallback is a name record
    let r = if node.kind <= SOME { node.r } else { 0 };
    WORDS
        .iter()
        .find(|w| (w.1, w.2, w.3) == (node.kind, p, r))
        .expect("an accepted form")
        .0
}

fn show_names(form: &Form, node: &Node) -> String {
    let records = node.p as usize..node.p as usize + node.q as usize;
    let names: Vec<String> = records.map(|record| show_name(form, record)).collect();
    names.join(" ")
}

fn show_name(form: &Form, record: usize) -> String {
    let bytes = form.name(record);
    match form.names[record].ty {
        // `--` is the empty long name
        SHORT if bytes == b"-" => "-\\x2d".to_string(),
        SHORT => format!("-{}", escaped(bytes)),
        _ => format!("--{}", escaped(bytes)),
    }
}

fn show_fallback(form: &Form, kinds: &[Kind], node: &Node) -> String {
    match kinds[node.p as usize] {
        Kind::Base(Base::Text) => format!("\"{}\"", escaped(form.name(node.r as usize))),
        Kind::Base(Base::YesNo) => ["no", "yes"][node.lo as usize].to_string(),
        _ => node.lo.to_string(),
    }
}

fn escaped(bytes: &[u8]) -> String {
    let mut out = String::new();
    for b in bytes {
        match b.is_ascii_graphic() && !b"()\",;\\".contains(b) {
            true => out.push(*b as char),
            false => out.push_str(&format!("\\x{b:02x}")),
        }
    }
    out
}

#[cfg(test)]
mod tests {
    use super::*;
    use crate::cases;

    /// Texts that `show` writes as they stand.
    const SHOWN: [&str; 10] = [
        "flag(-v --verbose); switch(-v)",
        "text(-l --label); number(-w); text=(--); number=(-\\xc3\\xa9 -\\x2d ---)",
        "operand; operand#; strict; strict#; non-strict; non-strict#",
        "optional(operand); optional!(operand); many(operand); many!(operand); some(operand); some!(operand)",
        "count(flag(-v)); last(optional(operand))",
        "choice(optional(many(flag(-v))), optional(some(switch(-q))))",
        "guard(fallback(number(-w), 9), 1..5); guard(operand#, 0..4294967295)",
        "fallback(switch(-v), yes); fallback(flag(-q), no); fallback(operand#, 4294967295)",
        "fallback(operand, \"\"); fallback(operand, \"a\\x20\\x22\\xff\\x5c\")",
        "flag(--a=b --= -= -1)",
    ];

    #[test]
    fn shown_as_written() {
        for text in SHOWN {
            let form = parse(text).unwrap();
            assert_eq!(Form::check(&form.write()), Ok(form.clone()), "{text}");
            assert_eq!(show(&form), text);
        }
    }

    #[test]
    fn the_bytes_of_a_form() {
        let form = parse("count(flag(-v))").unwrap();
        let bytes = [
            &[2, 0, 1, 0, 1, 0, 1, 0, 1, 0, 1, 0, 0, 0, 1, 0][..],
            &[0; 10],
            &[7, 0],
            &[0; 14],
            &[0, 0, 0, 0, 1, 0],
            b"v",
        ];
        assert_eq!(form.write(), bytes.concat());
    }

    #[test]
    fn numbered_in_the_order_written() {
        let form = parse(" choice ( fallback(text(-l), \"ab\") , operand ) ;flag( --v   -v ) ").unwrap();
        let node = |kind, p, q, r| Node {
            kind,
            p,
            q,
            r,
            ..Node::default()
        };
        let nodes = [
            node(2, 0, 1, 0),
            node(10, 0, 0, 1),
            node(3, 0, 0, 0),
            node(9, 1, 2, 0),
            node(1, 2, 2, 0),
        ];
        assert_eq!((&form.fields[..], &form.nodes[..]), (&[3, 4][..], &nodes[..]));
        let names: Vec<&[u8]> = (0..4).map(|k| form.name(k)).collect();
        assert_eq!(names, [&b"l"[..], b"ab", b"v", b"v"]);
        assert_eq!(form.area, b"labvv");
    }

    #[test]
    fn not_the_notation() {
        #[rustfmt::skip]
        let texts = [
            "", ";", "operand;", "flag", "flag(", "flag(v)", "flag(-vq)", "flag(-)", "flag(-v,-q)", "flag(--\\xff)",
            "flag(-\\xc3)", "text(-v\\x)", "text(-v\\x1g)", "operand!", "choice(operand)", "guard(operand#, 1)",
            "guard(operand#, 1...5)", "fallback(operand, \"a)", "fallback(operand, maybe)", "operand operand",
            "fallback(operand#, 4294967296)", "count(operand))",
        ];
        for text in texts {
            assert!(parse(text).is_err(), "{text}");
        }
    }

    #[test]
    fn forms_that_are_refused_can_be_written() {
        for (text, place) in [
            ("flag()", 0),
            ("optional(optional(operand))", 2),
            ("many(count(operand))", 2),
        ] {
            assert_eq!(
                Form::check(&parse(text).unwrap().write()),
                Err(Refusal::at(3, place)),
                "{text}"
            );
        }
    }

    /// Shared names become names of their own, so some forms do not fit when written back.
    #[test]
    fn generated_forms_come_back() {
        let mut rng = cases::Rng::new(7);
        let mut skipped = 0;
        for _ in 0..20_000 {
            let form = Form::check(&cases::well_made(&mut rng).form).unwrap();
            let text = show(&form);
            let back = parse(&text).unwrap();
            assert_eq!(show(&back), text);
            match Form::check(&back.write()) {
                Ok(again) => assert_eq!(again, back),
                Err(refusal) => {
                    assert_eq!(refusal.number, 1, "{text}");
                    skipped += 1;
                }
            }
        }
        assert!(skipped < 200, "{skipped}");
    }
}
