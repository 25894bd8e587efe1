//! Forms written as text: one field a line, several forms under headings. docs/COMMAND.md has the notation with examples.

use std::ffi::OsString;
use std::os::unix::ffi::OsStringExt;

use silverpoise::{Fallback, Names, Node, Takes};

use crate::sections::{crate_names, written, Heading, Section, START};
use crate::shown::quoted;
use crate::source::{Fault, Spot};
use crate::tokens::{tokens, Token, Tokens};
use crate::written::{Field, OptionName, Written};

/// The limits of a form. They are tested here too, where the line and the column are known.
const NODES: usize = 64;
const FIELDS: usize = 16;
const NAMES: usize = 128;
const AREA: usize = 4096;

/// How deep brackets may stand in each other. A form of 64 nodes needs no more.
const DEPTH: usize = 64;

/// The most commands of a file.
const COMMANDS: usize = 32;

/// The form, or the commands with their forms, that the text has.
pub fn parse(text: &str) -> Result<Written, Fault> {
    let line = Tokens { tokens: Vec::new(), end: START };
    let mut parser = Parser { line, at: 0, depth: 0, above: Vec::new(), section: Section::default() };
    for (k, line) in text.lines().enumerate() {
        (parser.line, parser.at) = (tokens(line, k + 1)?, 0);
        match parser.peek() {
            None => {}
            Some(Token::OpenCommand) => parser.heading()?,
            Some(_) => parser.field()?,
        }
    }
    parser.above.push(parser.section);
    written(parser.above)
}

/// What was read of a field so far.
struct Part {
    node: Node,
    last: Last,
}

/// What the last words made, as far as it decides which modifiers may follow.
enum Last {
    Argument,
    Positional,
    /// an optional, a many or a some
    MayCatch,
    Other,
}

struct Parser {
    line: Tokens,
    at: usize,
    depth: usize,
    /// the commands above the one that is read
    above: Vec<Section>,
    /// the form that is read
    section: Section,
}

impl Parser {
    fn peek(&self) -> Option<&Token> {
        self.line.tokens.get(self.at).map(|(token, _)| token)
    }

    /// Where the next token stands, or the line's end.
    fn spot(&self) -> Spot {
        self.line.tokens.get(self.at).map_or(self.line.end, |(_, spot)| *spot)
    }

    /// Whether this token comes next; if so it is read.
    fn accept(&mut self, token: &Token) -> bool {
        let next = self.peek() == Some(token);
        self.at += usize::from(next);
        next
    }

    /// The next token, if it is a word.
    fn word(&mut self) -> Option<String> {
        let Some(Token::Word(word)) = self.peek() else { return None };
        let word = word.clone();
        self.at += 1;
        Some(word)
    }

    fn fault<T>(&self, words: impl Into<String>) -> Result<T, Fault> {
        Err(Fault::new(self.spot(), words))
    }

    /// `[NAMES]`, the whole line: a command's section begins.
    fn heading(&mut self) -> Result<(), Fault> {
        let spot = self.spot();
        self.at += 1;
        match (&self.section.heading, self.section.fields.is_empty()) {
            (Some(_), _) => self.above.push(std::mem::take(&mut self.section)),
            (None, true) => {}
            (None, false) => return Err(Fault::new(spot, "fields come before the first command: they belong to none")),
        }
        if self.above.len() == COMMANDS {
            return Err(Fault::new(spot, format!("a file has at most {COMMANDS} commands")));
        }
        let names = self.command_names()?;
        if !names.iter().any(|name| matches!(name, OptionName::Long(_))) {
            return Err(Fault::new(spot, "a command has a name of two characters or more, as in `[wear w]`"));
        }
        self.section.heading = Some(Heading { spot, names });
        Ok(())
    }

    /// The names of a command up to the bracket that ends the line.
    fn command_names(&mut self) -> Result<Vec<OptionName>, Fault> {
        let mut names = Vec::new();
        while let Some(name) = self.command_name()? {
            let mut headings = self.above.iter().filter_map(|section| section.heading.as_ref());
            if names.contains(&name) || headings.any(|heading| heading.names.contains(&name)) {
                return self.fault("this name is a command's already");
            }
            self.at += 1;
            names.push(name);
        }
        if !self.accept(&Token::CloseCommand) {
            return self.fault("a command's name or `]` must be here, as in `[wear w]`");
        }
        match self.at == self.line.tokens.len() {
            true => Ok(names),
            false => self.fault("the line of a command ends with `]`"),
        }
    }

    /// The name that comes next, if one does: of one character it is short. In quotes it is taken as it is.
    fn command_name(&self) -> Result<Option<OptionName>, Fault> {
        let bytes = match self.peek() {
            Some(Token::Word(word)) if word.starts_with('-') => {
                return self.fault("a command's name has no dashes; in quotes it is taken as it is");
            }
            Some(Token::Word(word)) => word.as_bytes().to_vec(),
            Some(Token::Quoted { bytes, .. }) => bytes.clone(),
            _ => return Ok(None),
        };
        let Ok(name) = String::from_utf8(bytes) else { return self.fault("a name must be UTF-8") };
        let mut characters = name.chars();
        match (characters.next(), characters.next()) {
            (Some(letter), None) => Ok(Some(OptionName::Short(letter))),
            _ => Ok(Some(OptionName::Long(name))),
        }
    }

    /// `NAME: PARSER`, the whole line.
    fn field(&mut self) -> Result<(), Fault> {
        let spot = self.spot();
        if self.section.fields.len() == FIELDS {
            return self.fault(format!("a form has at most {FIELDS} fields"));
        }
        let Some(name) = self.word() else { return self.fault("a field begins with its name, as in `limit: number -l`") };
        if self.section.fields.iter().any(|field| field.name == name) {
            return Err(Fault::new(spot, format!("a field before this one is called {} too", quoted(name.as_bytes()))));
        }
        if !self.accept(&Token::Colon) {
            return self.fault("a `:` comes after the field's name, as in `limit: number -l`");
        }
        let Part { node, .. } = self.parser()?;
        if self.at < self.line.tokens.len() {
            return self.fault("a comma, `or` or the end of the line must be here");
        }
        self.section.fields.push(Field { name, spot });
        self.section.roots.push(node);
        Ok(())
    }

    /// One part, or several with `or` between them: `a or b or c` is `(a or b) or c`.
    fn parser(&mut self) -> Result<Part, Fault> {
        let mut first = self.part()?;
        loop {
            let spot = self.spot();
            if !self.accept(&Token::Word("or".to_string())) {
                return Ok(first);
            }
            let second = self.part()?;
            first = self.over(spot, first.node.or(second.node), Last::Other)?;
        }
    }

    /// A leaf or a bracket, and its modifiers.
    fn part(&mut self) -> Result<Part, Fault> {
        let mut part = self.base()?;
        while self.accept(&Token::Comma) {
            part = self.modifier(part)?;
        }
        Ok(part)
    }

    fn base(&mut self) -> Result<Part, Fault> {
        let spot = self.spot();
        if self.accept(&Token::Open) {
            return self.bracket(spot);
        }
        match self.word().as_deref() {
            Some("switch") => self.flag(spot, Node::switch),
            Some("flag") => self.flag(spot, Node::flag),
            Some("text") => self.taking(spot, Takes::Text),
            Some("number") => self.taking(spot, Takes::Number),
            _ => Err(Fault::new(spot, "`switch`, `flag`, `text`, `number` or `(` must be here")),
        }
    }

    fn bracket(&mut self, open: Spot) -> Result<Part, Fault> {
        if self.depth == DEPTH {
            return Err(Fault::new(open, format!("brackets are at most {DEPTH} deep")));
        }
        self.depth += 1;
        let part = self.parser()?;
        self.depth -= 1;
        match self.accept(&Token::Close) {
            true => Ok(part),
            false => self.fault("a comma, `or` or `)` must be here"),
        }
    }

    fn flag(&mut self, spot: Spot, leaf: fn(Names) -> Node) -> Result<Part, Fault> {
        let names = self.option_names()?;
        if names.is_empty() {
            return self.fault("a name must be here, as in `-v` or `--verbose`");
        }
        self.over(spot, leaf(crate_names(&names)), Last::Other)
    }

    /// An argument if names follow, else a positional.
    fn taking(&mut self, spot: Spot, takes: Takes) -> Result<Part, Fault> {
        let names = self.option_names()?;
        if names.is_empty() {
            return self.over(spot, Node::positional(takes), Last::Positional);
        }
        self.over(spot, Node::argument(crate_names(&names), takes), Last::Argument)
    }

    fn option_names(&mut self) -> Result<Vec<OptionName>, Fault> {
        let mut names = Vec::new();
        while let Some((dashes, bytes)) = self.peek().and_then(dashed) {
            let name = self.option_name(dashes, bytes)?;
            self.at += 1;
            names.push(name);
        }
        Ok(names)
    }

    /// A name, without its dashes.
    fn option_name(&mut self, dashes: usize, bytes: Vec<u8>) -> Result<OptionName, Fault> {
        let Ok(name) = String::from_utf8(bytes) else { return self.fault("a name must be UTF-8") };
        self.name_record(name.len())?;
        let mut characters = name.chars();
        match (dashes, characters.next(), characters.next()) {
            (1, Some(letter), None) => Ok(OptionName::Short(letter)),
            (1, ..) => self.fault("a name after one dash is one character; a longer one has two dashes"),
            _ if name.contains('=') => self.fault("a long name with a `=` could never be given"),
            _ => Ok(OptionName::Long(name)),
        }
    }

    fn modifier(&mut self, Part { node, last }: Part) -> Result<Part, Fault> {
        let spot = self.spot();
        let Some(word) = self.word() else { return self.fault(MODIFIERS) };
        match (word.as_str(), last) {
            ("optional", _) => self.over(spot, node.optional(), Last::MayCatch),
            ("many", _) => self.over(spot, node.many(), Last::MayCatch),
            ("some", _) => self.over(spot, node.some(), Last::MayCatch),
            ("count", _) => self.over(spot, node.count(), Last::Other),
            ("last", _) => self.over(spot, node.last(), Last::Other),
            ("else", _) => {
                let value = self.fallback()?;
                self.over(spot, node.fallback(value), Last::Other)
            }
            ("catch", Last::MayCatch) => Ok(Part { node: node.catch(), last: Last::Other }),
            ("catch", _) => Err(Fault::new(spot, "`catch` comes right after `optional`, `many` or `some`")),
            ("adjacent", Last::Argument) => Ok(Part { node: node.adjacent(), last: Last::Other }),
            ("adjacent", _) => Err(Fault::new(spot, "`adjacent` comes right after a text or number with a name")),
            ("strict", Last::Positional) => Ok(Part { node: node.strict(), last: Last::Other }),
            ("non-strict", Last::Positional) => Ok(Part { node: node.non_strict(), last: Last::Other }),
            ("strict" | "non-strict", _) => {
                Err(Fault::new(spot, format!("`{word}` comes right after a text or number without a name")))
            }
            (bounds, _) => match bounds.split_once("..") {
                Some((lo, hi)) => self.over(spot, node.guard(number(lo, spot)?..=number(hi, spot)?), Last::Other),
                None => Err(Fault::new(spot, MODIFIERS)),
            },
        }
    }

    /// The value behind `else`.
    fn fallback(&mut self) -> Result<Fallback, Fault> {
        let spot = self.spot();
        if let Some(Token::Quoted { bytes, .. }) = self.peek() {
            let text = OsString::from_vec(bytes.clone());
            self.name_record(text.len())?;
            self.at += 1;
            return Ok(Fallback::Text(text));
        }
        match self.word().as_deref() {
            Some("yes") => Ok(Fallback::YesNo(true)),
            Some("no") => Ok(Fallback::YesNo(false)),
            Some(digits) if digits.starts_with(|c: char| c.is_ascii_digit()) => number(digits, spot).map(Fallback::Number),
            _ => Err(Fault::new(spot, "`yes`, `no`, a number or a text in quotes must be here")),
        }
    }

    /// Counts the node that is written at the spot.
    fn over(&mut self, spot: Spot, node: Node, last: Last) -> Result<Part, Fault> {
        if self.section.nodes.len() == NODES {
            return Err(Fault::new(spot, format!("a form has at most {NODES} nodes: {NODE_WORDS}")));
        }
        self.section.nodes.push(spot);
        Ok(Part { node, last })
    }

    /// Counts a name or a text of this many bytes, which is the next token.
    fn name_record(&mut self, bytes: usize) -> Result<(), Fault> {
        self.section.names += 1;
        self.section.area += bytes;
        if self.section.names > NAMES {
            return self.fault(format!("a form has at most {NAMES} names and texts after `else`"));
        }
        if self.section.area > AREA {
            return self.fault(format!("the names and the texts after `else` have at most {AREA} bytes together"));
        }
        Ok(())
    }
}

const MODIFIERS: &str = "a modifier must be here: \
                         optional, many, some, count, last, catch, adjacent, strict, non-strict, LO..HI, else";

const NODE_WORDS: &str =
    "each `switch`, `flag`, `text`, `number` and `or`, and each modifier but `catch`, `adjacent`, `strict` \
                          and `non-strict`";

/// The dashes of an option's name (1 or 2), and what stands behind them.
fn dashed(token: &Token) -> Option<(usize, Vec<u8>)> {
    let (dashes, bytes) = match token {
        Token::Word(word) => (word.chars().take_while(|c| *c == '-').count(), word.as_bytes()),
        Token::Quoted { bytes, dashes } => (*dashes, bytes.as_slice()),
        _ => return None,
    };
    let dashes = dashes.min(2);
    (dashes > 0).then(|| (dashes, bytes[dashes..].to_vec()))
}

fn number(digits: &str, spot: Spot) -> Result<u32, Fault> {
    let only_digits = digits.bytes().all(|byte| byte.is_ascii_digit());
    let number = digits.parse().ok().filter(|_| only_digits);
    number.ok_or_else(|| Fault::new(spot, format!("{} is no number from 0 to {}", quoted(digits.as_bytes()), u32::MAX)))
}
