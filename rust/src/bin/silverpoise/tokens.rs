//! One line of a form's text as tokens.

use crate::source::{Fault, Spot};

#[derive(Clone, Debug, PartialEq, Eq)]
pub enum Token {
    /// outside quotes, up to a space or a character with a meaning of its own
    Word(String),
    /// in quotes, escapes replaced; `dashes` of its first characters were written as dashes, not as escapes
    Quoted {
        bytes: Vec<u8>,
        dashes: usize,
    },
    Colon,
    Comma,
    Open,
    Close,
    /// `[` and `]`, which only a command's heading has
    OpenCommand,
    CloseCommand,
}

/// The tokens of a line, and where it ends: at its comment, or behind its last character.
pub struct Tokens {
    pub tokens: Vec<(Token, Spot)>,
    pub end: Spot,
}

pub fn tokens(line: &str, number: usize) -> Result<Tokens, Fault> {
    let heading = line.trim_start().starts_with('[');
    let mut lexer = Lexer { line: number, chars: line.chars().collect(), at: 0, heading };
    let mut tokens = Vec::new();
    loop {
        while lexer.peek().is_some_and(char::is_whitespace) {
            lexer.at += 1;
        }
        let spot = lexer.spot();
        match lexer.peek() {
            None | Some('#') => return Ok(Tokens { tokens, end: spot }),
            Some(first) => tokens.push((lexer.token(first)?, spot)),
        }
    }
}

struct Lexer {
    line: usize,
    chars: Vec<char>,
    at: usize,
    /// whether the line begins with `[`; on any other line square brackets are letters like others
    heading: bool,
}

impl Lexer {
    fn spot(&self) -> Spot {
        Spot { line: self.line, column: self.at + 1 }
    }

    fn peek(&self) -> Option<char> {
        self.chars.get(self.at).copied()
    }

    fn next(&mut self) -> Option<char> {
        let next = self.peek();
        self.at += usize::from(next.is_some());
        next
    }

    fn token(&mut self, first: char) -> Result<Token, Fault> {
        let mark = match first {
            ':' => Token::Colon,
            ',' => Token::Comma,
            '(' => Token::Open,
            ')' => Token::Close,
            '[' if self.heading => Token::OpenCommand,
            ']' if self.heading => Token::CloseCommand,
            '"' => return self.quoted(),
            '\\' => return Err(Fault::new(self.spot(), "an escape must be in quotes, as in `\"\\xff\"`")),
            _ => return Ok(self.word()),
        };
        self.at += 1;
        Ok(mark)
    }

    fn word(&mut self) -> Token {
        let from = self.at;
        let marks = if self.heading { ":,()\"\\#[]" } else { ":,()\"\\#" };
        while self.peek().is_some_and(|c| !c.is_whitespace() && !marks.contains(c)) {
            self.at += 1;
        }
        Token::Word(self.chars[from..self.at].iter().collect())
    }

    fn quoted(&mut self) -> Result<Token, Fault> {
        let open = self.spot();
        self.at += 1;
        let dashes = self.chars[self.at..].iter().take_while(|c| **c == '-').count();
        let mut bytes = Vec::new();
        loop {
            let spot = self.spot();
            match self.next() {
                None => return Err(Fault::new(open, "the quotes are not closed on this line")),
                Some('"') => return Ok(Token::Quoted { bytes, dashes }),
                Some('\\') => bytes.push(self.escape(spot)?),
                Some(c) => bytes.extend(c.to_string().bytes()),
            }
        }
    }

    /// The byte of an escape, behind its backslash.
    fn escape(&mut self, backslash: Spot) -> Result<u8, Fault> {
        match self.next() {
            Some('\\') => Ok(b'\\'),
            Some('"') => Ok(b'"'),
            Some('n') => Ok(b'\n'),
            Some('r') => Ok(b'\r'),
            Some('t') => Ok(b'\t'),
            Some('x') => match (self.hex_digit(), self.hex_digit()) {
                (Some(high), Some(low)) => Ok(16 * high + low),
                _ => Err(Fault::new(backslash, "`\\x` needs two hexadecimal digits, as in `\\xff`")),
            },
            _ => {
                Err(Fault::new(backslash, "there is no such escape: there are `\\\\`, `\\\"`, `\\n`, `\\r`, `\\t` and `\\xff`"))
            }
        }
    }

    fn hex_digit(&mut self) -> Option<u8> {
        let digit = self.peek()?.to_digit(16)?;
        self.at += 1;
        u8::try_from(digit).ok()
    }
}
