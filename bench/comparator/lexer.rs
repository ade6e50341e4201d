//! Tokens of both texts, one at a time.

use std::io::BufRead;

/// The greatest number of a text.
pub const GREATEST: u64 = 2_147_483_647;

/// So many digits never pass a `u64`.
const MOST_DIGITS: usize = 19;

#[derive(Clone, Copy, PartialEq, Eq)]
pub enum Kind {
    /// Its value, which stays just above the greatest where it is greater.
    Number(u64),
    Word,
    Name,
    Comma,
    Semicolon,
    End,
    Bad,
}

#[derive(Clone, Copy)]
pub struct Token {
    pub kind: Kind,
    pub from: usize,
}

pub struct Lexer<'t> {
    pub text: &'t [u8],
    pub at: usize,
    /// Whether a number was too large.
    pub too_large: bool,
}

impl<'t> Lexer<'t> {
    pub fn new(text: &'t [u8]) -> Lexer<'t> {
        Lexer { text, at: 0, too_large: false }
    }

    #[inline(always)]
    pub fn next(&mut self) -> Token {
        let mut from = self.at;
        while from < self.text.len() && matches!(self.text[from], b' ' | b'\n' | b'\r' | b'\t') {
            from += 1;
        }
        self.at = from + 1;
        let kind = match self.text.get(from) {
            None => {
                self.at = from;
                Kind::End
            }
            Some(b'0'..=b'9') => self.number(from),
            Some(b',') => Kind::Comma,
            Some(b';') => Kind::Semicolon,
            Some(_) => self.rare(from),
        };
        Token { kind, from }
    }

    #[inline(always)]
    fn number(&mut self, from: usize) -> Kind {
        let (mut value, mut at) = (0u64, from);
        while at < self.text.len() {
            let digit = self.text[at].wrapping_sub(b'0');
            if digit > 9 {
                break;
            }
            value = value.wrapping_mul(10).wrapping_add(u64::from(digit));
            at += 1;
        }
        self.at = at;
        if at - from > MOST_DIGITS {
            value = long_number(&self.text[from..at]);
        }
        self.too_large |= value > GREATEST;
        Kind::Number(value)
    }

    #[inline(never)]
    fn rare(&mut self, from: usize) -> Kind {
        if self.text[from] == b'"' {
            // skip_until looks for the byte by words
            let mut rest = &self.text[from + 1..];
            let passed = rest.skip_until(b'"').unwrap_or(0);
            if passed == 0 || self.text[from + passed] != b'"' {
                return Kind::Bad;
            }
            self.at = from + 1 + passed;
            return Kind::Name;
        }
        let letters = self.text[from..].iter().take_while(|byte| byte.is_ascii_alphabetic()).count();
        self.at = from + letters.max(1);
        if letters > 0 { Kind::Word } else { Kind::Bad }
    }

    pub fn word(&self, token: Token) -> &'t [u8] {
        &self.text[token.from..self.at]
    }

    /// No value, after the rest is read as pgboard reads it, which names a byte that begins no token before this token.
    #[cold]
    pub fn unexpected<T>(&mut self, mut token: Token) -> Option<T> {
        while token.kind != Kind::End && token.kind != Kind::Bad {
            token = self.next();
        }
        None
    }

    #[inline(always)]
    pub fn expect_number(&mut self) -> Option<u64> {
        let token = self.next();
        match token.kind {
            Kind::Number(value) => Some(value),
            _ => self.unexpected(token),
        }
    }

    /// Passes the rest of a header line, a number and a semicolon.
    pub fn expect_header(&mut self) -> Option<()> {
        self.expect_number()?;
        let token = self.next();
        if token.kind == Kind::Semicolon { Some(()) } else { self.unexpected(token) }
    }
}

/// The value of a long number, which stays just above the greatest.
#[cold]
fn long_number(digits: &[u8]) -> u64 {
    let value = |value: u64, digit: &u8| (10 * value + u64::from(digit - b'0')).min(GREATEST + 1);
    digits.iter().fold(0, value)
}
