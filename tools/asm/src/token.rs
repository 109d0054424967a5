//! One line of assembly text as its words.

use crate::Error;

#[derive(Debug, Clone, PartialEq, Eq)]
pub enum Token {
    /// a name, a number, or a number of a table (`@3`)
    Word(String),
    /// a text in double quotes
    Text(Vec<u8>),
    /// a character in single quotes
    Char(u32),
    /// one of `:` `=` `/`
    Mark(char),
}

impl Token {
    /// The token as a person wrote it, for messages.
    pub fn shown(&self) -> String {
        match self {
            Token::Word(word) => format!("`{word}`"),
            Token::Text(bytes) => quoted(bytes),
            Token::Char(scalar) => format!("character U+{scalar:04X}"),
            Token::Mark(mark) => format!("`{mark}`"),
        }
    }
}

/// A text in double quotes, the way `tokens` reads it.
pub fn quoted(bytes: &[u8]) -> String {
    let mut out = String::from("\"");
    for &byte in bytes {
        if byte == b'"' || byte == b'\\' {
            out.push('\\');
        }
        out.push(byte as char);
    }
    out.push('"');
    out
}

/// Whether a word can name something: a letter or `_`, then letters, digits, `_`, `.` and `-`.
pub fn is_name(word: &str) -> bool {
    let mut letters = word.chars();
    let first = letters
        .next()
        .is_some_and(|c| c.is_ascii_alphabetic() || c == '_');
    first && letters.all(|c| c.is_ascii_alphanumeric() || matches!(c, '_' | '.' | '-'))
}

fn in_word(c: char) -> bool {
    c.is_ascii_alphanumeric() || matches!(c, '_' | '.' | '+' | '-' | '@')
}

/// The tokens of a line, without its comment.
pub fn tokens(text: &str, line: usize) -> Result<Vec<Token>, Error> {
    let mut found = Vec::new();
    let mut rest = text.chars().peekable();
    while let Some(&c) = rest.peek() {
        match c {
            '#' => break,
            c if c.is_whitespace() => {
                rest.next();
            }
            '"' => found.push(Token::Text(text_token(&mut rest, line)?)),
            '\'' => found.push(Token::Char(char_token(&mut rest, line)?)),
            ':' | '=' | '/' => {
                found.push(Token::Mark(c));
                rest.next();
            }
            c if in_word(c) => {
                let mut word = String::new();
                while let Some(c) = rest.next_if(|&c| in_word(c)) {
                    word.push(c);
                }
                found.push(Token::Word(word));
            }
            c => {
                let shown = c.escape_default();
                return Err(Error::new(line, format!("`{shown}` means nothing here")));
            }
        }
    }
    Ok(found)
}

type Letters<'a> = std::iter::Peekable<std::str::Chars<'a>>;

fn text_token(rest: &mut Letters, line: usize) -> Result<Vec<u8>, Error> {
    let unclosed = || Error::new(line, "the text has no closing `\"`");
    rest.next();
    let mut bytes = Vec::new();
    loop {
        let c = match rest.next().ok_or_else(unclosed)? {
            '"' => return Ok(bytes),
            '\\' => match rest.next().ok_or_else(unclosed)? {
                c @ ('"' | '\\') => c,
                c => {
                    let message = format!("`\\{c}`: only `\\\"` and `\\\\` can be written so");
                    return Err(Error::new(line, message));
                }
            },
            c => c,
        };
        if !(' '..='~').contains(&c) {
            let message = format!("U+{:04X}: a text holds only ` ` to `~`", c as u32);
            return Err(Error::new(line, message));
        }
        bytes.push(c as u8);
    }
}

fn char_token(rest: &mut Letters, line: usize) -> Result<u32, Error> {
    let wrong = || Error::new(line, "a character is written 'a', '\\'', '\\\\' or U+0061");
    rest.next();
    let c = match rest.next().ok_or_else(wrong)? {
        '\'' => return Err(wrong()),
        '\\' => match rest.next() {
            Some(c @ ('\'' | '\\')) => c,
            _ => return Err(wrong()),
        },
        c => c,
    };
    match rest.next() {
        Some('\'') => Ok(c as u32),
        _ => Err(wrong()),
    }
}
