//! From assembly text to an image.
//!
//! Two walks over the lines: the first finds the texts and what the chunks are called, so that a
//! Function may name a chunk further down; the second writes constants and code.

use crate::constant::{boolean, character, fitting, float, sfloat, whole};
use crate::token::{Token, is_name, quoted, tokens};
use crate::{BUILT_KINDS, Error, KINDS, TARGETS, most};
use image::{Chunk, Constant, INSTRUCTIONS, Image};
use std::collections::HashMap;

/// The image of an assembly text. What it gives always loads.
pub fn assemble(text: &str) -> Result<Image, Error> {
    let lines = split(text)?;
    let mut assembler = Assembler {
        called: headers(&lines)?,
        ..Assembler::default()
    };
    for (line, words) in &lines {
        assembler.statement(*line, words)?;
    }
    assembler.close()?;
    if assembler.image.chunks.is_empty() {
        return Err(Error::new(0, "there is no chunk: begin with `chunk top/0`"));
    }
    let length = assembler.image.lines().len();
    if length > most::IMAGE {
        let message = format!("the image has {length} bytes, the most is {}", most::IMAGE);
        return Err(Error::new(0, message));
    }
    Ok(assembler.image)
}

type Line = (usize, Vec<Token>);

fn split(text: &str) -> Result<Vec<Line>, Error> {
    let mut lines = Vec::new();
    for (at, line) in text.lines().enumerate() {
        let words = tokens(line, at + 1)?;
        if !words.is_empty() {
            lines.push((at + 1, words));
        }
    }
    Ok(lines)
}

/// How Function constants may speak of a chunk.
struct Called {
    /// its name, where it was not given as a text's number
    name: Option<Vec<u8>>,
    /// the second name after `as`
    alias: Option<String>,
}

/// The names of all chunks, for Functions that name a later one.
fn headers(lines: &[Line]) -> Result<Vec<Called>, Error> {
    let mut called = Vec::new();
    for (line, words) in lines {
        if matches!(&words[0], Token::Word(w) if w == "chunk") {
            let header = Header::parse(&words[1..], *line)?;
            let name = match header.name {
                Token::Text(bytes) => Some(bytes),
                Token::Word(w) if w.starts_with('@') => None,
                Token::Word(w) => Some(w.into_bytes()),
                _ => None,
            };
            called.push(Called {
                name,
                alias: header.alias,
            });
        }
    }
    Ok(called)
}

/// `NAME/ARITY`, and perhaps `as ALIAS`.
struct Header {
    name: Token,
    arity: u8,
    alias: Option<String>,
}

impl Header {
    fn parse(words: &[Token], line: usize) -> Result<Header, Error> {
        let help = "a chunk begins `chunk NAME/ARITY`, the name plain, in quotes or as `@` and a text's number";
        let [name, Token::Mark('/'), arity, rest @ ..] = words else {
            return Err(Error::new(line, help));
        };
        let sound = match name {
            Token::Text(_) => true,
            Token::Word(word) => is_name(word) || table_number(word).is_some(),
            _ => false,
        };
        if !sound {
            return Err(Error::new(line, help));
        }
        let alias = match rest {
            [] => None,
            [Token::Word(word), Token::Word(alias)] if word == "as" && is_name(alias) => {
                Some(alias.clone())
            }
            [other, ..] => {
                let message = format!("{} after the chunk's arity: {help}", other.shown());
                return Err(Error::new(line, message));
            }
        };
        Ok(Header {
            name: name.clone(),
            arity: fitting(arity, "the arity", line)?,
            alias,
        })
    }
}

/// `@3` is number 3 of a table: a text, a chunk or a constant.
fn table_number(word: &str) -> Option<u16> {
    let digits = word.strip_prefix('@')?;
    let plain = digits.bytes().all(|b| b.is_ascii_digit());
    plain.then(|| digits.parse().ok())?
}

/// A jump whose label stands further down, or anywhere.
struct Fix {
    line: usize,
    /// where its operand stands
    at: usize,
    label: String,
    back: bool,
}

/// What belongs to the open chunk alone.
#[derive(Default)]
struct Open {
    constants: HashMap<String, u16>,
    locals: HashMap<String, u16>,
    labels: HashMap<String, usize>,
    fixes: Vec<Fix>,
}

#[derive(Default)]
struct Assembler {
    image: Image,
    called: Vec<Called>,
    globals: HashMap<String, u16>,
    open: Open,
}

impl Assembler {
    fn statement(&mut self, line: usize, words: &[Token]) -> Result<(), Error> {
        let Token::Word(first) = &words[0] else {
            let message = format!("a line can't begin with {}", words[0].shown());
            return Err(Error::new(line, message));
        };
        if let [_, Token::Mark(':'), rest @ ..] = words {
            self.label(line, first)?;
            return match rest {
                [] => Ok(()),
                rest => self.statement(line, rest),
            };
        }
        match first.as_str() {
            "text" => self.text(line, &words[1..]),
            "chunk" => self.chunk(line, &words[1..]),
            "global" => self.name_slot(line, &words[1..], true),
            _ if self.image.chunks.is_empty() => {
                let message = format!("`{first}` before the first chunk");
                Err(Error::new(line, message))
            }
            "const" => self.named_constant(line, &words[1..]),
            "local" => self.name_slot(line, &words[1..], false),
            "byte" => self.raw(line, &words[1..]),
            _ => self.instruction(line, first, &words[1..]),
        }
    }

    fn text(&mut self, line: usize, words: &[Token]) -> Result<(), Error> {
        let [Token::Text(bytes)] = words else {
            return Err(Error::new(line, "write `text \"..\"`"));
        };
        if !self.image.chunks.is_empty() {
            let message = "`text` lines stand before the first chunk";
            return Err(Error::new(line, message));
        }
        self.add_text(line, bytes).map(|_| ())
    }

    fn add_text(&mut self, line: usize, bytes: &[u8]) -> Result<u16, Error> {
        if bytes.len() > most::TEXT {
            let message = format!("a text of {} bytes, the most is 255", bytes.len());
            return Err(Error::new(line, message));
        }
        if self.image.texts.len() == most::TEXTS {
            return Err(Error::new(line, "one text too many, the most is 256"));
        }
        self.image.texts.push(bytes.to_vec());
        Ok(self.image.texts.len() as u16 - 1)
    }

    /// The number of a text: the first equal one, or a new one.
    fn text_number(&mut self, line: usize, bytes: &[u8]) -> Result<u16, Error> {
        match self.image.texts.iter().position(|text| text == bytes) {
            Some(number) => Ok(number as u16),
            None => self.add_text(line, bytes),
        }
    }

    fn text_reference(&mut self, line: usize, token: &Token) -> Result<u16, Error> {
        match token {
            Token::Text(bytes) => self.text_number(line, bytes),
            Token::Word(word) if word.starts_with('@') => {
                let number = table_number(word).filter(|&n| self.image.texts.len() > n as usize);
                number.ok_or_else(|| Error::new(line, format!("there is no text {word}")))
            }
            Token::Word(word) if is_name(word) => self.text_number(line, word.as_bytes()),
            other => {
                let help = "write it in quotes, or `@` and its number";
                Err(Error::new(
                    line,
                    format!("{} is no text: {help}", other.shown()),
                ))
            }
        }
    }

    fn chunk(&mut self, line: usize, words: &[Token]) -> Result<(), Error> {
        self.close()?;
        let header = Header::parse(words, line)?;
        let number = self.image.chunks.len();
        if number == most::CHUNKS {
            return Err(Error::new(line, "one chunk too many, the most is 64"));
        }
        if number == 0 && header.arity != 0 {
            let message = "the first chunk is the top, its arity is 0";
            return Err(Error::new(line, message));
        }
        let name = self.text_reference(line, &header.name)?;
        self.image.chunks.push(Chunk {
            arity: header.arity,
            name,
            ..Chunk::default()
        });
        Ok(())
    }

    /// Puts the jumps of the open chunk right, now that all its labels are known.
    fn close(&mut self) -> Result<(), Error> {
        let open = std::mem::take(&mut self.open);
        for fix in &open.fixes {
            let target = *open.labels.get(&fix.label).ok_or_else(|| {
                let message = format!("there is no label `{}` in this chunk", fix.label);
                Error::new(fix.line, message)
            })?;
            let after = fix.at + 2;
            let (from, to, help) = match fix.back {
                true => (target, after, "Loop goes back only: use Jump"),
                false => (after, target, "jumps go forward only: use Loop"),
            };
            let distance = to.checked_sub(from).ok_or_else(|| {
                let message = format!("`{}` is on the other side, and {help}", fix.label);
                Error::new(fix.line, message)
            })?;
            let operand = (distance as u16).to_be_bytes();
            self.code()[fix.at..after].copy_from_slice(&operand);
        }
        Ok(())
    }

    /// The open chunk. Only asked for after `chunk` opened one.
    fn last(&mut self) -> &mut Chunk {
        self.image.chunks.last_mut().expect("a chunk is open")
    }

    fn code(&mut self) -> &mut Vec<u8> {
        &mut self.last().code
    }

    fn label(&mut self, line: usize, name: &str) -> Result<(), Error> {
        if !is_name(name) {
            let message = format!("`{name}` can't be a label: begin with a letter");
            return Err(Error::new(line, message));
        }
        if self.image.chunks.is_empty() {
            return Err(Error::new(
                line,
                format!("`{name}:` before the first chunk"),
            ));
        }
        let at = self.code().len();
        match self.open.labels.insert(name.to_string(), at) {
            None => Ok(()),
            Some(_) => Err(Error::new(line, format!("a second label `{name}`"))),
        }
    }

    /// `local NAME = SLOT` and `global NAME = SLOT`.
    fn name_slot(&mut self, line: usize, words: &[Token], global: bool) -> Result<(), Error> {
        let [Token::Word(name), Token::Mark('='), slot] = words else {
            let what = if global { "global" } else { "local" };
            return Err(Error::new(line, format!("write `{what} NAME = SLOT`")));
        };
        if !is_name(name) {
            return Err(Error::new(line, format!("`{name}` can't be a name")));
        }
        let slot = fitting(slot, "the slot", line)?;
        if self.globals.contains_key(name) || self.open.locals.contains_key(name) {
            let message = format!("`{name}` names a slot already");
            return Err(Error::new(line, message));
        }
        let names = match global {
            true => &mut self.globals,
            false => &mut self.open.locals,
        };
        names.insert(name.clone(), slot);
        Ok(())
    }

    fn named_constant(&mut self, line: usize, words: &[Token]) -> Result<(), Error> {
        let [Token::Word(name), Token::Mark('='), value @ ..] = words else {
            return Err(Error::new(line, "write `const NAME = KIND VALUE`"));
        };
        if !is_name(name) || KINDS.iter().any(|(kind, _)| kind == name) {
            let message = format!("`{name}` can't name a constant");
            return Err(Error::new(line, message));
        }
        let constant = self.constant(line, value)?;
        let number = self.add_constant(line, constant)?;
        match self.open.constants.insert(name.clone(), number) {
            None => Ok(()),
            Some(_) => Err(Error::new(line, format!("a second constant `{name}`"))),
        }
    }

    fn add_constant(&mut self, line: usize, constant: Constant) -> Result<u16, Error> {
        let constants = &mut self.last().constants;
        if constants.len() == most::CONSTANTS {
            let message = "one constant too many in this chunk, the most is 256";
            return Err(Error::new(line, message));
        }
        constants.push(constant);
        Ok(constants.len() as u16 - 1)
    }

    /// `KIND VALUE`.
    fn constant(&mut self, line: usize, words: &[Token]) -> Result<Constant, Error> {
        let Some((Token::Word(kind), value)) = words.split_first() else {
            return Err(Error::new(line, "a constant is a kind and its value"));
        };
        match (kind.as_str(), value) {
            ("Null", []) => Ok(Constant::Null),
            ("Float", value) => float(value, line),
            ("SFloat", value) => sfloat(value, line),
            ("Str", [text]) => Ok(Constant::Str(self.text_reference(line, text)?)),
            ("Function", [chunk]) => self.function(line, chunk),
            ("Char", [value]) => character(value, line),
            ("Bool", [value]) => boolean(value, line),
            (kind, [value]) => integer(line, kind, value),
            (kind, value) if KINDS.iter().any(|(known, _)| *known == kind) => {
                let message = format!("{kind} does not take {} values", value.len());
                Err(Error::new(line, message))
            }
            (kind, _) => Err(no_kind(line, kind)),
        }
    }

    /// A Function names a chunk further down, as loading demands.
    fn function(&mut self, line: usize, token: &Token) -> Result<Constant, Error> {
        let number = match token {
            Token::Word(word) if word.starts_with('@') => table_number(word)
                .filter(|&n| self.called.len() > n as usize)
                .ok_or_else(|| Error::new(line, format!("there is no chunk {word}")))?,
            Token::Word(word) if is_name(word) => self.chunk_called(line, word.as_bytes())?,
            Token::Text(bytes) => self.chunk_called(line, bytes)?,
            other => {
                let message = format!("{} names no chunk", other.shown());
                return Err(Error::new(line, message));
            }
        };
        if (number as usize) < self.image.chunks.len() {
            let message = "a Function names a chunk that stands further down";
            return Err(Error::new(line, message));
        }
        Ok(Constant::Function(number))
    }

    fn chunk_called(&self, line: usize, name: &[u8]) -> Result<u16, Error> {
        let by_alias = |c: &Called| c.alias.as_ref().is_some_and(|a| a.as_bytes() == name);
        let by_name = |c: &Called| c.name.as_deref() == Some(name);
        let mut found: Vec<usize> = places(&self.called, by_alias);
        if found.is_empty() {
            found = places(&self.called, by_name);
        }
        match found[..] {
            [number] => Ok(number as u16),
            [] => {
                let message = format!("there is no chunk {}", quoted(name));
                Err(Error::new(line, message))
            }
            _ => {
                let help = "write `@` and the chunk's number, or give it a second name with `as`";
                let message = format!("more than one chunk is called {}: {help}", quoted(name));
                Err(Error::new(line, message))
            }
        }
    }

    fn raw(&mut self, line: usize, words: &[Token]) -> Result<(), Error> {
        if words.is_empty() {
            return Err(Error::new(line, "write `byte` and two hexadecimal digits"));
        }
        for word in words {
            let byte = match word {
                Token::Word(w) if w.len() == 2 && w.bytes().all(|b| b.is_ascii_hexdigit()) => {
                    u8::from_str_radix(w, 16).ok()
                }
                _ => None,
            };
            let byte = byte.ok_or_else(|| {
                let message = format!("{} is not two hexadecimal digits", word.shown());
                Error::new(line, message)
            })?;
            self.put(line, &[byte])?;
        }
        Ok(())
    }

    fn put(&mut self, line: usize, bytes: &[u8]) -> Result<(), Error> {
        let code = self.code();
        if code.len() + bytes.len() > most::CODE {
            let message = "the code of this chunk is over 4096 bytes";
            return Err(Error::new(line, message));
        }
        code.extend_from_slice(bytes);
        Ok(())
    }

    fn instruction(&mut self, line: usize, name: &str, words: &[Token]) -> Result<(), Error> {
        let Some(number) = INSTRUCTIONS.iter().position(|(known, _)| *known == name) else {
            return Err(no_instruction(line, name));
        };
        let operands = match name {
            "Const" => vec![self.constant_reference(line, words)?],
            "GetLocal" | "SetLocal" => vec![self.slot(line, name, words, true, false)?],
            "GetGlobal" | "SetGlobal" => vec![self.slot(line, name, words, false, true)?],
            "DefineLocal" => vec![self.slot(line, name, words, true, true)?],
            "Jump" | "JumpIfFalse" | "Loop" => vec![self.jump(line, name, words)?],
            "Call" | "BuildArr" | "BuildTuple" => vec![count(line, name, words)?],
            "BuildClosure" => self.closure(line, words)?,
            "Cast" => vec![target(line, words)?],
            "IsKind" => self.kind_test(line, words)?,
            _ if words.is_empty() => vec![],
            _ => {
                let message = format!("{name} has no operand, not {}", words[0].shown());
                return Err(Error::new(line, message));
            }
        };
        let mut bytes = vec![number as u8];
        for operand in operands {
            bytes.extend_from_slice(&operand.to_be_bytes());
        }
        self.put(line, &bytes)
    }

    /// A constant by name, by number, or inline: `two`, `@0`, `Int 2`, `"text"`.
    fn constant_reference(&mut self, line: usize, words: &[Token]) -> Result<u16, Error> {
        match words {
            [Token::Word(word)] if word.starts_with('@') => table_number(word)
                .ok_or_else(|| Error::new(line, format!("`{word}` is no constant's number"))),
            [Token::Word(word)] if self.open.constants.contains_key(word) => {
                Ok(self.open.constants[word])
            }
            [Token::Word(word)] if word != "Null" => {
                let help = "name a constant of this chunk, write it with its kind, as in `Const Int 2`, or `@` and its number";
                Err(Error::new(line, format!("`{word}` is no constant: {help}")))
            }
            [Token::Text(bytes)] => {
                let text = self.text_number(line, bytes)?;
                self.inline(line, Constant::Str(text))
            }
            words => {
                let constant = self.constant(line, words)?;
                self.inline(line, constant)
            }
        }
    }

    /// The number of a constant written at its instruction: added once a chunk.
    fn inline(&mut self, line: usize, constant: Constant) -> Result<u16, Error> {
        let found = self.last().constants.iter().position(|c| *c == constant);
        match found {
            Some(number) => Ok(number as u16),
            None => self.add_constant(line, constant),
        }
    }

    fn slot(
        &self,
        line: usize,
        name: &str,
        words: &[Token],
        local: bool,
        global: bool,
    ) -> Result<u16, Error> {
        let [word] = words else {
            return Err(Error::new(line, format!("{name} has one operand, a slot")));
        };
        if let Token::Word(word) = word {
            let locals = self.open.locals.get(word).filter(|_| local);
            let globals = self.globals.get(word).filter(|_| global);
            if let Some(slot) = locals.or(globals) {
                return Ok(*slot);
            }
            if is_name(word) {
                let message = format!("`{word}` names no slot that {name} can take");
                return Err(Error::new(line, message));
            }
        }
        fitting(word, "the slot", line)
    }

    /// A label, or the distance itself.
    fn jump(&mut self, line: usize, name: &str, words: &[Token]) -> Result<u16, Error> {
        let [word] = words else {
            return Err(Error::new(line, format!("{name} has one operand, a label")));
        };
        match word {
            Token::Word(label) if is_name(label) => {
                self.open.fixes.push(Fix {
                    line,
                    at: self.image.chunks.last().map_or(0, |c| c.code.len()) + 1,
                    label: label.clone(),
                    back: name == "Loop",
                });
                Ok(0)
            }
            word => fitting(word, "the distance", line),
        }
    }

    fn closure(&mut self, line: usize, words: &[Token]) -> Result<Vec<u16>, Error> {
        let Some((start, function)) = words.split_last().filter(|(_, f)| !f.is_empty()) else {
            let message = "write `BuildClosure Function NAME START`";
            return Err(Error::new(line, message));
        };
        let function = self.constant_reference(line, function)?;
        let start = [start.clone()];
        let start = self.slot(line, "BuildClosure", &start, true, false)?;
        Ok(vec![function, start])
    }

    /// `IsKind KIND`, `IsKind Ok INNER`, or all four operands.
    fn kind_test(&mut self, line: usize, words: &[Token]) -> Result<Vec<u16>, Error> {
        let none = Token::Text(vec![]);
        let null = Token::Word("Null".to_string());
        let (kind, name, inner, inner_name) = match words {
            [kind] => (kind, &none, &null, &none),
            [kind, inner] => (kind, &none, inner, &none),
            [kind, name, inner, inner_name] => (kind, name, inner, inner_name),
            _ => {
                let message = "write `IsKind KIND`, `IsKind Ok INNER` or all four operands";
                return Err(Error::new(line, message));
            }
        };
        Ok(vec![
            kind_code(line, kind)?,
            self.constant_reference(line, std::slice::from_ref(name))?,
            kind_code(line, inner)?,
            self.constant_reference(line, std::slice::from_ref(inner_name))?,
        ])
    }
}

fn places(called: &[Called], holds: impl Fn(&Called) -> bool) -> Vec<usize> {
    (0..called.len()).filter(|&n| holds(&called[n])).collect()
}

fn integer(line: usize, kind: &str, value: &Token) -> Result<Constant, Error> {
    Ok(match kind {
        "Int" => Constant::Int(fitting(value, kind, line)?),
        "UInt" => Constant::UInt(fitting(value, kind, line)?),
        "SInt" => Constant::SInt(fitting(value, kind, line)?),
        "SUInt" => Constant::SUInt(fitting(value, kind, line)?),
        "Byte" => Constant::Byte(fitting(value, kind, line)?),
        "SByte" => Constant::SByte(fitting(value, kind, line)?),
        "BByte" => Constant::BByte(fitting(value, kind, line)?),
        "BSByte" => Constant::BSByte(fitting(value, kind, line)?),
        "Null" => return Err(Error::new(line, "Null has no value")),
        other => return Err(no_kind(line, other)),
    })
}

fn no_kind(line: usize, word: &str) -> Error {
    let known: Vec<&str> = KINDS.iter().map(|(kind, _)| *kind).collect();
    let message = format!("`{word}` is no kind of constant: {}", known.join(", "));
    Error::new(line, message)
}

fn no_instruction(line: usize, word: &str) -> Error {
    let near = INSTRUCTIONS
        .iter()
        .find(|(name, _)| name.eq_ignore_ascii_case(word));
    let message = match near {
        Some((name, _)) => format!("no instruction is called `{word}`: did you mean `{name}`?"),
        None => format!("no instruction is called `{word}`"),
    };
    Error::new(line, message)
}

fn count(line: usize, name: &str, words: &[Token]) -> Result<u16, Error> {
    match words {
        [word] => fitting(word, "the count", line),
        _ => Err(Error::new(line, format!("{name} has one operand, a count"))),
    }
}

fn target(line: usize, words: &[Token]) -> Result<u16, Error> {
    let named = match words {
        [Token::Word(word)] => TARGETS.iter().position(|name| name == word),
        _ => None,
    };
    match (named, words) {
        (Some(number), _) => Ok(number as u16),
        (None, [Token::Word(word)]) if whole(word).is_some() => {
            fitting(&words[0], "the target", line)
        }
        _ => {
            let message = format!("Cast has one operand, a target: {}", TARGETS.join(", "));
            Err(Error::new(line, message))
        }
    }
}

fn kind_code(line: usize, token: &Token) -> Result<u16, Error> {
    if let Token::Word(word) = token {
        let known = KINDS.iter().chain(&BUILT_KINDS);
        if let Some((_, code)) = known.into_iter().find(|(name, _)| name == word) {
            return Ok(*code as u16);
        }
        if is_name(word) {
            return Err(Error::new(line, format!("`{word}` is no kind")));
        }
    }
    fitting(token, "the kind", line)
}
