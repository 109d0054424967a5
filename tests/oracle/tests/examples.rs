//! The worked images of the definition (crates/definition/specs/Examples.antt): the rows marked `rust` are what the
//! published machine answers, and all rows are what the model answers. The passing images of its witnesses
//! (specs/Witnesses.antt) pass the model's check.

use model::{BUDGET, Checked, ROOM};

/// As many rows, rows marked `rust` and passing images as there were when this was written: fewer would mean that
/// some are not read.
const ROWS: usize = 268;
const RUST_ROWS: usize = 151;
const PASSING: usize = 2;

#[derive(Debug, Clone, PartialEq)]
enum Token {
    Word(String),
    Text(Vec<u8>),
    Number(usize),
    /// `(`, `)`, `[`, `]`, `+` for `++`, `:` for the sign between a list's elements
    Sign(char),
}

/// The tokens of a definition's text, up to its first empty line. Comment lines are left out.
fn tokens(text: &str) -> Vec<Token> {
    let of_line = |line: &str| {
        let (mut found, mut rest) = (Vec::new(), line.trim_start());
        while !rest.is_empty() {
            let (token, after) = token(rest);
            found.push(token);
            rest = after.trim_start();
        }
        found
    };
    text.lines()
        .take_while(|line| !line.is_empty())
        .filter(|line| !line.trim_start().starts_with("--"))
        .flat_map(of_line)
        .collect()
}

fn token(text: &str) -> (Token, &str) {
    let first = text.chars().next().expect("a token");
    let in_word = |c: char| c.is_ascii_alphanumeric();
    if let Some(rest) = text.strip_prefix('"') {
        let end = rest.find('"').expect("a text has an end");
        let plain = rest[..end].replace("\\n", "\n");
        assert!(!plain.contains('\\'), "only \\n is known: {plain}");
        (Token::Text(plain.into_bytes()), &rest[end + 1..])
    } else if in_word(first) {
        let end = text.find(|c| !in_word(c)).unwrap_or(text.len());
        let word = &text[..end];
        let number = word.parse().map(Token::Number);
        let token = number.unwrap_or_else(|_| Token::Word(word.to_string()));
        (token, &text[end..])
    } else if let Some(rest) = text.strip_prefix("++") {
        (Token::Sign('+'), rest)
    } else if let Some(rest) = text.strip_prefix('∷') {
        (Token::Sign(':'), rest)
    } else {
        assert!("()[]".contains(first), "an unknown sign: {text}");
        (Token::Sign(first), &text[1..])
    }
}

/// Reads what the tables hold; anything else fails.
struct Reader(std::iter::Peekable<std::vec::IntoIter<Token>>);

impl Reader {
    /// At the definition of `name` in a file of the definition's specs.
    fn at(file: &str, name: &str) -> Reader {
        let folder = concat!(
            env!("CARGO_MANIFEST_DIR"),
            "/../../crates/definition/specs/"
        );
        let text = std::fs::read_to_string(format!("{folder}{file}")).expect("the definition");
        let begin = format!("\n{name} =\n");
        let at = text.find(&begin).expect("the table");
        let tokens = tokens(&text[at + begin.len()..]);
        Reader(tokens.into_iter().peekable())
    }

    fn next(&mut self) -> Token {
        self.0.next().expect("a token more")
    }

    fn take(&mut self, sign: char) {
        assert_eq!(self.next(), Token::Sign(sign));
    }

    fn number(&mut self) -> usize {
        match self.next() {
            Token::Number(n) => n,
            other => panic!("{other:?} is no number"),
        }
    }

    fn text(&mut self) -> Vec<u8> {
        match self.next() {
            Token::Text(text) => text,
            other => panic!("{other:?} is no text"),
        }
    }

    /// `bytes ++ bytes ++ ..`
    fn bytes(&mut self) -> Vec<u8> {
        let mut bytes = self.part();
        while self.0.next_if_eq(&Token::Sign('+')).is_some() {
            bytes.extend(self.part());
        }
        bytes
    }

    /// `ascii "text"`, `times n (bytes)`, `(bytes)`, or one byte as a list, `n ∷ []`
    fn part(&mut self) -> Vec<u8> {
        match self.next() {
            Token::Word(word) if word == "ascii" => self.text(),
            Token::Word(word) if word == "times" => {
                let times = self.number();
                self.part().repeat(times)
            }
            Token::Sign('(') => {
                let bytes = self.bytes();
                self.take(')');
                bytes
            }
            Token::Number(byte) => {
                self.take(':');
                self.take('[');
                self.take(']');
                vec![byte.try_into().expect("a byte")]
            }
            other => panic!("{other:?} begins no bytes"),
        }
    }

    /// The elements of the list, each read by `element`.
    fn list<T>(mut self, element: impl Fn(&mut Reader) -> T) -> Vec<T> {
        let mut found = Vec::new();
        while self.0.next_if_eq(&Token::Sign('[')).is_none() {
            found.push(element(&mut self));
            self.take(':');
        }
        self.take(']');
        assert_eq!(self.0.next(), None);
        found
    }
}

struct Row {
    rust: bool,
    image: Vec<u8>,
    budget: usize,
    room: usize,
    line: String,
}

/// `row source (image) budget room "line"`, or `load (image) "line"`
fn row(reader: &mut Reader) -> Row {
    let (rust, image, budget, room) = match reader.next() {
        Token::Word(word) if word == "row" => {
            let source = reader.next();
            let rust = source == Token::Word("rust".to_string());
            let document = ["document01", "document02"].map(|name| Token::Word(name.to_string()));
            assert!(rust || document.contains(&source));
            (rust, reader.part(), reader.number(), reader.number())
        }
        Token::Word(word) if word == "load" => (false, reader.part(), BUDGET as usize, ROOM),
        other => panic!("{other:?} begins no row"),
    };
    let text = String::from_utf8(reader.text()).expect("text");
    let line = text.strip_suffix('\n').expect("a line").to_string();
    Row {
        rust,
        image,
        budget,
        room,
        line,
    }
}

fn rows() -> Vec<Row> {
    let rows = Reader::at("Examples.antt", "table").list(row);
    assert!(rows.len() >= ROWS, "only {} rows are read", rows.len());
    rows
}

fn shown(image: &[u8]) -> String {
    String::from_utf8_lossy(&image[..image.len().min(2000)]).into_owned()
}

#[test]
fn the_rows_of_the_rust_are_its_answers() {
    let rust: Vec<Row> = rows().into_iter().filter(|row| row.rust).collect();
    assert!(
        rust.len() >= RUST_ROWS,
        "only {} are the Rust's",
        rust.len()
    );
    let images: Vec<Vec<u8>> = rust.iter().map(|row| row.image.clone()).collect();
    for (row, line) in rust.iter().zip(oracle::answers(&images)) {
        assert_eq!((row.budget as u64, row.room), (BUDGET, ROOM));
        assert_eq!(row.line, line, "{}", shown(&row.image));
    }
}

#[test]
fn all_rows_are_the_models_answers() {
    for row in rows() {
        let line = match model::load(&row.image) {
            Err(refusal) => refusal.to_string(),
            Ok(image) => model::run(&image, row.budget as u64, row.room).to_string(),
        };
        assert_eq!(row.line, line, "{}", shown(&row.image));
    }
}

#[test]
fn the_passing_images_pass() {
    let images = Reader::at("Witnesses.antt", "passing_images").list(Reader::bytes);
    assert!(images.len() >= PASSING, "only {} are read", images.len());
    for bytes in images {
        let image = model::load(&bytes).expect("it loads");
        assert_eq!(
            model::stack_check(&image),
            Checked::Pass,
            "{}",
            shown(&bytes)
        );
    }
}
