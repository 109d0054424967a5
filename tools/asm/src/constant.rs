//! Numbers and the payloads of constants, from text and to text.

use crate::Error;
use crate::token::Token;
use image::Constant;

/// A whole number, decimal or `0x` hexadecimal, with `_` between digits at will.
pub fn whole(word: &str) -> Option<i128> {
    let (negative, digits) = match word.strip_prefix('-') {
        Some(digits) => (true, digits),
        None => (false, word),
    };
    if !digits.starts_with(|c: char| c.is_ascii_digit()) {
        return None;
    }
    let plain = digits.replace('_', "");
    let number = match plain.strip_prefix("0x") {
        Some(hex) if !hex.starts_with('+') => i128::from_str_radix(hex, 16).ok()?,
        Some(_) => return None,
        None => plain.parse::<i128>().ok()?,
    };
    Some(if negative { -number } else { number })
}

/// A whole number that fits its type, or a message that names the range.
pub fn fitting<T>(token: &Token, what: &str, line: usize) -> Result<T, Error>
where
    T: TryFrom<i128> + Bounds,
{
    let Token::Word(word) = token else {
        let message = format!("{what} is a whole number, not {}", token.shown());
        return Err(Error::new(line, message));
    };
    let number =
        whole(word).ok_or_else(|| Error::new(line, format!("{what}: `{word}` is no number")))?;
    T::try_from(number).map_err(|_| {
        let range = T::RANGE;
        Error::new(line, format!("{what}: {number} is outside {range}"))
    })
}

/// The range of an integer type, for messages.
pub trait Bounds {
    const RANGE: &'static str;
}

macro_rules! bounds {
    ($($kind:ty: $range:literal,)*) => {
        $(impl Bounds for $kind { const RANGE: &'static str = $range; })*
    };
}

bounds! {
    i64: "-2^63 .. 2^63 - 1",
    u64: "0 .. 2^64 - 1",
    i32: "-2^31 .. 2^31 - 1",
    u32: "0 .. 2^32 - 1",
    i16: "-32768 .. 32767",
    u16: "0 .. 65535",
    i8: "-128 .. 127",
    u8: "0 .. 255",
}

/// `0`..`9`, `A`..`F`, `a`..`f` only, as many digits as the width has.
fn bits(word: &str, digits: usize) -> Option<u64> {
    let fits = word.len() == digits && word.bytes().all(|b| b.is_ascii_hexdigit());
    fits.then(|| u64::from_str_radix(word, 16).ok())?
}

/// What Rust reads as a float and a person would: no `infinity`, no `+`.
fn is_decimal(word: &str) -> bool {
    let digits = word.strip_prefix('-').unwrap_or(word);
    digits == "inf" || word == "nan" || digits.starts_with(|c: char| c.is_ascii_digit())
}

fn float_bits(
    words: &[Token],
    digits: usize,
    line: usize,
    parse: fn(&str) -> Option<u64>,
) -> Result<u64, Error> {
    // All exponent bits set: 11 of them, or 8.
    let infinity = if digits == 16 {
        0x7FF << 52
    } else {
        0xFF << 23
    };
    let wrong = |what: String| {
        let help = format!(
            "write a decimal number, `inf`, `-inf`, `nan` or `bits` and {digits} hexadecimal digits"
        );
        Err(Error::new(line, format!("{what}: {help}")))
    };
    match words {
        [Token::Word(first), Token::Word(hex)] if first == "bits" => {
            bits(hex, digits).map_or_else(|| wrong(format!("`bits {hex}`")), Ok)
        }
        [Token::Word(word)] if is_decimal(word) => match parse(word) {
            Some(bits) if bits & !(1 << (4 * digits - 1)) == infinity && !word.ends_with("inf") => {
                wrong(format!("`{word}` is beyond the greatest float"))
            }
            Some(bits) => Ok(bits),
            None => wrong(format!("`{word}` is no float")),
        },
        [other, ..] => wrong(format!("{} is no float", other.shown())),
        [] => wrong("no float given".to_string()),
    }
}

pub fn float(words: &[Token], line: usize) -> Result<Constant, Error> {
    let parse = |word: &str| word.parse::<f64>().ok().map(f64::to_bits);
    Ok(Constant::Float(float_bits(words, 16, line, parse)?))
}

pub fn sfloat(words: &[Token], line: usize) -> Result<Constant, Error> {
    let parse = |word: &str| word.parse::<f32>().ok().map(|x| x.to_bits() as u64);
    Ok(Constant::SFloat(float_bits(words, 8, line, parse)? as u32))
}

pub fn character(token: &Token, line: usize) -> Result<Constant, Error> {
    let scalar = match token {
        Token::Char(scalar) => Some(*scalar),
        Token::Word(word) => word
            .strip_prefix("U+")
            .filter(|hex| hex.bytes().all(|b| b.is_ascii_hexdigit()))
            .and_then(|hex| u32::from_str_radix(hex, 16).ok()),
        _ => None,
    };
    let scalar = scalar.filter(|&scalar| char::from_u32(scalar).is_some());
    scalar.map(Constant::Char).ok_or_else(|| {
        let shown = token.shown();
        let help = "write 'a' or U+ and a Unicode scalar in hexadecimal";
        Error::new(line, format!("{shown} is no character: {help}"))
    })
}

pub fn boolean(token: &Token, line: usize) -> Result<Constant, Error> {
    match token {
        Token::Word(word) if word == "true" => Ok(Constant::Bool(true)),
        Token::Word(word) if word == "false" => Ok(Constant::Bool(false)),
        other => {
            let message = format!("a Bool is `true` or `false`, not {}", other.shown());
            Err(Error::new(line, message))
        }
    }
}

/// A Float in decimal where that gives its bits again, else as bits.
pub fn shown_float(bits: u64) -> String {
    let decimal = match f64::from_bits(bits) {
        x if x.is_nan() => "nan".to_string(),
        x => format!("{x:?}"),
    };
    match decimal.parse::<f64>() {
        Ok(x) if x.to_bits() == bits => decimal,
        _ => format!("bits {bits:016X}"),
    }
}

/// As `shown_float`, for an SFloat.
pub fn shown_sfloat(bits: u32) -> String {
    let decimal = match f32::from_bits(bits) {
        x if x.is_nan() => "nan".to_string(),
        x => format!("{x:?}"),
    };
    match decimal.parse::<f32>() {
        Ok(x) if x.to_bits() == bits => decimal,
        _ => format!("bits {bits:08X}"),
    }
}

pub fn shown_char(scalar: u32) -> String {
    match char::from_u32(scalar) {
        Some(c @ ('\'' | '\\')) => format!("'\\{c}'"),
        Some(c @ ' '..='~') => format!("'{c}'"),
        _ => format!("U+{scalar:04X}"),
    }
}
