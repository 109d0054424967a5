//! Numbers: arithmetic, negation, ordered comparison, casts. A whole number is its value with its
//! kind, so that every integer width has the same rules.

use std::cmp::Ordering;

/// The eight kinds of whole numbers.
#[derive(Debug, Clone, Copy, PartialEq, Eq)]
pub enum Whole {
    Int,
    UInt,
    SInt,
    SUInt,
    Byte,
    SByte,
    BByte,
    BSByte,
}

#[derive(Debug, Clone, Copy)]
pub enum Number {
    Whole(Whole, i128),
    Float(f64),
    SFloat(f32),
}

/// The faults of number operations, by document 01's numbers.
pub const OVERFLOW: u8 = 37;
pub const ZERO_DIVISOR: u8 = 38;
pub const NOT_SERVED: u8 = 39;
pub const NO_ORDER: u8 = 40;
pub const NO_CAST: u8 = 42;

#[derive(Debug, Clone, Copy, PartialEq, Eq)]
pub enum Arithmetic {
    Add,
    Sub,
    Mul,
    Div,
}

impl Whole {
    /// The kind's code, the number of bits, and whether it is signed.
    fn shape(self) -> (u8, u32, bool) {
        match self {
            Whole::Int => (1, 64, true),
            Whole::UInt => (2, 64, false),
            Whole::SInt => (3, 32, true),
            Whole::SUInt => (4, 32, false),
            Whole::Byte => (10, 8, false),
            Whole::SByte => (11, 8, true),
            Whole::BByte => (12, 16, false),
            Whole::BSByte => (13, 16, true),
        }
    }

    pub fn code(self) -> u8 {
        self.shape().0
    }

    pub fn bits(self) -> u32 {
        self.shape().1
    }

    fn least(self) -> i128 {
        match self.shape() {
            (_, bits, true) => -(1 << (bits - 1)),
            _ => 0,
        }
    }

    fn greatest(self) -> i128 {
        match self.shape() {
            (_, bits, true) => (1 << (bits - 1)) - 1,
            (_, bits, false) => (1 << bits) - 1,
        }
    }

    fn holds(self, n: i128) -> bool {
        self.least() <= n && n <= self.greatest()
    }

    /// The number of this kind, or 37 outside its range.
    fn checked(self, n: i128) -> Result<Number, u8> {
        let number = Number::Whole(self, n);
        self.holds(n).then_some(number).ok_or(OVERFLOW)
    }
}

impl Number {
    pub fn kind(self) -> u8 {
        match self {
            Number::Whole(kind, _) => kind.code(),
            Number::Float(_) => 5,
            Number::SFloat(_) => 6,
        }
    }

    /// Same kind and equal content, floats by IEEE 754.
    pub fn equals(self, other: Number) -> bool {
        match (self, other) {
            (Number::Whole(j, a), Number::Whole(k, b)) => j == k && a == b,
            (Number::Float(a), Number::Float(b)) => a == b,
            (Number::SFloat(a), Number::SFloat(b)) => a == b,
            _ => false,
        }
    }

    /// The least number of a kind with a sign.
    pub fn is_least(self) -> bool {
        matches!(self, Number::Whole(kind, n) if n == kind.least() && n < 0)
    }

    /// The least of a kind has no negative there: 37 (document 02, E5).
    pub fn negate(self) -> Result<Number, u8> {
        match self {
            Number::Whole(kind, _) if kind.least() == 0 => Err(NOT_SERVED),
            Number::Whole(kind, n) => kind.checked(-n),
            Number::Float(f) => Ok(Number::Float(-f)),
            Number::SFloat(f) => Ok(Number::SFloat(-f)),
        }
    }

    /// The order of two of the same kind; a NaN has none.
    pub fn order(self, other: Number) -> Result<Ordering, u8> {
        match (self, other) {
            (Number::Whole(j, a), Number::Whole(k, b)) if j == k => Ok(a.cmp(&b)),
            (Number::Float(a), Number::Float(b)) => a.partial_cmp(&b).ok_or(NO_ORDER),
            (Number::SFloat(a), Number::SFloat(b)) => a.partial_cmp(&b).ok_or(NO_ORDER),
            _ => Err(NOT_SERVED),
        }
    }

    /// The payload of a constant or a result, high byte first; a NaN in the one way.
    pub fn payload(self) -> Vec<u8> {
        match self {
            Number::Whole(kind, n) => {
                let bytes = n.to_be_bytes();
                bytes[16 - kind.bits() as usize / 8..].to_vec()
            }
            Number::Float(f) if f.is_nan() => 0x7FF8_0000_0000_0000_u64.to_be_bytes().to_vec(),
            Number::Float(f) => f.to_bits().to_be_bytes().to_vec(),
            Number::SFloat(f) if f.is_nan() => 0x7FC0_0000_u32.to_be_bytes().to_vec(),
            Number::SFloat(f) => f.to_bits().to_be_bytes().to_vec(),
        }
    }
}

/// Add, Sub, Mul or Div of two of the same kind.
pub fn arithmetic(what: Arithmetic, a: Number, b: Number) -> Result<Number, u8> {
    match (a, b) {
        (Number::Whole(j, a), Number::Whole(k, b)) if j == k => whole_arithmetic(what, j, a, b),
        (Number::Float(a), Number::Float(b)) => Ok(Number::Float(match what {
            Arithmetic::Add => a + b,
            Arithmetic::Sub => a - b,
            Arithmetic::Mul => a * b,
            Arithmetic::Div => a / b,
        })),
        (Number::SFloat(a), Number::SFloat(b)) => Ok(Number::SFloat(match what {
            Arithmetic::Add => a + b,
            Arithmetic::Sub => a - b,
            Arithmetic::Mul => a * b,
            Arithmetic::Div => a / b,
        })),
        _ => Err(NOT_SERVED),
    }
}

fn whole_arithmetic(what: Arithmetic, kind: Whole, a: i128, b: i128) -> Result<Number, u8> {
    // Two of 64 bits may have a product of 128, which is then outside every kind's range.
    let exact = match what {
        Arithmetic::Add => Some(a + b),
        Arithmetic::Sub => Some(a - b),
        Arithmetic::Mul => a.checked_mul(b),
        Arithmetic::Div if b == 0 => return Err(ZERO_DIVISOR),
        Arithmetic::Div => Some(a / b),
    };
    kind.checked(exact.ok_or(OVERFLOW)?)
}

/// The target of a cast, by the cast's number.
#[derive(Debug, Clone, Copy, PartialEq, Eq)]
pub enum Target {
    Whole(Whole),
    Float,
    SFloat,
}

pub const TARGETS: [Target; 10] = [
    Target::Whole(Whole::Int),
    Target::Float,
    Target::Whole(Whole::UInt),
    Target::SFloat,
    Target::Whole(Whole::SUInt),
    Target::Whole(Whole::SInt),
    Target::Whole(Whole::BByte),
    Target::Whole(Whole::BSByte),
    Target::Whole(Whole::Byte),
    Target::Whole(Whole::SByte),
];

/// A cast from any of the ten kinds, UInt among them (document 02, E1).
pub fn cast(number: Number, target: Target) -> Result<Number, u8> {
    match target {
        Target::Float => Ok(Number::Float(nearest_f64(number))),
        Target::SFloat => Ok(Number::SFloat(nearest_f64(number) as f32)),
        Target::Whole(Whole::Int) => {
            let low = whole(number) as u128 & u64::MAX as u128;
            Ok(Number::Whole(Whole::Int, low as u64 as i64 as i128))
        }
        Target::Whole(kind) => {
            let n = whole(number);
            let fits = kind.holds(n).then_some(n).ok_or(NO_CAST)?;
            Ok(Number::Whole(kind, fits))
        }
    }
}

fn nearest_f64(number: Number) -> f64 {
    match number {
        Number::Whole(_, n) => n as f64,
        Number::Float(f) => f,
        Number::SFloat(f) => f as f64,
    }
}

/// The whole number that a number becomes: a float truncated, held to 128 bits.
fn whole(number: Number) -> i128 {
    match number {
        Number::Whole(_, n) => n,
        Number::Float(f) => truncated(f),
        Number::SFloat(f) => truncated(f as f64),
    }
}

/// A float truncated, from its bits: NaN as 0, held to -2^127 .. 2^127 - 1.
fn truncated(f: f64) -> i128 {
    let bits = f.to_bits();
    let negative = bits >> 63 == 1;
    let exponent = (bits >> 52 & 0x7FF) as i32;
    if f.is_nan() || exponent < 1023 {
        return 0;
    }
    // The value is the significand times two to the power of the shift.
    let significand = (bits & 0xF_FFFF_FFFF_FFFF | 1 << 52) as i128;
    let shift = exponent - 1075;
    let magnitude = match shift {
        ..0 => significand >> -shift,
        0..=74 => significand << shift,
        _ if negative => return i128::MIN,
        _ => return i128::MAX,
    };
    if negative { -magnitude } else { magnitude }
}
