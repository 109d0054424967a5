//! The ten number kinds: their edge values and their small ones.

use crate::rng::Rng;
use image::Constant;

#[derive(Debug, Clone, Copy, PartialEq, Eq)]
pub enum Num {
    Int,
    UInt,
    SInt,
    SUInt,
    Float,
    SFloat,
    Byte,
    SByte,
    BByte,
    BSByte,
}

use Num::*;

pub const NUMS: [Num; 10] = [
    Int, UInt, SInt, SUInt, Float, SFloat, Byte, SByte, BByte, BSByte,
];

pub const WHOLE: [Num; 8] = [Int, UInt, SInt, SUInt, Byte, SByte, BByte, BSByte];

impl Num {
    /// The kind's code.
    pub fn kind(self) -> u16 {
        match self {
            Int => 1,
            UInt => 2,
            SInt => 3,
            SUInt => 4,
            Float => 5,
            SFloat => 6,
            Byte => 10,
            SByte => 11,
            BByte => 12,
            BSByte => 13,
        }
    }

    /// The target of a Cast to this kind.
    pub fn target(self) -> u16 {
        match self {
            Int => 0,
            Float => 1,
            UInt => 2,
            SFloat => 3,
            SUInt => 4,
            SInt => 5,
            BByte => 6,
            BSByte => 7,
            Byte => 8,
            SByte => 9,
        }
    }

    pub fn is_float(self) -> bool {
        matches!(self, Float | SFloat)
    }

    /// Whether Negate serves it.
    pub fn is_signed(self) -> bool {
        !matches!(self, UInt | SUInt | Byte | BByte)
    }

    /// This kind's constant of a small whole number, held to the kind's range.
    pub fn of(self, n: i64) -> Constant {
        match self {
            Int => Constant::Int(n),
            UInt => Constant::UInt(n.max(0) as u64),
            SInt => Constant::SInt(n.clamp(i32::MIN as i64, i32::MAX as i64) as i32),
            SUInt => Constant::SUInt(n.clamp(0, u32::MAX as i64) as u32),
            Float => Constant::Float((n as f64).to_bits()),
            SFloat => Constant::SFloat((n as f32).to_bits()),
            Byte => Constant::Byte(n.clamp(0, 255) as u8),
            SByte => Constant::SByte(n.clamp(-128, 127) as i8),
            BByte => Constant::BByte(n.clamp(0, 65_535) as u16),
            BSByte => Constant::BSByte(n.clamp(-32_768, 32_767) as i16),
        }
    }

    /// A number that most sums and products leave in range.
    pub fn small(self, rng: &mut Rng) -> Constant {
        match self {
            Float if rng.one_in(2) => {
                Constant::Float((rng.between(0, 4000) as f64 / 16.0 - 50.0).to_bits())
            }
            SFloat if rng.one_in(2) => {
                Constant::SFloat((rng.between(0, 4000) as f32 / 16.0 - 50.0).to_bits())
            }
            SByte | Byte => self.of(rng.between(0, 3) as i64),
            kind if kind.is_signed() && rng.one_in(3) => kind.of(-(rng.between(0, 7) as i64)),
            kind => kind.of(rng.between(0, 9) as i64),
        }
    }

    /// One of the kind's edge values, or random bits.
    pub fn edge(self, rng: &mut Rng) -> Constant {
        let edges = self.edges();
        if rng.one_in(5) {
            return self.bits(rng.draw());
        }
        *rng.pick(&edges)
    }

    /// The constant whose payload is the low bits.
    pub fn bits(self, bits: u64) -> Constant {
        match self {
            Int => Constant::Int(bits as i64),
            UInt => Constant::UInt(bits),
            SInt => Constant::SInt(bits as i32),
            SUInt => Constant::SUInt(bits as u32),
            Float => Constant::Float(bits),
            SFloat => Constant::SFloat(bits as u32),
            Byte => Constant::Byte(bits as u8),
            SByte => Constant::SByte(bits as i8),
            BByte => Constant::BByte(bits as u16),
            BSByte => Constant::BSByte(bits as i16),
        }
    }

    /// The values at which an operation or a cast could change its answer.
    pub fn edges(self) -> Vec<Constant> {
        match self {
            Float => float_edges(),
            SFloat => sfloat_edges(),
            _ => self.those_of(&whole_edges()),
        }
    }

    /// The values at which a cast could change its answer.
    pub fn cast_edges(self) -> Vec<Constant> {
        let mut edges = self.edges();
        edges.extend(self.those_of(&rounded_twice()));
        edges
    }

    /// Those of the numbers that the kind has, none for a float's.
    fn those_of(self, numbers: &[i128]) -> Vec<Constant> {
        let (low, high) = match self {
            Int => (i64::MIN as i128, i64::MAX as i128),
            UInt => (0, u64::MAX as i128),
            SInt => (i32::MIN as i128, i32::MAX as i128),
            SUInt => (0, u32::MAX as i128),
            Byte => (0, 255),
            SByte => (-128, 127),
            BByte => (0, 65_535),
            BSByte => (-32_768, 32_767),
            Float | SFloat => return vec![],
        };
        let fit = numbers.iter().filter(|n| (low..=high).contains(n));
        fit.map(|&n| self.bits(n as u64)).collect()
    }
}

/// Numbers that two roundings to SFloat take elsewhere than one, with neighbours: the least of them,
/// and one that is no Int. And the tie below 2^64 in Float, with the number before it.
fn rounded_twice() -> [i128; 8] {
    let (least, over) = (1 << 53 | 1 << 29 | 1, 1 << 63 | 1 << 39 | 1);
    let tie = (1 << 64) - 1024;
    let above = over + 1024;
    [
        least - 1,
        least,
        over - 1,
        over,
        above - 1,
        above,
        tie - 1,
        tie,
    ]
}

/// Each power of two that bounds a kind or a float's whole numbers, and its neighbours.
fn whole_edges() -> Vec<i128> {
    let mut numbers = vec![0, 1, -1, 2, -2, 10, 100, 1152921573326323713];
    for power in [7, 8, 15, 16, 23, 24, 25, 31, 32, 52, 53, 54, 62, 63, 64] {
        let bound = 1i128 << power;
        for n in [bound - 1, bound, bound + 1] {
            numbers.push(n);
            numbers.push(-n);
        }
    }
    numbers
}

fn float_edges() -> Vec<Constant> {
    let mut bits = vec![
        0x0000000000000000, // 0
        0x8000000000000000, // -0
        0x0000000000000001, // the least subnormal
        0x8000000000000001,
        0x000FFFFFFFFFFFFF, // the greatest subnormal
        0x0010000000000000, // the least normal
        0x7FEFFFFFFFFFFFFF, // the greatest
        0xFFEFFFFFFFFFFFFF,
        0x7FF0000000000000, // infinity
        0xFFF0000000000000,
        0x7FF8000000000000, // NaN
        0xFFF8000000000000,
        0x7FF0000000000001, // a signalling NaN
        0x36A0000000000000, // half the least f32 subnormal: a tie
        0x36A0000000000001,
        0x380FFFFFE0000000, // ties at the least normal f32
        0x47EFFFFFEFFFFFFF, // below, at the bound where f32 overflows
        0x47EFFFFFF0000000,
        0x3FF0000010000000, // a tie between two f32
        0x3FF0000030000000,
        0x43E158E460913D00, // 10^19
    ];
    let around = [0.5, 1.0, 1.5, 2.5, 0.1, 1e300, 1e-300, 3.0];
    for x in around {
        bits.push(f64::to_bits(x));
        bits.push(f64::to_bits(-x));
    }
    for power in [7, 8, 15, 16, 31, 32, 63, 64, 126, 127, 128] {
        let bound = f64::from_bits((1023 + power) << 52);
        for x in [bound, bound - 1.0, bound - 0.5, bound + 0.5] {
            bits.push(x.to_bits());
            bits.push((-x).to_bits());
        }
        bits.push(bound.to_bits() - 1);
        bits.push((-bound).to_bits() + 1);
    }
    bits.into_iter().map(Constant::Float).collect()
}

fn sfloat_edges() -> Vec<Constant> {
    let mut bits = vec![
        0x00000000, 0x80000000, 0x00000001, 0x80000001, 0x007FFFFF, 0x00800000, 0x7F7FFFFF,
        0xFF7FFFFF, 0x7F800000, 0xFF800000, 0x7FC00000, 0xFFC00000, 0x7F800001,
    ];
    for x in [0.5f32, 1.0, 1.5, 2.5, 0.1, 1e30, 1e-40, 3.0] {
        bits.push(x.to_bits());
        bits.push((-x).to_bits());
    }
    for power in [7, 8, 15, 16, 31, 32, 63, 64, 126, 127] {
        let bound = f32::from_bits((127 + power) << 23);
        for x in [bound, bound - 1.0, bound - 0.5] {
            bits.push(x.to_bits());
            bits.push((-x).to_bits());
        }
        bits.push(bound.to_bits() - 1);
        bits.push((-bound).to_bits() + 1);
    }
    bits.into_iter().map(Constant::SFloat).collect()
}
