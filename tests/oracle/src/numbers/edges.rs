//! The edge values of each kind of number.

use super::Operand;

/// The width in bits and whether it is signed, of the eight kinds of whole numbers.
fn shape(kind: u8) -> (u32, bool) {
    match kind {
        1 => (64, true),
        2 => (64, false),
        3 => (32, true),
        4 => (32, false),
        10 => (8, false),
        11 => (8, true),
        12 => (16, false),
        13 => (16, true),
        other => panic!("{other} is no kind of whole number"),
    }
}

fn range(kind: u8) -> (i128, i128) {
    match shape(kind) {
        (bits, true) => (-(1 << (bits - 1)), (1 << (bits - 1)) - 1),
        (bits, false) => (0, (1 << bits) - 1),
    }
}

/// Those of the values that the kind has, as operands.
fn whole(kind: u8, values: &[i128]) -> Vec<Operand> {
    let (least, greatest) = range(kind);
    let mask = u64::MAX >> (64 - shape(kind).0);
    let mut kept: Vec<i128> = values.to_vec();
    kept.retain(|n| least <= *n && *n <= greatest);
    kept.sort();
    kept.dedup();
    let operand = |n: &i128| Operand {
        kind,
        word: *n as u64 & mask,
    };
    kept.iter().map(operand).collect()
}

fn floats(values: &[f64]) -> Vec<Operand> {
    let operand = |f: &f64| Operand {
        kind: 5,
        word: f.to_bits(),
    };
    values.iter().map(operand).collect()
}

fn small_floats(values: &[f32]) -> Vec<Operand> {
    let operand = |f: &f32| Operand {
        kind: 6,
        word: f.to_bits() as u64,
    };
    values.iter().map(operand).collect()
}

/// NaNs of both signs, quiet and signalling.
const NANS: [u64; 4] = [
    0x7FF8_0000_0000_0000,
    0xFFF8_0000_0000_0001,
    0x7FF0_0000_0000_0001,
    0xFFF7_FFFF_FFFF_FFFF,
];
const SMALL_NANS: [u32; 4] = [0x7FC0_0000, 0xFFC0_0001, 0x7F80_0001, 0xFFBF_FFFF];

fn two_to(power: i32) -> f64 {
    2_f64.powi(power)
}

/// For Add, Sub, Mul, Div and Negate: every pair of these is tried.
pub fn arithmetic(kind: u8) -> Vec<Operand> {
    match kind {
        5 => {
            let mut values = vec![0.0, -0.0, 1.0, -3.0, 0.1, two_to(53), f64::MAX];
            values.extend([f64::MIN_POSITIVE, -f64::from_bits(1)]);
            values.extend([f64::INFINITY, f64::NEG_INFINITY, f64::from_bits(NANS[3])]);
            floats(&values)
        }
        6 => {
            let mut values = vec![0.0, -0.0, 1.0, -3.0, 0.1, 16777216.0, f32::MAX];
            values.extend([f32::MIN_POSITIVE, -f32::from_bits(1)]);
            values.extend([f32::INFINITY, f32::NEG_INFINITY]);
            values.push(f32::from_bits(SMALL_NANS[2]));
            small_floats(&values)
        }
        _ => {
            let (least, greatest) = range(kind);
            let half = 1 << (shape(kind).0 / 2);
            let mut values = vec![least, -half, -1, 0, 1, half - 1, half, greatest];
            if shape(kind).0 == 64 {
                values.extend([least + 1, 1 << 31, (1 << 53) + 1, 1 << 63, greatest - 1]);
            }
            whole(kind, &values)
        }
    }
}

/// For the four ordered comparisons: every pair of these is tried.
pub fn comparison(kind: u8) -> Vec<Operand> {
    match kind {
        5 => floats(&[
            -1.0,
            -0.0,
            0.0,
            f64::from_bits(1),
            f64::INFINITY,
            f64::from_bits(NANS[1]),
        ]),
        6 => small_floats(&[
            -1.0,
            -0.0,
            0.0,
            f32::from_bits(1),
            f32::INFINITY,
            f32::from_bits(SMALL_NANS[1]),
        ]),
        _ => {
            let (least, greatest) = range(kind);
            whole(kind, &[least, -1, 0, 1, greatest])
        }
    }
}

/// For casts: each of these goes to every target.
pub fn casts(kind: u8) -> Vec<Operand> {
    match kind {
        5 => cast_floats(),
        6 => cast_small_floats(),
        _ => {
            let mut values = vec![-1, 0, 1, 1 << 24 | 1, 1 << 53 | 1, (1 << 53) + 3];
            // A value whose two roundings to SFloat differ from one, and its neighbours.
            let twice = 1_152_921_573_326_323_713;
            values.extend([twice - 1, twice, twice + 1, -twice]);
            // The least such value, one that is no Int, and the tie below 2^64, with neighbours.
            let (least, over) = (1 << 53 | 1 << 29 | 1, 1 << 63 | 1 << 39 | 1);
            values.extend([least - 1, least, over - 1, over, over + 1024]);
            values.extend([(1 << 64) - 1025, (1 << 64) - 1024]);
            for target in [1, 2, 3, 4, 10, 11, 12, 13] {
                let (least, greatest) = range(target);
                values.extend([least - 1, least, greatest, greatest + 1]);
            }
            whole(kind, &values)
        }
    }
}

/// The ends of every target's range with what lies half a unit and one unit outside.
fn ends() -> Vec<f64> {
    let mut values = vec![];
    for target in [3, 4, 10, 11, 12, 13] {
        let (least, greatest) = range(target);
        let (least, greatest) = (least as f64, greatest as f64);
        values.extend([least - 1.0, least - 0.5, greatest + 0.5, greatest + 1.0]);
    }
    values
}

fn cast_floats() -> Vec<Operand> {
    let mut values = ends();
    values.extend([0.0, -0.0, 0.5, -0.5, 1.0, -1.0, 2.5, 1e19, 1e300, -1e300]);
    for power in [63, 64, 127] {
        let end = two_to(power);
        values.extend([end, end.next_down(), -end, (-end).next_down()]);
    }
    values.extend([two_to(80) + two_to(40), -two_to(64) - two_to(12)]);
    // To SFloat: ties to both sides, next to a tie, the ends of the subnormal and normal ranges.
    let tie = 1.0 + two_to(-24);
    values.extend([tie, tie.next_up(), 1.0 + 3.0 * two_to(-24)]);
    values.extend([
        two_to(-149),
        two_to(-150),
        two_to(-150).next_up(),
        3.0 * two_to(-150),
    ]);
    values.extend([
        f32::MIN_POSITIVE as f64 - two_to(-150),
        f64::MIN_POSITIVE,
        f64::from_bits(1),
    ]);
    let over = two_to(128) - two_to(103);
    values.extend([
        over,
        over.next_down(),
        -over,
        f64::MAX,
        f64::INFINITY,
        f64::NEG_INFINITY,
    ]);
    values.extend(NANS.map(f64::from_bits));
    floats(&values)
}

fn cast_small_floats() -> Vec<Operand> {
    let mut values: Vec<f32> = ends().into_iter().map(|f| f as f32).collect();
    values.extend([0.0, -0.0, 0.5, -0.5, 1.0, -1.0, 0.1, 2.5]);
    for power in [31, 32, 63, 64, 127] {
        let end = two_to(power) as f32;
        values.extend([end, end.next_down(), -end, (-end).next_down()]);
    }
    values.extend([f32::from_bits(1), f32::MIN_POSITIVE, f32::MAX, f32::MIN]);
    values.extend([f32::INFINITY, f32::NEG_INFINITY]);
    values.extend(SMALL_NANS.map(f32::from_bits));
    small_floats(&values)
}
