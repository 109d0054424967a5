//! Faults put in on purpose, each of a kind that the stack check does not rule out.

use super::Type;
use super::body::Body;
use crate::numbers::{NUMS, Num};
use image::Constant;

impl Body<'_> {
    /// One fault, then the height as before.
    pub fn fault(&mut self) {
        match self.rng().below(12) {
            0..=1 => self.wrong_kinds(),
            2 => self.wrong_single(),
            3 => self.wrong_container(),
            4 => self.out_of_range(),
            5 => self.zero_divisor(),
            6 => self.no_order(),
            7 => self.bad_index(),
            8 => self.bad_cast(),
            9 => self.wrong_arity(),
            10 => self.bad_start(),
            _ => self.undefined(),
        }
        self.op("Pop", &[]);
    }

    /// 39: two kinds that don't go together.
    fn wrong_kinds(&mut self) {
        let first = self.program.number_kind();
        self.expr(&Type::Num(first), 1);
        let second = match self.rng().one_in(2) {
            true => Type::Str,
            false => Type::Num(if first == Num::Int {
                Num::SInt
            } else {
                Num::Int
            }),
        };
        self.expr(&second, 1);
        let names = [
            "Add",
            "Sub",
            "Mul",
            "Div",
            "Less",
            "LessEq",
            "Greater",
            "GreaterEq",
        ];
        let name = *self.rng().pick(&names);
        self.op(name, &[]);
    }

    /// 39: one operand of a kind that is not served.
    fn wrong_single(&mut self) {
        match self.rng().below(3) {
            0 => {
                let ty = match self.rng().below(3) {
                    0 => Type::Num(Num::UInt),
                    1 => Type::Bool,
                    _ => Type::Str,
                };
                self.expr(&ty, 1);
                self.op("Negate", &[]);
            }
            1 => {
                self.expr(&Type::Num(Num::Int), 1);
                self.op("Not", &[]);
            }
            _ => {
                self.push(Constant::Null);
                self.expr(&Type::Num(Num::Byte), 1);
                self.op("JumpIfFalse", &[0]);
            }
        }
    }

    /// 39: no array, or an index of a kind that is not served.
    fn wrong_container(&mut self) {
        let pair = Type::Tuple(vec![Type::Bool, Type::Char]);
        match self.rng().below(4) {
            0 => {
                self.expr(&pair, 1);
                self.op("ArrLen", &[]);
            }
            1 => {
                self.expr(&pair, 1);
                self.push_number(Num::Int, 0);
                self.push(Constant::Null);
                self.op("ArrSet", &[]);
            }
            2 => {
                self.expr(&Type::Str, 1);
                self.push_number(Num::Int, 0);
                self.op("Index", &[]);
            }
            _ => {
                self.expr(&pair, 1);
                self.push_number(Num::SInt, 0);
                self.op("Index", &[]);
            }
        }
    }

    /// 37, where the kind has an end to pass.
    fn out_of_range(&mut self) {
        let whole = crate::numbers::WHOLE;
        let kind = *self.rng().pick(&whole);
        let low = kind.bits(if kind.is_signed() {
            1 << self.sign_bit(kind)
        } else {
            0
        });
        match self.rng().below(3) {
            0 => {
                self.push(low);
                self.push_number(kind, 1);
                self.op("Sub", &[]);
            }
            1 if kind.is_signed() => {
                self.push(low);
                // The published machine can't be asked for it (document 02, E5).
                if self.rng().aside_one_in(4) {
                    return self.op("Negate", &[]);
                }
                self.push(kind.of(-1));
                let name = *self.rng().pick(&["Div", "Mul"]);
                self.op(name, &[]);
            }
            _ => {
                let all = kind.bits(match kind.is_signed() {
                    true => (1 << self.sign_bit(kind)) - 1,
                    false => u64::MAX,
                });
                self.push(all);
                self.push_number(kind, 2);
                let name = *self.rng().pick(&["Add", "Mul"]);
                self.op(name, &[]);
            }
        }
    }

    fn sign_bit(&self, kind: Num) -> u32 {
        match kind {
            Num::Int => 63,
            Num::SInt => 31,
            Num::BSByte => 15,
            _ => 7,
        }
    }

    /// 38.
    fn zero_divisor(&mut self) {
        let kind = *self.rng().pick(&crate::numbers::WHOLE);
        self.expr(&Type::Num(kind), 1);
        self.push_number(kind, 0);
        self.op("Div", &[]);
    }

    /// 40.
    fn no_order(&mut self) {
        let nan = [
            Constant::Float(0x7FF8 << 48),
            Constant::SFloat(0x7FC0 << 16),
        ];
        let at = self.rng().below(2);
        let kind = [Num::Float, Num::SFloat][at];
        self.expr(&Type::Num(kind), 1);
        self.push(nan[at]);
        let names = ["Less", "LessEq", "Greater", "GreaterEq"];
        let name = *self.rng().pick(&names);
        self.op(name, &[]);
    }

    /// 41.
    fn bad_index(&mut self) {
        let length = self.rng().below(4);
        self.expr(&Type::Arr(Box::new(Type::Bool), length), 1);
        let index = match self.rng().below(3) {
            0 => Constant::Int(-1),
            1 => Constant::UInt(u64::MAX),
            _ => Constant::Byte(length as u8),
        };
        self.push(index);
        match self.rng().one_in(2) {
            true => self.op("Index", &[]),
            false => {
                self.push(Constant::Bool(true));
                self.op("ArrSet", &[]);
            }
        }
    }

    /// 42.
    fn bad_cast(&mut self) {
        match self.rng().below(3) {
            0 => self.push(Constant::Int(-1 << 40)),
            1 => self.expr(&Type::Str, 1),
            _ => self.push(Constant::Float(1e20f64.to_bits())),
        }
        let kind = *self.rng().pick(&NUMS[1..]);
        let target = match kind.is_float() {
            true => Num::SByte.target(),
            false => kind.target(),
        };
        self.op("Cast", &[target]);
    }

    /// 43 for a function, 39 where there is nothing to call.
    fn wrong_arity(&mut self) {
        let known = (self.own + 1..self.program.plans.len()).next_back();
        let constant = match known {
            Some(number) => Constant::Function(number as u16),
            None => Constant::Null,
        };
        match self.rng().one_in(2) {
            true => self.push(constant),
            false if known.is_some() => {
                let function = self.code.constant(constant);
                self.op("BuildClosure", &[function, 0]);
            }
            false => self.push(constant),
        }
        for _ in 0..5 {
            self.push(Constant::Bool(true));
        }
        self.op("Call", &[5]);
    }

    /// 44, where a scope is open.
    fn bad_start(&mut self) {
        let known = (self.own + 1..self.program.plans.len()).next_back();
        let start = self.locals.len() + self.rng().between(1, 3);
        match known {
            Some(number) => {
                let function = self.code.constant(Constant::Function(number as u16));
                self.op("BuildClosure", &[function, start as u16]);
            }
            None => self.push(Constant::Null),
        }
    }

    /// 35.
    fn undefined(&mut self) {
        let slot = self.rng().between(200, 300) as u16;
        match self.rng().one_in(2) {
            true => self.op("GetGlobal", &[slot]),
            false => {
                self.push(Constant::Null);
                self.op("SetGlobal", &[slot]);
            }
        }
    }
}
