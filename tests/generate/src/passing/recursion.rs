//! Functions that call themselves: a Function constant names a later chunk only, so the caller hands
//! the function to itself.

use super::body::Body;
use super::{Plan, Type};
use crate::numbers::Num;
use image::Constant;

impl Body<'_> {
    /// A call of a new or known function that calls itself some levels deep.
    pub fn recurse(&mut self) {
        let known =
            (self.own + 1..self.program.plans.len()).find(|&n| self.program.plans[n].recursion);
        let number = match known {
            Some(number) => number,
            None => match self.new_recursion() {
                Some(number) => number,
                None => return self.define(),
            },
        };
        let deepest = (self.left / self.times / 14).clamp(0, 40) as usize;
        let depth = self.rng().between(0, deepest);
        self.left -= self.times * 14 * depth as i64;
        self.push(Constant::Function(number as u16));
        self.push(Constant::Function(number as u16));
        self.push_number(Num::Int, depth);
        self.op("Call", &[2]);
        let result = self.program.plans[number].result.clone();
        self.take(result);
    }

    fn new_recursion(&mut self) -> Option<usize> {
        if self.left / self.times < 60 || self.program.plans.len() >= self.program.style.chunks {
            return None;
        }
        let result = match self.rng().below(3) {
            0 => Type::Num(Num::Int),
            1 => Type::Result(Box::new(Type::Num(Num::Int))),
            _ => Type::Any,
        };
        self.program.plans.push(Plan {
            params: vec![Type::Any, Type::Num(Num::Int)],
            closure: None,
            result,
            // Only `recurse` calls it, so no other body is to find it affordable.
            cost: i64::MAX / 1_000_000,
            globals: 0,
            recursion: true,
        });
        Some(self.program.plans.len() - 1)
    }

    /// `f(f, n)`: a result at 0, else something made of `f(f, n - 1)`.
    pub fn recursion(&mut self) {
        let result = self.plan.result.clone();
        self.op("GetLocal", &[1]);
        self.push(Constant::Int(0));
        self.op("LessEq", &[]);
        let deeper = self.jump("JumpIfFalse");
        self.bottom(&result);
        self.op("Return", &[]);
        self.code.height -= 1;
        self.code.land(deeper);
        self.op("GetLocal", &[0]);
        self.op("GetLocal", &[0]);
        self.op("GetLocal", &[1]);
        self.push(Constant::Int(1));
        self.op("Sub", &[]);
        self.op("Call", &[2]);
        match result {
            Type::Num(_) => self.summed(),
            Type::Result(_) => {
                self.op("Propagate", &[]);
                self.summed();
                self.op("Ok", &[]);
            }
            _ => {
                let name = *self.rng().pick(&["Ok", "Err", "Error"]);
                match self.rng().one_in(2) {
                    true => self.op(name, &[]),
                    false => {
                        self.op("GetLocal", &[1]);
                        self.op("BuildTuple", &[2]);
                    }
                }
            }
        }
        self.op("Return", &[]);
    }

    /// What the deepest call gives: here an Err begins its way through all the frames.
    fn bottom(&mut self, result: &Type) {
        match result {
            Type::Result(_) if self.rng().one_in(2) => {
                self.push_number(Num::Int, 7);
                self.op("Err", &[]);
            }
            Type::Result(_) => {
                self.push_number(Num::Int, 1);
                self.op("Ok", &[]);
            }
            Type::Num(_) => self.push_number(Num::Int, 1),
            _ => {
                let constant = self.program.number(Num::Float);
                self.push(constant);
            }
        }
    }

    fn summed(&mut self) {
        let name = *self.rng().pick(&["Add", "Add", "Sub", "Mul"]);
        match name {
            "Mul" => self.push_number(Num::Int, 2),
            _ => self.op("GetLocal", &[1]),
        }
        self.op(name, &[]);
    }
}
