//! Code that leaves one value of a wanted type.

use super::body::Body;
use super::{Plan, Type};
use crate::numbers::Num;
use image::Constant;

/// Whether a variable of type `found` can stand where `wanted` is asked for.
fn serves(found: &Type, wanted: &Type) -> bool {
    match (found, wanted) {
        (_, Type::Any) => true,
        (Type::Counter(a), Type::Num(b)) => a == b,
        (Type::Ok(a), Type::Result(b)) => a == b,
        (Type::Err(_), Type::Result(_)) => true,
        (found, wanted) => found == wanted,
    }
}

impl Body<'_> {
    pub fn expr(&mut self, ty: &Type, depth: usize) {
        if depth == 0 || self.full() {
            return self.leaf(ty);
        }
        match self.rng().below(20) {
            0..=4 => self.leaf(ty),
            5..=6 => self.choice(ty, depth - 1),
            7..=9 => self.call_for(ty, depth - 1),
            10..=11 => self.picked(ty, depth - 1),
            12 => self.scoped(ty, depth - 1),
            _ => self.made(ty, depth - 1),
        }
    }

    /// A variable where one serves, else a constant or what constants build.
    pub fn leaf(&mut self, ty: &Type) {
        let locals = self.locals_where(|found| serves(found, ty));
        let globals = self.globals_where(|found| serves(found, ty));
        let (local, global) = (!locals.is_empty(), !globals.is_empty());
        match self.rng().below(10) {
            0..=4 if local => {
                let slot = *self.rng().pick(&locals);
                self.op("GetLocal", &[slot]);
            }
            5..=6 if global => {
                let slot = *self.rng().pick(&globals);
                self.op("GetGlobal", &[slot]);
            }
            _ => self.literal(ty),
        }
    }

    fn literal(&mut self, ty: &Type) {
        match ty {
            Type::Null => self.push(Constant::Null),
            Type::Num(kind) | Type::Counter(kind) => {
                let constant = self.program.number(*kind);
                self.push(constant);
            }
            Type::Bool => {
                let value = self.rng().one_in(2);
                self.push(Constant::Bool(value));
            }
            Type::Str => {
                let constant = self.program.string();
                self.push(constant);
            }
            Type::Char => {
                let constant = self.program.character();
                self.push(constant);
            }
            Type::Fun(number) => self.function_or_null(*number),
            Type::Any => {
                let ty = self.program.a_type(1);
                self.leaf(&ty);
            }
            built => self.built(built, 0),
        }
    }

    fn function_or_null(&mut self, number: usize) {
        let plain = self.program.plans[number].closure.is_none();
        match number > self.own && plain {
            true => self.push(Constant::Function(number as u16)),
            false => self.push(Constant::Null),
        }
    }

    /// Arrays, tuples and wrappers from their parts.
    fn built(&mut self, ty: &Type, depth: usize) {
        match ty {
            Type::Arr(inner, length) => {
                (0..*length).for_each(|_| self.expr(inner, depth));
                self.op("BuildArr", &[*length as u16]);
            }
            Type::Tuple(parts) => {
                parts.iter().for_each(|part| self.expr(part, depth));
                self.op("BuildTuple", &[parts.len() as u16]);
            }
            Type::Ok(inner) => self.wrapped(inner, "Ok", depth),
            Type::Err(inner) => self.wrapped(inner, "Err", depth),
            Type::Error(inner) => self.wrapped(inner, "Error", depth),
            Type::Result(inner) => match self.rng().percent(80) {
                true => self.wrapped(inner, "Ok", depth),
                false => {
                    let reason = self.program.a_type(0);
                    self.wrapped(&reason, "Err", depth);
                }
            },
            other => self.leaf(other),
        }
    }

    fn wrapped(&mut self, inner: &Type, name: &str, depth: usize) {
        self.expr(inner, depth);
        self.op(name, &[]);
    }

    /// What only this type has.
    fn made(&mut self, ty: &Type, depth: usize) {
        match ty {
            Type::Num(kind) => self.number(*kind, depth),
            Type::Bool => self.condition(depth),
            Type::Arr(inner, length) if *length > 0 && self.rng().one_in(3) => {
                self.expr(ty, depth);
                let index = self.rng().below(*length);
                self.index(index);
                self.expr(inner, depth);
                self.op("ArrSet", &[]);
            }
            Type::Any => match self.rng().one_in(3) {
                true => self.overlapping(depth),
                false => {
                    let ty = self.program.a_type(2);
                    self.expr(&ty, depth);
                }
            },
            other => self.built(other, depth),
        }
    }

    /// One of two values, by instructions that overlap: `00 00 00 nn` is Const 0 and then nn from its
    /// front, and Const nn from its second byte.
    fn overlapping(&mut self, depth: usize) {
        if self.code.chunk.constants.is_empty() {
            let constant = self.program.number(Num::Int);
            self.code.constant(constant);
        }
        let name = match self.code.chunk.constants[0].kind() {
            1 | 3 | 5 | 6 | 11 | 13 => "Negate",
            7 => "Not",
            _ => return self.leaf(&Type::Any),
        };
        let number = image::op(name);
        while self.code.chunk.constants.len() <= number as usize {
            let bits = self.rng().draw();
            self.code.constant(Num::BByte.bits(bits));
        }
        self.condition(depth);
        self.op("JumpIfFalse", &[1]);
        self.op("Const", &[0]);
        self.op(name, &[]);
    }

    /// An index of one of the three kinds that serve.
    pub fn index(&mut self, index: usize) {
        let kind = *self.rng().pick(&[Num::Int, Num::Int, Num::UInt, Num::Byte]);
        let wild = self.program.style.wild;
        match self.rng().percent(wild / 4) {
            true => {
                let constant = kind.edge(self.rng());
                self.push(constant);
            }
            false => self.push_number(kind, index),
        }
    }

    fn number(&mut self, kind: Num, depth: usize) {
        let wild = self.program.style.wild > 0;
        match self.rng().below(10) {
            0 if kind.is_signed() => {
                self.expr(&Type::Num(kind), depth);
                self.op("Negate", &[]);
            }
            1..=2 => {
                let from = self.program.number_kind();
                let from = match from == Num::UInt && !self.program.style.uint_casts {
                    true => Num::SUInt,
                    false => from,
                };
                // Few kinds hold a negative number: start from a small one, mostly.
                match wild || self.rng().one_in(4) {
                    true => self.expr(&Type::Num(from), depth),
                    false => {
                        let small = self.rng().below(100);
                        self.push_number(from, small);
                    }
                }
                self.op("Cast", &[kind.target()]);
            }
            3 if kind == Num::Int => {
                let inner = Box::new(self.program.a_type(0));
                let length = self.rng().below(4);
                self.expr(&Type::Arr(inner, length), depth);
                self.op("ArrLen", &[]);
            }
            _ => self.arithmetic(kind, depth),
        }
    }

    fn arithmetic(&mut self, kind: Num, depth: usize) {
        self.expr(&Type::Num(kind), depth);
        let unsigned = !kind.is_signed();
        let names: &[&str] = match unsigned {
            true => &["Add", "Add", "Add", "Mul", "Div", "Sub"],
            false => &["Add", "Sub", "Add", "Sub", "Mul", "Div"],
        };
        let name = *self.rng().pick(names);
        let wild = self.program.style.wild > 0 && self.rng().one_in(2);
        match name {
            // A divisor that is not 0, mostly; from an unsigned one, take nothing away, mostly.
            "Div" if !wild => {
                let divisor = self.rng().between(1, 9);
                self.push_number(kind, divisor);
            }
            "Sub" if unsigned && !wild => self.push_number(kind, 0),
            _ => self.expr(&Type::Num(kind), depth),
        }
        self.op(name, &[]);
    }

    pub fn condition(&mut self, depth: usize) {
        match self.rng().below(10) {
            0 => {
                self.expr(&Type::Bool, depth);
                self.op("Not", &[]);
            }
            1..=3 => self.equality(depth),
            4..=5 => {
                let ty = self.program.a_type(2);
                self.expr(&ty, depth);
                self.kind_test();
            }
            _ => {
                let kind = self.program.number_kind();
                self.expr(&Type::Num(kind), depth);
                self.expr(&Type::Num(kind), depth);
                let names = ["Less", "LessEq", "Greater", "GreaterEq"];
                let name = *self.rng().pick(&names);
                self.op(name, &[]);
            }
        }
    }

    /// Mostly of one type, so that both answers are likely.
    fn equality(&mut self, depth: usize) {
        let first = self.program.a_type(2);
        let second = match self.rng().one_in(5) {
            true => self.program.a_type(2),
            false => first.clone(),
        };
        self.expr(&first, depth);
        self.expr(&second, depth);
        let name = *self.rng().pick(&["Eq", "NotEq"]);
        self.op(name, &[]);
    }

    pub fn kind_test(&mut self) {
        let name = self.program.string();
        let inner_name = self.program.string();
        let name = self.code.constant(name);
        let inner_name = self.code.constant(inner_name);
        let kinds = [
            0, 1, 2, 3, 5, 7, 8, 14, 17, 18, 20, 22, 22, 22, 23, 24, 25, 278,
        ];
        let kind = match self.rng().one_in(3) {
            true => self.rng().below(26) as u16,
            false => *self.rng().pick(&kinds),
        };
        let inner = match self.rng().one_in(3) {
            true => *self.rng().pick(&kinds),
            false => self.rng().below(24) as u16,
        };
        self.op("IsKind", &[kind, name, inner, inner_name]);
    }

    /// One of two values, by a condition.
    fn choice(&mut self, ty: &Type, depth: usize) {
        self.condition(depth);
        let otherwise = self.jump("JumpIfFalse");
        let height = self.code.height;
        self.expr(ty, depth);
        let end = self.jump("Jump");
        self.code.land(otherwise);
        self.code.height = height;
        self.expr(ty, depth);
        self.code.land(end);
    }

    pub fn jump(&mut self, name: &str) -> usize {
        self.left -= self.times;
        self.code.jump(name)
    }

    /// A part of an array or tuple.
    fn picked(&mut self, ty: &Type, depth: usize) {
        let holds = |found: &Type| matches!(found, Type::Arr(inner, n) if **inner == *ty && *n > 0);
        let arrays = self.locals_where(holds);
        if !arrays.is_empty() && self.rng().percent(70) {
            let slot = *self.rng().pick(&arrays);
            self.op("GetLocal", &[slot]);
            if let Type::Arr(_, length) = self.locals[slot as usize] {
                let index = self.rng().below(length);
                self.index(index);
            }
        } else {
            let length = self.rng().between(1, 3);
            let at = self.rng().below(length);
            let mut parts: Vec<Type> = (0..length).map(|_| self.program.a_type(1)).collect();
            parts[at] = ty.clone();
            self.expr(&Type::Tuple(parts), depth);
            self.index(at);
        }
        self.op("Index", &[]);
    }

    /// A value worked out in a scope of its own, other operands waiting meanwhile.
    fn scoped(&mut self, ty: &Type, depth: usize) {
        self.open_scope();
        for _ in 0..self.rng().between(1, 2) {
            self.statement(depth.min(1));
        }
        self.expr(ty, depth);
        self.close_scope();
    }

    /// A call of something that gives this type: a variable, a known chunk or a new one.
    fn call_for(&mut self, ty: &Type, depth: usize) {
        let affordable = |body: &Body, n: usize| {
            let plan = &body.program.plans[n];
            plan.result == *ty && plan.cost * body.times <= body.left
        };
        let by_variable = self.locals_where(|t| matches!(t, Type::Fun(n) if affordable(self, *n)));
        if !by_variable.is_empty() && self.rng().percent(80) {
            let slot = *self.rng().pick(&by_variable);
            if let Type::Fun(number) = self.locals[slot as usize] {
                self.op("GetLocal", &[slot]);
                return self.arguments(number, depth);
            }
        }
        let known: Vec<usize> = (self.own + 1..self.program.plans.len())
            .filter(|&n| self.program.plans[n].closure.is_none() && affordable(self, n))
            .filter(|&n| !self.program.plans[n].recursion)
            .collect();
        let number = match !known.is_empty() && self.rng().percent(60) {
            true => Some(*self.rng().pick(&known)),
            false => self.new_function(ty),
        };
        match number {
            Some(number) => {
                self.push(Constant::Function(number as u16));
                self.arguments(number, depth);
            }
            None => self.leaf(ty),
        }
    }

    pub fn arguments(&mut self, number: usize, depth: usize) {
        let plan = self.program.plans[number].clone();
        for param in &plan.params {
            self.expr(param, depth);
        }
        self.left -= plan.cost * self.times;
        self.op("Call", &[plan.params.len() as u16]);
    }

    /// A chunk to be written later, if this body can still afford one.
    pub fn new_plan(&mut self, result: Type, closure: Option<(usize, Vec<Type>)>) -> Option<usize> {
        let share = self.left / self.times / 3;
        if share < 12 || self.program.plans.len() >= self.program.style.chunks {
            return None;
        }
        let params = self.rng().below(4);
        let params = (0..params).map(|_| self.param()).collect();
        self.program.plans.push(Plan {
            params,
            closure,
            result,
            cost: share,
            globals: self.globals,
            recursion: false,
        });
        Some(self.program.plans.len() - 1)
    }

    /// A parameter's type; now and then a function that the caller can name.
    fn param(&mut self) -> Type {
        let known: Vec<usize> = (self.own + 1..self.program.plans.len())
            .filter(|&n| self.program.plans[n].closure.is_none())
            .collect();
        match !known.is_empty() && self.rng().one_in(8) {
            true => Type::Fun(*self.rng().pick(&known)),
            false => self.program.a_type(1),
        }
    }

    fn new_function(&mut self, ty: &Type) -> Option<usize> {
        self.new_plan(ty.clone(), None)
    }
}
