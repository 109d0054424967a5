//! Statements: code that leaves the operand height as it was.

use super::Type;
use super::body::{Body, Loop};
use crate::numbers::Num;
use image::Constant;

impl Body<'_> {
    pub fn statement(&mut self, depth: usize) {
        if self.full() {
            return;
        }
        let fault = self.program.style.fault;
        if fault > 0 && self.rng().one_in(fault) {
            return self.fault();
        }
        match self.rng().below(40) {
            0..=7 => self.define(),
            8..=11 => self.assign_local(),
            12..=13 => self.assign_global(),
            14..=16 if depth > 0 => self.branch(depth - 1),
            17..=20 if depth > 0 => self.counted(depth - 1),
            21 if depth > 0 => self.block(depth - 1),
            22..=25 => self.propagate(),
            26 => self.early_return(),
            27..=29 => self.define_closure(),
            30..=31 => self.set_element(),
            32 => self.wrap(),
            33..=34 => self.leave_loop(),
            35..=36 => self.recurse(),
            37 => self.swap_names(),
            _ => self.drop_value(),
        }
    }

    pub fn define(&mut self) {
        let ty = self.program.a_type(2);
        self.expr(&ty, 2);
        self.take(ty);
    }

    fn drop_value(&mut self) {
        let ty = self.program.a_type(2);
        self.expr(&ty, 3);
        self.op("Pop", &[]);
    }

    /// Sets a local that is no counter, by SetLocal or by defining it again.
    fn assign_local(&mut self) {
        let settable = |ty: &Type| !matches!(ty, Type::Counter(_) | Type::Fun(_));
        let slots = self.locals_where(settable);
        if slots.is_empty() {
            return self.define();
        }
        let slot = *self.rng().pick(&slots);
        let ty = self.locals[slot as usize].clone();
        self.expr(&ty, 2);
        match self.rng().one_in(4) {
            true => self.op("DefineLocal", &[slot]),
            false => {
                self.op("SetLocal", &[slot]);
                self.op("Pop", &[]);
            }
        }
    }

    fn assign_global(&mut self) {
        let slots = self.globals_where(|ty| !matches!(ty, Type::Fun(_)));
        if slots.is_empty() {
            return self.drop_value();
        }
        let slot = *self.rng().pick(&slots);
        let ty = self.program.globals[slot as usize].clone();
        self.expr(&ty, 2);
        self.op("SetGlobal", &[slot]);
        self.op("Pop", &[]);
    }

    fn block(&mut self, depth: usize) {
        self.open_scope();
        for _ in 0..self.rng().between(1, 3) {
            self.statement(depth);
        }
        self.close_scope();
    }

    fn branch(&mut self, depth: usize) {
        self.condition(2);
        let otherwise = self.jump("JumpIfFalse");
        self.block(depth);
        if self.rng().one_in(2) {
            let end = self.jump("Jump");
            self.code.land(otherwise);
            self.block(depth);
            self.code.land(end);
        } else {
            self.code.land(otherwise);
        }
    }

    /// A loop with a counter, up or down, of any number kind.
    fn counted(&mut self, depth: usize) {
        let kind = self.program.number_kind();
        let rounds = self.rng().between(1, 6);
        let up = self.rng().one_in(2);
        self.open_scope();
        self.push_number(kind, if up { 0 } else { rounds });
        let slot = self.locals.len() as u16;
        self.op("DefineLocal", &[slot]);
        self.locals.push(Type::Counter(kind));
        let start = self.code.here();
        self.times *= rounds as i64;
        self.op("GetLocal", &[slot]);
        self.push_number(kind, if up { rounds } else { 0 });
        let tests: &[&str] = if up {
            &["Less", "NotEq"]
        } else {
            &["Greater", "NotEq"]
        };
        let test = *self.rng().pick(tests);
        self.op(test, &[]);
        let end = self.jump("JumpIfFalse");
        let (height, scopes) = (self.code.height, self.scopes.len());
        let (ends, nexts) = (vec![end], vec![]);
        self.loops.push(Loop {
            height,
            scopes,
            ends,
            nexts,
        });
        self.block(depth);
        self.next_round(kind, slot, up, start);
        self.times /= rounds as i64;
        self.close_scope();
    }

    /// The counter's step, the way back, and the loop's end.
    fn next_round(&mut self, kind: Num, slot: u16, up: bool, start: usize) {
        let Some(open) = self.loops.pop() else {
            return;
        };
        open.nexts.iter().for_each(|&next| self.code.land(next));
        self.op("GetLocal", &[slot]);
        self.push_number(kind, 1);
        self.op(if up { "Add" } else { "Sub" }, &[]);
        self.op("SetLocal", &[slot]);
        self.op("Pop", &[]);
        self.left -= self.times;
        self.code.back(start);
        open.ends.iter().for_each(|&end| self.code.land(end));
    }

    /// Leaves the innermost loop, or goes to its next round, by a condition.
    fn leave_loop(&mut self) {
        let height = self.code.height;
        let Some(scopes) = self
            .loops
            .last()
            .filter(|l| l.height == height)
            .map(|l| l.scopes)
        else {
            return self.drop_value();
        };
        self.condition(1);
        let on = self.jump("JumpIfFalse");
        for _ in scopes..self.scopes.len() {
            self.op("PopScope", &[]);
        }
        let away = self.jump("Jump");
        let next = self.rng().one_in(2);
        if let Some(open) = self.loops.last_mut() {
            let places = if next {
                &mut open.nexts
            } else {
                &mut open.ends
            };
            places.push(away);
        }
        self.code.land(on);
    }

    /// Unwraps an Ok or returns an Err. It needs a height of exactly 1.
    fn propagate(&mut self) {
        let fallible = self.own == 0 || matches!(self.plan.result, Type::Result(_));
        if self.code.height != 0 || !(fallible || self.rng().one_in(12)) {
            return self.define();
        }
        let inner = self.program.a_type(1);
        let whole = match self.rng().below(8) {
            0 => inner.clone(),
            1 => Type::Ok(Box::new(inner.clone())),
            _ => Type::Result(Box::new(inner.clone())),
        };
        // An Ok inside would be unwrapped although the type is whole.
        let whole =
            match whole == inner && matches!(inner, Type::Any | Type::Result(_) | Type::Ok(_)) {
                true => Type::Ok(Box::new(inner.clone())),
                false => whole,
            };
        self.expr(&whole, 3);
        self.op("Propagate", &[]);
        self.take(inner);
    }

    fn early_return(&mut self) {
        if self.code.height != 0 {
            return self.drop_value();
        }
        self.condition(2);
        let on = self.jump("JumpIfFalse");
        let result = self.plan.result.clone();
        if matches!(result, Type::Null | Type::Any) && self.rng().one_in(2) {
            // A jump past the code's end leaves the frame with Null.
            self.op("Jump", &[60_000]);
        } else {
            self.expr(&result, 1);
            self.op("Return", &[]);
            self.code.height -= 1;
        }
        self.code.land(on);
    }

    /// A closure over the frame's locals; at the top with no scope open it captures nothing.
    fn define_closure(&mut self) {
        let result = self.program.a_type(1);
        let closure = match self.has_locals() {
            true => {
                let live = self.locals.len();
                let start = self.rng().between(live.saturating_sub(4), live);
                (start, self.locals[start..].to_vec())
            }
            false => (self.rng().below(5), vec![]),
        };
        let start = closure.0 as u16;
        let Some(number) = self.new_plan(result, Some(closure)) else {
            return self.define();
        };
        let function = self.code.constant(Constant::Function(number as u16));
        self.op("BuildClosure", &[function, start]);
        self.take(Type::Fun(number));
    }

    fn set_element(&mut self) {
        let slots = self.locals_where(|ty| matches!(ty, Type::Arr(_, n) if *n > 0));
        if slots.is_empty() {
            let length = self.rng().between(1, 4);
            let inner = self.program.a_type(1);
            let ty = Type::Arr(Box::new(inner), length);
            self.expr(&ty, 1);
            return self.take(ty);
        }
        let slot = *self.rng().pick(&slots);
        if let Type::Arr(inner, length) = self.locals[slot as usize].clone() {
            self.op("GetLocal", &[slot]);
            let index = self.rng().below(length);
            self.index(index);
            self.expr(&inner, 2);
            self.op("ArrSet", &[]);
            self.op("SetLocal", &[slot]);
            self.op("Pop", &[]);
        }
    }

    /// Puts a value one level deeper, or two of it side by side.
    fn wrap(&mut self) {
        let slots = self.locals_where(|ty| *ty == Type::Any);
        if slots.is_empty() {
            let ty = self.program.a_type(1);
            self.expr(&ty, 1);
            return self.take(Type::Any);
        }
        let slot = *self.rng().pick(&slots);
        self.op("GetLocal", &[slot]);
        match self.rng().below(6) {
            0 => self.op("Ok", &[]),
            1 => self.op("Err", &[]),
            2 => self.op("Error", &[]),
            3 if self.times <= 4 => {
                self.op("GetLocal", &[slot]);
                self.op("BuildTuple", &[2]);
            }
            4 if self.times <= 4 => {
                self.op("GetLocal", &[slot]);
                self.op("BuildArr", &[2]);
            }
            _ => self.op("BuildArr", &[1]),
        }
        self.op("SetLocal", &[slot]);
        self.op("Pop", &[]);
    }

    /// Two values of one type change places: `a, b = b, a`.
    fn swap_names(&mut self) {
        let settable = |ty: &Type| !matches!(ty, Type::Counter(_) | Type::Fun(_));
        let slots = self.locals_where(settable);
        if slots.is_empty() {
            return self.drop_value();
        }
        let first = *self.rng().pick(&slots);
        let ty = self.locals[first as usize].clone();
        let same = self.locals_where(|other| *other == ty);
        let second = *self.rng().pick(&same);
        self.op("GetLocal", &[first]);
        self.op("GetLocal", &[second]);
        self.op("DefineLocal", &[first]);
        self.op("DefineLocal", &[second]);
    }
}
