//! One chunk's body: what is live while it is written.

use super::{Plan, Program, Type};
use crate::code::Code;
use crate::numbers::Num;
use crate::rng::Rng;
use image::Constant;

/// An open loop, for breaks.
pub(super) struct Loop {
    pub height: i64,
    pub scopes: usize,
    pub ends: Vec<usize>,
    pub nexts: Vec<usize>,
}

pub(super) struct Body<'a> {
    pub program: &'a mut Program,
    pub own: usize,
    pub code: Code,
    pub plan: Plan,
    /// the frame's local slots
    pub locals: Vec<Type>,
    /// how many locals there were at each scope opened in this body
    pub scopes: Vec<usize>,
    pub globals: usize,
    /// instructions that may still be spent
    pub left: i64,
    /// how often the code being written runs
    pub times: i64,
    pub loops: Vec<Loop>,
}

impl Body<'_> {
    pub fn new(program: &mut Program, own: usize, plan: Plan) -> Body<'_> {
        let mut locals = Vec::new();
        if let Some((start, captured)) = &plan.closure {
            locals.resize(*start, Type::Null);
            locals.extend(captured.iter().cloned());
        }
        locals.extend(plan.params.iter().cloned());
        Body {
            program,
            own,
            code: Code::default(),
            locals,
            scopes: Vec::new(),
            globals: plan.globals,
            left: plan.cost,
            times: 1,
            loops: Vec::new(),
            plan,
        }
    }

    /// The whole body: statements, then the result.
    pub fn whole(&mut self) {
        if self.plan.recursion {
            return self.recursion();
        }
        if self.own == 0 {
            self.first_globals();
        }
        let most = self.program.style.size;
        let statements = self.rng().between(0, most);
        for _ in 0..statements {
            self.statement(2);
        }
        let result = self.plan.result.clone();
        if matches!(result, Type::Null | Type::Any) && self.rng().one_in(3) {
            return;
        }
        self.expr(&result, 3);
        self.op("Return", &[]);
        if self.rng().one_in(10) {
            self.unreached();
        }
    }

    fn first_globals(&mut self) {
        for _ in 0..self.rng().below(4) {
            self.define();
        }
        if self.rng().one_in(2) {
            self.open_scope();
        }
    }

    /// Bytes that no run reaches and the check does not judge.
    fn unreached(&mut self) {
        for _ in 0..self.rng().between(1, 6) {
            let byte = self.rng().below(256) as u8;
            self.code.chunk.code.push(byte);
        }
    }

    pub fn rng(&mut self) -> &mut Rng {
        &mut self.program.rng
    }

    pub fn op(&mut self, name: &str, operands: &[u16]) {
        self.left -= self.times;
        self.code.op(name, operands);
    }

    pub fn push(&mut self, constant: Constant) {
        self.left -= self.times;
        self.code.push(constant);
    }

    /// Whether DefineLocal defines a local here and not a global.
    pub fn has_locals(&self) -> bool {
        self.own != 0 || !self.scopes.is_empty()
    }

    pub fn open_scope(&mut self) {
        self.op("PushScope", &[]);
        self.scopes.push(self.locals.len());
    }

    pub fn close_scope(&mut self) {
        self.op("PopScope", &[]);
        if let Some(start) = self.scopes.pop() {
            self.locals.truncate(start);
        }
    }

    /// Whether the chunk has grown enough: constants, code and cost have their mosts.
    pub fn full(&self) -> bool {
        let chunk = &self.code.chunk;
        self.left <= 0 || chunk.code.len() > 3_000 || chunk.constants.len() > 200
    }

    /// Takes the value on top as a new local, or a new global where no scope is open.
    pub fn take(&mut self, ty: Type) {
        if self.has_locals() {
            let gap = match self.rng().one_in(20) {
                true => self.rng().between(1, 3),
                false => 0,
            };
            self.locals.resize(self.locals.len() + gap, Type::Null);
            let slot = self.locals.len() as u16;
            self.op("DefineLocal", &[slot]);
            self.locals.push(ty);
        } else if self.globals < 30 {
            let slot = self.globals as u16;
            self.op("DefineLocal", &[slot]);
            self.program.globals.push(ty);
            self.globals += 1;
        } else {
            self.op("Pop", &[]);
        }
    }

    /// The slots of locals for which something holds.
    pub fn locals_where(&self, holds: impl Fn(&Type) -> bool) -> Vec<u16> {
        let slots = 0..self.locals.len();
        let found = slots.filter(|&slot| holds(&self.locals[slot]));
        found.map(|slot| slot as u16).collect()
    }

    pub fn globals_where(&self, holds: impl Fn(&Type) -> bool) -> Vec<u16> {
        let slots = 0..self.globals;
        let found = slots.filter(|&slot| holds(&self.program.globals[slot]));
        found.map(|slot| slot as u16).collect()
    }

    /// A constant of this number kind as the index or bound `n`.
    pub fn push_number(&mut self, kind: Num, n: usize) {
        self.push(kind.of(n as i64));
    }
}
