//! The images: loops of so many rounds, written in assembler text (tools/asm/README.md).

/// A program: what it is heavy in, whether the published Rust runs it to the same value, its text with `ROUNDS` for the rounds and
/// `KIND` for a kind of numbers, that kind, and how many rounds there are.
pub struct Program {
    pub name: &'static str,
    pub rust: bool,
    text: &'static str,
    kind: &'static str,
    rounds: u64,
}

impl Program {
    /// The image lines.
    pub fn image(&self) -> Vec<u8> {
        let text = self
            .text
            .replace("ROUNDS", &self.rounds.to_string())
            .replace("KIND", self.kind);
        match asm::assemble(&text) {
            Ok(image) => image.lines().into_bytes(),
            Err(error) => panic!("{}: {error}", self.name),
        }
    }
}

pub const PROGRAMS: [Program; 13] = [
    Program {
        name: "Int arithmetic",
        rust: true,
        text: INTEGERS,
        kind: "Int",
        rounds: 530_000,
    },
    Program {
        name: "Float arithmetic",
        rust: true,
        text: FLOATS,
        kind: "Float",
        rounds: 590_000,
    },
    Program {
        name: "SFloat arithmetic",
        rust: true,
        text: FLOATS,
        kind: "SFloat",
        rounds: 590_000,
    },
    Program {
        name: "SInt arithmetic",
        rust: true,
        text: SMALL_INTEGERS,
        kind: "SInt",
        rounds: 470_000,
    },
    Program {
        name: "UInt arithmetic",
        rust: true,
        text: SMALL_INTEGERS,
        kind: "UInt",
        rounds: 470_000,
    },
    Program {
        name: "Int Div, Negate",
        rust: true,
        text: DIVISIONS,
        kind: "Int",
        rounds: 560_000,
    },
    Program {
        name: "Negate, each kind",
        rust: true,
        text: NEGATIONS,
        kind: "Int",
        rounds: 299_999,
    },
    Program {
        name: "Cast, Float Less",
        rust: true,
        text: CASTS,
        kind: "Int",
        rounds: 500_000,
    },
    Program {
        name: "Cast of an Int",
        rust: true,
        text: TARGETS,
        kind: "Int",
        rounds: 250_000,
    },
    Program {
        name: "Cast of a UInt",
        rust: false,
        text: TARGETS,
        kind: "UInt",
        rounds: 250_000,
    },
    Program {
        name: "calls",
        rust: true,
        text: CALLS,
        kind: "Int",
        rounds: 400_000,
    },
    Program {
        name: "closures and Propagate",
        rust: true,
        text: CLOSURES,
        kind: "Int",
        rounds: 450_000,
    },
    Program {
        name: "arrays",
        rust: true,
        text: ARRAYS,
        kind: "Int",
        rounds: 400_000,
    },
];

/// sum = sum + 3 * i - i, 19 instructions a round.
const INTEGERS: &str = "
chunk top/0
  local sum = 0
  local i = 1
  PushScope
  Const Int 0
  DefineLocal sum
  Const Int 0
  DefineLocal i
again:
  GetLocal i
  Const Int ROUNDS
  Less
  JumpIfFalse done
  GetLocal sum
  Const Int 3
  GetLocal i
  Mul
  Add
  GetLocal i
  Sub
  SetLocal sum
  Pop
  GetLocal i
  Const Int 1
  Add
  SetLocal i
  Pop
  Loop again
done:
  GetLocal sum
  Return
";

/// x = x * 0.5 + 1.25, 17 instructions a round.
const FLOATS: &str = "
chunk top/0
  local x = 0
  local i = 1
  PushScope
  Const KIND 0.0
  DefineLocal x
  Const Int 0
  DefineLocal i
again:
  GetLocal i
  Const Int ROUNDS
  Less
  JumpIfFalse done
  GetLocal x
  Const KIND 0.5
  Mul
  Const KIND 1.25
  Add
  SetLocal x
  Pop
  GetLocal i
  Const Int 1
  Add
  SetLocal i
  Pop
  Loop again
done:
  GetLocal x
  Return
";

/// x = (x + 3) * 2 - x - 6, the count in the same kind; 21 instructions a round.
const SMALL_INTEGERS: &str = "
chunk top/0
  local x = 0
  local i = 1
  PushScope
  Const KIND 5
  DefineLocal x
  Const KIND 0
  DefineLocal i
again:
  GetLocal i
  Const KIND ROUNDS
  Less
  JumpIfFalse done
  GetLocal x
  Const KIND 3
  Add
  Const KIND 2
  Mul
  GetLocal x
  Sub
  Const KIND 6
  Sub
  SetLocal x
  Pop
  GetLocal i
  Const KIND 1
  Add
  SetLocal i
  Pop
  Loop again
done:
  GetLocal x
  Return
";

/// sum = sum + -(i / 7), 18 instructions a round.
const DIVISIONS: &str = "
chunk top/0
  local sum = 0
  local i = 1
  PushScope
  Const Int 0
  DefineLocal sum
  Const Int 0
  DefineLocal i
again:
  GetLocal i
  Const Int ROUNDS
  Less
  JumpIfFalse done
  GetLocal sum
  GetLocal i
  Const Int 7
  Div
  Negate
  Add
  SetLocal sum
  Pop
  GetLocal i
  Const Int 1
  Add
  SetLocal i
  Pop
  Loop again
done:
  GetLocal sum
  Return
";

/// Each kind that Negate serves, negated in its slot; 34 instructions a round.
const NEGATIONS: &str = "
chunk top/0
  local int = 0
  local sint = 1
  local bsbyte = 2
  local sbyte = 3
  local float = 4
  local sfloat = 5
  local i = 6
  PushScope
  Const Int 7
  DefineLocal int
  Const SInt 7
  DefineLocal sint
  Const BSByte 7
  DefineLocal bsbyte
  Const SByte 7
  DefineLocal sbyte
  Const Float 7.0
  DefineLocal float
  Const SFloat 7.0
  DefineLocal sfloat
  Const Int 0
  DefineLocal i
again:
  GetLocal i
  Const Int ROUNDS
  Less
  JumpIfFalse done
  GetLocal int
  Negate
  SetLocal int
  Pop
  GetLocal sint
  Negate
  SetLocal sint
  Pop
  GetLocal bsbyte
  Negate
  SetLocal bsbyte
  Pop
  GetLocal sbyte
  Negate
  SetLocal sbyte
  Pop
  GetLocal float
  Negate
  SetLocal float
  Pop
  GetLocal sfloat
  Negate
  SetLocal sfloat
  Pop
  GetLocal i
  Const Int 1
  Add
  SetLocal i
  Pop
  Loop again
done:
  GetLocal int
  GetLocal sint
  GetLocal bsbyte
  GetLocal sbyte
  GetLocal float
  GetLocal sfloat
  BuildTuple 6
  Return
";

/// sum = sum + Int(Float(i) * 0.5), the end told in Float; 20 instructions a round.
const CASTS: &str = "
chunk top/0
  local sum = 0
  local i = 1
  PushScope
  Const Int 0
  DefineLocal sum
  Const Int 0
  DefineLocal i
again:
  GetLocal i
  Cast Float
  Const Float ROUNDS.0
  Less
  JumpIfFalse done
  GetLocal sum
  GetLocal i
  Cast Float
  Const Float 0.5
  Mul
  Cast Int
  Add
  SetLocal sum
  Pop
  GetLocal i
  Const Int 1
  Add
  SetLocal i
  Pop
  Loop again
done:
  GetLocal sum
  Return
";

/// x to each of the ten targets; 40 instructions a round.
const TARGETS: &str = "
chunk top/0
  local x = 0
  local i = 1
  PushScope
  Const KIND 100
  DefineLocal x
  Const Int 0
  DefineLocal i
again:
  GetLocal i
  Const Int ROUNDS
  Less
  JumpIfFalse done
  GetLocal x
  Cast Int
  Pop
  GetLocal x
  Cast Float
  Pop
  GetLocal x
  Cast UInt
  Pop
  GetLocal x
  Cast SFloat
  Pop
  GetLocal x
  Cast SUInt
  Pop
  GetLocal x
  Cast SInt
  Pop
  GetLocal x
  Cast BByte
  Pop
  GetLocal x
  Cast BSByte
  Pop
  GetLocal x
  Cast Byte
  Pop
  GetLocal x
  Cast SByte
  Pop
  GetLocal i
  Const Int 1
  Add
  SetLocal i
  Pop
  Loop again
done:
  GetLocal x
  Return
";

/// sum = step(sum, i), where step calls on; two calls and 25 instructions a round.
const CALLS: &str = "
chunk top/0
  local sum = 0
  local i = 1
  PushScope
  Const Int 0
  DefineLocal sum
  Const Int 0
  DefineLocal i
again:
  GetLocal i
  Const Int ROUNDS
  Less
  JumpIfFalse done
  Const Function step
  GetLocal sum
  GetLocal i
  Call 2
  SetLocal sum
  Pop
  GetLocal i
  Const Int 1
  Add
  SetLocal i
  Pop
  Loop again
done:
  GetLocal sum
  Return

chunk step/2
  Const Function twice
  GetLocal 1
  Call 1
  GetLocal 0
  Add
  Return

chunk twice/1
  GetLocal 0
  GetLocal 0
  Add
  Return
";

/// A closure over the slots 2 and 3, built once and called in every round, with a Propagate that passes its
/// value on; 22 instructions a round. An Ok in every round would take more cells than a run has.
const CLOSURES: &str = "
chunk top/0
  local sum = 0
  local i = 1
  local closure = 4
  PushScope
  Const Int 0
  DefineLocal sum
  Const Int 0
  DefineLocal i
  Const Int 5
  DefineLocal 2
  Const Int 7
  DefineLocal 3
  BuildClosure Function step 2
  DefineLocal closure
again:
  GetLocal i
  Const Int ROUNDS
  Less
  JumpIfFalse done
  GetLocal closure
  GetLocal sum
  Call 1
  SetLocal sum
  Pop
  GetLocal i
  Const Int 1
  Add
  SetLocal i
  Pop
  Loop again
done:
  GetLocal sum
  Return

chunk step/1
  local argument = 4
  GetLocal argument
  GetLocal 2
  Add
  Propagate
  GetLocal 3
  Sub
  Return
";

/// sum = sum + array[k], k going round an array of 16: Index, ArrLen and Eq; some 25 instructions a round.
const ARRAYS: &str = "
chunk top/0
  local sum = 0
  local i = 1
  local k = 2
  local array = 3
  PushScope
  Const Int 0
  DefineLocal sum
  Const Int 0
  DefineLocal i
  Const Int 0
  DefineLocal k
  Const Int 3
  Const Int 1
  Const Int 4
  Const Int 1
  Const Int 5
  Const Int 9
  Const Int 2
  Const Int 6
  Const Int 5
  Const Int 3
  Const Int 5
  Const Int 8
  Const Int 9
  Const Int 7
  Const Int 9
  Const Int 3
  BuildArr 16
  DefineLocal array
again:
  GetLocal i
  Const Int ROUNDS
  Less
  JumpIfFalse done
  GetLocal sum
  GetLocal array
  GetLocal k
  Index
  Add
  SetLocal sum
  Pop
  GetLocal k
  Const Int 1
  Add
  SetLocal k
  GetLocal array
  ArrLen
  Eq
  JumpIfFalse on
  Const Int 0
  SetLocal k
  Pop
on:
  GetLocal i
  Const Int 1
  Add
  SetLocal i
  Pop
  Loop again
done:
  GetLocal sum
  Return
";
