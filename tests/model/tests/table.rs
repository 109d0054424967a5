//! The table's needs and changes are those of the steps: every instruction is run with every small
//! number of operands.

use image::Constant::{Bool, Function, Int, Str};
use image::{Chunk, Constant, INSTRUCTIONS, Image};
use model::{Answer, run, table};

/// Constant 0 is what the chunk pushes; 1 and 2 are what instructions ask for.
fn chunk(pushed: Constant, height: usize, name: &str, operands: &[u16]) -> Chunk {
    let mut chunk = Chunk {
        constants: vec![pushed, Function(1), Str(0)],
        ..Chunk::default()
    };
    for _ in 0..height {
        chunk.emit("Const", &[0]);
    }
    chunk.emit(name, operands);
    chunk
}

/// The run of an instruction at a height, and after it of as many Pop as it takes to run dry.
fn ending(pushed: Constant, height: usize, name: &str, operands: &[u16]) -> Answer {
    let mut top = chunk(pushed, height, name, operands);
    for _ in 0..20 {
        top.emit("Pop", &[]);
    }
    let image = Image {
        texts: vec![vec![]],
        chunks: vec![
            top,
            Chunk {
                arity: 2,
                ..Chunk::default()
            },
        ],
    };
    run(&image, 1_000, 1_000)
}

fn operands(name: &str, count: usize) -> Vec<u16> {
    match name {
        "BuildClosure" => vec![1, 0],
        "IsKind" => vec![1, 2, 1, 2],
        "Jump" | "JumpIfFalse" | "Loop" => vec![0],
        _ => vec![2; count],
    }
}

#[test]
fn needs_are_those_of_the_steps() {
    for (name, count) in INSTRUCTIONS {
        let operands = operands(name, count);
        let code = chunk(Int(0), 0, name, &operands).code;
        let instruction = table::read(&code, 0).unwrap();
        for height in 0..6 {
            let count = height as u64 + 1;
            let missing = matches!(
                ending(Int(0), height, name, &operands),
                Answer::Stop { number: 31, count: at, .. } if at == count
            );
            // Return is never at a loss: on an empty stack it gives Null. The table says 1.
            let expected = (height as i64) < instruction.needs() && name != "Return";
            assert_eq!(missing, expected, "{name} at {height}");
        }
    }
}

#[test]
fn changes_are_those_of_the_steps() {
    let mut seen = 0;
    for (name, count) in INSTRUCTIONS {
        let operands = operands(name, count);
        let code = chunk(Int(0), 0, name, &operands).code;
        let change = table::read(&code, 0).unwrap().change();
        // What is pushed has to be of a kind that the instruction serves.
        for pushed in [Int(0), Bool(true), Bool(false), Function(1)] {
            let Answer::Stop {
                number: 31, count, ..
            } = ending(pushed, 4, name, &operands)
            else {
                continue;
            };
            // 4 pushed, the instruction, one Pop for each operand left, and the Pop that stops.
            assert_eq!(count as i64, 4 + 1 + (4 + change) + 1, "{name}");
            seen += 1;
            break;
        }
    }
    // All but Return, which goes no further, and those that need a slot, a scope or an array.
    assert!(seen >= 28, "{seen}");
}
