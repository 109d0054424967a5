//! The mosts: at each one a run goes on, one above it stops with 45, and any other fault comes first.

use image::Constant::{self, Function, Int, Null};
use image::{Chunk, Image};
use model::{BUDGET, ROOM, run};
use written::TEXTS;

fn image(chunks: Vec<Chunk>) -> Image {
    Image {
        texts: TEXTS.iter().map(|t| t.as_bytes().to_vec()).collect(),
        chunks,
    }
}

fn line(image: &Image) -> String {
    run(image, BUDGET, ROOM).to_string()
}

fn chunk(constants: &[Constant], emit: impl Fn(&mut Chunk)) -> Chunk {
    let mut chunk = Chunk {
        constants: constants.to_vec(),
        ..Chunk::default()
    };
    emit(&mut chunk);
    chunk
}

fn times(chunk: &mut Chunk, count: usize, name: &str, operands: &[u16]) {
    for _ in 0..count {
        chunk.emit(name, operands);
    }
}

/// The line of a run of one chunk with the constants Null, Int 0 and Int 1,000.
fn top(emit: impl Fn(&mut Chunk)) -> String {
    line(&image(vec![chunk(&[Null, Int(0), Int(1_000)], emit)]))
}

#[test]
fn operands() {
    let pushed = |n| {
        top(|c| {
            times(c, n, "Const", &[0]);
            c.emit("Return", &[]);
        })
    };
    assert_eq!(pushed(256), "value 257 00");
    assert_eq!(pushed(257), "stop 45 257 0000 0768");
    // The Null at the end of the code is one too many, in the top frame too, and past the end too.
    assert_eq!(top(|c| times(c, 255, "Const", &[0])), "value 255 00");
    assert_eq!(
        top(|c| times(c, 256, "Const", &[0])),
        "stop 45 256 0000 0768"
    );
    let past = |c: &mut Chunk| {
        times(c, 256, "Const", &[0]);
        c.emit("Jump", &[900]);
    };
    assert_eq!(top(past), "stop 45 257 0000 0771");
    let missing = |c: &mut Chunk| {
        times(c, 256, "Const", &[0]);
        c.emit("GetLocal", &[0]);
    };
    assert_eq!(top(missing), "stop 34 257 0000 0768");
}

#[test]
fn globals_locals_scopes() {
    let global = |slot| {
        top(|c| {
            c.emit("Const", &[0]);
            c.emit("DefineLocal", &[slot]);
        })
    };
    assert_eq!(global(255), "value 2 00");
    assert_eq!(global(256), "stop 45 2 0000 0003");
    let local = |slot| {
        top(|c| {
            c.emit("PushScope", &[]);
            c.emit("Const", &[0]);
            c.emit("DefineLocal", &[slot]);
        })
    };
    assert_eq!(local(1023), "value 3 00");
    assert_eq!(local(1024), "stop 45 3 0000 0004");
    let scopes = |n| top(|c| times(c, n, "PushScope", &[]));
    assert_eq!(scopes(256), "value 256 00");
    assert_eq!(scopes(257), "stop 45 257 0000 0256");
}

/// A run in which n frames are on at once: the top and n - 1 calls.
fn frames(count: usize, arity_of_last: u8) -> String {
    let mut chunks: Vec<Chunk> = (1..count as u16)
        .map(|above| {
            chunk(&[Function(above)], |c| {
                c.emit("Const", &[0]);
                c.emit("Call", &[0]);
                c.emit("Return", &[]);
            })
        })
        .collect();
    chunks.push(chunk(&[], |_| {}));
    chunks[count - 1].arity = arity_of_last;
    line(&image(chunks))
}

#[test]
fn frames_on_at_once() {
    assert_eq!(frames(64, 0), "value 189 00");
    assert_eq!(frames(64, 1), "stop 43 126 0062 0003");
    // The 65th frame, by way of a global, since there are 64 chunks at most.
    let callee = chunk(&[], |c| {
        c.emit("GetGlobal", &[0]);
        c.emit("Call", &[0]);
    });
    let caller = chunk(&[Function(1)], |c| {
        c.emit("Const", &[0]);
        c.emit("DefineLocal", &[0]);
        c.emit("GetGlobal", &[0]);
        c.emit("Call", &[0]);
    });
    assert_eq!(line(&image(vec![caller, callee])), "stop 45 130 0001 0003");
}

#[test]
fn cells() {
    // An array of 255 and 15 of its like by ArrSet take 4,080 cells; 16 of 4,096 are left.
    let built = |rest: usize, last: &str| {
        top(|c| {
            times(c, 255, "Const", &[1]);
            c.emit("BuildArr", &[255]);
            for _ in 0..15 {
                times(c, 2, "Const", &[1]);
                c.emit("ArrSet", &[]);
            }
            times(c, rest, "Const", &[0]);
            c.emit("BuildArr", &[rest as u16]);
            c.emit(last, &[]);
        })
    };
    assert_eq!(built(15, "Ok"), "value 318 00");
    assert_eq!(built(16, "Pop"), "value 319 00");
    assert_eq!(built(17, "Pop"), "stop 45 319 0000 0924");
    assert_eq!(built(16, "Ok"), "stop 45 319 0000 0924");
    // With the cells full, an index past the length is still 41.
    let faulty = top(|c| {
        times(c, 256, "Const", &[1]);
        c.emit("BuildArr", &[256]);
        for _ in 0..15 {
            times(c, 2, "Const", &[1]);
            c.emit("ArrSet", &[]);
        }
        times(c, 2, "Const", &[2]);
        c.emit("ArrSet", &[]);
    });
    assert_eq!(faulty, "stop 41 305 0000 0882");
}

#[test]
fn nesting() {
    let nested = |n| {
        top(|c| {
            c.emit("Const", &[0]);
            times(c, n, "Ok", &[]);
        })
    };
    assert_eq!(nested(64), "value 65 00");
    assert_eq!(nested(65), "stop 45 66 0000 0067");
    // ArrSet works its nesting out anew: the part replaced was the deepest.
    let replaced = top(|c| {
        c.emit("Const", &[0]);
        times(c, 62, "Ok", &[]);
        c.emit("BuildArr", &[1]);
        c.emit("Const", &[1]);
        c.emit("Const", &[0]);
        c.emit("ArrSet", &[]);
        times(c, 63, "Ok", &[]);
    });
    assert_eq!(replaced, "value 130 00");
}

#[test]
fn budget_and_room() {
    let constant = image(vec![chunk(&[Int(0)], |c| c.emit("Const", &[0]))]);
    let unknown = image(vec![chunk(&[], |c| c.code.push(99))]);
    assert_eq!(run(&constant, 1, 1).to_string(), "value 1 00");
    assert_eq!(run(&constant, 0, 1).to_string(), "stop 46 0 0000 0000");
    assert_eq!(run(&unknown, 0, 1).to_string(), "stop 46 0 0000 0000");
    assert_eq!(run(&unknown, 1, 1).to_string(), "stop 30 1 0000 0000");
    assert_eq!(run(&constant, 1, 0).to_string(), "stop 47 1 0000 0000");
}
