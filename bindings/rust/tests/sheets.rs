//! The example sheets, checked, run and decoded.

use rl_vm::{CheckAnswer, Machine, RunAnswer, RunWork, Value, check, decode, least, run, run_in};
use std::path::{Path, PathBuf};

const BUDGET: usize = 1_000_000;
const ROOM: usize = 4_096;

fn folder() -> PathBuf {
    Path::new(env!("CARGO_MANIFEST_DIR")).join("../../sheets")
}

fn file(name: &str) -> Vec<u8> {
    std::fs::read(folder().join(name)).unwrap_or_else(|error| panic!("{name}: {error}"))
}

/// The count and the bytes of a stored line `value COUNT HEX`, none of any other.
fn stored(name: &str) -> Option<(usize, Vec<u8>)> {
    let line = String::from_utf8(file(name)).expect("text");
    let words: Vec<&str> = line.split_whitespace().collect();
    let ["value", count, hex] = words[..] else {
        return None;
    };
    let byte = |at: usize| u8::from_str_radix(&hex[at..at + 2], 16).expect("digits");
    let bytes = (0..hex.len()).step_by(2).map(byte).collect();
    Some((count.parse().expect("a count"), bytes))
}

/// The sheets that give a value, by name.
fn names() -> Vec<String> {
    let entries = std::fs::read_dir(folder()).expect("the sheets");
    let names = entries.map(|entry| entry.expect("an entry").file_name());
    let names = names.filter_map(|name| Some(name.to_str()?.strip_suffix(".out")?.to_string()));
    let with_value = |name: &String| stored(&format!("{name}.out")).is_some();
    names.filter(with_value).collect()
}

/// The answers are the stored ones, and every value is decoded.
#[test]
fn every_sheet() {
    let names = names();
    for name in &names {
        let image = file(&format!("{name}.img"));
        let (count, bytes) = stored(&format!("{name}.out")).expect("a value");
        assert_eq!(check(&image), CheckAnswer::Pass);
        let mut result = [0; ROOM];
        let answer = run(&image, BUDGET, &mut result);
        let length = bytes.len();
        assert_eq!(answer, RunAnswer::Value { count, length });
        assert_eq!(result[..length], bytes);
        assert!(decode(&bytes).is_ok(), "{name}");
    }
    assert!(!names.is_empty());
}

/// The values that the sheets' texts say.
#[test]
fn values() {
    let value = |name: &str| {
        let (_, bytes) = stored(name).expect("a value");
        decode(&bytes).expect("a coded value")
    };
    let times = [2.7, 1.35, 0.3375, 0.15000000000000002].map(Value::Float);
    assert_eq!(value("curve.out"), Value::Arr(times.to_vec()));
    let reason = Value::Err(Box::new(Value::Str(3)));
    let fails = Value::Tuple(vec![Value::Float(5.0), reason]);
    assert_eq!(value("curve_fails.out"), fails);
    let demand = Value::Tuple(vec![Value::Float(4000.0), Value::BByte(440)]);
    assert_eq!(value("demand.out"), demand);
    let pickups = Value::Tuple(vec![Value::BByte(100), Value::BByte(600)]);
    assert_eq!(value("pickup.out"), pickups);
}

/// A machine of one's own gives the answers that the thread's gives, one after the other.
#[test]
fn own_machine() {
    let mut machine = Machine::default();
    let image = file("curve.img");
    for budget in [139, BUDGET, 0] {
        let (mut ours, mut threads) = ([0; ROOM], [0; ROOM]);
        let answer = machine.run(&image, budget, &mut ours);
        assert_eq!(answer, run(&image, budget, &mut threads));
        assert_eq!(ours, threads);
        assert_eq!(machine.check(&image), CheckAnswer::Pass);
    }
}

/// A run on memory without an allocation, used before; it is zero afterwards.
#[test]
fn lent_memory() {
    let image = file("pickup.img");
    let (mut bytes, mut kinds) = ([7; least::BYTES], [7; least::KINDS]);
    let (mut ends, mut table, mut starts) = ([7; 300], [7; least::TABLE], [7; least::STARTS]);
    let (mut payloads, mut texts) = ([7; least::PAYLOADS], [7; least::TEXTS]);
    let (mut classes, mut stack) = ([7; least::CLASSES], [7; least::STACK]);
    let (mut locals, mut globals) = ([7; least::LOCALS], [7; least::GLOBALS]);
    let (mut cells, mut memo) = ([7; least::CELLS], [7; least::MEMO]);
    let work = RunWork {
        bytes: &mut bytes,
        ends: &mut ends,
        kinds: &mut kinds,
        payloads: &mut payloads,
        table: &mut table,
        texts: &mut texts,
        classes: &mut classes,
        stack: &mut stack,
        locals: &mut locals,
        starts: &mut starts,
        globals: &mut globals,
        cells: &mut cells,
        memo: &mut memo,
    };
    let mut result = [0; ROOM];
    let answer = run_in(work, &image, BUDGET, &mut result);
    let (count, coded) = stored("pickup.out").expect("a value");
    let length = coded.len();
    assert_eq!(answer, RunAnswer::Value { count, length });
    assert_eq!(result[..length], coded);
    assert_eq!((bytes, ends), ([0; least::BYTES], [0; 300]));
    assert_eq!(cells, [0; least::CELLS]);
}

/// An image that does not load, one with a fault, and a stop.
#[test]
fn other_answers() {
    let refused = b"0161\n02000000\n";
    let mut result = [0xEE; 8];
    let (number, line) = (6, 0);
    assert_eq!(check(refused), CheckAnswer::Refused { number, line });
    let answer = run(refused, BUDGET, &mut result);
    assert_eq!(answer, RunAnswer::Refused { number, line });

    let faulty = b"0161\n02000000\n0300\n04000000FF\n05\n";
    let fault = CheckAnswer::Fault {
        number: 10,
        chunk: 0,
        offset: 3,
    };
    assert_eq!(check(faulty), fault);
    let stop = RunAnswer::Stop {
        number: 30,
        count: 2,
        chunk: 0,
        offset: 3,
    };
    assert_eq!(run(faulty, BUDGET, &mut result), stop);
    assert_eq!(result, [0xEE; 8]);
}
