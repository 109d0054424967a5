//! Times `load` on images of 65,536 bytes and on images of code lines alone, beside a plain decoding of the same bytes in Rust, in one run.
//!
//!     tests/archive image_bench
//!     cargo run --release --offline --manifest-path bench/image/Cargo.toml --target-dir target/cargo
#[allow(dead_code)]
#[path = "../../../bindings/rust/src/least.rs"]
mod least;

use std::hint::black_box;
use std::time::Instant;

/// A chunk's line: arity 0, named by text 0.
const CHUNK: &str = "02000000";

extern "C" {
    #[allow(clippy::too_many_arguments)]
    fn image_bench_load(
        image: *const u8,
        image_len: usize,
        bytes: *mut u8,
        bytes_len: usize,
        ends: *mut usize,
        ends_len: usize,
        kinds: *mut u8,
        kinds_len: usize,
        payloads: *mut u64,
        payloads_len: usize,
        table: *mut usize,
        table_len: usize,
    ) -> u64;
}

struct Slices {
    bytes: Vec<u8>,
    ends: Vec<usize>,
    kinds: Vec<u8>,
    payloads: Vec<u64>,
    table: Vec<usize>,
}

fn load(image: &[u8], s: &mut Slices) -> u64 {
    // Each slice goes as its pointer and its length, and none overlaps another.
    unsafe {
        image_bench_load(
            image.as_ptr(),
            image.len(),
            s.bytes.as_mut_ptr(),
            s.bytes.len(),
            s.ends.as_mut_ptr(),
            s.ends.len(),
            s.kinds.as_mut_ptr(),
            s.kinds.len(),
            s.payloads.as_mut_ptr(),
            s.payloads.len(),
            s.table.as_mut_ptr(),
            s.table.len(),
        )
    }
}

fn digit(x: u8) -> Option<u8> {
    match x {
        b'0'..=b'9' => Some(x - b'0'),
        b'A'..=b'F' => Some(x - b'A' + 10),
        _ => None,
    }
}

/// Every line's digits as bytes, one after another: no record is looked at.
fn decode(image: &[u8], out: &mut [u8]) -> Option<usize> {
    let mut n = 0;
    let mut i = 0;
    while i < image.len() {
        if image[i] == b'\n' {
            i += 1;
            continue;
        }
        let a = digit(image[i])?;
        let b = digit(*image.get(i + 1)?)?;
        *out.get_mut(n)? = a * 16 + b;
        n += 1;
        i += 2;
    }
    Some(n)
}

fn put(v: &mut Vec<u8>, line: &str) {
    v.extend_from_slice(line.as_bytes());
    v.push(b'\n');
}

/// An image of 65,536 bytes: lines of one kind, with a new chunk after each `most` of them, and in front the one or two texts
/// that make the size exact.
fn filled(head: &[&str], line: &str, most: usize, next: &str, tail: &str) -> Vec<u8> {
    let mut v = Vec::new();
    for h in head {
        put(&mut v, h);
    }
    let mut count = 0;
    while v.len() + line.len() + next.len() + tail.len() + 20 <= 65_536 {
        if count == most {
            put(&mut v, next);
            count = 0;
        }
        put(&mut v, line);
        count += 1;
    }
    put(&mut v, tail);
    let mut left = 65_536 - v.len();
    let mut front = Vec::new();
    if left % 2 == 0 {
        put(&mut front, "01");
        left -= 3;
    }
    put(&mut front, &format!("01{}", "20".repeat((left - 3) / 2)));
    front.extend_from_slice(&v);
    front
}

/// Code lines alone, in chunks: how many lines of 64 bytes each chunk has, and whether one of a single byte follows.
fn code_lines(chunks: &[(usize, bool)]) -> Vec<u8> {
    let mut v = Vec::new();
    put(&mut v, "01");
    for &(whole, short) in chunks {
        put(&mut v, CHUNK);
        for _ in 0..whole {
            put(&mut v, &format!("04{}", "12".repeat(64)));
        }
        if short {
            put(&mut v, "0412");
        }
    }
    put(&mut v, "05");
    assert!(v.len() <= 65_536);
    v
}

/// The least time of each image's load and plain decoding, in nanoseconds. All take turns, so that what else the machine does meets them alike, and
/// each is read at one place in memory, which would else make a difference.
fn least_of(images: &[Vec<u8>], s: &mut Slices, out: &mut [u8], rounds: usize) -> Vec<(f64, f64)> {
    let mut least = vec![(f64::MAX, f64::MAX); images.len()];
    let mut place = vec![0; 65_536];
    for image in images {
        assert_eq!(load(image, s), 0, "an image of the benchmark does not load");
    }
    for _ in 0..rounds {
        for (image, best) in images.iter().zip(&mut least) {
            let there = &mut place[..image.len()];
            there.copy_from_slice(image);
            let begun = Instant::now();
            black_box(load(black_box(there), s));
            let loaded = Instant::now();
            black_box(decode(black_box(there), out));
            let decoded = loaded.elapsed();
            best.0 = best.0.min((loaded - begun).as_nanos() as f64);
            best.1 = best.1.min(decoded.as_nanos() as f64);
        }
    }
    least
}

/// Images of 65,536 bytes.
fn whole_images(s: &mut Slices, out: &mut [u8]) {
    let names = ["code", "constants of 8 bytes", "Null constants", "texts"];
    let images = [
        filled(&["01", CHUNK], &format!("04{}", "12".repeat(64)), 64, CHUNK, "05"),
        filled(&["01", CHUNK], "03010123456789ABCDEF", 256, CHUNK, "05"),
        filled(&["01", CHUNK], "0300", 256, CHUNK, "05"),
        filled(&[], &format!("01{}", "41".repeat(200)), 1_000, "01", &format!("{CHUNK}\n05")),
    ];
    for (name, (load, decode)) in names.iter().zip(least_of(&images, s, out, 4_001)) {
        println!(
            "{name}: load {:.1} µs, plain decode in Rust {:.1} µs, ratio {:.2}",
            load / 1e3,
            decode / 1e3,
            load / decode
        );
    }
}

/// Code lines alone. What a line costs at the first and at the last place is the image's time less that of the same image without these lines.
fn code_images(s: &mut Slices, out: &mut [u8]) {
    let most: Vec<(usize, bool)> = (0..64).map(|i| (if i < 45 { 8 } else { 7 }, true)).collect();
    let without = |chunks: &[(usize, bool)], at: usize, lines: usize| {
        let mut fewer = chunks.to_vec();
        fewer[at] = (chunks[at].0 - lines, chunks[at].1);
        fewer
    };
    for (name, chunks) in [
        ("one chunk of 64 lines", vec![(64, false)]),
        ("64 chunks of 7 lines", vec![(7, false); 64]),
        ("the most code lines, in 64 chunks", most),
    ] {
        let last = chunks.len() - 1;
        // Of the first chunk alone the first lines, with nothing behind it; of the whole image the last lines.
        let first = vec![(7, false)];
        let variants =
            [chunks.clone(), without(&chunks, last, 7), first.clone(), without(&first, 0, 7)];
        let images: Vec<Vec<u8>> = variants.iter().map(|v| code_lines(v)).collect();
        let times = least_of(&images, s, out, 20_001);
        let lines: usize = chunks.iter().map(|c| c.0 + usize::from(c.1)).sum();
        let line = |with: usize, less: usize| {
            ((times[with].0 - times[less].0) / 7.0, (times[with].1 - times[less].1) / 7.0)
        };
        let ((first, first_decode), (end, end_decode)) = (line(2, 3), line(0, 1));
        println!(
            "{name}, {lines} code lines, {} bytes: load {:.1} µs, plain decode {:.1} µs; a line of 64 bytes at the first place \
             {first:.0} ns (decode {first_decode:.0}), at the last {end:.0} ns (decode {end_decode:.0})",
            images[0].len(),
            times[0].0 / 1e3,
            times[0].1 / 1e3
        );
    }
}

fn main() {
    let mut s = Slices {
        bytes: vec![0; least::BYTES],
        ends: vec![0; least::ENDS],
        kinds: vec![0; least::KINDS],
        payloads: vec![0; least::PAYLOADS],
        table: vec![0; least::TABLE],
    };
    let mut out = vec![0u8; least::BYTES];
    whole_images(&mut s, &mut out);
    code_images(&mut s, &mut out);
}
