//! Times the Rust and ours on the same LBMP files, by turns, in one run. What is timed:
//! - The Rust: `decode_lbmp` on the whole file, its image dropped again: it allocates the words it hands back.
//! - Ours: the whole call of the static library, which judges the file, counts its transparent pixels and writes the words
//!   into a buffer lent once.
//!
//! Each time is the best of many samples. Before a row is timed both sides must give the same words.
//!
//! `decodes rust|ours TYPE MASK K` decodes K times on one side and prints nothing, for instructions to be counted.

extern crate alloc;

#[allow(warnings)]
#[path = "../oracle/src/wie.rs"]
mod canvas;
#[allow(dead_code)]
#[path = "../oracle/src/exported.rs"]
mod exported;
mod race;

use std::hint::black_box;

use exported::{Size, tuyrashka_decode_lbmp};
use race::race;

const SIDES: [(u32, u32); 4] = [(240, 320), (16, 16), (5, 7), (1, 1)];
const TYPES: [u32; 3] = [2, 8, 16];

fn ours(file: &[u8], out: &mut [u32]) -> u64 {
    let (mut size, mut clear) = (Size::default(), 0);
    let status = unsafe { tuyrashka_decode_lbmp(file.as_ptr(), file.len(), out.as_mut_ptr(), out.len(), &mut size, &mut clear) };
    assert_eq!(status, 0);
    clear
}

/// A file whose bytes are alike by no plan.
fn file(kind: u32, width: u32, height: u32, mask: u32) -> Vec<u8> {
    let plane = height.div_ceil(8) * width;
    let size = match kind {
        2 => plane,
        8 => width * height,
        _ => width * height * 2,
    };
    let bytes = size * if kind == 2 { 2 } else { 1 } + plane * mask;
    let mut s = 7u32;
    let byte = |_| {
        s = s.wrapping_mul(1_664_525).wrapping_add(1_013_904_223);
        (s >> 24) as u8
    };
    let head = [0x504D_424C, kind, width, height, size, mask];
    head.iter().flat_map(|w| w.to_le_bytes()).chain((0..bytes).map(byte)).collect()
}

fn rust(file: &[u8]) {
    _ = black_box(canvas::lbmp(black_box(file)).is_ok());
}

fn row(kind: u32, (width, height): (u32, u32), mask: u32) {
    let pixels = (width * height) as usize;
    let (file, mut out) = (file(kind, width, height, mask), vec![0u32; pixels]);
    ours(&file, &mut out);
    let image = canvas::lbmp(&file).unwrap_or_else(|_| panic!("the Rust refuses"));
    let words: Vec<u8> = out.iter().flat_map(|w| w.to_le_bytes()).collect();
    assert!(*image.raw() == words, "the two sides differ in type {kind}");
    let [a, b] = race(|| rust(&file), || _ = black_box(ours(black_box(&file), &mut out))).map(|t| t / pixels as f64);
    let mask = ["no", "yes"][mask as usize];
    println!("| {width} by {height} | {kind} | {mask} | {a:.3} | {b:.3} | {:.3} |", b / a);
}

fn decodes(side: &str, kind: u32, mask: u32, passes: u32) {
    let (width, height) = SIDES[0];
    let (file, mut out) = (file(kind, width, height, mask), vec![0u32; (width * height) as usize]);
    for _ in 0..passes {
        match side {
            "rust" => rust(&file),
            _ => _ = black_box(ours(black_box(&file), &mut out)),
        }
    }
}

fn main() {
    let words: Vec<String> = std::env::args().skip(1).collect();
    if let [mode, side, kind, mask, passes] = &words[..] {
        assert_eq!(mode, "decodes");
        return decodes(side, kind.parse().unwrap(), mask.parse().unwrap(), passes.parse().unwrap());
    }
    println!("| size | type | mask | Rust, ns a pixel | ours, ns a pixel | ours / Rust |");
    println!("|---|---|---|---|---|---|");
    for sides in SIDES {
        TYPES.into_iter().for_each(|kind| (0..2).for_each(|mask| row(kind, sides, mask)));
    }
}
