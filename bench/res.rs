//! Times the Rust and ours on the same RES files, by turns, in one run. What is timed:
//! - The Rust: `decode_res`, its image dropped again: it hands back a copy of the pixels.
//! - Ours: the call of the static library, which hands back where they stand in the file.
//!
//! Each time is the best of many samples. Before a row is timed both sides must give the same.
//!
//! `names` prints what the files are; `decodes rust|ours FILE K` decodes the file of a number K times on one side and prints
//! nothing, for instructions to be counted.

extern crate alloc;

#[allow(warnings)]
#[path = "../oracle/src/wie.rs"]
mod canvas;
#[allow(dead_code)]
#[path = "../oracle/src/exported.rs"]
mod exported;
mod race;

use std::hint::black_box;

use canvas::decode_res;
use exported::{Size, tuyrashka_decode_res};
use race::race;

fn record(kind: u8, side: u8, count: &[u8], depth: u8, bytes: usize) -> Vec<u8> {
    [&[kind, side, side, depth, 0, 0, 0, 0], count, &vec![0xAD; bytes]].concat()
}

/// So many records of four frames of 16 by 16, and then this one.
fn behind(frames: usize, last: Vec<u8>) -> Vec<u8> {
    [b"\xCE\xFA\xAD\xDE\0\0\x08\0".to_vec(), record(3, 16, &[4], 8, 4 * 256).repeat(frames), last].concat()
}

fn files() -> Vec<(&'static str, Vec<u8>)> {
    let icon = |side: u8| record(2, side, &[], 8, side as usize * side as usize);
    vec![
        ("an icon of no pixel", behind(0, icon(0))),
        ("1 by 1", behind(0, icon(1))),
        ("16 by 16", behind(0, icon(16))),
        ("64 by 64", behind(0, icon(64))),
        ("255 by 255", behind(0, icon(255))),
        ("16 by 16, behind 3 records", behind(3, icon(16))),
        ("16 by 16, behind 100 records", behind(100, icon(16))),
        ("refused: RES, at the start", b"LBMP and more".to_vec()),
        ("refused: DEPTH", behind(0, record(2, 16, &[], 4, 256))),
        ("refused: NOICON, behind 3 records", behind(3, Vec::new())),
    ]
}

fn rust(file: &[u8]) {
    _ = black_box(decode_res(black_box(file)).is_ok());
}

/// Whether there is an icon, its sides and its pixels.
fn found(file: &[u8]) -> Option<(Size, &[u8])> {
    let (mut start, mut size) = (0, Size::default());
    let status = unsafe { tuyrashka_decode_res(file.as_ptr(), file.len(), &mut start, &mut size) };
    (status == 0).then(|| (size, &file[start..start + size.width as usize * size.height as usize]))
}

fn ours(file: &[u8]) {
    _ = black_box(found(black_box(file)));
}

fn same(file: &[u8]) {
    match decode_res(file) {
        Ok(image) => {
            let size = Size { width: image.width(), height: image.height() };
            assert!(found(file) == Some((size, &*image.raw())));
        }
        Err(_) => assert!(found(file).is_none()),
    }
}

fn row((name, file): (&str, Vec<u8>)) {
    same(&file);
    let [a, b] = race(|| rust(&file), || ours(&file));
    println!("| {name} | {a:.1} | {b:.1} | {:.3} |", b / a);
}

fn main() {
    let words: Vec<String> = std::env::args().skip(1).collect();
    let words: Vec<&str> = words.iter().map(String::as_str).collect();
    match words[..] {
        ["names"] => files().iter().for_each(|(name, _)| println!("{name}")),
        ["decodes", side, number, passes] => {
            let file = &files()[number.parse::<usize>().unwrap()].1;
            let decode = if side == "rust" { rust } else { ours };
            (0..passes.parse::<u32>().unwrap()).for_each(|_| decode(file));
        }
        _ => {
            println!("| file | Rust, ns a call | ours, ns a call | ours / Rust |");
            println!("|---|---|---|---|");
            files().into_iter().for_each(row);
        }
    }
}
