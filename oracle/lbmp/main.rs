//! LBMP against the Rust: `main RANDOM SEED`. Status, sides, transparent count and every word lent must be the same.

extern crate alloc;

#[allow(warnings)]
#[path = "../src/wie.rs"]
mod canvas;
#[allow(dead_code)]
#[path = "../src/exported.rs"]
mod exported;
mod files;

use std::panic::catch_unwind;
use std::process::ExitCode;

use exported::{Size, tuyrashka_decode_lbmp};
use files::{File, Random};
use wie_util::WieError;

#[derive(Debug, PartialEq)]
struct Outcome {
    status: u32,
    width: u32,
    height: u32,
    clear: u64,
    words: Vec<u32>,
}

/// What the words lent hold before a call.
fn lent(room: usize) -> Vec<u32> {
    (0..room as u32).map(|i| i.wrapping_mul(2_654_435_761) ^ 0x5A5A_5A5A).collect()
}

fn ours(file: &[u8], room: usize) -> Outcome {
    let mut words = lent(room);
    let (mut size, mut clear) = (Size { width: 77, height: 77 }, 77);
    let status = unsafe { tuyrashka_decode_lbmp(file.as_ptr(), file.len(), words.as_mut_ptr(), room, &mut size, &mut clear) };
    Outcome { status, width: size.width, height: size.height, clear, words }
}

/// Its refusals are the Rust's own kinds of error; ROOM has no counterpart there.
fn rust(file: &[u8], room: usize) -> Outcome {
    let mut words = lent(room);
    let refused = |status| Outcome { status, width: 0, height: 0, clear: 0, words: lent(room) };
    match canvas::lbmp(file) {
        Err(WieError::FatalError(_)) => refused(10),
        Err(WieError::Unimplemented(_)) => refused(11),
        Ok(image) if (room as u64) < image.width() as u64 * image.height() as u64 => refused(12),
        Ok(image) => {
            for (word, bytes) in words.iter_mut().zip(image.raw().chunks_exact(4)) {
                *word = u32::from_le_bytes(bytes.try_into().unwrap());
            }
            let clear = image.colors().iter().filter(|c| c.a == 0).count() as u64;
            Outcome { status: 0, width: image.width(), height: image.height(), clear, words }
        }
    }
}

#[derive(Default)]
struct Tally {
    files: u64,
    statuses: [u64; 4],
    clear: u64,
    differ: u64,
}

impl Tally {
    fn look(&mut self, file: &[u8], room: usize) {
        let us = ours(file, room);
        self.files += 1;
        self.statuses[if us.status == 0 { 0 } else { us.status as usize - 9 }] += 1;
        self.clear += us.clear;
        if catch_unwind(|| rust(file, room)).ok().as_ref() != Some(&us) {
            self.differ += 1;
            if self.differ < 5 {
                println!("differ with {room} words lent: {:02X?}", &file[..file.len().min(64)]);
            }
        }
    }

    /// With exactly the words needed, one fewer, none, and some to spare.
    fn look_around(&mut self, file: &File) {
        let bytes = file.bytes();
        let n = file.pixels();
        for room in [n, n.saturating_sub(1), 0, n + 1, n + 19] {
            self.look(&bytes, room);
        }
    }

    fn say(&self, what: &str) -> u64 {
        let [sound, invalid, kind, room] = self.statuses;
        println!(
            "{what}: {} files, {sound} decoded with {} transparent pixels, {invalid} INVALID, {kind} TYPE, {room} ROOM; {} differ",
            self.files, self.clear, self.differ
        );
        self.differ
    }
}

fn fields() -> u64 {
    let mut tally = Tally::default();
    files::fields(&mut |file: &[u8]| tally.look(file, 40));
    tally.say("header fields around their limits")
}

fn shapes() -> u64 {
    let mut tally = Tally::default();
    files::shapes(&mut |file| tally.look_around(file));
    tally.say("small images of every shape")
}

/// Every length of a file, and some bytes after it.
fn cuts() -> u64 {
    let mut tally = Tally::default();
    files::samples(&mut |file| {
        let mut bytes = file.bytes();
        bytes.extend([0xA5; 40]);
        (0..=bytes.len()).for_each(|n| tally.look(&bytes[..n], file.pixels()));
    });
    tally.say("cut at every length")
}

/// Every byte of the header at all its values, and every other byte at some.
fn damage() -> u64 {
    let mut tally = Tally::default();
    files::samples(&mut |file| {
        let mut bytes = file.bytes();
        for at in 0..bytes.len() {
            let old = bytes[at];
            for new in (0..=255u8).step_by(if at < 24 { 1 } else { 51 }) {
                bytes[at] = new;
                tally.look(&bytes, file.pixels());
            }
            bytes[at] = old;
        }
    });
    tally.say("one byte damaged")
}

fn random(n: u64, seed: u64) -> u64 {
    let (mut tally, mut random) = (Tally::default(), Random::new(seed));
    for _ in 0..n {
        let (file, room) = random.file();
        tally.look(&file, room);
    }
    tally.say(&format!("at random from {seed}"))
}

fn main() -> ExitCode {
    let words: Vec<u64> = std::env::args().skip(1).map(|w| w.parse().expect("a number")).collect();
    let [n, seed] = words[..] else { panic!("main RANDOM SEED") };
    let differ = fields() + shapes() + cuts() + damage() + random(n, seed);
    if differ == 0 { ExitCode::SUCCESS } else { ExitCode::FAILURE }
}
