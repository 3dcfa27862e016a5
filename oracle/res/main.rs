//! RES against the Rust: `main RANDOM SEED`. Status, sides, where the part stands and every pixel must be the same.

extern crate alloc;

#[allow(warnings)]
#[path = "../src/wie.rs"]
mod canvas;
#[allow(dead_code)]
#[path = "../src/exported.rs"]
mod exported;
#[allow(dead_code)]
#[path = "../src/icons.rs"]
mod icons;

use std::panic::catch_unwind;
use std::process::ExitCode;

use canvas::decode_res;
use exported::{Size, tuyrashka_decode_res};
use icons::{number, stand_at};

#[derive(Default)]
struct Tally {
    files: u64,
    found: u64,
    pixels: u64,
    refused: [u64; 4],
    differ: u64,
}

/// Whether both sides give the same; where they find an icon, its pixels, and else the refusal.
fn compare(file: &mut [u8]) -> Option<Result<usize, u32>> {
    let rust = catch_unwind(|| decode_res(file)).ok()?;
    let (mut at, mut size) = (77, Size { width: 77, height: 77 });
    let status = unsafe { tuyrashka_decode_res(file.as_ptr(), file.len(), &mut at, &mut size) };
    match rust {
        Err(rust) => ((status, at, size) == (number(&rust), 0, Size::default())).then_some(Err(status)),
        Ok(rust) => {
            let sides = Size { width: rust.width(), height: rust.height() };
            let part = file.get(at..at + rust.raw().len());
            let same = (status, size, part) == (0, sides, Some(&*rust.raw()));
            (same && stand_at(file, &rust.raw(), at)).then(|| Ok(rust.raw().len()))
        }
    }
}

impl Tally {
    fn look(&mut self, file: &mut [u8]) {
        self.files += 1;
        match compare(file) {
            Some(Ok(pixels)) => {
                self.found += 1;
                self.pixels += pixels as u64;
            }
            Some(Err(number)) => self.refused[number as usize - 13] += 1,
            None => {
                self.differ += 1;
                if self.differ < 5 {
                    println!("differ: {} bytes, {:02X?}", file.len(), &file[..file.len().min(64)]);
                }
            }
        }
    }

    fn say(&self, what: &str) -> u64 {
        let [res, depth, kind, none] = self.refused;
        println!(
            "{what}: {} files, {} icons of {} pixels, {res} RES, {depth} DEPTH, {kind} RESTYPE, {none} NOICON; {} differ",
            self.files, self.found, self.pixels, self.differ
        );
        self.differ
    }
}

fn start(offset: usize) -> Vec<u8> {
    [b"\xCE\xFA\xAD\xDE\0\0", &(offset as u16).to_le_bytes()[..]].concat()
}

/// A record, its pixels or its frames being so many bytes that are alike by no plan.
fn record(kind: u8, width: u8, height: u8, depth: u8, count: &[u8], bytes: usize) -> Vec<u8> {
    let body = (0..bytes).map(|i| (i.wrapping_mul(2_654_435_761) >> 13) as u8);
    [kind, width, height, depth, 1, 2, 3, 4].into_iter().chain(count.iter().copied()).chain(body).collect()
}

/// Every type with every depth, first and behind frames.
fn fields() -> u64 {
    let mut tally = Tally::default();
    for kind in 0..=255 {
        for depth in 0..=255 {
            let last = record(kind, 2, 2, depth, &[1], 20);
            tally.look(&mut [start(8), last.clone()].concat());
            tally.look(&mut [start(8), record(3, 3, 1, 8, &[2], 6), last].concat());
        }
    }
    tally.say("every type and depth")
}

/// Every pair of sides, the file ending at the last pixel and one before it.
fn sides() -> u64 {
    let mut tally = Tally::default();
    for width in 0..=255 {
        for height in 0..=255 {
            let mut file = [start(8), record(2, width, height, 8, &[], width as usize * height as usize)].concat();
            tally.look(&mut file);
            file.pop();
            tally.look(&mut file);
        }
    }
    tally.say("every pair of sides")
}

/// Every number of frames, of a few sides, with an icon behind them; the same file cut around the end of the frames.
fn frames() -> u64 {
    let mut tally = Tally::default();
    for (width, height) in [(0, 0), (1, 1), (7, 3), (16, 16), (255, 255)] {
        for count in 0..=255 {
            let area = width as usize * height as usize;
            let frames = record(3, width, height, 8, &[count], area * count as usize);
            let end = 8 + frames.len();
            let mut file = [start(8), frames, record(2, 9, 5, 8, &[], 45)].concat();
            tally.look(&mut file);
            for length in [end - 1, end, end + 7, end + 8] {
                tally.look(&mut file[..length]);
            }
        }
    }
    tally.say("every number of frames")
}

/// Every first offset, in a file in which every second byte is a type.
fn offsets(random: &mut Random) -> u64 {
    let mut tally = Tally::default();
    let mut file = [start(0), random.dense(66_000)].concat();
    for offset in 0..=65_535 {
        file[6..8].copy_from_slice(&(offset as u16).to_le_bytes());
        tally.look(&mut file);
    }
    tally.say("every first offset")
}

/// Short files of such bytes.
fn random(n: u64, random: &mut Random) -> u64 {
    let mut tally = Tally::default();
    for _ in 0..n {
        let length = random.below(120);
        let mut file = [start(5 + random.below(9)), random.dense(length)].concat();
        (file[4], file[5]) = (random.dense(1)[0], random.dense(1)[0]);
        tally.look(&mut file);
    }
    tally.say("at random")
}

/// The generator splitmix64.
struct Random(u64);

impl Random {
    fn below(&mut self, n: usize) -> usize {
        self.0 = self.0.wrapping_add(0x9E37_79B9_7F4A_7C15);
        let z = (self.0 ^ (self.0 >> 30)).wrapping_mul(0xBF58_476D_1CE4_E5B9);
        let z = (z ^ (z >> 27)).wrapping_mul(0x94D0_49BB_1331_11EB);
        ((z ^ (z >> 31)) >> 32) as usize % n
    }

    /// Bytes that are mostly a type, the depth or a small side.
    fn dense(&mut self, length: usize) -> Vec<u8> {
        let byte = |_| match self.below(16) {
            0..=2 => 2,
            3..=6 => 3,
            7..=11 => 8,
            12..=14 => self.below(5) as u8,
            _ => self.below(256) as u8,
        };
        (0..length).map(byte).collect()
    }
}

fn main() -> ExitCode {
    let words: Vec<u64> = std::env::args().skip(1).map(|w| w.parse().expect("a number")).collect();
    let [n, seed] = words[..] else { panic!("main RANDOM SEED") };
    std::panic::set_hook(Box::new(|_| ()));
    let mut chance = Random(seed);
    let differ = fields() + sides() + frames() + offsets(&mut chance) + random(n, &mut chance);
    if differ == 0 { ExitCode::SUCCESS } else { ExitCode::FAILURE }
}
