//! Curves against the Rust, by the static library: `curves SIDE`. The everyday arcs; every pie up to SIDE by SIDE whose edges
//! are at multiples of 15 degrees; and arcs and pies as big as phones' screens, at every whole degree.

extern crate alloc;

#[allow(dead_code)]
#[path = "../src"]
mod oracle {
    pub mod answer;
    #[allow(warnings)]
    #[path = "wie.rs"]
    pub mod canvas;
    pub mod case;
    pub mod exported;
    pub mod icons;
    pub mod library;
    pub mod rules;
    pub mod tally;
}

use std::process::ExitCode;

use oracle::{answer, canvas, case, icons, library, rules, tally};

/// Differences printed in full; the rest are only counted.
const SHOWN: u64 = 5;

#[derive(Default)]
struct Tally {
    shapes: u64,
    points: u64,
    differ: u64,
}

impl Tally {
    fn look(&mut self, line: &str) {
        let (ours, rust) = (library::answer(line), answer::answer(line.as_bytes()));
        self.shapes += 1;
        self.points += rust.split(' ').find_map(|word| word.strip_prefix("count=")?.parse::<u64>().ok()).unwrap_or(0);
        self.differ += (ours != rust) as u64;
        if ours != rust && self.differ <= SHOWN {
            println!("case: {line}\n  ours: {ours}\n  Rust: {rust}");
        }
    }

    fn say(&self, what: &str) -> u64 {
        let Tally { shapes, points, differ } = self;
        println!("{what}: {shapes}, {points} points landed; {differ} differ");
        *differ
    }
}

const WHITE: &str = "255 255 255 255";

/// Circles of 1 to 320 at five places, once with XOR off and once with XOR on.
fn everyday() -> u64 {
    let mut tally = Tally::default();
    for xor in [0, 1] {
        for x in [0, 1, 7, 40, -20] {
            for w in 1..=320 {
                for angles in ["0 360", "0 90", "90 90", "180 90", "270 90", "0 180", "90 -360", "45 90"] {
                    tally.look(&format!("0 360 360 {xor} z arc {x} {x} {w} {w} {angles} {WHITE} 0 0 360 360"));
                }
            }
        }
    }
    tally.say("everyday arcs, XOR off and on")
}

/// Sweeps both ways, and whole ones and empty ones.
fn pies(most: u32) -> u64 {
    let mut tally = Tally::default();
    for (w, h) in (1..=most).flat_map(|w| (1..=most).map(move |h| (w, h))) {
        for start in (0..360).step_by(15) {
            for sweep in (-360..=360).step_by(15).filter(|sweep| start == 0 || sweep % 360 != 0) {
                tally.look(&format!("0 {w} {h} 0 z pie 0 0 {w} {h} {start} {sweep} {WHITE} 0 0 {w} {h}"));
            }
        }
    }
    tally.say(&format!("pies up to {most} by {most}"))
}

/// In each box that is at most three less than a screen, on both axes alike.
fn screens() -> u64 {
    let mut tally = Tally::default();
    for (w, h) in [(96, 64), (101, 80), (120, 160), (128, 128), (176, 220), (240, 320)] {
        for (less, start) in (0..=3).flat_map(|less| (0..360).map(move |start| (less, start))) {
            let at = format!("0 0 {} {}", w - less, h - less);
            tally.look(&format!("0 {w} {h} 0 z pie {at} {start} 90 {WHITE} 0 0 {w} {h}"));
            tally.look(&format!("0 {w} {h} 1 z arc {at} {start} 90 {WHITE} 0 0 {w} {h}"));
            tally.look(&format!("0 {w} {h} 1 z arc {at} 0 {} {WHITE} 0 0 {w} {h}", -start));
        }
    }
    tally.say("arcs and pies of phones' screens")
}

fn main() -> ExitCode {
    let words: Vec<String> = std::env::args().skip(1).collect();
    let [most] = &words[..] else { panic!("curves SIDE") };
    let differ = everyday() + pies(most.parse().expect("a number")) + screens();
    if differ == 0 { ExitCode::SUCCESS } else { ExitCode::FAILURE }
}
