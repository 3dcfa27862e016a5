//! What two clips share, ours against the Rust's `Clip::intersect`: `clips N SEED`. Every pair at the edges first, then N at
//! random. Corner and sides must be the same.

extern crate alloc;

#[allow(warnings)]
#[path = "../src/wie.rs"]
mod canvas;
#[allow(dead_code)]
#[path = "../src/exported.rs"]
mod exported;

use std::process::ExitCode;

use exported::{Clip, part, tuyrashka_clip_intersect};

/// What is lent holds a clip that no pair shares.
fn ours(a: &Clip, b: &Clip) -> Clip {
    let mut both = Clip { x: 77, y: -77, width: u32::MAX, height: u32::MAX };
    unsafe { tuyrashka_clip_intersect(a, b, &mut both) };
    both
}

fn rust(a: &Clip, b: &Clip) -> Clip {
    let clip = |&Clip { x, y, width, height }: &Clip| canvas::Clip { x, y, width, height };
    part(clip(a).intersect(&clip(b)))
}

#[derive(Default)]
struct Tally {
    pairs: u64,
    apart: u64,
    differ: u64,
}

impl Tally {
    fn look(&mut self, a: Clip, b: Clip) {
        let (us, them) = (ours(&a, &b), rust(&a, &b));
        self.pairs += 1;
        self.apart += (them.width == 0 || them.height == 0) as u64;
        if us != them {
            self.differ += 1;
            if self.differ <= 5 {
                println!("differs at {a:?} and {b:?}: {us:?}, the Rust {them:?}");
            }
        }
    }

    fn say(&self, what: &str) -> u64 {
        let Tally { pairs, apart, differ } = self;
        println!("{what}: {pairs} pairs, {} share pixels, {apart} none; {differ} differ", pairs - apart);
        *differ
    }
}

const PLACES: [i32; 10] = [i32::MIN, i32::MIN + 1, -240, -1, 0, 1, 239, 240, i32::MAX - 1, i32::MAX];
const SIDES: [u32; 10] = [0, 1, 2, 240, 241, 1 << 31, (1 << 31) - 1, (1 << 31) + 1, u32::MAX - 1, u32::MAX];

/// Where two clips begin along an axis, and their sides, at every edge.
fn spans() -> impl Iterator<Item = [(i32, u32); 2]> {
    let one = || PLACES.into_iter().flat_map(|at| SIDES.map(|side| (at, side)));
    one().flat_map(move |a| one().map(move |b| [a, b]))
}

/// Every pair of clips at the edges: all spans of columns with all spans of rows.
fn edges() -> u64 {
    let mut tally = Tally::default();
    for [(ax, aw), (bx, bw)] in spans() {
        for [(ay, ah), (by, bh)] in spans() {
            let [a, b] = [(ax, ay, aw, ah), (bx, by, bw, bh)].map(|(x, y, width, height)| Clip { x, y, width, height });
            tally.look(a, b);
        }
    }
    tally.say("edges")
}

/// The generator splitmix64.
struct Random(u64);

impl Random {
    fn next(&mut self) -> u64 {
        self.0 = self.0.wrapping_add(0x9e37_79b9_7f4a_7c15);
        let z = (self.0 ^ (self.0 >> 30)).wrapping_mul(0xbf58_476d_1ce4_e5b9);
        let z = (z ^ (z >> 27)).wrapping_mul(0x94d0_49bb_1331_11eb);
        z ^ (z >> 31)
    }

    /// Three numbers of four are about a screen, the others anywhere.
    fn clip(&mut self) -> Clip {
        let far = |random: &mut Random| random.next() % 4 == 0;
        let mut place = || if far(self) { self.next() as i32 } else { (self.next() % 800) as i32 - 300 };
        let (x, y) = (place(), place());
        let mut side = || if far(self) { self.next() as u32 } else { (self.next() % 700) as u32 };
        Clip { x, y, width: side(), height: side() }
    }
}

fn random(n: u64, seed: u64) -> u64 {
    let (mut tally, mut random) = (Tally::default(), Random(seed));
    for _ in 0..n {
        let (a, b) = (random.clip(), random.clip());
        tally.look(a, b);
    }
    tally.say(&format!("at random from {seed}"))
}

fn main() -> ExitCode {
    let words: Vec<u64> = std::env::args().skip(1).map(|w| w.parse().expect("a number")).collect();
    let [n, seed] = words[..] else { panic!("clips N SEED") };
    if edges() + random(n, seed) == 0 { ExitCode::SUCCESS } else { ExitCode::FAILURE }
}
