//! Segments cut to the screen, ours against the Rust's `clip_segment`: `cuts N SEED`. The boundaries first, then N at random.
//! The four ends must be the same, or nothing be left on both sides.

extern crate alloc;

#[allow(warnings)]
#[path = "../src/wie.rs"]
mod canvas;

use std::process::ExitCode;

unsafe extern "C" {
    fn segment_left(x1: i32, y1: i32, x2: i32, y2: i32, width: u32, height: u32) -> bool;
    fn segment_end(which: u32, x1: i32, y1: i32, x2: i32, y2: i32, width: u32, height: u32) -> i32;
}

/// The ends where nothing is left.
const NONE: [i32; 4] = [0; 4];

/// Whether something is left, and the ends then.
fn ours([x1, y1, x2, y2]: [i32; 4], (width, height): (u32, u32)) -> (u32, [i32; 4]) {
    let left = unsafe { segment_left(x1, y1, x2, y2, width, height) } as u32;
    let end = |which| unsafe { segment_end(which, x1, y1, x2, y2, width, height) };
    let ends = [end(0), end(1), end(2), end(3)];
    (left, ends)
}

fn rust([x1, y1, x2, y2]: [i32; 4], (width, height): (u32, u32)) -> (u32, [i32; 4]) {
    canvas::segment_ends(x1, y1, x2, y2, width, height).map_or((0, NONE), |(x1, y1, x2, y2)| (1, [x1, y1, x2, y2]))
}

#[derive(Default)]
struct Tally {
    segments: u64,
    kept: u64,
    cut: u64,
    beyond: u64,
    differ: u64,
}

impl Tally {
    fn look(&mut self, segment: [i32; 4], sides: (u32, u32)) {
        let (left, ends) = rust(segment, sides);
        self.segments += 1;
        self.kept += (left == 1 && ends == segment) as u64;
        self.cut += (left == 1 && ends != segment) as u64;
        let within = |v: i32, side: u32| (-1..=side as i64).contains(&(v as i64));
        let [x1, y1, x2, y2] = ends;
        let inside = within(x1, sides.0) && within(x2, sides.0) && within(y1, sides.1) && within(y2, sides.1);
        self.beyond += (left == 1 && !inside) as u64;
        let answer = ours(segment, sides);
        if answer != (left, ends) {
            let [(was, a), (now, b)] = [(left, ends), answer];
            self.differ += if was == now { a.iter().zip(b).filter(|(a, b)| **a != *b).count() as u64 } else { 4 };
            if self.differ < 40 {
                println!("differs on {sides:?} at {segment:?}: {answer:?}, the Rust {:?}", (left, ends));
            }
        }
    }

    fn say(&self, what: &str) -> u64 {
        let Tally { segments, kept, cut, beyond, differ } = self;
        let gone = segments - kept - cut;
        println!(
            "{what}: {segments} segments, {kept} kept, {cut} cut, {gone} gone; {beyond} end past the margins; {differ} ends differ"
        );
        *differ
    }
}

const SIDES: [u32; 7] = [0, 1, 2, 3, 240, 320, 32_767];

/// Every end at and around the margins and at the ends of i32, on screens of these sides.
fn boundaries() -> u64 {
    let mut tally = Tally::default();
    let places = |side: u32| {
        let side = side as i32;
        [i32::MIN, i32::MIN + 1, -32_769, -2, -1, 0, 1, side - 1, side, side + 1, 65_536, i32::MAX - 1, i32::MAX]
    };
    for (width, height) in SIDES.into_iter().flat_map(|w| SIDES.map(|h| (w, h))) {
        for (x1, x2) in places(width).into_iter().flat_map(|a| places(width).map(|b| (a, b))) {
            for (y1, y2) in places(height).into_iter().flat_map(|a| places(height).map(|b| (a, b))) {
                tally.look([x1, y1, x2, y2], (width, height));
            }
        }
    }
    tally.say("boundaries")
}

/// The generator splitmix64.
struct Random(u64);

impl Random {
    fn next(&mut self) -> u64 {
        self.0 = self.0.wrapping_add(0x9e37_79b9_7f4a_7c15);
        let z = (self.0 ^ (self.0 >> 30)).wrapping_mul(0xbf58_476d_1ce4_e5b9);
        let z = (z ^ (z >> 27)).wrapping_mul(0x94d0_49bb_1331_11eb);
        z ^ (z >> 31)
    }

    fn from(&mut self, a: i64, b: i64) -> i64 {
        a + (self.next() % (b - a + 1) as u64) as i64
    }

    fn side(&mut self) -> u32 {
        match self.from(1, 4) {
            1 => SIDES[self.from(0, 6) as usize],
            2 => self.from(0, 32_767) as u32,
            _ => self.from(1, 400) as u32,
        }
    }

    /// On a screen or a little past it, some sides away, or anywhere.
    fn place(&mut self, side: u32) -> i64 {
        let side = side as i64;
        match self.from(1, 8) {
            1..=3 => self.from(-2, side + 1),
            4 | 5 => self.from(-3 * side - 9, 4 * side + 9),
            6 => self.from(-100_000, 100_000),
            7 => self.from(i32::MIN as i64, i32::MAX as i64),
            _ => [-2, -1, 0, side - 1, side, side + 1][self.from(0, 5) as usize],
        }
    }

    /// A third go through a point near the screen and end on both sides of it, so that most of these are cut.
    fn segment(&mut self, (width, height): (u32, u32)) -> [i32; 4] {
        let (x, y) = (self.place(width), self.place(height));
        let ends = if self.from(1, 3) == 1 {
            let reach = [40, 3_000, 70_000, i32::MAX as i64][self.from(0, 3) as usize];
            let (dx, dy) = (self.from(-reach, reach), self.from(-reach, reach));
            let (before, after) = (self.from(0, 3), self.from(0, 3));
            [x - before * dx, y - before * dy, x + after * dx, y + after * dy]
        } else {
            [x, y, self.place(width), self.place(height)]
        };
        ends.map(|n| n.clamp(i32::MIN as i64, i32::MAX as i64) as i32)
    }
}

fn at_random(n: u64, seed: u64) -> u64 {
    let (mut tally, mut random) = (Tally::default(), Random(seed));
    for _ in 0..n {
        let sides = (random.side(), random.side());
        tally.look(random.segment(sides), sides);
    }
    tally.say(&format!("at random from {seed}"))
}

fn main() -> ExitCode {
    let words: Vec<u64> = std::env::args().skip(1).map(|w| w.parse().expect("a number")).collect();
    let [n, seed] = words[..] else { panic!("cuts N SEED") };
    let differ = boundaries() + at_random(n, seed);
    if differ == 0 { ExitCode::SUCCESS } else { ExitCode::FAILURE }
}
