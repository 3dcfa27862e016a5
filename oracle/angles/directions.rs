//! The arctangent against the Rust's `up.atan2(right).to_degrees()`, bit for bit: `directions [REACH]`. Every direction of halves
//! up to REACH (6,000), then others at random up to 16,383, which is all of the domain.
unsafe extern "C" {
    safe fn angle_arctangent(up: f32, right: f32) -> f32;
}

/// Differences printed in full; the rest are only counted.
const SHOWN: u64 = 5;

struct Random(u64);

impl Random {
    fn below(&mut self, n: u64) -> u64 {
        self.0 ^= self.0 << 13;
        self.0 ^= self.0 >> 7;
        self.0 ^= self.0 << 17;
        self.0 % n
    }

    /// A multiple of a half, up to 16,383 in size.
    fn halves(&mut self) -> f32 {
        (self.below(65_533) as i64 - 32_766) as f32 * 0.5
    }
}

#[derive(Default)]
struct Found {
    looked: u64,
    differ: u64,
}

impl Found {
    fn look(&mut self, up: f32, right: f32) {
        if up == 0.0 && right == 0.0 {
            return;
        }
        let (ours, rust) = (angle_arctangent(up, right), up.atan2(right).to_degrees());
        self.looked += 1;
        if ours.to_bits() != rust.to_bits() {
            self.differ += 1;
            if self.differ <= SHOWN {
                println!("{up:?} {right:?}: {ours:?}, not {rust:?}");
            }
        }
    }

    fn say(&self, what: &str) -> u64 {
        println!("{what}: {} directions, {} differ", self.looked, self.differ);
        self.differ
    }
}

/// The axes and the diagonals, with zeros of both signs.
fn straight() -> u64 {
    let mut found = Found::default();
    for n in 1..=32_766 {
        let x = n as f32 * 0.5;
        for size in [x, -x] {
            for zero in [0.0, -0.0] {
                found.look(zero, size);
                found.look(size, zero);
            }
            found.look(size, x);
            found.look(size, -x);
        }
    }
    found.say("axes and diagonals")
}

fn every(reach: i32) -> u64 {
    let mut found = Found::default();
    for up in -2 * reach..=2 * reach {
        for right in -2 * reach..=2 * reach {
            found.look(up as f32 * 0.5, right as f32 * 0.5);
        }
    }
    found.say(&format!("up to {reach}"))
}

fn at_random() -> u64 {
    let (mut random, mut found) = (Random(88172645463325252), Found::default());
    for _ in 0..200_000_000u32 {
        found.look(random.halves(), random.halves());
    }
    found.say("at random")
}

/// Directions with our answers, as bits.
fn points(n: u32) {
    let mut random = Random(362436069362436069);
    let mut all = vec![(0.5, 16383.0), (16383.0, 0.5), (16383.0, 16382.5), (-16383.0, 16382.5), (-0.5, -16383.0), (0.0, -1.0), (-0.0, -1.0), (-0.0, 1.0)];
    while all.len() < n as usize {
        let (up, right) = (random.halves(), random.halves());
        let small = random.below(3) == 0;
        all.push(if small { ((up as i32 % 40) as f32 * 0.5, (right as i32 % 40) as f32 * 0.5 + 20.0) } else { (up, right) });
    }
    for (up, right) in all {
        println!("{:08X} {:08X} {:08X}", up.to_bits(), right.to_bits(), angle_arctangent(up, right).to_bits());
    }
}

fn main() {
    let words: Vec<String> = std::env::args().skip(1).collect();
    let reach = match &words[..] {
        [what, n] if what == "--points" => return points(n.parse().unwrap()),
        [reach] => reach.parse().unwrap(),
        _ => 6_000,
    };
    let differ = straight() + every(reach) + at_random();
    std::process::exit(i32::from(differ > 0));
}
