//! The sine and the cosine against the C library's, bit for bit: `strokes [STRIDE]`. At the points of everyday and of random
//! strokes, then at every f32 (or every STRIDE-th) from -26 to 26.
unsafe extern "C" {
    safe fn angle_sine_cosine(t: f32, sine: &mut f32, cosine: &mut f32);
}

/// Differences printed in full; the rest are only counted.
const SHOWN: u64 = 5;

fn pair(t: f32) -> (f32, f32) {
    let (mut s, mut c) = (0.0, 0.0);
    angle_sine_cosine(t, &mut s, &mut c);
    (s, c)
}

struct Random(u64);

impl Random {
    fn below(&mut self, n: u32) -> u32 {
        self.0 = self.0.wrapping_mul(6364136223846793005).wrapping_add(1442695040888963407);
        (self.0 >> 33) as u32 % n
    }
}

#[derive(Default)]
struct Found {
    looked: u64,
    sines: u64,
    cosines: u64,
}

impl Found {
    fn look(&mut self, t: f32) {
        let (s, c) = pair(t);
        let (sine, cosine) = (s.to_bits() != t.sin().to_bits(), c.to_bits() != t.cos().to_bits());
        self.looked += 1;
        self.sines += u64::from(sine);
        self.cosines += u64::from(cosine);
        if (sine || cosine) && self.sines + self.cosines <= SHOWN {
            println!("{t:?}: {s:?} and {c:?}, not {:?} and {:?}", t.sin(), t.cos());
        }
    }

    /// At the angles of one stroke, as 01 says.
    fn stroke(&mut self, start: i32, sweep: i32, w: u32, h: u32, most: i64) {
        let (a, b) = ((w as f32 - 1.0) / 2.0, (h as f32 - 1.0) / 2.0);
        let (start, sweep) = ((start as f32).to_radians(), (sweep as f32).to_radians());
        let steps = ((sweep.abs() * a.max(b).max(1.0)).ceil() as i64 * 2).clamp(1, most) as i32;
        (0..=steps).for_each(|i| self.look(start + sweep * (i as f32) / (steps as f32)));
    }

    fn say(&self, what: &str) -> u64 {
        let Found { looked, sines, cosines } = self;
        println!("{what}: {looked} angles, {sines} sines and {cosines} cosines differ");
        sines + cosines
    }
}

fn everyday() -> u64 {
    let mut found = Found::default();
    for w in 1..=320 {
        for (start, sweep) in [(0, 360), (0, 90), (90, 90), (180, 90), (270, 90), (0, 180), (90, -360), (45, 90)] {
            found.stroke(start, sweep, w, w, 16 * 640);
        }
    }
    found.say("everyday strokes")
}

fn at_random() -> u64 {
    let (mut random, mut found) = (Random(12345), Found::default());
    while found.looked < 100_000_000 {
        let mut within = |low: i32, n: u32| low + random.below(n) as i32;
        let (start, sweep) = (within(-720, 1441), within(-720, 1441));
        found.stroke(start, sweep, within(1, 400) as u32, within(1, 400) as u32, 16 * 560);
    }
    found.say("random strokes")
}

fn every(stride: usize) -> u64 {
    let mut found = Found::default();
    for bits in (0..=26f32.to_bits()).step_by(stride) {
        found.look(f32::from_bits(bits));
        found.look(-f32::from_bits(bits));
    }
    found.say(&format!("from -26 to 26, by {stride}"))
}

/// Angles with our answers, as bits: both zeros, around each multiple of H / 2, and others.
fn points(n: u32) {
    let mut random = Random(7);
    let mut all = vec![0.0f32, -0.0, 26.0, -26.0, f32::MIN_POSITIVE, f32::from_bits(1)];
    for j in -33..=33 {
        let at = (f64::from(j) * std::f64::consts::FRAC_PI_4) as f32;
        if at.abs() < 26.0 && j != 0 {
            all.extend((-6..=6).map(|d: i32| f32::from_bits((at.to_bits() as i32 + d) as u32)));
        }
    }
    while all.len() < n as usize {
        let t = (f64::from(random.below(1 << 30)) / f64::from(1 << 29) - 1.0) * 26.0;
        all.push((t * [1.0, 1.0, 1.0, 0.1, 1e-3, 1e-8, 1e-20][random.below(7) as usize]) as f32);
    }
    for t in all {
        let (s, c) = pair(t);
        println!("{:08X} {:08X} {:08X}", t.to_bits(), s.to_bits(), c.to_bits());
    }
}

fn main() {
    let words: Vec<String> = std::env::args().skip(1).collect();
    let stride = match &words[..] {
        [what, n] if what == "--points" => return points(n.parse().unwrap()),
        [stride] => stride.parse().unwrap(),
        _ => 1,
    };
    let differ = everyday() + at_random() + every(stride);
    std::process::exit(i32::from(differ > 0));
}
