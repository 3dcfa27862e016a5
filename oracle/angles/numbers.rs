//! Each helper of the crate floats against the Rust's method: boundaries first, then every f32, or hundreds of millions.
unsafe extern "C" {
    safe fn number_radians(x: f32) -> f32;
    safe fn number_rem_euclid_360(x: f32) -> f32;
    safe fn number_abs(x: f32) -> f32;
    safe fn number_max(a: f32, b: f32) -> f32;
    safe fn number_is_sign_negative(x: f32) -> bool;
    safe fn number_as_u8(x: f32) -> u8;
    safe fn number_ceil_size(x: f32) -> u64;
    safe fn number_round_i32(x: f32) -> i32;
    safe fn number_round_i32_f64(x: f64) -> i32;
}

/// Two floats are one: the same bits, or both a NaN.
fn same(a: f32, b: f32) -> bool {
    a.to_bits() == b.to_bits() || a.is_nan() && b.is_nan()
}

/// Patterns around the numbers where something changes.
fn boundaries() -> Vec<f32> {
    let mut of = vec![0x7F80_0000u32, 0x7F80_0001, 0x7FC0_0000, 0x7FFF_FFFF, 0, 1, 0x007F_FFFF, 0x0080_0000, 0x7F7F_FFFF];
    for x in [0.5f32, 1.0, 1.5, 2.5, 254.5, 255.0, 255.5, 256.0, 359.99997, 360.0, 720.0, 900.0, 1260.0, 8388607.5, 8388608.0, 16777216.0, 2147483648.0, 4294967296.0, 562949953421312.0, 9223372036854775808.0, 18446744073709551616.0, 618970019642690137449562112.0] {
        of.extend((-3..=3).map(|d: i32| (x.to_bits() as i32 + d) as u32));
    }
    of.iter().flat_map(|&b| [f32::from_bits(b), f32::from_bits(b | 0x8000_0000)]).collect()
}

struct Random(u64);

impl Random {
    fn next(&mut self) -> u64 {
        self.0 ^= self.0 << 13;
        self.0 ^= self.0 >> 7;
        self.0 ^= self.0 << 17;
        self.0
    }
}

/// What is compared over every pattern, or every stride-th: a name and a test.
fn over(name: &str, stride: usize, agrees: impl Fn(f32) -> bool) -> u64 {
    let mut wrong = 0;
    let mut looked = 0u64;
    let all = (0..=u32::MAX).step_by(stride).map(f32::from_bits);
    for x in boundaries().into_iter().chain(all) {
        looked += 1;
        if !agrees(x) {
            wrong += 1;
            if wrong < 5 {
                println!("{name} differs at {x:?} ({:08X})", x.to_bits());
            }
        }
    }
    println!("{name}: {looked} patterns, {wrong} differ");
    wrong
}

fn pairs() -> u64 {
    let edge = boundaries();
    let mut random = Random(88172645463325252);
    let (mut looked, mut wrong, mut zeros) = (0u64, 0u64, 0u64);
    let mut look = |a: f32, b: f32| {
        looked += 1;
        // Of two zeros the Rust may answer either.
        if a == 0.0 && b == 0.0 {
            zeros += 1;
            wrong += u64::from(number_max(a, b).to_bits() != a.to_bits());
        } else {
            wrong += u64::from(!same(number_max(a, b), a.max(b)));
        }
    };
    for &a in &edge {
        for &b in &edge {
            look(a, b);
        }
    }
    for _ in 0..400_000_000u32 {
        let n = random.next();
        look(f32::from_bits(n as u32), f32::from_bits((n >> 32) as u32));
    }
    println!("max: {looked} pairs, {zeros} of zeros, {wrong} differ");
    wrong
}

fn doubles() -> u64 {
    let mut random = Random(362436069362436069);
    let (mut looked, mut wrong) = (0u64, 0u64);
    let mut look = |x: f64| {
        looked += 1;
        wrong += u64::from(number_round_i32_f64(x) != x.round() as i32);
    };
    for x in boundaries() {
        for d in -3i64..=3 {
            look(f64::from_bits((f64::from(x).to_bits() as i64).wrapping_add(d) as u64));
        }
    }
    for i in -70_000..=70_000i64 {
        for d in -2i64..=2 {
            look(f64::from_bits(((i as f64 * 30677.5).to_bits() as i64 + d) as u64));
            look(f64::from_bits(((i as f64 + 0.5).to_bits() as i64 + d) as u64));
        }
    }
    for _ in 0..200_000_000u32 {
        let n = random.next();
        look(f64::from_bits(n));
        // Within a little more than the i32's range, where most patterns are not.
        look((n as i64 as f64) * 2.5e-10);
    }
    println!("round_i32_f64: {looked} patterns, {wrong} differ");
    wrong
}

fn main() {
    let mut wrong = over("as_u8", 1, |x| number_as_u8(x) == x as u8);
    wrong += over("round_i32", 1, |x| number_round_i32(x) == x.round() as i32);
    wrong += over("ceil_size", 1, |x| number_ceil_size(x) == if x > 0.0 { x.ceil() as i64 as u64 } else { 0 });
    wrong += over("abs", 1, |x| same(number_abs(x), x.abs()));
    wrong += over("is_sign_negative", 1, |x| number_is_sign_negative(x) == (x.is_sign_negative() && !x.is_nan()));
    wrong += over("radians", 1, |x| same(number_radians(x), x.to_radians()));
    wrong += over("rem_euclid_360", 9, |x| same(number_rem_euclid_360(x), x.rem_euclid(360.0)));
    wrong += pairs();
    wrong += doubles();
    std::process::exit(i32::from(wrong > 0));
}
