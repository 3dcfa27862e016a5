//! The sine with the cosine, and the arctangent, beside libm's, in one run: the best of nine rounds, in nanoseconds a call.
use std::hint::black_box;
use std::time::Instant;

unsafe extern "C" {
    safe fn angle_sine_cosine(t: f32, sine: &mut f32, cosine: &mut f32);
    safe fn angle_arctangent(up: f32, right: f32) -> f32;
}

const CALLS: u32 = 4_000_000;

fn angle(i: u32) -> f32 {
    (i % 17_333) as f32 * 0.003 - 26.0
}

fn halves(i: u32) -> (f32, f32) {
    ((i % 777) as f32 * 0.5 - 150.0, (i % 1001) as f32 * 0.5 - 250.0)
}

fn main() {
    let calls: [(&str, &dyn Fn(u32) -> f32); 4] = [
        ("sine with cosine, ours", &|i| {
            let (mut s, mut c) = (0.0, 0.0);
            angle_sine_cosine(black_box(angle(i)), &mut s, &mut c);
            s + c
        }),
        ("sine with cosine, libm", &|i| {
            let t = black_box(angle(i));
            t.sin() + t.cos()
        }),
        ("arctangent, ours", &|i| {
            let (up, right) = black_box(halves(i));
            angle_arctangent(up, right)
        }),
        ("arctangent, libm", &|i| {
            let (up, right) = black_box(halves(i));
            up.atan2(right).to_degrees()
        }),
    ];
    let mut best = [f64::MAX; 4];
    for _ in 0..9 {
        for (n, (_, call)) in calls.iter().enumerate() {
            let start = Instant::now();
            let sum: f32 = (0..CALLS).map(call).sum();
            black_box(sum);
            best[n] = best[n].min(start.elapsed().as_nanos() as f64 / f64::from(CALLS));
        }
    }
    for ((name, _), time) in calls.iter().zip(best) {
        println!("{name}: {time:.1} ns");
    }
    println!("ours to libm's: {:.2} and {:.2}", best[0] / best[1], best[2] / best[3]);
}
