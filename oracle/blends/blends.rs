//! The words of a blend. By rule 1 against the Rust: each blend of one channel by its expression, then whole pixels by its own
//! `draw`. By rule 2, which the Rust has not, against the nearest level: each blend of one channel, then whole pixels, which the
//! Rust reads and stores. And where the two rules differ.

extern crate alloc;

#[allow(warnings)]
#[path = "../src/wie.rs"]
mod canvas;

use canvas::{
    AbgrPixel, ArgbPixel, Canvas, Clip, Color, ImageBuffer, ImageBufferCanvas, PixelType, Rgb8Pixel, Rgb332Pixel, Rgb565Pixel,
    VecImageBuffer,
};

unsafe extern "C" {
    safe fn blending_332(rule: u32, source: u32, raw: u32) -> u32;
    safe fn blending_565(rule: u32, source: u32, raw: u32) -> u32;
    safe fn blending_rgb(rule: u32, source: u32, raw: u32, set: u32) -> u32;
    safe fn blending_bgr(rule: u32, source: u32, raw: u32, set: u32) -> u32;
    safe fn blending_ink(format: u32, source: u32, keep: &mut u32, flip: &mut u32);
}

const ALPHA: u32 = 0xFF00_0000;
const SIDE: u32 = 256;
const PIXELS: usize = (SIDE * SIDE) as usize;

/// Whether a pair differs, the first few of all printed.
struct Tally {
    looked: u64,
    wrong: u64,
}

impl Tally {
    fn look(&mut self, what: &str, at: [u32; 3], ours: u32, expected: u32) {
        self.looked += 1;
        if ours != expected {
            self.wrong += 1;
            if self.wrong < 5 {
                println!("{what} differs at {at:08X?}: {ours:08X}, expected {expected:08X}");
            }
        }
    }
}

/// As `compose_pixel` has it.
fn channel(a: u8, c: u8, bg: u8) -> u8 {
    if a == 255 {
        return c;
    }
    let factor = a as f32 / 255.0;
    (c as f32 * factor + bg as f32 * (1.0 - factor)) as u8
}

/// The levels of rule 2 at each alpha, of one channel over another: the level that is nearest to the way gone. The way begins at
/// the channel below and goes on by a 255th of what lies between the two with each alpha; the level follows it, a step at a time,
/// when it is more than half a level ahead. Both are counted in 510ths of a level.
fn levels(c: u32, bg: u32) -> [u8; 256] {
    let (mut level, mut way) = (bg as i32, 510 * bg as i32);
    std::array::from_fn(|a| {
        if a > 0 {
            way += 2 * (c as i32 - bg as i32);
        }
        if way - 510 * level > 255 {
            level += 1;
        } else if 510 * level - way > 255 {
            level -= 1;
        }
        level as u8
    })
}

/// The levels of every channel over every other.
struct Nearest(Vec<[u8; 256]>);

impl Nearest {
    fn new() -> Nearest {
        Nearest((0..PIXELS as u32).map(|n| levels(n / SIDE, n % SIDE)).collect())
    }

    fn channel(&self, a: u8, c: u8, bg: u8) -> u8 {
        self.0[c as usize * 256 + bg as usize][a as usize]
    }
}

/// Alpha, channel and background, each of all.
fn triples() -> impl Iterator<Item = [u32; 3]> {
    (0..SIDE * SIDE * SIDE).map(|n| [n >> 16, n >> 8 & 255, n & 255])
}

/// Our blend of one channel, which must be the same in all three and in both orders.
fn ours_of(rule: u32, [a, c, bg]: [u32; 3]) -> u32 {
    let (source, raw) = (a << 24 | c * 0x10101, bg * 0x10101);
    let word = blending_rgb(rule, source, raw, ALPHA);
    assert!(word == blending_bgr(rule, source, raw, ALPHA), "RGB and BGR differ by rule {rule} at {source:08X} over {raw:08X}");
    word
}

/// Each alpha, channel and background, in all three channels at once.
fn channels(rule: u32, expected: impl Fn(u8, u8, u8) -> u8) -> u64 {
    let mut tally = Tally { looked: 0, wrong: 0 };
    for at in triples() {
        let [a, c, bg] = at.map(|n| n as u8);
        tally.look("a channel", at, ours_of(rule, at), ALPHA | expected(a, c, bg) as u32 * 0x10101);
    }
    println!("rule {rule}, channels: {} blends, {} differ", tally.looked, tally.wrong);
    tally.wrong
}

/// Where our two rules differ: how often and by how much, by what is left of c*a + bg*(255-a) when it is divided by 255.
fn between_the_rules() {
    let (mut differ, mut seen) = ([0; 3], [0; 3]);
    for at in triples() {
        let [a, c, bg] = at;
        let [down, near] = [1, 2].map(|rule| ours_of(rule, at) & 255);
        let part = match (c * a + bg * (255 - a)) % 255 {
            0 => 0,
            1..=127 => 1,
            _ => 2,
        };
        seen[part] += 1;
        differ[part] += (down != near) as u64;
        assert!(near == down || near == down + 1, "at {at:?} rule 1 gives {down} and rule 2 {near}");
    }
    let [none, low, high] = differ;
    println!(
        "the two rules: {} of {} blends differ, each by 1, rule 2 the larger: {none} of {} where nothing is left, {low} of {} \
         where 1 to 127 is left, {high} of {} where more is",
        differ.iter().sum::<u64>(),
        seen.iter().sum::<u64>(),
        seen[0],
        seen[1],
        seen[2],
    );
    assert_eq!((none, low, high), (15_467, 0, seen[2]));
    assert_eq!(differ.iter().sum::<u64>(), 8_180_357);
}

fn color(w: u32) -> Color {
    Color { a: (w >> 24) as u8, r: (w >> 16) as u8, g: (w >> 8) as u8, b: w as u8 }
}

/// How a draw is made.
#[derive(Clone, Copy)]
enum Mode {
    Rule1,
    Rule2,
    Xor,
}

/// The word that we make of another.
fn ours(format: u32, mode: Mode, source: u32, raw: u32) -> u32 {
    let rule = match mode {
        Mode::Rule1 => 1,
        Mode::Rule2 => 2,
        Mode::Xor => {
            let (mut keep, mut flip) = (0, 0);
            blending_ink(format, source, &mut keep, &mut flip);
            return raw & keep ^ flip;
        }
    };
    match format {
        0 => blending_332(rule, source, raw),
        1 => blending_565(rule, source, raw),
        2 => blending_rgb(rule, source, raw, 0),
        3 => blending_rgb(rule, source, raw, ALPHA),
        _ => blending_bgr(rule, source, raw, ALPHA),
    }
}

/// What the Rust's `draw` leaves of an image over these words.
fn by_draw<P: PixelType + 'static>(xor: bool, sources: &[u32], words: Vec<P::DataType>) -> Vec<P::DataType>
where
    VecImageBuffer<P>: ImageBuffer,
{
    let mut image: VecImageBuffer<ArgbPixel> = VecImageBuffer::new(SIDE, SIDE);
    for (k, &s) in sources.iter().enumerate() {
        image.put_pixel(k as i32 % 256, k as i32 / 256, color(s));
    }
    let mut canvas = ImageBufferCanvas::new(VecImageBuffer::<P>::from_raw(SIDE, SIDE, words));
    canvas.set_xor_mode(xor);
    canvas.draw(0, 0, SIDE, SIDE, &image, 0, 0, Clip { x: 0, y: 0, width: SIDE, height: SIDE });
    bytemuck::pod_collect_to_vec(&canvas::Image::raw(&canvas.into_inner()))
}

/// What rule 2 leaves of a word that the Rust reads and stores.
fn by_levels<P: PixelType>(nearest: &Nearest, source: u32, raw: P::DataType) -> P::DataType {
    let (Color { a, r, g, b }, below) = (color(source), P::to_color(raw));
    let blended =
        Color { a: 255, r: nearest.channel(a, r, below.r), g: nearest.channel(a, g, below.g), b: nearest.channel(a, b, below.b) };
    P::from_color(blended)
}

/// For each alpha one draw of 256 by 256 pixels. Colours and the words drawn on are random; words of one and two bytes are all
/// there.
fn draws<P: PixelType + 'static>(
    nearest: &Nearest,
    format: u32,
    mode: Mode,
    word: fn(P::DataType) -> u32,
    raw: fn(u32) -> P::DataType,
) -> u64
where
    VecImageBuffer<P>: ImageBuffer,
{
    let mut seed = 88172645463325252u64;
    let mut random = || {
        seed ^= seed << 13;
        seed ^= seed >> 7;
        seed ^= seed << 17;
        (seed >> 16) as u32
    };
    let mut tally = Tally { looked: 0, wrong: 0 };
    for a in 0..=255u32 {
        let sources: Vec<u32> = (0..PIXELS).map(|_| a << 24 | random() >> 8).collect();
        let words: Vec<u32> = (0..PIXELS as u32).map(|k| if format < 2 { k } else { random() }).collect();
        let words: Vec<P::DataType> = words.iter().map(|&w| raw(w)).collect();
        let expected: Vec<P::DataType> = match mode {
            Mode::Rule1 => by_draw::<P>(false, &sources, words.clone()),
            Mode::Xor => by_draw::<P>(true, &sources, words.clone()),
            Mode::Rule2 => sources.iter().zip(&words).map(|(&s, &w)| by_levels::<P>(nearest, s, w)).collect(),
        };
        for ((&s, &w), &e) in sources.iter().zip(&words).zip(&expected) {
            tally.look("a pixel", [format, s, word(w)], ours(format, mode, s, word(w)), word(e));
        }
    }
    let how = match mode {
        Mode::Rule1 => "rule 1",
        Mode::Rule2 => "rule 2",
        Mode::Xor => "XOR on",
    };
    println!("format {format}, {how}: {} pixels, {} differ", tally.looked, tally.wrong);
    tally.wrong
}

fn main() {
    let nearest = &Nearest::new();
    let mut wrong = channels(1, channel);
    wrong += channels(2, |a, c, bg| nearest.channel(a, c, bg));
    for mode in [Mode::Rule1, Mode::Rule2, Mode::Xor] {
        wrong += draws::<Rgb332Pixel>(nearest, 0, mode, |w| w.into(), |w| w as u8);
        wrong += draws::<Rgb565Pixel>(nearest, 1, mode, |w| w.into(), |w| w as u16);
        wrong += draws::<Rgb8Pixel>(nearest, 2, mode, |w| w, |w| w);
        wrong += draws::<ArgbPixel>(nearest, 3, mode, |w| w, |w| w);
        wrong += draws::<AbgrPixel>(nearest, 4, mode, |w| w, |w| w);
    }
    assert!(wrong == 0, "{wrong} differ");
    between_the_rules();
}
