//! Times the Rust and ours on the same work, by turns, in one run. What is timed:
//! - The Rust: the call on a canvas built before, through `Box<dyn Canvas>` as its callers hold it. Its clip and colour are
//!   passed in each call; the canvas is not looked at anew.
//! - Ours: the whole call of the static library, which tests the canvas's format, sides and length each time, and counts.
//!
//! Each time is the best of many samples. Before a row is timed both sides must leave the same bytes. Where ours blends by rule 2
//! the Rust blends by rule 1, since it has no other, and the bytes are those of oracle/src/rules.rs; a library without rules has
//! no such rows. `rules` prints the whole image by rule 1 and these alone. The last table has ours twice, on rows without tails
//! and with them; `tails` prints it alone.
//!
//! `passes CALL rust|ours|tails FORMAT XOR K` makes a call K times on one side and prints nothing, for instructions to be
//! counted; `CALL-rule-2` is the call by rule 2 on our side. `shapes` prints the names of the lines and curves that are built in,
//! with the plots that land. `edges` makes calls that draw next to nothing or are refused, and prints what they are.

extern crate alloc;

#[allow(warnings)]
#[path = "../oracle/src/wie.rs"]
mod canvas;
mod edges;
#[allow(dead_code)]
#[path = "../oracle/src/exported.rs"]
mod exported;
mod race;
#[path = "../oracle/src/rules.rs"]
mod rules;
mod shapes;
#[allow(dead_code)]
#[path = "../oracle/src/tally.rs"]
mod tally;

use std::hint::black_box;

use canvas::{
    AbgrPixel, ArgbPixel, Canvas, Clip, Color, Image, ImageBufferCanvas, PixelType, Rgb8Pixel, Rgb332Pixel, Rgb565Pixel,
    VecImageBuffer,
};
use exported::*;
use race::race;

const WIDTH: u32 = 240;
const HEIGHT: u32 = 320;
const PIXELS: u64 = (WIDTH * HEIGHT) as u64;
const COLOR: Color = Color { a: 255, r: 200, g: 100, b: 50 };
const WHOLE: Clip = Clip { x: 0, y: 0, width: WIDTH, height: HEIGHT };
const INNER: Clip = Clip { x: 10, y: 10, width: WIDTH - 20, height: HEIGHT - 20 };
const NAMES: [&str; 5] = ["332", "565", "RGB8", "ARGB", "ABGR"];
const SIZES: [u32; 5] = [1, 2, 4, 4, 4];
/// The pixels of a tail, where rows have one.
const TAIL: u32 = 16;

/// The clip as ours takes it, made once.
const LENT: exported::Clip = part(WHOLE);

/// Our canvas.
struct Ours {
    canvas: exported::Canvas,
    bytes: Vec<u8>,
}

/// A call that both sides make.
#[derive(Clone, Copy)]
enum Work {
    /// Width, height and clip.
    Fill(u32, u32, Clip),
    /// x, y, width, height.
    Rect(i32, i32, u32, u32),
    /// Width and height.
    Invert(u32, u32),
    /// To, from, width, height.
    Copy((i32, i32), (i32, i32), u32, u32),
    /// So much of an image, width and height.
    Draw(u32, u32),
}

impl Ours {
    /// The same pixels in rows with tails.
    fn with_tails(&self) -> Ours {
        let Ours { canvas, ref bytes } = *self;
        let size = SIZES[canvas.format as usize];
        let tail = vec![0xA5; (TAIL * size) as usize];
        let bytes = bytes.chunks_exact((canvas.width * size) as usize).flat_map(|row| [row, &tail].concat()).collect();
        Ours { canvas: exported::Canvas { row: canvas.width + TAIL, ..canvas }, bytes }
    }

    /// The same canvas by another rule.
    fn by(self, rule: u32) -> Ours {
        Ours { canvas: exported::Canvas { rule, ..self.canvas }, ..self }
    }

    /// The one that a side of `passes` takes.
    fn on(self, side: &str) -> Ours {
        if side == "tails" { self.with_tails() } else { self }
    }

    fn call(&mut self, image: &Ours, work: Work) -> u64 {
        let (canvas, data, length, argb) = (&self.canvas, self.bytes.as_mut_ptr(), self.bytes.len(), word(COLOR));
        let mut drawn = Drawn::default();
        let d = &mut drawn;
        let status = unsafe {
            match work {
                Work::Fill(w, h, clip) => tuyrashka_fill_rect(canvas, data, length, 0, 0, w, h, argb, &part(clip), d),
                Work::Rect(x, y, w, h) => tuyrashka_draw_rect(canvas, data, length, x, y, w, h, argb, &LENT, d),
                Work::Invert(w, h) => tuyrashka_invert_rect(canvas, data, length, 0, 0, w, h, &LENT, d),
                Work::Copy((dx, dy), (sx, sy), w, h) => tuyrashka_copy_area(canvas, data, length, dx, dy, sx, sy, w, h, &LENT, d),
                Work::Draw(w, h) => {
                    let (source, image) = (&image.canvas, &image.bytes);
                    let (image, image_length) = (image.as_ptr(), image.len());
                    tuyrashka_draw(canvas, data, length, 0, 0, w, h, source, image, image_length, 0, 0, &LENT, d)
                }
            }
        };
        assert_eq!(status, 0);
        drawn.landed
    }

    fn put(&mut self, x: i32, y: i32) -> u64 {
        let (mut drawn, data) = (Drawn::default(), &mut self.bytes);
        let status =
            unsafe { tuyrashka_put_pixel(&self.canvas, data.as_mut_ptr(), data.len(), x, y, word(COLOR), &LENT, &mut drawn) };
        assert_eq!(status, 0);
        drawn.landed
    }

    fn get(&self, x: i32, y: i32) -> Option<u32> {
        let (mut found, mut argb, data) = (false, 0, &self.bytes);
        let status = unsafe { tuyrashka_get_pixel(&self.canvas, data.as_ptr(), data.len(), x, y, &mut found, &mut argb) };
        assert_eq!(status, 0);
        found.then_some(argb)
    }
}

/// A canvas on each side with the same bytes, none of them alike by plan.
fn pair(format: u32, xor: bool, s: u32) -> (Box<dyn Canvas>, Ours) {
    pair_of(format, xor, s, (WIDTH, HEIGHT))
}

fn pair_of(format: u32, xor: bool, mut s: u32, sides: (u32, u32)) -> (Box<dyn Canvas>, Ours) {
    let byte = |_| {
        s = s.wrapping_mul(1_664_525).wrapping_add(1_013_904_223);
        (s >> 24) as u8
    };
    let bytes: Vec<u8> = (0..sides.0 * sides.1 * SIZES[format as usize]).map(byte).collect();
    let mut canvas = match format {
        0 => canvas_of::<Rgb332Pixel>(sides, &bytes),
        1 => canvas_of::<Rgb565Pixel>(sides, &bytes),
        2 => canvas_of::<Rgb8Pixel>(sides, &bytes),
        3 => canvas_of::<ArgbPixel>(sides, &bytes),
        _ => canvas_of::<AbgrPixel>(sides, &bytes),
    };
    canvas.set_xor_mode(xor);
    let (width, height) = sides;
    (canvas, Ours { canvas: exported::Canvas { format, width, height, xor_mode: xor.into(), row: width, rule: 1 }, bytes })
}

fn canvas_of<P: PixelType + 'static>((width, height): (u32, u32), bytes: &[u8]) -> Box<dyn Canvas> {
    let words = bytemuck::pod_collect_to_vec(bytes);
    Box::new(ImageBufferCanvas::new(VecImageBuffer::<P>::from_raw(width, height, words)))
}

fn rust_call(canvas: &mut dyn Canvas, image: &dyn Image, work: Work) {
    let canvas = black_box(canvas);
    match work {
        Work::Fill(w, h, clip) => canvas.fill_rect(0, 0, w, h, COLOR, clip),
        Work::Rect(x, y, w, h) => canvas.draw_rect(x, y, w, h, COLOR, WHOLE),
        Work::Invert(w, h) => canvas.invert_rect(0, 0, w, h, WHOLE),
        Work::Copy((dx, dy), (sx, sy), w, h) => canvas.copy_area(dx, dy, sx, sy, w, h, WHOLE),
        Work::Draw(w, h) => canvas.draw(0, 0, w, h, image, 0, 0, WHOLE),
    }
}

/// Each point of the screen, in rows.
fn every_point(mut at: impl FnMut(i32, i32)) {
    for y in 0..HEIGHT as i32 {
        for x in 0..WIDTH as i32 {
            at(x, y);
        }
    }
}

/// Times of a pass that lands so many pixels.
fn row(what: &str, format: u32, xor: bool, note: &str, landed: u64, [rust, ours]: [f64; 2]) {
    let (xor, format) = (if xor { "on" } else { "off" }, NAMES[format as usize]);
    let (rust, ours) = (rust / landed as f64, ours / landed as f64);
    println!("| {what} | {format} | {xor} | {note} | {rust:.3} | {ours:.3} | {:.3} |", ours / rust);
}

fn same(canvas: &dyn Canvas, ours: &Ours) {
    let exported::Canvas { format, xor_mode, .. } = ours.canvas;
    assert!(*canvas.image().raw() == ours.bytes, "the two sides differ in format {format}, XOR {xor_mode}");
}

/// A row of a call; an image, where it has one, is of the format `source`.
fn call(what: &str, format: u32, xor: bool, note: &str, source: u32, work: Work) {
    call_by(1, what, format, xor, note, source, work);
}

/// The same where ours goes by a rule.
fn call_by(rule: u32, what: &str, format: u32, xor: bool, note: &str, source: u32, work: Work) {
    let (mut canvas, ours) = pair(format, xor, 7);
    let mut ours = ours.by(rule);
    let (image, lent) = pair(source, false, 8);
    match work {
        Work::Draw(w, h) if rule == 2 => rules::draw(&mut *canvas, 0, 0, w, h, image.image(), 0, 0, WHOLE),
        _ => rust_call(&mut *canvas, image.image(), work),
    }
    let landed = ours.call(&lent, work);
    same(&*canvas, &ours);
    let times =
        race(|| rust_call(&mut *canvas, image.image(), black_box(work)), || _ = black_box(ours.call(&lent, black_box(work))));
    row(what, format, xor, note, landed, times);
}

/// Whether the library knows rules: an older one does not look at the number behind the row.
fn knows_rules() -> bool {
    let canvas = exported::Canvas { format: 0, width: 1, height: 1, xor_mode: 0, row: 1, rule: 0 };
    unsafe { tuyrashka_get_pixel(&canvas, [0].as_ptr(), 1, 0, 0, &mut false, &mut 0) != 0 }
}

/// Rows of images that ours draws by rule 2 with XOR off, and the Rust by rule 1.
fn rule_2() {
    for (note, work) in [("ARGB over it, rule 2", DRAW), ("draw-4, rule 2", Work::Draw(4, 4))] {
        (0..5).filter(|_| knows_rules()).for_each(|format| call_by(2, "draw", format, false, note, 3, work));
    }
}

fn rust_puts(canvas: &mut dyn Canvas) {
    let canvas = black_box(canvas);
    every_point(|x, y| canvas.put_pixel(x, y, COLOR, WHOLE));
}

fn rust_gets(canvas: &dyn Canvas) {
    let canvas = black_box(canvas);
    every_point(|x, y| _ = black_box(canvas.get_pixel(x, y)));
}

fn put(format: u32, xor: bool) {
    let (mut canvas, mut ours) = pair(format, xor, 7);
    rust_puts(&mut *canvas);
    every_point(|x, y| assert_eq!(ours.put(x, y), 1));
    same(&*canvas, &ours);
    let times = race(|| rust_puts(&mut *canvas), || every_point(|x, y| _ = black_box(ours.put(x, y))));
    row("put_pixel", format, xor, "whole", PIXELS, times);
}

fn get(format: u32) {
    let (canvas, ours) = pair(format, false, 7);
    every_point(|x, y| assert_eq!(canvas.get_pixel(x, y).map(word), ours.get(x, y)));
    let times = race(|| rust_gets(&*canvas), || every_point(|x, y| _ = black_box(ours.get(x, y))));
    row("get_pixel", format, false, "", PIXELS, times);
}

const FILL: Work = Work::Fill(WIDTH, HEIGHT, WHOLE);
const INVERT: Work = Work::Invert(WIDTH, HEIGHT);
const DRAW: Work = Work::Draw(WIDTH, HEIGHT);

/// Calls so small that most of what they take is not for a pixel; each is named by its side.
const SMALL: [(&str, &str, Work); 5] = [
    ("fill_rect", "fill-1", Work::Fill(1, 1, WHOLE)),
    ("draw_rect", "rect-4", Work::Rect(70, 110, 4, 4)),
    ("invert_rect", "invert-1", Work::Invert(1, 1)),
    ("copy_area", "copy-1", Work::Copy((1, 0), (0, 0), 1, 1)),
    ("draw", "draw-4", Work::Draw(4, 4)),
];

/// Moves of the whole screen by a pixel, and of its left half to the right.
const COPIES: [(&str, Work); 5] = [
    ("up", Work::Copy((0, 0), (0, 1), WIDTH, HEIGHT - 1)),
    ("down", Work::Copy((0, 1), (0, 0), WIDTH, HEIGHT - 1)),
    ("left", Work::Copy((0, 0), (1, 0), WIDTH - 1, HEIGHT)),
    ("right", Work::Copy((1, 0), (0, 0), WIDTH - 1, HEIGHT)),
    ("apart", Work::Copy((WIDTH as i32 / 2, 0), (0, 0), WIDTH / 2, HEIGHT)),
];

fn passes(name: &str, side: &str, format: u32, xor: bool, k: u32) {
    if shapes::passes(name, side, format, xor, k) {
        return;
    }
    let (mut canvas, ours) = pair(format, xor, 7);
    let (name, rule) = name.strip_suffix("-rule-2").map_or((name, 1), |name| (name, 2));
    let mut ours = ours.on(side).by(rule);
    match (name, side) {
        ("put", "rust") => return (0..k).for_each(|_| rust_puts(&mut *canvas)),
        ("put", _) => return (0..k).for_each(|_| every_point(|x, y| _ = black_box(ours.put(x, y)))),
        ("get", "rust") => return (0..k).for_each(|_| rust_gets(&*canvas)),
        ("get", _) => return (0..k).for_each(|_| every_point(|x, y| _ = black_box(ours.get(x, y)))),
        _ => {}
    }
    let (image, lent) = pair(3, false, 8);
    let lent = lent.on(side);
    let mut others = SMALL.map(|(_, note, work)| (note, work)).into_iter().chain(COPIES);
    let work = match name {
        "fill" => FILL,
        "rect" => Work::Rect(70, 110, 100, 100),
        "invert" => INVERT,
        "draw" => DRAW,
        note => others.find(|(name, _)| *name == note).expect("a call's name").1,
    };
    for _ in 0..k {
        match side {
            "rust" => rust_call(&mut *canvas, image.image(), black_box(work)),
            _ => _ = black_box(ours.call(&lent, black_box(work))),
        }
    }
}

/// A row of the table of tails: times of a pass on rows without them and with them, which must leave the same pixels.
fn beside(what: &str, note: &str, mut plain: Ours, pass: impl Fn(&mut Ours, bool) -> u64) {
    let mut tailed = plain.with_tails();
    let exported::Canvas { format, xor_mode, .. } = plain.canvas;
    let landed = pass(&mut plain, false);
    assert_eq!(pass(&mut tailed, true), landed);
    assert!(plain.with_tails().bytes == tailed.bytes, "the two rows differ in format {format}");
    let times = race(|| _ = black_box(pass(&mut plain, false)), || _ = black_box(pass(&mut tailed, true)));
    row(what, format, xor_mode != 0, note, landed, times);
}

/// Fills, images and copies on every format, and lines.
fn tails() {
    println!("\n| tails of {TAIL} | format | XOR | how | without, ns a pixel | with, ns a pixel | with / without |");
    println!("|---|---|---|---|---|---|---|");
    let [up, _, _, right, _] = COPIES;
    let works = [
        ("fill_rect", ("whole", FILL)),
        ("draw", ("ARGB over it", DRAW)),
        ("copy_area", up),
        ("copy_area", right),
    ];
    for (what, (note, work)) in works {
        for format in 0..5 {
            let lent = pair(3, false, 8).1;
            let tailed = lent.with_tails();
            let pass = |ours: &mut Ours, tails: bool| ours.call(if tails { &tailed } else { &lent }, black_box(work));
            beside(what, note, pair(format, false, 7).1, pass);
        }
    }
    shapes::tails();
}

/// Each format with XOR off and on.
fn modes() -> impl Iterator<Item = (u32, bool)> {
    (0..5).flat_map(|format| [(format, false), (format, true)])
}

fn main() {
    let words: Vec<String> = std::env::args().skip(1).collect();
    if let [mode, name, side, format, xor, k] = &words[..] {
        assert_eq!(mode, "passes");
        return passes(name, side, format.parse().unwrap(), xor == "1", k.parse().unwrap());
    }
    if words == ["shapes"] {
        return shapes::names();
    }
    if words == ["tails"] {
        return tails();
    }
    if words == ["edges"] {
        return edges::edges();
    }
    println!("| {WIDTH} by {HEIGHT} | format | XOR | how | Rust, ns a pixel | ours, ns a pixel | ours / Rust |");
    println!("|---|---|---|---|---|---|---|");
    if words == ["rules"] {
        (0..5).for_each(|format| call("draw", format, false, "ARGB over it", 3, DRAW));
        return rule_2();
    }
    for (note, clip) in [("whole", WHOLE), ("border cut", INNER)] {
        modes().for_each(|(format, xor)| call("fill_rect", format, xor, note, 3, Work::Fill(WIDTH, HEIGHT, clip)));
    }
    for (note, work) in [("100 by 100", Work::Rect(70, 110, 100, 100)), ("whole", Work::Rect(0, 0, WIDTH, HEIGHT))] {
        modes().for_each(|(format, xor)| call("draw_rect", format, xor, note, 3, work));
    }
    (0..5).for_each(|format| call("invert_rect", format, false, "whole", 3, INVERT));
    for (note, work) in COPIES {
        (0..5).for_each(|format| call("copy_area", format, false, note, 3, work));
    }
    modes().for_each(|(format, xor)| call("draw", format, xor, "ARGB over it", 3, DRAW));
    modes().for_each(|(format, xor)| call("draw", format, xor, "over its own", format, DRAW));
    for (what, note, work) in SMALL {
        let one_mode = matches!(work, Work::Invert(..) | Work::Copy(..));
        modes().filter(|(_, xor)| !(one_mode && *xor)).for_each(|(format, xor)| call(what, format, xor, note, 3, work));
    }
    rule_2();
    modes().for_each(|(format, xor)| put(format, xor));
    (0..5).for_each(get);
    shapes::rows();
    tails();
}
