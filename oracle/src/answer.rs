//! What the Rust answers to a case, as a line.

use std::panic::catch_unwind;

use wie_util::WieError;

use crate::canvas::{
    AbgrPixel, ArgbPixel, Canvas, ImageBufferCanvas, PixelType, Rgb8Pixel, Rgb332Pixel, Rgb565Pixel, VecImageBuffer, decode_res,
    lbmp,
};
use crate::case::{Area, Call, Case, Screen, pixel_size};
use crate::icons::{number, place};
use crate::rules;
use crate::tally::Tally;

/// `bad` for a line that cannot be read, and `panic` where the Rust panics.
pub fn answer(line: &[u8]) -> String {
    match Case::read(line) {
        None => "bad".into(),
        Some(case) => catch_unwind(|| answered(&case)).unwrap_or_else(|_| "panic".into()),
    }
}

fn answered(case: &Case) -> String {
    let Case { screen, xor, op, call } = case;
    match call {
        Call::Lbmp { room, file } => return read_lbmp(*room, file),
        Call::Res { file } => return read_res(file),
        _ => (),
    }
    let status = refusal(screen, call);
    if let Call::Get { x, y } = *call {
        let color = if status == 0 { canvas(screen).get_pixel(x, y) } else { None };
        let found = color.map_or("none".into(), |c| format!("argb={}", u32::from_be_bytes([c.a, c.r, c.g, c.b])));
        return format!("get status={status} {found} hash={:016x}", hash(&screen.bytes));
    }
    if status != 0 {
        return format!("{op} status={status} count=0 hash={:016x}", hash(&screen.bytes));
    }
    let mut canvas = canvas(screen);
    canvas.set_xor_mode(*xor);
    match *call {
        Call::Draw { at: Area(dx, dy, w, h), ref source, from: (sx, sy), clip } if screen.rule == 2 && !xor => {
            rules::draw(&mut *canvas, dx, dy, w, h, self::canvas(source).image(), sx, sy, clip)
        }
        _ => paint(&mut *canvas, call),
    }
    format!("{op} status=0 count={} hash={:016x}", landed(screen, call), hash(&screen.put_back(&canvas.image().raw())))
}

/// The Rust has no count. With XOR off each plot that lands is put once, whatever its colour, so the same call is made on
/// a screen that only counts.
pub fn landed(screen: &Screen, call: &Call) -> u64 {
    let mut canvas = ImageBufferCanvas::new(Tally { width: screen.width, height: screen.height, landed: 0 });
    paint(&mut canvas, call);
    canvas.into_inner().landed
}

/// By the Rust's own call, whose blend is rule 1.
pub fn paint(canvas: &mut dyn Canvas, call: &Call) {
    match *call {
        Call::Put { x, y, color, clip } => canvas.put_pixel(x, y, color, clip),
        Call::Line { from: (x1, y1), to: (x2, y2), color, clip } => canvas.draw_line(x1, y1, x2, y2, color, clip),
        Call::Rect { at: Area(x, y, w, h), color, clip } => canvas.draw_rect(x, y, w, h, color, clip),
        Call::Fill { at: Area(x, y, w, h), color, clip } => canvas.fill_rect(x, y, w, h, color, clip),
        Call::Arc { at: Area(x, y, w, h), start, sweep, color, clip } => canvas.draw_arc(x, y, w, h, start, sweep, color, clip),
        Call::Pie { at: Area(x, y, w, h), start, sweep, color, clip } => canvas.fill_arc(x, y, w, h, start, sweep, color, clip),
        Call::RoundRect { at: Area(x, y, w, h), arc: (aw, ah), color, clip } => {
            canvas.draw_round_rect(x, y, w, h, aw, ah, color, clip)
        }
        Call::FillRoundRect { at: Area(x, y, w, h), arc: (aw, ah), color, clip } => {
            canvas.fill_round_rect(x, y, w, h, aw, ah, color, clip)
        }
        Call::Copy { to: (dx, dy), from: (sx, sy), size: (w, h), clip } => canvas.copy_area(dx, dy, sx, sy, w, h, clip),
        Call::Invert { at: Area(x, y, w, h), clip } => canvas.invert_rect(x, y, w, h, clip),
        Call::Draw { at: Area(dx, dy, w, h), ref source, from: (sx, sy), clip } => {
            canvas.draw(dx, dy, w, h, self::canvas(source).image(), sx, sy, clip)
        }
        Call::Get { .. } | Call::Lbmp { .. } | Call::Res { .. } => unreachable!("they draw nothing"),
    }
}

/// Its refusals are the Rust's own, apart from ROOM.
fn read_lbmp(room: u32, file: &[u8]) -> String {
    let (status, width, height, clear, words) = match lbmp(file) {
        Err(WieError::FatalError(_)) => (10, 0, 0, 0, Vec::new()),
        Err(WieError::Unimplemented(_)) => (11, 0, 0, 0, Vec::new()),
        Ok(image) if (room as u64) < image.width() as u64 * image.height() as u64 => (12, 0, 0, 0, Vec::new()),
        Ok(image) => {
            let clear = image.colors().iter().filter(|c| c.a == 0).count();
            (0, image.width(), image.height(), clear, image.raw().into_owned())
        }
    };
    format!("lbmp status={status} w={width} h={height} clear={clear} hash={:016x}", hash(&words))
}

/// Its refusals are the Rust's own.
fn read_res(file: &[u8]) -> String {
    let (status, width, height, at, pixels) = match decode_res(file) {
        Err(refusal) => (number(&refusal), 0, 0, 0, Vec::new()),
        Ok(image) => (0, image.width(), image.height(), place(file, &image.raw()), image.raw().into_owned()),
    };
    format!("res status={status} w={width} h={height} at={at} hash={:016x}", hash(&pixels))
}

/// The Rust knows no tails: its canvas is cut out of the screen.
pub fn canvas(screen: &Screen) -> Box<dyn Canvas> {
    match screen.format {
        0 => canvas_of::<Rgb332Pixel>(screen),
        1 => canvas_of::<Rgb565Pixel>(screen),
        2 => canvas_of::<Rgb8Pixel>(screen),
        3 => canvas_of::<ArgbPixel>(screen),
        4 => canvas_of::<AbgrPixel>(screen),
        _ => unreachable!("refused before"),
    }
}

fn canvas_of<P: PixelType + 'static>(screen: &Screen) -> Box<dyn Canvas> {
    let words = bytemuck::pod_collect_to_vec(&screen.cut_out());
    Box::new(ImageBufferCanvas::new(VecImageBuffer::<P>::from_raw(screen.width, screen.height, words)))
}

/// The refusals have no counterpart in the Rust: the first that holds, in the order FORMAT, RULE, SIZE, ROW, LENGTH, SOURCE,
/// ANGLE, SHAPE.
pub fn refusal(screen: &Screen, call: &Call) -> u32 {
    let side = |n: u32| n <= 32_767;
    let corner = |n: i32| (-32_768..=32_767).contains(&n);
    let angle = |n: i32| (-720..=720).contains(&n);
    let of_screen = |s: &Screen| {
        let Some(size) = pixel_size(s.format) else { return 1 };
        if s.rule != 1 && s.rule != 2 {
            return 23;
        }
        if !side(s.width) || !side(s.height) {
            return 2;
        }
        if s.row < s.width || !side(s.row) {
            return 18;
        }
        if s.bytes.len() as u64 != s.row as u64 * s.height as u64 * size as u64 { 3 } else { 0 }
    };
    let shape = |Area(x, y, w, h): Area| if corner(x) && corner(y) && side(w) && side(h) { 0 } else { 6 };

    let status = of_screen(screen);
    if status != 0 {
        return status;
    }
    match *call {
        Call::Draw { ref source, .. } if of_screen(source) != 0 => 4,
        Call::Arc { start, sweep, .. } | Call::Pie { start, sweep, .. } if !angle(start) || !angle(sweep) => 5,
        Call::Arc { at, .. } | Call::Pie { at, .. } | Call::RoundRect { at, .. } | Call::FillRoundRect { at, .. } => shape(at),
        _ => 0,
    }
}

/// The 64-bit FNV-1a.
pub fn hash(bytes: &[u8]) -> u64 {
    bytes.iter().fold(0xcbf2_9ce4_8422_2325, |h, &b| (h ^ b as u64).wrapping_mul(0x0100_0000_01b3))
}
