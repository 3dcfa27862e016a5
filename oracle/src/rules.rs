//! Rule 2. The Rust has none, so its answer is put together from what the Rust does: its `draw` says which pixel of the image
//! comes to which of the canvas, it reads both, and it stores what comes out. The rounding alone is not the Rust's.

use crate::canvas::{ArgbPixel, Canvas, Clip, Color, Image, ImageBuffer, ImageBufferCanvas, VecImageBuffer};
use crate::tally::blank;

/// A screen without pixels, which keeps what is put where.
struct Placed {
    width: u32,
    height: u32,
    put: Vec<(i32, i32, Color)>,
}

blank!(Placed);

impl ImageBuffer for Placed {
    fn put_pixel(&mut self, x: i32, y: i32, color: Color) {
        self.put.push((x, y, color));
    }

    fn put_pixels(&mut self, _: i32, _: i32, _: u32, _: &[Color]) {
        unreachable!("no drawing call uses it")
    }

    fn xor_pixel(&mut self, _: i32, _: i32, _: Color) {
        unreachable!("drawn with XOR off")
    }
}

/// The Rust's `draw` by rule 2, on a canvas whose XOR is off.
#[allow(clippy::too_many_arguments)]
pub fn draw(canvas: &mut dyn Canvas, dx: i32, dy: i32, w: u32, h: u32, image: &dyn Image, sx: i32, sy: i32, clip: Clip) {
    // Each pixel of this image is its own number, and is stored as it is, since it is opaque.
    let (width, height) = (image.width(), image.height());
    let numbers = (0..width * height).map(|n| 0xFF00_0000 | n).collect();
    let numbered = VecImageBuffer::<ArgbPixel>::from_raw(width, height, numbers);
    let screen = Placed { width: canvas.image().width(), height: canvas.image().height(), put: Vec::new() };
    let mut placed = ImageBufferCanvas::new(screen);
    placed.draw(dx, dy, w, h, &numbered, sx, sy, clip);

    for (x, y, Color { r, g, b, .. }) in placed.into_inner().put {
        let number = u32::from_be_bytes([0, r, g, b]);
        let color = image.get_pixel((number % width) as i32, (number / width) as i32);
        let below = canvas.get_pixel(x, y).expect("on the canvas");
        canvas.put_pixel(x, y, blended(color, below), Clip { x, y, width: 1, height: 1 });
    }
}

fn blended(Color { a, r, g, b }: Color, below: Color) -> Color {
    Color { a: 255, r: nearest(a, r, below.r), g: nearest(a, g, below.g), b: nearest(a, b, below.b) }
}

/// From the channel below to the other one, a 255ths of the way, to the nearest level. None is half way between two, and an f64
/// is far closer than that.
fn nearest(a: u8, c: u8, below: u8) -> u8 {
    let [a, c, below] = [a, c, below].map(f64::from);
    (below + (c - below) * (a / 255.0)).round() as u8
}
