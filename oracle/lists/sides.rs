//! Calls by the Rust, and the pixels they touch.

use crate::answer::{canvas, paint, refusal};
use crate::canvas::{Canvas, Color, ImageBuffer, ImageBufferCanvas};
use crate::case::{Call, Screen};
use crate::tally::blank;

/// The bytes that the Rust's calls leave, XOR being on; what we refuse is passed over.
pub fn rust<'a>(screen: &Screen, calls: impl Iterator<Item = &'a Call>) -> Vec<u8> {
    let mut canvas = canvas(screen);
    canvas.set_xor_mode(true);
    calls.filter(|call| refusal(screen, call) == 0).for_each(|call| paint(&mut *canvas, call));
    screen.put_back(&canvas.image().raw())
}

/// A screen that keeps where it was XORed and where it was inverted, with XOR on: a plot of another alpha than 0 XORs,
/// and an inversion puts. Tails have their places too.
pub struct Marks {
    width: u32,
    height: u32,
    row: u32,
    pub xored: Vec<bool>,
    pub inverted: Vec<bool>,
}

impl Marks {
    /// The marks of calls; what we refuse is passed over.
    pub fn of(screen: &Screen, calls: &[Call]) -> Marks {
        let Screen { width, height, row, .. } = *screen;
        let none = vec![false; row as usize * height as usize];
        let mut canvas = ImageBufferCanvas::new(Marks { width, height, row, xored: none.clone(), inverted: none });
        canvas.set_xor_mode(true);
        calls.iter().filter(|call| refusal(screen, call) == 0).for_each(|call| paint(&mut canvas, call));
        canvas.into_inner()
    }

    fn place(&self, x: i32, y: i32) -> usize {
        y as usize * self.row as usize + x as usize
    }
}

blank!(Marks);

impl ImageBuffer for Marks {
    fn put_pixel(&mut self, x: i32, y: i32, _: Color) {
        let place = self.place(x, y);
        self.inverted[place] = true;
    }

    fn put_pixels(&mut self, _: i32, _: i32, _: u32, _: &[Color]) {
        unreachable!("no drawing call uses it")
    }

    fn xor_pixel(&mut self, x: i32, y: i32, _: Color) {
        let place = self.place(x, y);
        self.xored[place] = true;
    }
}
