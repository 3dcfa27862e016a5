//! A screen without pixels, which counts what lands on it.

use crate::canvas::{Color, ImageBuffer};

/// A screen of a width and a height is an image from which nothing is read.
macro_rules! blank {
    ($screen:ty) => {
        impl $crate::canvas::Image for $screen {
            fn width(&self) -> u32 {
                self.width
            }

            fn height(&self) -> u32 {
                self.height
            }

            fn bytes_per_pixel(&self) -> u32 {
                0
            }

            fn get_pixel(&self, _: i32, _: i32) -> $crate::canvas::Color {
                $crate::canvas::Color { a: 0, r: 0, g: 0, b: 0 }
            }

            fn raw(&self) -> std::borrow::Cow<'_, [u8]> {
                std::borrow::Cow::Borrowed(&[])
            }

            fn colors(&self) -> Vec<$crate::canvas::Color> {
                Vec::new()
            }
        }
    };
}
#[allow(unused_imports)] // for oracle/lists
pub(crate) use blank;

pub struct Tally {
    pub width: u32,
    pub height: u32,
    pub landed: u64,
}

blank!(Tally);

impl ImageBuffer for Tally {
    fn put_pixel(&mut self, x: i32, y: i32, _: Color) {
        let inside = x >= 0 && y >= 0 && (x as u32) < self.width && (y as u32) < self.height;
        self.landed += inside as u64;
    }

    fn put_pixels(&mut self, _: i32, _: i32, _: u32, _: &[Color]) {
        unreachable!("no drawing call uses it")
    }

    fn xor_pixel(&mut self, _: i32, _: i32, _: Color) {
        unreachable!("counted with XOR off")
    }
}
