//! The canvas of early mobile phones: a safe and thin wrapper over `libtuyrashka.a`, which `gate/library tuyrashka` writes.
//!
//! A [`Canvas`] is bytes of the caller's, seen as pixels. Each call draws on it within a [`Clip`], and answers how many of its
//! plots landed, or why it was refused. The library tests every value that it is given: none can do harm, and a call that is
//! refused leaves the bytes as they were.
//!
//! With XOR on, what is drawn twice is gone:
//!
//! ```
//! use tuyrashka::{Canvas, Clip, Color, Format};
//!
//! # fn main() -> Result<(), Box<dyn std::error::Error>> {
//! let mut bytes = vec![0; Format::Rgb565.bytes(240, 320)];
//! let mut canvas = Canvas::new(Format::Rgb565, 240, 320, &mut bytes);
//! canvas.set_xor(true);
//! let red = Color::rgb(255, 0, 0);
//! let drawn = canvas.draw_rect(20, 30, 100, 50, red, Clip::whole())?;
//! assert_eq!(drawn.landed, 296);
//! assert_eq!(canvas.get_pixel(20, 30)?, Some(red));
//! canvas.draw_rect(20, 30, 100, 50, red, Clip::whole())?;
//! assert!(bytes.iter().all(|&byte| byte == 0));
//! # Ok(())
//! # }
//! ```

#![no_std]
#![warn(missing_docs)]

mod canvas;
mod clip;
mod color;
mod files;
mod format;
mod image;
mod raw;
mod refusal;
mod rule;

pub use self::canvas::Canvas;
pub use self::color::Color;
pub use self::files::{Bitmap, decode_lbmp, decode_res};
pub use self::format::Format;
pub use self::image::Image;
pub use self::raw::{Clip, Drawn};
pub use self::refusal::Refusal;
pub use self::rule::Rule;
