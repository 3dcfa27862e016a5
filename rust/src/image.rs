//! Images, which are only read.

use core::fmt::{Debug, Formatter, Result as Written};
use core::slice::from_raw_parts;

use super::raw::{self, Record};
use super::refusal::result;
use super::{Color, Format, Refusal, Rule};

/// Lent bytes that are only read, seen as width times height pixels in rows, which may have tails as those of a
/// [`Canvas`](super::Canvas) may.
///
/// ```
/// use tuyrashka::{Canvas, Clip, Format, Image};
///
/// let words = [0xFFC8_6432, 0xFF00_00FF];
/// let image = Image::from_argb(2, 1, &words);
/// let mut bytes = [0; 4];
/// let mut canvas = Canvas::new(Format::Rgb332, 2, 2, &mut bytes);
/// assert_eq!(canvas.draw(0, 1, 2, 1, image, 0, 0, Clip::whole())?.landed, 2);
/// assert_eq!(bytes, [0, 0, 0xAD, 3]);
/// # Ok::<(), tuyrashka::Refusal>(())
/// ```
#[derive(Clone, Copy, PartialEq, Eq)]
pub struct Image<'a> {
    pub(super) record: Record,
    pub(super) data: &'a [u8],
}

impl<'a> Image<'a> {
    /// An image of these bytes. Whether they are as many as its pixels take is judged by the calls that it is given to.
    pub const fn new(format: Format, width: u32, height: u32, data: &'a [u8]) -> Image<'a> {
        Image::with_row(format, width, height, width, data)
    }

    /// An image of these bytes, whose rows are `row` pixels long. Whether that is the width or more is judged likewise.
    pub const fn with_row(format: Format, width: u32, height: u32, row: u32, data: &'a [u8]) -> Image<'a> {
        Image { record: Record { format, width, height, xor_mode: 0, row, rule: Rule::Down }, data }
    }

    /// An image of ARGB words, as [`decode_lbmp`](super::decode_lbmp) writes them.
    pub const fn from_argb(width: u32, height: u32, words: &'a [u32]) -> Image<'a> {
        // SAFETY: a word is four bytes, each of which may have any value; on x86-64 the lowest comes first.
        let data = unsafe { from_raw_parts(words.as_ptr().cast(), size_of_val(words)) };
        Image::new(Format::Argb, width, height, data)
    }

    /// How a pixel is stored.
    pub const fn format(&self) -> Format {
        self.record.format
    }

    /// How many pixels a row has, without its tail.
    pub const fn width(&self) -> u32 {
        self.record.width
    }

    /// How many pixels a row has, with its tail.
    pub const fn row(&self) -> u32 {
        self.record.row
    }

    /// How many rows there are.
    pub const fn height(&self) -> u32 {
        self.record.height
    }

    /// The bytes of the pixels, with those of the tails.
    pub const fn data(&self) -> &'a [u8] {
        self.data
    }

    /// Reads one point; nothing is there off the image.
    pub fn get_pixel(&self, x: i32, y: i32) -> Result<Option<Color>, Refusal> {
        let (mut found, mut argb) = (false, 0);
        // SAFETY: pointer and length are those of bytes that are only read.
        let status =
            unsafe { raw::tuyrashka_get_pixel(&self.record, self.data.as_ptr(), self.data.len(), x, y, &mut found, &mut argb) };
        result(status, found.then(|| Color::from_argb(argb)))
    }
}

/// Without the bytes: of them, how many there are.
impl Debug for Image<'_> {
    fn fmt(&self, f: &mut Formatter) -> Written {
        let Record { format, width, height, row, .. } = &self.record;
        let mut image = f.debug_struct("Image");
        image.field("format", format).field("width", width).field("height", height).field("row", row);
        image.field("bytes", &self.data.len()).finish()
    }
}
