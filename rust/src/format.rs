//! Formats of pixels.

use super::Refusal;

/// How a pixel is stored, as a little-endian word.
///
/// ```
/// use tuyrashka::{Format, Refusal};
///
/// assert_eq!(Format::Rgb565.bytes(240, 320), 153_600);
/// assert_eq!(Format::try_from(3), Ok(Format::Argb));
/// assert_eq!(Format::try_from(5), Err(Refusal::Format));
/// ```
#[derive(Clone, Copy, Debug, PartialEq, Eq, Hash)]
#[non_exhaustive]
#[repr(u32)]
pub enum Format {
    /// One byte: three bits of red, three of green, two of blue.
    Rgb332 = 0,
    /// Two bytes: five bits of red, six of green, five of blue.
    Rgb565 = 1,
    /// Four bytes: `00RRGGBB`. The top byte is ignored in reading.
    Rgb8 = 2,
    /// Four bytes: `AARRGGBB`.
    Argb = 3,
    /// Four bytes: `AABBGGRR`.
    Abgr = 4,
}

impl Format {
    /// The library's number.
    pub const fn number(self) -> u32 {
        self as u32
    }

    /// How many bytes a canvas of these sides has. Where its rows have tails, the length of a row stands for the width.
    pub const fn bytes(self, width: u32, height: u32) -> usize {
        let pixel = match self {
            Format::Rgb332 => 1,
            Format::Rgb565 => 2,
            Format::Rgb8 | Format::Argb | Format::Abgr => 4,
        };
        (width as usize).saturating_mul(height as usize).saturating_mul(pixel)
    }
}

impl TryFrom<u32> for Format {
    type Error = Refusal;

    fn try_from(number: u32) -> Result<Format, Refusal> {
        let formats = [Format::Rgb332, Format::Rgb565, Format::Rgb8, Format::Argb, Format::Abgr];
        formats.into_iter().find(|format| format.number() == number).ok_or(Refusal::Format)
    }
}
