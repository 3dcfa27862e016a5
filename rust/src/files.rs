//! Images in files.

use super::raw::{self, Size};
use super::refusal::result;
use super::{Format, Image, Refusal};

/// What an LBMP file holds.
#[derive(Clone, Copy, Debug, PartialEq, Eq, Hash)]
#[non_exhaustive]
pub struct Bitmap {
    /// How many pixels a row has.
    pub width: u32,
    /// How many rows there are.
    pub height: u32,
    /// How many pixels are transparent.
    pub clear: u64,
}

/// Decodes an LBMP file to ARGB words, in rows. Words past the last pixel stay as they were.
///
/// ```
/// use tuyrashka::{Image, decode_lbmp};
///
/// let fields = [0_u32, 8, 1, 1, 1, 0].map(u32::to_le_bytes).concat();
/// let file = [&fields[..], &[0xAD]].concat();
/// let mut words = [0; 1];
/// let bitmap = decode_lbmp(&file, &mut words)?;
/// assert_eq!((bitmap.width, bitmap.height, bitmap.clear, words[0]), (1, 1, 0, 0xFFB4_6C55));
/// let image = Image::from_argb(bitmap.width, bitmap.height, &words);
/// assert_eq!(image.get_pixel(0, 0)?.map(|color| color.r), Some(180));
/// # Ok::<(), tuyrashka::Refusal>(())
/// ```
pub fn decode_lbmp(file: &[u8], out: &mut [u32]) -> Result<Bitmap, Refusal> {
    let (mut size, mut clear) = (Size::default(), 0);
    // SAFETY: pointers and lengths are those of two slices that do not overlap.
    let status =
        unsafe { raw::tuyrashka_decode_lbmp(file.as_ptr(), file.len(), out.as_mut_ptr(), out.len(), &mut size, &mut clear) };
    result(status, Bitmap { width: size.width, height: size.height, clear })
}

/// Finds the first static icon of a RES file. Its pixels are a part of the file.
///
/// ```
/// use tuyrashka::{Format, Image, decode_res};
///
/// let file = b"\xCE\xFA\xAD\xDE\0\0\x08\0\x02\x03\x01\x08\0\0\0\0abc and more";
/// assert_eq!(decode_res(file), Ok(Image::new(Format::Rgb332, 3, 1, b"abc")));
/// ```
pub fn decode_res(file: &[u8]) -> Result<Image<'_>, Refusal> {
    let (mut start, mut size) = (0, Size::default());
    // SAFETY: pointer and length are those of a slice that is only read.
    let status = unsafe { raw::tuyrashka_decode_res(file.as_ptr(), file.len(), &mut start, &mut size) };
    result(status, ())?;
    let Size { width, height } = size;
    let length = Format::Rgb332.bytes(width, height);
    Ok(Image::new(Format::Rgb332, width, height, &file[start..start + length]))
}
