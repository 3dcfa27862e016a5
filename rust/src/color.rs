//! Colours.

/// A colour of four channels, each 0 to 255. Alpha 255 is solid.
///
/// ```
/// use tuyrashka::Color;
///
/// let red = Color::rgb(255, 0, 0);
/// assert_eq!(red.argb(), 0xFFFF_0000);
/// assert_eq!(Color::from_argb(0x8000_00FF), Color { a: 128, r: 0, g: 0, b: 255 });
/// ```
#[derive(Clone, Copy, Debug, PartialEq, Eq, Hash)]
pub struct Color {
    /// Alpha.
    pub a: u8,
    /// Red.
    pub r: u8,
    /// Green.
    pub g: u8,
    /// Blue.
    pub b: u8,
}

impl Color {
    /// A solid colour.
    pub const fn rgb(r: u8, g: u8, b: u8) -> Color {
        Color { a: 255, r, g, b }
    }

    /// The colour of a word `a << 24 | r << 16 | g << 8 | b`.
    pub const fn from_argb(word: u32) -> Color {
        let [a, r, g, b] = word.to_be_bytes();
        Color { a, r, g, b }
    }

    /// The word `a << 24 | r << 16 | g << 8 | b`.
    pub const fn argb(self) -> u32 {
        u32::from_be_bytes([self.a, self.r, self.g, self.b])
    }
}
