//! The canvas and its calls.

use core::fmt::{Debug, Formatter, Result as Written};

use super::raw::{self, Record};
use super::refusal::result;
use super::{Clip, Color, Drawn, Format, Image, Refusal, Rule};

/// Lent bytes, seen as width times height pixels in rows, with a switch for XOR and a blending rule.
///
/// A row may be longer than the width ([`Canvas::with_row`]). What it has beyond that is its tail, which stays as it is in every
/// call; a point there is off the canvas.
///
/// With XOR off a plot stores its colour. With XOR on a colour of alpha 0 changes nothing, and any other is XORed with the
/// pixel; formats with alpha then have alpha 255. The [`Rule`] is that of [`Canvas::draw`] with XOR off, and of nothing else.
///
/// Each call judges the canvas, and is refused by [`Refusal::Size`], [`Refusal::Row`] or [`Refusal::Length`]. [`Canvas::draw`]
/// then judges the image ([`Refusal::Source`]), arcs and pies their angles ([`Refusal::Angle`]), and these and round boxes their
/// box ([`Refusal::Shape`]). The first in this order is given, and the bytes stay as they were. Nothing else is refused.
///
/// ```
/// use tuyrashka::{Canvas, Clip, Color, Format};
///
/// let mut bytes = [0; 9];
/// let mut canvas = Canvas::new(Format::Rgb332, 3, 3, &mut bytes);
/// let drawn = canvas.fill_arc(0, 0, 3, 3, 0, 360, Color::rgb(255, 255, 255), Clip::whole())?;
/// assert_eq!(drawn.landed, 5);
/// assert_eq!(bytes, [0, 255, 0, 255, 255, 255, 0, 255, 0]);
/// # Ok::<(), tuyrashka::Refusal>(())
/// ```
pub struct Canvas<'a> {
    record: Record,
    data: &'a mut [u8],
}

impl<'a> Canvas<'a> {
    /// A canvas of these bytes, with XOR off and [`Rule::Down`]. Whether they are as many as its pixels take is judged by each
    /// call.
    pub const fn new(format: Format, width: u32, height: u32, data: &'a mut [u8]) -> Canvas<'a> {
        Canvas::with_row(format, width, height, width, data)
    }

    /// A canvas of these bytes, with XOR off and [`Rule::Down`], whose rows are `row` pixels long. Whether that is the width or
    /// more is judged by each call. The bytes are those of `row` times `height` pixels.
    ///
    /// ```
    /// use tuyrashka::{Canvas, Clip, Color, Format};
    ///
    /// let mut bytes = [1, 2, 3, 4, 5, 6, 7, 8];
    /// let mut canvas = Canvas::with_row(Format::Rgb332, 3, 2, 4, &mut bytes);
    /// assert_eq!(canvas.fill_rect(1, 0, 9, 9, Color::rgb(0, 0, 0), Clip::whole())?.landed, 4);
    /// assert_eq!(canvas.get_pixel(3, 0)?, None);
    /// assert_eq!(bytes, [1, 0, 0, 4, 5, 0, 0, 8]);
    /// # Ok::<(), tuyrashka::Refusal>(())
    /// ```
    pub const fn with_row(format: Format, width: u32, height: u32, row: u32, data: &'a mut [u8]) -> Canvas<'a> {
        Canvas { record: Record { format, width, height, xor_mode: 0, row, rule: Rule::Down }, data }
    }

    /// How a pixel is stored.
    pub const fn format(&self) -> Format {
        self.record.format
    }

    /// How many pixels a row has, without its tail.
    pub const fn width(&self) -> u32 {
        self.record.width
    }

    /// How many pixels a row has, with its tail.
    pub const fn row(&self) -> u32 {
        self.record.row
    }

    /// How many rows there are.
    pub const fn height(&self) -> u32 {
        self.record.height
    }

    /// Whether XOR is on.
    pub const fn xor(&self) -> bool {
        self.record.xor_mode != 0
    }

    /// Switches XOR on or off.
    pub const fn set_xor(&mut self, on: bool) {
        self.record.xor_mode = on as u32;
    }

    /// The blending rule.
    pub const fn rule(&self) -> Rule {
        self.record.rule
    }

    /// Takes another blending rule.
    pub const fn set_rule(&mut self, rule: Rule) {
        self.record.rule = rule;
    }

    /// The bytes of the pixels, with those of the tails.
    pub const fn data(&self) -> &[u8] {
        self.data
    }

    /// The same bytes, to be changed.
    pub const fn data_mut(&mut self) -> &mut [u8] {
        self.data
    }

    /// The canvas as an image, to be drawn on another one.
    pub const fn image(&self) -> Image<'_> {
        Image { record: self.record, data: self.data }
    }

    /// Reads one point; nothing is there off the canvas.
    pub fn get_pixel(&self, x: i32, y: i32) -> Result<Option<Color>, Refusal> {
        self.image().get_pixel(x, y)
    }
}

/// Makes a call of the library's a method: the canvas, the call's own numbers, its colour if it has one, and the clip.
macro_rules! calls {
    ($($(#[$doc:meta])* $name:ident = $symbol:ident($($number:ident: $type:ty),* $(; $color:ident)?);)*) => {
        #[allow(clippy::too_many_arguments)]
        impl Canvas<'_> {
            $($(#[$doc])*
            pub fn $name(&mut self, $($number: $type,)* $($color: Color,)? clip: Clip) -> Result<Drawn, Refusal> {
                let mut drawn = Drawn::default();
                // SAFETY: pointer and length are those of bytes that only this canvas has.
                let status = unsafe {
                    raw::$symbol(
                        &self.record, self.data.as_mut_ptr(), self.data.len(),
                        $($number,)* $($color.argb(),)? &clip, &mut drawn,
                    )
                };
                result(status, drawn)
            })*
        }
    };
}

calls! {
    /// Plots one point.
    put_pixel = tuyrashka_put_pixel(x: i32, y: i32; color);
    /// Plots a line, both ends included. The way back plots other points in general.
    draw_line = tuyrashka_draw_line(x1: i32, y1: i32, x2: i32, y2: i32; color);
    /// Plots each border point of a box once.
    draw_rect = tuyrashka_draw_rect(x: i32, y: i32, w: u32, h: u32; color);
    /// Fills a box.
    fill_rect = tuyrashka_fill_rect(x: i32, y: i32, w: u32, h: u32; color);
    /// Plots an arc of the box's oval, some points more than once. Angles are in degrees: 0 is to the right of the centre and
    /// 90 above it. The arc goes from `start_angle` on by `arc_angle`, clockwise where that is negative.
    draw_arc = tuyrashka_draw_arc(x: i32, y: i32, w: u32, h: u32, start_angle: i32, arc_angle: i32; color);
    /// Fills a pie of the box's oval. The angles are those of [`Canvas::draw_arc`].
    fill_arc = tuyrashka_fill_arc(x: i32, y: i32, w: u32, h: u32, start_angle: i32, arc_angle: i32; color);
    /// Plots the outline of a box with round corners, some points more than once. The corners are quarters of an oval of
    /// `arc_w` by `arc_h`; where one of these is 0, it is the plain outline.
    draw_round_rect = tuyrashka_draw_round_rect(x: i32, y: i32, w: u32, h: u32, arc_w: u32, arc_h: u32; color);
    /// Fills a box with round corners, which are those of [`Canvas::draw_round_rect`].
    fill_round_rect = tuyrashka_fill_round_rect(x: i32, y: i32, w: u32, h: u32, arc_w: u32, arc_h: u32; color);
    /// Inverts the colours of a box and keeps alpha, whether XOR is on or off. Inverting again takes it away, but that the top
    /// bytes of [`Format::Rgb8`](crate::Format::Rgb8) are 0 then; among drawings with XOR on it may come at any turn.
    invert_rect = tuyrashka_invert_rect(x: i32, y: i32, w: u32, h: u32);
    /// Copies the box at `(sx, sy)` to `(dx, dy)`, as if all were read before any is written, whether XOR is on or off. Points
    /// that come from off the canvas are left out.
    copy_area = tuyrashka_copy_area(dx: i32, dy: i32, sx: i32, sy: i32, w: u32, h: u32);
}

#[rustfmt::skip]
#[allow(clippy::too_many_arguments)]
impl Canvas<'_> {
    /// Draws the box at `(sx, sy)` of an image at `(dx, dy)`. Points that come from off the image are left out.
    ///
    /// With XOR off a pixel of alpha 255 is stored, and any other is blended with the one below by the canvas's [`Rule`]; the
    /// image's says nothing. With XOR on alpha 0 changes nothing, and any other scales the channels before the XOR.
    pub fn draw(
        &mut self, dx: i32, dy: i32, w: u32, h: u32, source: Image, sx: i32, sy: i32, clip: Clip,
    ) -> Result<Drawn, Refusal> {
        let mut drawn = Drawn::default();
        // SAFETY: as above; the image is another slice, borrowed for the call, so it does not overlap the bytes.
        let status = unsafe {
            raw::tuyrashka_draw(
                &self.record, self.data.as_mut_ptr(), self.data.len(), dx, dy, w, h,
                &source.record, source.data.as_ptr(), source.data.len(), sx, sy, &clip, &mut drawn,
            )
        };
        result(status, drawn)
    }
}

/// Without the bytes: of them, how many there are.
impl Debug for Canvas<'_> {
    fn fmt(&self, f: &mut Formatter) -> Written {
        let Record { format, width, height, row, rule, .. } = &self.record;
        let mut canvas = f.debug_struct("Canvas");
        canvas.field("format", format).field("width", width).field("height", height).field("row", row);
        canvas.field("xor", &self.xor()).field("rule", rule).field("bytes", &self.data.len()).finish()
    }
}
