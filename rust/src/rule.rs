//! Blending rules.

use super::Refusal;

/// What [`Canvas::draw`](super::Canvas::draw) with XOR off makes of a channel `c` of alpha `a` over a channel `bg`. Where they
/// differ, `Nearest` is one more.
///
/// ```
/// use tuyrashka::{Canvas, Clip, Color, Format, Image, Rule};
///
/// let mut bytes = [0xFF; 4];
/// let mut canvas = Canvas::new(Format::Argb, 1, 1, &mut bytes);
/// let image = Image::from_argb(1, 1, &[0x7DFF_FFFF]);
/// canvas.set_rule(Rule::Nearest);
/// canvas.draw(0, 0, 1, 1, image, 0, 0, Clip::whole())?;
/// assert_eq!(canvas.get_pixel(0, 0)?, Some(Color::rgb(255, 255, 255)));
/// canvas.set_rule(Rule::Down);
/// canvas.draw(0, 0, 1, 1, image, 0, 0, Clip::whole())?;
/// assert_eq!(canvas.get_pixel(0, 0)?, Some(Color::rgb(254, 254, 254)));
/// assert_eq!(Rule::try_from(2), Ok(Rule::Nearest));
/// # Ok::<(), tuyrashka::Refusal>(())
/// ```
#[derive(Clone, Copy, Debug, PartialEq, Eq, Hash)]
#[non_exhaustive]
#[repr(u32)]
pub enum Rule {
    /// `c * f + bg * (1 - f)`, `f` being `a / 255`, each step rounded to an `f32`, and cut downward.
    Down = 1,
    /// `(c * a + bg * (255 - a) + 127) / 255` in whole numbers: the nearest one. A channel over an equal one stays as it is.
    Nearest = 2,
}

impl Rule {
    /// The library's number.
    pub const fn number(self) -> u32 {
        self as u32
    }
}

impl TryFrom<u32> for Rule {
    type Error = Refusal;

    fn try_from(number: u32) -> Result<Rule, Refusal> {
        [Rule::Down, Rule::Nearest].into_iter().find(|rule| rule.number() == number).ok_or(Refusal::Rule)
    }
}
