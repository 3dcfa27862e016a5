//! Refusals, with their numbers and sentences.

use core::error::Error;
use core::fmt::{Display, Formatter, Result as Written};

macro_rules! refusals {
    ($($name:ident = $number:literal, $sentence:literal;)*) => {
        /// Why a call was refused.
        ///
        /// ```
        /// use tuyrashka::{Canvas, Clip, Color, Format, Refusal};
        ///
        /// let mut canvas = Canvas::new(Format::Rgb332, 4, 4, &mut []);
        /// let refusal = canvas.put_pixel(0, 0, Color::rgb(255, 0, 0), Clip::whole()).unwrap_err();
        /// assert_eq!((refusal, refusal.number()), (Refusal::Length, 3));
        /// assert_eq!(refusal.to_string(), "the lent bytes are not those of the canvas's rows");
        /// ```
        #[derive(Clone, Copy, Debug, PartialEq, Eq, Hash)]
        #[non_exhaustive]
        #[repr(u32)]
        pub enum Refusal {
            $(#[doc = concat!($number, ": ", $sentence, ".")] $name = $number,)*
        }

        impl Display for Refusal {
            fn fmt(&self, f: &mut Formatter) -> Written {
                f.write_str(match self {
                    $(Refusal::$name => $sentence,)*
                })
            }
        }

        /// The result of a call, from the library's number.
        pub fn result<T>(number: u32, value: T) -> Result<T, Refusal> {
            match number {
                0 => Ok(value),
                $($number => Err(Refusal::$name),)*
                _ => unreachable!("no number of the library's: {number}"),
            }
        }
    };
}

refusals! {
    Format = 1, "there is no such format";
    Size = 2, "a side of the canvas is above 32,767";
    Length = 3, "the lent bytes are not those of the canvas's rows";
    Source = 4, "the image to draw has a side above 32,767, a row that is refused, or bytes that are not those of its rows";
    Angle = 5, "an angle is outside -720 to 720";
    Shape = 6, "a corner of the shape is outside -32,768 to 32,767, or a side is above 32,767";
    Invalid = 10, "the file is not a whole LBMP image";
    Type = 11, "the type of the LBMP image is not 2, 8 or 16";
    Room = 12, "the LBMP image has more pixels than words were lent";
    Res = 13, "the file does not start as a RES file, or ends inside an icon";
    Depth = 14, "the depth of an icon is not 8";
    ResType = 15, "the type of an icon is not 2 or 3";
    NoIcon = 16, "the RES file ends before a static icon";
    Row = 18, "the row of the canvas is below its width or above 32,767";
    Rule = 23, "there is no such blending rule";
}

impl Refusal {
    /// The library's number.
    pub const fn number(self) -> u32 {
        self as u32
    }
}

impl Error for Refusal {}
