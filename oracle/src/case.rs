//! A case as it is read from its line.

use std::iter::Peekable;

use crate::canvas::{Clip, Color};

/// The longest line that is read, without its end.
const LINE: usize = 65_536;
/// The most bytes that a seed makes.
const ROOM: u128 = 1_048_576;

#[derive(Clone)]
pub struct Screen {
    pub format: u32,
    pub width: u32,
    pub height: u32,
    /// The length of a row in pixels. What it has beyond the width is its tail.
    pub row: u32,
    /// The blending rule.
    pub rule: u32,
    pub bytes: Vec<u8>,
}

impl Screen {
    /// The bytes of a row, and those of its pixels that are not its tail.
    fn lengths(&self) -> (usize, usize) {
        let size = pixel_size(self.format).expect("a format") as usize;
        (self.row as usize * size, self.width as usize * size)
    }

    /// The bytes without the tails, of a screen that is not refused.
    pub fn cut_out(&self) -> Vec<u8> {
        let (row, seen) = self.lengths();
        if row == seen {
            self.bytes.clone()
        } else {
            self.bytes.chunks_exact(row).flat_map(|row| &row[..seen]).copied().collect()
        }
    }

    /// The bytes where those without the tails are these, and the tails as they were.
    pub fn put_back(&self, cut: &[u8]) -> Vec<u8> {
        let (row, seen) = self.lengths();
        let mut bytes = self.bytes.clone();
        if seen > 0 {
            bytes.chunks_exact_mut(row).zip(cut.chunks_exact(seen)).for_each(|(row, cut)| row[..seen].copy_from_slice(cut));
        }
        bytes
    }
}

/// x, y, width, height.
#[derive(Clone, Copy)]
pub struct Area(pub i32, pub i32, pub u32, pub u32);

pub enum Call {
    Put { x: i32, y: i32, color: Color, clip: Clip },
    Get { x: i32, y: i32 },
    Line { from: (i32, i32), to: (i32, i32), color: Color, clip: Clip },
    Rect { at: Area, color: Color, clip: Clip },
    Fill { at: Area, color: Color, clip: Clip },
    Arc { at: Area, start: i32, sweep: i32, color: Color, clip: Clip },
    Pie { at: Area, start: i32, sweep: i32, color: Color, clip: Clip },
    RoundRect { at: Area, arc: (u32, u32), color: Color, clip: Clip },
    FillRoundRect { at: Area, arc: (u32, u32), color: Color, clip: Clip },
    Copy { to: (i32, i32), from: (i32, i32), size: (u32, u32), clip: Clip },
    Invert { at: Area, clip: Clip },
    Draw { at: Area, source: Screen, from: (i32, i32), clip: Clip },
    Lbmp { room: u32, file: Vec<u8> },
    Res { file: Vec<u8> },
}

pub struct Case {
    pub screen: Screen,
    pub xor: bool,
    pub op: String,
    pub call: Call,
}

impl Case {
    /// Nothing if the line cannot be read.
    pub fn read(line: &[u8]) -> Option<Case> {
        let line = line.strip_suffix(b"\r").unwrap_or(line);
        if line.len() > LINE {
            return None;
        }
        let mut words = Words(line.split(|&b| b == b' ').peekable());
        let (format, width, height) = words.sizes()?;
        let xor = words.at_most(1)? == 1;
        let screen = words.screen(format, width, height)?;
        let op = String::from_utf8(words.0.next()?.to_vec()).ok()?;
        let call = words.call(&op)?;
        words.0.next().is_none().then_some(Case { screen, xor, op, call })
    }
}

struct Words<'a, I: Iterator<Item = &'a [u8]>>(Peekable<I>);

impl<'a, I: Iterator<Item = &'a [u8]>> Words<'a, I> {
    fn call(&mut self, op: &str) -> Option<Call> {
        Some(match op {
            "put" => Call::Put { x: self.signed()?, y: self.signed()?, color: self.color()?, clip: self.clip()? },
            "get" => Call::Get { x: self.signed()?, y: self.signed()? },
            "line" => Call::Line { from: self.point()?, to: self.point()?, color: self.color()?, clip: self.clip()? },
            "rect" => Call::Rect { at: self.area()?, color: self.color()?, clip: self.clip()? },
            "fill" => Call::Fill { at: self.area()?, color: self.color()?, clip: self.clip()? },
            "arc" => {
                let (at, (start, sweep)) = (self.area()?, self.point()?);
                Call::Arc { at, start, sweep, color: self.color()?, clip: self.clip()? }
            }
            "pie" => {
                let (at, (start, sweep)) = (self.area()?, self.point()?);
                Call::Pie { at, start, sweep, color: self.color()?, clip: self.clip()? }
            }
            "rrect" => Call::RoundRect { at: self.area()?, arc: self.size()?, color: self.color()?, clip: self.clip()? },
            "frrect" => Call::FillRoundRect { at: self.area()?, arc: self.size()?, color: self.color()?, clip: self.clip()? },
            "copy" => Call::Copy { to: self.point()?, from: self.point()?, size: self.size()?, clip: self.clip()? },
            "invert" => Call::Invert { at: self.area()?, clip: self.clip()? },
            "draw" => {
                let at = self.area()?;
                let (format, width, height) = self.sizes()?;
                let source = self.screen(format, width, height)?;
                Call::Draw { at, source, from: self.point()?, clip: self.clip()? }
            }
            "lbmp" => Call::Lbmp { room: self.unsigned()?, file: self.file()? },
            "res" => Call::Res { file: self.file()? },
            _ => return None,
        })
    }

    /// The screen whose seed is the next word, with its row and its rule behind that, where there are such words.
    fn screen(&mut self, format: u32, width: u32, height: u32) -> Option<Screen> {
        let seed = self.0.next()?;
        let row = self.named(b"row=").unwrap_or(width);
        let rule = self.named(b"rule=").unwrap_or(1);
        let bytes = match seed {
            [b'x', digits @ ..] => hex(digits)?,
            b"z" => vec![0; room(format, row, height)?],
            digits => {
                let mut s = decimal(digits)? as u32;
                let step = |_| {
                    s = s.wrapping_mul(1_664_525).wrapping_add(1_013_904_223);
                    (s >> 24) as u8
                };
                (0..room(format, row, height)?).map(step).collect()
            }
        };
        (bytes.len() as u128 <= ROOM).then_some(Screen { format, width, height, row, rule, bytes })
    }

    /// The number of a word that begins so, `row=N` or `rule=N`. What is no such word is left.
    fn named(&mut self, name: &[u8]) -> Option<u32> {
        let number = decimal(self.0.peek()?.strip_prefix(name)?)? as u32;
        self.0.next();
        Some(number)
    }

    /// A file's bytes.
    fn file(&mut self) -> Option<Vec<u8>> {
        match self.0.next()? {
            b"-" => Some(Vec::new()),
            b"" => None,
            digits => hex(digits),
        }
    }

    fn sizes(&mut self) -> Option<(u32, u32, u32)> {
        Some((self.unsigned()?, self.unsigned()?, self.unsigned()?))
    }

    fn point(&mut self) -> Option<(i32, i32)> {
        Some((self.signed()?, self.signed()?))
    }

    fn size(&mut self) -> Option<(u32, u32)> {
        Some((self.unsigned()?, self.unsigned()?))
    }

    fn area(&mut self) -> Option<Area> {
        Some(Area(self.signed()?, self.signed()?, self.unsigned()?, self.unsigned()?))
    }

    fn color(&mut self) -> Option<Color> {
        let (a, r, g, b) = (self.at_most(255)?, self.at_most(255)?, self.at_most(255)?, self.at_most(255)?);
        Some(Color { a: a as u8, r: r as u8, g: g as u8, b: b as u8 })
    }

    fn clip(&mut self) -> Option<Clip> {
        let Area(x, y, width, height) = self.area()?;
        Some(Clip { x, y, width, height })
    }

    fn unsigned(&mut self) -> Option<u32> {
        self.at_most(u32::MAX)
    }

    fn at_most(&mut self, most: u32) -> Option<u32> {
        u32::try_from(decimal(self.0.next()?)?).ok().filter(|&n| n <= most)
    }

    fn signed(&mut self) -> Option<i32> {
        let number = match self.0.next()? {
            [b'-', digits @ ..] => -(decimal(digits)? as i64),
            digits => decimal(digits)? as i64,
        };
        i32::try_from(number).ok()
    }
}

/// One digit or more, up to 2^32 - 1.
fn decimal(digits: &[u8]) -> Option<u64> {
    if digits.is_empty() {
        return None;
    }
    digits.iter().try_fold(0, |n: u64, b| {
        let next = n * 10 + b.is_ascii_digit().then(|| (b - b'0') as u64)?;
        (next <= u32::MAX as u64).then_some(next)
    })
}

fn hex(digits: &[u8]) -> Option<Vec<u8>> {
    let digit = |b: u8| (b as char).to_digit(16).map(|d| d as u8);
    let (pairs, rest) = digits.as_chunks::<2>();
    let bytes = pairs.iter().map(|&[high, low]| Some(digit(high)? * 16 + digit(low)?)).collect();
    rest.is_empty().then_some(bytes)?
}

/// The bytes of a pixel; nothing for what is no format.
pub fn pixel_size(format: u32) -> Option<u32> {
    [1, 2, 4, 4, 4].get(format as usize).copied()
}

/// How many bytes `z` or a number makes.
fn room(format: u32, row: u32, height: u32) -> Option<usize> {
    let bytes = row as u128 * height as u128 * pixel_size(format)? as u128;
    (bytes <= ROOM).then_some(bytes as usize)
}
