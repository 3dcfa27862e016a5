//! Stand-in for the readers and writers of image files, which are not compared: all of them fail.
use std::io::{Cursor, Write};

pub type Failure = &'static str;

pub enum ExtendedColorType {
    Rgb8,
    Rgba8,
}

pub enum DynamicImage {}

pub struct Pixel<const N: usize>(pub [u8; N]);

pub enum Pixels<const N: usize> {}

impl<const N: usize> Pixels<N> {
    pub fn pixels(&self) -> std::slice::Iter<'_, Pixel<N>> {
        match *self {}
    }

    pub fn width(&self) -> u32 {
        match *self {}
    }

    pub fn height(&self) -> u32 {
        match *self {}
    }
}

impl DynamicImage {
    pub fn from_decoder<T>(_: T) -> Result<Self, Failure> {
        Err("no images")
    }

    pub fn into_luma8(self) -> Pixels<1> {
        match self {}
    }

    pub fn into_rgba8(self) -> Pixels<4> {
        match self {}
    }
}

pub struct ImageReader;

impl ImageReader {
    pub fn new<T>(_: Cursor<T>) -> Self {
        ImageReader
    }

    pub fn with_guessed_format(self) -> Result<Self, Failure> {
        Ok(self)
    }

    pub fn decode(self) -> Result<DynamicImage, Failure> {
        Err("no images")
    }
}

pub trait ImageEncoder: Sized {
    fn write_image(self, _: &[u8], _: u32, _: u32, _: ExtendedColorType) -> Result<(), Failure> {
        Err("no images")
    }
}

pub mod codecs {
    pub mod bmp {
        use crate::*;

        pub enum BmpDecoder {}

        impl BmpDecoder {
            pub fn new<T>(_: Cursor<T>) -> Result<Self, Failure> {
                Err("no images")
            }

            pub fn get_palette(&self) -> Option<&[[u8; 3]]> {
                match *self {}
            }

            pub fn set_indexed_color(&mut self, _: bool) {
                match *self {}
            }
        }

        pub struct BmpEncoder;

        impl BmpEncoder {
            pub fn new(_: &mut impl Write) -> Self {
                BmpEncoder
            }

            pub fn encode(&mut self, _: &[u8], _: u32, _: u32, _: ExtendedColorType) -> Result<(), Failure> {
                Err("no images")
            }
        }
    }

    pub mod png {
        use crate::*;

        pub struct PngEncoder;

        impl PngEncoder {
            pub fn new(_: &mut impl Write) -> Self {
                PngEncoder
            }
        }

        impl ImageEncoder for PngEncoder {}
    }
}
