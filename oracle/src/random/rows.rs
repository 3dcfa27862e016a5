//! Rows of other lengths than the width, put into cases that have none.

use super::{Chance, MOST};
use crate::case::pixel_size;

impl Chance {
    /// The case with a row for its canvas in four of ten, and for its image likewise. What it draws stays the same.
    pub fn with_rows(&mut self, line: &str) -> String {
        let (head, args) = line.split_once(" draw ").unwrap_or((line, ""));
        let line = if args.is_empty() { line.into() } else { format!("{head} draw {}", self.with_image_row(args)) };
        self.with_row(&line, 0, 4)
    }

    /// What stands after `draw`, with a row for the image in four of ten.
    pub fn with_image_row(&mut self, args: &str) -> String {
        self.with_row(args, 4, 7)
    }

    /// Puts a row behind a seed in four of ten, and as many bytes into that as tails have; F W H stand at a place.
    fn with_row(&mut self, line: &str, at: usize, seed: usize) -> String {
        let mut words: Vec<String> = line.split(' ').map(String::from).collect();
        if self.percent(40) {
            self.put_row(&mut words, at, seed);
        }
        words.join(" ")
    }

    fn put_row(&mut self, words: &mut Vec<String>, at: usize, seed: usize) {
        let [format, w, h] = [0, 1, 2].map(|n| words[at + n].parse::<i64>().expect("a number"));
        let row = self.row(w, h);
        if let Some(size) = pixel_size(format as u32).map(i64::from) {
            let [seen, whole] = [w, row].map(|width| width as i128 * h as i128 * size as i128);
            let (hex, fits) = (words[seed].starts_with('x'), whole <= 1_048_576);
            if !hex && !fits {
                return;
            }
            if hex && fits && seen != whole && words[seed].len() as i128 == 1 + 2 * seen && self.percent(85) {
                words[seed] = match whole {
                    0..=256 => self.stretched(&words[seed][1..], (2 * w * size) as usize, row * size, h),
                    _ => self.from(0, MOST).to_string(),
                };
            }
        }
        words.insert(seed + 1, format!("row={row}"));
    }

    /// Mostly a few pixels more than the width; now and then the width, far more, or a length that is refused.
    fn row(&mut self, w: i64, h: i64) -> i64 {
        match self.from(1, 1000) {
            1..=15 => w - 1,
            16..=20 => self.pick(&[0, w / 2, 32_768, 32_769, 65_535, MOST]),
            21..=23 if h < 5 => self.pick(&[32_766, 32_767, 32_768]),
            24..=80 => w,
            81..=700 => w + self.from(1, 4),
            701..=980 => w + self.from(5, 20),
            _ => w + self.from(21, 99),
        }
        .clamp(0, MOST)
    }

    /// `x` and rows of so many bytes, of which each begins as one of the digits does, or is cut.
    fn stretched(&mut self, digits: &str, seen: usize, row: i64, rows: i64) -> String {
        let mut text = String::from("x");
        for y in 0..rows as usize {
            let cut = &digits[y * seen..(y + 1) * seen];
            let tail = self.hex((row - seen as i64 / 2).max(0));
            text += &cut[..cut.len().min(2 * row as usize)];
            text += &tail[1..];
        }
        text
    }
}
