//! Random cases, weighted so that most land something and the edges are met often.

mod curves;
mod icons;
mod lines;
mod rows;
mod rules;

use crate::case::pixel_size;

pub const OPS: [&str; 14] =
    ["put", "get", "line", "rect", "fill", "arc", "pie", "rrect", "frrect", "copy", "invert", "draw", "lbmp", "res"];

const MIN: i64 = i32::MIN as i64;
const MAX: i64 = i32::MAX as i64;
const MOST: i64 = u32::MAX as i64;
const HALF: i64 = 1 << 31;

/// The chances apart.
pub const ROWS: u64 = u64::MAX;
pub const RULES: u64 = 0x5555_5555_5555_5555;

/// The cases that a seed gives, the same in each run.
pub struct Cases {
    chance: Chance,
    /// What rows are by, where there are any, and rules.
    rows: Option<Chance>,
    rules: Option<Chance>,
    ops: Vec<&'static str>,
    left: u64,
}

impl Cases {
    pub fn new(n: u64, seed: u64, ops: &[&'static str]) -> Cases {
        Cases { chance: Chance(seed), rows: None, rules: None, ops: ops.to_vec(), left: n }
    }

    /// The same cases, with rows in a good part of them.
    pub fn with_rows(self) -> Cases {
        Cases { rows: Some(self.chance.apart(ROWS)), ..self }
    }

    /// The same cases, with rules in a good part of them.
    pub fn with_rules(self) -> Cases {
        Cases { rules: Some(self.chance.apart(RULES)), ..self }
    }
}

impl Iterator for Cases {
    type Item = String;

    fn next(&mut self) -> Option<String> {
        self.left = self.left.checked_sub(1)?;
        let op = self.chance.pick(&self.ops);
        let mut line = self.chance.case(op);
        if let Some(rows) = &mut self.rows {
            line = rows.with_rows(&line);
        }
        if let Some(rules) = &mut self.rules {
            line = rules.with_rules(&line);
        }
        if self.chance.percent(1) {
            self.chance.spoil(&mut line);
        }
        if self.chance.from(1, 20_000) == 1 {
            // The longest lines that are read, and longer ones, by zeros in front of the format.
            let length = self.chance.pick(&[65_535, 65_536, 65_537, 70_000, 140_000]);
            line.insert_str(0, &"0".repeat(length - line.len().min(length)));
        }
        Some(line)
    }
}

/// The generator splitmix64.
pub struct Chance(pub u64);

impl Chance {
    pub fn next(&mut self) -> u64 {
        self.0 = self.0.wrapping_add(0x9e37_79b9_7f4a_7c15);
        let z = (self.0 ^ (self.0 >> 30)).wrapping_mul(0xbf58_476d_1ce4_e5b9);
        let z = (z ^ (z >> 27)).wrapping_mul(0x94d0_49bb_1331_11eb);
        z ^ (z >> 31)
    }

    /// Another one, which takes nothing from this: that of rows or that of rules.
    pub fn apart(&self, mask: u64) -> Chance {
        Chance(self.0 ^ mask)
    }

    /// From a to b, both included.
    pub fn from(&mut self, a: i64, b: i64) -> i64 {
        a + (self.next() % (b - a + 1) as u64) as i64
    }

    fn percent(&mut self, n: i64) -> bool {
        self.from(1, 100) <= n
    }

    pub fn pick<T: Copy>(&mut self, from: &[T]) -> T {
        from[self.next() as usize % from.len()]
    }

    fn case(&mut self, op: &str) -> String {
        match op {
            "lbmp" => return self.lbmp(),
            "res" => return self.res(),
            "arc" | "pie" | "rrect" if self.percent(1) => return self.on_screen(op),
            _ => (),
        }
        let (w, h) = match op {
            "line" => self.line_sides(),
            "arc" | "rrect" => self.stroke_sides(),
            _ => self.sides(),
        };
        let head = self.head(w, h);
        format!("{head} {op} {}", self.args(op, w, h))
    }

    /// What stands after OP, on a canvas of these sides.
    pub fn args(&mut self, op: &str, w: i64, h: i64) -> String {
        let wild = 4;
        match op {
            "put" => format!("{} {} {}", self.point(w, h, wild), self.color(), self.clip(w, h)),
            "get" => self.point(w, h, wild),
            "line" => format!("{} {} {}", self.line(w, h), self.color(), self.clip(w, h)),
            "rect" | "fill" => format!("{} {} {}", self.area(w, h, wild), self.color(), self.clip(w, h)),
            "arc" | "pie" | "rrect" | "frrect" => format!("{} {} {}", self.curve(op, w, h), self.color(), self.clip(w, h)),
            "copy" => self.copy(w, h),
            "invert" => format!("{} {}", self.area(w, h, wild), self.clip(w, h)),
            "draw" => self.draw(w, h),
            _ => unreachable!("not an op: {op}"),
        }
    }

    /// F W H X SEED
    fn head(&mut self, w: i64, h: i64) -> String {
        let (format, xor) = (self.format(), self.from(0, 1));
        format!("{format} {w} {h} {xor} {}", self.seed(format, w, h))
    }

    fn format(&mut self) -> u32 {
        if self.percent(1) { self.pick(&[5, 6, 255, 256, u32::MAX]) } else { self.from(0, 4) as u32 }
    }

    fn sides(&mut self) -> (i64, i64) {
        match self.from(1, 1000) {
            1..=2 => (32_767, 1),
            3 => (1, 32_767),
            4..=8 => (self.pick(&[32_768, 32_769, MOST]), self.from(0, 2)),
            9..=13 => (self.from(0, 2), self.pick(&[32_768, 32_769, MOST])),
            _ => (self.side(), self.side()),
        }
    }

    fn side(&mut self) -> i64 {
        match self.from(1, 100) {
            1..=3 => 0,
            4..=12 => 1,
            13..=22 => 2,
            23..=85 => self.from(3, 12),
            _ => self.from(13, 40),
        }
    }

    fn seed(&mut self, format: u32, w: i64, h: i64) -> String {
        let exact = pixel_size(format).map(|size| w as i128 * h as i128 * size as i128);
        let Some(exact) = exact.filter(|&bytes| bytes <= 1_048_576) else {
            let few = self.from(0, 8);
            return self.hex(few);
        };
        let exact = exact as i64;
        if exact <= 256 && self.percent(2) {
            let other = self.pick(&[0, exact - 4, exact - 2, exact - 1, exact + 1, exact + 2, exact + 4, 2 * exact]);
            return self.hex(other.max(0));
        }
        match self.from(1, 10) {
            1 => "z".into(),
            2..=4 if exact <= 64 => self.hex(exact),
            5 => self.pick(&["0", "1", "4294967295"]).into(),
            _ => self.from(0, MOST).to_string(),
        }
    }

    /// `x` and so many bytes.
    fn hex(&mut self, bytes: i64) -> String {
        let mut text = String::from("x");
        for _ in 0..bytes {
            text += &format!("{:02x}", self.byte());
        }
        text
    }

    fn byte(&mut self) -> i64 {
        if self.percent(20) { self.pick(&[0, 255]) } else { self.from(0, 255) }
    }

    fn point(&mut self, w: i64, h: i64, wild: i64) -> String {
        format!("{} {}", self.place(w, wild), self.place(h, wild))
    }

    fn area(&mut self, w: i64, h: i64, wild: i64) -> String {
        let (x, y) = (self.place(w, wild), self.place(h, wild));
        format!("{x} {y} {} {}", self.length(x, w, wild), self.length(y, h, wild))
    }

    /// A coordinate along a side, `wild` of a hundred being extreme.
    fn place(&mut self, side: i64, wild: i64) -> i64 {
        if self.percent(wild) {
            let far = self.from(MIN, MAX);
            return self.pick(&[MIN, MIN + 1, MAX, MAX - 1, -32_769, -32_768, 32_767, 32_768, far]);
        }
        let side = side.min(32_768);
        match self.from(1, 100) {
            1..=86 => self.from(0, (side - 1).max(0)),
            87..=96 => self.pick(&[-1, 0, 1, side - 2, side - 1, side, side + 1]),
            _ => self.from(-side - 2, 2 * side + 2),
        }
    }

    /// A length from `start`, often one that ends at the edge of the side or reaches it from afar.
    fn length(&mut self, start: i64, side: i64, wild: i64) -> i64 {
        if self.percent(wild) {
            let far = self.from(0, MOST);
            return self.pick(&[MOST, MOST - 1, HALF - 1, HALF, HALF + 1, HALF + side.min(9), 32_767, 32_768, far]);
        }
        let side = side.min(32_768);
        let length = match self.from(1, 100) {
            1..=30 => side - start + self.from(-1, 1),
            31..=35 => self.from(0, 3),
            36..=60 if start < 0 => -start + self.from(0, side + 1),
            _ => self.from(1, side + 2),
        };
        length.clamp(0, MOST)
    }

    fn clip(&mut self, w: i64, h: i64) -> String {
        match self.from(1, 100) {
            1..=55 => format!("0 0 {w} {h}"),
            56..=75 => {
                let (x, y) = (self.from(0, w.min(9) / 3), self.from(0, h.min(9) / 3));
                format!("{x} {y} {} {}", self.from(w.min(99) / 2, w.min(99)), self.from(h.min(99) / 2, h.min(99)))
            }
            76..=87 => self.area(w, h, 4),
            _ => {
                let (end_w, end_h) = (HALF + self.from(0, w.min(99)), HALF + self.from(0, h.min(99)));
                self.pick(&[
                    format!("{MIN} {MIN} {MOST} {MOST}").as_str(),
                    &format!("{MIN} {MIN} {end_w} {end_h}"),
                    &format!("-1 -1 {} {}", w.min(99) + 2, h.min(99) + 2),
                    &format!("1 1 {} {}", (w - 2).clamp(0, 99), (h - 2).clamp(0, 99)),
                    &format!("0 0 {MOST} {MOST}"),
                    "0 0 0 0",
                ])
                .into()
            }
        }
    }

    fn color(&mut self) -> String {
        let alpha = if self.percent(70) { self.pick(&[0, 1, 127, 128, 254, 255, 255, 255]) } else { self.from(0, 255) };
        format!("{alpha} {} {} {}", self.byte(), self.byte(), self.byte())
    }

    fn angle(&mut self) -> i64 {
        match self.from(1, 100) {
            1..=40 => 15 * self.from(-48, 48),
            41..=75 => self.from(-360, 360),
            76..=94 => self.from(-720, 720),
            95..=98 => self.pick(&[-720, -719, -361, -359, -1, 1, 359, 361, 719, 720]),
            _ => self.pick(&[721, -721, MIN, MAX]),
        }
    }

    /// Half of the copies go a step or two, so that most of these overlap; half of those are wholly on the canvas.
    fn copy(&mut self, w: i64, h: i64) -> String {
        let (near, inside) = (self.percent(50), self.percent(50));
        let mut axis = |side: i64| {
            let last = side.min(32_768) - 1;
            let from = if near { self.from(0, last.max(0)) } else { self.place(side, 4) };
            let to = if near { (from + self.from(-2, 2)).clamp(0, last.max(0)) } else { self.place(side, 4) };
            if near && inside {
                return (to, from, self.from(1, (last + 1 - from.max(to)).max(1)));
            }
            let start = if self.percent(50) { from.min(to) } else { from.max(to) };
            (to, from, self.length(start, side, 4))
        };
        let ((dx, sx, bw), (dy, sy, bh)) = (axis(w), axis(h));
        format!("{dx} {dy} {sx} {sy} {bw} {bh} {}", self.clip(w, h))
    }

    /// Half of the images are drawn to a point of the canvas, from their corner or a step beside it.
    fn draw(&mut self, w: i64, h: i64) -> String {
        let near = self.percent(50);
        let area = if near {
            let (x, y) = (self.from(0, (w.min(32_768) - 1).max(0)), self.from(0, (h.min(32_768) - 1).max(0)));
            format!("{x} {y} {} {}", self.from(1, 12), self.from(1, 12))
        } else {
            self.area(w, h, 4)
        };
        let (sf, (sw, sh)) = (self.format(), self.sides());
        let seed = self.seed(sf, sw, sh);
        let from = if near { format!("{} {}", self.from(-1, 1), self.from(-1, 1)) } else { self.point(sw, sh, 4) };
        format!("{area} {sf} {sw} {sh} {seed} {from} {}", self.clip(w, h))
    }

    /// A whole file, and now and then a header field or the length made wrong.
    fn lbmp(&mut self) -> String {
        let (kind, mask) = (self.pick(&[2, 8, 16]), self.from(0, 1));
        let (w, h) = (self.from(1, 12), self.from(1, 20));
        let plane = (h + 7) / 8 * w;
        let (size, image) = match kind {
            2 => (plane, 2 * plane),
            8 => (w * h, w * h),
            _ => (2 * w * h, 2 * w * h),
        };
        let mut fields = [self.from(0, MOST), kind, w, h, size, mask];
        let mut body = image + mask * plane;
        match self.from(1, 100) {
            1..=10 => fields[self.from(1, 5) as usize] = self.pick(&[0, 1, 2, 3, 8, 16, 65_536, HALF, MOST]),
            11..=13 => fields[4] += self.from(-1, 1),
            14 => fields[2..4].copy_from_slice(&[65_536, 65_536]),
            15 => fields[1..5].copy_from_slice(&[2, HALF, 1, HALF]),
            16..=18 => body -= 1,
            19..=23 => body = self.from(0, body),
            24..=28 => body += self.from(1, 9),
            _ => (),
        }
        let mut file: String = fields.iter().flat_map(|&n| (n as u32).to_le_bytes()).map(|b| format!("{b:02x}")).collect();
        file += &self.hex(body)[1..];
        if self.percent(3) {
            file.truncate(2 * self.from(0, 24) as usize);
        }
        if file.is_empty() {
            file.push('-');
        }
        let room = if self.percent(60) { w * h } else { self.pick(&[0, 1, w * h - 1, w * h + 1, 1000, MOST]) };
        format!("0 0 0 0 z lbmp {room} {file}")
    }

    /// One character put in, taken out or changed: most such lines cannot be read.
    fn spoil(&mut self, line: &mut String) {
        let at = self.next() as usize % line.len();
        let other = self.pick(&[' ', '-', '+', '0', '1', '9', 'x', 'z', 'A', 'f', ':', '/', '\t']);
        match self.from(1, 4) {
            1 => line.insert(at, other),
            2 => drop(line.remove(at)),
            3 => line.replace_range(at..at + 1, other.encode_utf8(&mut [0; 4])),
            _ => line.push(other),
        }
    }
}
