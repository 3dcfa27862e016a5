//! Random lines of every kind.

use super::{Chance, MAX, MIN};

impl Chance {
    /// Now and then a screen of one or two rows or columns as long as they may be.
    pub(super) fn line_sides(&mut self) -> (i64, i64) {
        let few = self.from(1, 2);
        if self.percent(1) { self.pick(&[(32_767, few), (few, 32_767)]) } else { self.sides() }
    }

    /// x1 y1 x2 y2
    pub(super) fn line(&mut self, w: i64, h: i64) -> String {
        let (x, y) = (self.place(w, 4), self.place(h, 4));
        let (a, b) = (self.place(w, 4), self.place(h, 4));
        let slight = self.from(-2, 2);
        let (from, to) = match self.from(1, 100) {
            1..=30 => ((x, y), (a, b)),
            31..=38 => ((x, y), (x, y)),
            39..=46 => ((x, y), (a, y)),
            47..=54 => ((x, y), (x, b)),
            55..=62 => ((x, y), (a, y + self.pick(&[x - a, a - x]))),
            63..=70 => ((x, y), (x + slight, b)),
            71..=78 => ((x, y), (a, y + slight)),
            79..=88 => ((self.margin(w), self.margin(h)), (self.margin(w), self.margin(h))),
            _ => self.through(x, y),
        };
        let (from, to) = if self.percent(50) { (from, to) } else { (to, from) };
        let [x1, y1, x2, y2] = [from.0, from.1, to.0, to.1].map(|n| n.clamp(MIN, MAX));
        format!("{x1} {y1} {x2} {y2}")
    }

    /// A coordinate at either end of a side, or up to two past it.
    fn margin(&mut self, side: i64) -> i64 {
        self.pick(&[-2, -1, 0, side - 1, side, side + 1])
    }

    /// Ends far apart, and a point between them or nearly so.
    fn through(&mut self, x: i64, y: i64) -> ((i64, i64), (i64, i64)) {
        let reach = self.pick(&[9, 300, 70_000, MAX]);
        let (dx, dy) = (self.from(-reach, reach), self.from(-reach, reach));
        let (before, after) = (self.from(0, 3), self.from(0, 3));
        ((x - before * dx, y - before * dy), (x + after * dx, y + after * dy))
    }
}
