//! Random arcs, pies and round rectangles.

use super::{Chance, HALF, MOST};

/// Sides of phones' screens.
const SCREENS: [(i64, i64); 6] = [(96, 64), (101, 80), (120, 160), (128, 128), (176, 220), (240, 320)];

impl Chance {
    /// The longest sides but seldom: a stroke has hundreds of thousands of points there.
    pub(super) fn stroke_sides(&mut self) -> (i64, i64) {
        match self.sides() {
            (32_767, 1) if self.percent(98) => (999, 1),
            (1, 32_767) if self.percent(98) => (1, 999),
            sides => sides,
        }
    }

    /// Those of a phone's screen, or between.
    fn screen_sides(&mut self) -> (i64, i64) {
        if self.percent(60) { self.pick(&SCREENS) } else { (self.from(64, 240), self.from(64, 320)) }
    }

    /// A curve on a phone's screen, about as big as that.
    pub(super) fn on_screen(&mut self, op: &str) -> String {
        let (w, h) = self.screen_sides();
        let mut axis = |side: i64| {
            let length = self.from(side * 3 / 4, side + 1);
            (self.from(-1, side - length + 1), length)
        };
        let ((x, bw), (y, bh)) = (axis(w), axis(h));
        let (one, two) = self.bends(op, bw, bh);
        format!("{} {op} {x} {y} {bw} {bh} {one} {two} {} {}", self.head(w, h), self.color(), self.clip(w, h))
    }

    /// What stands before COL on a canvas of these sides; one in five is a part of a bigger curve.
    pub(super) fn curve(&mut self, op: &str, w: i64, h: i64) -> String {
        if self.percent(20) {
            return self.part(op, w, h);
        }
        let area = self.round_area(w, h);
        match op {
            "arc" | "pie" => format!("{area} {} {}", self.angle(), self.angle()),
            _ => format!("{area} {} {}", self.arc_size(w), self.arc_size(h)),
        }
    }

    /// x y w h, now and then a box that is far bigger than the screen and has an edge on it.
    fn round_area(&mut self, w: i64, h: i64) -> String {
        if self.percent(95) {
            return self.area(w, h, 1);
        }
        let mut axis = |side: i64| {
            let length = self.pick(&[99, 100, 1_001, 16_384, 32_766, 32_767]);
            let place = self.place(side, 0);
            (if self.percent(50) { place } else { place - length + 1 }, length)
        };
        let ((x, bw), (y, bh)) = (axis(w), axis(h));
        format!("{x} {y} {bw} {bh}")
    }

    /// A curve about as big as a phone's screen, or up to the biggest, so placed that the canvas has a point of it: of an arc
    /// an end, of a pie a point of an edge, of a round rectangle one of a corner.
    fn part(&mut self, op: &str, w: i64, h: i64) -> String {
        let (sw, sh) = if self.percent(70) { self.screen_sides() } else { (32_767, 32_767) };
        let least = |side: i64| if side == 32_767 { 64 } else { side * 3 / 4 };
        let (bw, bh) = (self.from(least(sw), sw), self.from(least(sh), sh));
        let (one, two) = self.bends(op, bw, bh);
        let angled = op == "arc" || op == "pie";
        let turn = if angled { one + self.pick(&[0, two]) } else { self.from(0, 359) };
        let (sin, cos) = (turn as f64).to_radians().sin_cos();
        let (rx, ry) = if angled { (bw, bh) } else { (one.min(bw), two.min(bh)) };
        let (rx, ry) = (rx as f64 / 2.0, ry as f64 / 2.0);
        let (right, up) = match op {
            "pie" => {
                let length = self.from(5, 99) as f64 / 100.0 / (cos / rx).hypot(sin / ry);
                (length * cos, length * sin)
            }
            _ => (rx * cos, ry * sin),
        };
        let across = if right < 0.0 { rx + right } else { bw as f64 - rx + right };
        let down = if up > 0.0 { ry - up } else { bh as f64 - ry - up };
        let mut on = |side: i64| self.from(0, (side.min(32_768) - 1).max(0));
        let (x, y) = (on(w) - across as i64, on(h) - down as i64);
        format!("{x} {y} {bw} {bh} {one} {two}")
    }

    /// The two angles of an arc or a pie, or the arc sizes.
    fn bends(&mut self, op: &str, w: i64, h: i64) -> (i64, i64) {
        match op {
            "arc" | "pie" => (self.from(0, 359), self.from(-360, 360)),
            _ => (self.arc_size(w), self.arc_size(h)),
        }
    }

    /// An arc size along a side: small ones, odd ones, about the side's, and bigger.
    fn arc_size(&mut self, side: i64) -> i64 {
        let side = side.min(32_768);
        match self.from(1, 100) {
            1..=25 => self.from(0, 3),
            26..=65 => self.from(1, side + 2),
            66..=80 => 2 * self.from(0, side / 2 + 1) + 1,
            81..=90 => side + self.from(0, 2),
            91..=98 => side + self.from(3, 60),
            _ => self.pick(&[32_767, 32_768, HALF - 1, HALF, MOST - 1, MOST]),
        }
    }
}
