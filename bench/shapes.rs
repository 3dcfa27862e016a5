//! Lines and curves. Each is built in once its op stands in oracle/ops.

use std::hint::black_box;

use crate::canvas::{Canvas, Clip};
#[allow(unused)]
use crate::exported::{self, *};
use crate::{COLOR, Ours, beside, pair_of, race, row, same};

/// A screen on which every line has 320 plots.
const SIDE: u32 = 320;
const WHOLE: Clip = Clip { x: 0, y: 0, width: SIDE, height: SIDE };
const LENT: exported::Clip = part(WHOLE);

#[derive(Clone, Copy)]
enum Shape {
    Line([i32; 4]),
    /// The box's side, start and sweep.
    Arc(u32, i32, i32),
    Pie(u32, i32, i32),
    /// The box's side and the arc size both ways.
    RoundRect(u32, u32),
    FillRoundRect(u32, u32),
}

use Shape::{Arc, FillRoundRect, Line, Pie, RoundRect};

const AT: i32 = 60;

const SHAPES: [(&str, Shape); 24] = [
    ("shallow", Line([0, 100, 319, 200])),
    ("steep", Line([100, 0, 200, 319])),
    ("diagonal", Line([0, 0, 319, 319])),
    ("horizontal", Line([0, 100, 319, 100])),
    ("vertical", Line([100, 0, 100, 319])),
    ("arc", Arc(200, 0, 360)),
    ("part-arc", Arc(200, 30, 170)),
    ("pie", Pie(200, 0, 360)),
    ("part-pie", Pie(200, 30, 170)),
    ("pie-20", Pie(20, 0, 360)),
    ("part-pie-20", Pie(20, 30, 170)),
    ("pie-10", Pie(10, 0, 360)),
    ("part-pie-10", Pie(10, 30, 170)),
    ("corners", RoundRect(200, 40)),
    ("round", RoundRect(200, 200)),
    ("filled-corners", FillRoundRect(200, 40)),
    ("filled-round", FillRoundRect(200, 200)),
    ("filled-corners-20", FillRoundRect(20, 10)),
    ("filled-corners-10", FillRoundRect(10, 10)),
    ("point", Line([100, 100, 100, 100])),
    ("arc-4", Arc(4, 0, 360)),
    ("pie-4", Pie(4, 0, 360)),
    ("corners-4", RoundRect(4, 2)),
    ("filled-corners-4", FillRoundRect(4, 2)),
];

impl Shape {
    /// The call, and whether its op is there.
    fn what(self) -> (&'static str, bool) {
        match self {
            Line(_) => ("draw_line", cfg!(op = "line")),
            Arc(..) => ("draw_arc", cfg!(op = "arc")),
            Pie(..) => ("fill_arc", cfg!(op = "pie")),
            RoundRect(..) => ("draw_round_rect", cfg!(op = "rrect")),
            FillRoundRect(..) => ("fill_round_rect", cfg!(op = "frrect")),
        }
    }

    fn rust(self, canvas: &mut dyn Canvas) {
        let canvas = black_box(canvas);
        match self {
            Line([x1, y1, x2, y2]) => canvas.draw_line(x1, y1, x2, y2, COLOR, WHOLE),
            Arc(w, start, sweep) => canvas.draw_arc(AT, AT, w, w, start, sweep, COLOR, WHOLE),
            Pie(w, start, sweep) => canvas.fill_arc(AT, AT, w, w, start, sweep, COLOR, WHOLE),
            RoundRect(w, arc) => canvas.draw_round_rect(AT, AT, w, w, arc, arc, COLOR, WHOLE),
            FillRoundRect(w, arc) => canvas.fill_round_rect(AT, AT, w, w, arc, arc, COLOR, WHOLE),
        }
    }

    /// What the library does not have is not linked.
    #[allow(unreachable_code, unreachable_patterns, unused)]
    fn ours(self, on: &mut Ours) -> u64 {
        let (canvas, data, length, k) = (&on.canvas, on.bytes.as_mut_ptr(), on.bytes.len(), word(COLOR));
        let (x, mut drawn) = (AT, Drawn::default());
        let d = &mut drawn;
        let status: u32 = unsafe {
            match self {
                #[cfg(op = "line")]
                Line([x1, y1, x2, y2]) => tuyrashka_draw_line(canvas, data, length, x1, y1, x2, y2, k, &LENT, d),
                #[cfg(op = "arc")]
                Arc(w, start, sweep) => tuyrashka_draw_arc(canvas, data, length, x, x, w, w, start, sweep, k, &LENT, d),
                #[cfg(op = "pie")]
                Pie(w, start, sweep) => tuyrashka_fill_arc(canvas, data, length, x, x, w, w, start, sweep, k, &LENT, d),
                #[cfg(op = "rrect")]
                RoundRect(w, arc) => tuyrashka_draw_round_rect(canvas, data, length, x, x, w, w, arc, arc, k, &LENT, d),
                #[cfg(op = "frrect")]
                FillRoundRect(w, arc) => tuyrashka_fill_round_rect(canvas, data, length, x, x, w, w, arc, arc, k, &LENT, d),
                other => unreachable!("oracle/ops has not {}", other.what().0),
            }
        };
        assert_eq!(status, 0);
        drawn.landed
    }
}

fn built() -> impl Iterator<Item = (&'static str, Shape)> {
    SHAPES.into_iter().filter(|(_, shape)| shape.what().1)
}

fn timed(note: &str, shape: Shape, format: u32, xor: bool) {
    let (mut canvas, mut ours) = pair_of(format, xor, 7, (SIDE, SIDE));
    shape.rust(&mut *canvas);
    let landed = shape.ours(&mut ours);
    same(&*canvas, &ours);
    let times = race(|| black_box(shape).rust(&mut *canvas), || _ = black_box(black_box(shape).ours(&mut ours)));
    row(shape.what().0, format, xor, note, landed, times);
}

/// Lines on every format, curves on two.
pub fn rows() {
    if built().next().is_some() {
        println!("\n| {SIDE} by {SIDE} | format | XOR | how | Rust, ns a plot | ours, ns a plot | ours / Rust |");
        println!("|---|---|---|---|---|---|---|");
    }
    for (note, shape) in built() {
        let formats: &[u32] = if matches!(shape, Line(_)) { &[0, 1, 2, 3, 4] } else { &[1, 3] };
        for &format in formats {
            [false, true].into_iter().for_each(|xor| timed(note, shape, format, xor));
        }
    }
}

/// A shallow line and a horizontal one, on rows without tails and with them.
pub fn tails() {
    for (note, shape) in built().filter(|(name, _)| ["shallow", "horizontal"].contains(name)) {
        for format in 0..5 {
            beside(shape.what().0, note, pair_of(format, false, 7, (SIDE, SIDE)).1, |ours, _| black_box(shape).ours(ours));
        }
    }
}

/// The names that are built in, with the plots that land.
pub fn names() {
    for (name, shape) in built() {
        println!("{name} {}", shape.ours(&mut pair_of(0, false, 7, (SIDE, SIDE)).1));
    }
}

/// Whether there is such a shape; it is then drawn k times on one side.
pub fn passes(name: &str, side: &str, format: u32, xor: bool, k: u32) -> bool {
    let Some((_, shape)) = built().find(|(other, _)| *other == name) else { return false };
    let (mut canvas, ours) = pair_of(format, xor, 7, (SIDE, SIDE));
    let mut ours = ours.on(side);
    for _ in 0..k {
        match side {
            "rust" => black_box(shape).rust(&mut *canvas),
            _ => _ = black_box(black_box(shape).ours(&mut ours)),
        }
    }
    true
}
