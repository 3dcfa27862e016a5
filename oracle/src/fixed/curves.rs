//! Arcs, pies and round rectangles.

use super::{COLOR, EVERYWHERE, MAX, MIN, MOST, SIDES, areas, head, modes};
use crate::edges::{Direction, directions};

/// Angles about a quarter turn, a turn and two.
const ANGLES: [i64; 15] = [0, 1, -1, 90, -90, 359, -359, 360, -360, 361, -361, 720, -720, 721, -721];

/// Starts and sweeps of every kind.
const SWEEPS: [(i64, i64); 12] = [
    (0, 360),
    (5, 360),
    (0, 90),
    (30, 30),
    (50, -47),
    (100, 70),
    (-100, 200),
    (203, 131),
    (300, 45),
    (90, -360),
    (45, 0),
    (700, -720),
];

/// Corners and sides on both sides of SHAPE's edges.
fn edges(op: &str, args: &str, list: &mut Vec<String>) {
    let head = head(1, (4, 3), 1);
    for n in [-32_769, -32_768, -32_767, -3, -1, 3, 32_766, 32_767, 32_768, MIN, MAX] {
        list.push(format!("{head} {op} {n} 0 3 3 {args} {COLOR} 0 0 4 3"));
        list.push(format!("{head} {op} 0 {n} 3 3 {args} {COLOR} 0 0 4 3"));
        list.push(format!("{head} {op} {n} {n} 32767 32767 {args} {COLOR} 0 0 4 3"));
        list.push(format!("{head} {op} {n} 0 0 0 {args} {COLOR} 0 0 4 3"));
    }
    for n in [0, 1, 2, 32_766, 32_767, 32_768, 65_536, MAX, MOST] {
        list.push(format!("{head} {op} 0 0 {n} 3 {args} {COLOR} 0 0 4 3"));
        list.push(format!("{head} {op} 0 0 3 {n} {args} {COLOR} 0 0 4 3"));
        list.push(format!("{head} {op} -1 -1 {n} 0 {args} {COLOR} 0 0 4 3"));
        list.push(format!("{head} {op} {} 1 {n} 7 {args} {COLOR} {EVERYWHERE}", 2 - n.min(32_769)));
    }
}

/// Clips, alphas, and screens of all sizes.
fn screens(op: &str, args: &str, list: &mut Vec<String>) {
    let sides = (7, 5);
    let xored = head(3, sides, 1);
    list.extend(areas(sides).iter().map(|clip| format!("{xored} {op} 0 0 7 5 {args} {COLOR} {clip}")));
    for (format, xor) in modes() {
        let head = head(format, sides, xor);
        for alpha in [0, 1, 127, 254, 255] {
            list.push(format!("{head} {op} 1 0 5 5 {args} {alpha} 200 100 50 0 0 7 5"));
        }
        for (at, clip) in [("0 0 7 5", "2 1 3 3"), ("-2 -1 7 5", "0 0 7 5"), ("3 2 7 5", "-1 -1 9 9"), ("1 1 3 3", "4 0 3 5")] {
            list.push(format!("{head} {op} {at} {args} {COLOR} {clip}"));
        }
    }
    for (w, h) in SIDES {
        for (format, xor) in [(0, 1), (4, 0)] {
            let head = head(format, (w, h), xor);
            list.push(format!("{head} {op} 0 0 {w} {h} {args} {COLOR} {EVERYWHERE}"));
            list.push(format!("{head} {op} -3 -3 7 7 {args} {COLOR} {EVERYWHERE}"));
            list.push(format!("{head} {op} -9 -9 {} {} {args} {COLOR} {EVERYWHERE}", w.min(99) + 18, h.min(99) + 18));
        }
    }
}

/// Arcs and pies.
pub fn angled(op: &str, list: &mut Vec<String>) {
    let head = [head(0, (9, 8), 1), head(2, (9, 8), 0)];
    for start in ANGLES {
        for sweep in ANGLES {
            list.push(format!("{} {op} 1 1 7 5 {start} {sweep} {COLOR} 0 0 9 8", head[0]));
        }
        for far in [MIN, MAX] {
            list.push(format!("{} {op} 1 1 7 5 {start} {far} {COLOR} 0 0 9 8", head[0]));
            list.push(format!("{} {op} 1 1 7 5 {far} {start} {COLOR} 0 0 9 8", head[0]));
        }
    }
    for (w, h) in (0..8).flat_map(|w| (0..8).map(move |h| (w, h))) {
        for (n, (start, sweep)) in SWEEPS.into_iter().enumerate().filter(|(n, _)| n % 3 == (w + 2 * h) as usize % 3) {
            list.push(format!("{} {op} 1 1 {w} {h} {start} {sweep} {COLOR} 0 0 9 8", head[n % 2]));
        }
    }
    for (start, sweep) in SWEEPS {
        for (x, y) in [(-4, -3), (-1, 4), (6, -2), (5, 5)] {
            list.push(format!("{} {op} {x} {y} 7 5 {start} {sweep} {COLOR} 0 0 9 8", head[1]));
        }
    }
    edges(op, "20 150", list);
    screens(op, "20 150", list);
    // Which of two refusals is given.
    for (at, angles) in [("32768 0 3 3", "721 0"), ("0 0 32768 0", "0 -721"), ("0 0 0 0", "721 721"), ("0 0 0 3", "720 -720")] {
        for head in ["5 1 1 0 x00", "0 32768 1 0 3", "3 1 1 0 x00", "3 1 1 0 4"] {
            list.push(format!("{head} {op} {at} {angles} {COLOR} 0 0 9 9"));
        }
    }
}

/// Arcs of which a point is nearly between two pixels: the last digit of a step of the Rust's decides it.
const ARCS: [((i64, i64), &str); 20] = [
    ((1, 1), "0 -1 1 3 210 0"),
    ((1, 1), "0 0 1 3 315 250"),
    ((1, 1), "0 0 1 2 705 -690"),
    ((1, 2), "0 1 1 3 -351 -292"),
    ((1, 2), "0 0 2 3 60 -690"),
    ((1, 3), "0 2 2 5 263 -173"),
    ((1, 4), "0 3 1 3 630 480"),
    ((1, 5), "0 2 2 2 33 285"),
    ((1, 6), "-2954 -208 3939 3184 333 87"),
    ((2, 1), "0 0 4 1 555 90"),
    ((2, 2), "0 0 4 3 134 570"),
    ((2, 5), "0 2 2 3 720 150"),
    ((5, 1), "1 0 7 1 -97 217"),
    ((6, 1), "1 0 7 2 -300 109"),
    ((9, 1), "3 0 7 2 -255 -45"),
    ((6, 3), "1 0 7 1 -300 -315"),
    ((9, 4), "1 2 9 3 270 720"),
    ((5, 11), "-5 2 7 2 -232 -282"),
    ((19, 14), "12 12 7 2 330 330"),
    ((26, 26), "1 1 24 24 59 -240"),
];

/// Round outlines of which one is.
const OUTLINES: [((i64, i64), &str); 4] =
    [((1, 1), "0 0 2 3 3 3"), ((2, 1), "1 0 236 247 29 1"), ((19, 1), "9 0 18 1 18 3"), ((27, 1), "7 0 22 2 28 16")];

/// These, with XOR off and on.
pub fn between(op: &str, list: &mut Vec<String>) {
    let shapes = if op == "arc" { &ARCS[..] } else { &OUTLINES };
    for ((w, h), shape) in shapes {
        list.extend([0, 1].map(|xor| format!("0 {w} {h} {xor} z {op} {shape} 255 255 255 255 0 0 {w} {h}")));
    }
}

/// Pies of which a pixel is nearly on an edge: on a phone's screen, and of one pixel those on the axes and the diagonals and
/// the five in each eighth of a turn that are nearest to a whole degree. Of one more the last digit of the arctangent's smallest
/// coefficient decides it.
pub fn beside(list: &mut Vec<String>) {
    for shape in ["181 188 0 262", "181 188 278 90", "224 225 0 43"] {
        list.push(format!("0 240 320 0 z pie 0 0 {shape} 255 255 255 255 0 0 240 320"));
    }
    list.push("0 1 1 0 z pie -4360 -10570 17440 17440 143 60 255 255 255 255 0 0 1 1".to_string());
    let straight = |d: &Direction| d.right == 0 || d.up == 0 || d.right.abs() == d.up.abs();
    let mut near: Vec<Direction> = directions(320).filter(|d| lowest(d.right, d.up) && !straight(d)).collect();
    near.sort_by(|d, e| d.beside().total_cmp(&e.beside()));
    let straight = directions(3).filter(|d| straight(d) && d.right.abs().max(d.up.abs()) == 3);
    list.extend(straight.chain(near.into_iter().take(40)).flat_map(Direction::pies));
}

/// Whether no number but 1 divides both.
fn lowest(a: i64, b: i64) -> bool {
    if b == 0 { a.abs() == 1 } else { lowest(b, a % b) }
}

/// Round rectangles, outlined and filled.
pub fn round(op: &str, list: &mut Vec<String>) {
    let head = [head(1, (9, 8), 1), head(4, (9, 8), 0)];
    let sizes = [0, 1, 2, 3, 4, 5, 6, 7, 8, 20, MOST];
    for aw in sizes {
        for (n, ah) in sizes.into_iter().enumerate() {
            list.push(format!("{} {op} 1 1 7 6 {aw} {ah} {COLOR} 0 0 9 8", head[n % 2]));
            list.push(format!("{} {op} -2 3 5 9 {aw} {ah} {COLOR} 0 0 9 8", head[n % 2]));
        }
    }
    for (w, h) in (0..8).flat_map(|w| (0..8).map(move |h| (w, h))) {
        for (n, (aw, ah)) in [(1, 1), (2, 2), (4, 2), (3, 5), (w, h), (w + 1, 4)].into_iter().enumerate() {
            list.push(format!("{} {op} 1 1 {w} {h} {aw} {ah} {COLOR} 0 0 9 8", head[n % 2]));
        }
    }
    edges(op, "4 2", list);
    edges(op, "0 4", list);
    screens(op, "4 4", list);
    for head in ["5 1 1 0 x00", "0 32768 1 0 3", "3 1 1 0 x00", "3 1 1 0 4"] {
        list.extend(["32768 0 3 3", "0 0 32768 0"].map(|at| format!("{head} {op} {at} 0 0 {COLOR} 0 0 9 9")));
    }
}
