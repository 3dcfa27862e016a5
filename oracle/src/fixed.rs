//! The fixed list of cases: the edges first and in order, then the colours, then some random ones; behind them rows of other
//! lengths than the width, and behind these blending rules.

mod boxes;
mod curves;
mod files;
mod icons;
mod images;
mod lines;
mod rows;
mod rules;

use std::collections::HashSet;

use crate::case::pixel_size;
use crate::random::Cases;

const MIN: i64 = i32::MIN as i64;
const MAX: i64 = i32::MAX as i64;
const MOST: i64 = u32::MAX as i64;
const HALF: i64 = 1 << 31;
const COLOR: &str = "128 200 100 50";
/// A clip.
const EVERYWHERE: &str = "-2147483648 -2147483648 4294967295 4294967295";

/// The cases of these ops.
pub fn fixed(ops: &[&'static str]) -> Vec<String> {
    let mut list = Vec::new();
    for &op in ops {
        match op {
            "put" => put(&mut list),
            "get" => get(&mut list),
            "line" => lines::line(&mut list),
            "rect" => boxes::rect(&mut list),
            "fill" => fill(&mut list),
            "arc" => {
                curves::angled(op, &mut list);
                curves::between(op, &mut list);
            }
            "pie" => {
                curves::angled(op, &mut list);
                curves::beside(&mut list);
            }
            "rrect" => {
                curves::round(op, &mut list);
                curves::between(op, &mut list);
            }
            "frrect" => curves::round(op, &mut list),
            "copy" => images::copy(&mut list),
            "invert" => boxes::invert(&mut list),
            "draw" => images::draw(&mut list),
            "lbmp" => files::lbmp(&mut list),
            "res" => icons::res(&mut list),
            _ => continue,
        }
        refused(op, &mut list);
    }
    unreadable(&mut list);
    list.extend(Cases::new(300, 1, ops).filter(|case| case.len() <= 200));
    rows::rows(ops, &mut list);
    rules::rules(ops, &mut list);
    let mut seen = HashSet::new();
    list.retain(|case| seen.insert(case.clone()));
    list
}

/// Hex of so many bytes, no two neighbours alike.
fn bytes(n: i64) -> String {
    (0..n).map(|i| format!("{:02x}", (i * 37 + 0x9d) % 256)).collect()
}

/// F W H X SEED with the right number of bytes.
fn head(format: u32, (w, h): (i64, i64), xor: u32) -> String {
    let length = w * h * pixel_size(format).unwrap() as i64;
    let seed = if length <= 60 { format!("x{}", bytes(length)) } else { "7".into() };
    format!("{format} {w} {h} {xor} {seed}")
}

/// Each format with XOR off and on.
fn modes() -> impl Iterator<Item = (u32, u32)> {
    (0..5).flat_map(|format| [(format, 0), (format, 1)])
}

/// Sides of 0, 1, 2, odd ones, and the longest.
const SIDES: [(i64, i64); 10] = [(0, 0), (0, 5), (5, 0), (1, 1), (1, 2), (2, 1), (2, 2), (3, 5), (32_767, 1), (1, 32_767)];

/// Points at and past each edge and corner, and the furthest.
fn points((w, h): (i64, i64)) -> Vec<(i64, i64)> {
    let far = [(MIN, 0), (MAX, 0), (0, MIN), (0, MAX), (MIN, MIN), (MAX, MAX)];
    let mut points = vec![(0, 0), (w - 1, h - 1), (w - 1, 0), (0, h - 1), (-1, 0), (0, -1), (w, 0), (0, h), (w, h), (-1, -1)];
    points.extend(far);
    points
}

/// Spans (start, length) at and past both ends of a side, and the furthest.
fn spans(side: i64) -> Vec<(i64, i64)> {
    vec![
        (0, side),
        (0, 0),
        (0, 1),
        (0, side - 1),
        (0, side + 1),
        (1, side - 1),
        (1, side),
        (1, 1),
        (side - 1, 1),
        (side - 1, 2),
        (side, 1),
        (side + 1, 5),
        (-1, 1),
        (-1, 2),
        (-1, side + 1),
        (-1, side + 2),
        (-5, 3),
        (MIN, MOST),
        (MIN, HALF),
        (MIN, HALF + 1),
        (MIN, HALF + side),
        (MIN + 1, MAX),
        (MIN + 1, HALF),
        (MAX, MOST),
        (MAX, 1),
        (0, MOST),
        (0, HALF),
        (1, MAX),
    ]
}

/// Areas in which one axis takes each span and the other the whole side.
fn areas((w, h): (i64, i64)) -> Vec<String> {
    let across = spans(w).into_iter().map(|(x, length)| format!("{x} 0 {length} {h}"));
    let down = spans(h).into_iter().map(|(y, length)| format!("0 {y} {w} {length}"));
    across.chain(down).collect()
}

fn put(list: &mut Vec<String>) {
    let sides = (3, 2);
    for (format, xor) in modes() {
        let head = head(format, sides, xor);
        list.extend(points(sides).iter().map(|(x, y)| format!("{head} put {x} {y} {COLOR} 0 0 3 2")));
    }
    for (format, xor) in [(1, 0), (3, 1)] {
        let head = head(format, sides, xor);
        list.extend(areas(sides).iter().map(|clip| format!("{head} put 1 1 {COLOR} {clip}")));
    }
    for (w, h) in SIDES {
        let everywhere = format!("{MIN} {MIN} {MOST} {MOST}");
        let format = (w + h) as u32 % 5;
        let head = head(format, (w, h), 0);
        list.extend([(0, 0), (w - 1, h - 1), (w, h - 1)].map(|(x, y)| format!("{head} put {x} {y} {COLOR} {everywhere}")));
    }
    for (format, xor) in modes() {
        for color in ["0 255 0 255", "1 1 2 3", "127 7 8 9", "128 18 19 54", "254 254 253 252", "255 255 255 255", "255 0 0 0"] {
            list.push(format!("{} put 0 0 {color} 0 0 1 1", head(format, (1, 1), xor)));
        }
    }
    list.push("3 1 1 1 xff00ff00 put 0 0 255 255 0 0 0 0 1 1".into());
    list.push("3 1 1 1 xff0000ff put 0 0 255 255 0 0 0 0 1 1".into());
}

fn get(list: &mut Vec<String>) {
    for format in 0..5 {
        for sides in [(1, 1), (3, 2)] {
            let head = head(format, sides, format % 2);
            list.extend(points(sides).iter().map(|(x, y)| format!("{head} get {x} {y}")));
        }
        for (w, h) in SIDES {
            let head = head(format, (w, h), 0);
            list.extend([(0, 0), (w - 1, h - 1), (w, h - 1)].map(|(x, y)| format!("{head} get {x} {y}")));
        }
    }
    list.extend((0..256).map(|word| format!("0 1 1 0 x{word:02x} get 0 0")));
    let levels = (0..32).map(|v| v << 11 | v).chain((0..64).map(|v| v << 5));
    list.extend(levels.map(|word: u16| format!("1 1 1 0 x{:04x} get 0 0", word.swap_bytes())));
}

fn fill(list: &mut Vec<String>) {
    let sides = (3, 3);
    for (format, xor) in [(0, 0), (1, 1), (2, 1), (3, 0), (4, 1)] {
        let head = head(format, sides, xor);
        list.extend(areas(sides).iter().map(|area| format!("{head} fill {area} {COLOR} 0 0 3 3")));
    }
    for (format, xor) in [(0, 1), (1, 0), (3, 1)] {
        let head = head(format, sides, xor);
        list.extend(areas(sides).iter().map(|clip| format!("{head} fill 0 0 3 3 {COLOR} {clip}")));
    }
    for (format, xor) in modes() {
        let head = head(format, (5, 3), xor);
        for (area, clip) in [("0 0 5 3", "1 1 3 1"), ("1 0 3 3", "2 1 3 2"), ("-2 -2 4 4", "-1 -1 9 9"), ("0 0 3 2", "3 0 2 3")] {
            list.push(format!("{head} fill {area} {COLOR} {clip}"));
        }
        for alpha in [0, 1, 127, 254, 255] {
            list.push(format!("{head} fill 1 1 3 2 {alpha} 200 100 50 0 0 5 3"));
        }
    }
    for (w, h) in SIDES {
        for (format, xor) in [(0, 0), (1, 1), (4, 0)] {
            let head = head(format, (w, h), xor);
            list.push(format!("{head} fill {MIN} {MIN} {MOST} {MOST} {COLOR} {MIN} {MIN} {MOST} {MOST}"));
            list.push(format!("{head} fill {} 0 2 2 {COLOR} 0 0 {w} {h}", w - 1));
        }
    }
}

/// Each refusal, and which of several is given.
fn refused(op: &str, list: &mut Vec<String>) {
    let args = match op {
        "put" => format!("0 0 {COLOR} 0 0 9 9"),
        "get" => "0 0".into(),
        "line" => format!("0 0 1 1 {COLOR} 0 0 9 9"),
        "rect" | "fill" => format!("0 0 2 2 {COLOR} 0 0 9 9"),
        "arc" | "pie" => format!("0 0 3 3 20 50 {COLOR} 0 0 9 9"),
        "rrect" | "frrect" => format!("0 0 3 3 2 2 {COLOR} 0 0 9 9"),
        "copy" => "1 0 0 0 2 2 0 0 9 9".into(),
        "invert" => "0 0 2 2 0 0 9 9".into(),
        "draw" => "0 0 2 2 3 2 2 8 0 0 0 0 9 9".into(),
        _ => return,
    };
    list.extend(heads().iter().map(|head| format!("{head} {op} {args}")));
}

/// Canvases on either side of each refusal's edge, and with several faults.
fn heads() -> Vec<String> {
    let mut heads: Vec<String> = [
        // FORMAT, with and without a wrong side and a wrong length
        "5 1 1 0 x00",
        "5 0 0 0 x",
        "4294967295 1 1 0 x01020304",
        "256 1 1 1 x01",
        "5 32768 1 0 x",
        "5 1 1 0 x0102030405",
        // SIZE, with the right length and a wrong one
        "0 32768 0 0 z",
        "0 0 32768 0 z",
        "0 32768 1 0 3",
        "1 1 32768 1 3",
        "2 4294967295 0 0 z",
        "3 0 4294967295 0 x",
        "4 4294967295 4294967295 0 x01",
        "0 65536 65536 0 x",
        "3 32768 32768 0 x",
        // no SIZE, and LENGTH
        "0 32767 0 0 z",
        "0 0 32767 0 z",
        "3 32767 32767 0 x",
        "0 32767 1 0 x00",
    ]
    .map(String::from)
    .into();
    for format in 0..5 {
        let size = pixel_size(format).unwrap() as i64;
        for length in [0, size - 1, 6 * size - size, 6 * size - 1, 6 * size + 1, 6 * size + size, 12 * size] {
            heads.push(format!("{format} 2 3 {} x{}", format % 2, bytes(length)));
        }
        heads.push(format!("{format} 0 3 0 x00"));
    }
    heads
}

/// Lines that cannot be read, beside some that just can.
fn unreadable(list: &mut Vec<String>) {
    let lines = [
        "",
        " ",
        "put",
        "0 1 1 0 z",
        "0 1 1 0 z get",
        "0 1 1 0 z get 0",
        "0 1 1 0 z get 0 0",
        "0 1 1 0 z get 0 0 0",
        "0 1 1 0 z get 0 0 ",
        " 0 1 1 0 z get 0 0",
        "0  1 1 0 z get 0 0",
        "0 1 1 0 z gets 0 0",
        "0 1 1 0 z GET 0 0",
        "00 01 001 01 z get -0 000000000000000000000",
        "+0 1 1 0 z get 0 0",
        "-0 1 1 0 z get 0 0",
        "0 1 1 2 z get 0 0",
        "0 1 1 0 z get - 0",
        "0 1 1 0 z get --1 0",
        "0 1 1 0 z get +1 0",
        "0 1 1 0 z get 2147483647 -2147483648",
        "0 1 1 0 z get 2147483648 0",
        "0 1 1 0 z get 0 -2147483649",
        "0 1 1 0 z get 0x1 0",
        "0 4294967295 0 0 z get 0 0",
        "0 4294967296 0 0 z get 0 0",
        "0 1 -1 0 z get 0 0",
        "0 1 1 0 4294967295 get 0 0",
        "0 1 1 0 4294967296 get 0 0",
        "0 1 1 0 -1 get 0 0",
        "0 1 1 0 xaF get 0 0",
        "0 1 1 0 xa get 0 0",
        "0 1 1 0 xag get 0 0",
        "0 1 1 0 Xaf get 0 0",
        "0 1 1 0 zz get 0 0",
        "5 1 1 0 z get 0 0",
        "5 1 1 0 1 get 0 0",
        "4 512 512 0 z get 511 511",
        "4 512 513 0 z get 0 0",
        "0 32768 32 0 z get 0 0",
        "0 32768 33 0 z get 0 0",
        "4 4294967295 4294967295 0 0 get 0 0",
        "0 1 1 0 z put 0 0 255 255 255 256 0 0 1 1",
        "0 1 1 0 z put 0 0 -1 255 255 255 0 0 1 1",
        "0 1 1 0 z put 0 0 255 255 255 255 0 0 -1 1",
        "0 1 1 0 z put 0 0 255 255 255 255 -1 -1 4294967295 2",
        "0 1 1 0 z put 0 0 255 255 255 255 0 0 1",
        "0 1 1 0 z put 0 0 255 255 255 255 0 0 1 1 1",
        "0 1 1 0 z fill 0 0 1 4294967296 255 255 255 255 0 0 1 1",
        "0 1 1 0 z fill 0 0 -1 1 255 255 255 255 0 0 1 1",
        "0 1 1 0 z fill 0 0 1 1 255 255 255 0 0 1 1",
        "0 1 1 0 z\tget 0 0",
        "0 1 1 0 z get 0 0\r",
        "0 1 1 0 z get 0 0\r\r",
        "0 1 1 0 z get 0\r 0",
        "\r",
    ];
    list.extend(lines.map(String::from));
}
