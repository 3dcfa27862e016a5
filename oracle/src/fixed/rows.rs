//! Rows of other lengths than the width. They stand behind all other cases, which keep their places.

use super::{COLOR, EVERYWHERE, MOST, bytes, modes};
use crate::case::pixel_size;
use crate::random::Cases;

pub fn rows(ops: &[&'static str], list: &mut Vec<String>) {
    for &op in ops {
        drawn(op, list);
        refused(op, list);
        wide(op, list);
        held(op, list);
    }
    if ops.contains(&"draw") {
        images(list);
    }
    angles_and_shapes(
        ["0 3 3 0 x010203040506 row=2", "0 3 3 0 x row=32768", "0 3 3 0 x010203 row=4", "0 3 3 0 7 row=4"],
        ops,
        list,
    );
    unreadable(list);
    let random = Cases::new(300, 2, ops).with_rows();
    list.extend(random.filter(|case| case.contains("row=") && case.len() <= 200));
}

/// F W H X SEED row=N with the right number of bytes.
fn head(format: u32, (w, h): (i64, i64), row: i64, xor: u32) -> String {
    let length = row * h * pixel_size(format).unwrap() as i64;
    let seed = if length <= 60 { format!("x{}", bytes(length)) } else { "7".into() };
    format!("{format} {w} {h} {xor} {seed} row={row}")
}

/// The same of a source, SF SW SH SSEED row=N.
fn source(head: &str) -> String {
    let [format, w, h, _, seed, row] = head.split(' ').collect::<Vec<_>>()[..] else { unreachable!("six words") };
    format!("{format} {w} {h} {seed} {row}")
}

/// Arguments on a canvas of 5 by 4: up to the right edge, past it, and off the left one; nothing for what draws nothing.
pub fn args(op: &str) -> Vec<String> {
    let boxes = ["0 0 5 4", "3 1 9 9", "-2 -1 6 4"];
    let (at, behind) = match op {
        "put" => (["4 3", "5 1", "0 2"], format!(" {COLOR} {EVERYWHERE}")),
        "get" => (["4 3", "5 1", "0 2"], String::new()),
        "line" => (["0 0 4 3", "-3 1 9 2", "4 3 4 0"], format!(" {COLOR} {EVERYWHERE}")),
        "rect" | "fill" => (boxes, format!(" {COLOR} {EVERYWHERE}")),
        "arc" | "pie" => (boxes, format!(" 30 300 {COLOR} {EVERYWHERE}")),
        "rrect" | "frrect" => (boxes, format!(" 3 3 {COLOR} {EVERYWHERE}")),
        "copy" => (["1 0 0 0 5 4", "0 0 1 1 5 4", "2 1 -1 0 9 9"], format!(" {EVERYWHERE}")),
        "invert" => (boxes, format!(" {EVERYWHERE}")),
        "draw" => (boxes, format!(" {} 1 0 {EVERYWHERE}", source(&head(3, (3, 2), 4, 0)))),
        _ => return Vec::new(),
    };
    at.map(|at| at.to_string() + &behind).into()
}

/// Every format with tails of several lengths, and the first rows and the last ones that are accepted.
fn drawn(op: &str, list: &mut Vec<String>) {
    for (format, xor) in modes() {
        for (args, row) in args(op).iter().zip([6, 9, 8]) {
            list.push(format!("{} {op} {args}", head(format, (5, 4), row, xor)));
        }
    }
    for args in args(op).iter().take(1) {
        for format in 0..5 {
            list.push(format!("{} {op} {args}", head(format, (5, 4), 5, 0)));
        }
        for row in [32_766, 32_767, 32_768] {
            list.push(format!("{} {op} {args}", head(0, (5, 2), row, 1)));
            list.push(format!("{} {op} {args}", head(1, (32_766, 1), row, 0)));
        }
    }
}

/// Canvases on either side of ROW's edges, with every other fault of a canvas and without.
fn heads() -> Vec<String> {
    let mut heads: Vec<String> = [
        // FORMAT comes before it
        "5 2 3 0 x row=1",
        "5 2 3 0 x010203 row=32768",
        "4294967295 1 1 0 x01 row=0",
        // so does SIZE
        "0 32768 1 0 3 row=32767",
        "0 32768 1 0 3 row=32768",
        "0 32768 0 0 z row=0",
        "1 1 32768 1 x row=0",
        "2 4294967295 0 0 z row=0",
        "3 0 4294967295 0 x row=4294967295",
        // ROW, with the bytes of the row, with those of the width, and with others
        "0 2 3 0 x010203 row=1",
        "0 2 3 0 x010203040506 row=1",
        "0 2 3 0 x0102030405 row=1",
        "0 2 3 0 x row=0",
        "1 2 3 1 z row=0",
        "3 2 3 0 9 row=1",
        "4 1 1 1 x01020304 row=0",
        "0 2 3 0 8 row=32768",
        "1 2 3 0 x010203040506 row=32768",
        "0 2 3 0 x010203040506 row=65538",
        "3 2 4 0 x row=268435456",
        "0 2 3 0 x010203040506 row=4294967295",
        "2 2 0 0 z row=1",
        "2 2 0 0 z row=32768",
        "0 32767 1 0 6 row=32766",
        // a width of 0 has any row up to the last
        "0 0 3 0 z row=0",
        "3 0 3 1 x row=0",
        "1 0 0 0 x row=0",
        "1 0 3 0 x00 row=0",
        "0 0 2 1 x01020304 row=2",
        "0 0 2 1 x row=2",
        "1 0 1 0 5 row=32767",
        "0 0 2 0 x row=32768",
        "0 3 0 0 z row=5",
        "0 3 0 0 x00 row=5",
    ]
    .map(String::from)
    .into();
    // LENGTH: bytes of the width, without the last tail, and one more or less
    for format in [0, 1, 3] {
        let size = pixel_size(format).unwrap() as i64;
        for length in [0, 6 * size, 10 * size, 12 * size - 1, 12 * size, 12 * size + 1] {
            heads.push(format!("{format} 2 3 {} x{} row=4", format % 2, bytes(length)));
        }
    }
    heads
}

fn refused(op: &str, list: &mut Vec<String>) {
    for args in args(op).iter().take(1) {
        list.extend(heads().iter().map(|head| format!("{head} {op} {args}")));
    }
}

/// Rows that are walked in several steps.
fn wide(op: &str, list: &mut Vec<String>) {
    for (w, row) in [(63, 64), (64, 65), (65, 70), (130, 131)] {
        for format in 0..5 {
            let (head, image) = (head(format, (w, 3), row, format % 2), source(&head(4 - format, (w, 3), row + 1, 0)));
            let args: &[String] = match op {
                "fill" => &[format!("0 0 {w} 3 {COLOR} {EVERYWHERE}")],
                "invert" => &[format!("0 0 {w} 3 {EVERYWHERE}")],
                "copy" => &["1 0 0 0", "0 0 1 0", "0 1 0 0", "-1 0 0 1"].map(|at| format!("{at} {w} 3 {EVERYWHERE}")),
                "draw" => &[format!("0 0 {w} 3 {image} 0 0 {EVERYWHERE}"), format!("1 0 {w} 9 {image} 0 1 {EVERYWHERE}")],
                _ => return,
            };
            list.extend(args.iter().map(|args| format!("{head} {op} {args}")));
        }
    }
}

/// Arcs so much bigger than the screen that its sides hold their steps: by its row they would have other points.
const ARCS: [((i64, i64), i64, &str); 6] = [
    ((3, 2), 21, "-4 -33 116 127 8 145"),
    ((4, 4), 6, "-26 -59 72 61 6 253"),
    ((5, 9), 11, "-24 -33 189 244 138 88"),
    ((9, 3), 25, "-58 -201 165 205 255 181"),
    ((8, 8), 11, "0 -44 76 76 169 -337"),
    ((7, 1), 11, "-47 -155 91 156 83 -169"),
];

/// Round outlines that are.
const OUTLINES: [((i64, i64), i64, &str); 6] = [
    ((2, 1), 12, "-94 0 96 63 96 1"),
    ((6, 2), 7, "-128 -122 134 167 141 119"),
    ((2, 9), 3, "-15 -6 140 199 57 199"),
    ((9, 7), 15, "7 -132 216 309 38 290"),
    ((3, 1), 7, "-32763 0 32766 100 1 55"),
    ((4, 5), 7, "0 -93 1466 21283 1 2667"),
];

fn held(op: &str, list: &mut Vec<String>) {
    let shapes = match op {
        "arc" => ARCS,
        "rrect" => OUTLINES,
        _ => return,
    };
    for ((w, h), row, shape) in shapes {
        list.extend([0, 1].map(|xor| format!("0 {w} {h} {xor} z row={row} {op} {shape} 255 255 255 255 {EVERYWHERE}")));
    }
}

/// Each format with a tail over each with one, parts that begin and end off the image, and images that are refused.
fn images(list: &mut Vec<String>) {
    for (format, xor) in modes() {
        for other in 0..5 {
            let (canvas, image) = (head(format, (3, 2), 5, xor), source(&head(other, (3, 2), 4, 0)));
            list.push(format!("{canvas} draw 0 0 3 2 {image} 0 0 0 0 3 2"));
        }
    }
    let [plain, tailed] = [format!("1 4 3 0 x{}", bytes(24)), head(1, (4, 3), 6, 0)];
    for (sx, sy) in [-2, 0, 2, 3, 4].into_iter().flat_map(|x| [-1, 1, 2].map(|y| (x, y))) {
        for canvas in [&plain, &tailed] {
            let image = source(&head(3, (3, 3), 5, 0));
            list.push(format!("{canvas} draw 0 0 9 9 {image} {sx} {sy} {EVERYWHERE}"));
        }
    }
    for bad in heads() {
        list.push(format!("3 2 2 1 8 draw 0 0 2 2 {} 0 0 0 0 9 9", source(&bad)));
    }
    for row in [1, 2, 3, 32_766, 32_767, 32_768] {
        list.push(format!("{tailed} draw 0 0 4 3 {} 0 0 0 0 9 9", source(&head(0, (2, 2), row, 0))));
    }
    // Which of two refusals is given.
    for canvas in ["5 1 1 0 x00 row=0", "0 32768 1 0 3 row=1", "3 1 1 0 x row=0", "3 1 1 0 x00 row=2", "3 1 1 0 4 row=2"] {
        for image in ["5 1 1 x00 row=1", "0 32768 1 3 row=32768", "3 1 1 x row=0", "3 1 1 x01020304 row=2", "3 1 1 4 row=2"] {
            list.push(format!("{canvas} draw 0 0 2 2 {image} 0 0 0 0 9 9"));
        }
    }
}

/// Heads that are refused or not, beside angles and boxes that are.
pub fn angles_and_shapes(heads: [&str; 4], ops: &[&str], list: &mut Vec<String>) {
    for &op in ops.iter().filter(|op| ["arc", "pie", "rrect", "frrect"].contains(op)) {
        for head in heads {
            for at in ["0 0 3 3 720 20", "0 0 3 3 721 20", "32768 0 3 3 720 20", "0 0 32768 3 20 721"] {
                list.push(format!("{head} {op} {at} {COLOR} 0 0 9 9"));
            }
        }
    }
}

/// Lines that cannot be read, beside some that just can.
fn unreadable(list: &mut Vec<String>) {
    let words = [
        "row=1",
        "row=001",
        "row=000000000000000000000000000001",
        "row=",
        "row",
        "row=x",
        "row=0x1",
        "row=-1",
        "row=+1",
        "row=1,",
        "row=1.",
        "ROW=1",
        "Row=1",
        "rows=1",
        "row:1",
        "row=1 ",
        " row=1",
        "row= 1",
        "row=1 row=1",
        "row=1 row=2",
        "row=4294967295",
        "row=4294967296",
        "row=18446744073709551617",
        "row=1\t",
    ];
    for word in words {
        list.push(format!("0 1 1 0 x5a {word} get 0 0"));
        list.push(format!("0 1 1 0 z draw 0 0 1 1 0 1 1 x5a {word} 0 0 0 0 1 1"));
        list.push(format!("0 0 0 0 z {word} lbmp 1 -"));
        list.push(format!("0 0 0 0 z {word} res -"));
    }
    let lines = [
        "row=1 0 1 1 0 z get 0 0",
        "0 row=1 1 1 0 z get 0 0",
        "0 1 1 row=1 0 z get 0 0",
        "0 1 1 0 row=1 z get 0 0",
        "0 1 1 0 row=1 get 0 0",
        "0 1 1 0 z get row=1 0 0",
        "0 1 1 0 z get 0 row=1 0",
        "0 1 1 0 z get 0 0 row=1",
        "0 1 1 0 z row=1",
        "0 1 1 0 z row=1 get",
        "0 1 1 0 z row=1 get 0 0 0",
        "0 1 1 0 z row=1 get 0 0\r",
        "0 1 1 0 z draw 0 0 1 1 0 1 1 row=1 z 0 0 0 0 1 1",
        "0 1 1 0 z draw 0 0 1 1 0 1 1 row=1 0 0 0 0 1 1",
        "0 1 1 0 z draw 0 0 1 1 0 1 1 z 0 row=1 0 0 0 1 1",
        "0 1 1 0 z draw 0 0 row=1 1 1 0 1 1 z 0 0 0 0 1 1",
        "0 1 1 0 z row=2 draw 0 0 1 1 0 1 1 z row=3 0 0 0 0 1 1",
        "0 0 0 0 z lbmp row=1 1 -",
        "0 0 0 0 z res row=1 -",
        "5 1 1 0 z row=1 get 0 0",
        "5 1 1 0 x row=1 get 0 0",
        "4 1 512 0 z row=512 get 0 511",
        "4 1 512 0 z row=513 get 0 0",
        "4 512 513 0 z row=511 get 0 0",
        "0 1 32 0 3 row=32768 get 0 0",
        "0 1 32 0 3 row=32769 get 0 0",
        "0 32769 32 0 z row=0 get 0 0",
        "0 1 0 0 z row=4294967295 get 0 0",
        "0 1 4294967295 0 z row=4294967295 get 0 0",
    ];
    list.extend(lines.map(String::from));
    list.push(format!("0 {MOST} {MOST} 0 z row=0 get 0 0"));
}
