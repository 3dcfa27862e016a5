//! Blending rules. They stand behind all other cases, which keep their places.

use super::images::veiled;
use super::rows::{angles_and_shapes, args};
use super::{EVERYWHERE, areas, bytes, modes};
use crate::case::pixel_size;
use crate::random::Cases;

/// Numbers that are no rule: beside the two, what some of their bits would leave of one, and the last.
const REFUSED: [u32; 14] = [0, 3, 4, 127, 255, 256, 257, 258, 65_537, 65_538, 1 << 31, (1 << 31) + 1, u32::MAX - 1, u32::MAX];

pub fn rules(ops: &[&'static str], list: &mut Vec<String>) {
    for &op in ops {
        drawn(op, list);
        refused(op, list);
    }
    if ops.contains(&"draw") {
        blended(list);
        placed(list);
        images(list);
    }
    angles_and_shapes(["0 3 3 0 7 rule=0", "0 3 3 0 7 rule=3", "0 3 3 0 7 rule=2", "0 3 3 0 x rule=2"], ops, list);
    unreadable(list);
    let random = Cases::new(u64::MAX, 3, ops).with_rows().with_rules();
    list.extend(random.filter(|case| case.contains("rule=") && case.len() <= 200).take(300));
}

/// F W H X SEED with the right number of bytes, whose words have all kinds of alphas.
fn head(format: u32, (w, h): (i64, i64), xor: u32) -> String {
    let length = w * h * pixel_size(format).unwrap() as i64;
    let seed = if length <= 80 { format!("x{}", bytes(length)) } else { "7".into() };
    format!("{format} {w} {h} {xor} {seed}")
}

/// The same of a source, SF SW SH SSEED.
fn source(format: u32, sides: (i64, i64)) -> String {
    let head = head(format, sides, 0);
    let [format, w, h, _, seed] = head.split(' ').collect::<Vec<_>>()[..] else { unreachable!("five words") };
    format!("{format} {w} {h} {seed}")
}

/// Each op by each rule on every format, with a tail in every second.
fn drawn(op: &str, list: &mut Vec<String>) {
    for (n, (format, xor)) in modes().enumerate() {
        let Some(args) = args(op).into_iter().cycle().nth(n) else { return };
        for rule in [1, 2] {
            list.push(format!("{} rule={rule} {op} {args}", head(format, (5, 4), xor)));
            list.push(format!("{format} 5 4 {xor} 9 row=7 rule={rule} {op} {args}"));
        }
    }
}

/// Canvases that RULE refuses and such as it does not, with every other fault of a canvas and without.
fn heads() -> Vec<String> {
    let mut heads = Vec::new();
    for fault in [
        // none
        "0 2 3 0 x010203040506",
        "1 0 0 0 z",
        "0 2 3 0 8 row=5",
        // FORMAT comes before it
        "5 2 3 0 x",
        "5 32768 3 0 x row=1",
        // SIZE behind it
        "0 32768 1 0 3",
        "1 1 32768 1 x",
        "0 32768 1 0 x row=1",
        // ROW
        "0 2 3 0 x010203 row=1",
        "0 2 3 0 8 row=32768",
        // LENGTH
        "0 2 3 0 x0102030405",
        "0 2 3 0 x010203040506 row=3",
    ] {
        heads.extend([0, 2, 3, u32::MAX].map(|rule| format!("{fault} rule={rule}")));
    }
    heads.extend(REFUSED.map(|rule| format!("1 2 1 1 x01020304 rule={rule}")));
    heads
}

fn refused(op: &str, list: &mut Vec<String>) {
    for args in args(op).iter().take(1) {
        list.extend(heads().iter().map(|head| format!("{head} {op} {args}")));
    }
}

/// Each format over each by rule 2, at alphas of each kind where the image has them, and at all of them.
fn blended(list: &mut Vec<String>) {
    for (format, xor) in modes() {
        let canvas = head(format, (3, 2), xor);
        for other in 0..5 {
            list.push(format!("{canvas} rule=2 draw 0 0 3 2 {} 0 0 0 0 3 2", source(other, (3, 2))));
        }
        for other in [3, 4] {
            for alpha in [0, 1, 64, 127, 128, 191, 254, 255] {
                let words = veiled([alpha; 4].into_iter());
                list.push(format!("{canvas} rule=2 draw 1 0 2 2 {other} 2 2 x{words} 0 0 0 0 3 2"));
            }
            for rule in [1, 2] {
                let words = veiled(0..256);
                list.push(format!("{format} 16 16 {xor} 11 rule={rule} draw 0 0 16 16 {other} 16 16 x{words} 0 0 0 0 16 16"));
                list.push(format!("{format} 60 50 {xor} 12 rule={rule} draw 0 0 60 50 {other} 60 50 13 0 0 0 0 60 50"));
            }
        }
    }
    // Over channels of their own, which stay as they are, over their neighbours, and from end to end, at every alpha.
    for (c, below) in ["00 00", "01 01", "7f 7f", "80 80", "fe fe", "ff ff", "00 01", "80 7f", "ff fe", "00 ff", "ff 00"]
        .map(|channels| channels.split_once(' ').expect("two words"))
    {
        let solid = format!("{below}{below}{below}ff").repeat(256);
        let veiled: String = (0..256).map(|alpha| format!("{c}{c}{c}{alpha:02x}")).collect();
        list.push(format!("3 16 16 0 x{solid} rule=2 draw 0 0 16 16 3 16 16 x{veiled} 0 0 0 0 16 16"));
    }
}

/// Where an image goes to by rule 2, what the clip leaves of it, and where it comes from.
fn placed(list: &mut Vec<String>) {
    let (canvas, image) = (head(1, (4, 3), 0), source(3, (3, 3)));
    list.extend(areas((4, 3)).iter().map(|to| format!("{canvas} rule=2 draw {to} {image} 0 0 0 0 4 3")));
    list.extend(areas((4, 3)).iter().map(|clip| format!("{canvas} rule=2 draw 0 0 4 3 {image} 0 0 {clip}")));
    for (sx, sy) in [-2, -1, 0, 1, 2, 3].into_iter().flat_map(|x| [-1, 0, 1, 2].map(|y| (x, y))) {
        list.push(format!("{canvas} rule=2 draw 0 0 9 9 {image} {sx} {sy} {EVERYWHERE}"));
        list.push(format!("3 4 3 0 17 row=6 rule=2 draw 1 0 9 9 4 3 3 18 row=5 rule=1 {sx} {sy} {EVERYWHERE}"));
    }
    for (w, row) in [(63, 64), (64, 64), (65, 70), (130, 131)] {
        for format in 0..5 {
            let image = format!("{} {w} 3 19 row={row}", 3 + format % 2);
            list.push(format!("{format} {w} 3 0 20 row={row} rule=2 draw 0 0 {w} 3 {image} 0 0 {EVERYWHERE}"));
        }
    }
    for (w, h) in [(0, 3), (3, 0), (0, 0), (32_767, 1), (1, 32_767)] {
        list.push(format!("0 {w} {h} 0 21 rule=2 draw 0 0 9 9 {image} 0 0 {EVERYWHERE}"));
        list.push(format!("{canvas} rule=2 draw 0 0 9 9 4 {w} {h} 22 0 0 {EVERYWHERE}"));
    }
}

/// Images with a rule of their own, which says nothing where it is one; and which of two refusals is given.
fn images(list: &mut Vec<String>) {
    for (format, xor) in modes() {
        let (canvas, image) = (head(format, (3, 2), xor), source(3, (3, 2)));
        for (rule, other) in [(1, 1), (1, 2), (2, 1), (2, 2)] {
            list.push(format!("{canvas} rule={rule} draw 0 0 3 2 {image} rule={other} 0 0 0 0 3 2"));
        }
        list.push(format!("{canvas} draw 0 0 3 2 {image} rule=2 0 0 0 0 3 2"));
        list.push(format!("{canvas} draw 0 0 3 2 {image} rule=3 0 0 0 0 3 2"));
    }
    for bad in heads() {
        let words: Vec<&str> = bad.split(' ').collect();
        let image = [&words[..3], &words[4..]].concat().join(" ");
        list.push(format!("3 2 2 0 8 rule=2 draw 0 0 2 2 {image} 0 0 0 0 9 9"));
    }
    for canvas in ["5 1 1 0 x00 rule=0", "3 1 1 0 4 rule=3", "0 32768 1 0 3 rule=0", "0 32768 1 0 3 rule=2", "3 1 1 0 x rule=2"] {
        for image in ["5 1 1 x00 rule=0", "3 1 1 4 rule=3", "0 32768 1 3 rule=2", "3 1 1 x row=0 rule=0", "3 1 1 4 rule=2"] {
            list.push(format!("{canvas} draw 0 0 2 2 {image} 0 0 0 0 9 9"));
        }
    }
}

/// Lines that cannot be read, beside some that just can.
fn unreadable(list: &mut Vec<String>) {
    let words = [
        "rule=2",
        "rule=002",
        "rule=000000000000000000000000000002",
        "rule=",
        "rule",
        "rule=x",
        "rule=0x2",
        "rule=-1",
        "rule=+2",
        "rule=2,",
        "rule=2.",
        "RULE=2",
        "Rule=2",
        "rules=2",
        "ruler=2",
        "rul=2",
        "rule:2",
        "rule=2 ",
        " rule=2",
        "rule= 2",
        "rule=2 rule=2",
        "rule=2 rule=1",
        "rule=4294967295",
        "rule=4294967296",
        "rule=18446744073709551618",
        "rule=2\t",
        // with a row
        "row=1 rule=2",
        "row=2 rule=1",
        "row=1 rule=3",
        "row=0 rule=2",
        "rule=2 row=1",
        "row=1 rule=2 row=1",
        "row=1 row=1 rule=2",
        "row=1 rule=2 rule=2",
        "row=rule=2",
        "row=1rule=2",
        "row= rule=2",
        "row=x rule=2",
        "row=1 rule=",
        "row=1 rule=x",
        "row=1 rule=4294967296",
        "row=1  rule=2",
    ];
    for word in words {
        list.push(format!("0 1 1 0 x5a {word} get 0 0"));
        list.push(format!("0 1 1 0 z draw 0 0 1 1 0 1 1 x5a {word} 0 0 0 0 1 1"));
        list.push(format!("0 0 0 0 z {word} lbmp 1 -"));
        list.push(format!("0 0 0 0 z {word} res -"));
    }
    let lines = [
        "rule=2 0 1 1 0 z get 0 0",
        "0 rule=2 1 1 0 z get 0 0",
        "0 1 1 rule=2 0 z get 0 0",
        "0 1 1 0 rule=2 z get 0 0",
        "0 1 1 0 rule=2 get 0 0",
        "0 1 1 0 z get rule=2 0 0",
        "0 1 1 0 z get 0 rule=2 0",
        "0 1 1 0 z get 0 0 rule=2",
        "0 1 1 0 z rule=2",
        "0 1 1 0 z rule=2 get",
        "0 1 1 0 z rule=2 get 0 0 0",
        "0 1 1 0 z rule=2 get 0 0\r",
        "0 1 1 0 z row=1 rule=2",
        "0 1 1 0 z draw 0 0 1 1 0 1 1 rule=2 z 0 0 0 0 1 1",
        "0 1 1 0 z draw 0 0 1 1 0 1 1 rule=2 0 0 0 0 1 1",
        "0 1 1 0 z draw 0 0 1 1 0 1 1 z 0 rule=2 0 0 0 1 1",
        "0 1 1 0 z draw 0 0 1 1 0 1 1 z 0 0 rule=2 0 0 1 1",
        "0 1 1 0 z draw 0 0 rule=2 1 1 0 1 1 z 0 0 0 0 1 1",
        "0 1 1 0 z draw rule=2 0 0 1 1 0 1 1 z 0 0 0 0 1 1",
        "0 1 1 0 z rule=2 draw 0 0 1 1 0 1 1 z row=3 0 0 0 0 1 1",
        "0 1 1 0 z row=2 rule=2 draw 0 0 1 1 0 1 1 z row=3 rule=1 0 0 0 0 1 1",
        "0 0 0 0 z lbmp rule=2 1 -",
        "0 0 0 0 z res rule=2 -",
        "5 1 1 0 z rule=2 get 0 0",
        "5 1 1 0 x rule=2 get 0 0",
        "4 512 512 0 z rule=2 get 511 511",
        "4 512 513 0 z rule=2 get 0 0",
        "4 1 512 0 z row=512 rule=2 get 0 511",
        "4 1 512 0 z row=513 rule=2 get 0 0",
        "4294967295 4294967295 4294967295 0 x row=4294967295 rule=4294967295 get 0 0",
    ];
    list.extend(lines.map(String::from));
}
