//! Areas copied within a canvas, and images drawn over it.

use super::{HALF, MAX, MIN, MOST, SIDES, areas, bytes, head, heads, modes, spans};

/// The eight directions, and none.
fn directions() -> impl Iterator<Item = (i64, i64)> {
    (-1..2).flat_map(|x| (-1..2).map(move |y| (x, y)))
}

pub fn copy(list: &mut Vec<String>) {
    let sides = (6, 5);
    // From the middle by one in each direction, and so far that nothing overlaps.
    for (format, xor) in modes() {
        let head = head(format, sides, xor);
        for (x, y) in directions() {
            list.push(format!("{head} copy {} {} 1 1 4 3 0 0 6 5", 1 + x, 1 + y));
        }
        list.push(format!("{head} copy 3 0 0 1 3 3 0 0 6 5"));
        list.push(format!("{head} copy 0 2 3 0 3 3 0 0 6 5"));
    }
    // From and to each side and corner, partly off the canvas.
    let [from, to, both] = [(1, 0), (3, 1), (2, 0)].map(|(format, xor)| head(format, sides, xor));
    for (x, y) in directions() {
        for (a, b) in directions() {
            let (sx, sy, dx, dy) = (1 + 3 * x, 1 + 3 * y, 1 + a, 1 + b);
            list.push(format!("{from} copy {dx} {dy} {sx} {sy} 4 3 0 0 6 5"));
            list.push(format!("{to} copy {sx} {sy} {dx} {dy} 4 3 0 0 6 5"));
            list.push(format!("{both} copy {sx} {sy} {} {} 4 3 0 0 6 5", sx + a, sy + b));
        }
        for clip in ["2 1 3 2", "0 0 3 5", "3 0 3 5", "0 3 6 2", "-4 -4 7 7", "6 0 1 5", "0 0 0 0"] {
            list.push(format!("{from} copy {} {} 1 1 4 3 {clip}", 1 + x, 1 + y));
            list.push(format!("{to} copy {} {} 0 0 6 5 {clip}", x, y));
        }
        // The whole canvas and all beyond it.
        list.push(format!("{both} copy {} {} 0 0 {MOST} {MOST} {MIN} {MIN} {MOST} {MOST}", 2 * x, 2 * y));
        list.push(format!("{to} copy {} {} {MIN} {MIN} {MOST} {MOST} {MIN} {MIN} {MOST} {MOST}", MIN + x.max(0), MIN + y.max(0)));
    }
    let line = head(4, (6, 1), 0);
    for (to, length) in spans(6) {
        for at in [0, 1, -1, 5, MIN, MAX] {
            list.push(format!("{line} copy {to} 0 {at} 0 {length} 1 0 0 6 1"));
        }
        list.push(format!("{from} copy 0 {to} 0 1 6 {length} 0 0 6 5"));
        list.push(format!("{from} copy 0 1 0 {to} 6 {length} 0 0 6 5"));
    }
    for (w, h) in SIDES {
        for (format, xor) in [(0, 0), (1, 1), (3, 0)] {
            let head = head(format, (w, h), xor);
            list.push(format!("{head} copy 1 0 0 0 {w} {h} 0 0 {w} {h}"));
            list.push(format!("{head} copy -1 -1 0 0 {MOST} {HALF} {MIN} {MIN} {MOST} {MOST}"));
        }
    }
    for (w, h) in (0..3).flat_map(|w| (0..3).map(move |h| (w, h))) {
        list.push(format!("{to} copy 2 2 1 1 {w} {h} 0 0 6 5"));
    }
}

/// SF SW SH SSEED
fn source(format: u32, (w, h): (i64, i64)) -> String {
    let head = head(format, (w, h), 0);
    let [format, w, h, _, seed] = head.split(' ').collect::<Vec<_>>()[..] else { unreachable!("five words") };
    format!("{format} {w} {h} {seed}")
}

/// An ARGB or ABGR image of the same channels under each of these alphas.
pub fn veiled(alphas: impl Iterator<Item = i64>) -> String {
    alphas.map(|alpha| format!("3264c8{alpha:02x}")).collect()
}

pub fn draw(list: &mut Vec<String>) {
    // Each format over each, at alphas of each kind where the image has them.
    for (format, xor) in modes() {
        let head = head(format, (3, 2), xor);
        for other in 0..5 {
            list.push(format!("{head} draw 0 0 3 2 {} 0 0 0 0 3 2", source(other, (3, 2))));
        }
        for other in [3, 4] {
            for alpha in [0, 1, 128, 254, 255] {
                let words = veiled([alpha; 4].into_iter());
                list.push(format!("{head} draw 1 0 2 2 {other} 2 2 x{words} 0 0 0 0 3 2"));
            }
            let words = veiled(0..256);
            list.push(format!("{format} 16 16 {xor} 9 draw 0 0 16 16 {other} 16 16 x{words} 0 0 0 0 16 16"));
            list.push(format!("{format} 60 50 {xor} 5 draw 0 0 60 50 {other} 60 50 6 0 0 0 0 60 50"));
        }
    }
    // Over channels of their own, at every alpha.
    for c in ["00", "01", "7f", "80", "fe", "ff"] {
        let over = |alpha: &dyn Fn(i64) -> i64| (0..256).map(|a| format!("{c}{c}{c}{:02x}", alpha(a))).collect::<String>();
        let (solid, veiled) = (over(&|_| 255), over(&|a| a));
        list.push(format!("3 16 16 0 x{solid} draw 0 0 16 16 3 16 16 x{veiled} 0 0 0 0 16 16"));
    }
    places(list);
    sizes(list);
    let args = |source: &str| format!("draw 0 0 2 2 {source} 0 0 0 0 9 9");
    // A source that is refused, and which of two refusals is given.
    for head in heads() {
        let [format, w, h, _, seed] = head.split(' ').collect::<Vec<_>>()[..] else { unreachable!("five words") };
        list.push(format!("3 2 2 1 8 {}", args(&format!("{format} {w} {h} {seed}"))));
    }
    for canvas in ["5 1 1 0 x00", "0 32768 1 0 3", "3 1 1 0 x00"] {
        for source in ["5 1 1 x00", "0 32768 1 3", "3 1 1 x00", "3 1 1 4"] {
            list.push(format!("{canvas} {}", args(source)));
        }
    }
    // What can just be read, and what can not.
    for source in
        ["0 1 1 z", "0 1 1 x", "0 1 1 Z", "0 1 1", "0 1 1 z 0", "5 1 1 z", "5 1 1 x00", "4 512 512 z", "4 512 513 z", "-1 1 1 z"]
    {
        list.push(format!("0 1 1 0 z {}", args(source)));
    }
}

/// Where the image comes from and goes to, and what the clip leaves.
fn places(list: &mut Vec<String>) {
    let (canvas, image) = ((4, 3), (3, 3));
    let [plain, xored] = [head(1, canvas, 0), head(3, canvas, 1)];
    let [veiled, solid] = [source(3, image), source(2, image)];
    list.extend(areas(canvas).iter().map(|to| format!("{plain} draw {to} {veiled} 0 0 0 0 4 3")));
    list.extend(areas(canvas).iter().map(|clip| format!("{xored} draw 0 0 4 3 {veiled} 0 0 {clip}")));
    for (x, w) in spans(3) {
        list.push(format!("{xored} draw 0 0 {w} 3 {solid} {x} 0 0 0 4 3"));
        list.push(format!("{plain} draw 0 0 4 {w} {veiled} 0 {x} 0 0 4 3"));
    }
    for (x, y) in directions() {
        for (a, b) in directions() {
            list.push(format!("{xored} draw {} {} 4 4 {veiled} {} {} 0 0 4 3", 2 * x, 2 * y, 2 * a, 2 * b));
        }
        for far in [MIN, MAX] {
            list.push(format!(
                "{plain} draw {} {} {MOST} {MOST} {veiled} {} {} {MIN} {MIN} {MOST} {MOST}",
                (x * far).min(MAX),
                (y * far).min(MAX),
                -x,
                -y
            ));
            list.push(format!("{plain} draw {x} {y} {MOST} {MOST} {veiled} {far} {far} {MIN} {MIN} {MOST} {MOST}"));
        }
    }
}

/// Sides of the canvas, of the image, and of the part that is drawn.
fn sizes(list: &mut Vec<String>) {
    for (w, h) in SIDES {
        for format in [0, 3] {
            let (canvas, image) = (head(format, (w, h), 1), source(3 - format, (w, h)));
            list.push(format!("{canvas} draw 0 0 3 3 {} 0 0 0 0 {w} {h}", source(4, (2, 2))));
            list.push(format!("{} draw 0 0 {MOST} {MOST} {image} 0 0 0 0 3 3", head(1, (3, 3), 0)));
            list.push(format!("{canvas} draw -1 0 {MOST} {MOST} {image} 0 0 {MIN} {MIN} {MOST} {MOST}"));
        }
    }
    let canvas = format!("4 3 3 0 x{}", bytes(36));
    for (w, h) in (0..3).flat_map(|w| (0..3).map(move |h| (w, h))) {
        list.push(format!("{canvas} draw 1 1 {w} {h} {} 1 1 0 0 3 3", source(3, (3, 3))));
    }
}
