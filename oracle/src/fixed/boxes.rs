//! Outlines and inversions.

use super::{COLOR, MIN, MOST, SIDES, areas, bytes, head, modes};

/// Corners from before the first to past the last place of a side of 4.
const CORNERS: [(i64, i64); 9] = [(-3, 1), (-1, 1), (3, 1), (4, 1), (1, -3), (1, -1), (1, 3), (1, 4), (1, 1)];

pub fn rect(list: &mut Vec<String>) {
    let sides = (4, 4);
    for (format, xor) in [(0, 1), (1, 0), (3, 1)] {
        let head = head(format, sides, xor);
        list.extend(areas(sides).iter().map(|area| format!("{head} rect {area} {COLOR} 0 0 4 4")));
    }
    for (format, xor) in [(2, 1), (4, 0)] {
        let head = head(format, sides, xor);
        list.extend(areas(sides).iter().map(|clip| format!("{head} rect 0 0 4 4 {COLOR} {clip}")));
    }
    // Sides of 0 to 4, with XOR on, where a point that is plotted twice would show.
    let xored = head(4, sides, 1);
    for (x, y) in CORNERS {
        for (w, h) in (0..5).flat_map(|w| [(w, 0), (w, 1), (w, 2), (w, 4)]) {
            list.push(format!("{xored} rect {x} {y} {w} {h} {COLOR} 0 0 4 4"));
        }
    }
    for (format, xor) in modes() {
        let head = head(format, (5, 4), xor);
        for (area, clip) in [("0 0 5 4", "1 1 3 2"), ("1 0 3 3", "2 0 1 9"), ("-2 -2 4 4", "-1 -1 9 9"), ("1 1 2 2", "0 0 5 4")] {
            list.push(format!("{head} rect {area} {COLOR} {clip}"));
        }
        for alpha in [0, 1, 127, 254, 255] {
            list.push(format!("{head} rect 1 1 3 3 {alpha} 200 100 50 0 0 5 4"));
        }
    }
    for (w, h) in SIDES {
        for (format, xor) in [(0, 1), (1, 0), (3, 1)] {
            let head = head(format, (w, h), xor);
            list.push(format!("{head} rect 0 0 {w} {h} {COLOR} {MIN} {MIN} {MOST} {MOST}"));
            list.push(format!("{head} rect -1 -1 {} {} {COLOR} {MIN} {MIN} {MOST} {MOST}", w + 2, h + 2));
        }
    }
}

pub fn invert(list: &mut Vec<String>) {
    let sides = (3, 3);
    for (format, xor) in [(0, 1), (2, 0), (3, 1)] {
        let head = head(format, sides, xor);
        list.extend(areas(sides).iter().map(|area| format!("{head} invert {area} 0 0 3 3")));
    }
    for (format, xor) in [(1, 0), (4, 1)] {
        let head = head(format, sides, xor);
        list.extend(areas(sides).iter().map(|clip| format!("{head} invert 0 0 3 3 {clip}")));
    }
    for (format, xor) in modes() {
        let head = head(format, (5, 3), xor);
        for (area, clip) in [("0 0 5 3", "1 1 3 1"), ("1 0 3 3", "2 1 3 2"), ("-2 -2 4 4", "-1 -1 9 9"), ("0 0 3 2", "3 0 2 3")] {
            list.push(format!("{head} invert {area} {clip}"));
        }
        list.push(format!("{format} 60 50 {xor} 3 invert 0 0 60 50 0 0 60 50"));
    }
    for (w, h) in SIDES {
        for format in [0, 1, 2] {
            let head = head(format, (w, h), 0);
            list.push(format!("{head} invert {MIN} {MIN} {MOST} {MOST} {MIN} {MIN} {MOST} {MOST}"));
            list.push(format!("{head} invert {} 0 2 2 0 0 {w} {h}", w - 1));
        }
    }
    // Every word of 332, and words of the others with alphas and top bytes of all kinds.
    list.push(format!("0 16 16 0 x{} invert 0 0 16 16 0 0 16 16", bytes(256)));
    for format in 2..5 {
        for top in ["00", "01", "80", "fe", "ff"] {
            list.push(format!("{format} 2 1 0 x000000{top}c86432{top} invert 0 0 2 1 0 0 2 1"));
        }
    }
}
