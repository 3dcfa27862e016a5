//! Lines.

use super::{COLOR, EVERYWHERE, MAX, MIN, SIDES, areas, head, modes};

/// The ends of a side, and up to two past them.
fn margins(side: i64) -> [i64; 6] {
    [-2, -1, 0, side - 1, side, side + 1]
}

fn pairs<T: Copy>(of: &[T]) -> impl Iterator<Item = (T, T)> {
    of.iter().flat_map(move |&a| of.iter().map(move |&b| (a, b)))
}

pub fn line(list: &mut Vec<String>) {
    let sides = (5, 4);
    // From margin to margin: across, down, and through the middle.
    let [argb, rgb8] = [head(3, sides, 1), head(2, sides, 0)];
    list.extend(pairs(&margins(5)).map(|(x1, x2)| format!("{argb} line {x1} 1 {x2} 2 {COLOR} 0 0 5 4")));
    list.extend(pairs(&margins(4)).map(|(y1, y2)| format!("{argb} line 1 {y1} 3 {y2} {COLOR} 0 0 5 4")));
    for x in margins(5) {
        list.extend(margins(4).map(|y| format!("{rgb8} line {x} {y} {} {} {COLOR} {EVERYWHERE}", 4 - x, 3 - y)));
    }
    // From end to end of i32, and from there to the screen.
    let head = head(1, sides, 1);
    let far = [(MIN, MIN), (MAX, MAX), (MIN, MAX), (MAX, MIN), (MIN, 1), (MAX, 2), (2, MIN), (3, MAX), (1, 1)];
    for ((x1, y1), (x2, y2)) in pairs(&far) {
        list.push(format!("{head} line {x1} {y1} {x2} {y2} {COLOR} {EVERYWHERE}"));
    }
    kinds(list);
    clips(list);
    sizes(list);
}

/// Flat, steep and slanting ones in both directions, and points, on every format.
fn kinds(list: &mut Vec<String>) {
    for (format, xor) in modes() {
        let head = head(format, (7, 6), xor);
        for line in ["0 0 6 2", "0 0 2 5", "0 0 5 5", "0 3 6 3", "4 0 4 5", "1 4 6 0", "-9 2 20 4", "3 3 3 3"] {
            let [x1, y1, x2, y2] = line.split(' ').collect::<Vec<_>>()[..] else { unreachable!("four words") };
            list.push(format!("{head} line {line} {COLOR} 0 0 7 6"));
            list.push(format!("{head} line {x2} {y2} {x1} {y1} {COLOR} 0 0 7 6"));
        }
        for alpha in [0, 1, 127, 254, 255] {
            list.push(format!("{head} line 0 1 6 4 {alpha} 200 100 50 0 0 7 6"));
        }
    }
    // From the middle to each point of the border, and back.
    let head = head(0, (9, 9), 1);
    for n in 0..8 {
        for (x, y) in [(n, 0), (8, n), (8 - n, 8), (0, 8 - n)] {
            list.push(format!("{head} line 4 4 {x} {y} {COLOR} 0 0 9 9"));
            list.push(format!("{head} line {x} {y} 4 4 {COLOR} 0 0 9 9"));
        }
    }
}

fn clips(list: &mut Vec<String>) {
    let sides = (5, 4);
    let head = head(4, sides, 1);
    list.extend(areas(sides).iter().map(|clip| format!("{head} line 0 0 4 3 {COLOR} {clip}")));
    for clip in ["1 1 3 2", "0 0 2 4", "4 3 1 1", "2 0 1 9", "5 0 1 4", "-4 -4 6 6", "0 0 0 0"] {
        list.push(format!("{head} line -3 5 8 -2 {COLOR} {clip}"));
        list.push(format!("{head} line 8 -2 -3 5 {COLOR} {clip}"));
    }
}

fn sizes(list: &mut Vec<String>) {
    for (w, h) in SIDES.into_iter().chain([(32_767, 2), (2, 32_767)]) {
        for (format, xor) in [(0, 1), (1, 0)] {
            let head = head(format, (w, h), xor);
            let (right, bottom) = (w - 1, h - 1);
            for (x1, y1, x2, y2) in [
                (0, 0, right, bottom),
                (right, bottom, 0, 0),
                (-1, -1, w, h),
                (w, 0, -1, bottom),
                (right, -1, right, h),
                (-2, bottom, w + 1, bottom),
                (MIN, MIN, MAX, MAX),
                (MAX, 0, MIN, bottom),
            ] {
                list.push(format!("{head} line {x1} {y1} {x2} {y2} {COLOR} {EVERYWHERE}"));
            }
        }
    }
}
