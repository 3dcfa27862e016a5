//! LBMP files.

use super::{HALF, MOST, bytes};

/// The header's fields after the descriptor, in their order, and what follows them.
#[derive(Clone)]
struct File {
    kind: i64,
    width: i64,
    height: i64,
    size: i64,
    mask: i64,
    body: String,
}

impl File {
    /// A sound file.
    fn new(kind: i64, (width, height): (i64, i64), mask: i64) -> File {
        let plane = (height + 7) / 8 * width;
        let (size, image) = match kind {
            2 => (plane, 2 * plane),
            8 => (width * height, width * height),
            _ => (2 * width * height, 2 * width * height),
        };
        File { kind, width, height, size, mask, body: bytes(image + mask * plane) }
    }

    /// Its case, with so many words lent.
    fn read(&self, room: i64) -> String {
        let fields = [0x504d_424c, self.kind, self.width, self.height, self.size, self.mask];
        let header: String = fields.iter().flat_map(|&n| (n as u32).to_le_bytes()).map(|b| format!("{b:02x}")).collect();
        format!("0 0 0 0 z lbmp {room} {header}{}", self.body)
    }
}

const KINDS: [i64; 3] = [2, 8, 16];

pub fn lbmp(list: &mut Vec<String>) {
    let mut put = |file: &File, room: i64| list.push(file.read(room));
    // Heights around multiples of 8, with a mask and without; bytes that are missing or too many, and the room.
    for kind in KINDS {
        for mask in [0, 1] {
            for sides in [(1, 1), (1, 2), (3, 1), (3, 7), (3, 8), (3, 9), (2, 15), (2, 16), (2, 17), (1, 24), (1, 25)] {
                let (file, pixels) = (File::new(kind, sides, mask), sides.0 * sides.1);
                put(&file, pixels);
                put(&file, pixels - 1);
                let cut = &file.body[..file.body.len() - 2];
                put(&File { body: cut.into(), ..file.clone() }, pixels);
            }
            let file = File::new(kind, (3, 9), mask);
            [0, 1, 28, MOST].into_iter().for_each(|room| put(&file, room));
            for length in [0, 2, file.body.len() / 2 / 2 * 2] {
                put(&File { body: file.body[..length].into(), ..file.clone() }, 27);
            }
            put(&File { body: file.body.clone() + "00ff", ..file.clone() }, 27);
            put(&File { body: "ff".repeat(file.body.len() / 2), ..file.clone() }, 27);
            put(&File { body: "00".repeat(file.body.len() / 2), ..file.clone() }, 27);
        }
    }
    wrong(&mut put);
    wide(&mut put);
    colors(&mut put);
    texts(list);
}

/// Fields that are wrong, and which of two refusals is given.
fn wrong(put: &mut impl FnMut(&File, i64)) {
    let bytes = bytes(60);
    for kind in [0, 1, 2, 3, 4, 7, 8, 9, 15, 16, 17, 32, 255, 256 + 8, MOST] {
        for (width, height, size, mask) in [
            (3, 2, 6, 0),
            (3, 2, 3, 0),
            (3, 2, 12, 0),
            (3, 2, 6, 2),
            (0, 2, 0, 0),
            (3, 0, 0, 0),
            (0, 0, 0, 1),
            (65_536, 65_536, 0, 0),
            (65_535, 65_537, MOST, 0),
            (32_768, 65_536, 0, 0),
            (32_767, 65_537, MOST - 1, 0),
            (HALF, 1, HALF, 0),
            (HALF - 1, 1, HALF - 1, 1),
            (HALF, 2, 0, 0),
            (1, HALF, 1 << 28, 0),
            (MOST, 1, MOST, 0),
            (MOST, MOST, 1, 0),
        ] {
            put(&File { kind, width, height, size, mask, body: bytes.clone() }, 6);
        }
    }
    for kind in KINDS {
        let file = File::new(kind, (4, 3), 1);
        for size in [0, file.size - 1, file.size + 1, 2 * file.size, MOST] {
            put(&File { size, ..file.clone() }, 12);
        }
        for mask in [2, 3, 256, HALF, MOST] {
            put(&File { mask, ..file.clone() }, 12);
        }
    }
}

/// A side above 32,767.
fn wide(put: &mut impl FnMut(&File, i64)) {
    for (sides, mask) in [((1, 32_767), 0), ((1, 32_768), 1), ((32_768 / 8, 3), 0)] {
        let file = File::new(2, sides, mask);
        put(&file, sides.0 * sides.1);
        put(&file, sides.0 * sides.1 - 1);
    }
}

/// Every grey, 332 word and 565 level, and each bit of the mask.
fn colors(put: &mut impl FnMut(&File, i64)) {
    let words: String = (0..256).map(|word| format!("{word:02x}")).collect();
    put(&File { body: words.clone(), ..File::new(8, (16, 16), 0) }, 256);
    put(&File { body: words.clone(), ..File::new(2, (16, 64), 0) }, 1024);
    put(&File { body: words.clone() + &words, ..File::new(2, (256, 8), 0) }, 2048);
    let levels = (0..32).map(|v: u16| v << 11 | v).chain((0..64).map(|v| v << 5));
    put(&File { body: levels.map(|word| format!("{:04x}", word.swap_bytes())).collect(), ..File::new(16, (96, 1), 0) }, 96);
    for height in 1..18 {
        let file = File::new(8, (1, height), 1);
        let image = &file.body[..2 * height as usize];
        for byte in ["00", "01", "80", "aa", "ff"] {
            let mask = byte.repeat((height as usize).div_ceil(8));
            put(&File { body: format!("{image}{mask}"), ..file.clone() }, height);
        }
    }
}

/// Files without a whole header, and lines that can just be read, or not.
fn texts(list: &mut Vec<String>) {
    let file = bytes(24);
    let cut = [0, 2, 46, 48].map(|length| format!("9 {}", if length == 0 { "-" } else { &file[..length] }));
    let words =
        ["0 -", "4294967295 -", "4294967296 -", "-1 -", "1", "1 ", "1 --", "1 - -", "1 0", "1 0g", "1 aF", "1 x00", " -", "-"];
    list.extend(cut.iter().map(String::as_str).chain(words).map(|args| format!("0 0 0 0 z lbmp {args}")));
    let heads = ["9 9 9 1 x00", "0 32768 1 0 5", "3 2 2 1 x", "5 1 1 0 z", "4 512 513 0 z", "0 0 0 2 z"];
    list.extend(heads.map(|head| format!("{head} lbmp 1 -")));
}
