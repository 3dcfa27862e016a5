//! RES files.

use super::bytes;

/// The letters at the start, two bytes more, and where the first record begins.
fn start(offset: u16) -> String {
    format!("cefaadde0102{}", hex(&offset.to_le_bytes()))
}

fn hex(bytes: &[u8]) -> String {
    bytes.iter().map(|b| format!("{b:02x}")).collect()
}

/// A record's header, its last four bytes being of no meaning.
fn header(kind: u8, width: u8, height: u8, depth: u8) -> String {
    hex(&[kind, width, height, depth, 8, 2, 3, 255])
}

fn icon(width: u8, height: u8) -> String {
    header(2, width, height, 8) + &bytes(width as i64 * height as i64)
}

fn frames(width: u8, height: u8, count: u8) -> String {
    header(3, width, height, 8) + &hex(&[count]) + &bytes(width as i64 * height as i64 * count as i64)
}

pub fn res(list: &mut Vec<String>) {
    let mut files = Vec::new();
    sound(&mut files);
    refused(&mut files);
    offsets(&mut files);
    cut(&mut files);
    list.extend(files.iter().map(|file| format!("0 0 0 0 z res {}", if file.is_empty() { "-" } else { file })));
    texts(list);
}

/// Sides of 0, of a few and of 255; icons behind frames, and with bytes behind them.
fn sound(files: &mut Vec<String>) {
    let sides =
        [(0, 0), (0, 1), (1, 0), (0, 255), (1, 1), (1, 2), (2, 1), (3, 2), (9, 7), (16, 16), (255, 1), (1, 255), (40, 90)];
    for (width, height) in sides {
        files.push(start(8) + &icon(width, height));
        files.push(start(8) + &icon(width, height) + "00");
        for count in [0, 1, 2, 255] {
            if count < 255 || width as u32 * height as u32 <= 6 {
                files.push(start(8) + &frames(width, height, count) + &icon(2, 2));
            }
        }
    }
    for (kind, depth) in [(2, 8), (3, 8), (4, 8), (2, 1)] {
        files.push(start(8) + &icon(3, 2) + &header(kind, 1, 1, depth) + "5a");
        files.push(start(8) + &frames(3, 2, 2) + &frames(1, 1, 3) + &icon(2, 3) + &header(kind, 1, 1, depth) + "5a");
    }
}

/// Every type at the right depth and at others, first and behind frames; letters that are not the start's.
fn refused(files: &mut Vec<String>) {
    for kind in [0, 1, 2, 3, 4, 5, 8, 127, 130, 131, 255] {
        for depth in [0, 1, 4, 7, 8, 9, 16, 24, 136, 255] {
            let record = header(kind, 1, 2, depth) + "01abcdef";
            files.push(start(8) + &record);
            files.push(start(8) + &frames(2, 2, 1) + &record);
        }
    }
    for letters in ["deadface", "cefaaddf", "cefaacde", "cefbadde", "cffaadde", "00000000", "4c424d50"] {
        files.push(letters.to_string() + &start(8)[8..] + &icon(1, 1));
    }
    files.push(start(8));
    files.push(start(8) + &frames(2, 2, 1));
    files.push(start(8) + &frames(0, 9, 255));
}

/// The first offset at each place of the header, at records and between them, and around the file's end.
fn offsets(files: &mut Vec<String>) {
    for kind in [2, 3] {
        for offset in 0..=7u16 {
            let file = format!("cefaadde{}{}", hex(&[kind, kind]), hex(&offset.to_le_bytes()));
            files.push(file.clone() + &icon(2, 2));
            files.push(file.clone() + "08" + &icon(2, 2));
            files.push(file + "0808080808" + &header(kind, 1, 1, 8) + &icon(1, 1));
        }
    }
    let body = "55".repeat(3) + &frames(1, 2, 2) + &icon(3, 1);
    let end = (8 + body.len() / 2) as u16;
    for offset in [8, 9, 10, 11, 12, 23, 24, 25, end - 9, end - 8, end - 7, end - 1, end, end + 1, 256, 32_768, 65_535] {
        files.push(start(offset) + &body);
    }
    for filler in [248, 257, 1000] {
        files.push(start(8 + filler) + &"a7".repeat(filler as usize) + &icon(4, 3));
    }
}

/// Files cut at every length, and frames that end at, before and behind the file's end.
fn cut(files: &mut Vec<String>) {
    for file in [start(8) + &frames(2, 1, 2) + &icon(3, 2), start(8) + &frames(1, 1, 0) + &frames(0, 3, 7) + &icon(1, 1)] {
        files.extend((0..=file.len() / 2).map(|length| file[..2 * length].to_string()));
    }
    for (count, left) in [(2, 12), (2, 11), (2, 13), (2, 20), (3, 12), (255, 12), (0, 0), (0, 7), (1, 5), (1, 6)] {
        files.push(start(8) + &header(3, 3, 2, 8) + &hex(&[count]) + &bytes(left));
    }
}

/// Lines that can just be read, or not; what stands before the op is read and not used.
fn texts(list: &mut Vec<String>) {
    let file = start(8) + &icon(1, 1);
    let args = ["", " ", " -", " --", " - -", " -1", " 0", " ce", " CEFA", " ceg0", " xce", " 1 ce", "  ce"];
    list.extend(args.iter().map(|args| format!("0 0 0 0 z res{args}")));
    list.push(format!("0 0 0 0 z res {} ", file));
    list.push(format!("0 0 0 0 z res {}", file.to_uppercase()));
    list.push(format!("0 0 0 0 z res {}0", file));
    let heads = ["9 9 9 1 x00", "0 32768 1 0 5", "3 2 2 1 x", "5 1 1 0 z", "4 512 513 0 z", "0 0 0 2 z"];
    list.extend(heads.map(|head| format!("{head} res {file}")));
}
