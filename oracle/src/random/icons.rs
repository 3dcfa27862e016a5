//! RES files.

use super::Chance;

/// A file, and where its records begin.
struct File {
    bytes: Vec<u8>,
    records: Vec<usize>,
}

impl Chance {
    pub fn res(&mut self) -> String {
        let file = if self.percent(3) { self.noise(40) } else { self.icons() };
        let hex: String = file.iter().map(|b| format!("{b:02x}")).collect();
        format!("0 0 0 0 z res {}", if hex.is_empty() { "-" } else { &hex })
    }

    /// Up to so many bytes.
    fn noise(&mut self, most: i64) -> Vec<u8> {
        (0..self.from(0, most)).map(|_| self.byte() as u8).collect()
    }

    /// Records of frames, then an icon in nine of ten, then some bytes more; in four of ten something is wrong.
    fn icons(&mut self) -> Vec<u8> {
        let gap = if self.percent(30) { self.noise(20) } else { Vec::new() };
        let mut file = File { bytes: b"\xce\xfa\xad\xde".to_vec(), records: Vec::new() };
        file.bytes.extend([self.byte() as u8, self.byte() as u8]);
        file.bytes.extend((8 + gap.len() as u16).to_le_bytes());
        file.bytes.extend(gap);
        for _ in 0..self.pick(&[0, 0, 0, 1, 1, 2, 3]) {
            self.record(3, &mut file);
        }
        if self.percent(90) {
            self.record(2, &mut file);
        }
        let whole = file.bytes.len();
        if self.percent(30) {
            file.bytes.extend(self.noise(12));
        }
        if !file.records.is_empty() && self.percent(40) {
            self.damage(&mut file, whole);
        }
        file.bytes
    }

    fn record(&mut self, kind: u8, file: &mut File) {
        let side = |chance: &mut Chance| match chance.from(1, 100) {
            1..=4 => 0,
            5 => chance.from(10, 60),
            _ => chance.from(1, 9),
        };
        let (w, h) = (side(self), side(self));
        file.records.push(file.bytes.len());
        file.bytes.extend([kind, w as u8, h as u8, 8]);
        file.bytes.extend((0..4).map(|_| self.byte() as u8));
        let frames = if kind == 3 { self.pick(&[0, 1, 1, 2, 3]) } else { 1 };
        if kind == 3 {
            file.bytes.push(frames as u8);
        }
        file.bytes.extend((0..frames * w * h).map(|_| self.byte() as u8));
    }

    /// What is wrong is a field of a record, the first offset, the start, a byte anywhere, or the length.
    fn damage(&mut self, file: &mut File, whole: usize) {
        let File { bytes, records } = file;
        let at = self.pick(records);
        let (depth, kind) = (self.pick(&[0, 1, 4, 7, 9, 16, 24, 255]), self.pick(&[0, 1, 4, 5, 8, 255]));
        match self.from(1, 100) {
            1..=14 => bytes[at + 3] = depth,
            15..=26 => bytes[at] = kind,
            27..=33 => (bytes[at], bytes[at + 3]) = (kind, depth),
            34..=42 => bytes.truncate(whole - self.from(1, 3) as usize),
            43..=50 => bytes.truncate(at + 8),
            51..=58 => bytes.truncate(at + self.from(0, 9) as usize),
            59..=66 => bytes[at + 1..at + 3].fill(self.pick(&[0, 1, 16, 255])),
            67..=76 => {
                let end = bytes.len() as i64;
                let far = self.from(0, 65_535);
                let offset = self.pick(&[0, 1, 2, 3, 4, 5, 6, 7, end - 9, end - 8, end - 7, end, end + 1, 65_535, far]);
                bytes[6..8].copy_from_slice(&(offset as u16).to_le_bytes());
            }
            77..=82 => bytes[self.from(0, 3) as usize] = self.byte() as u8,
            83..=88 => bytes.truncate(self.from(0, 8) as usize),
            _ => {
                let place = self.from(0, bytes.len() as i64 - 1);
                bytes[place as usize] = self.byte() as u8;
            }
        }
    }
}
