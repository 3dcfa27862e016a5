//! The files that are compared.

pub struct File {
    pub kind: u32,
    pub width: u32,
    pub height: u32,
    pub size: u32,
    pub mask: u32,
    pub body: Vec<u8>,
}

impl File {
    /// A sound file, its body drawn from the numbers given.
    pub fn sound(kind: u32, width: u32, height: u32, mask: u32, random: &mut Random) -> File {
        let size = expected(kind, width, height) as u32;
        let n = body(kind, width, height, mask);
        File { kind, width, height, size, mask, body: (0..n).map(|_| random.byte()).collect() }
    }

    pub fn bytes(&self) -> Vec<u8> {
        let head = [0x504D_424C, self.kind, self.width, self.height, self.size, self.mask];
        head.iter().flat_map(|w| w.to_le_bytes()).chain(self.body.iter().copied()).collect()
    }

    pub fn pixels(&self) -> usize {
        self.width as usize * self.height as usize
    }
}

fn plane(width: u32, height: u32) -> u64 {
    height.div_ceil(8) as u64 * width as u64
}

fn expected(kind: u32, width: u32, height: u32) -> u64 {
    match kind {
        2 => plane(width, height),
        16 => (width as u64 * height as u64).wrapping_mul(2),
        _ => width as u64 * height as u64,
    }
}

fn body(kind: u32, width: u32, height: u32, mask: u32) -> u64 {
    let pixels = expected(kind, width, height).wrapping_mul(if kind == 2 { 2 } else { 1 });
    pixels.wrapping_add(if mask == 1 { plane(width, height) } else { 0 })
}

pub struct Random(u64);

impl Random {
    pub fn new(seed: u64) -> Random {
        Random(seed.wrapping_mul(0x9E37_79B9_7F4A_7C15) | 1)
    }

    fn next(&mut self) -> u64 {
        self.0 ^= self.0 << 13;
        self.0 ^= self.0 >> 7;
        self.0 ^= self.0 << 17;
        self.0.wrapping_mul(0x2545_F491_4F6C_DD1D)
    }

    fn below(&mut self, n: u64) -> u64 {
        (self.next() >> 32) % n
    }

    fn byte(&mut self) -> u8 {
        (self.next() >> 56) as u8
    }

    fn one<T: Copy>(&mut self, of: &[T]) -> T {
        of[self.below(of.len() as u64) as usize]
    }

    /// A file that is mostly sound, and the words lent: around the number of its pixels.
    pub fn file(&mut self) -> (Vec<u8>, usize) {
        let kind = self.one(&[2, 2, 8, 8, 16, 16, 2, 8, 16, 4]);
        let side = |random: &mut Random| match random.below(20) {
            0 => 0,
            1 => 1 + random.below(200) as u32,
            _ => 1 + random.below(33) as u32,
        };
        let (width, height) = (side(self), side(self));
        let mask = self.one(&[0, 1]);
        let mut file = File::sound(kind, width, height, mask, self);
        match self.below(24) {
            0 => file.size = file.size.wrapping_add(self.one(&[1, u32::MAX, 8, 1 << 31])),
            1 => file.mask = self.one(&[2, 3, 256, u32::MAX]),
            2 => file.mask ^= 1,
            3 => file.kind = self.one(&[0, 1, 2, 3, 7, 8, 9, 15, 16, 17, 24, 258, 1 << 31, u32::MAX]),
            4 => file.width = file.width.wrapping_add(self.one(&[1, u32::MAX])),
            5 => file.height = file.height.wrapping_add(self.one(&[1, u32::MAX, 8])),
            _ => {}
        }
        let mut bytes = file.bytes();
        match self.below(16) {
            0 => bytes.truncate(self.below(bytes.len() as u64 + 1) as usize),
            1 => bytes.truncate(bytes.len().saturating_sub(1 + self.below(3) as usize)),
            2 => {
                let at = self.below(bytes.len() as u64) as usize;
                bytes[at] ^= 1 << self.below(8);
            }
            3 | 4 => bytes.extend((0..self.below(50)).map(|_| 0x3C)),
            _ => {}
        }
        let n = file.pixels().min(70_000);
        let room = match self.below(12) {
            0 => n.saturating_sub(1),
            1 => self.below(n as u64 + 1) as usize,
            2 => n + 1 + self.below(9) as usize,
            _ => n,
        };
        (bytes, room)
    }
}

const TYPES: [u32; 15] = [0, 1, 2, 3, 4, 7, 8, 9, 15, 16, 17, 24, 258, 1 << 31, u32::MAX];
const SIDES: [u32; 22] = [
    0,
    1,
    2,
    7,
    8,
    9,
    32_767,
    32_768,
    65_535,
    65_536,
    65_537,
    (1 << 28) - 1,
    1 << 28,
    (1 << 29) - 1,
    1 << 29,
    (1 << 30) - 1,
    1 << 30,
    (1 << 30) + 1,
    (1 << 31) - 1,
    1 << 31,
    (1 << 31) + 1,
    u32::MAX,
];

/// Every field at and around its limits, in all combinations; the bytes are there where they are few.
pub fn fields(look: &mut dyn FnMut(&[u8])) {
    for kind in TYPES {
        for width in SIDES {
            for height in SIDES {
                let right = expected(kind, width, height) as u32;
                for size in [right, right.wrapping_add(1), right.wrapping_sub(1), right.wrapping_mul(2), right / 2, 0, u32::MAX] {
                    for mask in [0, 1, 2, u32::MAX] {
                        let n = body(kind, width, height, mask);
                        let n = if n < 200 { n as usize } else { 40 };
                        let file = File { kind, width, height, size, mask, body: vec![0x96; n] }.bytes();
                        look(&file);
                        if n < 40 {
                            look(&file[..file.len() - 1]);
                        }
                    }
                }
            }
        }
    }
    look(&[]);
}

/// Every type, with a mask and without, heights around multiples of eight; also sides above 32,767.
pub fn shapes(look: &mut dyn FnMut(&File)) {
    let mut random = Random::new(12345);
    for kind in [2, 8, 16] {
        for mask in [0, 1] {
            for height in 1..=34 {
                for width in [1, 2, 3, 4, 5, 7, 8, 9, 15, 16, 17, 31, 32, 33, 40] {
                    look(&File::sound(kind, width, height, mask, &mut random));
                }
            }
            for long in [32_767, 32_768, 65_537] {
                look(&File::sound(kind, long, 3, mask, &mut random));
                look(&File::sound(kind, 3, long, mask, &mut random));
            }
        }
    }
}

/// A few sound files.
pub fn samples(look: &mut dyn FnMut(&File)) {
    let mut random = Random::new(54321);
    for kind in [2, 8, 16] {
        for mask in [0, 1] {
            for (width, height) in [(1, 1), (3, 7), (5, 8), (4, 9), (9, 16), (7, 17), (16, 23)] {
                look(&File::sound(kind, width, height, mask, &mut random));
            }
        }
    }
}
