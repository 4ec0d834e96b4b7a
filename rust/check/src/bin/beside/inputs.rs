//! Inputs that are made by chance: seeds with damage, and trees of encodings that are nearly right.

/// Numbers by chance (xorshift64*).
pub struct Chance(u64);

impl Chance {
    pub fn new(seed: u64) -> Chance {
        Chance(seed.wrapping_mul(0x9e37_79b9_7f4a_7c15) | 1)
    }

    fn next(&mut self) -> u64 {
        self.0 ^= self.0 >> 12;
        self.0 ^= self.0 << 25;
        self.0 ^= self.0 >> 27;
        self.0.wrapping_mul(0x2545_f491_4f6c_dd1d)
    }

    pub fn below(&mut self, n: usize) -> usize {
        if n == 0 { 0 } else { ((self.next() >> 16) % n as u64) as usize }
    }

    fn one_of<T: Copy>(&mut self, items: &[T]) -> T {
        items[self.below(items.len())]
    }

    /// A place that is more often near the front, where headers stand.
    fn place(&mut self, len: usize) -> usize {
        if self.below(2) == 0 { self.below(len.min(48)) } else { self.below(len) }
    }

    fn octet(&mut self) -> u8 {
        const ODD: [u8; 24] = [
            0x00, 0x01, 0x02, 0x03, 0x04, 0x05, 0x06, 0x14, 0x1f, 0x20, 0x30, 0x31, 0x7f, 0x80, 0x81, 0x82, 0x83, 0x84,
            0x85, 0xa0, 0xa1, 0xa2, 0xa3, 0xff,
        ];
        if self.below(3) == 0 { self.next() as u8 } else { self.one_of(&ODD) }
    }
}

fn damage(chance: &mut Chance, bytes: &mut Vec<u8>, seeds: &[Vec<u8>]) {
    let at = chance.place(bytes.len());
    match chance.below(9) {
        0 | 1 if !bytes.is_empty() => bytes[at] = chance.octet(),
        2 if !bytes.is_empty() => bytes[at] ^= 1 << chance.below(8),
        3 if !bytes.is_empty() => bytes[at] = bytes[at].wrapping_add(chance.one_of(&[1, 255])),
        4 if !bytes.is_empty() => drop(bytes.remove(at)),
        5 => bytes.insert(at, chance.octet()),
        6 => bytes.push(chance.octet()),
        7 => bytes.truncate(chance.below(bytes.len() + 1)),
        _ => {
            let other = &seeds[chance.below(seeds.len())];
            bytes.truncate(chance.below(bytes.len() + 1));
            bytes.extend(&other[chance.below(other.len())..]);
        }
    }
}

/// An encoding whose lengths agree, with a fault somewhere.
fn grown(chance: &mut Chance, depth: usize) -> Vec<u8> {
    const IDENTIFIERS: [&[u8]; 5] = [
        &[0x2a, 0x86, 0x48, 0x86, 0xf7, 0x0d, 0x01, 0x01, 0x01],
        &[0x2a, 0x86, 0x48, 0x86, 0xf7, 0x0d, 0x01, 0x01, 0x08],
        &[0x2a, 0x86, 0x48, 0x86, 0xf7, 0x0d, 0x01, 0x01, 0x09],
        &[0x2b, 0x0e, 0x03, 0x02, 0x1a],
        &[0x60, 0x86, 0x48, 0x01, 0x65, 0x03, 0x04, 0x02, 0x01],
    ];
    let (tag, contents) = match chance.below(8) {
        0..=2 if depth > 0 => {
            let parts = chance.below(11);
            let tag = chance.one_of(&[0x30, 0x30, 0x30, 0xa0, 0xa1, 0xa2, 0xa3, 0x04]);
            (tag, (0..parts).flat_map(|_| grown(chance, depth - 1)).collect())
        }
        3 => (0x06, chance.one_of(&IDENTIFIERS).to_vec()),
        4 => (0x05, Vec::new()),
        _ => {
            let len = chance.below(4);
            (0x02, (0..len).map(|_| chance.octet()).collect())
        }
    };
    let mut bytes = vec![tag];
    match contents.len() {
        len @ 0..0x80 => bytes.push(len as u8),
        len @ 0x80..0x100 => bytes.extend([0x81, len as u8]),
        len => bytes.extend([0x82, (len >> 8) as u8, len as u8]),
    }
    bytes.extend(contents);
    bytes
}

/// An input by chance.
pub fn made(chance: &mut Chance, seeds: &[Vec<u8>]) -> Vec<u8> {
    let (mut bytes, times) = if chance.below(4) == 0 {
        (grown(chance, 4), chance.below(2))
    } else {
        (seeds[chance.below(seeds.len())].clone(), 1 + chance.below(3))
    };
    for _ in 0..times {
        damage(chance, &mut bytes, seeds);
    }
    bytes
}
