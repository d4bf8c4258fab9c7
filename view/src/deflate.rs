//! Bytes in the deflate format (RFC 1951), which browsers unpack: one block with the fixed codes, earlier bytes named again.

const WINDOW: usize = 32_768;
const SHORTEST: usize = 4;
const LONGEST: usize = 258;
/// How many earlier places with the same hash are looked at.
const TRIES: usize = 24;
const HASH_BITS: u32 = 16;

/// The first length, or distance, of each code, and its extra bits.
#[rustfmt::skip]
const LENGTHS: [(u16, u8); 29] = [
    (3, 0), (4, 0), (5, 0), (6, 0), (7, 0), (8, 0), (9, 0), (10, 0), (11, 1), (13, 1), (15, 1), (17, 1), (19, 2), (23, 2),
    (27, 2), (31, 2), (35, 3), (43, 3), (51, 3), (59, 3), (67, 4), (83, 4), (99, 4), (115, 4), (131, 5), (163, 5), (195, 5),
    (227, 5), (258, 0),
];
#[rustfmt::skip]
const DISTANCES: [(u16, u8); 30] = [
    (1, 0), (2, 0), (3, 0), (4, 0), (5, 1), (7, 1), (9, 2), (13, 2), (17, 3), (25, 3), (33, 4), (49, 4), (65, 5), (97, 5),
    (129, 6), (193, 6), (257, 7), (385, 7), (513, 8), (769, 8), (1025, 9), (1537, 9), (2049, 10), (3073, 10), (4097, 11),
    (6145, 11), (8193, 12), (12289, 12), (16385, 13), (24577, 13),
];

pub fn write(bytes: &[u8]) -> Vec<u8> {
    let mut out = Bits::default();
    out.put(0b011, 3); // the last block, fixed codes
    let mut earlier = Earlier::new(bytes);
    let mut at = 0;
    while at < bytes.len() {
        let (length, distance) = earlier.longest(at);
        if length < SHORTEST {
            out.symbol(bytes[at].into());
            earlier.add(at);
            at += 1;
        } else {
            out.again(length, distance);
            (at..at + length).for_each(|place| earlier.add(place));
            at += length;
        }
    }
    out.symbol(256);
    out.end()
}

/// Where the same four bytes stood before.
struct Earlier<'a> {
    bytes: &'a [u8],
    /// By hash, the last place plus 1.
    last: Vec<u32>,
    /// By place in the window, the place before it with the same hash plus 1.
    before: Vec<u32>,
}

impl<'a> Earlier<'a> {
    fn new(bytes: &'a [u8]) -> Self {
        Earlier { bytes, last: vec![0; 1 << HASH_BITS], before: vec![0; WINDOW] }
    }

    fn hash(&self, at: usize) -> Option<usize> {
        let four = self.bytes.get(at..at + SHORTEST)?;
        let number = u32::from_le_bytes(four.try_into().expect("four bytes"));
        Some((number.wrapping_mul(0x9E37_79B1) >> (32 - HASH_BITS)) as usize)
    }

    fn add(&mut self, at: usize) {
        if let Some(hash) = self.hash(at) {
            self.before[at % WINDOW] = self.last[hash];
            self.last[hash] = at as u32 + 1;
        }
    }

    /// The longest run that stood before, and how far back.
    fn longest(&self, at: usize) -> (usize, usize) {
        let mut best = (0, 0);
        let Some(hash) = self.hash(at) else { return best };
        let most = LONGEST.min(self.bytes.len() - at);
        let mut place = self.last[hash] as usize;
        for _ in 0..TRIES {
            if place == 0 || at - (place - 1) > WINDOW - 1 {
                break;
            }
            let from = place - 1;
            let length = self.same(from, at, most);
            if length > best.0 {
                best = (length, at - from);
            }
            if length == most {
                break;
            }
            let next = self.before[from % WINDOW] as usize;
            place = if next < place { next } else { 0 };
        }
        best
    }

    fn same(&self, from: usize, at: usize, most: usize) -> usize {
        (0..most).take_while(|place| self.bytes[from + place] == self.bytes[at + place]).count()
    }
}

/// Bits, the lowest of each byte first.
#[derive(Default)]
struct Bits {
    bytes: Vec<u8>,
    held: u64,
    count: u32,
}

impl Bits {
    fn put(&mut self, value: u32, bits: u32) {
        self.held |= u64::from(value) << self.count;
        self.count += bits;
        while self.count >= 8 {
            self.bytes.push(self.held as u8);
            self.held >>= 8;
            self.count -= 8;
        }
    }

    /// A code goes in with its highest bit first.
    fn code(&mut self, code: u32, bits: u32) {
        self.put(code.reverse_bits() >> (32 - bits), bits);
    }

    /// A byte, the end (256) or a code of a length.
    fn symbol(&mut self, symbol: u32) {
        match symbol {
            0..=143 => self.code(0x30 + symbol, 8),
            144..=255 => self.code(0x190 + symbol - 144, 9),
            256..=279 => self.code(symbol - 256, 7),
            _ => self.code(0xC0 + symbol - 280, 8),
        }
    }

    fn again(&mut self, length: usize, distance: usize) {
        let (code, extra, bits) = coded(&LENGTHS, length);
        self.symbol(257 + code);
        self.put(extra, bits);
        let (code, extra, bits) = coded(&DISTANCES, distance);
        self.code(code, 5);
        self.put(extra, bits);
    }

    fn end(mut self) -> Vec<u8> {
        self.put(0, 7);
        self.bytes
    }
}

/// The code, what is left for its extra bits, and how many those are.
fn coded(table: &[(u16, u8)], value: usize) -> (u32, u32, u32) {
    let code = table.partition_point(|(first, _)| usize::from(*first) <= value) - 1;
    let (first, bits) = table[code];
    (code as u32, (value - usize::from(first)) as u32, bits.into())
}
