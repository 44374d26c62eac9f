//! MD5 as RFC 1321 has it, one block and whole messages, and the library's entries with their
//! limit: the whole digest, and the digest in progress.

use crate::refusal::Refusal;
use std::sync::LazyLock;

/// The most bytes the library takes into one digest.
pub const DIGEST_MOST: usize = 65_535;

/// The bytes of a block, and of a digest in progress's tail.
const BLOCK: usize = 64;

/// The starting words A, B, C, D (RFC 1321, section 3.3).
const START: [u32; 4] = [0x67452301, 0xefcdab89, 0x98badcfe, 0x10325476];

/// The left rotations, a round to a line (RFC 1321, section 3.4).
const ROTATIONS: [[u32; 4]; 4] = [
    [7, 12, 17, 22],
    [5, 9, 14, 20],
    [4, 11, 16, 23],
    [6, 10, 15, 21],
];

/// RFC 1321's table T, by its rule: the whole part of 2^32 times |sin(i)|, i from 1 to 64 in
/// radians.
static T: LazyLock<[u32; 64]> = LazyLock::new(|| {
    std::array::from_fn(|i| {
        let angle = (i + 1) as f64;
        (4_294_967_296.0 * angle.sin().abs()) as u32
    })
});

/// The library's entry: MD5 of a whole message of up to 65,535 bytes.
pub fn digest(message: &[u8]) -> Result<[u8; 16], Refusal> {
    if message.len() > DIGEST_MOST {
        return Err(Refusal::TooLong);
    }
    Ok(md5(message))
}

/// A digest in progress (docs/RULES.md, 'Digests'): of the tail the first (total mod 64)
/// bytes are in use. The fields may hold anything; every state has an answer.
#[derive(Clone, Copy, Debug, PartialEq, Eq)]
pub struct Progress {
    pub words: [u32; 4],
    pub tail: [u8; BLOCK],
    pub total: u64,
}

impl Progress {
    /// The fresh state.
    pub fn begin() -> Self {
        Progress {
            words: START,
            tail: [0; BLOCK],
            total: 0,
        }
    }

    /// The state with a piece more. Refused where the total is or would be above 65,535; the caller
    /// then still has the state as given.
    pub fn feed(self, piece: &[u8]) -> Result<Self, Refusal> {
        let room = (DIGEST_MOST as u64).checked_sub(self.total);
        if room.is_none_or(|room| piece.len() as u64 > room) {
            return Err(Refusal::TooLong);
        }
        let (words, left) = after_blocks(self.words, &[self.in_use(), piece].concat());
        let mut tail = [0; BLOCK];
        tail[..left.len()].copy_from_slice(&left);
        Ok(Progress {
            words,
            tail,
            total: self.total + piece.len() as u64,
        })
    }

    /// The digest of what the state has taken. Refused where the total is above 65,535.
    pub fn finish(self) -> Result<[u8; 16], Refusal> {
        if self.total > DIGEST_MOST as u64 {
            return Err(Refusal::TooLong);
        }
        let last = [self.in_use(), &padding(self.total)].concat();
        Ok(bytes_of(after_blocks(self.words, &last).0))
    }

    /// The bytes of the tail that wait for a whole block.
    fn in_use(&self) -> &[u8] {
        &self.tail[..(self.total % BLOCK as u64) as usize]
    }
}

/// MD5 of a message of any length.
pub fn md5(message: &[u8]) -> [u8; 16] {
    bytes_of(after_blocks(START, &padded(message)).0)
}

/// The words' bytes, each word's lowest first (RFC 1321, section 3.5).
fn bytes_of(words: [u32; 4]) -> [u8; 16] {
    let mut out = [0; 16];
    for (i, word) in words.iter().enumerate() {
        out[4 * i..4 * i + 4].copy_from_slice(&word.to_le_bytes());
    }
    out
}

/// The message with its padding.
fn padded(message: &[u8]) -> Vec<u8> {
    [message, &padding(message.len() as u64)].concat()
}

/// What follows a message of some length: one bit 1, zeros up to 56 modulo 64, and the length in
/// bits as eight bytes.
fn padding(length: u64) -> Vec<u8> {
    let mut all = vec![0x80];
    while (length % 64 + all.len() as u64) % 64 != 56 {
        all.push(0);
    }
    all.extend_from_slice(&length.wrapping_mul(8).to_le_bytes());
    all
}

/// The four words after all whole blocks, and the bytes behind the last one.
fn after_blocks(start: [u32; 4], bytes: &[u8]) -> ([u32; 4], Vec<u8>) {
    let blocks = bytes.chunks_exact(BLOCK);
    let left = blocks.remainder().to_vec();
    (blocks.fold(start, after_block), left)
}

/// The four words after one block of 64 bytes.
pub fn after_block(start: [u32; 4], block: &[u8]) -> [u32; 4] {
    let x: [u32; 16] = std::array::from_fn(|i| {
        u32::from_le_bytes([
            block[4 * i],
            block[4 * i + 1],
            block[4 * i + 2],
            block[4 * i + 3],
        ])
    });
    let table = *T;
    let [mut a, mut b, mut c, mut d] = start;
    for (round, rotations) in ROTATIONS.iter().enumerate() {
        for i in 0..16 {
            let sum = a
                .wrapping_add(mix(round, b, c, d))
                .wrapping_add(x[word_of_step(round, i)])
                .wrapping_add(table[16 * round + i]);
            let turned = b.wrapping_add(sum.rotate_left(rotations[i % 4]));
            (a, b, c, d) = (d, turned, b, c);
        }
    }
    [
        start[0].wrapping_add(a),
        start[1].wrapping_add(b),
        start[2].wrapping_add(c),
        start[3].wrapping_add(d),
    ]
}

/// RFC 1321's functions F, G, H and I, by round.
fn mix(round: usize, b: u32, c: u32, d: u32) -> u32 {
    match round {
        0 => (b & c) | (!b & d),
        1 => (b & d) | (c & !d),
        2 => b ^ c ^ d,
        _ => c ^ (b | !d),
    }
}

/// Which word of the block step i of a round takes.
fn word_of_step(round: usize, i: usize) -> usize {
    match round {
        0 => i,
        1 => (1 + 5 * i) % 16,
        2 => (5 + 3 * i) % 16,
        _ => (7 * i) % 16,
    }
}

#[cfg(test)]
mod tests {
    use super::*;
    use crate::examples::{hex, RFC_1321};

    #[test]
    fn rfc_1321_test_suite() {
        for (message, expected) in RFC_1321 {
            assert_eq!(hex(&md5(message.as_bytes())), expected, "{message:?}");
        }
    }

    /// The first and last entries of the table, as RFC 1321's appendix prints them.
    #[test]
    fn table_as_printed() {
        assert_eq!(T[..4], [0xd76aa478, 0xe8c7b756, 0x242070db, 0xc1bdceee]);
        assert_eq!(T[60..], [0xf7537e82, 0xbd3af235, 0x2ad7d2bb, 0xeb86d391]);
    }

    /// docs/RULES.md, 'Digests': padding brings n bytes to 64 times (1 plus the whole part of (n + 8)/64).
    #[test]
    fn padded_length() {
        for n in 0..300 {
            assert_eq!(padded(&vec![7; n]).len(), 64 * (1 + (n + 8) / 64), "{n}");
        }
    }

    /// Byte by byte, and with an empty piece after each byte.
    #[test]
    fn progress_gives_the_digest() {
        let message: Vec<u8> = (0..200).collect();
        let mut state = Progress::begin();
        for (n, byte) in message.iter().enumerate() {
            assert_eq!(state.finish(), Ok(md5(&message[..n])), "{n} bytes");
            assert_eq!(state.feed(&[]), Ok(state));
            state = state.feed(&[*byte]).unwrap();
            let used = (n + 1) % BLOCK;
            assert_eq!(state.tail[used..], [0; BLOCK][used..], "{n} bytes");
        }
    }

    #[test]
    fn progress_takes_65535_bytes_and_no_more() {
        let full = Progress::begin().feed(&[7; 65_535]).unwrap();
        assert_eq!(full.finish(), Ok(md5(&[7; 65_535])));
        assert_eq!(full.feed(&[]), Ok(full));
        assert_eq!(full.feed(&[7]), Err(Refusal::TooLong));
        for total in [65_536, 1 << 32, u64::MAX] {
            let past = Progress { total, ..full };
            assert_eq!(past.feed(&[]), Err(Refusal::TooLong));
            assert_eq!(past.finish(), Err(Refusal::TooLong));
        }
    }

    #[test]
    fn entry_takes_65535_bytes_and_no_more() {
        assert_eq!(digest(&[0; 65_535]), Ok(md5(&[0; 65_535])));
        assert_eq!(digest(&[0; 65_536]), Err(Refusal::TooLong));
    }
}
