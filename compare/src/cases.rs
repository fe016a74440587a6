//! Calls are made from random numbers, all from one seed, compared, and made smaller.

use crate::calls::Call;
use std::iter::successors;
use std::ops::Range;
use std::time::{Duration, Instant};

/// How both sides agree on a call.
#[derive(Clone, Copy, PartialEq)]
pub enum Verdict {
    Same,
    /// They differ as docs/FROM-RUST.md says.
    Told,
    Differs,
}

/// The smallest call found in some seconds that differs too, and how many were tried.
pub fn shrink(call: &Call) -> (Call, usize) {
    let until = Instant::now() + Duration::from_secs(10);
    let mut smallest = call.clone();
    let mut tried = 0;
    loop {
        let weight = smallest.weight();
        let next = smallest.smaller().find(|it| {
            if it.weight() >= weight || Instant::now() > until {
                return false;
            }
            tried += 1;
            it.compare() == Verdict::Differs
        });
        match next {
            Some(call) => smallest = call,
            None => return (smallest, tried),
        }
    }
}

/// Parts of so many items: first halves of it, last single items.
pub fn parts(len: usize) -> impl Iterator<Item = Range<usize>> {
    let sizes = successors(Some(len.div_ceil(2)), |size| Some(size / 2)).take_while(|size| *size > 0);
    sizes.flat_map(move |size| (0..len).step_by(size).take(100).map(move |start| start..(start + size).min(len)))
}

/// The bytes with a part left out, with a part that is zeros, or with a byte that is lower.
pub fn removals(bytes: &[u8]) -> impl Iterator<Item = Vec<u8>> + '_ {
    let zeroed = parts(bytes.len()).filter(|part| bytes[part.clone()].iter().any(|byte| *byte > 0)).map(|part| {
        let mut changed = bytes.to_vec();
        changed[part].fill(0);
        changed
    });
    let lower = (0..bytes.len()).take(60).flat_map(move |place| {
        [bytes[place] & 0x7f, bytes[place] / 2].into_iter().filter(move |byte| *byte < bytes[place]).map(move |byte| {
            let mut changed = bytes.to_vec();
            changed[place] = byte;
            changed
        })
    });
    let shorter = parts(bytes.len()).map(|part| [&bytes[..part.start], &bytes[part.end..]].concat());
    shorter.chain(zeroed).chain(lower)
}

/// Numbers below one: zero, the half, and those that are a power of two less, the lowest first.
pub fn lower(number: u128) -> Vec<u128> {
    let mut lower = vec![0, number / 2];
    lower.extend((0..128).rev().filter_map(|bit| number.checked_sub(1 << bit)));
    lower
}

/// A generator of the form SplitMix64.
pub struct Random(u64);

impl Random {
    /// The generator of one case of a run.
    pub fn of_case(seed: u64, case: u64) -> Random {
        let mut random = Random(seed ^ case.wrapping_mul(0xa076_1d64_78bd_642f));
        random.next();
        random
    }

    pub fn next(&mut self) -> u64 {
        self.0 = self.0.wrapping_add(0x9e37_79b9_7f4a_7c15);
        let mut x = self.0;
        x = (x ^ (x >> 30)).wrapping_mul(0xbf58_476d_1ce4_e5b9);
        x = (x ^ (x >> 27)).wrapping_mul(0x94d0_49bb_1331_11eb);
        x ^ (x >> 31)
    }

    pub fn wide(&mut self) -> u128 {
        u128::from(self.next()) << 64 | u128::from(self.next())
    }

    pub fn below(&mut self, limit: usize) -> usize {
        (self.next() % limit.max(1) as u64) as usize
    }

    pub fn chance(&mut self, percent: usize) -> bool {
        self.below(100) < percent
    }

    pub fn pick<T: Copy>(&mut self, from: &[T]) -> T {
        from[self.below(from.len())]
    }

    pub fn byte(&mut self) -> u8 {
        self.next() as u8
    }

    /// A size below 2 to the power of `bits`, more often a small one.
    pub fn size(&mut self, bits: u32) -> usize {
        if bits > 16 && self.chance(4) {
            return self.below(1 << bits);
        }
        let mut used = 0;
        while used < bits && self.chance(76) {
            used += 1;
        }
        self.below(1 << used)
    }

    /// An offset into so many bytes: mostly within them, sometimes just past them, or near 2 to the power of 32 or 64.
    pub fn offset(&mut self, len: usize) -> usize {
        match self.below(20) {
            0 => usize::MAX - self.below(20),
            1 => (1 << 32) - 10 + self.below(20),
            2 => self.next() as usize,
            3..=7 => (len + 2).saturating_sub(self.below(20)),
            8..=11 => 0,
            _ => self.below(len + 2),
        }
    }

    /// A number of so many bits: near one of its bounds, near a power of two, or any.
    pub fn number(&mut self, bits: u32) -> u128 {
        let any = match self.below(4) {
            0 => self.next() as u128 % 3,
            1 => (self.next() as u128 % 3).wrapping_neg(),
            2 => (1u128 << self.below(bits as usize)).wrapping_sub(self.next() as u128 % 2),
            _ => self.wide() >> self.below(bits as usize),
        };
        if bits == 128 { any } else { any & ((1 << bits) - 1) }
    }

    /// Bytes of one of several kinds, often of one that is liked, or of a mixture.
    pub fn bytes(&mut self, len: usize, liked: &[usize]) -> Vec<u8> {
        let mut bytes = Vec::with_capacity(len + 16);
        let only = if !liked.is_empty() && self.chance(50) { self.pick(liked) } else { self.below(2 * KINDS) };
        let runs = 1 + self.below(24);
        while bytes.len() < len {
            let kind = if only < KINDS { only } else { self.below(KINDS) };
            for _ in 0..if only < KINDS { len } else { runs } {
                self.push(&mut bytes, kind);
                if bytes.len() >= len {
                    break;
                }
            }
        }
        bytes.truncate(len);
        // (one byte that doesn't fit the others)
        if len > 0 && self.chance(40) {
            let place = self.below(len);
            bytes[place] = if self.chance(50) { self.pick(&EDGES) } else { self.byte() };
        }
        bytes
    }

    fn push(&mut self, bytes: &mut Vec<u8>, kind: usize) {
        match kind {
            0 => bytes.push(self.byte()),
            1 => bytes.push(0),
            2 => bytes.push(0xff),
            3 => bytes.push(b'a' + self.byte() % 26),
            4 => bytes.push(self.pick(&EDGES)),
            5 => {
                let text = self.scalar();
                bytes.extend_from_slice(text.encode_utf8(&mut [0; 4]).as_bytes());
            }
            6 => bytes.extend_from_slice(self.pick(&ODD_TEXTS)),
            7 => {
                // a number in LEB128, often padded or too long
                let len = if self.chance(50) { 8 + self.below(4) } else { self.below(8) };
                let others = self.pick(&[0x80, 0xff, 0]);
                for _ in 0..len {
                    let byte = if others == 0 { self.byte() } else { others };
                    bytes.push(byte | 0x80);
                }
                let last = self.byte() & 0x7f;
                bytes.push(self.pick(&[0, 1, 2, 3, 0x3f, 0x40, 0x41, 0x7e, 0x7f, last]));
            }
            8 => {
                // a float of 32 bits that is a zero, a subnormal, an infinity, a NaN or near one of these
                let bits =
                    self.pick(&ODD_F32) ^ (self.next() as u32 & self.pick(&[0, 0, 1 << 31, 0x0040_0001, 0x007f_ffff]));
                let bits = if self.chance(50) { bits } else { bits.swap_bytes() };
                bytes.extend_from_slice(&bits.to_le_bytes());
            }
            _ => {
                let bits = self.pick(&ODD_F64)
                    ^ (self.next() & self.pick(&[0, 0, 1 << 63, 0x0008_0000_0000_0001, 0x000f_ffff_ffff_ffff]));
                let bits = if self.chance(50) { bits } else { bits.swap_bytes() };
                bytes.extend_from_slice(&bits.to_le_bytes());
            }
        }
    }

    /// A scalar value of one, two, three or four bytes in UTF-8, often the first or the last of them.
    fn scalar(&mut self) -> char {
        let (first, last) =
            self.pick(&[(0, 0x7f), (0x80, 0x7ff), (0x800, 0xd7ff), (0xe000, 0xffff), (0x10000, 0x10ffff)]);
        let code = match self.below(4) {
            0 => first,
            1 => last,
            _ => first + self.below((last - first) as usize) as u32,
        };
        char::from_u32(code).unwrap_or('a')
    }

    /// A text of at most about so many bytes.
    pub fn text(&mut self, len: usize) -> String {
        let mut text = String::new();
        while text.len() < len {
            text.push(self.scalar());
        }
        text
    }
}

const KINDS: usize = 10;

/// Kinds of bytes to like: those of texts, of numbers in LEB128, and of floats.
pub const TEXTS: [usize; 4] = [3, 3, 5, 6];
pub const LEB128: [usize; 1] = [7];
pub const FLOATS: [usize; 2] = [8, 9];

/// The bytes at which UTF-8 and LEB128 change what they mean, and delimiters.
const EDGES: [u8; 24] = [
    0x00, 0x01, 0x09, 0x0a, 0x20, 0x3f, 0x40, 0x61, 0x7e, 0x7f, 0x80, 0x81, 0xbf, 0xc0, 0xc1, 0xc2, 0xdf, 0xe0, 0xed,
    0xef, 0xf0, 0xf4, 0xf5, 0xff,
];

/// Bytes that are not UTF-8, or only just: overlong, surrogates, too high, without an end or without a start.
const ODD_TEXTS: [&[u8]; 24] = [
    b"\x80",
    b"\xbf",
    b"\xc0\x80",
    b"\xc1\xbf",
    b"\xc2",
    b"\xc2\x7f",
    b"\xdf\xc0",
    b"\xe0\x80\x80",
    b"\xe0\x9f\xbf",
    b"\xe0\xa0\x80",
    b"\xe1\x80",
    b"\xec\xbf\xbf",
    b"\xed\x9f\xbf",
    b"\xed\xa0\x80",
    b"\xed\xbf\xbf",
    b"\xee\x80\x80",
    b"\xef\xbf",
    b"\xf0\x80\x80\x80",
    b"\xf0\x8f\xbf\xbf",
    b"\xf0\x90\x80\x80",
    b"\xf1\x80\x80",
    b"\xf4\x8f\xbf\xbf",
    b"\xf4\x90\x80\x80",
    b"\xf5\x80\x80\x80",
];

/// A zero, the ends of the subnormals and of the other floats, one, infinity, a signalling and a quiet NaN.
const ODD_F32: [u32; 9] =
    [0, 1, 0x007f_ffff, 0x0080_0000, 0x7f7f_ffff, 0x3f80_0000, 0x7f80_0000, 0x7f80_0001, 0x7fc0_0000];

const ODD_F64: [u64; 9] = [
    0,
    1,
    0x000f_ffff_ffff_ffff,
    0x0010_0000_0000_0000,
    0x7fef_ffff_ffff_ffff,
    0x3ff0_0000_0000_0000,
    0x7ff0_0000_0000_0000,
    0x7ff0_0000_0000_0001,
    0x7ff8_0000_0000_0000,
];
