//! What is read and written, which is the same in every run.

/// The number of bytes that most loops work on.
pub const SIZE: usize = 1 << 16;

/// Numbers that look random, and are the same in every run (xorshift).
pub struct Random(u64);

impl Random {
    pub fn new() -> Random {
        Random(0x1234_5678_9abc_def1)
    }

    pub fn next(&mut self) -> u64 {
        self.0 ^= self.0 << 13;
        self.0 ^= self.0 >> 7;
        self.0 ^= self.0 << 17;
        self.0
    }

    /// Returns a number below `bound`.
    pub fn below(&mut self, bound: u64) -> u64 {
        (self.next() >> 16) % bound
    }
}

/// Returns bytes of all values.
pub fn bytes(len: usize) -> Vec<u8> {
    let mut random = Random::new();
    (0..len).map(|_| random.next() as u8).collect()
}

/// Which characters a string has.
#[derive(Clone, Copy, PartialEq)]
pub enum Letters {
    /// Only ASCII.
    Ascii,
    /// One character in thirty isn't ASCII.
    Few,
    /// One character in three isn't ASCII.
    Third,
    /// No character is ASCII.
    Chinese,
}

/// Appends a string of `len` bytes.
pub fn push_text(out: &mut Vec<u8>, len: usize, letters: Letters, random: &mut Random) {
    let end = out.len() + len;
    while out.len() < end {
        let left = end - out.len();
        let other = match letters {
            Letters::Ascii => false,
            Letters::Few => random.below(30) == 0,
            Letters::Third => random.below(3) == 0,
            Letters::Chinese => true,
        };
        if other && left >= 3 {
            let characters = ['é', '€', '漢', 'α'];
            let pick = if letters == Letters::Chinese { 2 } else { random.below(4) as usize };
            let mut place = [0; 4];
            out.extend_from_slice(characters[pick].encode_utf8(&mut place).as_bytes());
        } else {
            out.push(b'a' + random.below(26) as u8);
        }
    }
}

/// Appends the shortest encoding of an unsigned number.
pub fn push_uleb(out: &mut Vec<u8>, mut number: u64) {
    while number >= 0x80 {
        out.push(number as u8 | 0x80);
        number >>= 7;
    }
    out.push(number as u8);
}

/// Appends the shortest encoding of a signed number.
pub fn push_sleb(out: &mut Vec<u8>, mut number: i64) {
    while !(-64..64).contains(&number) {
        out.push(number as u8 | 0x80);
        number >>= 7;
    }
    out.push(number as u8 & 0x7f);
}

/// The lengths of the encodings of numbers in LEB128.
#[derive(Clone, Copy)]
pub enum Lengths {
    /// All of this length.
    All(u32),
    /// Of a hundred 75 have one byte, 17 two, 5 three, and 3 five.
    Real,
}

impl Lengths {
    fn pick(self, random: &mut Random) -> u32 {
        match self {
            Lengths::All(len) => len,
            Lengths::Real => match random.below(100) {
                0..75 => 1,
                75..92 => 2,
                92..97 => 3,
                _ => 5,
            },
        }
    }

    /// Returns a number whose shortest encoding has such a length.
    pub fn unsigned(self, random: &mut Random) -> u64 {
        let bits = (7 * self.pick(random)).min(64);
        (random.next() | 1 << 63) >> (64 - bits)
    }

    /// The same, with either sign.
    pub fn signed(self, random: &mut Random) -> i64 {
        let bits = (7 * self.pick(random)).min(64);
        let positive = ((random.next() | 1 << 62) & !(1 << 63)) >> (64 - bits);
        if random.below(2) == 0 { positive as i64 } else { !positive as i64 }
    }
}
