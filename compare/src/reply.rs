//! What the Rust crate's calls return, encoded as crates/compare_calls/src/call.rt does.

use crate::additions::Required;
use scroll::{Error, Result, Sleb128, Uleb128};
use std::ffi::{CStr, CString};
use std::sync::atomic::{AtomicBool, Ordering};

/// Whether the crate's answers are to be wrong at one place, to see that a run fails then.
pub static LIES: AtomicBool = AtomicBool::new(false);

/// The size of a number in LEB128, or the wrong one of two bytes.
fn size_of_uleb(number: &Uleb128) -> usize {
    number.size() - usize::from(number.size() == 2 && LIES.load(Ordering::Relaxed))
}

/// An answer. Where `quiet`, it is given as docs/FROM-RUST.md tells: with one NaN of each width.
pub struct Reply {
    pub bytes: Vec<u8>,
    pub quiet: bool,
}

impl Reply {
    pub fn number(&mut self, number: u128) {
        self.bytes.push(b'n');
        self.bytes.extend(number.to_le_bytes());
    }

    pub fn signed(&mut self, number: i128) {
        self.bytes.push(b'i');
        self.bytes.extend(number.to_le_bytes());
    }

    pub fn size(&mut self, size: usize) {
        self.number(size as u128);
    }

    pub fn slice(&mut self, slice: &[u8]) {
        self.bytes.push(b's');
        self.bytes.extend((slice.len() as u64).to_le_bytes());
        self.bytes.extend(slice);
    }

    pub fn error(&mut self, error: &Error) {
        match error {
            Error::TooBig { size, len } => {
                self.bytes.push(b't');
                self.size(*size);
                self.size(*len);
            }
            Error::BadOffset(offset) => {
                self.bytes.push(b'o');
                self.size(*offset);
            }
            Error::BadInput { size, msg } => {
                self.bytes.push(b'b');
                self.size(*size);
                self.slice(msg.as_bytes());
            }
            _ => self.bytes.push(b'?'),
        }
    }

    pub fn outcome<N: Show>(&mut self, outcome: Result<N>) {
        match outcome {
            Ok(value) => {
                self.bytes.push(b'k');
                value.show(self);
            }
            Err(error) => self.error(&error),
        }
    }
}

pub trait Show {
    fn show(&self, reply: &mut Reply);
}

macro_rules! show {
    ($($value:ty: $x:ident, $reply:ident => $shown:expr;)*) => {
        $(impl Show for $value {
            fn show(&self, $reply: &mut Reply) {
                let $x = self;
                $shown;
            }
        })*
    };
}

show! {
    u8: x, reply => reply.number(u128::from(*x));
    u16: x, reply => reply.number(u128::from(*x));
    u32: x, reply => reply.number(u128::from(*x));
    u64: x, reply => reply.number(u128::from(*x));
    u128: x, reply => reply.number(*x);
    i8: x, reply => reply.signed(i128::from(*x));
    i16: x, reply => reply.signed(i128::from(*x));
    i32: x, reply => reply.signed(i128::from(*x));
    i64: x, reply => reply.signed(i128::from(*x));
    i128: x, reply => reply.signed(*x);
    f32: x, reply => reply.number(u128::from(quiet_f32(*x, reply.quiet).to_bits()));
    f64: x, reply => reply.number(u128::from(quiet_f64(*x, reply.quiet).to_bits()));
    usize: x, reply => reply.size(*x);
    &str: x, reply => reply.slice(x.as_bytes());
    &[u8]: x, reply => reply.slice(x);
    &CStr: x, reply => reply.slice(x.to_bytes_with_nul());
    CString: x, reply => reply.slice(x.as_bytes_with_nul());
    Required<'_>: x, reply => reply.slice(x.0.as_bytes());
    Uleb128: x, reply => { reply.number(u128::from(*x.as_ref())); reply.size(size_of_uleb(x)) };
    Sleb128: x, reply => { reply.signed(i128::from(*x.as_ref())); reply.size(x.size()) };
}

impl<N: Show, const LEN: usize> Show for [N; LEN] {
    fn show(&self, reply: &mut Reply) {
        self.iter().for_each(|value| value.show(reply));
    }
}

fn quiet_f32(x: f32, quiet: bool) -> f32 {
    if quiet && x.is_nan() { f32::from_bits(0x7fc0_0000) } else { x }
}

fn quiet_f64(x: f64, quiet: bool) -> f64 {
    if quiet && x.is_nan() { f64::from_bits(0x7ff8_0000_0000_0000) } else { x }
}

/// A value that is made of given bytes, the lowest first.
pub trait Made: Copy {
    const SIZE: usize;
    fn made(given: &[u8], quiet: bool) -> Self;
}

macro_rules! made {
    ($($number:ty),*) => {
        $(impl Made for $number {
            const SIZE: usize = size_of::<$number>();
            fn made(given: &[u8], _quiet: bool) -> Self {
                <$number>::from_le_bytes(given[..Self::SIZE].try_into().unwrap())
            }
        })*
    };
}

made!(u8, u16, u32, u64, u128, i8, i16, i32, i64, i128);

impl Made for f32 {
    const SIZE: usize = 4;
    fn made(given: &[u8], quiet: bool) -> f32 {
        quiet_f32(f32::from_bits(u32::made(given, quiet)), quiet)
    }
}

impl Made for f64 {
    const SIZE: usize = 8;
    fn made(given: &[u8], quiet: bool) -> f64 {
        quiet_f64(f64::from_bits(u64::made(given, quiet)), quiet)
    }
}

impl<N: Made, const LEN: usize> Made for [N; LEN] {
    const SIZE: usize = N::SIZE * LEN;
    fn made(given: &[u8], quiet: bool) -> [N; LEN] {
        std::array::from_fn(|index| N::made(&given[index * N::SIZE..], quiet))
    }
}
