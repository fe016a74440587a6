//! The structs of crates/compare_calls, with the derives of the crate `scroll_derive`.
//!
//! What is told of them: a derive reads and writes field after field, so that a source or a target which is too short is
//! refused by the first field without room, and the fields before it are then written. The library's implementations look
//! for room for the whole struct first.

use crate::calls::Asked;
use crate::reply::{Made, Reply, Show};
use crate::theirs::{has_room, order, pull, push, read, write};
use scroll::ctx::SizeWith;
use scroll::{Cread, Cwrite, Error};
use scroll_derive::{IOread, IOwrite, Pread, Pwrite, SizeWith};

macro_rules! structs {
    ($($name:ident { $($field:ident: $value:tt),* })*) => {
        $(
            #[derive(Clone, Copy, Pread, Pwrite, SizeWith, IOread, IOwrite)]
            pub struct $name {
                $($field: $value),*
            }

            impl Show for $name {
                fn show(&self, reply: &mut Reply) {
                    $(self.$field.show(reply);)*
                }
            }

            impl Made for $name {
                const SIZE: usize = 0 $(+ <$value>::SIZE)*;

                fn made(given: &[u8], quiet: bool) -> $name {
                    let mut at = 0;
                    $(
                        let $field = <$value>::made(&given[at..], quiet);
                        at += <$value>::SIZE;
                    )*
                    assert_eq!(at, Self::SIZE);
                    $name { $($field),* }
                }
            }
        )*
    };
}

structs! {
    Entry { id: u32, time: i64, parts: [u16; 2] }
    Wide { flag: i8, wide: u128, small: i16 }
    Label { id: u32, name: [u8; 5] }
    Sample { kind: u16, weight: f64, height: f32, balance: i128, count: u64, last: u8 }
}

/// The names of the structs, by their numbers.
pub const STRUCTS: [&str; 4] = ["Entry", "Wide", "Label", "Sample"];

/// How many given bytes the structs are made of, whichever it is.
const MOST: usize = 39;

/// Calls a macro with the struct that is asked for.
macro_rules! by_struct {
    ($asked:ident, $do:ident) => {
        match $asked.kind {
            0 => $do!(Entry),
            1 => $do!(Wide),
            2 => $do!(Label),
            _ => $do!(Sample),
        }
    };
}

/// Answers as is told where there is an offset and no room for the whole struct, and says whether it did.
fn refuses(asked: &Asked, bytes: &[u8], size: usize, reply: &mut Reply) -> bool {
    let is_short = reply.quiet && bytes.len().checked_sub(asked.place).is_some_and(|left| left < size);
    if is_short {
        reply.error(&Error::TooBig { size, len: bytes.len() - asked.place });
        reply.size(asked.place);
    }
    is_short
}

pub fn read_struct(asked: &Asked, bytes: &mut [u8], _given: &[u8], reply: &mut Reply) {
    macro_rules! one {
        ($name:ident) => {
            if !refuses(asked, bytes, $name::SIZE, reply) {
                read::<$name, _>(asked, bytes, reply, order(asked))
            }
        };
    }
    by_struct!(asked, one)
}

pub fn write_struct(asked: &Asked, bytes: &mut [u8], given: &[u8], reply: &mut Reply) {
    macro_rules! one {
        ($name:ident) => {
            if !refuses(asked, bytes, $name::SIZE, reply) {
                write(asked, bytes, reply, $name::made(given, reply.quiet), order(asked))
            }
        };
    }
    if given.len() >= MOST {
        by_struct!(asked, one)
    }
}

/// A struct in bounds, over a stream in pieces, and its size.
pub fn other(asked: &Asked, bytes: &mut [u8], given: &[u8], reply: &mut Reply) {
    macro_rules! one {
        ($name:ident) => {
            if has_room(asked, bytes, $name::SIZE) {
                let ctx = order(asked);
                match asked.form % 4 {
                    0 => {
                        bytes.cread_with::<$name>(asked.place, ctx).show(reply);
                        reply.size($name::size_with(&ctx));
                    }
                    1 => bytes.cwrite_with($name::made(given, reply.quiet), asked.place, ctx),
                    2 => pull::<$name>(asked, bytes, reply),
                    _ => push::<$name>(asked, bytes, given, reply),
                }
            }
        };
    }
    if given.len() >= MOST {
        by_struct!(asked, one)
    }
}
