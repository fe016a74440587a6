//! The same calls of the Rust crate, in the order in which crates/compare_calls numbers them.

use crate::additions::{Encoded, Required, RequiredBy};
use crate::calls::Asked;
use crate::reply::{Made, Reply, Show};
use scroll::ctx::{FromCtx, IntoCtx, MeasureWith, SizeWith, StrCtx, TryFromCtx, TryIntoCtx};
use scroll::{Cread, Cwrite, Endian, Error, IOread, IOwrite, Pread, Pwrite, Result, Sleb128, Uleb128};
use std::ffi::{CStr, CString};
use std::io::{self, Read, Write};

pub fn order(asked: &Asked) -> Endian {
    Endian::from(asked.a % 2 == 1)
}

/// Where a text ends, or the delimiter that it requires.
fn text_end(asked: &Asked) -> std::result::Result<StrCtx, RequiredBy> {
    let delimiter = asked.a as u8;
    match asked.a / 256 % 4 {
        0 => Ok(StrCtx::Delimiter(delimiter)),
        1 => Ok(StrCtx::DelimiterUntil(delimiter, asked.b as usize)),
        2 => Ok(StrCtx::Length(asked.b as usize)),
        _ => Err(RequiredBy(delimiter)),
    }
}

pub fn read<'a, N, C: Copy + Default>(asked: &Asked, source: &'a [u8], reply: &mut Reply, ctx: C)
where
    N: TryFromCtx<'a, C, Error = Error> + Show,
{
    let mut offset = asked.place;
    let outcome: Result<N> = match asked.form % 4 {
        0 => source.pread_with(offset, ctx),
        1 => source.gread_with(&mut offset, ctx),
        2 => source.pread(offset),
        _ => source.gread(&mut offset),
    };
    reply.outcome(outcome);
    reply.size(offset);
}

/// Texts by a required delimiter; in the default context a text is none of these.
fn read_required<'a, N, T>(asked: &Asked, source: &'a [u8], reply: &mut Reply, by: RequiredBy)
where
    N: TryFromCtx<'a, RequiredBy, Error = Error> + Show,
    T: TryFromCtx<'a, StrCtx, Error = Error> + Show,
{
    let mut offset = asked.place;
    match asked.form % 4 {
        0 => reply.outcome(source.pread_with::<N>(offset, by)),
        1 => reply.outcome(source.gread_with::<N>(&mut offset, by)),
        _ => return read::<T, _>(asked, source, reply, StrCtx::default()),
    }
    reply.size(offset);
}

pub fn read_number(asked: &Asked, bytes: &mut [u8], _given: &[u8], reply: &mut Reply) {
    let ctx = order(asked);
    match asked.kind {
        0 => read::<u8, _>(asked, bytes, reply, ctx),
        1 => read::<u16, _>(asked, bytes, reply, ctx),
        2 => read::<u32, _>(asked, bytes, reply, ctx),
        3 => read::<u64, _>(asked, bytes, reply, ctx),
        4 => read::<u128, _>(asked, bytes, reply, ctx),
        5 => read::<i8, _>(asked, bytes, reply, ctx),
        6 => read::<i16, _>(asked, bytes, reply, ctx),
        7 => read::<i32, _>(asked, bytes, reply, ctx),
        8 => read::<i64, _>(asked, bytes, reply, ctx),
        9 => read::<i128, _>(asked, bytes, reply, ctx),
        10 => read::<f32, _>(asked, bytes, reply, ctx),
        _ => read::<f64, _>(asked, bytes, reply, ctx),
    }
}

pub fn read_array(asked: &Asked, bytes: &mut [u8], _given: &[u8], reply: &mut Reply) {
    let ctx = order(asked);
    match asked.kind {
        0 => read::<[u8; 4], _>(asked, bytes, reply, ctx),
        1 => read::<[i32; 5], _>(asked, bytes, reply, ctx),
        2 => read::<[u128; 2], _>(asked, bytes, reply, ctx),
        3 => read::<[f64; 2], _>(asked, bytes, reply, ctx),
        4 => read::<[[u16; 2]; 2], _>(asked, bytes, reply, ctx),
        5 => read::<[[[i8; 2]; 3]; 2], _>(asked, bytes, reply, ctx),
        _ => read::<[[u16; 0]; 3], _>(asked, bytes, reply, ctx),
    }
}

pub fn read_text(asked: &Asked, bytes: &mut [u8], _given: &[u8], reply: &mut Reply) {
    let count = asked.b as usize;
    match (asked.kind, text_end(asked)) {
        (0, Ok(end)) => read::<&str, _>(asked, bytes, reply, end),
        (0, Err(by)) => read_required::<Required, &str>(asked, bytes, reply, by),
        (1, Ok(end)) => read::<[&str; 3], _>(asked, bytes, reply, end),
        (1, Err(by)) => read_required::<[Required; 3], [&str; 3]>(asked, bytes, reply, by),
        (2, Ok(end)) => read::<[[&str; 2]; 2], _>(asked, bytes, reply, end),
        (2, Err(by)) => read_required::<[[Required; 2]; 2], [[&str; 2]; 2]>(asked, bytes, reply, by),
        (3, _) => read::<&[u8], _>(asked, bytes, reply, count),
        (4, _) => read::<[&[u8]; 3], _>(asked, bytes, reply, count),
        (6, _) => read::<[&CStr; 2], _>(asked, bytes, reply, ()),
        _ => read::<&CStr, _>(asked, bytes, reply, ()),
    }
}

pub fn read_leb(asked: &Asked, bytes: &mut [u8], _given: &[u8], reply: &mut Reply) {
    match asked.kind {
        0 => read::<Uleb128, _>(asked, bytes, reply, ()),
        1 => read::<Sleb128, _>(asked, bytes, reply, ()),
        2 => read::<[Uleb128; 3], _>(asked, bytes, reply, ()),
        _ => read::<[[Sleb128; 2]; 2], _>(asked, bytes, reply, ()),
    }
}

pub fn write<N, C: Copy + Default>(asked: &Asked, target: &mut [u8], reply: &mut Reply, value: N, ctx: C)
where
    N: TryIntoCtx<C, Error = Error>,
{
    let mut offset = asked.place;
    let outcome: Result<usize> = match asked.form % 4 {
        0 => target.pwrite_with(value, offset, ctx),
        1 => target.gwrite_with(value, &mut offset, ctx),
        2 => target.pwrite(value, offset),
        _ => target.gwrite(value, &mut offset),
    };
    reply.outcome(outcome);
    reply.size(offset);
}

/// How many given bytes the writes of numbers and arrays ask for, whichever it is.
const MOST: usize = 20;

/// Calls a function with a value that is made of the given bytes.
macro_rules! write_made {
    ($asked:ident, $bytes:ident, $given:ident, $reply:ident, $value:ty) => {{
        let value = <$value>::made($given, $reply.quiet);
        write($asked, $bytes, $reply, value, order($asked))
    }};
    (&$asked:ident, $bytes:ident, $given:ident, $reply:ident, $value:ty) => {{
        let value = <$value>::made($given, $reply.quiet);
        write($asked, $bytes, $reply, &value, order($asked))
    }};
}

pub fn write_number(asked: &Asked, bytes: &mut [u8], given: &[u8], reply: &mut Reply) {
    if given.len() < MOST {
        return;
    }
    match asked.kind {
        0 => write_made!(asked, bytes, given, reply, u8),
        1 => write_made!(asked, bytes, given, reply, u16),
        2 => write_made!(asked, bytes, given, reply, u32),
        3 => write_made!(asked, bytes, given, reply, u64),
        4 => write_made!(asked, bytes, given, reply, u128),
        5 => write_made!(asked, bytes, given, reply, i8),
        6 => write_made!(asked, bytes, given, reply, i16),
        7 => write_made!(asked, bytes, given, reply, i32),
        8 => write_made!(asked, bytes, given, reply, i64),
        9 => write_made!(asked, bytes, given, reply, i128),
        10 => write_made!(asked, bytes, given, reply, f32),
        _ => write_made!(asked, bytes, given, reply, f64),
    }
}

pub fn write_array(asked: &Asked, bytes: &mut [u8], given: &[u8], reply: &mut Reply) {
    if given.len() < MOST {
        return;
    }
    match asked.kind {
        0 => write_made!(asked, bytes, given, reply, [u8; 4]),
        1 => write_made!(asked, bytes, given, reply, [i32; 5]),
        2 => write_made!(asked, bytes, given, reply, [f32; 3]),
        3 => write_made!(asked, bytes, given, reply, [[u16; 2]; 2]),
        4 => write_made!(asked, bytes, given, reply, [[[i8; 2]; 3]; 2]),
        5 => write_made!(&asked, bytes, given, reply, u16),
        6 => write_made!(&asked, bytes, given, reply, i128),
        _ => write_made!(&asked, bytes, given, reply, f64),
    }
}

pub fn write_bytes(asked: &Asked, bytes: &mut [u8], given: &[u8], reply: &mut Reply) {
    let prefix = given.get(..(asked.b % 16) as usize).unwrap_or(given);
    let text = std::str::from_utf8(given);
    match asked.kind {
        0 => write(asked, bytes, reply, given, ()),
        1 => write(asked, bytes, reply, [prefix, given, prefix], ()),
        2 => drop(text.map(|text| write(asked, bytes, reply, text, ()))),
        3 => drop(text.map(|text| write(asked, bytes, reply, [text, text], ()))),
        4 | 5 => drop(CStr::from_bytes_until_nul(given).map(|text| write(asked, bytes, reply, text, ()))),
        // (the crate writes no number in LEB128: the encoding that it read is written as it is)
        6 => drop(
            given
                .pread::<Uleb128>(0)
                .map(|read| write(asked, bytes, reply, Encoded(given[..read.size()].to_vec()), ())),
        ),
        _ => drop(
            given
                .pread::<Sleb128>(0)
                .map(|read| write(asked, bytes, reply, Encoded(given[..read.size()].to_vec()), ())),
        ),
    }
}

pub fn owned(asked: &Asked, bytes: &mut [u8], given: &[u8], reply: &mut Reply) {
    match asked.kind {
        0 | 1 => {
            let asked = Asked { form: asked.form % 2, ..*asked };
            read::<CString, _>(&asked, bytes, reply, ());
        }
        2 | 3 => drop(given.pread::<CString>(0).map(|text| write(asked, bytes, reply, text, ()))),
        // (std's error, in the words of the library)
        _ => reply.outcome(CString::new(given).map_err(|zero| {
            let size = zero.nul_position();
            Error::BadInput { size, msg: "nul byte in text" }
        })),
    }
}

fn fill<'a, N, C: Copy + Default>(
    asked: &Asked,
    source: &'a [u8],
    given: &[u8],
    reply: &mut Reply,
    ctx: C,
    mut values: [N; 7],
) where
    N: TryFromCtx<'a, C, Error = Error> + Show,
{
    let mut offset = asked.place;
    let values_read = &mut values[..given.len() % 8];
    let outcome: Result<()> = if asked.form % 2 == 0 {
        source.gread_inout_with(&mut offset, values_read, ctx)
    } else {
        source.gread_inout(&mut offset, values_read)
    };
    if let Err(error) = outcome {
        reply.error(&error);
    }
    reply.size(offset);
    values.show(reply);
}

pub fn bulk(asked: &Asked, bytes: &mut [u8], given: &[u8], reply: &mut Reply) {
    let ctx = order(asked);
    match (asked.kind, text_end(asked)) {
        (0, _) => fill(asked, bytes, given, reply, ctx, [9u8; 7]),
        (1, _) => fill(asked, bytes, given, reply, ctx, [9u16; 7]),
        (2, _) => fill(asked, bytes, given, reply, ctx, [9u64; 7]),
        (3, _) => fill(asked, bytes, given, reply, ctx, [-9i32; 7]),
        (4, _) => fill(asked, bytes, given, reply, ctx, [-9i128; 7]),
        (5, _) => fill(asked, bytes, given, reply, ctx, [1.5f32; 7]),
        (6, _) => fill(asked, bytes, given, reply, ctx, [[9u16, 8]; 7]),
        (7, Err(_)) if asked.form % 2 == 1 => fill(asked, bytes, given, reply, StrCtx::default(), [""; 7]),
        (7, Err(by)) => fill_required(asked, bytes, given, reply, by),
        (7, Ok(end)) => fill(asked, bytes, given, reply, end, [""; 7]),
        _ => {
            let first = [0xac, 0x02].pread::<Uleb128>(0).unwrap();
            fill(asked, bytes, given, reply, (), [first; 7]);
        }
    }
}

fn fill_required(asked: &Asked, source: &[u8], given: &[u8], reply: &mut Reply, by: RequiredBy) {
    let mut offset = asked.place;
    let mut values: [Required; 7] = std::array::from_fn(|_| Required(""));
    if let Err(error) = source.gread_inout_with(&mut offset, &mut values[..given.len() % 8], by) {
        reply.error(&error);
    }
    reply.size(offset);
    values.show(reply);
}

pub fn has_room(asked: &Asked, bytes: &[u8], size: usize) -> bool {
    bytes.len().checked_sub(asked.place).is_some_and(|left| left >= size)
}

macro_rules! cread {
    ($asked:ident, $bytes:ident, $reply:ident, $value:ty) => {
        if has_room($asked, $bytes, size_of::<$value>()) {
            let value: $value = if $asked.form % 2 == 0 {
                $bytes.cread_with($asked.place, order($asked))
            } else {
                $bytes.cread($asked.place)
            };
            value.show($reply);
        }
    };
}

pub fn cread(asked: &Asked, bytes: &mut [u8], _given: &[u8], reply: &mut Reply) {
    match asked.kind {
        0 => cread!(asked, bytes, reply, u8),
        1 => cread!(asked, bytes, reply, u16),
        2 => cread!(asked, bytes, reply, u32),
        3 => cread!(asked, bytes, reply, u64),
        4 => cread!(asked, bytes, reply, u128),
        5 => cread!(asked, bytes, reply, i8),
        6 => cread!(asked, bytes, reply, i16),
        7 => cread!(asked, bytes, reply, i32),
        8 => cread!(asked, bytes, reply, i64),
        9 => cread!(asked, bytes, reply, i128),
        10 => cread!(asked, bytes, reply, f32),
        _ => cread!(asked, bytes, reply, f64),
    }
}

macro_rules! cwrite {
    ($asked:ident, $bytes:ident, $given:ident, $reply:ident, $value:ty) => {
        if $given.len() >= <$value>::SIZE && has_room($asked, $bytes, <$value>::SIZE) {
            let value = <$value>::made($given, $reply.quiet);
            if $asked.form % 2 == 0 {
                $bytes.cwrite_with(value, $asked.place, order($asked));
            } else {
                $bytes.cwrite(value, $asked.place);
            }
        }
    };
}

pub fn cwrite(asked: &Asked, bytes: &mut [u8], given: &[u8], reply: &mut Reply) {
    match asked.kind {
        0 => cwrite!(asked, bytes, given, reply, u8),
        1 => cwrite!(asked, bytes, given, reply, u16),
        2 => cwrite!(asked, bytes, given, reply, u32),
        3 => cwrite!(asked, bytes, given, reply, u64),
        4 => cwrite!(asked, bytes, given, reply, u128),
        5 => cwrite!(asked, bytes, given, reply, i8),
        6 => cwrite!(asked, bytes, given, reply, i16),
        7 => cwrite!(asked, bytes, given, reply, i32),
        8 => cwrite!(asked, bytes, given, reply, i64),
        9 => cwrite!(asked, bytes, given, reply, i128),
        10 => cwrite!(asked, bytes, given, reply, f32),
        _ => cwrite!(asked, bytes, given, reply, f64),
    }
}

macro_rules! sizes {
    ($reply:ident, $ctx:expr; $($value:ty),*) => {
        [$(<$value>::size_with($ctx)),*].show($reply)
    };
}

pub fn sizes(asked: &Asked, bytes: &mut [u8], given: &[u8], reply: &mut Reply) {
    let ctx = &order(asked);
    let mut offset = asked.place;
    match asked.kind {
        0 => sizes!(reply, ctx; u8, u16, u32, u64, u128, i8, i16, i32, i64, i128, f32, f64),
        1 => sizes!(reply, ctx; [u8; 0], [u16; 3], [[f64; 3]; 2], [[[i32; 2]; 0]; 5]),
        2 => sizes!(reply, &(); u8, u16, u32, u64, u128, i8, i16, i32, i64, i128, f32, f64),
        3 => {
            reply.size(MeasureWith::<Endian>::measure_with(bytes, ctx));
            reply.size([7u8; 5].measure_with(ctx));
        }
        4 => drop(std::str::from_utf8(given).map(|text| reply.size(text.measure_with(ctx)))),
        5 => {
            reply.outcome(Uleb128::read(bytes, &mut offset));
            reply.size(offset);
        }
        _ => {
            reply.outcome(Sleb128::read(bytes, &mut offset));
            reply.size(offset);
        }
    }
}

/// A stream that moves so many bytes at a time.
struct InPieces<S>(S, usize);

impl Read for InPieces<&[u8]> {
    fn read(&mut self, buffer: &mut [u8]) -> io::Result<usize> {
        let count = buffer.len().min(self.1);
        self.0.read(&mut buffer[..count])
    }
}

impl Write for InPieces<&mut [u8]> {
    fn write(&mut self, buffer: &[u8]) -> io::Result<usize> {
        self.0.write(&buffer[..buffer.len().min(self.1)])
    }

    fn flush(&mut self) -> io::Result<()> {
        Ok(())
    }
}

fn piece(asked: &Asked) -> usize {
    (asked.b % 5) as usize + 1
}

pub fn pull<N: FromCtx<Endian> + SizeWith<Endian> + Show>(asked: &Asked, bytes: &[u8], reply: &mut Reply) {
    let mut source = InPieces(bytes, piece(asked));
    for _ in 0..3 {
        let outcome: io::Result<N> =
            if asked.form % 2 == 0 { source.ioread_with(order(asked)) } else { source.ioread() };
        match outcome {
            Ok(value) => value.show(reply),
            Err(_) => return reply.bytes.push(b'e'),
        }
    }
}

pub fn ioread(asked: &Asked, bytes: &mut [u8], _given: &[u8], reply: &mut Reply) {
    match asked.kind {
        0 => pull::<u8>(asked, bytes, reply),
        1 => pull::<u32>(asked, bytes, reply),
        2 => pull::<i64>(asked, bytes, reply),
        3 => pull::<u128>(asked, bytes, reply),
        4 => pull::<f32>(asked, bytes, reply),
        _ => pull::<f64>(asked, bytes, reply),
    }
}

pub fn push<N: IntoCtx<Endian> + SizeWith<Endian> + Made>(
    asked: &Asked,
    bytes: &mut [u8],
    given: &[u8],
    reply: &mut Reply,
) {
    let value = N::made(given, reply.quiet);
    let mut target = InPieces(bytes, piece(asked));
    for _ in 0..3 {
        let outcome =
            if asked.form % 2 == 0 { target.iowrite_with(value, order(asked)) } else { target.iowrite(value) };
        if outcome.is_err() {
            return reply.bytes.push(b'e');
        }
    }
}

pub fn iowrite(asked: &Asked, bytes: &mut [u8], given: &[u8], reply: &mut Reply) {
    if given.len() < 16 {
        return;
    }
    match asked.kind {
        0 => push::<u8>(asked, bytes, given, reply),
        1 => push::<u32>(asked, bytes, given, reply),
        2 => push::<i64>(asked, bytes, given, reply),
        3 => push::<u128>(asked, bytes, given, reply),
        4 => push::<f32>(asked, bytes, given, reply),
        _ => push::<f64>(asked, bytes, given, reply),
    }
}
