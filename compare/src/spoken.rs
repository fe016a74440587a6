//! Answers a session on standard input by the Rust crate: what crates/scroll_run/README.md says a line means, done by the
//! crate's own calls.

mod additions;

use additions::{Encoded, Required, RequiredBy, hex};
use scroll::ctx::StrCtx;
use scroll::{BE, Endian, LE, Pread, Pwrite, Result, Sleb128, Uleb128};
use std::ffi::{CStr, CString};
use std::fmt::Write as _;
use std::io::{Read, Write};
use std::process::ExitCode;

/// How many bytes an input may have.
const LIMIT: usize = 65_536;

/// A command, which acts on the buffer and the cursor, and gives its line.
type Act = Box<dyn Fn(&mut [u8], &mut usize) -> Result<String>>;

#[derive(Clone, Copy)]
enum Place {
    At(usize),
    Cursor,
}

/// The shortest encoding of a number; the last group of seven bits has the sign of a signed one.
fn shortest(number: i128, is_signed: bool) -> Encoded {
    let mut bytes = Vec::new();
    let mut rest = number;
    loop {
        let group = (rest & 0x7f) as u8;
        rest >>= 7;
        let ends = if is_signed { rest == if group & 0x40 == 0 { 0 } else { -1 } } else { rest == 0 };
        bytes.push(if ends { group } else { group | 0x80 });
        if ends {
            return Encoded(bytes);
        }
    }
}

fn one_byte(word: &[u8]) -> Option<u8> {
    let [high, low] = word else { return None };
    let digit = |byte: u8| char::from(byte).to_digit(16);
    Some((digit(*high)? << 4 | digit(*low)?) as u8)
}

fn bytes_of(word: &[u8]) -> Option<Vec<u8>> {
    match word {
        b"-" => Some(Vec::new()),
        b"" => None,
        _ => word.chunks(2).map(one_byte).collect(),
    }
}

/// One or more decimal digits; a number that no `u128` holds is none.
fn digits(word: &[u8]) -> Option<u128> {
    if word.is_empty() || !word.iter().all(u8::is_ascii_digit) {
        return None;
    }
    std::str::from_utf8(word).ok()?.parse().ok()
}

fn size(word: &[u8]) -> Option<usize> {
    digits(word)?.try_into().ok()
}

/// A number, with one `-` before it where it may be negative.
fn whole<N: TryFrom<u128> + TryFrom<i128>>(word: &[u8], is_signed: bool) -> Option<N> {
    match word.strip_prefix(b"-") {
        Some(rest) if is_signed => {
            let amount = digits(rest)?;
            let negative = if amount == 1 << 127 { i128::MIN } else { -i128::try_from(amount).ok()? };
            N::try_from(negative).ok()
        }
        _ => N::try_from(digits(word)?).ok(),
    }
}

fn order(word: &[u8]) -> Option<Endian> {
    match word {
        b"le" => Some(LE),
        b"be" => Some(BE),
        _ => None,
    }
}

macro_rules! reads {
    ($place:ident, $value:ty, $ctx:expr, $x:ident => $shown:expr) => {{
        let ctx = $ctx;
        Some(Box::new(move |bytes: &mut [u8], cursor: &mut usize| {
            let $x = match $place {
                Place::At(offset) => bytes.pread_with::<$value>(offset, ctx)?,
                Place::Cursor => bytes.gread_with::<$value>(cursor, ctx)?,
            };
            Ok($shown)
        }) as Act)
    }};
}

macro_rules! writes {
    ($place:ident, $ctx:expr, $value:expr) => {{
        let ctx = $ctx;
        Some(Box::new(move |bytes: &mut [u8], cursor: &mut usize| {
            let size = match $place {
                Place::At(offset) => bytes.pwrite_with($value, offset, ctx)?,
                Place::Cursor => bytes.gwrite_with($value, cursor, ctx)?,
            };
            Ok(format!("wrote {size}"))
        }) as Act)
    }};
}

/// Calls a macro with the type that a word names.
macro_rules! by_width {
    ($word:expr, $number:ident, $do:expr) => {
        match $word {
            b"u8" => {
                type $number = u8;
                $do
            }
            b"u16" => {
                type $number = u16;
                $do
            }
            b"u32" => {
                type $number = u32;
                $do
            }
            b"u64" => {
                type $number = u64;
                $do
            }
            b"u128" => {
                type $number = u128;
                $do
            }
            b"i8" => {
                type $number = i8;
                $do
            }
            b"i16" => {
                type $number = i16;
                $do
            }
            b"i32" => {
                type $number = i32;
                $do
            }
            b"i64" => {
                type $number = i64;
                $do
            }
            b"i128" => {
                type $number = i128;
                $do
            }
            _ => None,
        }
    };
}

fn text(place: Place, words: &[&[u8]], is_pair: bool) -> Option<Act> {
    let end = match words {
        [b"required", delimiter] => {
            let by = RequiredBy(one_byte(delimiter)?);
            return if is_pair {
                reads!(place, [Required; 2], by, x => format!("texts {} {}", hex(x[0].0.as_bytes()), hex(x[1].0.as_bytes())))
            } else {
                reads!(place, Required, by, x => format!("text {}", hex(x.0.as_bytes())))
            };
        }
        [b"delim", delimiter] => StrCtx::Delimiter(one_byte(delimiter)?),
        [b"until", delimiter, limit] => StrCtx::DelimiterUntil(one_byte(delimiter)?, size(limit)?),
        [b"len", len] => StrCtx::Length(size(len)?),
        _ => return None,
    };
    if is_pair {
        reads!(place, [&str; 2], end, x => format!("texts {} {}", hex(x[0].as_bytes()), hex(x[1].as_bytes())))
    } else {
        reads!(place, &str, end, x => format!("text {}", hex(x.as_bytes())))
    }
}

fn read(place: Place, words: &[&[u8]]) -> Option<Act> {
    match words {
        [b"str", end @ ..] => text(place, end, false),
        [b"strx2", end @ ..] => text(place, end, true),
        [b"bytes", len] => reads!(place, &[u8], size(len)?, x => format!("bytes {}", hex(x))),
        [b"cstr"] => reads!(place, &CStr, (), x => format!("cstr {}", hex(x.to_bytes()))),
        [b"cstring"] => reads!(place, CString, (), x => format!("cstr {}", hex(x.as_bytes()))),
        [b"uleb"] => reads!(place, Uleb128, (), x => format!("uleb {} {}", x.as_ref(), x.size())),
        [b"sleb"] => reads!(place, Sleb128, (), x => format!("sleb {} {}", x.as_ref(), x.size())),
        [b"u8x0", by] => reads!(place, [u8; 0], order(by)?, _x => "numbers".into()),
        [b"u16x3", by] => reads!(place, [u16; 3], order(by)?, x => format!("numbers {} {} {}", x[0], x[1], x[2])),
        [width, by] => by_width!(*width, Number, reads!(place, Number, order(by)?, x => format!("number {x}"))),
        _ => None,
    }
}

fn write(place: Place, words: &[&[u8]]) -> Option<Act> {
    match words {
        [b"str", word] => {
            let text = String::from_utf8(bytes_of(word)?).ok()?;
            writes!(place, (), text.as_str())
        }
        [b"bytes", word] => {
            let slice = bytes_of(word)?;
            writes!(place, (), slice.as_slice())
        }
        [b"cstr", word] => {
            let text = CString::new(bytes_of(word)?).ok()?;
            writes!(place, (), text.as_c_str())
        }
        [b"uleb", word] => {
            let number: u64 = whole(word, false)?;
            writes!(place, (), shortest(i128::from(number), false))
        }
        [b"sleb", word] => {
            let number: i64 = whole(word, true)?;
            writes!(place, (), shortest(i128::from(number), true))
        }
        [b"bytesx2", first, second] => {
            let (first, second) = (bytes_of(first)?, bytes_of(second)?);
            writes!(place, (), [first.as_slice(), second.as_slice()])
        }
        [b"u16x3", by, a, b, c] => {
            let numbers: [u16; 3] = [whole(a, false)?, whole(b, false)?, whole(c, false)?];
            writes!(place, order(by)?, numbers)
        }
        [width, by, word] => by_width!(*width, Number, {
            let number: Number = whole(word, width[0] == b'i')?;
            writes!(place, order(by)?, number)
        }),
        _ => None,
    }
}

fn command(line: &[u8]) -> Option<Act> {
    let words: Vec<&[u8]> = line.split(|byte| *byte == b' ').collect();
    match &words[..] {
        [b"pread", offset, kind @ ..] => read(Place::At(size(offset)?), kind),
        [b"gread", kind @ ..] => read(Place::Cursor, kind),
        [b"pwrite", offset, kind @ ..] => write(Place::At(size(offset)?), kind),
        [b"gwrite", kind @ ..] => write(Place::Cursor, kind),
        _ => None,
    }
}

fn parse(input: &[u8]) -> std::result::Result<(Vec<u8>, usize, Vec<Act>), usize> {
    let whole = input.strip_suffix(b"\n").unwrap_or(input);
    let mut lines = whole.split(|byte| *byte == b'\n');
    if input.is_empty() {
        return Err(1);
    }
    let buffer = lines.next().and_then(|line| bytes_of(line.strip_prefix(b"buffer ")?)).ok_or(1usize)?;
    let cursor = lines.next().and_then(|line| size(line.strip_prefix(b"cursor ")?)).ok_or(2usize)?;
    let commands =
        lines.enumerate().map(|(index, line)| command(line).ok_or(index + 3)).collect::<std::result::Result<_, _>>()?;
    Ok((buffer, cursor, commands))
}

/// What a session prints, and its exit status.
fn answer(input: &[u8]) -> (String, u8) {
    if input.len() > LIMIT {
        return ("input too long\n".into(), 2);
    }
    let (mut buffer, mut cursor, commands) = match parse(input) {
        Ok(session) => session,
        Err(line) => return (format!("bad line {line}\n"), 2),
    };
    let mut printed = String::new();
    for act in commands {
        match act(&mut buffer, &mut cursor) {
            Ok(line) => printed.push_str(&line),
            Err(error) => write!(printed, "error {error}").unwrap(),
        }
        printed.push('\n');
    }
    writeln!(printed, "buffer {}\ncursor {cursor}", hex(&buffer)).unwrap();
    (printed, 0)
}

fn main() -> ExitCode {
    let mut input = Vec::new();
    std::io::stdin().take(LIMIT as u64 + 1).read_to_end(&mut input).expect("the session is read");
    let (printed, status) = answer(&input);
    std::io::stdout().write_all(printed.as_bytes()).expect("the answers are written");
    ExitCode::from(status)
}
