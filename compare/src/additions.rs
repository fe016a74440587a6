//! What the Rust crate lacks, as types that its calls read and write: texts by `required`, and encodings in LEB128. And bytes in
//! hexadecimal digits.

use scroll::ctx::{TryFromCtx, TryIntoCtx};
use scroll::{Error, Result};

/// A text that ends before a byte which must be there.
pub struct Required<'a>(pub &'a str);

#[derive(Clone, Copy)]
pub struct RequiredBy(pub u8);

impl<'a> TryFromCtx<'a, RequiredBy> for Required<'a> {
    type Error = Error;
    fn try_from_ctx(source: &'a [u8], ctx: RequiredBy) -> Result<(Self, usize)> {
        let refuse = |msg| Error::BadInput { size: source.len(), msg };
        let end = source.iter().position(|byte| *byte == ctx.0).ok_or_else(|| refuse("missing delimiter"))?;
        let text = std::str::from_utf8(&source[..end]).map_err(|_| refuse("invalid utf8"))?;
        Ok((Required(text), end + 1))
    }
}

/// Bytes that are written as a whole or not at all.
pub struct Encoded(pub Vec<u8>);

impl TryIntoCtx for Encoded {
    type Error = Error;
    fn try_into_ctx(self, target: &mut [u8], _: ()) -> Result<usize> {
        let (size, len) = (self.0.len(), target.len());
        target.get_mut(..size).ok_or(Error::TooBig { size, len })?.copy_from_slice(&self.0);
        Ok(size)
    }
}

pub fn hex(bytes: &[u8]) -> String {
    if bytes.is_empty() { "-".into() } else { bytes.iter().map(|byte| format!("{byte:02x}")).collect() }
}
