//! Records of five numbers by both errors, and reads that are refused.

use crate::exports::*;
use crate::inputs::{SIZE, bytes};
use crate::timing::{Bench, Form, ours, reading, rust};
use scroll::ctx::StrCtx;
use scroll::{Error, LE, Pread};

#[inline(never)]
fn five(source: &[u8], offset: &mut usize) -> Result<u64, Error> {
    let a: u32 = source.gread_with(offset, LE)?;
    let b: u16 = source.gread_with(offset, LE)?;
    let c: u8 = source.gread_with(offset, LE)?;
    let d: u64 = source.gread_with(offset, LE)?;
    let e: u8 = source.gread_with(offset, LE)?;
    Ok(d.wrapping_add(u64::from(a) + u64::from(b) + u64::from(c) + u64::from(e)))
}

fn sum_fives(source: &[u8]) -> u64 {
    let mut offset = 0;
    let mut total: u64 = 0;
    while let Ok(sum) = five(source, &mut offset) {
        total = total.wrapping_add(sum);
    }
    total
}

#[inline(never)]
fn low(source: &[u8], place: usize) -> Result<u32, Error> {
    source.pread_with(place, LE)
}

#[inline(never)]
fn middle(source: &[u8], place: usize) -> Result<u32, Error> {
    let number = low(source, place)?;
    Ok(number)
}

#[inline(never)]
fn high(source: &[u8], place: usize) -> Result<u32, Error> {
    let number = middle(source, place)?;
    Ok(number)
}

fn refused(source: &[u8]) -> u64 {
    let mut total: u64 = 0;
    for i in 0..source.len() {
        match high(source, source.len() + i % 4) {
            Ok(number) => total = total.wrapping_add(u64::from(number)),
            Err(Error::TooBig { size, len }) => total = total.wrapping_add((size + len) as u64),
            Err(Error::BadOffset(offset)) => total = total.wrapping_add(offset as u64),
            Err(_) => break,
        }
    }
    total
}

#[inline(never)]
fn text(source: &[u8], place: usize) -> Result<&str, Error> {
    source.pread_with(place, StrCtx::Delimiter(0))
}

fn refused_texts(source: &[u8]) -> u64 {
    let mut total: u64 = 0;
    for place in 0..source.len() {
        match text(source, place) {
            Ok(text) => total = total.wrapping_add(text.len() as u64),
            Err(Error::BadInput { size, .. }) => total = total.wrapping_add(size as u64),
            Err(_) => break,
        }
    }
    total
}

macro_rules! source {
    ($name:ident) => {
        ours("for", |job| unsafe { $name(job.input.as_ptr(), job.input.len()) })
    };
}

pub fn all(bench: &mut Bench) {
    let source = bytes(SIZE);
    let len = SIZE as u64;
    let mut row = |name: &str, form: Form| {
        bench.row("errors", name, len / 16, &mut reading(&source), &[form, rust("while", |job| sum_fives(job.input))]);
    };
    row("? into SmallError", source!(rt_form_small));
    row("? into Error", source!(rt_form_error));
    let forms = [source!(rt_refused), rust("for", |job| refused(job.input))];
    bench.row("errors", "refused and passed on by Error", len, &mut reading(&source), &forms);
    let texts = vec![0xff; SIZE / 16];
    let forms = [source!(rt_refused_text), rust("for", |job| refused_texts(job.input))];
    bench.row("errors", "refused texts", len / 16, &mut reading(&texts), &forms);
}
