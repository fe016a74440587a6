//! Strings, by where they end, of several lengths and alphabets; C strings, by the crate's read of a `CStr` and by std's own
//! function; and C strings read into memory of their own.

use crate::exports::*;
use crate::inputs::{Letters, Random, SIZE, push_text};
use crate::timing::{Bench, Form, ours, reading, rust};
use scroll::Pread;
use scroll::ctx::StrCtx;
use std::ffi::{CStr, CString};

fn taste(text: &str) -> u64 {
    text.len() as u64 ^ u64::from(text.as_bytes().first().copied().unwrap_or(7))
}

macro_rules! sums {
    ($delimiter:expr) => {{
        #[inline(never)]
        fn by_while(source: &[u8], delimiter: u8) -> u64 {
            let end = StrCtx::Delimiter(($delimiter)(delimiter));
            let mut offset = 0;
            let mut total: u64 = 0;
            while offset < source.len() {
                let Ok(text) = source.gread_with::<&str>(&mut offset, end) else { break };
                total = total.wrapping_add(taste(text));
            }
            total
        }
        #[inline(never)]
        fn by_for(source: &[u8], delimiter: u8) -> u64 {
            let end = StrCtx::Delimiter(($delimiter)(delimiter));
            let mut offset = 0;
            let mut total: u64 = 0;
            for _ in 0..source.len() {
                if offset >= source.len() {
                    break;
                }
                match source.gread_with::<&str>(&mut offset, end) {
                    Ok(text) => total = total.wrapping_add(taste(text)),
                    Err(_) => break,
                }
            }
            total
        }
        [rust("while", |job| by_while(job.input, job.delimiter)), rust("for", |job| by_for(job.input, job.delimiter))]
    }};
}

#[inline(never)]
fn of_length_while(source: &[u8]) -> u64 {
    let mut offset = 0;
    let mut total: u64 = 0;
    while let Ok(len) = source.gread::<u8>(&mut offset) {
        let Ok(text) = source.gread_with::<&str>(&mut offset, StrCtx::Length(usize::from(len))) else { break };
        total = total.wrapping_add(taste(text));
    }
    total
}

#[inline(never)]
fn of_length_for(source: &[u8]) -> u64 {
    let mut offset = 0;
    let mut total: u64 = 0;
    for _ in 0..source.len() {
        let Ok(len) = source.gread::<u8>(&mut offset) else { break };
        match source.gread_with::<&str>(&mut offset, StrCtx::Length(usize::from(len))) {
            Ok(text) => total = total.wrapping_add(taste(text)),
            Err(_) => break,
        }
    }
    total
}

// Returns strings of `low` bytes and up to `spread - 1` more, each with a zero after it or with its length before it.
fn texts(low: u64, spread: u64, letters: Letters, length_first: bool) -> (Vec<u8>, u64) {
    let mut random = Random::new();
    let mut out = Vec::new();
    let mut count = 0;
    while out.len() < SIZE {
        let len = (low + random.below(spread)) as usize;
        if length_first {
            out.push(len as u8);
        }
        push_text(&mut out, len, letters, &mut random);
        if !length_first {
            out.push(0);
        }
        count += 1;
    }
    (out, count)
}

fn nul() -> Form {
    ours("for", |job| unsafe { rt_texts(job.input.as_ptr(), job.input.len()) })
}

fn required() -> Form {
    ours("for", |job| unsafe { rt_texts_required(job.input.as_ptr(), job.input.len()) })
}

fn of_length() -> Form {
    ours("for", |job| unsafe { rt_texts_of_length(job.input.as_ptr(), job.input.len()) })
}

fn all_texts(bench: &mut Bench) {
    let mut row = |row: &str, low, spread, letters, form: fn() -> Form| {
        let (source, count) = texts(low, spread, letters, false);
        let [a, b] = sums!(|_| 0);
        let [c, d] = sums!(|delimiter| delimiter);
        // With the delimiter known at compile time and at run time: the crate searches byte by byte either way.
        bench.row("texts", row, count, &mut reading(&source), &[form(), a, b, c, d]);
    };
    row("0 to 23 bytes", 0, 24, Letters::Ascii, nul);
    row("64 to 191 bytes", 64, 128, Letters::Ascii, nul);
    row("required delimiter 0 to 23", 0, 24, Letters::Ascii, required);
    row("1 in 30 not ASCII 64 to 191", 64, 128, Letters::Few, nul);
    row("1 in 3 not ASCII 0 to 23", 0, 24, Letters::Third, nul);
    row("Chinese 0 to 23", 0, 24, Letters::Chinese, nul);
    let (source, count) = texts(64, 128, Letters::Ascii, true);
    let forms = [of_length(), rust("while", |job| of_length_while(job.input)), rust("for", |job| of_length_for(job.input))];
    bench.row("texts", "length first 64 to 191", count, &mut reading(&source), &forms);
}

fn taste_c(text: &CStr) -> u64 {
    let bytes = text.to_bytes();
    bytes.len() as u64 ^ u64::from(bytes.first().copied().unwrap_or(7))
}

#[inline(never)]
fn by_gread(source: &[u8]) -> u64 {
    let mut offset = 0;
    let mut total: u64 = 0;
    while offset < source.len() {
        let Ok(text) = source.gread::<&CStr>(&mut offset) else { break };
        total = total.wrapping_add(taste_c(text));
    }
    total
}

#[inline(never)]
fn by_gread_for(source: &[u8]) -> u64 {
    let mut offset = 0;
    let mut total: u64 = 0;
    for _ in 0..source.len() {
        if offset >= source.len() {
            break;
        }
        match source.gread::<&CStr>(&mut offset) {
            Ok(text) => total = total.wrapping_add(taste_c(text)),
            Err(_) => break,
        }
    }
    total
}

#[inline(never)]
fn by_std(source: &[u8]) -> u64 {
    let mut rest = source;
    let mut total: u64 = 0;
    while !rest.is_empty() {
        let Ok(text) = CStr::from_bytes_until_nul(rest) else { break };
        total = total.wrapping_add(taste_c(text));
        rest = &rest[text.count_bytes() + 1..];
    }
    total
}

fn all_c_strings(bench: &mut Bench) {
    for (name, spread) in [("0 to 7 bytes", 8), ("0 to 23 bytes", 24)] {
        let (source, count) = texts(0, spread, Letters::Ascii, false);
        let forms = [
            ours("for", |job| unsafe { rt_c_strings(job.input.as_ptr(), job.input.len()) }),
            rust("while", |job| by_gread(job.input)),
            rust("for", |job| by_gread_for(job.input)),
            rust("std", |job| by_std(job.input)),
        ];
        bench.row("c_strings", name, count, &mut reading(&source), &forms);
    }
}

#[inline(never)]
fn owned(source: &[u8]) -> u64 {
    let mut offset = 0;
    let mut total: u64 = 0;
    while let Ok(text) = source.gread::<&CStr>(&mut offset) {
        // (kept from being left out)
        let text: CString = std::hint::black_box(text.to_owned());
        total = total.wrapping_add(text.as_bytes().len() as u64);
    }
    total
}

fn all_owned(bench: &mut Bench) {
    for (name, low, spread) in [("7 bytes of std", 7, 1), ("0 to 63 bytes of std", 0, 64)] {
        let (source, count) = texts(low, spread, Letters::Ascii, false);
        let forms = [
            ours("for", |job| unsafe { rt_owned(job.input.as_ptr(), job.input.len()) }),
            rust("while", |job| owned(job.input)),
        ];
        bench.row("owned", name, count, &mut reading(&source), &forms);
    }
}

pub fn all(bench: &mut Bench) {
    all_texts(bench);
    all_c_strings(bench);
    all_owned(bench);
}
