//! Numbers in LEB128 that are read, and that are written in their shortest encodings, by the lengths of these.

use crate::exports::*;
use crate::gimli_form::{put_sleb, put_sleb_tested, put_uleb, put_uleb_tested};
use crate::inputs::{Lengths, Random, SIZE, push_sleb, push_uleb};
use crate::timing::{Bench, Job, ours, reading, rust, writing};
use scroll::{Pread, Sleb128, Uleb128};

// Both calls of the crate, each in both forms of the loop.
macro_rules! sums {
    ($number:ty, $value:ty) => {{
        #[inline(never)]
        fn gread_while(source: &[u8]) -> u64 {
            let mut offset = 0;
            let mut total: u64 = 0;
            while let Ok(number) = source.gread::<$number>(&mut offset) {
                total = total.wrapping_add(<$value>::from(number) as u64);
            }
            total
        }
        #[inline(never)]
        fn gread_for(source: &[u8]) -> u64 {
            let mut offset = 0;
            let mut total: u64 = 0;
            for _ in 0..source.len() {
                match source.gread::<$number>(&mut offset) {
                    Ok(number) => total = total.wrapping_add(<$value>::from(number) as u64),
                    Err(_) => break,
                }
            }
            total
        }
        #[inline(never)]
        fn read_while(source: &[u8]) -> u64 {
            let mut offset = 0;
            let mut total: u64 = 0;
            while let Ok(number) = <$number>::read(source, &mut offset) {
                total = total.wrapping_add(number as u64);
            }
            total
        }
        #[inline(never)]
        fn read_for(source: &[u8]) -> u64 {
            let mut offset = 0;
            let mut total: u64 = 0;
            for _ in 0..source.len() {
                match <$number>::read(source, &mut offset) {
                    Ok(number) => total = total.wrapping_add(number as u64),
                    Err(_) => break,
                }
            }
            total
        }
        [
            rust("gread while", |job| gread_while(job.input)),
            rust("gread for", |job| gread_for(job.input)),
            rust("read while", |job| read_while(job.input)),
            rust("read for", |job| read_for(job.input)),
        ]
    }};
}

macro_rules! sources {
    ($form:literal, $name:ident) => {
        ours($form, |job| unsafe { $name(job.input.as_ptr(), job.input.len()) })
    };
}

fn texts(lengths: Lengths, signed: bool) -> (Vec<u8>, u64) {
    let mut random = Random::new();
    let mut out = Vec::new();
    let mut count = 0;
    while out.len() < SIZE {
        if signed {
            push_sleb(&mut out, lengths.signed(&mut random));
        } else {
            push_uleb(&mut out, lengths.unsigned(&mut random));
        }
        count += 1;
    }
    (out, count)
}

fn all_reads(bench: &mut Bench) {
    let mut row = |name: &str, lengths, signed| {
        let (source, count) = texts(lengths, signed);
        let (mine, [a, b, c, d]) = if signed {
            (sources!("gread for", rt_gread_slebs), sums!(Sleb128, i64))
        } else {
            (sources!("gread for", rt_gread_ulebs), sums!(Uleb128, u64))
        };
        bench.row("leb_reads", name, count, &mut reading(&source), &[mine, a, b, c, d]);
    };
    row("unsigned 1 byte", Lengths::All(1), false);
    row("unsigned 2 bytes", Lengths::All(2), false);
    row("unsigned 5 bytes", Lengths::All(5), false);
    row("unsigned 10 bytes", Lengths::All(10), false);
    row("unsigned real mix", Lengths::Real, false);
    row("signed 3 bytes", Lengths::All(3), true);
    row("signed real mix", Lengths::Real, true);
}

const COUNT: usize = 8192;

macro_rules! puts {
    ($form:literal, $put:ident, $value:ty) => {{
        #[inline(never)]
        fn put(numbers: &[u64], target: &mut [u8]) -> u64 {
            let mut offset = 0;
            for number in numbers {
                match $put(&mut target[offset..], *number as $value) {
                    Ok(len) => offset += len,
                    Err(_) => break,
                }
            }
            offset as u64
        }
        rust($form, |job| put(job.numbers, job.output))
    }};
}

macro_rules! targets {
    ($form:literal, $name:ident) => {
        ours($form, |job| unsafe { $name(job.numbers.as_ptr().cast(), job.numbers.len(), job.output.as_mut_ptr(), job.output.len()) })
    };
}

fn all_writes(bench: &mut Bench) {
    let mut target = vec![0; COUNT * 10 + 16];
    let mut row = |name: &str, lengths: Lengths, signed: bool, mine| {
        let mut random = Random::new();
        let pick = |_| if signed { lengths.signed(&mut random) as u64 } else { lengths.unsigned(&mut random) };
        let numbers: Vec<u64> = (0..COUNT).map(pick).collect();
        let mut job = Job { numbers: &numbers, ..writing(&mut target) };
        let [a, b] = if signed {
            [puts!("gimli's", put_sleb, i64), puts!("tested first", put_sleb_tested, i64)]
        } else {
            [puts!("gimli's", put_uleb, u64), puts!("tested first", put_uleb_tested, u64)]
        };
        bench.row("leb_writes", name, COUNT as u64, &mut job, &[mine, a, b]);
    };
    row("unsigned 5 bytes", Lengths::All(5), false, targets!("gwrite", rt_gwrite_ulebs));
    row("unsigned real mix", Lengths::Real, false, targets!("gwrite", rt_gwrite_ulebs));
    // (by the conversion's own call)
    row("unsigned try_into_ctx real mix", Lengths::Real, false, targets!("try_into_ctx", rt_convert_ulebs));
    row("signed 2 bytes", Lengths::All(2), true, targets!("gwrite", rt_gwrite_slebs));
}

pub fn all(bench: &mut Bench) {
    all_reads(bench);
    all_writes(bench);
}
