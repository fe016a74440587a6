//! Numbers read into a vector, and appended to one.

use crate::exports::*;
use crate::inputs::{SIZE, bytes};
use crate::timing::{Bench, ours, reading, rust};
use scroll::{LE, Pread};

#[inline(never)]
fn many(source: &[u8]) -> u64 {
    let mut offset = 0;
    let mut numbers: Vec<u32> = Vec::new();
    for _ in 0..source.len() / 4 {
        match source.gread_with(&mut offset, LE) {
            Ok(number) => numbers.push(number),
            Err(_) => return 0,
        }
    }
    numbers.iter().fold(0, |total, number| total.wrapping_add(u64::from(*number)))
}

#[inline(never)]
fn append(source: &[u8]) -> u64 {
    let mut made: Vec<u8> = Vec::new();
    for byte in source {
        made.extend_from_slice(&u32::from(*byte).to_le_bytes());
        made.extend_from_slice(&7u16.to_le_bytes());
    }
    std::hint::black_box(&made).len() as u64
}

macro_rules! source {
    ($name:ident) => {
        ours("for", |job| unsafe { $name(job.input.as_ptr(), job.input.len()) })
    };
}

pub fn all(bench: &mut Bench) {
    let source = bytes(SIZE);
    let len = SIZE as u64;
    let mut job = reading(&source);
    bench.row("calls", "read_many of u32", len / 4, &mut job, &[source!(rt_many), rust("for", |job| many(job.input))]);
    bench.row("calls", "append of u32 and u16", len, &mut job, &[source!(rt_append), rust("for", |job| append(job.input))]);
}
