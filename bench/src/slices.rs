//! Byte slices and arrays that are read and written.

use crate::exports::*;
use crate::inputs::{SIZE, bytes};
use crate::timing::{Bench, Job, ours, reading, rust, writing};
use scroll::{LE, Pread, Pwrite};

// A loop over values of a type, in both forms.
macro_rules! sums {
    ($value:ty, $ctx:expr, $taste:expr) => {{
        #[inline(never)]
        fn by_while(source: &[u8]) -> u64 {
            let mut offset = 0;
            let mut total: u64 = 0;
            while let Ok(x) = source.gread_with::<$value>(&mut offset, $ctx) {
                total = total.wrapping_add(($taste)(x));
            }
            total
        }
        #[inline(never)]
        fn by_for(source: &[u8]) -> u64 {
            let mut offset = 0;
            let mut total: u64 = 0;
            for _ in 0..source.len() {
                match source.gread_with::<$value>(&mut offset, $ctx) {
                    Ok(x) => total = total.wrapping_add(($taste)(x)),
                    Err(_) => break,
                }
            }
            total
        }
        [rust("while", |job| by_while(job.input)), rust("for", |job| by_for(job.input))]
    }};
}

macro_rules! sources {
    ($name:ident) => {
        ours("for", |job| unsafe { $name(job.input.as_ptr(), job.input.len()) })
    };
}

#[inline(never)]
fn put_slices(target: &mut [u8], from: &[u8]) -> u64 {
    let mut offset = 0;
    while target.gwrite_with(&from[..12], &mut offset, ()).is_ok() {}
    offset as u64
}

#[inline(never)]
fn put_slices_for(target: &mut [u8], from: &[u8]) -> u64 {
    let mut offset = 0;
    for _ in 0..target.len() {
        if target.gwrite_with(&from[..12], &mut offset, ()).is_err() {
            break;
        }
    }
    offset as u64
}

pub fn all(bench: &mut Bench) {
    let source = bytes(SIZE);
    let len = SIZE as u64;
    let mut row = |row: &str, count: u64, mine, [a, b]: [crate::timing::Form; 2]| {
        bench.row("slices", row, count, &mut reading(&source), &[mine, a, b]);
    };
    row("slices of 12 bytes", len / 12, sources!(rt_slices), sums!(&[u8], 12usize, |x: &[u8]| u64::from(x[0]) ^ u64::from(x[11])));
    row(
        "[u16; 3] LE",
        len / 6,
        sources!(rt_arrays_u16x3),
        sums!([u16; 3], LE, |x: [u16; 3]| u64::from(x[0]) ^ u64::from(x[1]) ^ u64::from(x[2])),
    );

    let mut target = bytes(SIZE);
    let mut job = Job { input: &source, ..writing(&mut target) };
    let puts = [
        ours("for", |job| unsafe { rt_put_slices(job.output.as_mut_ptr(), job.output.len(), job.input.as_ptr(), job.input.len()) }),
        rust("while", |job| put_slices(job.output, job.input)),
        rust("for", |job| put_slices_for(job.output, job.input)),
    ];
    bench.row("slices", "write slices of 12 bytes", len / 12, &mut job, &puts);
}
