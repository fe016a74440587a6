//! Numbers read from slices and buffers of both standard libraries, and written to slices.

use crate::exports::*;
use crate::inputs::{SIZE, bytes};
use crate::timing::{Bench, ours, reading, rust, writing};
use scroll::{BE, IOread, IOwrite, LE};
use std::io::{BufReader, Read};

// The sum of all numbers to the end of a reader.
macro_rules! sum {
    ($number:ty, $order:expr, $reader:expr) => {
        rust("for", |job| {
            #[inline(never)]
            fn sum(mut reader: impl Read, most: usize) -> u64 {
                let mut total: u64 = 0;
                for _ in 0..most {
                    match reader.ioread_with::<$number>($order) {
                        Ok(number) => total = total.wrapping_add(u64::from(number)),
                        Err(_) => break,
                    }
                }
                total
            }
            sum(($reader)(job.input), job.input.len())
        })
    };
}

// Writes the counts from zero, until the writer takes no more, and returns how many it took.
#[inline(never)]
fn count(mut writer: &mut [u8]) -> u64 {
    let mut count: u32 = 0;
    for _ in 0..writer.len() {
        match writer.iowrite_with(count, LE) {
            Ok(()) => count = count.wrapping_add(1),
            Err(_) => break,
        }
    }
    u64::from(count)
}

macro_rules! source {
    ($name:ident) => {
        ours("for", |job| unsafe { $name(job.input.as_ptr(), job.input.len()) })
    };
}

pub fn all(bench: &mut Bench) {
    let source = bytes(SIZE);
    let len = SIZE as u64;
    let mut job = reading(&source);
    bench.row("streams", "u16 BE from a slice", len / 2, &mut job, &[source!(rt_stream_u16_be), sum!(u16, BE, same)]);
    bench.row("streams", "u32 LE from a slice", len / 4, &mut job, &[source!(rt_stream_u32_le), sum!(u32, LE, same)]);
    bench.row("streams", "u32 LE from a buffer", len / 4, &mut job, &[source!(rt_buffered_u32_le), sum!(u32, LE, BufReader::new)]);
    let mut output = vec![0; SIZE];
    let forms = [
        ours("for", |job| unsafe { rt_into_slice_u32_le(job.output.as_mut_ptr(), job.output.len()) }),
        rust("for", |job| count(job.output)),
    ];
    bench.row("streams", "u32 LE into a slice", len / 4, &mut writing(&mut output), &forms);
}

fn same(bytes: &[u8]) -> &[u8] {
    bytes
}
