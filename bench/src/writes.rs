//! Numbers that are written at a cursor.

use crate::exports::*;
use crate::inputs::{SIZE, bytes};
use crate::timing::{Bench, Job, ours, rust, writing};
use scroll::{BE, Endian, LE, Pwrite};

// Numbers one after another, in both forms of the loop.
macro_rules! puts {
    ($number:ty, $order:expr) => {{
        #[inline(never)]
        fn by_while(target: &mut [u8]) -> u64 {
            let mut offset = 0;
            let mut number: $number = 1;
            while target.gwrite_with(number, &mut offset, $order).is_ok() {
                number = number.wrapping_add(77);
            }
            offset as u64
        }
        #[inline(never)]
        fn by_for(target: &mut [u8]) -> u64 {
            let mut offset = 0;
            let mut number: $number = 1;
            for _ in 0..target.len() {
                match target.gwrite_with(number, &mut offset, $order) {
                    Ok(_) => number = number.wrapping_add(77),
                    Err(_) => break,
                }
            }
            offset as u64
        }
        [rust("while", |job| by_while(job.output)), rust("for", |job| by_for(job.output))]
    }};
}

macro_rules! targets {
    ($name:ident) => {
        ours("for", |job| unsafe { $name(job.output.as_mut_ptr(), job.output.len()) })
    };
}

#[inline(never)]
fn put_headers(target: &mut [u8], little: bool) -> u64 {
    let order = Endian::from(little);
    let mut offset = 0;
    let mut number: u64 = 1;
    for _ in 0..target.len() {
        if put_header(target, number, &mut offset, order).is_err() {
            break;
        }
        number = number.wrapping_mul(5).wrapping_add(77);
    }
    offset as u64
}

#[inline(never)]
fn put_headers_while(target: &mut [u8], little: bool) -> u64 {
    let order = Endian::from(little);
    let mut offset = 0;
    let mut number: u64 = 1;
    while put_header(target, number, &mut offset, order).is_ok() {
        number = number.wrapping_mul(5).wrapping_add(77);
    }
    offset as u64
}

#[inline(always)]
fn put_header(target: &mut [u8], number: u64, offset: &mut usize, order: Endian) -> scroll::Result<()> {
    target.gwrite_with(number as u32, offset, order)?;
    target.gwrite_with(number as u16, offset, order)?;
    target.gwrite_with(number as u8, offset, order)?;
    target.gwrite_with(number, offset, order)?;
    target.gwrite_with(number as u8, offset, order)?;
    Ok(())
}

pub fn all(bench: &mut Bench) {
    let mut target = bytes(SIZE);
    let len = SIZE as u64;
    let mut row = |row: &str, count: u64, mine, [a, b]: [crate::timing::Form; 2]| {
        bench.row("writes", row, count, &mut writing(&mut target), &[mine, a, b]);
    };
    row("u16 BE", len / 2, targets!(rt_put_u16_be), puts!(u16, BE));
    row("u32 LE", len / 4, targets!(rt_put_u32_le), puts!(u32, LE));
    row("u128 LE", len / 16, targets!(rt_put_u128_le), puts!(u128, LE));
    row("u128 BE", len / 16, targets!(rt_put_u128_be), puts!(u128, BE));
    let headers = ours("for", |job| unsafe { rt_put_headers(job.output.as_mut_ptr(), job.output.len(), job.little) });
    let theirs = [
        rust("for", |job| put_headers(job.output, job.little)),
        rust("while", |job| put_headers_while(job.output, job.little)),
    ];
    let mut job = Job { little: false, ..writing(&mut target) };
    bench.row("writes", "header of five BE", len / 16, &mut job, &[headers, theirs[0], theirs[1]]);
}
