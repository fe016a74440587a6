//! Functions of one's own that aren't inlined, and the same in Rust.

use crate::exports::*;
use crate::inputs::{SIZE, bytes};
use crate::timing::{Bench, Form, ours, reading, rust, writing};
use scroll::{Error, LE, Pread, Pwrite};

#[inline(never)]
fn read(source: &[u8], offset: &mut usize) -> Result<u32, Error> {
    source.gread_with(offset, LE)
}

#[inline(never)]
fn put(target: &mut [u8], offset: &mut usize, number: u32) -> Result<usize, Error> {
    target.gwrite_with(number, offset, LE)
}

#[inline(never)]
fn array(source: &[u8], offset: &mut usize) -> Result<[u16; 4], Error> {
    let mut array = [0; 4];
    source.gread_inout_with(offset, &mut array, LE)?;
    Ok(array)
}

// Adds up how many elements each array has, until a read is refused.
fn lengths(source: &[u8]) -> u64 {
    let mut offset = 0;
    let mut total: u64 = 0;
    while let Ok(read) = array(source, &mut offset) {
        total = total.wrapping_add(read.len() as u64);
    }
    total
}

fn sum(source: &[u8]) -> u64 {
    let mut offset = 0;
    let mut total: u64 = 0;
    while let Ok(number) = read(source, &mut offset) {
        total = total.wrapping_add(u64::from(number));
    }
    total
}

fn puts(target: &mut [u8]) -> u64 {
    let mut offset = 0;
    while put(target, &mut offset, 7).is_ok() {}
    offset as u64
}

macro_rules! source {
    ($name:ident) => {
        ours("for", |job| unsafe { $name(job.input.as_ptr(), job.input.len()) })
    };
}

pub fn all(bench: &mut Bench) {
    let source = bytes(SIZE);
    let len = SIZE as u64;
    let mut row = |name: &str, form: Form| {
        bench.row("own", name, len / 4, &mut reading(&source), &[form, rust("while", |job| sum(job.input))]);
    };
    row("u32 by Error as the call", source!(rt_own_alone));
    row("u32 in line", source!(rt_own_in_line));
    row("u32 by Error", source!(rt_own_error));
    row("u32 by SmallError", source!(rt_own_small));
    let forms = [source!(rt_own_array_at), rust("while", |job| lengths(job.input))];
    bench.row("own", "array of four u16 by At[Error]", len / 8, &mut reading(&source), &forms);
    let mut output = vec![0; SIZE];
    let forms = [
        ours("for", |job| unsafe { rt_own_put_error(job.output.as_mut_ptr(), job.output.len()) }),
        rust("while", |job| puts(job.output)),
    ];
    bench.row("own", "u32 written by Error", len / 4, &mut writing(&mut output), &forms);
}
