//! Numbers at a cursor, where the caller ensures that there is room, and at the offsets that a table says.

use crate::exports::*;
use crate::inputs::{Random, SIZE, bytes};
use crate::timing::{Bench, Form, Job, Loop, ours, reading, rust};
use scroll::{BE, Cread, Endian, LE, Pread, Pwrite};

// A loop that adds up what it reads, in both forms.
macro_rules! sums {
    ($number:ty, $order:expr, $add:expr) => {{
        #[inline(never)]
        fn by_while(source: &[u8], little: bool) -> u64 {
            let order = ($order)(little);
            let mut offset = 0;
            let mut state = (0, 0);
            while let Ok(number) = source.gread_with::<$number>(&mut offset, order) {
                state = ($add)(state, number);
            }
            state.0
        }
        #[inline(never)]
        fn by_for(source: &[u8], little: bool) -> u64 {
            let order = ($order)(little);
            let mut offset = 0;
            let mut state = (0, 0);
            for _ in 0..source.len() {
                match source.gread_with::<$number>(&mut offset, order) {
                    Ok(number) => state = ($add)(state, number),
                    Err(_) => break,
                }
            }
            state.0
        }
        [rust("while", |job| by_while(job.input, job.little)), rust("for", |job| by_for(job.input, job.little))]
    }};
    ($number:ty, $order:expr) => {
        sums!($number, |_: bool| $order, |(total, _): (u64, u64), number| (u64::wrapping_add(total, number as u64), 0))
    };
}

macro_rules! rises {
    ($order:expr) => {
        sums!(u128, |_: bool| $order, |(rises, last): (u64, u128), number| (rises + u64::from(number > last), number))
    };
}

macro_rules! sources {
    ($name:ident) => {
        ours("for", |job| unsafe { $name(job.input.as_ptr(), job.input.len()) })
    };
}

#[inline(never)]
fn sum_headers(source: &[u8], little: bool) -> u64 {
    let order = Endian::from(little);
    let mut offset = 0;
    let mut total: u64 = 0;
    for _ in 0..source.len() {
        match header(source, &mut offset, order) {
            Ok(sum) => total = total.wrapping_add(sum),
            Err(_) => break,
        }
    }
    total
}

#[inline(never)]
fn sum_headers_while(source: &[u8], little: bool) -> u64 {
    let order = Endian::from(little);
    let mut offset = 0;
    let mut total: u64 = 0;
    while let Ok(sum) = header(source, &mut offset, order) {
        total = total.wrapping_add(sum);
    }
    total
}

#[inline(always)]
fn header(source: &[u8], offset: &mut usize, order: Endian) -> scroll::Result<u64> {
    let a = source.gread_with::<u32>(offset, order)?;
    let b = source.gread_with::<u16>(offset, order)?;
    let c = source.gread_with::<u8>(offset, order)?;
    let d = source.gread_with::<u64>(offset, order)?;
    let e = source.gread_with::<u8>(offset, order)?;
    Ok((u64::from(a) + u64::from(b) + u64::from(c)).wrapping_add(d).wrapping_add(u64::from(e)))
}

fn all_at_cursors(bench: &mut Bench) {
    let source = bytes(SIZE);
    let len = SIZE as u64;
    let mut row = |row: &str, count: u64, ours_form, [a, b]: [Form; 2], little: bool| {
        let mut job = reading(&source);
        job.little = little;
        bench.row("numbers", row, count, &mut job, &[ours_form, a, b]);
    };
    row("u16 LE", len / 2, sources!(rt_sum_u16_le), sums!(u16, LE), true);
    row("u16 BE", len / 2, sources!(rt_sum_u16_be), sums!(u16, BE), true);
    row("u32 LE", len / 4, sources!(rt_sum_u32_le), sums!(u32, LE), true);
    row("u32 BE", len / 4, sources!(rt_sum_u32_be), sums!(u32, BE), true);
    row("u64 LE", len / 8, sources!(rt_sum_u64_le), sums!(u64, LE), true);
    row("u64 BE", len / 8, sources!(rt_sum_u64_be), sums!(u64, BE), true);
    row("u128 BE", len / 16, sources!(rt_rises_u128_be), rises!(BE), true);
    for (little, name, header) in [(true, "u32 order at run time LE", "header of five LE"), (false, "u32 order at run time BE", "header of five BE")] {
        let by = ours("for", |job| unsafe { rt_sum_u32_by(job.input.as_ptr(), job.input.len(), job.little) });
        let add = sums!(u32, Endian::from, |(total, _): (u64, u64), number| (u64::wrapping_add(total, u64::from(number)), 0));
        row(name, len / 4, by, add, little);
        let headers = ours("for", |job| unsafe { rt_sum_headers(job.input.as_ptr(), job.input.len(), job.little) });
        row(
            header,
            len / 16,
            headers,
            [rust("for", |job| sum_headers(job.input, job.little)), rust("while", |job| sum_headers_while(job.input, job.little))],
            little,
        );
    }
}

macro_rules! sums_in_bounds {
    ($number:ty, $order:expr) => {{
        const WIDTH: usize = size_of::<$number>();
        #[inline(never)]
        fn by_while(source: &[u8]) -> u64 {
            let mut offset = 0;
            let mut total: u64 = 0;
            while offset + WIDTH <= source.len() {
                total = total.wrapping_add(u64::from(source.cread_with::<$number>(offset, $order)));
                offset += WIDTH;
            }
            total
        }
        #[inline(never)]
        fn by_for(source: &[u8]) -> u64 {
            let mut offset = 0;
            let mut total: u64 = 0;
            for _ in 0..source.len() {
                if offset > source.len() || source.len() - offset < WIDTH {
                    break;
                }
                total = total.wrapping_add(u64::from(source.cread_with::<$number>(offset, $order)));
                offset += WIDTH;
            }
            total
        }
        [rust("while", |job| by_while(job.input)), rust("for", |job| by_for(job.input))]
    }};
}

fn all_in_bounds(bench: &mut Bench) {
    let source = bytes(SIZE);
    let len = SIZE as u64;
    let mut row = |row: &str, count: u64, mine, [a, b]: [Form; 2]| {
        bench.row("cread", row, count, &mut reading(&source), &[mine, a, b]);
    };
    row("u32 LE", len / 4, sources!(rt_cread_u32_le), sums_in_bounds!(u32, LE));
    row("u64 BE", len / 8, sources!(rt_cread_u64_be), sums_in_bounds!(u64, BE));
}

// The sum of the numbers at the offsets of a table.
#[inline(never)]
fn sum_at(source: &[u8], table: &[u32]) -> u64 {
    let mut total: u64 = 0;
    for place in table {
        match source.pread_with::<u32>(*place as usize, LE) {
            Ok(number) => total = total.wrapping_add(u64::from(number)),
            Err(_) => total = total.wrapping_add(1),
        }
    }
    total
}

#[inline(never)]
fn sum_read(source: &[u8], table: &[u8]) -> u64 {
    let mut offset = 0;
    let mut total: u64 = 0;
    while let Ok(place) = table.gread_with::<u32>(&mut offset, LE) {
        match source.pread_with::<u32>(place as usize, LE) {
            Ok(number) => total = total.wrapping_add(u64::from(number)),
            Err(_) => total = total.wrapping_add(1),
        }
    }
    total
}

#[inline(never)]
fn write_all(target: &mut [u8], table: &[u32], order: Endian) -> u64 {
    let mut total: u64 = 0;
    for place in table {
        match target.pwrite_with(*place, *place as usize, order) {
            Ok(size) => total = total.wrapping_add(size as u64),
            Err(_) => total = total.wrapping_add(1),
        }
    }
    total
}

// The offsets stand in the numbers of a job, two in each.
fn table_of<'j>(job: &Job<'j>) -> &'j [u32] {
    unsafe { job.numbers.align_to::<u32>().1 }
}

fn bytes_of<'j>(job: &Job<'j>) -> &'j [u8] {
    unsafe { job.numbers.align_to::<u8>().1 }
}

fn all_at_offsets(bench: &mut Bench) {
    let source = bytes(SIZE);
    let mut random = Random::new();
    let places: Vec<u64> = (0..4096).map(|_| random.below(SIZE as u64 - 8) << 32 | random.below(SIZE as u64 - 8)).collect();
    let count = 2 * places.len() as u64;
    let mut output = vec![0; SIZE];
    let mut row = |name: &str, mine: Loop, theirs: Form| {
        let mut job = Job { numbers: &places, output: &mut output, ..reading(&source) };
        bench.row("offsets", name, count, &mut job, &[ours("for", mine), theirs]);
    };
    let mine: Loop = |job| {
        let table = table_of(job);
        unsafe { rt_at_u32_le(job.input.as_ptr(), job.input.len(), table.as_ptr(), table.len()) }
    };
    row("u32 LE", mine, rust("for", |job| sum_at(job.input, table_of(job))));
    let mine: Loop = |job| {
        let table = bytes_of(job);
        unsafe { rt_at_read_u32_le(job.input.as_ptr(), job.input.len(), table.as_ptr(), table.len()) }
    };
    row("u32 LE at offsets that are read", mine, rust("while", |job| sum_read(job.input, bytes_of(job))));
    let mine: Loop = |job| {
        let table = table_of(job);
        unsafe { rt_write_at_u32_by(job.output.as_mut_ptr(), job.output.len(), table.as_ptr(), table.len(), job.little) }
    };
    let theirs = |job: &mut Job| {
        let table = table_of(job);
        write_all(job.output, table, Endian::from(job.little))
    };
    row("u32 written LE", mine, rust("for", theirs));
}

pub fn all(bench: &mut Bench) {
    all_at_cursors(bench);
    all_in_bounds(bench);
    all_at_offsets(bench);
}
