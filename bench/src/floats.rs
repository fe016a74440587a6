//! Floats that are read and written.

use crate::exports::*;
use crate::inputs::{Random, SIZE, bytes};
use crate::timing::{Bench, Form, ours, reading, rust, writing};
use scroll::{BE, LE, Pread, Pwrite};

macro_rules! rises {
    ($name:ident, $number:ty, $order:expr) => {{
        #[inline(never)]
        fn by_while(source: &[u8]) -> u64 {
            let mut offset = 0;
            let mut rises: u64 = 0;
            let mut last = 0.0;
            while let Ok(number) = source.gread_with::<$number>(&mut offset, $order) {
                rises += u64::from(number > last);
                last = number;
            }
            rises
        }
        #[inline(never)]
        fn by_for(source: &[u8]) -> u64 {
            let mut offset = 0;
            let mut rises: u64 = 0;
            let mut last = 0.0;
            for _ in 0..source.len() {
                match source.gread_with::<$number>(&mut offset, $order) {
                    Ok(number) => {
                        rises += u64::from(number > last);
                        last = number;
                    }
                    Err(_) => break,
                }
            }
            rises
        }
        [
            ours("for", |job| unsafe { $name(job.input.as_ptr(), job.input.len()) }),
            rust("while", |job| by_while(job.input)),
            rust("for", |job| by_for(job.input)),
        ]
    }};
}

macro_rules! puts {
    ($name:ident, $first:expr, $step:expr, $order:expr) => {{
        #[inline(never)]
        fn by_while(target: &mut [u8]) -> u64 {
            let mut offset = 0;
            let mut number = $first;
            while target.gwrite_with(number, &mut offset, $order).is_ok() {
                number += $step;
            }
            offset as u64
        }
        #[inline(never)]
        fn by_for(target: &mut [u8]) -> u64 {
            let mut offset = 0;
            let mut number = $first;
            for _ in 0..target.len() {
                if target.gwrite_with(number, &mut offset, $order).is_err() {
                    break;
                }
                number += $step;
            }
            offset as u64
        }
        [
            ours("for", |job| unsafe { $name(job.output.as_mut_ptr(), job.output.len()) }),
            rust("while", |job| by_while(job.output)),
            rust("for", |job| by_for(job.output)),
        ]
    }};
}

// Returns floats between 0 and 1.
fn floats(width: usize) -> Vec<u8> {
    let mut random = Random::new();
    let mut out = Vec::new();
    while out.len() < SIZE {
        let number = random.below(1 << 20) as f64 / (1 << 20) as f64;
        match width {
            4 => out.extend((number as f32).to_le_bytes()),
            _ => out.extend(number.to_le_bytes()),
        }
    }
    out
}

pub fn all(bench: &mut Bench) {
    let len = SIZE as u64;
    let mut row = |row: &str, width: usize, forms: &[Form]| {
        bench.row("floats", row, len / width as u64, &mut reading(&floats(width)), forms);
    };
    row("read f32 LE", 4, &rises!(rt_rises_f32_le, f32, LE));
    row("read f64 LE", 8, &rises!(rt_rises_f64_le, f64, LE));
    let mut target = bytes(SIZE);
    let job = &mut writing(&mut target);
    bench.row("floats", "write f32 BE", len / 4, job, &puts!(rt_put_f32_be, 1.0f32, 0.5, BE));
    bench.row("floats", "write f64 LE", len / 8, job, &puts!(rt_put_f64_le, 1.0f64, 0.5, LE));
}
