//! A file as a C compiler wrote it: its sections, its abbreviations, and their numbers in LEB128, read and written back.

use crate::exports::*;
use crate::dwarf;
use crate::gimli_form::{put_uleb, put_uleb_tested};
use crate::inputs::SIZE;
use crate::timing::{Bench, Job, ours, reading, rust};
use scroll::ctx::StrCtx;
use scroll::{Endian, LE, Pread, Sleb128, Uleb128};

macro_rules! sources {
    ($name:ident) => {
        ours("for", |job| unsafe { $name(job.input.as_ptr(), job.input.len()) })
    };
}

// Reads with both calls of the crate.
macro_rules! sums {
    () => {{
        #[inline(never)]
        fn by_gread(source: &[u8]) -> u64 {
            let mut offset = 0;
            let mut total: u64 = 0;
            while let Ok(number) = source.gread::<Uleb128>(&mut offset) {
                total = total.wrapping_add(u64::from(number));
            }
            total
        }
        #[inline(never)]
        fn by_read(source: &[u8]) -> u64 {
            let mut offset = 0;
            let mut total: u64 = 0;
            while let Ok(number) = Uleb128::read(source, &mut offset) {
                total = total.wrapping_add(number);
            }
            total
        }
        [rust("gread", |job| by_gread(job.input)), rust("read", |job| by_read(job.input))]
    }};
}

// A read of the crate, and a write by a loop, since the crate has none. The encodings are the shortest, as compilers
// write them.
macro_rules! copying {
    ($form:literal, $put:ident) => {{
        #[inline(never)]
        fn copy(source: &[u8], target: &mut [u8]) -> u64 {
            let mut from = 0;
            let mut to = 0;
            while let Ok(number) = source.gread::<Uleb128>(&mut from) {
                match $put(&mut target[to..], u64::from(number)) {
                    Ok(len) => to += len,
                    Err(_) => break,
                }
            }
            to as u64
        }
        rust($form, |job| copy(job.input, job.output))
    }};
}

#[inline(never)]
fn abbreviations(source: &[u8]) -> u64 {
    let mut offset = 0;
    let mut total: u64 = 0;
    while offset < source.len() {
        match abbreviation(source, &mut offset) {
            Ok(sum) => total = total.wrapping_add(sum),
            Err(_) => break,
        }
    }
    total
}

#[inline(always)]
fn abbreviation(source: &[u8], offset: &mut usize) -> scroll::Result<u64> {
    let code = u64::from(source.gread::<Uleb128>(offset)?);
    if code == 0 {
        return Ok(1);
    }
    let tag = u64::from(source.gread::<Uleb128>(offset)?);
    let children = u64::from(source.gread_with::<u8>(offset, LE)?);
    let mut total = code.wrapping_add(tag).wrapping_add(children);
    loop {
        let attribute = u64::from(source.gread::<Uleb128>(offset)?);
        let form = u64::from(source.gread::<Uleb128>(offset)?);
        if form == 0x21 {
            total = total.wrapping_add(i64::from(source.gread::<Sleb128>(offset)?) as u64);
        }
        if attribute == 0 && form == 0 {
            return Ok(total);
        }
        total = total.wrapping_add(attribute ^ form << 8);
    }
}

#[inline(never)]
fn sections(file: &[u8]) -> u64 {
    fn sum(file: &[u8]) -> scroll::Result<u64> {
        let order = Endian::from(file.pread::<u8>(5)? == 1);
        let table = file.pread_with::<u64>(0x28, order)? as usize;
        let count = file.pread_with::<u16>(0x3c, order)?;
        let names = usize::from(file.pread_with::<u16>(0x3e, order)?);
        let names = file.pread_with::<u64>(table.wrapping_add(names * 64 + 24), order)? as usize;
        let mut offset = table;
        let mut total: u64 = 0;
        for _ in 0..count {
            total = total.wrapping_add(section(file, &mut offset, names, order)?);
        }
        Ok(total)
    }
    sum(file).unwrap_or(0)
}

#[inline(always)]
fn section(file: &[u8], offset: &mut usize, names: usize, order: Endian) -> scroll::Result<u64> {
    let name = file.gread_with::<u32>(offset, order)?;
    let kind = file.gread_with::<u32>(offset, order)?;
    let flags = file.gread_with::<u64>(offset, order)?;
    let address = file.gread_with::<u64>(offset, order)?;
    let place = file.gread_with::<u64>(offset, order)?;
    let size = file.gread_with::<u64>(offset, order)?;
    let link = file.gread_with::<u32>(offset, order)?;
    let info = file.gread_with::<u32>(offset, order)?;
    let align = file.gread_with::<u64>(offset, order)?;
    let entry = file.gread_with::<u64>(offset, order)?;
    let text = file.pread_with::<&str>(names.wrapping_add(name as usize), StrCtx::Delimiter(0))?;
    let small = u64::from(kind) ^ u64::from(link) << 8 ^ u64::from(info) << 16;
    let sum = flags.wrapping_add(address).wrapping_add(place).wrapping_add(size);
    Ok(sum.wrapping_add(align).wrapping_add(entry).wrapping_add(small).wrapping_add(text.len() as u64))
}

// Repeats the same encodings up to the size of the other inputs.
fn repeated(texts: &[u8]) -> Vec<u8> {
    texts.iter().copied().cycle().take(texts.len() * SIZE.div_ceil(texts.len().max(1))).collect()
}

pub fn all(bench: &mut Bench) {
    let path = std::env::var("SAMPLE").expect("SAMPLE: an object file with DWARF");
    let file = std::fs::read(&path).expect("SAMPLE can be read");
    let numbers = dwarf::abbreviations(&file);
    let texts = repeated(&numbers);
    let steps = texts.iter().filter(|byte| **byte < 0x80).count() as u64;
    let [a, b] = sums!();
    bench.row("files", ".debug_abbrev read", steps, &mut reading(&texts), &[sources!(rt_file_ulebs), a, b]);
    let mut room = vec![0; texts.len() + 16];
    let mut job = Job { output: &mut room, ..reading(&texts) };
    let mine = ours("gread and gwrite", |job| unsafe {
        rt_copy_ulebs(job.input.as_ptr(), job.input.len(), job.output.as_mut_ptr(), job.output.len())
    });
    let forms = [mine, copying!("gimli's", put_uleb), copying!("tested first", put_uleb_tested)];
    bench.row("files", ".debug_abbrev copied", steps, &mut job, &forms);

    let table = dwarf::section(&file, ".debug_abbrev").unwrap_or(&[]);
    let tables = repeated(table);
    let forms = [sources!(rt_abbreviations), rust("while", |job| abbreviations(job.input))];
    bench.row("files", "abbreviations (per byte)", tables.len() as u64, &mut reading(&tables), &forms);
    let sections_there = u64::from(u16::from_le_bytes([file[0x3c], file[0x3d]]));
    let forms = [sources!(rt_sections), rust("for", |job| sections(job.input))];
    bench.row("files", "an ELF file (per section)", sections_there, &mut reading(&file), &forms);
}
