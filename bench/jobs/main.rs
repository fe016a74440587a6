//! Times whole jobs by the clients beside the same jobs by the crates that a user would take instead, and prints as
//! bench/src/main.rs does. It stops at the first job whose sums differ.

mod by_hand;
#[allow(dead_code)]
mod dwarf;
mod exports;
mod host;
#[allow(dead_code)]
mod inputs;
mod peers;
mod records;
#[allow(dead_code)]
mod timing;

use exports::*;
use inputs::Random;
use std::alloc::{GlobalAlloc, Layout, System};
use std::sync::atomic::{AtomicU64, Ordering};
use timing::{Bench, Form, Job, ours, reading, rust, writing};

// How often either side asked for memory, and for how many bytes in all.
static ASKED: AtomicU64 = AtomicU64::new(0);
static BYTES: AtomicU64 = AtomicU64::new(0);

fn count(size: usize) {
    ASKED.fetch_add(1, Ordering::Relaxed);
    BYTES.fetch_add(size as u64, Ordering::Relaxed);
}

struct Counted;

unsafe impl GlobalAlloc for Counted {
    unsafe fn alloc(&self, layout: Layout) -> *mut u8 {
        count(layout.size());
        unsafe { System.alloc(layout) }
    }

    unsafe fn realloc(&self, place: *mut u8, layout: Layout, size: usize) -> *mut u8 {
        count(size);
        unsafe { System.realloc(place, layout, size) }
    }

    unsafe fn dealloc(&self, place: *mut u8, layout: Layout) {
        unsafe { System.dealloc(place, layout) }
    }
}

#[global_allocator]
static COUNTED: Counted = Counted;

// An index of git of so many paths.
fn index(count: u32) -> Vec<u8> {
    let mut random = Random::new();
    let mut file = b"DIRC\0\0\0\x02".to_vec();
    file.extend(count.to_be_bytes());
    for i in 0..count {
        let path = format!("src/part{}/{:0len$}.c", i / 100, i, len = 6 + random.below(20) as usize);
        let start = file.len();
        file.extend((0..60).map(|_| random.next() as u8));
        file.extend((path.len() as u16).to_be_bytes());
        file.extend(path.as_bytes());
        file.push(0);
        while (file.len() - start) % 8 != 0 {
            file.push(0);
        }
    }
    file
}

// A log of so many records: a length, a name that a zero ends, and a body.
fn log(count: u64) -> Vec<u8> {
    let mut random = Random::new();
    let mut bytes = Vec::new();
    for i in 0..count {
        let name = format!("eth{}.{i}", random.below(4));
        let body = random.below(48) as usize;
        bytes.extend(((name.len() + 1 + body) as u16).to_le_bytes());
        bytes.extend(name.as_bytes());
        bytes.push(0);
        bytes.extend((0..body).map(|_| random.next() as u8));
    }
    bytes
}

fn file_of(variable: &str) -> Vec<u8> {
    let path = std::env::var(variable).unwrap_or_else(|_| panic!("{variable}: a file"));
    std::fs::read(&path).unwrap_or_else(|error| panic!("{path}: {error}"))
}

// The first table of a section of abbreviations: up to the code of zero.
fn first_table(section: &[u8]) -> &[u8] {
    let mut offset = 0;
    peers::each_number(section, &mut offset);
    &section[..offset]
}

fn run(bench: &mut Bench, row: &str, count: u64, job: &mut Job, forms: Vec<Form>) {
    if std::env::var("ONLY").is_ok_and(|only| !row.contains(&only)) {
        return;
    }
    let asked = |form: &Form, job: &mut Job| {
        let before = (ASKED.load(Ordering::Relaxed), BYTES.load(Ordering::Relaxed));
        (form.run)(job);
        (ASKED.load(Ordering::Relaxed) - before.0, BYTES.load(Ordering::Relaxed) - before.1)
    };
    for form in &forms {
        let (times, bytes) = asked(form, job);
        let code = (form.run as usize).wrapping_sub(host::keep_shift()) as isize;
        eprintln!("COSTS,{row},{},{times},{bytes},{code}", form.name);
    }
    bench.row("jobs", row, count, job, &forms);
    if bench.differs() {
        std::process::exit(1);
    }
}

macro_rules! by {
    ($name:ident) => {
        ours("scroll", |job| unsafe { $name(job.input.as_ptr(), job.input.len()) })
    };
}

// The size of the data by which a job shows how it grows.
const LARGE: usize = 64 << 20;

fn with(first: Form, mut others: Vec<Form>) -> Vec<Form> {
    others.insert(0, first);
    others
}

macro_rules! records {
    ($bench:expr, $name:ident, $title:literal, $read:ident, $write:ident) => {{
        use records::$name::*;
        let count = 4096;
        let mut random = Random::new();
        let table: Vec<u8> = (0..count * SIZE).map(|_| random.next() as u8).collect();
        let read = ours("scroll", |job| unsafe { $read(job.input.as_ptr(), job.input.len()) });
        let write = ours("scroll", |job| unsafe { $write(job.output.as_mut_ptr(), job.output.len()) });
        let (reads, writes) = peers::records!($name);
        let row = concat!("records of ", $title, " read");
        run($bench, row, count as u64, &mut reading(&table), with(read, reads));
        let read = ours("scroll", |job| unsafe { $read(job.input.as_ptr(), job.input.len()) });
        let table = table.repeat(LARGE / table.len());
        let row = concat!("records of ", $title, " read of 64 MiB");
        run($bench, row, (table.len() / SIZE) as u64, &mut reading(&table), with(read, peers::records!($name).0));
        let mut target = vec![0; count * SIZE];
        let row = concat!("records of ", $title, " written");
        run($bench, row, count as u64, &mut writing(&mut target), with(write, writes));
    }};
}

macro_rules! files {
    ($bench:expr, $title:literal, $file:literal, $kind:ident, $copy:ident) => {{
        let file = file_of($file);
        let mut room = vec![0; file.len()];
        let ours = ours("scroll", |job| unsafe {
            $copy(job.input.as_ptr(), job.input.len(), job.output.as_mut_ptr(), job.output.len())
        });
        let by_hand = rust("by hand", |job| by_hand::copy_all(job, by_hand::$kind::copy));
        let row = concat!($title, " read and written (per byte)");
        run($bench, row, file.len() as u64, &mut Job { output: &mut room, ..reading(&file) }, vec![ours, by_hand]);
    }};
}

fn main() {
    let bench = &mut Bench::from_env();
    let object = file_of("SECTIONS");
    let sections = u64::from(u16::from_le_bytes([object[0x3c], object[0x3d]]));
    run(bench, "sections of an object file", sections, &mut reading(&object), with(by!(rt_sections), peers::sections()));
    let symbols = dwarf::section(&object, ".symtab").expect("symbols").len() as u64 / 24;
    run(bench, "symbols of an object file", symbols, &mut reading(&object), with(by!(rt_symbols), peers::symbols()));

    let sample = file_of("SAMPLE");
    let section = dwarf::section(&sample, ".debug_abbrev").expect("abbreviations");
    let table = first_table(section);
    let tables = table.repeat(40);
    let job = &mut Job { numbers: &[table.len() as u64], ..reading(&tables) };
    let forms = with(by!(rt_abbreviations), peers::abbreviations());
    run(bench, "abbreviations read (per byte)", tables.len() as u64, job, forms);
    let many = table.repeat(LARGE / table.len());
    let job = &mut Job { numbers: &[table.len() as u64], ..reading(&many) };
    let forms = with(by!(rt_abbreviations), peers::abbreviations());
    run(bench, "abbreviations read (per byte) of 64 MiB", many.len() as u64, job, forms);
    let mut room = vec![0; table.len() * 40];
    let job = &mut Job { output: &mut room, ..reading(table) };
    let form = ours("scroll", |job| unsafe {
        rt_write_tables(job.input.as_ptr(), job.input.len(), job.output.as_mut_ptr(), job.output.len())
    });
    run(bench, "abbreviations written (per byte)", tables.len() as u64, job, with(form, peers::written_abbreviations()));

    let lines = dwarf::section(&sample, ".debug_line").expect("line number programs");
    for (copies, row) in [(4, "line number programs (per byte)"), (LARGE / lines.len(), "line number programs (per byte) of 64 MiB")] {
        let many = lines.repeat(copies);
        run(bench, row, many.len() as u64, &mut reading(&many), with(by!(rt_lines), peers::lines()));
    }

    for (count, row) in [(50_000, "entries of a git index"), (LARGE as u32 / 88, "entries of a git index of 64 MiB")] {
        run(bench, row, u64::from(count), &mut reading(&index(count)), with(by!(rt_index), peers::index()));
    }
    let archive = file_of("ARCHIVE");
    let entries = u64::from(u16::from_le_bytes([archive[archive.len() - 12], archive[archive.len() - 11]]));
    run(bench, "files of a ZIP archive", entries, &mut reading(&archive), with(by!(rt_archive), peers::archive()));
    for (count, row) in [(20_000, "records of a log"), (LARGE as u64 / 37, "records of a log of 64 MiB")] {
        run(bench, row, count, &mut reading(&log(count)), with(by!(rt_log), peers::log()));
    }
    files!(bench, "messages of TLS", "HELLOS", hellos, rt_hellos);
    files!(bench, "messages of DNS", "ANSWERS", answers, rt_answers);
    files!(bench, "a module of WebAssembly", "MODULE", modules, rt_modules);
    files!(bench, "headers of gzip", "MEMBERS", members, rt_members);
    files!(bench, "headers of tar", "ENTRIES", entries, rt_entries);
    records!(bench, five, "5", rt_read_five, rt_write_five);
    records!(bench, twelve, "12", rt_read_twelve, rt_write_twelve);
    records!(bench, forty, "40", rt_read_forty, rt_write_forty);
}
