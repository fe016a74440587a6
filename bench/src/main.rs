//! Times loops over the proved library and the same loops in Rust, row by row, and prints the best time of each form of
//! a row: `set,row,side,form,count,nanoseconds`, with the nanoseconds of one of the `count` steps.
//!
//! If the forms of a row disagree on what they return or write, it says so, and the exit status is 1.

// (what the proved loops export; a single set uses only a part of what follows)
mod exports;
mod host;
#[allow(dead_code)]
mod inputs;
#[allow(dead_code)]
mod timing;

#[cfg(feature = "calls")]
mod calls;
#[cfg(feature = "files")]
mod dwarf;
#[cfg(feature = "errors")]
mod errors;
#[cfg(feature = "files")]
mod files;
#[cfg(feature = "floats")]
mod floats;
#[cfg(any(feature = "files", feature = "leb128"))]
mod gimli_form;
#[cfg(feature = "leb128")]
mod leb128;
#[cfg(feature = "numbers")]
mod numbers;
#[cfg(feature = "own")]
mod own;
#[cfg(feature = "slices")]
mod slices;
#[cfg(feature = "streams")]
mod streams;
#[cfg(feature = "texts")]
mod texts;
#[cfg(feature = "writes")]
mod writes;

// The memory of the loops isn't counted.
fn count(_size: usize) {}

fn main() {
    host::keep_shift();
    let mut bench = timing::Bench::from_env();
    #[cfg(feature = "numbers")]
    numbers::all(&mut bench);
    #[cfg(feature = "floats")]
    floats::all(&mut bench);
    #[cfg(feature = "writes")]
    writes::all(&mut bench);
    #[cfg(feature = "texts")]
    texts::all(&mut bench);
    #[cfg(feature = "slices")]
    slices::all(&mut bench);
    #[cfg(feature = "leb128")]
    leb128::all(&mut bench);
    #[cfg(feature = "files")]
    files::all(&mut bench);
    #[cfg(feature = "streams")]
    streams::all(&mut bench);
    #[cfg(feature = "own")]
    own::all(&mut bench);
    #[cfg(feature = "errors")]
    errors::all(&mut bench);
    #[cfg(feature = "calls")]
    calls::all(&mut bench);
    if bench.differs() {
        std::process::exit(1);
    }
}
