// Links what `python3 embed/library.py crates/scroll_ffi OUT` made, which the variable SCROLL_FFI names.
use std::env;

fn main() {
    println!("cargo:rerun-if-env-changed=SCROLL_FFI");
    let folder = env::var("SCROLL_FFI").expect("SCROLL_FFI: the folder of libscroll_ffi.a");
    println!("cargo:rerun-if-changed={folder}/libscroll_ffi.a");
    println!("cargo:rustc-link-search=native={folder}");
    println!("cargo:rustc-link-lib=static=scroll_ffi");
    println!("cargo:rustc-env=SCROLL_FFI_RS={folder}/scroll_ffi.rs");
}
