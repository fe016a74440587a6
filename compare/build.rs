// Links the calls of the proved library.
use std::env;

fn main() {
    println!("cargo:rerun-if-env-changed=CALLS");
    let folder = env::var("CALLS").expect("CALLS: the folder of libcompare_calls.a");
    println!("cargo:rerun-if-changed={folder}/libcompare_calls.a");
    println!("cargo:rustc-link-search={folder}");
    println!("cargo:rustc-link-lib=static=compare_calls");
}
