// Links the loops over the proved library, and passes on the number of bytes by which the code is shifted.
use std::env;

fn main() {
    println!("cargo:rerun-if-env-changed=LOOPS");
    println!("cargo:rerun-if-env-changed=SHIFT");
    let folder = env::var("LOOPS").expect("LOOPS: the folder of libloops.a");
    let shift = env::var("SHIFT").expect("SHIFT: by how many bytes the code is shifted");
    println!("cargo:rerun-if-changed={folder}/libloops.a");
    println!("cargo:rustc-link-search={folder}");
    println!("cargo:rustc-link-lib=static=loops");
    println!("cargo:rustc-env=SHIFT={shift}");
}
