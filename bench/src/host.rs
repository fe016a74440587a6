//! What both programs give the loops: how far their code is shifted, and memory, which comes from where that of Rust does.

// All code comes after these bytes, so they shift it.
std::arch::global_asm!(
    ".pushsection .text.code_shift,\"ax\",@progbits",
    ".globl code_shift",
    "code_shift:",
    concat!(".skip ", env!("SHIFT"), ", 0x90"),
    ".popsection"
);

unsafe extern "C" {
    fn code_shift();
    fn malloc(size: usize) -> *mut u8;
    fn realloc(place: *mut u8, size: usize) -> *mut u8;
    fn free(place: *mut u8);
}

/// Keeps the bytes, since a linker leaves out what nothing names, and returns where the code begins with them.
pub fn keep_shift() -> usize {
    std::hint::black_box(code_shift as *const ()) as usize
}

// Whether there is memory, and where.
#[repr(C)]
struct Tried {
    is_there: bool,
    place: *mut u8,
}

#[unsafe(no_mangle)]
extern "C" fn rattle_alloc(size: usize, _align: usize) -> Tried {
    crate::count(size);
    tried(unsafe { malloc(size) })
}

#[unsafe(no_mangle)]
extern "C" fn rattle_realloc(place: *mut u8, _kept: usize, size: usize, _align: usize) -> Tried {
    crate::count(size);
    tried(unsafe { realloc(place, size) })
}

#[unsafe(no_mangle)]
extern "C" fn rattle_dealloc(place: *mut u8) {
    unsafe { free(place) }
}

fn tried(place: *mut u8) -> Tried {
    Tried { is_there: !place.is_null(), place }
}
