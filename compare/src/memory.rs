//! The allocator of the library's calls, which is that of the C library.

use std::ffi::c_void;

unsafe extern "C" {
    fn malloc(size: usize) -> *mut c_void;
    fn realloc(old: *mut c_void, size: usize) -> *mut c_void;
    fn free(old: *mut c_void);
}

/// A block, where there is one.
#[repr(C)]
pub struct Block {
    is_there: usize,
    place: *mut c_void,
}

impl Block {
    fn at(place: *mut c_void) -> Block {
        Block { is_there: usize::from(!place.is_null()), place }
    }
}

#[unsafe(no_mangle)]
extern "C" fn rattle_alloc(size: usize, align: usize) -> Block {
    // SAFETY: any size may be asked for.
    Block::at(unsafe { malloc(if size == 0 { align } else { size }) })
}

#[unsafe(no_mangle)]
extern "C" fn rattle_realloc(old: *mut c_void, _old_size: usize, size: usize, align: usize) -> Block {
    // SAFETY: the block is one of `rattle_alloc`, which the library owns.
    Block::at(unsafe { realloc(old, if size == 0 { align } else { size }) })
}

#[unsafe(no_mangle)]
extern "C" fn rattle_dealloc(old: *mut c_void) {
    // SAFETY: as above.
    unsafe { free(old) }
}
