//! The heap that the static library imports, implemented with the C library's.

use std::ffi::c_void;

unsafe extern "C" {
    fn malloc(size: usize) -> *mut c_void;
    fn realloc(block: *mut c_void, size: usize) -> *mut c_void;
    fn free(block: *mut c_void);
}

#[repr(C)]
pub struct Tried {
    ok: bool,
    block: *mut u8,
}

fn tried(block: *mut c_void) -> Tried {
    Tried {
        ok: !block.is_null(),
        block: block.cast(),
    }
}

#[unsafe(no_mangle)]
pub unsafe extern "C" fn rattle_alloc(size: usize, _align: usize) -> Tried {
    unsafe { tried(malloc(size.max(1))) }
}

#[unsafe(no_mangle)]
pub unsafe extern "C" fn rattle_realloc(
    block: *mut u8,
    _kept: usize,
    size: usize,
    _align: usize,
) -> Tried {
    unsafe { tried(realloc(block.cast(), size.max(1))) }
}

#[unsafe(no_mangle)]
pub unsafe extern "C" fn rattle_dealloc(block: *mut u8) {
    unsafe { free(block.cast()) }
}
