//! The heap that the archive asks for, over the C library's. Its contract is assumed by the proofs.
use std::ffi::c_void;

#[repr(C)]
pub struct Tried {
    ok: bool,
    at: *mut c_void,
}

unsafe extern "C" {
    fn malloc(bytes: usize) -> *mut c_void;
    fn realloc(at: *mut c_void, bytes: usize) -> *mut c_void;
    fn free(at: *mut c_void);
}

fn tried(at: *mut c_void) -> Tried {
    let ok = !at.is_null();
    Tried { ok, at: if ok { at } else { std::ptr::dangling_mut::<u8>().cast() } }
}

fn some(bytes: usize, align: usize) -> usize {
    if bytes == 0 { align } else { bytes }
}

#[unsafe(no_mangle)]
extern "C" fn rattle_alloc(bytes: usize, align: usize) -> Tried {
    // SAFETY: `malloc` takes any size.
    tried(unsafe { malloc(some(bytes, align)) })
}

#[unsafe(no_mangle)]
unsafe extern "C" fn rattle_realloc(at: *mut c_void, _kept: usize, bytes: usize, align: usize) -> Tried {
    // SAFETY: the archive hands in a block that these functions gave.
    tried(unsafe { realloc(at, some(bytes, align)) })
}

#[unsafe(no_mangle)]
unsafe extern "C" fn rattle_dealloc(at: *mut c_void) {
    // SAFETY: as above.
    unsafe { free(at) }
}
