// A library to be preloaded: of the program's requests for memory, the one whose number REFUSE_AT names is refused.
use std::ffi::{c_char, c_int, c_void};
use std::sync::atomic::{AtomicUsize, Ordering};

type Allocate = unsafe extern "C" fn(usize) -> *mut c_void;
type Reallocate = unsafe extern "C" fn(*mut c_void, usize) -> *mut c_void;
type Align = unsafe extern "C" fn(*mut *mut c_void, usize, usize) -> c_int;

const NEXT: *mut c_void = usize::MAX as *mut c_void;
const NO_MEMORY: c_int = 12;

extern "C" {
    fn dlsym(handle: *mut c_void, name: *const c_char) -> *mut c_void;
    fn getenv(name: *const c_char) -> *const c_char;
    fn atol(text: *const c_char) -> i64;
}

static MADE: AtomicUsize = AtomicUsize::new(0);

unsafe fn is_refused() -> bool {
    let named = getenv(c"REFUSE_AT".as_ptr());
    let number = MADE.fetch_add(1, Ordering::SeqCst) + 1;
    !named.is_null() && atol(named) as usize == number
}

#[no_mangle]
pub unsafe extern "C" fn malloc(size: usize) -> *mut c_void {
    if is_refused() {
        return std::ptr::null_mut();
    }
    let next: Allocate = std::mem::transmute(dlsym(NEXT, c"malloc".as_ptr()));
    next(size)
}

#[no_mangle]
pub unsafe extern "C" fn realloc(old: *mut c_void, size: usize) -> *mut c_void {
    if is_refused() {
        return std::ptr::null_mut();
    }
    let next: Reallocate = std::mem::transmute(dlsym(NEXT, c"realloc".as_ptr()));
    next(old, size)
}

#[no_mangle]
pub unsafe extern "C" fn posix_memalign(place: *mut *mut c_void, align: usize, size: usize) -> c_int {
    if is_refused() {
        return NO_MEMORY;
    }
    let next: Align = std::mem::transmute(dlsym(NEXT, c"posix_memalign".as_ptr()));
    next(place, align, size)
}
