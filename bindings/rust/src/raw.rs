//! `include/waqdimur.h`, in Rust. Nothing compares the two with the proved source but the tests.
use std::ffi::c_void;

/// `struct wq_caller`.
#[repr(C)]
pub struct Caller {
    full: bool,
    at: *mut c_void,
}

impl Caller {
    pub const fn empty() -> Self {
        Caller { full: false, at: std::ptr::null_mut() }
    }
}

#[link(name = "funnel_c", kind = "static")]
unsafe extern "C" {
    pub fn wq_open(
        callers: *mut Caller,
        count: usize,
        opening: u64,
        cap: u64,
        allowances: *const u64,
        allowance_count: usize,
    ) -> u32;
    pub fn wq_load(caller: *mut Caller, value: *mut u64) -> u32;
    pub fn wq_add(caller: *mut Caller, amount: u64, before: *mut u64) -> u32;
    pub fn wq_sub(caller: *mut Caller, amount: u64, before: *mut u64) -> u32;
    pub fn wq_begin(caller: *mut Caller, subtracts: bool, amount: u64) -> u32;
    pub fn wq_poll(caller: *mut Caller, before: *mut u64) -> u32;
    pub fn wq_left(caller: *mut Caller, left: *mut u64) -> u32;
    pub fn wq_close(caller: *mut Caller) -> u32;
}

pub const OK: u32 = 0;
pub const NOT_YET: u32 = 1;
pub const NO_ROW: u32 = 2;
pub const LOST: u32 = 3;
pub const SPENT: u32 = 7;
pub const NO_MEMORY: u32 = 8;
