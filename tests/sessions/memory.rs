//! The library's requests for memory, which are refused on demand and whose results are counted.
//! The program is linked with `--wrap=malloc,--wrap=realloc,--wrap=free`.
use crate::calls::Refusal;
use std::ffi::c_void;
use std::sync::atomic::{AtomicBool, AtomicI64, AtomicU64, Ordering::Relaxed};

unsafe extern "C" {
    fn __real_malloc(bytes: usize) -> *mut c_void;
    fn __real_realloc(old: *mut c_void, bytes: usize) -> *mut c_void;
    fn __real_free(memory: *mut c_void);
}

/// Whether a call of the library is running: requests of this program itself are left alone.
static INSIDE: AtomicBool = AtomicBool::new(false);
static ASKED: AtomicU64 = AtomicU64::new(0);
static FIRST: AtomicU64 = AtomicU64::new(u64::MAX);
static LAST: AtomicU64 = AtomicU64::new(0);
static REFUSED: AtomicBool = AtomicBool::new(false);
static HELD: AtomicI64 = AtomicI64::new(0);

/// A call of the library is running, until this is dropped.
pub struct Inside;

/// Begins a call, some of whose requests are refused.
pub fn refuse(refusal: Option<Refusal>) -> Inside {
    let first = refusal.map_or(u64::MAX, |refusal| refusal.number);
    FIRST.store(first, Relaxed);
    LAST.store(if refusal.is_some_and(|refusal| refusal.all) { u64::MAX } else { first }, Relaxed);
    ASKED.store(0, Relaxed);
    REFUSED.store(false, Relaxed);
    INSIDE.store(true, Relaxed);
    Inside
}

impl Drop for Inside {
    fn drop(&mut self) {
        INSIDE.store(false, Relaxed);
    }
}

/// Whether a request of the last call was refused.
pub fn was_refused() -> bool {
    REFUSED.load(Relaxed)
}

/// How many allocations the library holds.
pub fn held() -> i64 {
    HELD.load(Relaxed)
}

/// Starts counting allocations anew.
pub fn hold_none() {
    HELD.store(0, Relaxed);
}

fn is_refused() -> bool {
    let number = ASKED.load(Relaxed) + 1;
    ASKED.store(number, Relaxed);
    let is_refused = number >= FIRST.load(Relaxed) && number <= LAST.load(Relaxed);
    if is_refused {
        REFUSED.store(true, Relaxed);
    }
    is_refused
}

fn count(change: i64) {
    HELD.store(HELD.load(Relaxed) + change, Relaxed);
}

#[unsafe(no_mangle)]
unsafe extern "C" fn __wrap_malloc(bytes: usize) -> *mut c_void {
    if !INSIDE.load(Relaxed) {
        return unsafe { __real_malloc(bytes) };
    }
    if is_refused() {
        return std::ptr::null_mut();
    }
    count(1);
    unsafe { __real_malloc(bytes) }
}

#[unsafe(no_mangle)]
unsafe extern "C" fn __wrap_realloc(old: *mut c_void, bytes: usize) -> *mut c_void {
    if INSIDE.load(Relaxed) {
        if is_refused() {
            return std::ptr::null_mut();
        }
        count(i64::from(old.is_null()));
    }
    unsafe { __real_realloc(old, bytes) }
}

#[unsafe(no_mangle)]
unsafe extern "C" fn __wrap_free(memory: *mut c_void) {
    if INSIDE.load(Relaxed) && !memory.is_null() {
        count(-1);
    }
    unsafe { __real_free(memory) }
}
