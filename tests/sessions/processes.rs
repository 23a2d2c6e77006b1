//! Processes of their own, in which sessions run that may end them.
use std::ffi::c_void;
use std::fs::File;
use std::io::{Read, Write};
use std::os::fd::FromRawFd;
use std::sync::atomic::{AtomicU64, Ordering::SeqCst};

unsafe extern "C" {
    fn fork() -> i32;
    fn waitpid(pid: i32, status: *mut i32, options: i32) -> i32;
    fn _exit(status: i32) -> !;
    fn pipe(ends: *mut i32) -> i32;
    fn mmap(at: *mut c_void, len: usize, prot: i32, flags: i32, fd: i32, from: i64) -> *mut c_void;
}

const READ_AND_WRITE: i32 = 3;
const SHARED_AND_ANONYMOUS: i32 = 0x21;

/// How a process ended.
#[derive(Debug, PartialEq)]
pub enum Ended {
    Exit(u8),
    Signal(u8),
}

/// Carries out something in a process of its own, which ends with the status that it returns.
pub fn in_child(work: impl FnOnce() -> u8) -> Ended {
    let pid = unsafe { fork() };
    assert!(pid >= 0, "no process");
    if pid == 0 {
        let status = std::panic::catch_unwind(std::panic::AssertUnwindSafe(work)).unwrap_or(101);
        unsafe { _exit(status.into()) };
    }
    let mut status = 0;
    assert_eq!(unsafe { waitpid(pid, &mut status, 0) }, pid);
    match status as u8 & 0x7F {
        0 => Ended::Exit((status >> 8) as u8),
        signal => Ended::Signal(signal),
    }
}

/// Carries out something in a process of its own, and returns what it says, a few kilobytes at
/// most. If it says anything, the process ends with status 1.
pub fn said_in_child(work: impl FnOnce() -> Option<String>) -> (Ended, String) {
    let mut ends = [0; 2];
    assert_eq!(unsafe { pipe(ends.as_mut_ptr()) }, 0, "no pipe");
    let (mut from, mut to) = unsafe { (File::from_raw_fd(ends[0]), File::from_raw_fd(ends[1])) };
    let ended = in_child(|| match work() {
        Some(said) => 1 + u8::from(to.write_all(said.as_bytes()).is_err()),
        None => 0,
    });
    drop(to);
    let mut said = String::new();
    let _ = from.read_to_string(&mut said);
    (ended, said)
}

/// How far a process is, which the process that waits for it can read.
pub struct Progress {
    shared: &'static [AtomicU64; 2],
}

impl Progress {
    pub fn new() -> Progress {
        let null = std::ptr::null_mut();
        let page = unsafe { mmap(null, 4096, READ_AND_WRITE, SHARED_AND_ANONYMOUS, -1, 0) };
        assert_ne!(page as isize, -1, "no memory to share");
        Progress { shared: unsafe { &*page.cast() } }
    }

    pub fn begin(&self, number: u64) {
        self.shared[0].store(number, SeqCst);
    }

    pub fn begun(&self) -> u64 {
        self.shared[0].load(SeqCst)
    }

    pub fn add_too_long(&self) {
        self.shared[1].fetch_add(1, SeqCst);
    }

    pub fn too_long(&self) -> u64 {
        self.shared[1].load(SeqCst)
    }
}
