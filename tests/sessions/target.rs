//! A target of libFuzzer: the bytes choose a session of the library, which is compared with the
//! model. The library counts what runs, and is what libFuzzer is guided by; this code counts nothing.
//! The environment names the file of what Unicode says, UNICODE.
#![no_main]
mod arriving;
mod calls;
mod check;
mod escapes;
mod library;
mod memory;
mod model;
mod patterns;
mod pending;
mod programs;
mod random;
mod reader;
mod reading;
mod replacing;
mod sets;
mod some_patterns;
mod texts;
mod trees;
mod walks;
mod writer;

use check::{Wrong, check};
use patterns::Patterns;
use sets::Unicode;
use std::rc::Rc;

thread_local! {
    static PATTERNS: Rc<Patterns> = {
        let file = std::env::var("UNICODE").expect("the name of a file");
        let unicode = Unicode::read(&std::fs::read_to_string(file).expect("the file"));
        Rc::new(Patterns::new(unicode))
    };
}

#[unsafe(no_mangle)]
extern "C" fn LLVMFuzzerTestOneInput(data: *const u8, len: usize) -> i32 {
    let bytes: &[u8] =
        if len == 0 { &[] } else { unsafe { std::slice::from_raw_parts(data, len) } };
    PATTERNS.with(|patterns| {
        let calls = writer::session_of_bytes(bytes, patterns);
        if let Err(Wrong::At(at, said)) = check(&calls, patterns) {
            calls.iter().for_each(|call| eprintln!("    {call}"));
            eprintln!("call {at}: {said}");
            std::process::abort();
        }
    });
    0
}
