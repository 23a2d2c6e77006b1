//! Sessions of the library at random, in one process, beside a plain model of it.
//!
//!     sessions UNICODE check SEED FIRST COUNT    compares these sessions of a seed
//!     sessions UNICODE quick SEED FIRST COUNT    compares them up to the first that fails, and names it
//!     sessions UNICODE tell SEED FIRST COUNT     prints their calls and what the model answers
//!     sessions UNICODE planted SEED FIRST COUNT  shortens the first in which an undo follows a pattern
//!                                                with a bar, as if the library failed there
//!     sessions UNICODE bytes FILE..              compares the sessions that the bytes of files choose
//!
//! tests/sessions/sessions_by_calls.py writes the file UNICODE. `check` prints each session that fails as
//! its least calls, with what is wrong then; its last line has the number of sessions, of those
//! that failed, and of those that were compared in part, since the model would take too long.
mod arriving;
mod calls;
mod check;
mod escapes;
mod library;
mod memory;
mod model;
mod patterns;
mod pending;
mod processes;
mod programs;
mod random;
mod reader;
mod reading;
mod replacing;
mod sets;
mod shorten;
mod some_patterns;
mod texts;
mod trees;
mod walks;
mod writer;

use calls::{Call, Kind};
use check::{Wrong, check};
use model::Model;
use patterns::Patterns;
use processes::{Ended, Progress};
use sets::Unicode;
use std::rc::Rc;

/// After so many sessions that fail no more are tried.
const MOST_FAILURES: u64 = 5;

/// Texts of so many bytes are told only where a call reads them.
const MOST_TOLD: u64 = 2_000;

/// Sessions by their numbers, and how each is named.
struct Sessions<'a> {
    end: u64,
    of: &'a dyn Fn(u64) -> Vec<Call>,
    name: &'a dyn Fn(u64) -> String,
    patterns: &'a Rc<Patterns>,
}

/// What the sessions of a process came to.
#[derive(Default)]
struct Told {
    wrong: u64,
    too_long: u64,
}

/// Compares sessions up to the first that fails. Each is noted before it begins, so that its number
/// is known if the library ends the process.
fn check_some(sessions: &Sessions, first: u64, progress: &Progress) -> u8 {
    for number in first..sessions.end {
        progress.begin(number);
        match check(&(sessions.of)(number), sessions.patterns) {
            Ok(()) => {}
            Err(Wrong::TooLong) => progress.add_too_long(),
            Err(Wrong::At(..)) => return 1,
        }
    }
    0
}

/// What is wrong with a session, which is compared in a process of its own.
fn wrong_with(calls: &[Call], patterns: &Rc<Patterns>) -> Option<String> {
    let (ended, said) = processes::said_in_child(|| match check(calls, patterns) {
        Err(Wrong::At(at, said)) => Some(format!("call {at}: {said}")),
        _ => None,
    });
    match ended {
        Ended::Exit(0) => None,
        Ended::Exit(_) => Some(said),
        Ended::Signal(signal) => Some(format!("the library ends the process with signal {signal}")),
    }
}

fn print_failure(name: &str, calls: &[Call], said: &str) {
    println!("FAILED: {name}:");
    for call in calls {
        println!("    {call}");
    }
    println!("    {said}");
}

fn tell_failure(sessions: &Sessions, number: u64) {
    let (calls, patterns) = ((sessions.of)(number), sessions.patterns);
    let is_wrong = |calls: &[Call]| wrong_with(calls, patterns).is_some();
    let least = if is_wrong(&calls) { shorten::shortened(calls, &is_wrong) } else { calls };
    let said = wrong_with(&least, patterns);
    let said = said.unwrap_or("it fails after other sessions alone".to_string());
    print_failure(&(sessions.name)(number), &least, &said);
}

/// Whether an undo follows a pattern with a bar: the failure of `planted`.
fn is_planted(calls: &[Call]) -> bool {
    let has_bar = |call: &Call| call.kind == Kind::SetPattern && call.bytes.contains(&b'|');
    let bar = calls.iter().position(has_bar);
    bar.is_some_and(|bar| calls[bar..].iter().any(|call| call.kind == Kind::Undo))
}

fn tell_planted(seed: u64, first: u64, end: u64, patterns: &Rc<Patterns>) {
    let mut sessions = (first..end).map(|number| (number, writer::session(seed, number, patterns)));
    if let Some((number, calls)) = sessions.find(|(_, calls)| is_planted(calls)) {
        let least = shorten::shortened(calls, &is_planted);
        print_failure(&named(seed, number), &least, "planted");
    }
}

fn check_all(sessions: &Sessions, first: u64) -> Told {
    let (mut told, mut next, progress) = (Told::default(), first, Progress::new());
    while next < sessions.end && told.wrong < MOST_FAILURES {
        let ended = processes::in_child(|| check_some(sessions, next, &progress));
        if let Ended::Exit(0) = ended {
            break;
        }
        tell_failure(sessions, progress.begun());
        told.wrong += 1;
        next = progress.begun() + 1;
    }
    told.too_long = progress.too_long();
    told
}

/// Compares sessions up to the first that fails, and prints its name alone.
fn check_quickly(sessions: &Sessions, first: u64) -> Told {
    let progress = Progress::new();
    let ended = processes::in_child(|| check_some(sessions, first, &progress));
    let wrong = u64::from(ended != Ended::Exit(0));
    if wrong > 0 {
        println!("FAILED: {}", (sessions.name)(progress.begun()));
    }
    Told { wrong, too_long: progress.too_long() }
}

/// Prints how many of some sessions failed, and ends with a status that says so.
fn end(told: Told, count: u64) {
    println!("{count} sessions, {} failed, {} in part", told.wrong, told.too_long);
    std::process::exit(if told.wrong > 0 { 1 } else { 0 });
}

fn check_files(paths: &[String], patterns: &Rc<Patterns>) {
    let bytes = |number: u64| std::fs::read(&paths[number as usize]).expect("a file of bytes");
    let of = |number| writer::session_of_bytes(&bytes(number), patterns);
    let name = |number: u64| paths[number as usize].clone();
    let sessions = Sessions { end: paths.len() as u64, of: &of, name: &name, patterns };
    end(check_all(&sessions, 0), sessions.end);
}

fn named(seed: u64, number: u64) -> String {
    format!("session {number} of seed {seed}")
}

fn check_seed(
    seed: u64,
    first: u64,
    count: u64,
    patterns: &Rc<Patterns>,
    check: fn(&Sessions, u64) -> Told,
) {
    let of = |number| writer::session(seed, number, patterns);
    let name = |number| named(seed, number);
    let sessions = Sessions { end: first + count, of: &of, name: &name, patterns };
    end(check(&sessions, first), count);
}

/// Prints a call with what the model answers, if it does.
fn tell_call(model: &mut Model, call: &Call) -> Result<(), walks::TooLong> {
    let is_command = call.kind.is_command();
    let answer = if is_command { model.carry_out(call)? } else { model.read(call)? };
    println!("{}", calls::told(call, &answer));
    Ok(())
}

/// Prints the calls of a session, and after each command what is seen of a text that isn't long.
fn tell(seed: u64, number: u64, patterns: &Rc<Patterns>) -> Result<(), walks::TooLong> {
    println!("session {number}");
    let mut model = Model::new(patterns);
    for call in writer::session(seed, number, patterns) {
        tell_call(&mut model, &call)?;
        if !call.kind.is_command() {
            continue;
        }
        let len = model.buffer().map_or(0, |buffer| buffer.text().byte_len());
        if len < MOST_TOLD {
            for seen in check::what_is_seen(&mut model)? {
                tell_call(&mut model, &seen)?;
            }
        }
    }
    Ok(())
}

fn main() {
    let words: Vec<String> = std::env::args().skip(1).collect();
    let [file, what, more @ ..] = &words[..] else { panic!("see the head of main.rs") };
    let unicode = Unicode::read(&std::fs::read_to_string(file).expect("the file"));
    let patterns = Rc::new(Patterns::new(unicode));
    if what == "bytes" {
        return check_files(more, &patterns);
    }
    let numbers: Vec<u64> = more.iter().map(|one| one.parse().expect("a number")).collect();
    let [seed, first, count] = numbers[..] else { panic!("a seed, a first one and a count") };
    match what.as_str() {
        "tell" => {
            for number in first..first + count {
                // What follows in a session for which the model takes too long is left out.
                let _ = tell(seed, number, &patterns);
            }
        }
        "planted" => tell_planted(seed, first, first + count, &patterns),
        "quick" => check_seed(seed, first, count, &patterns, check_quickly),
        _ => check_seed(seed, first, count, &patterns, check_all),
    }
}
