//! A letter typed in each of many random lines of a text under a pattern, undone, and the fifty rows of a
//! window, by bindings/rust: embedded LINES EDITS. It prints the median nanoseconds of each, one a line, as
//! embedded.c does.
use rope_search::{Result, Session};
use std::fmt::Write;
use std::time::Instant;

fn median(mut times: Vec<u128>) -> u128 {
    times.sort_unstable();
    times[times.len() / 2]
}

/// Calls, and the nanoseconds that it takes.
fn timed<T>(call: impl FnOnce() -> Result<T>) -> Result<(u128, T)> {
    let start = Instant::now();
    let value = call()?;
    Ok((start.elapsed().as_nanos(), value))
}

fn main() -> Result<()> {
    let numbers: Vec<usize> = std::env::args()
        .skip(1)
        .filter_map(|word| word.parse().ok())
        .collect();
    let (lines, edits) = match numbers[..] {
        [lines, edits] => (lines, edits),
        _ => (1000, 100),
    };
    let mut text = String::new();
    for line in 0..lines {
        writeln!(text, "line {line} of the text: let x = y(a, b);").unwrap();
    }
    let mut session = Session::new()?;
    session.set_text(&text)?;
    session.set_pattern(r"y\(\w+")?;
    let mut line: usize = 7;
    let (mut typed, mut undone, mut shown) = (Vec::new(), Vec::new(), Vec::new());
    for _ in 0..edits {
        line = line
            .wrapping_mul(6364136223846793005)
            .wrapping_add(1442695040888963407)
            % lines;
        typed.push(timed(|| session.edit((line, 5)..(line, 5), "a"))?.0);
        let (nanos, count) = timed(|| Ok(session.matches(line..line + 50).count()))?;
        assert_ne!(count, 0);
        shown.push(nanos);
        undone.push(timed(|| session.undo())?.0);
    }
    for (what, times) in [("typed", typed), ("undone", undone), ("shown", shown)] {
        println!("{what} {}", median(times));
    }
    Ok(())
}
