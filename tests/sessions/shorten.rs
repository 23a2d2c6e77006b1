//! What is left of a session that fails: as few calls, and as short texts, as still fail.
use crate::calls::{Call, Kind};

pub fn shortened(calls: Vec<Call>, fails: &dyn Fn(&[Call]) -> bool) -> Vec<Call> {
    let calls = without_some(calls, fails);
    let calls = with_short_texts(calls, fails);
    without_some(calls, fails)
}

/// The calls without those that a failure doesn't need: stretches of them are left out, each half
/// as long as the one before, as long as it still fails.
fn without_some(mut calls: Vec<Call>, fails: &dyn Fn(&[Call]) -> bool) -> Vec<Call> {
    let mut size = (calls.len() / 2).max(1);
    while size > 0 {
        let mut at = 0;
        while at < calls.len() {
            let end = (at + size).min(calls.len());
            let fewer = [&calls[..at], &calls[end..]].concat();
            if !fewer.is_empty() && fails(&fewer) {
                calls = fewer;
            } else {
                at = end;
            }
        }
        size /= 2;
    }
    calls
}

/// The calls with texts as short as a failure allows, and without refusals that it doesn't need.
fn with_short_texts(mut calls: Vec<Call>, fails: &dyn Fn(&[Call]) -> bool) -> Vec<Call> {
    let mut at = 0;
    while at < calls.len() {
        let shorter = shorter(&calls[at]).into_iter().find_map(|less| {
            let mut tried = calls.clone();
            tried[at] = less;
            fails(&tried).then_some(tried)
        });
        match shorter {
            Some(shorter) => calls = shorter,
            None => at += 1,
        }
    }
    calls
}

/// A call with less: no refusal, a half of its text, or a character less.
fn shorter(call: &Call) -> Vec<Call> {
    let mut tries = Vec::new();
    if call.refusal.is_some() {
        tries.push(Call { refusal: None, ..call.clone() });
    }
    if call.kind == Kind::EditAll {
        return tries;
    }
    let text = String::from_utf8_lossy(&call.bytes).into_owned();
    let (len, half) = (text.chars().count(), text.chars().count().div_ceil(2));
    let part = |from: usize, to: usize| text.chars().skip(from).take(to - from).collect::<String>();
    if len > 0 {
        let parts = [part(0, half), part(half, len), part(1, len), part(0, len - 1)];
        let is_less = |part: &String| part.len() < call.bytes.len();
        let with = |part: String| Call { bytes: part.into_bytes(), ..call.clone() };
        tries.extend(parts.into_iter().filter(is_less).map(with));
    }
    tries
}
