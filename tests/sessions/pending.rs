//! A pending pattern of a buffer, by the definitions of crates/rope_search/specs/Pending.antt.
use crate::calls::*;
use crate::model::{Answered, Buffer, Change, Cost, Model};
use crate::patterns::{Pattern, Row};
use crate::reading::{listed_from, matches_in};
use crate::texts::Text;
use crate::walks::TooLong;
use std::rc::Rc;

pub struct Pending {
    pub pattern: Rc<Pattern>,
    pub bytes: Vec<u8>,
    /// How many lines of the current text are done.
    pub done: u64,
}

impl Pending {
    /// In these ranges of the text others were replaced: the lines before the first one stay done.
    pub fn keep_before(&mut self, text: &Text, changes: &[Change]) {
        for &[_, _, start, _] in changes {
            let place = text.place_of_byte(start).expect("a range begins where a character does");
            self.done = self.done.min(text.position_at(place).0);
        }
    }

    /// The rows of the lines of a text from one up to another.
    fn rows(&self, text: &Text, from: u64, to: u64) -> Result<Vec<Row>, TooLong> {
        let lines = text.lines_between(from, to);
        lines.map(|(start, end)| self.pattern.row(&text.chars[start..end])).collect()
    }
}

/// A status and a number.
fn one(status: u64, number: u64) -> Answer {
    Answer::new(status, vec![number])
}

/// The answer of calls that copy matches: their number, and as many as there is room for.
fn copied(text: &Text, from: u64, rows: &[Row], room: u64) -> Answer {
    let copied = matches_in(text, 16, listed_from(from, rows), room);
    Answer::new(DONE, [vec![copied.status], copied.numbers].concat())
}

/// Answers a call that reads what is pending, if it is one.
pub fn read_pending(buffer: &Buffer, call: &Call) -> Result<Option<Answer>, TooLong> {
    if !matches!(call.kind, Kind::Pending | Kind::CountPending | Kind::CopyPending) {
        return Ok(None);
    }
    let Some(pending) = &buffer.pending else {
        let none = one(NONE, 0);
        return Ok(Some(if call.kind == Kind::Pending { Answer::default() } else { none }));
    };
    if call.kind == Kind::Pending {
        return Ok(Some(one(1, pending.done)));
    }
    let (text, n) = (buffer.text(), &call.numbers);
    let rows = pending.rows(&text, n[0], n[1].min(pending.done))?;
    Ok(Some(match call.kind {
        Kind::CountPending => one(DONE, rows.iter().map(|row| row.len() as u64).sum()),
        _ => copied(&text, n[0], &rows, n[2]),
    }))
}

impl Model {
    /// Makes a pattern pending, with no line done.
    pub fn begin_pattern(&mut self, bytes: &[u8]) -> Result<u64, TooLong> {
        let pattern = match self.pattern_of(bytes)? {
            Ok(pattern) => pattern,
            Err(status) => return Ok(status),
        };
        let pending = Pending { pattern, bytes: bytes.to_vec(), done: 0 };
        self.session().buffer().pending = Some(pending);
        Ok(DONE)
    }

    /// Searches further lines. If no line is left, the buffer is as `set_pattern` would have left it.
    pub fn advance(&mut self, most: u64) -> Answer {
        let buffer = self.session().buffer();
        let lines = buffer.text().lines.len() as u64;
        let Some(pending) = &mut buffer.pending else { return one(NONE, 0) };
        let left = lines - pending.done;
        if most < left {
            pending.done += most;
            self.cost = Cost { rows: most, least: most, ..Cost::default() };
            return one(DONE, 0);
        }
        let pattern = Rc::clone(&pending.pattern);
        buffer.set_pattern(Some(pattern));
        self.cost = Cost { rows: left, least: left, added: lines, all: true, wholes: 0 };
        one(DONE, 1)
    }

    pub fn cancel(&mut self) -> u64 {
        self.session().buffer().pending = None;
        DONE
    }

    /// The matches of some lines under the pending pattern. Each line that is not done is searched.
    pub fn window(&mut self, n: &[u64]) -> Answered {
        let buffer = self.session().buffer();
        let text = buffer.text();
        let Some(pending) = &buffer.pending else { return Ok(one(NONE, 0)) };
        let rows = pending.rows(&text, n[0], n[1])?;
        let searched = text.lines_between(n[0].max(pending.done), n[1]).count() as u64;
        self.cost = Cost { rows: searched, least: searched, ..Cost::default() };
        Ok(copied(&text, n[0], &rows, n[2]))
    }
}
