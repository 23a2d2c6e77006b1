//! Iteration over the matches of a report.
use crate::session::Session;
use crate::types::Span;
use std::fmt;
use std::iter::FusedIterator;

/// How many rows are copied at a time.
const ROWS: usize = 256;

/// An iterator over the matches in a range of lines, made by [`Session::matches`].
///
/// It copies some hundred rows at a time, so the first matches of a long report cost little. It borrows the
/// session: no command can change the report meanwhile.
#[derive(Clone)]
pub struct Matches<'a> {
    session: &'a Session,
    /// The matches that are copied, and the next of them.
    copied: Vec<Span>,
    next: usize,
    /// The rows that are not copied yet.
    row: usize,
    end: usize,
}

impl<'a> Matches<'a> {
    pub(crate) fn new(session: &'a Session, row: usize, end: usize) -> Matches<'a> {
        let end = end.min(session.rows());
        Matches {
            session,
            copied: Vec::new(),
            next: 0,
            row,
            end,
        }
    }

    /// Copies the next rows that have a match; returns whether there are any.
    fn copy_rows(&mut self) -> bool {
        while self.row < self.end {
            let to = self.end.min(self.row.saturating_add(ROWS));
            self.session.copy_matches(self.row, to, &mut self.copied);
            self.row = to;
            self.next = 0;
            if !self.copied.is_empty() {
                return true;
            }
        }
        false
    }
}

impl Iterator for Matches<'_> {
    type Item = Span;

    fn next(&mut self) -> Option<Span> {
        if self.next == self.copied.len() && !self.copy_rows() {
            return None;
        }
        self.next += 1;
        Some(self.copied[self.next - 1])
    }

    fn size_hint(&self) -> (usize, Option<usize>) {
        let left = self.copied.len() - self.next;
        (left, (self.row >= self.end).then_some(left))
    }

    fn count(self) -> usize {
        let left = self.copied.len() - self.next;
        left + self.session.count_matches(self.row..self.end.max(self.row))
    }
}

impl FusedIterator for Matches<'_> {}

impl fmt::Debug for Matches<'_> {
    fn fmt(&self, f: &mut fmt::Formatter<'_>) -> fmt::Result {
        f.debug_struct("Matches")
            .field("copied", &&self.copied[self.next..])
            .field("rows", &(self.row..self.end))
            .finish()
    }
}
