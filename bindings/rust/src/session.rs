//! Sessions.
use crate::error::{Error, PatternError, Reason, Result};
use crate::matches::Matches;
use crate::raw::{self, Handle, RawEdit};
use crate::types::{
    Counts, Encoding, Groups, Listed, Match, Position, Span, Stretch, TextChange, TextEdit,
};
use std::fmt;
use std::ops::{Bound, Range, RangeBounds};

/// The default limit on the bytes of a session's text: 1 GiB.
pub const DEFAULT_LIMIT: usize = 1 << 30;

/// Buffers, of which one is chosen: all calls are about that one. It is closed when it is dropped.
///
/// A text is anything that gives bytes: a `str`, a `String`, or bytes that are UTF-8. A position is a
/// [`Position`] or a pair `(line, column)`.
///
/// ```
/// use rope_search::Session;
///
/// let mut session = Session::new()?;
/// session.set_text("A frog 🐸 and a toad.\nNo toad here is green.")?;
/// session.set_pattern(r"t\w+d")?;
/// for span in session.matches(..) {
///     println!("line {}: columns {:?}", span.line, span.columns());
/// }
/// assert_eq!(session.replace("big $0")?, 2);
/// assert_eq!(session.text(..)?, "A frog 🐸 and a big toad.\nNo big toad here is green.");
/// session.undo()?;
/// assert_eq!(session.count_matches(..), 2);
/// # Ok::<(), rope_search::Error>(())
/// ```
pub struct Session {
    handle: Handle,
}

impl Session {
    /// Opens a session of one buffer, with an empty text and no pattern, whose texts have at most
    /// [`DEFAULT_LIMIT`] bytes.
    ///
    /// # Errors
    ///
    /// [`Error::Memory`].
    pub fn new() -> Result<Session> {
        Session::with_limit(DEFAULT_LIMIT)
    }

    /// Opens a session whose texts have at most `limit` bytes.
    ///
    /// # Errors
    ///
    /// [`Error::Size`] for a limit above `isize::MAX`, and [`Error::Memory`].
    ///
    /// ```
    /// use rope_search::{Error, Session};
    ///
    /// let mut session = Session::with_limit(3)?;
    /// session.set_text("one")?;
    /// assert_eq!(session.set_text("four"), Err(Error::Size));
    /// # Ok::<(), Error>(())
    /// ```
    pub fn with_limit(limit: usize) -> Result<Session> {
        Handle::open(limit).map(|handle| Session { handle })
    }

    // ---- commands, on the chosen buffer

    /// Sets the text, and empties the history; the pattern stays.
    ///
    /// # Errors
    ///
    /// [`Error::Utf8`], [`Error::Size`], [`Error::Memory`].
    pub fn set_text(&mut self, text: impl AsRef<[u8]>) -> Result<()> {
        self.handle.set_text(text.as_ref())
    }

    /// Replaces the text from one position to another, as one step of the history. What could be redone is
    /// dropped.
    ///
    /// # Errors
    ///
    /// [`Error::Range`] if a position is nowhere in the text, or the end lies before the start;
    /// [`Error::Utf8`], [`Error::Size`], [`Error::Memory`].
    ///
    /// ```
    /// use rope_search::Session;
    ///
    /// let mut session = Session::new()?;
    /// session.set_text("one two")?;
    /// session.edit((0, 4)..(0, 7), "three")?;
    /// session.set_pattern("one")?;
    /// let first = session.matches(..).next().unwrap();
    /// session.edit(first.range(), "two")?;
    /// assert_eq!(session.text(..)?, "two three");
    /// # Ok::<(), rope_search::Error>(())
    /// ```
    pub fn edit<P>(&mut self, range: Range<P>, text: impl AsRef<[u8]>) -> Result<()>
    where
        P: Into<Position>,
    {
        self.handle
            .edit(range.start.into(), range.end.into(), text.as_ref())
    }

    /// Makes several edits as one, all or none, and as one step of the history.
    ///
    /// All positions are those of the text before any of the edits. The edits come in the order of their
    /// positions; two may touch, and texts inserted at one position keep their order. What could be redone is
    /// dropped, even if there is no edit.
    ///
    /// # Errors
    ///
    /// [`Error::Range`], also if an edit starts before the end of the one before it; [`Error::Utf8`],
    /// [`Error::Size`], [`Error::Memory`].
    ///
    /// ```
    /// use rope_search::{Session, TextEdit};
    ///
    /// let mut session = Session::new()?;
    /// session.set_text("one two")?;
    /// session.edit_all([
    ///     TextEdit::new((0, 0)..(0, 3), "1"),
    ///     TextEdit::new((0, 4)..(0, 7), "2"),
    /// ])?;
    /// assert_eq!(session.text(..)?, "1 2");
    /// # Ok::<(), rope_search::Error>(())
    /// ```
    pub fn edit_all<T>(&mut self, edits: impl IntoIterator<Item = TextEdit<T>>) -> Result<()>
    where
        T: AsRef<[u8]>,
    {
        let (mut places, mut text) = (Vec::new(), Vec::new());
        for edit in edits {
            let own = edit.text.as_ref();
            places.push(RawEdit {
                from: edit.start,
                to: edit.stop,
                len: own.len(),
            });
            text.extend_from_slice(own);
        }
        self.handle.edit_all(&places, &text)
    }

    /// Replaces a range of bytes, as [`Session::edit`] does between the positions at its ends.
    ///
    /// # Errors
    ///
    /// [`Error::Range`] if an end is past the text, inside a character or between the CR and the LF of a
    /// break, or the range runs backward; [`Error::Utf8`], [`Error::Size`], [`Error::Memory`].
    ///
    /// ```
    /// use rope_search::{Error, Session};
    ///
    /// let mut session = Session::new()?;
    /// session.set_text("🐸 one\r\ntwo")?;
    /// session.edit_bytes(0..4, "frog")?;
    /// assert_eq!(session.edit_bytes(9..10, ""), Err(Error::Range));
    /// session.edit_bytes(8..10, " ")?;
    /// assert_eq!(session.text(..)?, "frog one two");
    /// # Ok::<(), Error>(())
    /// ```
    pub fn edit_bytes(
        &mut self,
        range: impl RangeBounds<usize>,
        text: impl AsRef<[u8]>,
    ) -> Result<()> {
        let (from, to) = ends_of(&range, self.text_len()).ok_or(Error::Range)?;
        self.handle.edit_bytes(from, to, text.as_ref())
    }

    /// Goes one text back.
    ///
    /// # Errors
    ///
    /// [`Error::Nothing`] if there is no text to go back to; with a pattern, [`Error::Memory`].
    pub fn undo(&mut self) -> Result<()> {
        self.handle.undo()
    }

    /// Goes one text forward.
    ///
    /// # Errors
    ///
    /// [`Error::Nothing`] if there is no text to go forward to; with a pattern, [`Error::Memory`].
    pub fn redo(&mut self) -> Result<()> {
        self.handle.redo()
    }

    /// Sets the pattern, in place of any other.
    ///
    /// # Errors
    ///
    /// [`Error::Utf8`]; [`Error::Pattern`] with the place and the reason; [`Error::Limit`] if it is too long
    /// or too heavy; [`Error::Memory`].
    pub fn set_pattern(&mut self, pattern: impl AsRef<[u8]>) -> Result<()> {
        let pattern = pattern.as_ref();
        placed(self.handle.set_pattern(pattern), pattern)
    }

    /// Drops the pattern, if there is one.
    pub fn off(&mut self) {
        let done = self.handle.off();
        debug_assert_eq!(done, Ok(()));
    }

    /// Replaces all matches in the whole text, as one step of the history, and returns their number.
    ///
    /// In the template, `$` and a digit are that group's text, `$$` is a dollar.
    ///
    /// # Errors
    ///
    /// [`Error::Nothing`] without a pattern; [`Error::Utf8`], [`Error::Size`], [`Error::Memory`].
    pub fn replace(&mut self, template: impl AsRef<[u8]>) -> Result<usize> {
        self.handle.replace(template.as_ref())
    }

    /// Replaces one match of the report, by its line and its number in that row, from 0, as [`Session::edit`]
    /// does between the positions where it starts and ends.
    ///
    /// In the template, `$` and a digit are that group's text, as the search of the line finds it; `$$` is a
    /// dollar.
    ///
    /// # Errors
    ///
    /// [`Error::Nothing`] without a pattern; [`Error::Range`] if no such match is listed; [`Error::Utf8`],
    /// [`Error::Size`], [`Error::Memory`].
    ///
    /// ```
    /// use rope_search::{Error, Session};
    ///
    /// let mut session = Session::new()?;
    /// session.set_text("a-b c-d\re-f")?;
    /// session.set_pattern("(.)-(.)$")?;
    /// session.replace_match(0, 0, "$2-$1")?;
    /// assert_eq!(session.replace_match(1, 1, ""), Err(Error::Range));
    /// assert_eq!(session.text(..)?, "a-b d-c\re-f");
    /// # Ok::<(), Error>(())
    /// ```
    pub fn replace_match(
        &mut self,
        line: usize,
        number: usize,
        template: impl AsRef<[u8]>,
    ) -> Result<()> {
        self.handle.replace_match(line, number, template.as_ref())
    }

    /// Replaces exactly the matches that the report lists in a range of lines, as one step of the history, and
    /// returns their number: those of [`Session::matches`] for these rows.
    ///
    /// In the template, `$` and a digit are that group's text, as the search of the match's line finds it; `$$`
    /// is a dollar. Without a group other than 0, no line is searched again.
    ///
    /// # Errors
    ///
    /// [`Error::Nothing`] without a pattern; [`Error::Utf8`], [`Error::Size`], [`Error::Memory`].
    ///
    /// ```
    /// use rope_search::{Error, Session};
    ///
    /// let mut session = Session::new()?;
    /// session.set_text("a-b c-d\re-f\ng-h")?;
    /// session.set_pattern("(.)-(.)$")?;
    /// assert_eq!(session.replace_listed(0..2, "$2-$1")?, 2);
    /// assert_eq!(session.text(..)?, "a-b d-c\rf-e\ng-h");
    /// # Ok::<(), Error>(())
    /// ```
    pub fn replace_listed(
        &mut self,
        rows: impl RangeBounds<usize>,
        template: impl AsRef<[u8]>,
    ) -> Result<usize> {
        let (from, to) = rows_of(&rows);
        self.handle.replace_listed(from, to, template.as_ref())
    }

    /// Adds a buffer with the chosen buffer's text, and neither its history nor its pattern, and returns its
    /// number. The chosen buffer stays chosen.
    ///
    /// # Errors
    ///
    /// [`Error::Memory`].
    ///
    /// ```
    /// use rope_search::Session;
    ///
    /// let mut session = Session::new()?;
    /// session.set_text("one")?;
    /// let number = session.fork()?;
    /// session.set_text("two")?;
    /// session.choose(number)?;
    /// assert_eq!(session.text(..)?, "one");
    /// # Ok::<(), rope_search::Error>(())
    /// ```
    pub fn fork(&mut self) -> Result<usize> {
        self.handle.fork()
    }

    /// Chooses a buffer by its number, from 0.
    ///
    /// # Errors
    ///
    /// [`Error::Nothing`] if there is no such buffer.
    pub fn choose(&mut self, number: usize) -> Result<()> {
        self.handle.choose(number as u64)
    }

    /// Drops the history: the current text alone is left. The pattern and the report stay.
    pub fn forget(&mut self) {
        let done = self.handle.forget();
        debug_assert_eq!(done, Ok(()));
    }

    /// Drops all undo steps but the last `steps`, and what could be redone. The text, the pattern, the report
    /// and what [`Session::text_changes`] returns stay.
    ///
    /// ```
    /// use rope_search::Session;
    ///
    /// let mut session = Session::new()?;
    /// for text in ["a", "b", "c"] {
    ///     session.edit((0, 0)..(0, 0), text)?;
    /// }
    /// session.keep(2);
    /// assert_eq!(session.undo_steps(), 2);
    /// # Ok::<(), rope_search::Error>(())
    /// ```
    pub fn keep(&mut self, steps: usize) {
        let done = self.handle.keep(steps);
        debug_assert_eq!(done, Ok(()));
    }

    /// Makes the last `steps` undo steps one: the texts between them leave the history. Of 0 steps or 1 it changes
    /// nothing. The current text, what can be redone, the pattern, the report and what [`Session::text_changes`]
    /// returns stay.
    ///
    /// ```
    /// use rope_search::Session;
    ///
    /// let mut session = Session::new()?;
    /// for (column, text) in ["a", "b", "c"].into_iter().enumerate() {
    ///     session.edit((0, column)..(0, column), text)?;
    /// }
    /// session.join(3)?;
    /// session.undo()?;
    /// assert_eq!(session.text_len(), 0);
    /// # Ok::<(), rope_search::Error>(())
    /// ```
    ///
    /// # Errors
    ///
    /// [`Error::Nothing`] where there are fewer undo steps; for two steps or more, [`Error::Memory`].
    pub fn join(&mut self, steps: usize) -> Result<()> {
        self.handle.join(steps)
    }

    // ---- buffers, and the chosen one's history

    /// Returns the number of buffers.
    pub fn buffers(&self) -> usize {
        self.handle.buffers()
    }

    /// Returns the number of the chosen buffer, from 0.
    pub fn chosen(&self) -> usize {
        self.handle.chosen()
    }

    /// Returns whether there is a text to go back to.
    pub fn can_undo(&self) -> bool {
        self.handle.can_undo()
    }

    /// Returns whether there is a text to go forward to.
    pub fn can_redo(&self) -> bool {
        self.handle.can_redo()
    }

    /// Returns the number of texts to go back to.
    pub fn undo_steps(&self) -> usize {
        self.handle.undo_steps()
    }

    /// Returns the number of texts to go forward to.
    pub fn redo_steps(&self) -> usize {
        self.handle.redo_steps()
    }

    // ---- reading the chosen buffer

    /// Returns the number of bytes of the text.
    pub fn text_len(&self) -> usize {
        self.handle.text_len()
    }

    /// Returns the number of lines of the text, which is at least 1.
    pub fn text_lines(&self) -> usize {
        self.handle.text_lines()
    }

    /// Returns the text of a range of bytes.
    ///
    /// # Errors
    ///
    /// [`Error::Range`] if the range is not in the text, runs backward, or cuts a character.
    ///
    /// ```
    /// use rope_search::{Error, Session};
    ///
    /// let mut session = Session::new()?;
    /// session.set_text("a 🐸")?;
    /// assert_eq!(session.text(..)?, "a 🐸");
    /// assert_eq!(session.text(2..)?, "🐸");
    /// assert_eq!(session.text(..3), Err(Error::Range));
    /// # Ok::<(), Error>(())
    /// ```
    pub fn text(&self, range: impl RangeBounds<usize>) -> Result<String> {
        let (from, to) = ends_of(&range, self.text_len()).ok_or(Error::Range)?;
        if from > to || to > self.text_len() {
            return Err(Error::Range);
        }
        let mut bytes = vec![0; to - from];
        if !self.handle.copy_text(from, to, &mut bytes) {
            return Err(Error::Range);
        }
        String::from_utf8(bytes).map_err(|_| Error::Utf8)
    }

    /// Copies a range of bytes of the text to the front of `out`, and returns their number. The rest of `out`
    /// is not changed.
    ///
    /// # Errors
    ///
    /// [`Error::Range`] if the range is not in the text, runs backward, cuts a character, or does not fit;
    /// `out` is not changed then.
    pub fn copy_text(&self, range: impl RangeBounds<usize>, out: &mut [u8]) -> Result<usize> {
        let (from, to) = ends_of(&range, self.text_len()).ok_or(Error::Range)?;
        if self.handle.copy_text(from, to, out) {
            Ok(to - from)
        } else {
            Err(Error::Range)
        }
    }

    /// Returns the offset in bytes of a position.
    ///
    /// # Errors
    ///
    /// [`Error::Range`] if the position is nowhere: after its line's text, inside a surrogate pair, or after
    /// the last line.
    pub fn byte_of(&self, position: impl Into<Position>) -> Result<usize> {
        self.handle.byte_of(position.into())
    }

    /// Returns the position of an offset in bytes. Between the CR and the LF of a break it is one past the
    /// line's text.
    ///
    /// # Errors
    ///
    /// [`Error::Range`] if no character begins there and the text does not end there.
    pub fn position_of(&self, byte: usize) -> Result<Position> {
        self.handle.position_of(byte)
    }

    /// Returns the column of a position in an encoding.
    ///
    /// # Errors
    ///
    /// [`Error::Range`] if the position is nowhere.
    ///
    /// ```
    /// use rope_search::{Encoding, Position, Session};
    ///
    /// let mut session = Session::new()?;
    /// session.set_text("🐸 frog")?;
    /// assert_eq!(session.column_in(Encoding::Utf8, (0, 2))?, 4);
    /// assert_eq!(session.column_in(Encoding::Utf32, (0, 2))?, 1);
    /// assert_eq!(session.position_in(Encoding::Utf32, 0, 1)?, Position::new(0, 2));
    /// # Ok::<(), rope_search::Error>(())
    /// ```
    pub fn column_in(&self, encoding: Encoding, position: impl Into<Position>) -> Result<usize> {
        self.handle.column_in(encoding.bits(), position.into())
    }

    /// Returns the position of a line and a column in an encoding.
    ///
    /// # Errors
    ///
    /// [`Error::Range`] if they are nowhere.
    pub fn position_in(&self, encoding: Encoding, line: usize, column: usize) -> Result<Position> {
        self.handle.position_in(encoding.bits(), line, column)
    }

    /// Returns the position nearest to a line and a column in an encoding, which may be nowhere: for a column
    /// past the line's text its end, for one inside a character or a surrogate pair the start of that, and for
    /// a line past the last one the text's end.
    ///
    /// ```
    /// use rope_search::{Encoding, Position, Session};
    ///
    /// let mut session = Session::new()?;
    /// session.set_text("🐸 frog\r\n")?;
    /// assert_eq!(session.clamp(Encoding::Utf16, 0, 1), Position::new(0, 0));
    /// assert_eq!(session.clamp(Encoding::Utf8, 0, 100), Position::new(0, 7));
    /// assert_eq!(session.clamp(Encoding::Utf8, 100, 0), Position::new(1, 0));
    /// # Ok::<(), rope_search::Error>(())
    /// ```
    pub fn clamp(&self, encoding: Encoding, line: usize, column: usize) -> Position {
        let clamped = self.handle.clamp(encoding.bits(), line, column);
        debug_assert!(clamped.is_ok());
        clamped.unwrap_or_default()
    }

    /// Returns how long the text of a line is, its break left off.
    ///
    /// # Errors
    ///
    /// [`Error::Range`] if there is no such line.
    ///
    /// ```
    /// use rope_search::{Encoding, Error, Session};
    ///
    /// let mut session = Session::new()?;
    /// session.set_text("🐸 frog\r\ntoad")?;
    /// assert_eq!(session.line_len(0, Encoding::Utf8)?, 9);
    /// assert_eq!(session.line_len(2, Encoding::Utf8), Err(Error::Range));
    /// assert_eq!(session.line_text(1)?, "toad");
    /// # Ok::<(), Error>(())
    /// ```
    pub fn line_len(&self, line: usize, encoding: Encoding) -> Result<usize> {
        self.handle.line_len(line, encoding.bits())
    }

    /// Returns the text of a line, its break left off.
    ///
    /// # Errors
    ///
    /// [`Error::Range`] if there is no such line.
    pub fn line_text(&self, line: usize) -> Result<String> {
        let mut bytes = vec![0; self.line_len(line, Encoding::Utf8)?];
        if !self.handle.copy_line(line, &mut bytes) {
            return Err(Error::Range);
        }
        String::from_utf8(bytes).map_err(|_| Error::Utf8)
    }

    /// Copies the matches in a range of rows to the front of `out`, with their columns in an encoding, as many
    /// as fit, and returns how many there are. The rest of `out` is not changed.
    ///
    /// ```
    /// use rope_search::{Encoding, Session, Span};
    ///
    /// let mut session = Session::new()?;
    /// session.set_text("🐸 frog")?;
    /// session.set_pattern("frog")?;
    /// let mut out = [Span::default(); 2];
    /// assert_eq!(session.copy_matches_in(Encoding::Utf8, .., &mut out), 1);
    /// assert_eq!(out[0], Span { line: 0, start: 5, stop: 9 });
    /// # Ok::<(), rope_search::Error>(())
    /// ```
    pub fn copy_matches_in(
        &self,
        encoding: Encoding,
        rows: impl RangeBounds<usize>,
        out: &mut [Span],
    ) -> usize {
        let (from, to) = rows_of(&rows);
        self.handle.copy_matches_in(encoding.bits(), from, to, out)
    }

    /// Returns the number of rows of the report: one for each line of the text, or 0 without a pattern.
    pub fn rows(&self) -> usize {
        self.handle.rows()
    }

    /// Returns the number of matches in a range of rows, as far as there are such rows.
    pub fn count_matches(&self, rows: impl RangeBounds<usize>) -> usize {
        let (from, to) = rows_of(&rows);
        self.handle.count_matches(from, to)
    }

    /// Iterates over the matches in a range of rows, as far as there are such rows, in the order of the text.
    ///
    /// ```
    /// use rope_search::Session;
    ///
    /// let mut session = Session::new()?;
    /// session.set_text("one\ntwo\none one")?;
    /// session.set_pattern("one")?;
    /// let columns = |rows| session.matches(rows).map(|span| span.columns()).collect::<Vec<_>>();
    /// assert_eq!(columns(1..3), [0..3, 4..7]);
    /// # Ok::<(), rope_search::Error>(())
    /// ```
    pub fn matches(&self, rows: impl RangeBounds<usize>) -> Matches<'_> {
        let (from, to) = rows_of(&rows);
        Matches::new(self, from, to)
    }

    /// Puts the matches of rows `from` up to `to` into a vector, in place of what it has.
    pub(crate) fn copy_matches(&self, from: usize, to: usize, out: &mut Vec<Span>) {
        let count = self.handle.count_matches(from, to);
        out.clear();
        out.resize(count, Span::default());
        let copied = self.handle.copy_matches(from, to, out);
        debug_assert_eq!(copied, count);
    }

    /// Returns the first match in the whole text that starts at a position or after it.
    ///
    /// # Errors
    ///
    /// [`Error::Nothing`] without a pattern; [`Error::Range`] if the position is nowhere; [`Error::Memory`].
    ///
    /// ```
    /// use rope_search::{Position, Session};
    ///
    /// let mut session = Session::new()?;
    /// session.set_text("one\ntwo")?;
    /// session.set_pattern(r"e\nt")?;
    /// let found = session.next((0, 1))?.unwrap();
    /// assert_eq!(found.range(), Position::new(0, 2)..Position::new(1, 1));
    /// assert_eq!(session.next((1, 0))?, None);
    /// # Ok::<(), rope_search::Error>(())
    /// ```
    pub fn next(&self, from: impl Into<Position>) -> Result<Option<Match>> {
        self.handle.next(from.into())
    }

    /// Copies the first matches in the whole text that start at a position or after it to the front of `out`,
    /// as many as fit, and returns how many were copied.
    ///
    /// They are those that [`Session::replace`] would replace: all are found one after the other from the text's
    /// start, in one search of the whole text. [`Session::next`] searches from its position instead, so it may
    /// find a match that overlaps one which starts before the position.
    ///
    /// # Errors
    ///
    /// [`Error::Nothing`] without a pattern; [`Error::Range`] if the position is nowhere; [`Error::Memory`]. `out`
    /// is then as it was.
    ///
    /// ```
    /// use rope_search::{Match, Session};
    ///
    /// let mut session = Session::new()?;
    /// session.set_text("one\none\none")?;
    /// session.set_pattern(r"e\no|o")?;
    /// let mut out = [Match::default(); 10];
    /// let count = session.next_all((0, 1), &mut out)?;
    /// let starts: Vec<(usize, usize)> = out[..count].iter().map(|found| found.start.into()).collect();
    /// assert_eq!(starts, [(0, 2), (1, 2)]);
    /// # Ok::<(), rope_search::Error>(())
    /// ```
    pub fn next_all(&self, from: impl Into<Position>, out: &mut [Match]) -> Result<usize> {
        self.handle.next_all(from.into(), out)
    }

    /// Returns the groups 0 to 9 of a match: of match `number`, from 0, of those in row `line`.
    ///
    /// A report has no groups: the line is searched for them once more, which is counted.
    ///
    /// # Errors
    ///
    /// [`Error::Nothing`] without a pattern; [`Error::Range`] if there is no such row, or no such match in it;
    /// [`Error::Memory`].
    ///
    /// ```
    /// use rope_search::{Session, Span};
    ///
    /// let mut session = Session::new()?;
    /// session.set_text("one two")?;
    /// session.set_pattern("(o)(n)?")?;
    /// let groups = session.groups_at(0, 1)?;
    /// assert_eq!(groups[1], Some(Span { line: 0, start: 6, stop: 7 }));
    /// assert_eq!(groups[2], None);
    /// # Ok::<(), rope_search::Error>(())
    /// ```
    pub fn groups_at(&self, line: usize, number: usize) -> Result<Groups> {
        self.handle.groups_at(line, number)
    }

    /// Returns the first match of the report that starts at a position or after it. The position need not be
    /// one of the text. Nothing is searched.
    ///
    /// ```
    /// use rope_search::Session;
    ///
    /// let mut session = Session::new()?;
    /// session.set_text("one two\none")?;
    /// session.set_pattern("one")?;
    /// let next = session.listed_from((0, 1)).unwrap();
    /// assert_eq!((next.line, next.number), (1, 0));
    /// assert_eq!(session.listed_before((1, 0)).unwrap().line, 0);
    /// assert_eq!(session.list_index(next.line, next.number), Some((1, 2)));
    /// # Ok::<(), rope_search::Error>(())
    /// ```
    pub fn listed_from(&self, position: impl Into<Position>) -> Option<Listed> {
        self.handle.listed_from(position.into())
    }

    /// Returns the last match of the report that starts before a position.
    pub fn listed_before(&self, position: impl Into<Position>) -> Option<Listed> {
        self.handle.listed_before(position.into())
    }

    /// Returns how many matches the report lists before match `number`, from 0, of a row, and how many it lists
    /// in all; `None` if there is no such match.
    pub fn list_index(&self, line: usize, number: usize) -> Option<(usize, usize)> {
        self.handle.list_index(line, number)
    }

    /// Returns which rows of the report the last accepted command on the chosen buffer replaced, of those that
    /// may: all but `next`, `fork`, `choose`, `keep` and `forget`. What is painted is right again once these rows
    /// are, and those after them moved.
    pub fn changed(&self) -> Stretch {
        self.handle.changed()
    }

    /// Returns the ranges of bytes in which the last accepted call on the chosen buffer replaced its text, of
    /// `set_text`, `edit`, `edit_all`, `undo`, `redo` and `replace`. They ascend, and are never merged. The old
    /// text with each range replaced by the new text's range is the new text.
    ///
    /// ```
    /// use rope_search::{Session, TextChange};
    ///
    /// let mut session = Session::new()?;
    /// session.set_text("one two")?;
    /// session.edit((0, 4)..(0, 7), "2")?;
    /// session.undo()?;
    /// let change = TextChange { old_start: 4, old_end: 5, new_start: 4, new_end: 7 };
    /// assert_eq!(session.text_changes(), [change]);
    /// # Ok::<(), rope_search::Error>(())
    /// ```
    pub fn text_changes(&self) -> Vec<TextChange> {
        let count = self.handle.text_changes(&mut []);
        let mut out = vec![TextChange::default(); count];
        self.handle.text_changes(&mut out);
        out
    }

    /// Begins a text that arrives in parts, and drops what arrived of one that was begun before. The text and the
    /// report of the buffer stay until [`Session::end_text`].
    ///
    /// ```
    /// use rope_search::{Error, Session};
    ///
    /// let mut session = Session::with_limit(100)?;
    /// session.begin_text();
    /// // A part may end inside a character.
    /// for part in "a frog 🐸".as_bytes().chunks(3) {
    ///     session.append_part(part)?;
    /// }
    /// assert_eq!(session.text(..)?, "");
    /// session.end_text()?;
    /// assert_eq!(session.text(..)?, "a frog 🐸");
    /// assert_eq!(session.end_text(), Err(Error::Nothing));
    /// # Ok::<(), Error>(())
    /// ```
    pub fn begin_text(&mut self) {
        let done = self.handle.begin_text();
        debug_assert_eq!(done, Ok(()));
    }

    /// Adds the next bytes to the text that arrives. They may end inside a character.
    ///
    /// # Errors
    ///
    /// [`Error::Nothing`] if no text was begun; [`Error::Utf8`], [`Error::Size`] or [`Error::Memory`] as soon as it
    /// is known that [`Session::end_text`] will be refused. What arrived is then dropped.
    pub fn append_part(&mut self, part: impl AsRef<[u8]>) -> Result<()> {
        self.handle.append_part(part.as_ref())
    }

    /// Sets the text to the one that arrived, as [`Session::set_text`] does. After this none arrives, also if it is
    /// refused.
    ///
    /// # Errors
    ///
    /// [`Error::Nothing`] if no text was begun; [`Error::Utf8`], [`Error::Size`], [`Error::Memory`].
    pub fn end_text(&mut self) -> Result<()> {
        self.handle.end_text()
    }

    /// Drops the text that arrives, if one was begun.
    pub fn cancel_text(&mut self) {
        let done = self.handle.cancel_text();
        debug_assert_eq!(done, Ok(()));
    }

    /// Makes a pattern pending, in place of any other that is: [`Session::advance`] makes its report in slices, so
    /// that no call takes longer than one. Until all lines are done, the pattern and the report stay, and follow
    /// all edits.
    ///
    /// # Errors
    ///
    /// Those of [`Session::set_pattern`]; what was pending then stays.
    ///
    /// ```
    /// use rope_search::{Session, Span};
    ///
    /// let mut session = Session::new()?;
    /// session.set_text("one two\none\ntwo")?;
    /// session.begin_pattern("one|two")?;
    /// let mut out = [Span::default(); 8];
    /// assert_eq!(session.window(2..3, &mut out)?, 1);
    /// assert_eq!(out[0], Span { line: 2, start: 0, stop: 3 });
    /// assert!(!session.advance(2)?);
    /// session.edit((1, 0)..(1, 0), "no ")?;
    /// assert_eq!(session.pending(), Some(1));
    /// while !session.advance(2)? {}
    /// assert_eq!(session.count_matches(..), 4);
    /// # Ok::<(), rope_search::Error>(())
    /// ```
    pub fn begin_pattern(&mut self, pattern: impl AsRef<[u8]>) -> Result<()> {
        let pattern = pattern.as_ref();
        placed(self.handle.begin_pattern(pattern), pattern)
    }

    /// Searches up to `max_lines` further lines for the pending pattern, from the first that is not done, and
    /// returns whether all are done: the session is then as [`Session::set_pattern`] would have left it.
    ///
    /// # Errors
    ///
    /// [`Error::Nothing`] if no pattern is pending; [`Error::Memory`].
    pub fn advance(&mut self, max_lines: usize) -> Result<bool> {
        self.handle.advance(max_lines)
    }

    /// Drops the pending pattern, if there is one.
    pub fn cancel(&mut self) {
        let done = self.handle.cancel();
        debug_assert_eq!(done, Ok(()));
    }

    /// Returns the number of lines that are done for the pending pattern; `None` without one.
    pub fn pending(&self) -> Option<usize> {
        self.handle.pending()
    }

    /// Returns the number of matches in a range of the lines that are done.
    ///
    /// # Errors
    ///
    /// [`Error::Nothing`] if no pattern is pending.
    pub fn count_pending(&self, lines: impl RangeBounds<usize>) -> Result<usize> {
        let (from, to) = rows_of(&lines);
        self.handle.count_pending(from, to)
    }

    /// Copies the matches in a range of the lines that are done to the front of `out`, as many as fit, and
    /// returns their number.
    ///
    /// # Errors
    ///
    /// [`Error::Nothing`] if no pattern is pending.
    pub fn copy_pending(&self, lines: impl RangeBounds<usize>, out: &mut [Span]) -> Result<usize> {
        let (from, to) = rows_of(&lines);
        self.handle.copy_pending(from, to, out)
    }

    /// Copies the matches of a range of lines under the pending pattern to the front of `out`, as many as fit, and
    /// returns their number. The lines that are not done are searched: each is counted, and not kept.
    ///
    /// # Errors
    ///
    /// [`Error::Nothing`] if no pattern is pending; [`Error::Memory`].
    pub fn window(&self, lines: impl RangeBounds<usize>, out: &mut [Span]) -> Result<usize> {
        let (from, to) = rows_of(&lines);
        self.handle.window(from, to, out)
    }

    /// Returns what the session counted.
    pub fn counted(&self) -> Counts {
        self.handle.counted()
    }
}

/// What was answered for a pattern; where it is none, with the place and the reason.
fn placed(answer: Result<()>, pattern: &[u8]) -> Result<()> {
    match answer {
        Err(Error::Pattern(unplaced)) => {
            Err(Error::Pattern(pattern_error(pattern)?.unwrap_or(unplaced)))
        }
        done => done,
    }
}

impl fmt::Debug for Session {
    fn fmt(&self, f: &mut fmt::Formatter<'_>) -> fmt::Result {
        f.debug_struct("Session")
            .field("buffers", &self.buffers())
            .field("chosen", &self.chosen())
            .field("text_len", &self.text_len())
            .field("text_lines", &self.text_lines())
            .field("rows", &self.rows())
            .finish()
    }
}

/// Returns where and why a text is no pattern, so that [`Session::set_pattern`] refuses it with
/// [`Error::Pattern`]; `None` if it is one, or is refused with [`Error::Limit`]. No session takes part.
///
/// # Errors
///
/// [`Error::Utf8`], [`Error::Memory`].
///
/// ```
/// use rope_search::{pattern_error, Reason};
///
/// let error = pattern_error("a{2,1}")?.unwrap();
/// assert_eq!((error.place, error.reason), (5, Reason::CountOrder));
/// assert_eq!(pattern_error("a{1,2}")?, None);
/// # Ok::<(), rope_search::Error>(())
/// ```
pub fn pattern_error(pattern: impl AsRef<[u8]>) -> Result<Option<PatternError>> {
    let (number, place) = raw::pattern_error(pattern.as_ref())?;
    Ok((number != 0).then(|| PatternError {
        place,
        reason: Reason::of(number),
    }))
}

/// Returns a pattern that matches a text only: the text with a backslash before each character that has a
/// meaning of its own in a pattern. Needs no session.
///
/// # Errors
///
/// [`Error::Utf8`]; [`Error::Limit`] if the pattern would have more than 65,536 bytes; [`Error::Memory`].
///
/// ```
/// assert_eq!(rope_search::escape("f(x)^2")?, r"f\(x\)\^2");
/// # Ok::<(), rope_search::Error>(())
/// ```
pub fn escape(text: impl AsRef<[u8]>) -> Result<String> {
    let text = text.as_ref();
    // A pattern never has more bytes than this.
    let mut pattern = vec![0; text.len().saturating_mul(2).min(65_536)];
    let len = raw::escape(text, &mut pattern)?;
    pattern.truncate(len);
    String::from_utf8(pattern).map_err(|_| Error::Utf8)
}

/// Returns the version of the library that is linked: 1,000,000 times its first number, 1,000 times its
/// second, and its third.
///
/// ```
/// assert_eq!(rope_search::version() / 1_000, 2);
/// ```
pub fn version() -> u32 {
    raw::version()
}

/// The start and the end of a range in a text or a report of `len`; `None` if there is no such number.
fn ends_of(range: &impl RangeBounds<usize>, len: usize) -> Option<(usize, usize)> {
    let from = match range.start_bound() {
        Bound::Included(&from) => from,
        Bound::Excluded(&before) => before.checked_add(1)?,
        Bound::Unbounded => 0,
    };
    let to = match range.end_bound() {
        Bound::Included(&last) => last.checked_add(1)?,
        Bound::Excluded(&to) => to,
        Bound::Unbounded => len,
    };
    Some((from, to))
}

/// The rows of a range, of which there may be fewer.
fn rows_of(rows: &impl RangeBounds<usize>) -> (usize, usize) {
    // A number past the last one starts or ends past every row.
    let from = match rows.start_bound() {
        Bound::Included(&from) => from,
        Bound::Excluded(&before) => before.saturating_add(1),
        Bound::Unbounded => 0,
    };
    let to = match rows.end_bound() {
        Bound::Included(&last) => last.saturating_add(1),
        Bound::Excluded(&to) => to,
        Bound::Unbounded => usize::MAX,
    };
    (from, to)
}
