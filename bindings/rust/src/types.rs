//! Positions, matches and the other values that calls take and return.
use std::ops::Range;

/// A line, and a column in it. Both begin at 0; a column counts UTF-16 code units from the line's start.
///
/// Calls take anything that turns into a position, such as a pair:
///
/// ```
/// use rope_search::Position;
///
/// assert_eq!(Position::from((1, 3)), Position { line: 1, column: 3 });
/// assert!(Position::new(1, 3) < Position::new(2, 0));
/// ```
#[repr(C)]
#[derive(Clone, Copy, Debug, Default, PartialEq, Eq, PartialOrd, Ord, Hash)]
pub struct Position {
    /// The line, from 0.
    pub line: usize,
    /// The UTF-16 code units from the line's start.
    pub column: usize,
}

impl Position {
    /// Makes a position of a line and a column.
    pub const fn new(line: usize, column: usize) -> Position {
        Position { line, column }
    }
}

impl From<(usize, usize)> for Position {
    fn from((line, column): (usize, usize)) -> Position {
        Position { line, column }
    }
}

impl From<Position> for (usize, usize) {
    fn from(position: Position) -> (usize, usize) {
        (position.line, position.column)
    }
}

/// A match in the whole text, which may span lines.
#[repr(C)]
#[derive(Clone, Copy, Debug, Default, PartialEq, Eq, Hash)]
pub struct Match {
    /// Where it starts.
    pub start: Position,
    /// Where it ends.
    pub stop: Position,
}

impl Match {
    /// Returns the positions from start to end.
    pub fn range(&self) -> Range<Position> {
        self.start..self.stop
    }

    /// Returns whether the match is empty.
    pub fn is_empty(&self) -> bool {
        self.start == self.stop
    }
}

/// A match of a report: its line, its number in the row of that line, and the columns where it starts and ends.
#[repr(C)]
#[derive(Clone, Copy, Debug, Default, PartialEq, Eq, PartialOrd, Ord, Hash)]
pub struct Listed {
    /// The line.
    pub line: usize,
    /// The number of the match in the row of that line, from 0.
    pub number: usize,
    /// The column where it starts.
    pub start: usize,
    /// The column where it ends.
    pub stop: usize,
}

/// A match in a line, or a group of it: the columns where it starts and ends.
#[repr(C)]
#[derive(Clone, Copy, Debug, Default, PartialEq, Eq, PartialOrd, Ord, Hash)]
pub struct Span {
    /// The line, from 0.
    pub line: usize,
    /// The column where it starts.
    pub start: usize,
    /// The column where it ends.
    pub stop: usize,
}

impl Span {
    /// Returns the positions from start to end, as [`Session::edit`](crate::Session::edit) takes them.
    pub fn range(&self) -> Range<Position> {
        Position::new(self.line, self.start)..Position::new(self.line, self.stop)
    }

    /// Returns the columns from start to end.
    pub fn columns(&self) -> Range<usize> {
        self.start..self.stop
    }

    /// Returns whether the span is empty.
    pub fn is_empty(&self) -> bool {
        self.start == self.stop
    }
}

/// The groups 0 to 9 of a match: the first is the match, and `None` is a group that takes no part in it, or
/// that the pattern does not have.
pub type Groups = [Option<Span>; 10];

/// An edit of several that are made as one, by [`Session::edit_all`](crate::Session::edit_all): what is
/// from one position to another is replaced by a text.
#[derive(Clone, Debug, PartialEq, Eq, Hash)]
pub struct TextEdit<T> {
    /// Where the replaced part starts.
    pub start: Position,
    /// Where it ends.
    pub stop: Position,
    /// What takes its place: a `str`, or bytes that are UTF-8.
    pub text: T,
}

impl<T> TextEdit<T> {
    /// Makes an edit of a range of positions and a text.
    pub fn new<P: Into<Position>>(range: Range<P>, text: T) -> TextEdit<T> {
        TextEdit {
            start: range.start.into(),
            stop: range.end.into(),
            text,
        }
    }
}

/// The rows of a report that a command replaced: `removed` rows of the old report, from `first` on, were
/// replaced by `added` rows of the new one. All rows before them are as they were, and so are all after
/// them, which may have moved.
#[repr(C)]
#[derive(Clone, Copy, Debug, Default, PartialEq, Eq, Hash)]
pub struct Stretch {
    /// The first row.
    pub first: usize,
    /// How many rows of the old report are gone.
    pub removed: usize,
    /// How many rows of the new report are in their place.
    pub added: usize,
}

impl Stretch {
    /// Returns the rows of the old report that are gone.
    pub fn old_rows(&self) -> Range<usize> {
        self.first..self.first + self.removed
    }

    /// Returns the rows of the new report in their place, as
    /// [`Session::matches`](crate::Session::matches) takes them.
    pub fn new_rows(&self) -> Range<usize> {
        self.first..self.first + self.added
    }
}

/// A range of the old text and the range of the new text that took its place, in bytes. Either may be empty.
#[repr(C)]
#[derive(Clone, Copy, Debug, Default, PartialEq, Eq, Hash)]
pub struct TextChange {
    /// Where the old range starts, in the old text.
    pub old_start: usize,
    /// Where it ends.
    pub old_end: usize,
    /// Where the new range starts, in the new text.
    pub new_start: usize,
    /// Where it ends.
    pub new_end: usize,
}

impl TextChange {
    /// Returns the range of the old text that is gone.
    pub fn old_range(&self) -> Range<usize> {
        self.old_start..self.old_end
    }

    /// Returns the range of the new text in its place.
    pub fn new_range(&self) -> Range<usize> {
        self.new_start..self.new_end
    }
}

/// What a session counted since it was opened.
#[repr(C)]
#[derive(Clone, Copy, Debug, Default, PartialEq, Eq, Hash)]
pub struct Counts {
    /// The rows that were searched.
    pub rows: u64,
    /// The searches of a whole text.
    pub wholes: u64,
}

/// What columns count instead of UTF-16 code units, as a language server may agree on with its editor.
#[derive(Clone, Copy, Debug, PartialEq, Eq, Hash)]
#[non_exhaustive]
pub enum Encoding {
    /// Bytes of UTF-8.
    Utf8,
    /// UTF-16 code units, which the columns of a [`Position`] count.
    Utf16,
    /// Unicode scalar values.
    Utf32,
}

impl Encoding {
    /// The number by which the C library names it.
    pub(crate) fn bits(self) -> u32 {
        match self {
            Encoding::Utf8 => 8,
            Encoding::Utf16 => 16,
            Encoding::Utf32 => 32,
        }
    }
}
