//! Calls of the library as data, and what they answer.
use std::fmt;

/// The calls of include/rope_search.h, but for `changed` and `counted`, which are read after each
/// command. The comments name the numbers of a call; its `bytes` are its text.
///
/// Calls that the model lacks: none.
#[derive(Debug, Clone, Copy, PartialEq, Eq)]
pub enum Kind {
    /// The limit.
    Open,
    Close,
    SetText,
    BeginText,
    AppendPart,
    EndText,
    CancelText,
    /// Two positions.
    Edit,
    /// Two positions and a length for each edit.
    EditAll,
    /// Two offsets.
    EditBytes,
    Undo,
    Redo,
    SetPattern,
    PatternError,
    /// The room.
    Escape,
    Off,
    /// A position.
    Next,
    /// A position and the room.
    NextAll,
    Replace,
    /// A line and a number.
    ReplaceMatch,
    /// Two lines.
    ReplaceListed,
    Fork,
    /// A number.
    Choose,
    Forget,
    /// A number of steps.
    Keep,
    /// A number of steps.
    Join,
    Buffers,
    Chosen,
    CanUndo,
    CanRedo,
    UndoSteps,
    RedoSteps,
    TextLen,
    TextLines,
    /// Two offsets and the room.
    CopyText,
    /// A position.
    ByteOf,
    /// An offset.
    PositionOf,
    /// Bits and a position.
    ColumnIn,
    /// Bits, a line and a column.
    PositionIn,
    /// Bits, a line and a column.
    Clamp,
    /// A line and bits.
    LineLen,
    /// A line and the room.
    CopyLine,
    Rows,
    /// Two rows.
    CountMatches,
    /// Two rows and the room.
    CopyMatches,
    /// Bits, two rows and the room.
    CopyMatchesIn,
    /// A line, a number and the room.
    GroupsAt,
    /// A position.
    ListedFrom,
    /// A position.
    ListedBefore,
    /// A line and a number.
    ListIndex,
    /// The room.
    TextChanges,
    Version,
    BeginPattern,
    /// A number of lines.
    Advance,
    Cancel,
    Pending,
    /// Two lines.
    CountPending,
    /// Two lines and the room.
    CopyPending,
    /// Two lines and the room.
    Window,
}

/// Calls that read, and two that are not seen but by their count.
pub const READS: [Kind; 29] = [
    Kind::Buffers,
    Kind::Chosen,
    Kind::CanUndo,
    Kind::CanRedo,
    Kind::UndoSteps,
    Kind::RedoSteps,
    Kind::TextLen,
    Kind::TextLines,
    Kind::Version,
    Kind::CopyText,
    Kind::ByteOf,
    Kind::PositionOf,
    Kind::ColumnIn,
    Kind::PositionIn,
    Kind::Clamp,
    Kind::LineLen,
    Kind::CopyLine,
    Kind::CountMatches,
    Kind::CopyMatches,
    Kind::CopyMatchesIn,
    Kind::GroupsAt,
    Kind::ListedFrom,
    Kind::ListedBefore,
    Kind::ListIndex,
    Kind::TextChanges,
    Kind::Pending,
    Kind::CountPending,
    Kind::CopyPending,
    Kind::Window,
];

impl Kind {
    /// Whether memory may be refused to it; `undo` and `redo` need some only under a pattern, `join`
    /// only for two steps or more.
    pub fn may_need_memory(self) -> bool {
        use Kind::*;
        matches!(
            self,
            Open | SetText
                | AppendPart
                | EndText
                | Edit
                | EditAll
                | EditBytes
                | Undo
                | Redo
                | SetPattern
                | PatternError
                | Escape
                | Next
                | NextAll
                | Replace
                | ReplaceMatch
                | ReplaceListed
                | Fork
                | Join
                | GroupsAt
                | BeginPattern
                | Advance
                | Window
        )
    }

    /// Whether it may change what is seen of a session, or what it counted.
    pub fn is_command(self) -> bool {
        use Kind::*;
        matches!(
            self,
            Open | Close
                | SetText
                | BeginText
                | AppendPart
                | EndText
                | CancelText
                | Edit
                | EditAll
                | EditBytes
                | Undo
                | Redo
                | SetPattern
                | Off
                | Next
                | NextAll
                | Replace
                | ReplaceMatch
                | ReplaceListed
                | Fork
                | Choose
                | Forget
                | Keep
                | Join
                | PatternError
                | Escape
                | GroupsAt
                | BeginPattern
                | Advance
                | Cancel
                | Window
        )
    }

    /// Whether it changes which rows were replaced last, if it is accepted. Of `advance` the last slice
    /// does, too.
    pub fn replaces_rows(self) -> bool {
        use Kind::*;
        matches!(
            self,
            SetText
                | EndText
                | Edit
                | EditAll
                | EditBytes
                | Undo
                | Redo
                | SetPattern
                | Off
                | Replace
                | ReplaceMatch
                | ReplaceListed
        )
    }
}

/// A request for memory that is refused: the one of this number, and perhaps all that follow.
#[derive(Debug, Clone, Copy, PartialEq)]
pub struct Refusal {
    pub number: u64,
    pub all: bool,
}

#[derive(Debug, Clone, PartialEq)]
pub struct Call {
    pub kind: Kind,
    pub numbers: Vec<u64>,
    pub bytes: Vec<u8>,
    pub refusal: Option<Refusal>,
}

impl Call {
    pub fn new(kind: Kind, numbers: &[u64], bytes: &[u8]) -> Call {
        Call { kind, numbers: numbers.to_vec(), bytes: bytes.to_vec(), refusal: None }
    }
}

/// What a call answers. `numbers` is what it wrote, empty if it wrote nothing.
#[derive(Debug, Clone, PartialEq, Default)]
pub struct Answer {
    pub status: u64,
    pub numbers: Vec<u64>,
    pub bytes: Vec<u8>,
}

impl Answer {
    pub fn new(status: u64, numbers: Vec<u64>) -> Answer {
        Answer { status, numbers, bytes: Vec::new() }
    }
}

/// The answers of calls that may be refused.
pub const DONE: u64 = 0;
pub const NONE: u64 = 1;
pub const RANGE: u64 = 2;
pub const UTF8: u64 = 3;
pub const PATTERN: u64 = 4;
pub const LIMIT: u64 = 5;
pub const SIZE: u64 = 6;
pub const MEMORY: u64 = 7;
pub const CLOSED: u64 = 8;

/// Bytes as they are shown in a report: long ones in part.
fn shown(bytes: &[u8]) -> String {
    let escaped = |part: &[u8]| part.escape_ascii().to_string();
    if bytes.len() <= 300 {
        return format!("\"{}\"", escaped(bytes));
    }
    let (front, back) = (&bytes[..200], &bytes[bytes.len() - 60..]);
    format!("\"{}\" .. \"{}\" ({} bytes)", escaped(front), escaped(back), bytes.len())
}

fn shown_numbers(numbers: &[u64]) -> String {
    let front = numbers.iter().take(60).map(|number| format!(" {number}")).collect::<String>();
    if numbers.len() <= 60 { front } else { format!("{front} .. ({} numbers)", numbers.len()) }
}

impl fmt::Display for Call {
    fn fmt(&self, to: &mut fmt::Formatter) -> fmt::Result {
        write!(to, "{:?}{}", self.kind, shown_numbers(&self.numbers))?;
        if !self.bytes.is_empty() {
            write!(to, " {}", shown(&self.bytes))?;
        }
        match self.refusal {
            Some(Refusal { number, all: true }) => write!(to, ", requests from {number} refused"),
            Some(Refusal { number, all: false }) => write!(to, ", request {number} refused"),
            None => Ok(()),
        }
    }
}

impl fmt::Display for Answer {
    fn fmt(&self, to: &mut fmt::Formatter) -> fmt::Result {
        write!(to, "{}:{}", self.status, shown_numbers(&self.numbers))?;
        if self.bytes.is_empty() { Ok(()) } else { write!(to, " {}", shown(&self.bytes)) }
    }
}

fn in_hex(bytes: &[u8]) -> String {
    bytes.iter().map(|byte| format!("{byte:02x}")).collect()
}

fn in_a_row(numbers: &[u64]) -> String {
    numbers.iter().map(u64::to_string).collect::<Vec<String>>().join(" ")
}

/// A call and its answer as a line for tests/sessions/plain_sessions.py: the name, the numbers and the bytes
/// in hexadecimal of the call, then the status, the numbers and the bytes of the answer.
pub fn told(call: &Call, answer: &Answer) -> String {
    format!(
        "{:?}|{}|{}|{}|{}|{}",
        call.kind,
        in_a_row(&call.numbers),
        in_hex(&call.bytes),
        answer.status,
        in_a_row(&answer.numbers),
        in_hex(&answer.bytes)
    )
}
