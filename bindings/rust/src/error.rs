//! Why a call is refused, and why bytes are no pattern.
use std::fmt;

/// What a call returns that may be refused.
pub type Result<T> = std::result::Result<T, Error>;

/// Why a call is refused. The session is then as it was before the call.
///
/// If several reasons apply, the first in the order of the variants is reported; [`Memory`](Error::Memory) may
/// take the place of any other.
#[derive(Clone, Copy, Debug, PartialEq, Eq, Hash)]
#[non_exhaustive]
pub enum Error {
    /// There is no such buffer, no pattern, or no text to go back or forward to.
    Nothing,
    /// A position is nowhere in the text, or positions are out of order.
    Range,
    /// The bytes are not UTF-8. No call reports this for a `str`.
    Utf8,
    /// The text is no pattern.
    Pattern(PatternError),
    /// The pattern has more than 65,536 bytes, or weighs too much.
    Limit,
    /// The text, or the template, would have more bytes than the session's limit.
    Size,
    /// Memory was refused.
    Memory,
    /// The session is not open. No call of a [`Session`](crate::Session) reports this.
    Closed,
    /// A status that this version of the package does not know, of a newer library.
    Unknown(u32),
}

impl Error {
    /// The error of a status, or `None` for success. That of a pattern has no place yet.
    pub(crate) fn of(status: u32) -> Option<Error> {
        Some(match status {
            0 => return None,
            1 => Error::Nothing,
            2 => Error::Range,
            3 => Error::Utf8,
            4 => Error::Pattern(PatternError {
                place: 0,
                reason: Reason::Unknown(0),
            }),
            5 => Error::Limit,
            6 => Error::Size,
            7 => Error::Memory,
            8 => Error::Closed,
            _ => Error::Unknown(status),
        })
    }

    /// Returns the word by which the protocol of `rope-search` names the error, as in `error range`.
    ///
    /// ```
    /// assert_eq!(rope_search::Error::Range.word(), "range");
    /// ```
    pub fn word(&self) -> &'static str {
        match self {
            Error::Nothing => "none",
            Error::Range => "range",
            Error::Utf8 => "utf8",
            Error::Pattern(_) => "pattern",
            Error::Limit => "limit",
            Error::Size => "size",
            Error::Memory => "memory",
            Error::Closed => "closed",
            Error::Unknown(_) => "unknown",
        }
    }
}

impl fmt::Display for Error {
    fn fmt(&self, f: &mut fmt::Formatter<'_>) -> fmt::Result {
        f.write_str(match self {
            Error::Nothing => {
                "there is no such buffer, no pattern, or no text to go back or forward to"
            }
            Error::Range => "a position is nowhere in the text, or positions are out of order",
            Error::Utf8 => "the bytes are not UTF-8",
            Error::Pattern(error) => return error.fmt(f),
            Error::Limit => "the pattern is too long, or weighs too much",
            Error::Size => "the text or the template would have more bytes than the limit",
            Error::Memory => "out of memory",
            Error::Closed => "the session is closed",
            Error::Unknown(status) => return write!(f, "the library returned the status {status}"),
        })
    }
}

impl std::error::Error for Error {
    fn source(&self) -> Option<&(dyn std::error::Error + 'static)> {
        match self {
            Error::Pattern(error) => Some(error),
            _ => None,
        }
    }
}

/// Where and why a text is no pattern.
///
/// ```
/// use rope_search::{Error, PatternError, Reason, Session};
///
/// let mut session = Session::new()?;
/// let error = session.set_pattern("one|(two").unwrap_err();
/// let expected = PatternError { place: 8, reason: Reason::OpenGroup };
/// assert_eq!(error, Error::Pattern(expected));
/// assert_eq!(error.to_string(), "a group isn't closed, at byte 8");
/// # Ok::<(), Error>(())
/// ```
#[derive(Clone, Copy, Debug, PartialEq, Eq, Hash)]
pub struct PatternError {
    /// The byte at which the first character begins that can't be there; the length of the text if it
    /// ends too early.
    pub place: usize,
    /// Why the character can't be there.
    pub reason: Reason,
}

impl fmt::Display for PatternError {
    fn fmt(&self, f: &mut fmt::Formatter<'_>) -> fmt::Result {
        write!(f, "{}, at byte {}", self.reason, self.place)
    }
}

impl std::error::Error for PatternError {}

macro_rules! reasons {
    ($($number:literal $name:ident $message:literal,)*) => {
        /// Why a text is no pattern.
        #[derive(Clone, Copy, Debug, PartialEq, Eq, Hash)]
        #[non_exhaustive]
        pub enum Reason {
            $(#[doc = concat!("\"", $message, "\"")] $name,)*
            /// A reason that this version of the package does not know, of a newer library.
            Unknown(u32),
        }

        impl Reason {
            /// The reason of a number of the C library.
            pub(crate) fn of(number: u32) -> Reason {
                match number {
                    $($number => Reason::$name,)*
                    _ => Reason::Unknown(number),
                }
            }
        }

        impl fmt::Display for Reason {
            fn fmt(&self, f: &mut fmt::Formatter<'_>) -> fmt::Result {
                match self {
                    $(Reason::$name => f.write_str($message),)*
                    Reason::Unknown(number) => write!(f, "the text is no pattern (reason {number})"),
                }
            }
        }
    };
}

reasons! {
    1 Nesting "the pattern is nested too deeply",
    2 OpenGroup "a group isn't closed",
    3 NoOpenGroup "a parenthesis closes no group",
    4 NothingToRepeat "there is nothing to repeat",
    5 Count "a count isn't finished, or isn't one",
    6 LargeCount "a count is above 65,535",
    7 CountOrder "the greatest number of a count is below the least one",
    8 Escape "an escape isn't finished, or isn't one",
    9 Scalar "the number of an escape is no character's",
    10 OpenClass "a class isn't closed",
    11 ClassItem "a class has no such item",
    12 RangeOrder "a range of characters runs backwards",
    13 GroupHead "the head of a group isn't finished, or isn't one",
    14 RepeatedName "two groups have one name",
    15 Dot "`.` stands beside a line terminator that isn't an ASCII byte",
}
