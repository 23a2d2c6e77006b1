//! A regular expression kept live over a text that is edited, undone and forked: the C library
//! `librope_search` of the repository Nulastri, whose calls are proved to do what they say.
//!
//! A [`Session`] has buffers, of which one is chosen; each call is about that one. A buffer has a text with
//! its history, and perhaps a pattern; with one it has a report: a row for each line of the text, with the
//! matches in that line alone. The report is never stale: an edit searches the lines again that it touches,
//! and no others.
//!
//! ```
//! use rope_search::{Error, Session, Span};
//!
//! let mut session = Session::new()?;
//! session.set_text("one two\none")?;
//! session.set_pattern("one")?;
//! session.edit((1, 0)..(1, 0), "no ")?;
//!
//! let matches: Vec<Span> = session.matches(..).collect();
//! assert_eq!(matches[0], Span { line: 0, start: 0, stop: 3 });
//! assert_eq!(matches[1], Span { line: 1, start: 3, stop: 6 });
//! assert_eq!(session.edit((9, 0)..(9, 0), "nowhere"), Err(Error::Range));
//! # Ok::<(), Error>(())
//! ```
//!
//! Lines and columns begin at 0. A column counts UTF-16 code units from its line's start, as the Language
//! Server Protocol does. LF, CR and CR LF end a line, and nothing else does. A call that is refused returns an
//! [`Error`], and leaves the session as it was.
//!
//! # Linking
//!
//! The build script looks for the library in the folder that `ROPE_SEARCH_LIB_DIR` names, then by
//! `pkg-config`, then in `bin` and `lib` of the repository or release that this package is part of. It links
//! `librope_search.a` if it is there, so the program needs no shared library; `ROPE_SEARCH_DYNAMIC=1` asks for
//! `librope_search.so`.
//!
//! # Threads
//!
//! A session stays on its thread. Several sessions on several threads are fine.
//!
//! ```compile_fail
//! let session = rope_search::Session::new().unwrap();
//! std::thread::spawn(move || session.text_len());
//! ```
#![deny(unsafe_code, missing_docs)]
#![warn(rust_2018_idioms)]

mod error;
mod matches;
mod raw;
mod session;
mod types;

pub use error::{Error, PatternError, Reason, Result};
pub use matches::Matches;
pub use session::{escape, pattern_error, version, Session, DEFAULT_LIMIT};
pub use types::{
    Counts, Encoding, Groups, Listed, Match, Position, Span, Stretch, TextChange, TextEdit,
};
