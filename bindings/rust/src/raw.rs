//! The calls of `include/rope_search.h`, and a handle that keeps what the header asks of a caller. This is
//! the only module with `unsafe` code.
//!
//! A [`Handle`] is zeroed before it is opened, is never copied, is closed once, and stays on its thread. The
//! calls that read take `&self`: the library changes the handle while a call runs, so it is in a cell. No
//! call calls back.
#![allow(unsafe_code)]

use crate::error::{Error, Result};
use crate::types::{Counts, Listed, Match, Position, Span, Stretch, TextChange};
use std::cell::UnsafeCell;
use std::ffi::c_void;
use std::ptr;

#[repr(C)]
struct RawSession {
    at: *mut c_void,
    is_open: bool,
}

#[repr(C)]
#[derive(Clone, Copy)]
struct RawMatch {
    found: bool,
    start: Position,
    stop: Position,
}

#[repr(C)]
#[derive(Clone, Copy)]
struct RawGroup {
    found: bool,
    line: usize,
    start: usize,
    stop: usize,
}

#[repr(C)]
#[derive(Clone, Copy)]
struct RawReason {
    reason: u32,
    place: usize,
}

/// An edit of several, whose texts follow one another: `len` is the number of bytes of its own.
#[repr(C)]
#[derive(Clone, Copy, Debug)]
pub(crate) struct RawEdit {
    pub from: Position,
    pub to: Position,
    pub len: usize,
}

extern "C" {
    fn rope_search_version() -> u32;
    fn rope_search_open(limit: usize, session: *mut RawSession) -> u32;
    fn rope_search_close(session: *mut RawSession);
    fn rope_search_set_text(session: *mut RawSession, text: *const u8, len: usize) -> u32;
    fn rope_search_edit(
        session: *mut RawSession,
        from: Position,
        to: Position,
        text: *const u8,
        len: usize,
    ) -> u32;
    fn rope_search_edit_all(
        session: *mut RawSession,
        edits: *const RawEdit,
        count: usize,
        text: *const u8,
        len: usize,
    ) -> u32;
    fn rope_search_edit_bytes(
        session: *mut RawSession,
        from: usize,
        to: usize,
        text: *const u8,
        len: usize,
    ) -> u32;
    fn rope_search_undo(session: *mut RawSession) -> u32;
    fn rope_search_redo(session: *mut RawSession) -> u32;
    fn rope_search_set_pattern(session: *mut RawSession, pattern: *const u8, len: usize) -> u32;
    fn rope_search_pattern_error(pattern: *const u8, len: usize, error: *mut RawReason) -> u32;
    fn rope_search_escape(
        text: *const u8,
        len: usize,
        out: *mut u8,
        out_len: usize,
        pattern_len: *mut usize,
    ) -> u32;
    fn rope_search_off(session: *mut RawSession) -> u32;
    fn rope_search_next(session: *mut RawSession, from: Position, found: *mut RawMatch) -> u32;
    fn rope_search_next_all(
        session: *mut RawSession,
        from: Position,
        out: *mut Match,
        out_len: usize,
        count: *mut usize,
    ) -> u32;
    fn rope_search_replace(
        session: *mut RawSession,
        by: *const u8,
        len: usize,
        count: *mut usize,
    ) -> u32;
    fn rope_search_replace_match(
        session: *mut RawSession,
        line: usize,
        number: usize,
        by: *const u8,
        len: usize,
    ) -> u32;
    fn rope_search_replace_listed(
        session: *mut RawSession,
        from: usize,
        to: usize,
        by: *const u8,
        len: usize,
        count: *mut usize,
    ) -> u32;
    fn rope_search_fork(session: *mut RawSession, number: *mut usize) -> u32;
    fn rope_search_choose(session: *mut RawSession, number: u64) -> u32;
    fn rope_search_forget(session: *mut RawSession) -> u32;
    fn rope_search_keep(session: *mut RawSession, steps: usize) -> u32;
    fn rope_search_join(session: *mut RawSession, steps: usize) -> u32;
    fn rope_search_buffers(session: *mut RawSession) -> usize;
    fn rope_search_chosen(session: *mut RawSession) -> usize;
    fn rope_search_can_undo(session: *mut RawSession) -> bool;
    fn rope_search_can_redo(session: *mut RawSession) -> bool;
    fn rope_search_undo_steps(session: *mut RawSession) -> usize;
    fn rope_search_redo_steps(session: *mut RawSession) -> usize;
    fn rope_search_text_len(session: *mut RawSession) -> usize;
    fn rope_search_text_lines(session: *mut RawSession) -> usize;
    fn rope_search_copy_text(
        session: *mut RawSession,
        from: usize,
        to: usize,
        out: *mut u8,
        out_len: usize,
    ) -> bool;
    fn rope_search_byte_of(session: *mut RawSession, position: Position, byte: *mut usize) -> u32;
    fn rope_search_position_of(
        session: *mut RawSession,
        byte: usize,
        position: *mut Position,
    ) -> u32;
    fn rope_search_column_in(
        session: *mut RawSession,
        bits: u32,
        position: Position,
        column: *mut usize,
    ) -> u32;
    fn rope_search_position_in(
        session: *mut RawSession,
        bits: u32,
        line: usize,
        column: usize,
        position: *mut Position,
    ) -> u32;
    fn rope_search_clamp(
        session: *mut RawSession,
        bits: u32,
        line: usize,
        column: usize,
        position: *mut Position,
    ) -> u32;
    fn rope_search_line_len(
        session: *mut RawSession,
        line: usize,
        bits: u32,
        len: *mut usize,
    ) -> u32;
    fn rope_search_copy_line(
        session: *mut RawSession,
        line: usize,
        out: *mut u8,
        out_len: usize,
    ) -> bool;
    fn rope_search_rows(session: *mut RawSession) -> usize;
    fn rope_search_count_matches(session: *mut RawSession, from: usize, to: usize) -> usize;
    fn rope_search_copy_matches(
        session: *mut RawSession,
        from: usize,
        to: usize,
        out: *mut Span,
        out_len: usize,
    ) -> usize;
    fn rope_search_copy_matches_in(
        session: *mut RawSession,
        bits: u32,
        from: usize,
        to: usize,
        out: *mut Span,
        out_len: usize,
    ) -> usize;
    fn rope_search_groups_at(
        session: *mut RawSession,
        line: usize,
        number: usize,
        out: *mut RawGroup,
        out_len: usize,
    ) -> u32;
    fn rope_search_listed_from(
        session: *mut RawSession,
        position: Position,
        found: *mut Listed,
    ) -> bool;
    fn rope_search_listed_before(
        session: *mut RawSession,
        position: Position,
        found: *mut Listed,
    ) -> bool;
    fn rope_search_list_index(
        session: *mut RawSession,
        line: usize,
        number: usize,
        index: *mut usize,
        count: *mut usize,
    ) -> bool;
    fn rope_search_changed(session: *mut RawSession) -> Stretch;
    fn rope_search_text_changes(
        session: *mut RawSession,
        out: *mut TextChange,
        out_len: usize,
    ) -> usize;
    fn rope_search_begin_text(session: *mut RawSession) -> u32;
    fn rope_search_append_part(session: *mut RawSession, part: *const u8, len: usize) -> u32;
    fn rope_search_end_text(session: *mut RawSession) -> u32;
    fn rope_search_cancel_text(session: *mut RawSession) -> u32;
    fn rope_search_begin_pattern(session: *mut RawSession, pattern: *const u8, len: usize) -> u32;
    fn rope_search_advance(session: *mut RawSession, max_lines: usize, done: *mut bool) -> u32;
    fn rope_search_cancel(session: *mut RawSession) -> u32;
    fn rope_search_pending(session: *mut RawSession, lines: *mut usize) -> bool;
    fn rope_search_count_pending(
        session: *mut RawSession,
        from: usize,
        to: usize,
        count: *mut usize,
    ) -> u32;
    fn rope_search_copy_pending(
        session: *mut RawSession,
        from: usize,
        to: usize,
        out: *mut Span,
        out_len: usize,
        count: *mut usize,
    ) -> u32;
    fn rope_search_window(
        session: *mut RawSession,
        from: usize,
        to: usize,
        out: *mut Span,
        out_len: usize,
        count: *mut usize,
    ) -> u32;
    fn rope_search_counted(session: *mut RawSession) -> Counts;
}

/// What a call returned that may be refused.
fn check(status: u32) -> Result<()> {
    Error::of(status).map_or(Ok(()), Err)
}

/// The version of the library.
pub(crate) fn version() -> u32 {
    // SAFETY: it takes nothing.
    unsafe { rope_search_version() }
}

/// Why bytes are no pattern: the number of the reason, 0 if there is none, and the byte.
pub(crate) fn pattern_error(pattern: &[u8]) -> Result<(u32, usize)> {
    let mut error = RawReason {
        reason: 0,
        place: 0,
    };
    // SAFETY: the pointers are those of a slice, with its length, and of a local variable.
    check(unsafe { rope_search_pattern_error(pattern.as_ptr(), pattern.len(), &mut error) })?;
    Ok((error.reason, error.place))
}

/// Copies the pattern that matches a text only to the front of `out`, if it fits: the number of its bytes.
pub(crate) fn escape(text: &[u8], out: &mut [u8]) -> Result<usize> {
    let mut pattern_len = 0;
    let (text, len, room) = (text.as_ptr(), text.len(), out.len());
    // SAFETY: the pointers are those of slices, with their lengths, and of a local variable.
    check(unsafe { rope_search_escape(text, len, out.as_mut_ptr(), room, &mut pattern_len) })?;
    Ok(pattern_len)
}

/// An open session, which is closed when this is dropped.
///
/// It is neither `Send` nor `Sync`, since it has a raw pointer.
pub(crate) struct Handle(UnsafeCell<RawSession>);

// SAFETY, of each call below: the session is open, is the only copy, and is used by one thread, since a
// `Handle` is not `Send` and not `Sync`; no two calls run at a time, since none calls back. The other
// pointers are those of slices, with their lengths, which are never null, or of local variables.
impl Handle {
    pub fn open(limit: usize) -> Result<Handle> {
        let mut session = RawSession {
            at: ptr::null_mut(),
            is_open: false,
        };
        check(unsafe { rope_search_open(limit, &mut session) })?;
        Ok(Handle(UnsafeCell::new(session)))
    }

    fn ptr(&self) -> *mut RawSession {
        self.0.get()
    }

    pub fn set_text(&mut self, text: &[u8]) -> Result<()> {
        check(unsafe { rope_search_set_text(self.ptr(), text.as_ptr(), text.len()) })
    }

    pub fn edit(&mut self, from: Position, to: Position, text: &[u8]) -> Result<()> {
        check(unsafe { rope_search_edit(self.ptr(), from, to, text.as_ptr(), text.len()) })
    }

    pub fn edit_all(&mut self, edits: &[RawEdit], text: &[u8]) -> Result<()> {
        let (edits, count) = (edits.as_ptr(), edits.len());
        check(unsafe { rope_search_edit_all(self.ptr(), edits, count, text.as_ptr(), text.len()) })
    }

    pub fn edit_bytes(&mut self, from: usize, to: usize, text: &[u8]) -> Result<()> {
        let (text, len) = (text.as_ptr(), text.len());
        check(unsafe { rope_search_edit_bytes(self.ptr(), from, to, text, len) })
    }

    pub fn undo(&mut self) -> Result<()> {
        check(unsafe { rope_search_undo(self.ptr()) })
    }

    pub fn redo(&mut self) -> Result<()> {
        check(unsafe { rope_search_redo(self.ptr()) })
    }

    pub fn set_pattern(&mut self, pattern: &[u8]) -> Result<()> {
        check(unsafe { rope_search_set_pattern(self.ptr(), pattern.as_ptr(), pattern.len()) })
    }

    pub fn off(&mut self) -> Result<()> {
        check(unsafe { rope_search_off(self.ptr()) })
    }

    pub fn next(&self, from: Position) -> Result<Option<Match>> {
        let nowhere = Position { line: 0, column: 0 };
        let mut told = RawMatch {
            found: false,
            start: nowhere,
            stop: nowhere,
        };
        check(unsafe { rope_search_next(self.ptr(), from, &mut told) })?;
        Ok(told.found.then_some(Match {
            start: told.start,
            stop: told.stop,
        }))
    }

    pub fn next_all(&self, from: Position, out: &mut [Match]) -> Result<usize> {
        let (out, len, mut count) = (out.as_mut_ptr(), out.len(), 0);
        check(unsafe { rope_search_next_all(self.ptr(), from, out, len, &mut count) })?;
        Ok(count)
    }

    pub fn replace(&mut self, template: &[u8]) -> Result<usize> {
        let (by, len, mut count) = (template.as_ptr(), template.len(), 0);
        check(unsafe { rope_search_replace(self.ptr(), by, len, &mut count) })?;
        Ok(count)
    }

    pub fn replace_match(&mut self, line: usize, number: usize, template: &[u8]) -> Result<()> {
        let (by, len) = (template.as_ptr(), template.len());
        check(unsafe { rope_search_replace_match(self.ptr(), line, number, by, len) })
    }

    pub fn replace_listed(&mut self, from: usize, to: usize, template: &[u8]) -> Result<usize> {
        let (by, len, mut count) = (template.as_ptr(), template.len(), 0);
        check(unsafe { rope_search_replace_listed(self.ptr(), from, to, by, len, &mut count) })?;
        Ok(count)
    }

    pub fn fork(&mut self) -> Result<usize> {
        let mut number = 0;
        check(unsafe { rope_search_fork(self.ptr(), &mut number) })?;
        Ok(number)
    }

    pub fn choose(&mut self, number: u64) -> Result<()> {
        check(unsafe { rope_search_choose(self.ptr(), number) })
    }

    pub fn forget(&mut self) -> Result<()> {
        check(unsafe { rope_search_forget(self.ptr()) })
    }

    pub fn keep(&mut self, steps: usize) -> Result<()> {
        check(unsafe { rope_search_keep(self.ptr(), steps) })
    }

    pub fn join(&mut self, steps: usize) -> Result<()> {
        check(unsafe { rope_search_join(self.ptr(), steps) })
    }

    pub fn buffers(&self) -> usize {
        unsafe { rope_search_buffers(self.ptr()) }
    }

    pub fn chosen(&self) -> usize {
        unsafe { rope_search_chosen(self.ptr()) }
    }

    pub fn can_undo(&self) -> bool {
        unsafe { rope_search_can_undo(self.ptr()) }
    }

    pub fn can_redo(&self) -> bool {
        unsafe { rope_search_can_redo(self.ptr()) }
    }

    pub fn undo_steps(&self) -> usize {
        unsafe { rope_search_undo_steps(self.ptr()) }
    }

    pub fn redo_steps(&self) -> usize {
        unsafe { rope_search_redo_steps(self.ptr()) }
    }

    pub fn text_len(&self) -> usize {
        unsafe { rope_search_text_len(self.ptr()) }
    }

    pub fn text_lines(&self) -> usize {
        unsafe { rope_search_text_lines(self.ptr()) }
    }

    pub fn copy_text(&self, from: usize, to: usize, out: &mut [u8]) -> bool {
        unsafe { rope_search_copy_text(self.ptr(), from, to, out.as_mut_ptr(), out.len()) }
    }

    pub fn byte_of(&self, position: Position) -> Result<usize> {
        let mut byte = 0;
        check(unsafe { rope_search_byte_of(self.ptr(), position, &mut byte) })?;
        Ok(byte)
    }

    pub fn position_of(&self, byte: usize) -> Result<Position> {
        let mut position = Position { line: 0, column: 0 };
        check(unsafe { rope_search_position_of(self.ptr(), byte, &mut position) })?;
        Ok(position)
    }

    pub fn column_in(&self, bits: u32, position: Position) -> Result<usize> {
        let mut column = 0;
        check(unsafe { rope_search_column_in(self.ptr(), bits, position, &mut column) })?;
        Ok(column)
    }

    pub fn position_in(&self, bits: u32, line: usize, column: usize) -> Result<Position> {
        let mut position = Position { line: 0, column: 0 };
        check(unsafe { rope_search_position_in(self.ptr(), bits, line, column, &mut position) })?;
        Ok(position)
    }

    pub fn clamp(&self, bits: u32, line: usize, column: usize) -> Result<Position> {
        let mut position = Position { line: 0, column: 0 };
        check(unsafe { rope_search_clamp(self.ptr(), bits, line, column, &mut position) })?;
        Ok(position)
    }

    pub fn line_len(&self, line: usize, bits: u32) -> Result<usize> {
        let mut len = 0;
        check(unsafe { rope_search_line_len(self.ptr(), line, bits, &mut len) })?;
        Ok(len)
    }

    pub fn copy_line(&self, line: usize, out: &mut [u8]) -> bool {
        unsafe { rope_search_copy_line(self.ptr(), line, out.as_mut_ptr(), out.len()) }
    }

    pub fn rows(&self) -> usize {
        unsafe { rope_search_rows(self.ptr()) }
    }

    pub fn count_matches(&self, from: usize, to: usize) -> usize {
        unsafe { rope_search_count_matches(self.ptr(), from, to) }
    }

    pub fn copy_matches(&self, from: usize, to: usize, out: &mut [Span]) -> usize {
        unsafe { rope_search_copy_matches(self.ptr(), from, to, out.as_mut_ptr(), out.len()) }
    }

    pub fn copy_matches_in(&self, bits: u32, from: usize, to: usize, out: &mut [Span]) -> usize {
        let (out, len) = (out.as_mut_ptr(), out.len());
        unsafe { rope_search_copy_matches_in(self.ptr(), bits, from, to, out, len) }
    }

    pub fn groups_at(&self, line: usize, number: usize) -> Result<[Option<Span>; 10]> {
        let mut out = [RawGroup {
            found: false,
            line: 0,
            start: 0,
            stop: 0,
        }; 10];
        check(unsafe {
            rope_search_groups_at(self.ptr(), line, number, out.as_mut_ptr(), out.len())
        })?;
        Ok(out.map(|group| {
            let RawGroup {
                found,
                line,
                start,
                stop,
            } = group;
            found.then_some(Span { line, start, stop })
        }))
    }

    pub fn listed_from(&self, position: Position) -> Option<Listed> {
        let mut found = Listed::default();
        let is_found = unsafe { rope_search_listed_from(self.ptr(), position, &mut found) };
        is_found.then_some(found)
    }

    pub fn listed_before(&self, position: Position) -> Option<Listed> {
        let mut found = Listed::default();
        let is_found = unsafe { rope_search_listed_before(self.ptr(), position, &mut found) };
        is_found.then_some(found)
    }

    pub fn list_index(&self, line: usize, number: usize) -> Option<(usize, usize)> {
        let (mut index, mut count) = (0, 0);
        let is_listed =
            unsafe { rope_search_list_index(self.ptr(), line, number, &mut index, &mut count) };
        is_listed.then_some((index, count))
    }

    pub fn changed(&self) -> Stretch {
        unsafe { rope_search_changed(self.ptr()) }
    }

    pub fn text_changes(&self, out: &mut [TextChange]) -> usize {
        unsafe { rope_search_text_changes(self.ptr(), out.as_mut_ptr(), out.len()) }
    }

    pub fn begin_text(&mut self) -> Result<()> {
        check(unsafe { rope_search_begin_text(self.ptr()) })
    }

    pub fn append_part(&mut self, part: &[u8]) -> Result<()> {
        check(unsafe { rope_search_append_part(self.ptr(), part.as_ptr(), part.len()) })
    }

    pub fn end_text(&mut self) -> Result<()> {
        check(unsafe { rope_search_end_text(self.ptr()) })
    }

    pub fn cancel_text(&mut self) -> Result<()> {
        check(unsafe { rope_search_cancel_text(self.ptr()) })
    }

    pub fn begin_pattern(&mut self, pattern: &[u8]) -> Result<()> {
        let (pattern, len) = (pattern.as_ptr(), pattern.len());
        check(unsafe { rope_search_begin_pattern(self.ptr(), pattern, len) })
    }

    pub fn advance(&mut self, max_lines: usize) -> Result<bool> {
        let mut done = false;
        check(unsafe { rope_search_advance(self.ptr(), max_lines, &mut done) })?;
        Ok(done)
    }

    pub fn cancel(&mut self) -> Result<()> {
        check(unsafe { rope_search_cancel(self.ptr()) })
    }

    pub fn pending(&self) -> Option<usize> {
        let mut lines = 0;
        let is_pending = unsafe { rope_search_pending(self.ptr(), &mut lines) };
        is_pending.then_some(lines)
    }

    pub fn count_pending(&self, from: usize, to: usize) -> Result<usize> {
        let mut count = 0;
        check(unsafe { rope_search_count_pending(self.ptr(), from, to, &mut count) })?;
        Ok(count)
    }

    pub fn copy_pending(&self, from: usize, to: usize, out: &mut [Span]) -> Result<usize> {
        let (out, len, mut count) = (out.as_mut_ptr(), out.len(), 0);
        check(unsafe { rope_search_copy_pending(self.ptr(), from, to, out, len, &mut count) })?;
        Ok(count)
    }

    pub fn window(&self, from: usize, to: usize, out: &mut [Span]) -> Result<usize> {
        let (out, len, mut count) = (out.as_mut_ptr(), out.len(), 0);
        check(unsafe { rope_search_window(self.ptr(), from, to, out, len, &mut count) })?;
        Ok(count)
    }

    pub fn counted(&self) -> Counts {
        unsafe { rope_search_counted(self.ptr()) }
    }
}

impl Drop for Handle {
    fn drop(&mut self) {
        unsafe { rope_search_close(self.ptr()) }
    }
}
