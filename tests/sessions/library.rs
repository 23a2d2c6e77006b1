//! Calls of the library that C links.
use crate::calls::{Answer, Call, Kind, Refusal};
use crate::memory;
use std::ffi::c_void;

#[repr(C)]
struct Handle {
    at: *mut c_void,
    is_open: bool,
}

#[repr(C)]
#[derive(Clone, Copy)]
struct Position {
    line: usize,
    column: usize,
}

#[repr(C)]
#[derive(Clone, Copy)]
struct TextEdit {
    from: Position,
    to: Position,
    len: usize,
}

#[repr(C)]
#[derive(Clone, Copy)]
struct Stretch {
    first: usize,
    removed: usize,
    added: usize,
}

#[repr(C)]
#[derive(Clone, Copy)]
struct Counts {
    rows: u64,
    wholes: u64,
}

/// `rope_search_match` and `rope_search_group`, whose first field is a `bool`, as words: the first
/// one has the `bool` in its lowest byte.
type Words<const N: usize> = [usize; N];

unsafe extern "C" {
    fn rope_search_version() -> u32;
    fn rope_search_open(limit: usize, s: *mut Handle) -> u32;
    fn rope_search_close(s: *mut Handle);
    fn rope_search_set_text(s: *mut Handle, text: *const u8, len: usize) -> u32;
    fn rope_search_begin_text(s: *mut Handle) -> u32;
    fn rope_search_append_part(s: *mut Handle, part: *const u8, len: usize) -> u32;
    fn rope_search_end_text(s: *mut Handle) -> u32;
    fn rope_search_cancel_text(s: *mut Handle) -> u32;
    fn rope_search_edit(
        s: *mut Handle,
        from: Position,
        to: Position,
        text: *const u8,
        len: usize,
    ) -> u32;
    fn rope_search_edit_all(
        s: *mut Handle,
        edits: *const TextEdit,
        count: usize,
        text: *const u8,
        len: usize,
    ) -> u32;
    fn rope_search_edit_bytes(
        s: *mut Handle,
        from: usize,
        to: usize,
        text: *const u8,
        len: usize,
    ) -> u32;
    fn rope_search_undo(s: *mut Handle) -> u32;
    fn rope_search_redo(s: *mut Handle) -> u32;
    fn rope_search_set_pattern(s: *mut Handle, pattern: *const u8, len: usize) -> u32;
    fn rope_search_pattern_error(pattern: *const u8, len: usize, error: *mut Words<2>) -> u32;
    fn rope_search_escape(
        text: *const u8,
        len: usize,
        out: *mut u8,
        room: usize,
        pattern_len: *mut usize,
    ) -> u32;
    fn rope_search_off(s: *mut Handle) -> u32;
    fn rope_search_next(s: *mut Handle, from: Position, found: *mut Words<5>) -> u32;
    fn rope_search_next_all(
        s: *mut Handle,
        from: Position,
        out: *mut Words<4>,
        room: usize,
        count: *mut usize,
    ) -> u32;
    fn rope_search_replace(s: *mut Handle, by: *const u8, len: usize, count: *mut usize) -> u32;
    fn rope_search_replace_match(
        s: *mut Handle,
        line: usize,
        number: usize,
        by: *const u8,
        len: usize,
    ) -> u32;
    fn rope_search_replace_listed(
        s: *mut Handle,
        from: usize,
        to: usize,
        by: *const u8,
        len: usize,
        count: *mut usize,
    ) -> u32;
    fn rope_search_fork(s: *mut Handle, number: *mut usize) -> u32;
    fn rope_search_choose(s: *mut Handle, number: u64) -> u32;
    fn rope_search_forget(s: *mut Handle) -> u32;
    fn rope_search_keep(s: *mut Handle, steps: usize) -> u32;
    fn rope_search_join(s: *mut Handle, steps: usize) -> u32;
    fn rope_search_buffers(s: *mut Handle) -> usize;
    fn rope_search_chosen(s: *mut Handle) -> usize;
    fn rope_search_can_undo(s: *mut Handle) -> bool;
    fn rope_search_can_redo(s: *mut Handle) -> bool;
    fn rope_search_undo_steps(s: *mut Handle) -> usize;
    fn rope_search_redo_steps(s: *mut Handle) -> usize;
    fn rope_search_text_len(s: *mut Handle) -> usize;
    fn rope_search_text_lines(s: *mut Handle) -> usize;
    fn rope_search_copy_text(
        s: *mut Handle,
        from: usize,
        to: usize,
        out: *mut u8,
        room: usize,
    ) -> bool;
    fn rope_search_byte_of(s: *mut Handle, at: Position, byte: *mut usize) -> u32;
    fn rope_search_position_of(s: *mut Handle, byte: usize, at: *mut Words<2>) -> u32;
    fn rope_search_column_in(s: *mut Handle, bits: u32, at: Position, column: *mut usize) -> u32;
    fn rope_search_position_in(
        s: *mut Handle,
        bits: u32,
        line: usize,
        column: usize,
        at: *mut Words<2>,
    ) -> u32;
    fn rope_search_clamp(
        s: *mut Handle,
        bits: u32,
        line: usize,
        column: usize,
        at: *mut Words<2>,
    ) -> u32;
    fn rope_search_line_len(s: *mut Handle, line: usize, bits: u32, len: *mut usize) -> u32;
    fn rope_search_copy_line(s: *mut Handle, line: usize, out: *mut u8, room: usize) -> bool;
    fn rope_search_rows(s: *mut Handle) -> usize;
    fn rope_search_count_matches(s: *mut Handle, from: usize, to: usize) -> usize;
    fn rope_search_copy_matches(
        s: *mut Handle,
        from: usize,
        to: usize,
        out: *mut Words<3>,
        room: usize,
    ) -> usize;
    fn rope_search_copy_matches_in(
        s: *mut Handle,
        bits: u32,
        from: usize,
        to: usize,
        out: *mut Words<3>,
        room: usize,
    ) -> usize;
    fn rope_search_groups_at(
        s: *mut Handle,
        line: usize,
        number: usize,
        out: *mut Words<4>,
        room: usize,
    ) -> u32;
    fn rope_search_listed_from(s: *mut Handle, at: Position, found: *mut Words<4>) -> bool;
    fn rope_search_listed_before(s: *mut Handle, at: Position, found: *mut Words<4>) -> bool;
    fn rope_search_list_index(
        s: *mut Handle,
        line: usize,
        number: usize,
        index: *mut usize,
        count: *mut usize,
    ) -> bool;
    fn rope_search_changed(s: *mut Handle) -> Stretch;
    fn rope_search_text_changes(s: *mut Handle, out: *mut Words<4>, room: usize) -> usize;
    fn rope_search_begin_pattern(s: *mut Handle, pattern: *const u8, len: usize) -> u32;
    fn rope_search_advance(s: *mut Handle, most: usize, done: *mut u8) -> u32;
    fn rope_search_cancel(s: *mut Handle) -> u32;
    fn rope_search_pending(s: *mut Handle, lines: *mut usize) -> bool;
    fn rope_search_count_pending(s: *mut Handle, from: usize, to: usize, count: *mut usize) -> u32;
    fn rope_search_copy_pending(
        s: *mut Handle,
        from: usize,
        to: usize,
        out: *mut Words<3>,
        room: usize,
        count: *mut usize,
    ) -> u32;
    fn rope_search_window(
        s: *mut Handle,
        from: usize,
        to: usize,
        out: *mut Words<3>,
        room: usize,
        count: *mut usize,
    ) -> u32;
    fn rope_search_counted(s: *mut Handle) -> Counts;
}

/// A word that no call has written, and a byte.
const UNTOUCHED: usize = 0xA5A5_A5A5_A5A5_A5A5;
const UNTOUCHED_BYTE: u8 = 0xA5;

/// A session of the library.
pub struct Session {
    handle: Handle,
}

fn position(numbers: &[u64]) -> Position {
    Position { line: numbers[0] as usize, column: numbers[1] as usize }
}

/// What was written to some words, which is nothing if each is as it was.
fn written(words: &[usize]) -> Vec<u64> {
    if words.iter().all(|&word| word == UNTOUCHED) {
        return Vec::new();
    }
    words.iter().map(|&word| word as u64).collect()
}

/// What was written to words of which the first holds a `bool`: where it is false no more than
/// that.
fn found(words: &[usize], of_none: &[usize]) -> Vec<u64> {
    match words[0] as u8 {
        UNTOUCHED_BYTE if words[1..].iter().all(|&word| word == UNTOUCHED) => Vec::new(),
        0 => [0].iter().chain(of_none).map(|&word| word as u64).collect(),
        one => [one as usize].iter().chain(&words[1..]).map(|&word| word as u64).collect(),
    }
}

/// Carries out a call that needs no memory, while all memory is refused.
fn starved<T>(call: impl FnOnce() -> T) -> T {
    let _inside = memory::refuse(Some(Refusal { number: 1, all: true }));
    call()
}

/// The elements of an array that a call wrote to its front, and those that it should not have.
fn front<const N: usize>(out: &[Words<N>], count: usize) -> Vec<u64> {
    let (front, rest) = out.split_at(count.min(out.len() - 1));
    let wrong = rest.iter().flatten().filter(|&&word| word != UNTOUCHED);
    front.iter().flatten().chain(wrong).map(|&word| word as u64).collect()
}

fn array<const N: usize>(room: u64) -> Vec<Words<N>> {
    vec![[UNTOUCHED; N]; room as usize + 1]
}

/// What a copy of bytes wrote, and whether it did.
fn copied(room: u64, copy: impl FnOnce(*mut u8, usize) -> bool) -> Answer {
    let mut out = vec![UNTOUCHED_BYTE; room as usize + 1];
    let at = out.as_mut_ptr();
    let done = starved(|| copy(at, room as usize));
    let len = out.iter().rposition(|&byte| byte != UNTOUCHED_BYTE).map_or(0, |last| last + 1);
    out.truncate(len);
    Answer { status: done.into(), numbers: Vec::new(), bytes: out }
}

impl Session {
    pub fn new() -> Session {
        Session { handle: Handle { at: std::ptr::null_mut(), is_open: false } }
    }

    /// Carries out a call. What it wrote is read after it, so that memory is refused to it alone.
    pub fn carry_out(&mut self, call: &Call) -> Answer {
        if call.kind.is_command() { self.command(call) } else { self.read(call) }
    }

    fn command(&mut self, call: &Call) -> Answer {
        let s: *mut Handle = &mut self.handle;
        let (edits, mut out) = (edits_of(call), Out::new(call));
        let refusing = memory::refuse(call.refusal);
        let status = unsafe { change_text(s, call, &edits, &mut out) }
            .unwrap_or_else(|| unsafe { carry_out(s, call, &mut out) });
        drop(refusing);
        let numbers = match call.kind {
            Kind::PatternError => out.reason(),
            Kind::Next => found(&out.words, &[]),
            Kind::GroupsAt => out.groups.iter().flat_map(|group| group_of(group)).collect(),
            Kind::Advance => out.byte_written(),
            Kind::Window => counted(out.word, &out.spans),
            Kind::NextAll => counted(out.word, &out.matches),
            _ => written(&[out.word]),
        };
        let bytes = out.bytes_written();
        Answer { status: status.into(), numbers, bytes }
    }

    fn read(&mut self, call: &Call) -> Answer {
        let s: *mut Handle = &mut self.handle;
        unsafe { read_array(s, call) }
            .or_else(|| unsafe { read_place(s, call) })
            .unwrap_or_else(|| Answer::new(unsafe { read_number(s, call.kind) }, Vec::new()))
    }

    /// Which rows were replaced last: the first, and how many were removed and added.
    pub fn changed(&mut self) -> [u64; 3] {
        let told = unsafe { rope_search_changed(&mut self.handle) };
        [told.first as u64, told.removed as u64, told.added as u64]
    }

    /// How many rows were made, and how often a whole text was searched.
    pub fn counted(&mut self) -> [u64; 2] {
        let told = unsafe { rope_search_counted(&mut self.handle) };
        [told.rows, told.wholes]
    }
}

/// The number of matches, and those that were copied, if the number was written.
fn counted<const N: usize>(count: usize, matches: &[Words<N>]) -> Vec<u64> {
    let number = written(&[count]);
    let copied = front(matches, if number.is_empty() { 0 } else { count });
    [number, copied].concat()
}

/// What commands write to.
struct Out {
    byte: u8,
    word: usize,
    words: Words<5>,
    error: Words<2>,
    groups: Vec<Words<4>>,
    spans: Vec<Words<3>>,
    matches: Vec<Words<4>>,
    bytes: Vec<u8>,
}

impl Out {
    fn new(call: &Call) -> Out {
        let room = |kind| if call.kind == kind { call.numbers[2] } else { 0 };
        Out {
            byte: UNTOUCHED_BYTE,
            word: UNTOUCHED,
            words: [UNTOUCHED; 5],
            error: [UNTOUCHED; 2],
            groups: array(room(Kind::GroupsAt)),
            spans: array(room(Kind::Window)),
            matches: array(room(Kind::NextAll)),
            bytes: vec![
                UNTOUCHED_BYTE;
                if call.kind == Kind::Escape { call.numbers[0] as usize + 1 } else { 0 }
            ],
        }
    }

    /// The bytes up to the last that was written.
    fn bytes_written(mut self) -> Vec<u8> {
        let len = self.bytes.iter().rposition(|&byte| byte != UNTOUCHED_BYTE);
        self.bytes.truncate(len.map_or(0, |last| last + 1));
        self.bytes
    }

    fn byte_written(&self) -> Vec<u64> {
        if self.byte == UNTOUCHED_BYTE { Vec::new() } else { vec![self.byte.into()] }
    }

    /// A reason, which has 32 bits, and a byte.
    fn reason(&self) -> Vec<u64> {
        let [reason, place] = self.error;
        if place == UNTOUCHED {
            written(&self.error)
        } else {
            vec![reason as u64 & 0xFFFF_FFFF, place as u64]
        }
    }
}

/// Carries out a command that changes the text, if the call is one.
unsafe fn change_text(
    s: *mut Handle,
    call: &Call,
    edits: &[TextEdit],
    out: &mut Out,
) -> Option<u32> {
    let (n, text, len) = (&call.numbers, call.bytes.as_ptr(), call.bytes.len());
    Some(unsafe {
        match call.kind {
            Kind::SetText => rope_search_set_text(s, text, len),
            Kind::BeginText => rope_search_begin_text(s),
            Kind::AppendPart => rope_search_append_part(s, text, len),
            Kind::EndText => rope_search_end_text(s),
            Kind::CancelText => rope_search_cancel_text(s),
            Kind::Edit => rope_search_edit(s, position(n), position(&n[2..]), text, len),
            Kind::EditAll => rope_search_edit_all(s, edits.as_ptr(), edits.len(), text, len),
            Kind::EditBytes => rope_search_edit_bytes(s, n[0] as usize, n[1] as usize, text, len),
            Kind::Undo => rope_search_undo(s),
            Kind::Redo => rope_search_redo(s),
            Kind::Replace => rope_search_replace(s, text, len, &mut out.word),
            Kind::ReplaceMatch => {
                rope_search_replace_match(s, n[0] as usize, n[1] as usize, text, len)
            }
            Kind::ReplaceListed => {
                let (from, to) = (n[0] as usize, n[1] as usize);
                rope_search_replace_listed(s, from, to, text, len, &mut out.word)
            }
            _ => return None,
        }
    })
}

/// Carries out any other command.
unsafe fn carry_out(s: *mut Handle, call: &Call, out: &mut Out) -> u32 {
    let (n, text, len) = (&call.numbers, call.bytes.as_ptr(), call.bytes.len());
    unsafe {
        match call.kind {
            Kind::Open => rope_search_open(n[0] as usize, s),
            Kind::Close => {
                rope_search_close(s);
                0
            }
            Kind::SetPattern => rope_search_set_pattern(s, text, len),
            Kind::PatternError => rope_search_pattern_error(text, len, &mut out.error),
            Kind::Escape => {
                let (to, room) = (out.bytes.as_mut_ptr(), n[0] as usize);
                rope_search_escape(text, len, to, room, &mut out.word)
            }
            Kind::Off => rope_search_off(s),
            Kind::Next => rope_search_next(s, position(n), &mut out.words),
            Kind::NextAll => {
                let (to, room) = (out.matches.as_mut_ptr(), n[2] as usize);
                rope_search_next_all(s, position(n), to, room, &mut out.word)
            }
            Kind::Fork => rope_search_fork(s, &mut out.word),
            Kind::Choose => rope_search_choose(s, n[0]),
            Kind::Forget => rope_search_forget(s),
            Kind::Keep => rope_search_keep(s, n[0] as usize),
            Kind::Join => rope_search_join(s, n[0] as usize),
            Kind::GroupsAt => {
                let (to, room) = (out.groups.as_mut_ptr(), n[2] as usize);
                rope_search_groups_at(s, n[0] as usize, n[1] as usize, to, room)
            }
            Kind::BeginPattern => rope_search_begin_pattern(s, text, len),
            Kind::Advance => rope_search_advance(s, n[0] as usize, &mut out.byte),
            Kind::Cancel => rope_search_cancel(s),
            Kind::Window => {
                let (to, room, count) = (out.spans.as_mut_ptr(), n[2] as usize, &mut out.word);
                rope_search_window(s, n[0] as usize, n[1] as usize, to, room, count)
            }
            kind => unreachable!("{kind:?} is no command"),
        }
    }
}

/// A group as it was written: one that isn't found has no line that counts.
fn group_of(words: &Words<4>) -> Vec<u64> {
    found(words, &words[2..])
}

fn edits_of(call: &Call) -> Vec<TextEdit> {
    if call.kind != Kind::EditAll {
        return Vec::new();
    }
    let each = call.numbers.chunks(5);
    let edit =
        |n: &[u64]| TextEdit { from: position(n), to: position(&n[2..]), len: n[4] as usize };
    each.map(edit).collect()
}

unsafe fn read_number(s: *mut Handle, kind: Kind) -> u64 {
    let number = starved(|| unsafe {
        match kind {
            Kind::Buffers => rope_search_buffers(s),
            Kind::Chosen => rope_search_chosen(s),
            Kind::CanUndo => rope_search_can_undo(s).into(),
            Kind::CanRedo => rope_search_can_redo(s).into(),
            Kind::UndoSteps => rope_search_undo_steps(s),
            Kind::RedoSteps => rope_search_redo_steps(s),
            Kind::TextLen => rope_search_text_len(s),
            Kind::TextLines => rope_search_text_lines(s),
            Kind::Rows => rope_search_rows(s),
            Kind::Version => rope_search_version() as usize,
            kind => unreachable!("{kind:?} returns no number"),
        }
    });
    number as u64
}

unsafe fn read_place(s: *mut Handle, call: &Call) -> Option<Answer> {
    let n = &call.numbers;
    let size = |index: usize| n[index] as usize;
    let (mut place, mut word) = ([UNTOUCHED; 2], UNTOUCHED);
    let mut listed = [UNTOUCHED; 4];
    let status: Option<u32> = starved(|| unsafe {
        Some(match call.kind {
            Kind::ByteOf => rope_search_byte_of(s, position(n), &mut word),
            Kind::PositionOf => rope_search_position_of(s, size(0), &mut place),
            Kind::ColumnIn => rope_search_column_in(s, n[0] as u32, position(&n[1..]), &mut word),
            Kind::PositionIn => {
                rope_search_position_in(s, n[0] as u32, size(1), size(2), &mut place)
            }
            Kind::Clamp => rope_search_clamp(s, n[0] as u32, size(1), size(2), &mut place),
            Kind::LineLen => rope_search_line_len(s, size(0), n[1] as u32, &mut word),
            Kind::ListedFrom => rope_search_listed_from(s, position(n), &mut listed).into(),
            Kind::ListedBefore => rope_search_listed_before(s, position(n), &mut listed).into(),
            Kind::ListIndex => {
                let [index, count] = &mut place;
                rope_search_list_index(s, size(0), size(1), index, count).into()
            }
            Kind::Pending => rope_search_pending(s, &mut word).into(),
            Kind::CountPending => rope_search_count_pending(s, size(0), size(1), &mut word),
            _ => return None,
        })
    });
    let numbers = [written(&[word]), written(&place), written(&listed)].concat();
    status.map(|status| Answer::new(status.into(), numbers))
}

unsafe fn read_array(s: *mut Handle, call: &Call) -> Option<Answer> {
    let n = &call.numbers;
    let size = |index: usize| n[index] as usize;
    Some(match call.kind {
        Kind::CopyText => copied(n[2], |out, room| unsafe {
            rope_search_copy_text(s, size(0), size(1), out, room)
        }),
        Kind::CopyLine => {
            copied(n[1], |out, room| unsafe { rope_search_copy_line(s, size(0), out, room) })
        }
        Kind::CountMatches => {
            let count = starved(|| unsafe { rope_search_count_matches(s, size(0), size(1)) });
            Answer::new(count as u64, Vec::new())
        }
        Kind::CopyMatches => {
            let mut out = array::<3>(n[2]);
            let count = starved(|| unsafe {
                rope_search_copy_matches(s, size(0), size(1), out.as_mut_ptr(), size(2))
            });
            Answer::new(count as u64, front(&out, count))
        }
        Kind::CopyMatchesIn => {
            let (mut out, bits) = (array::<3>(n[3]), n[0] as u32);
            let to = out.as_mut_ptr();
            let count = starved(|| unsafe {
                rope_search_copy_matches_in(s, bits, size(1), size(2), to, size(3))
            });
            Answer::new(count as u64, front(&out, count))
        }
        Kind::CopyPending => {
            let (mut out, mut count) = (array::<3>(n[2]), UNTOUCHED);
            let to = out.as_mut_ptr();
            let status = starved(|| unsafe {
                rope_search_copy_pending(s, size(0), size(1), to, size(2), &mut count)
            });
            Answer::new(status.into(), counted(count, &out))
        }
        Kind::TextChanges => {
            let mut out = array::<4>(n[0]);
            let to = out.as_mut_ptr();
            let count = starved(|| unsafe { rope_search_text_changes(s, to, size(0)) });
            Answer::new(count as u64, front(&out, count))
        }
        _ => return None,
    })
}
