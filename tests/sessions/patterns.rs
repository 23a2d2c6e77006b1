//! Patterns, and what they match in lines and in whole texts.
use crate::programs::Program;
use crate::reader::{Reason, read};
use crate::sets::Unicode;
use crate::trees::pattern_weight;
use crate::walks::{Search, Slots, TooLong};
use std::cell::RefCell;
use std::collections::HashMap;
use std::hash::{BuildHasherDefault, Hasher};
use std::rc::Rc;

/// The most bytes that a pattern may have, and the most that it may weigh.
pub const MOST_BYTES: usize = 65_536;
const MOST_WEIGHT: u64 = 262_144;
/// Python may have an older Unicode than the library, by which letter classes have fewer ranges:
/// above this, the model doesn't know whether a pattern is too heavy.
const SURE_WEIGHT: u64 = MOST_WEIGHT / 10 * 9;
/// How many patterns are kept, how many contents that were searched for each of them, and the most
/// characters of these contents together.
const MOST_KNOWN: usize = 2_000;
const MOST_CHARS: usize = 1 << 20;

/// Hashes characters quickly, in place of the hash of the standard library.
#[derive(Default)]
pub struct Mixed(u64);

impl Hasher for Mixed {
    fn write(&mut self, bytes: &[u8]) {
        bytes.iter().for_each(|&byte| self.write_u32(byte.into()));
    }

    fn write_u32(&mut self, number: u32) {
        self.0 = (self.0 ^ u64::from(number)).wrapping_mul(0x9E37_79B9_7F4A_7C15).rotate_left(29);
    }

    fn write_usize(&mut self, number: usize) {
        self.write_u32(number as u32);
    }

    fn finish(&self) -> u64 {
        self.0
    }
}

/// What is known of lists of characters.
type Known<T> = HashMap<Rc<[char]>, T, BuildHasherDefault<Mixed>>;

/// A match in a line: its bounds as places from the line's start, and as columns.
#[derive(Debug, Clone, Copy)]
pub struct Span {
    pub start: usize,
    pub stop: usize,
    columns: (usize, usize),
}

impl PartialEq for Span {
    fn eq(&self, other: &Span) -> bool {
        self.columns == other.columns
    }
}

/// The matches of a line. Two rows are equal if their columns are.
pub type Row = Rc<Vec<Span>>;

pub struct Pattern {
    program: Program,
    unicode: Rc<Unicode>,
    rows: RefCell<Known<Row>>,
    found: RefCell<Found>,
}

/// The matches in contents that were searched, and the characters of these contents together.
#[derive(Default)]
struct Found {
    matches: Known<Rc<Vec<Slots>>>,
    chars: usize,
}

/// Why a pattern is refused.
#[derive(Debug, Clone, Copy)]
pub enum Refused {
    Mistake,
    Limit,
}

type Made = Result<Rc<Pattern>, Refused>;

/// The patterns that were read, each with what was searched for it.
pub struct Patterns {
    pub unicode: Rc<Unicode>,
    known: RefCell<Known<Made>>,
}

impl Patterns {
    pub fn new(unicode: Unicode) -> Patterns {
        Patterns { unicode: Rc::new(unicode), known: RefCell::default() }
    }

    pub fn read(&self, chars: &[char]) -> Result<Made, TooLong> {
        if let Some(known) = self.known.borrow().get(chars) {
            return Ok(known.clone());
        }
        let read = Pattern::read(chars, &self.unicode)?.map(Rc::new);
        let mut known = self.known.borrow_mut();
        if known.len() >= MOST_KNOWN {
            known.clear();
        }
        known.insert(chars.into(), read.clone());
        Ok(read)
    }
}

impl Pattern {
    fn read(chars: &[char], unicode: &Rc<Unicode>) -> Result<Result<Pattern, Refused>, TooLong> {
        if chars.iter().map(|c| c.len_utf8()).sum::<usize>() > MOST_BYTES {
            return Ok(Err(Refused::Limit));
        }
        let Ok(tree) = read(chars, unicode) else { return Ok(Err(Refused::Mistake)) };
        match pattern_weight(&tree) {
            weight if weight > MOST_WEIGHT => return Ok(Err(Refused::Limit)),
            weight if weight > SURE_WEIGHT => return Err(TooLong),
            _ => {}
        }
        let (program, unicode) = (Program::new(&tree), Rc::clone(unicode));
        let (rows, found) = (RefCell::default(), RefCell::default());
        Ok(Ok(Pattern { program, unicode, rows, found }))
    }

    fn search<'a>(&'a self, chars: &'a [char]) -> Result<Search<'a>, TooLong> {
        Search::new(&self.program, &self.unicode, chars)
    }

    /// All matches in a text, with their groups.
    pub fn matches(&self, chars: &[char]) -> Result<Rc<Vec<Slots>>, TooLong> {
        if let Some(found) = self.found.borrow().matches.get(chars) {
            return Ok(Rc::clone(found));
        }
        let matches = Rc::new(self.search(chars)?.matches()?);
        let mut found = self.found.borrow_mut();
        if found.matches.len() >= MOST_KNOWN || found.chars + chars.len() > MOST_CHARS {
            *found = Found::default();
        }
        found.chars += chars.len();
        found.matches.insert(chars.into(), Rc::clone(&matches));
        Ok(matches)
    }

    /// The first match in a text that starts at a place or after it.
    pub fn match_from(&self, chars: &[char], place: usize) -> Result<Option<Slots>, TooLong> {
        self.search(chars)?.find(place)
    }

    /// The matches in a line.
    pub fn row(&self, line: &[char]) -> Result<Row, TooLong> {
        if let Some(row) = self.rows.borrow().get(line) {
            return Ok(Rc::clone(row));
        }
        let (mut place, mut column) = (0, 0);
        let mut column_of = |to: usize| {
            column += line[place..to].iter().map(|c| c.len_utf16()).sum::<usize>();
            place = to;
            column
        };
        let span = |slots: &Slots| {
            let (start, stop) = (slots[0]?, slots[1]?);
            Some(Span { start, stop, columns: (column_of(start), column_of(stop)) })
        };
        let row: Row = Rc::new(self.matches(line)?.iter().filter_map(span).collect());
        let mut rows = self.rows.borrow_mut();
        if rows.len() >= MOST_KNOWN {
            rows.clear();
        }
        rows.insert(line.into(), Rc::clone(&row));
        Ok(row)
    }
}

/// Where and why a text is no pattern: a reason and a byte; nothing if it is one or too large.
pub fn mistake_in(chars: &[char], unicode: &Unicode) -> Option<(Reason, u64)> {
    if chars.iter().map(|c| c.len_utf8()).sum::<usize>() > MOST_BYTES {
        return None;
    }
    let mistake = read(chars, unicode).err()?;
    let bytes = chars[..mistake.place].iter().map(|c| c.len_utf8() as u64).sum();
    Some((mistake.reason, bytes))
}
