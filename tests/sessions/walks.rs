//! Searches by the definition of walks: the least walk of the least start. A walk goes from the
//! start node of a program along its edges to its match node, takes no pair of node and place
//! twice, and is less than another if it takes an earlier edge where they part.
//!
//! A search tries the edges of each node in their order and never tries a pair of node and place
//! again: if a pair led to no match, each walk from it goes through a pair that is still being
//! tried, and so does each walk through it that is allowed to begin later.
use crate::programs::{Node, Program};
use crate::sets::Unicode;
use crate::trees::Look;

/// The places of the slots of a match: the start and the end of each group.
pub type Slots = Vec<Option<usize>>;

/// A search needs more steps, or more room, than this model takes.
#[derive(Debug)]
pub struct TooLong;

/// The most bits of pairs that are noted, and so of room.
const MOST_PAIRS: usize = 1 << 28;

/// The most steps of all searches of a content.
const MOST_STEPS: u64 = 10_000_000;

enum Task {
    Try(usize, usize),
    Restore(usize, Option<usize>),
}

/// A content that is searched for a program. It keeps which pairs of node and place were tried.
pub struct Search<'a> {
    program: &'a Program,
    unicode: &'a Unicode,
    chars: &'a [char],
    tried: Vec<u64>,
    touched: Vec<usize>,
    /// The slots of the walk that is tried: none is noted before and after.
    slots: Slots,
    tasks: Vec<Task>,
    /// How many steps are left.
    left: u64,
}

impl<'a> Search<'a> {
    pub fn new(
        program: &'a Program,
        unicode: &'a Unicode,
        chars: &'a [char],
    ) -> Result<Search<'a>, TooLong> {
        let pairs = program.nodes.len() * (chars.len() + 1);
        if pairs > MOST_PAIRS {
            return Err(TooLong);
        }
        let (tried, slots) = (vec![0; pairs / 64 + 1], vec![None; program.slots]);
        let (touched, tasks) = (Vec::new(), Vec::new());
        Ok(Search { program, unicode, chars, tried, touched, slots, tasks, left: MOST_STEPS })
    }

    fn holds(&self, look: Look, place: usize) -> bool {
        let before = place.checked_sub(1).map(|place| self.chars[place]);
        let after = self.chars.get(place).copied();
        let is_word = |side: Option<char>| side.is_some_and(|c| self.unicode.is_word(c));
        match look {
            Look::Start => before.is_none(),
            Look::End => after.is_none(),
            Look::StartLine => before.is_none_or(|c| c == '\n'),
            Look::EndLine => after.is_none_or(|c| c == '\n'),
            Look::Word => is_word(before) != is_word(after),
            Look::NoWord => is_word(before) == is_word(after),
        }
    }

    /// Whether a pair is tried for the first time.
    fn is_new(&mut self, node: usize, place: usize) -> bool {
        let pair = node * (self.chars.len() + 1) + place;
        let (word, bit) = (pair / 64, 1 << (pair % 64));
        if self.tried[word] == 0 {
            self.touched.push(word);
        }
        let is_new = self.tried[word] & bit == 0;
        self.tried[word] |= bit;
        is_new
    }

    /// The slots of the least walk from the start node at a place.
    fn walk_from(&mut self, start: usize) -> Result<Option<Slots>, TooLong> {
        self.tasks.push(Task::Try(self.program.start, start));
        while let Some(task) = self.tasks.pop() {
            let (node, place) = match task {
                Task::Restore(slot, old) => {
                    self.slots[slot] = old;
                    continue;
                }
                Task::Try(node, place) => (node, place),
            };
            if !self.is_new(node, place) {
                continue;
            }
            self.left = self.left.checked_sub(1).ok_or(TooLong)?;
            match &self.program.nodes[node] {
                Node::Match => {
                    self.tasks.clear();
                    let none = vec![None; self.program.slots];
                    return Ok(Some(std::mem::replace(&mut self.slots, none)));
                }
                Node::Look(look, on) if self.holds(*look, place) => {
                    self.tasks.push(Task::Try(*on, place));
                }
                Node::Set(set, on) if self.chars.get(place).is_some_and(|&c| set.has(c)) => {
                    self.tasks.push(Task::Try(*on, place + 1));
                }
                Node::Look(..) | Node::Set(..) => {}
                Node::Note(slot, on) => {
                    self.tasks.push(Task::Restore(*slot, self.slots[*slot]));
                    self.slots[*slot] = Some(place);
                    self.tasks.push(Task::Try(*on, place));
                }
                Node::Pass(edges) => {
                    self.tasks.extend(edges.iter().rev().map(|&edge| Task::Try(edge, place)));
                }
            }
        }
        Ok(None)
    }

    /// The least walk of the least start from a place on.
    pub fn find(&mut self, start: usize) -> Result<Option<Slots>, TooLong> {
        for word in self.touched.drain(..) {
            self.tried[word] = 0;
        }
        for place in start..=self.chars.len() {
            if let Some(slots) = self.walk_from(place)? {
                return Ok(Some(slots));
            }
        }
        Ok(None)
    }

    /// All matches. Each is the find from the end of the one before; if that is empty and is where
    /// the one before ended, it is the find from the next place.
    pub fn matches(&mut self) -> Result<Vec<Slots>, TooLong> {
        let (mut found, mut start, mut last) = (Vec::new(), 0, None);
        loop {
            let mut slots = self.find(start)?;
            if slots.as_ref().is_some_and(|slots| slots[0] == last && slots[1] == last) {
                slots = self.find(start + 1)?;
            }
            let Some(slots) = slots else { return Ok(found) };
            (start, last) = (slots[1].expect("a match has an end"), slots[1]);
            found.push(slots);
        }
    }
}
