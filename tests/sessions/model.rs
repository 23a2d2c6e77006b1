//! A plain model of a session, by docs/protocol.md and include/rope_search.h: every text of a
//! history is kept whole, and all that is asked of it is computed from it.
use crate::arriving::Arriving;
use crate::calls::*;
use crate::patterns::{MOST_BYTES, Pattern, Patterns, Refused, Row, mistake_in};
use crate::pending::Pending;
use crate::replacing::{expanded, names_a_group, replaced, replaced_in_lines};
use crate::texts::{Text, line_count};
use crate::walks::TooLong;
use std::rc::Rc;

/// A range of the old text, in bytes, and the range of the new text that took its place.
pub type Change = [u64; 4];
pub type Answered = Result<Answer, TooLong>;

/// A text of a history, and the ranges in which the text before it was replaced.
struct Step {
    text: Rc<Text>,
    led: Rc<Vec<Change>>,
}

pub struct Buffer {
    steps: Vec<Step>,
    at: usize,
    pub pattern: Option<Rc<Pattern>>,
    pub pending: Option<Pending>,
    /// The ranges that the last accepted call replaced.
    pub told: Rc<Vec<Change>>,
    /// The rows that the library says the last accepted call replaced.
    pub stretch: [u64; 3],
    rows: Option<Rc<Vec<Row>>>,
}

impl Buffer {
    fn new(text: Rc<Text>) -> Buffer {
        let steps = vec![Step { text, led: Rc::default() }];
        let (pattern, pending, told) = (None, None, Rc::default());
        Buffer { steps, at: 0, pattern, pending, told, stretch: [0; 3], rows: None }
    }

    pub fn text(&self) -> Rc<Text> {
        Rc::clone(&self.steps[self.at].text)
    }

    pub fn undo_steps(&self) -> usize {
        self.at
    }

    pub fn redo_steps(&self) -> usize {
        self.steps.len() - 1 - self.at
    }

    /// Adds a text after the current one, in the place of all that followed it.
    fn add(&mut self, text: Text, changes: Vec<Change>) {
        let led = Rc::new(changes);
        self.told = Rc::clone(&led);
        self.steps.truncate(self.at + 1);
        self.steps.push(Step { text: Rc::new(text), led });
        self.at += 1;
        self.has_other_text();
    }

    /// Another text is current. The rows of the pending pattern that are done stay done as far as they
    /// are before the first change.
    fn has_other_text(&mut self) {
        self.rows = None;
        if let Some(pending) = &mut self.pending {
            pending.keep_before(&self.steps[self.at].text, &self.told);
        }
    }

    /// Has this pattern, or none, in place of its own and of a pending one.
    pub fn set_pattern(&mut self, pattern: Option<Rc<Pattern>>) {
        (self.pattern, self.pending, self.rows) = (pattern, None, None);
    }

    /// The report: a row for each line, or none without a pattern.
    pub fn rows(&mut self) -> Result<Rc<Vec<Row>>, TooLong> {
        if let Some(rows) = &self.rows {
            return Ok(Rc::clone(rows));
        }
        let text = self.text();
        let rows = match &self.pattern {
            Some(pattern) => {
                let lines = text.lines.iter();
                let rows = lines.map(|&(start, end)| pattern.row(&text.chars[start..end]));
                rows.collect::<Result<Vec<Row>, TooLong>>()?
            }
            None => Vec::new(),
        };
        self.rows = Some(Rc::new(rows));
        self.rows()
    }
}

/// What a command may count at most, and how many rows it may say that it added.
#[derive(Debug, Default, Clone, Copy)]
pub struct Cost {
    pub rows: u64,
    /// What it counts at least.
    pub least: u64,
    pub wholes: u64,
    pub added: u64,
    /// Whether it says that all rows were replaced.
    pub all: bool,
}

pub struct Open {
    pub buffers: Vec<Buffer>,
    pub chosen: usize,
    pub limit: u64,
    pub arriving: Option<Arriving>,
}

impl Open {
    pub fn buffer(&mut self) -> &mut Buffer {
        &mut self.buffers[self.chosen]
    }
}

pub struct Model {
    pub open: Option<Open>,
    pub cost: Cost,
    patterns: Rc<Patterns>,
}

/// What a command makes of the current text, or why it is refused.
type Made = Result<(Text, Vec<Change>), u64>;

impl Model {
    /// A closed session.
    pub fn new(patterns: &Rc<Patterns>) -> Model {
        Model { open: None, cost: Cost::default(), patterns: Rc::clone(patterns) }
    }

    pub fn buffer(&mut self) -> Option<&mut Buffer> {
        self.open.as_mut().map(Open::buffer)
    }

    /// What a call answers if memory is refused to it.
    pub fn lacks_memory(call: &Call) -> Answer {
        use Kind::*;
        let writes_none =
            matches!(call.kind, Next | NextAll | Replace | ReplaceListed | Fork | Advance | Window);
        Answer::new(MEMORY, if writes_none { vec![0] } else { Vec::new() })
    }

    /// Whether memory may be refused to a call now.
    pub fn may_lack_memory(&mut self, call: &Call) -> bool {
        let has_pattern = self.buffer().is_some_and(|buffer| buffer.pattern.is_some());
        let has_pending = self.buffer().is_some_and(|buffer| buffer.pending.is_some());
        match call.kind {
            Kind::Undo | Kind::Redo => has_pattern,
            Kind::Advance | Kind::Window => has_pending,
            Kind::ReplaceListed => has_pattern && std::str::from_utf8(&call.bytes).is_ok(),
            Kind::Escape => std::str::from_utf8(&call.bytes).is_ok(),
            Kind::Join => call.numbers[0] > 1,
            Kind::AppendPart | Kind::EndText => self.is_arriving(),
            kind => kind.may_need_memory(),
        }
    }

    /// Carries out a command.
    pub fn carry_out(&mut self, call: &Call) -> Answered {
        self.cost = Cost::default();
        let status = match call.kind {
            Kind::Open => self.opened(call.numbers[0]),
            Kind::Close => {
                self.open = None;
                DONE
            }
            Kind::PatternError => return Ok(self.pattern_error(&call.bytes)),
            Kind::Escape => return Ok(escape(&call.bytes, call.numbers[0])),
            _ if self.open.is_none() => CLOSED,
            Kind::SetText => self.set_text(&call.bytes),
            Kind::BeginText => self.begin_text(),
            Kind::AppendPart => self.append_part(&call.bytes),
            Kind::EndText => self.end_text(),
            Kind::CancelText => self.cancel_text(),
            Kind::Edit | Kind::EditAll | Kind::EditBytes => self.edit(call),
            Kind::Undo => self.turn(false),
            Kind::Redo => self.turn(true),
            Kind::SetPattern => self.set_pattern(&call.bytes)?,
            Kind::Off => self.off(),
            Kind::Next => return self.next((call.numbers[0], call.numbers[1])),
            Kind::NextAll => return self.next_all(&call.numbers),
            Kind::Replace => return self.replace(&call.bytes),
            Kind::ReplaceMatch => self.replace_match(call)?,
            Kind::ReplaceListed => return self.replace_listed(call),
            Kind::Fork => return Ok(self.fork()),
            Kind::Choose => self.choose(call.numbers[0]),
            Kind::Forget => self.keep(0),
            Kind::Keep => self.keep(call.numbers[0]),
            Kind::Join => self.join(call.numbers[0]),
            Kind::GroupsAt => return self.groups_at(&call.numbers),
            Kind::BeginPattern => self.begin_pattern(&call.bytes)?,
            Kind::Advance => return Ok(self.advance(call.numbers[0])),
            Kind::Cancel => self.cancel(),
            Kind::Window => return self.window(&call.numbers),
            kind => unreachable!("{kind:?} is no command"),
        };
        Ok(Answer::new(status, Vec::new()))
    }

    pub fn session(&mut self) -> &mut Open {
        self.open.as_mut().expect("the session is open")
    }

    fn opened(&mut self, limit: u64) -> u64 {
        if limit > i64::MAX as u64 {
            return SIZE;
        }
        let buffers = vec![Buffer::new(Rc::new(Text::new(Vec::new())))];
        self.open = Some(Open { buffers, chosen: 0, limit, arriving: None });
        DONE
    }

    pub fn set_text(&mut self, bytes: &[u8]) -> u64 {
        let limit = self.session().limit;
        let Some(text) = Text::read(bytes) else { return UTF8 };
        if text.byte_len() > limit {
            return SIZE;
        }
        let lines = text.lines.len() as u64;
        let buffer = self.session().buffer();
        let change = [0, buffer.text().byte_len(), 0, text.byte_len()];
        buffer.steps = vec![Step { text: Rc::new(text), led: Rc::default() }];
        (buffer.at, buffer.told) = (0, Rc::new(vec![change]));
        buffer.has_other_text();
        if buffer.pattern.is_some() {
            self.cost = Cost { rows: lines, added: lines, ..Cost::default() };
        }
        DONE
    }

    fn edit(&mut self, call: &Call) -> u64 {
        let (text, limit) = (self.session().buffer().text(), self.session().limit);
        let parts = match call.kind {
            Kind::Edit => edit_at(&text, call),
            Kind::EditBytes => edit_at_bytes(&text, call),
            _ => edits_at(&text, call),
        };
        let (new, changes) = match parts.and_then(|parts| put(&text, parts, limit)) {
            Ok(made) => made,
            Err(status) => return status,
        };
        self.add(new, changes);
        DONE
    }

    /// Adds a text to the history, and says what that may cost.
    fn add(&mut self, text: Text, changes: Vec<Change>) {
        let cost = cost_of(&text, &changes);
        let buffer = self.session().buffer();
        buffer.add(text, changes);
        if buffer.pattern.is_some() {
            self.cost = cost;
        }
    }

    fn turn(&mut self, forward: bool) -> u64 {
        let buffer = self.session().buffer();
        if (if forward { buffer.redo_steps() } else { buffer.undo_steps() }) == 0 {
            return NONE;
        }
        buffer.told = if forward {
            Rc::clone(&buffer.steps[buffer.at + 1].led)
        } else {
            let back = |&[first, last, start, stop]: &Change| [start, stop, first, last];
            Rc::new(buffer.steps[buffer.at].led.iter().map(back).collect())
        };
        buffer.at = if forward { buffer.at + 1 } else { buffer.at - 1 };
        buffer.has_other_text();
        if buffer.pattern.is_some() {
            self.cost = cost_of(&buffer.text(), &buffer.told.clone());
        }
        DONE
    }

    /// The pattern that these bytes spell, or why they are refused.
    pub fn pattern_of(&self, bytes: &[u8]) -> Result<Result<Rc<Pattern>, u64>, TooLong> {
        let Some(text) = Text::read(bytes) else { return Ok(Err(UTF8)) };
        let status = |refused| match refused {
            Refused::Limit => LIMIT,
            Refused::Mistake => PATTERN,
        };
        Ok(self.patterns.read(&text.chars)?.map_err(status))
    }

    fn set_pattern(&mut self, bytes: &[u8]) -> Result<u64, TooLong> {
        let pattern = match self.pattern_of(bytes)? {
            Ok(pattern) => pattern,
            Err(status) => return Ok(status),
        };
        let buffer = self.session().buffer();
        buffer.set_pattern(Some(pattern));
        let lines = buffer.text().lines.len() as u64;
        self.cost = Cost { rows: lines, added: lines, all: true, ..Cost::default() };
        Ok(DONE)
    }

    fn pattern_error(&self, bytes: &[u8]) -> Answer {
        let Some(text) = Text::read(bytes) else { return Answer::new(UTF8, Vec::new()) };
        let (reason, place) = match mistake_in(&text.chars, &self.patterns.unicode) {
            Some((reason, place)) => (reason as u64, place),
            None => (0, 0),
        };
        Answer::new(DONE, vec![reason, place])
    }

    fn off(&mut self) -> u64 {
        self.session().buffer().set_pattern(None);
        DONE
    }

    fn next(&mut self, from: (u64, u64)) -> Answered {
        self.cost.wholes = 1;
        let buffer = self.session().buffer();
        let text = buffer.text();
        let none = |status| Ok(Answer::new(status, vec![0]));
        let Some(pattern) = buffer.pattern.clone() else { return none(NONE) };
        let Some(place) = text.place_of(from) else { return none(RANGE) };
        let Some(slots) = pattern.match_from(&text.chars, place)? else { return none(DONE) };
        let ends = slots[..2].iter().flatten().map(|&place| text.position_at(place));
        let numbers = ends.flat_map(|(line, column)| [line, column]);
        Ok(Answer::new(DONE, [1].into_iter().chain(numbers).collect()))
    }

    /// The first of all matches of the whole text that start at a position or after it, as many as
    /// there is room for.
    fn next_all(&mut self, n: &[u64]) -> Answered {
        self.cost.wholes = 1;
        let buffer = self.session().buffer();
        let text = buffer.text();
        let none = |status| Ok(Answer::new(status, vec![0]));
        let Some(pattern) = buffer.pattern.clone() else { return none(NONE) };
        let Some(place) = text.place_of((n[0], n[1])) else { return none(RANGE) };
        let matches = pattern.matches(&text.chars)?;
        let later = matches.iter().filter(|slots| slots[0] >= Some(place)).take(n[2] as usize);
        let ends = later.flat_map(|slots| [slots[0], slots[1]]).flatten();
        let ends: Vec<u64> = ends.flat_map(|end| <[u64; 2]>::from(text.position_at(end))).collect();
        Ok(Answer::new(DONE, [vec![ends.len() as u64 / 4], ends].concat()))
    }

    fn replace(&mut self, by: &[u8]) -> Answered {
        self.cost.wholes = 1;
        let (text, limit) = (self.session().buffer().text(), self.session().limit);
        let none = |status| Ok(Answer::new(status, vec![0]));
        let Some(pattern) = self.session().buffer().pattern.clone() else { return none(NONE) };
        let Some(template) = Text::read(by) else { return none(UTF8) };
        if template.byte_len() > limit {
            return none(SIZE);
        }
        let parts = replaced(&text, &pattern, &template.chars)?;
        let count = parts.len() as u64;
        match put(&text, parts, limit) {
            Err(status) => none(status),
            Ok((new, changes)) => {
                self.add(new, changes);
                self.cost.wholes = 1;
                Ok(Answer::new(DONE, vec![count]))
            }
        }
    }

    /// Replaces a match of the report. It may count a row for the groups of the match, also where
    /// the new text is too long.
    fn replace_match(&mut self, call: &Call) -> Result<u64, TooLong> {
        let (text, limit) = (self.session().buffer().text(), self.session().limit);
        let Some(pattern) = self.session().buffer().pattern.clone() else { return Ok(NONE) };
        let Some((start, end)) = text.line(call.numbers[0]) else { return Ok(RANGE) };
        let line = &text.chars[start..end];
        let matches = pattern.matches(line)?;
        let number = usize::try_from(call.numbers[1]).unwrap_or(usize::MAX);
        let Some(slots) = matches.get(number) else { return Ok(RANGE) };
        let Some(template) = Text::read(&call.bytes) else { return Ok(UTF8) };
        let (first, last) = slots[0].zip(slots[1]).expect("a match has bounds");
        let part = (start + first, start + last, expanded(line, &template.chars, slots));
        let made = put(&text, vec![part], limit);
        let status = made.map_or_else(
            |status| status,
            |(new, changes)| {
                self.add(new, changes);
                DONE
            },
        );
        self.cost.rows += u64::from(names_a_group(&template.chars));
        Ok(status)
    }

    /// Replaces the matches of the report in some lines. It may count a row for the groups of each line
    /// with a match, also where the new text is too long.
    fn replace_listed(&mut self, call: &Call) -> Answered {
        let (text, limit) = (self.session().buffer().text(), self.session().limit);
        let none = |status| Ok(Answer::new(status, vec![0]));
        let Some(pattern) = self.session().buffer().pattern.clone() else { return none(NONE) };
        let Some(template) = Text::read(&call.bytes) else { return none(UTF8) };
        let lines = (call.numbers[0], call.numbers[1]);
        let (parts, searched) = replaced_in_lines(&text, &pattern, &template.chars, lines)?;
        let count = parts.len() as u64;
        let answer = match put(&text, parts, limit) {
            Err(status) => none(status),
            Ok((new, changes)) => {
                self.add(new, changes);
                Ok(Answer::new(DONE, vec![count]))
            }
        };
        self.cost.rows += if names_a_group(&template.chars) { searched } else { 0 };
        answer
    }

    fn fork(&mut self) -> Answer {
        let text = self.session().buffer().text();
        let buffers = &mut self.session().buffers;
        buffers.push(Buffer::new(text));
        Answer::new(DONE, vec![buffers.len() as u64 - 1])
    }

    fn choose(&mut self, number: u64) -> u64 {
        let session = self.session();
        if number >= session.buffers.len() as u64 {
            return NONE;
        }
        session.chosen = number as usize;
        DONE
    }

    /// Drops all undo steps but the last ones, and what could be redone.
    fn keep(&mut self, steps: u64) -> u64 {
        let buffer = self.session().buffer();
        let first = buffer.at - (buffer.at as u64).min(steps) as usize;
        buffer.steps.truncate(buffer.at + 1);
        buffer.steps.drain(..first);
        buffer.at -= first;
        DONE
    }

    /// Makes the last undo steps one.
    fn join(&mut self, steps: u64) -> u64 {
        let buffer = self.session().buffer();
        let Some(first) = (buffer.at as u64).checked_sub(steps) else { return NONE };
        if steps > 1 {
            let (from, to) = (first as usize, buffer.at);
            let led = composed(buffer.steps[from].text.byte_len(), &buffer.steps[from + 1..=to]);
            buffer.steps[to].led = Rc::new(led);
            buffer.steps.drain(from + 1..to);
            buffer.at = from + 1;
        }
        DONE
    }

    /// The groups 0 to 9 of a match, as many as there is room for.
    fn groups_at(&mut self, numbers: &[u64]) -> Answered {
        let (line, number, room) = (numbers[0], numbers[1], numbers[2]);
        let buffer = self.session().buffer();
        let text = buffer.text();
        let refused = |status| Ok(Answer::new(status, Vec::new()));
        let Some(pattern) = buffer.pattern.clone() else { return refused(NONE) };
        let Some((start, end)) = text.line(line) else { return refused(RANGE) };
        self.cost.rows = 1;
        let matches = pattern.matches(&text.chars[start..end])?;
        let number = usize::try_from(number).unwrap_or(usize::MAX);
        let Some(slots) = matches.get(number) else { return refused(RANGE) };
        let column = |place: usize| text.position_at(start + place).1;
        let bounds = |group: usize| {
            Some((column((*slots.get(2 * group)?)?), column((*slots.get(2 * group + 1)?)?)))
        };
        let told = |group| match bounds(group) {
            Some((first, last)) => vec![1, line, first, last],
            None => vec![0, 0, 0],
        };
        Ok(Answer::new(DONE, (0..10.min(room as usize)).flat_map(told).collect()))
    }
}

/// The pattern that matches a text only, if there is room for it, and its length.
fn escape(bytes: &[u8], room: u64) -> Answer {
    let Ok(text) = std::str::from_utf8(bytes) else { return Answer::new(UTF8, Vec::new()) };
    let mut pattern = String::new();
    for c in text.chars() {
        if "\\.+*?()|[{^$".contains(c) {
            pattern.push('\\');
        }
        pattern.push(c);
    }
    if pattern.len() > MOST_BYTES {
        return Answer::new(LIMIT, Vec::new());
    }
    let numbers = vec![pattern.len() as u64];
    let bytes = if numbers[0] <= room { pattern.into_bytes() } else { Vec::new() };
    Answer { status: DONE, numbers, bytes }
}

/// The ranges of several steps put together: what is between the bytes of a text of this length that
/// stay through all of them. Empty ranges are left out.
fn composed(len: u64, steps: &[Step]) -> Vec<Change> {
    let mut stays: Vec<Option<u64>> = (0..len).map(Some).collect();
    for step in steps {
        let (mut after, mut at) = (Vec::new(), 0);
        for &[first, last, start, stop] in &*step.led {
            after.extend_from_slice(&stays[at..first as usize]);
            after.resize(after.len() + (stop - start) as usize, None);
            at = last as usize;
        }
        after.extend_from_slice(&stays[at..]);
        stays = after;
    }
    let new_len = stays.len() as u64;
    let pairs = stays.iter().enumerate().filter_map(|(new, old)| Some((new as u64, (*old)?)));
    let (mut changes, mut old_at, mut new_at) = (Vec::new(), 0, 0);
    for (new, old) in pairs.chain([(new_len, len)]) {
        if old > old_at || new > new_at {
            changes.push([old_at, old, new_at, new]);
        }
        (old_at, new_at) = (old + 1, new + 1);
    }
    changes
}

/// A part of a text, as its places, and what takes its place.
pub type Part = (usize, usize, Vec<char>);

/// The rows that replacing these ranges may make, and those that it may say that it added.
fn cost_of(text: &Text, changes: &[Change]) -> Cost {
    let part = |from, to| {
        let places = text.place_of_byte(from).zip(text.place_of_byte(to));
        let (from, to) = places.expect("ranges begin and end where characters do");
        line_count(&text.chars[from..to])
    };
    let rows = changes.iter().map(|change| part(change[2], change[3])).sum();
    let hull = changes.first().zip(changes.last());
    let added = hull.map_or(0, |(first, last)| part(first[2], last[3]));
    Cost { rows, added, ..Cost::default() }
}

/// The text with its parts replaced, unless it has more bytes than the limit.
fn put(text: &Text, parts: Vec<Part>, limit: u64) -> Made {
    let (mut new, mut changes, mut at, mut len) = (Vec::new(), Vec::new(), 0, 0);
    for (first, last, chars) in parts {
        new.extend_from_slice(&text.chars[at..first]);
        let start = len + text.byte_at(first) - text.byte_at(at);
        len = start + chars.iter().map(|c| c.len_utf8() as u64).sum::<u64>();
        changes.push([text.byte_at(first), text.byte_at(last), start, len]);
        new.extend(chars);
        at = last;
    }
    new.extend_from_slice(&text.chars[at..]);
    let new = Text::new(new);
    if new.byte_len() > limit { Err(SIZE) } else { Ok((new, changes)) }
}

fn edit_at(text: &Text, call: &Call) -> Result<Vec<Part>, u64> {
    let n = &call.numbers;
    let places = text.place_of((n[0], n[1])).zip(text.place_of((n[2], n[3])));
    one_part(places, &call.bytes)
}

fn edit_at_bytes(text: &Text, call: &Call) -> Result<Vec<Part>, u64> {
    let place = |byte| text.place_of_byte(byte).filter(|&place| text.is_position(place));
    one_part(place(call.numbers[0]).zip(place(call.numbers[1])), &call.bytes)
}

fn one_part(places: Option<(usize, usize)>, bytes: &[u8]) -> Result<Vec<Part>, u64> {
    let (first, last) = places.filter(|(first, last)| first <= last).ok_or(RANGE)?;
    Ok(vec![(first, last, Text::read(bytes).ok_or(UTF8)?.chars)])
}

fn edits_at(text: &Text, call: &Call) -> Result<Vec<Part>, u64> {
    let (mut places, mut before, mut len) = (Vec::new(), 0, 0u64);
    for n in call.numbers.chunks(5) {
        let ends = text.place_of((n[0], n[1])).zip(text.place_of((n[2], n[3])));
        let in_order = |&(first, last): &(usize, usize)| before <= first && first <= last;
        let (first, last) = ends.filter(in_order).ok_or(RANGE)?;
        let start = len;
        len = len.checked_add(n[4]).filter(|&len| len <= call.bytes.len() as u64).ok_or(RANGE)?;
        places.push((first, last, start as usize..len as usize));
        before = last;
    }
    if len != call.bytes.len() as u64 {
        return Err(RANGE);
    }
    let part =
        |(first, last, range)| Ok((first, last, Text::read(&call.bytes[range]).ok_or(UTF8)?.chars));
    places.into_iter().map(part).collect()
}
