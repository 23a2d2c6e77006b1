//! What the model answers to calls that read.
use crate::calls::*;
use crate::model::{Answered, Buffer, Model};
use crate::patterns::Row;
use crate::pending::read_pending;
use crate::texts::Text;
use crate::walks::TooLong;

/// A match of a report: its line, its number in the row, and its bounds in characters of the line.
type Listed = (u64, u64, usize, usize);

impl Model {
    /// Answers a call that reads.
    pub fn read(&mut self, call: &Call) -> Answered {
        if call.kind == Kind::Version {
            return Ok(Answer::new(2_000, Vec::new()));
        }
        let Some(session) = &mut self.open else { return Ok(of_closed(call.kind)) };
        let number = match call.kind {
            Kind::Buffers => Some(session.buffers.len()),
            Kind::Chosen => Some(session.chosen),
            _ => None,
        };
        if let Some(number) = number {
            return Ok(Answer::new(number as u64, Vec::new()));
        }
        let buffer = session.buffer();
        if let Some(answer) = read_pending(buffer, call)? {
            return Ok(answer);
        }
        match read_number(buffer, call.kind)?.or_else(|| read_text(buffer, call)) {
            Some(answer) => Ok(answer),
            None => read_report(buffer, call),
        }
    }
}

/// What a call that reads a closed session answers.
fn of_closed(kind: Kind) -> Answer {
    use Kind::*;
    let is_refused = matches!(
        kind,
        ByteOf | PositionOf | ColumnIn | PositionIn | Clamp | LineLen | CountPending | CopyPending
    );
    Answer::new(if is_refused { CLOSED } else { 0 }, Vec::new())
}

fn read_number(buffer: &mut Buffer, kind: Kind) -> Result<Option<Answer>, TooLong> {
    let number = match kind {
        Kind::CanUndo => u64::from(buffer.undo_steps() > 0),
        Kind::CanRedo => u64::from(buffer.redo_steps() > 0),
        Kind::UndoSteps => buffer.undo_steps() as u64,
        Kind::RedoSteps => buffer.redo_steps() as u64,
        Kind::TextLen => buffer.text().byte_len(),
        Kind::TextLines => buffer.text().lines.len() as u64,
        Kind::Rows => buffer.rows()?.len() as u64,
        _ => return Ok(None),
    };
    Ok(Some(Answer::new(number, Vec::new())))
}

/// An answer that writes some numbers, or is refused because something is nowhere.
fn place(numbers: Option<Vec<u64>>) -> Answer {
    let status = if numbers.is_some() { DONE } else { RANGE };
    Answer::new(status, numbers.unwrap_or_default())
}

fn pair((line, column): (u64, u64)) -> Vec<u64> {
    vec![line, column]
}

fn read_text(buffer: &mut Buffer, call: &Call) -> Option<Answer> {
    let (text, n) = (buffer.text(), &call.numbers);
    Some(match call.kind {
        Kind::CopyText => copied(slice(&text, n[0], n[1]), n[2]),
        Kind::CopyLine => copied(text.line_text(n[0]), n[1]),
        Kind::ByteOf => place(text.place_of((n[0], n[1])).map(|at| vec![text.byte_at(at)])),
        Kind::PositionOf => place(text.place_of_byte(n[0]).map(|at| pair(text.position_at(at)))),
        Kind::ColumnIn => place(column_in(&text, n[0], (n[1], n[2])).map(|column| vec![column])),
        Kind::PositionIn => {
            place(text.place_in(n[0], n[1], n[2]).map(|at| pair(text.position_at(at))))
        }
        Kind::Clamp => place(text.clamped(n[0], n[1], n[2]).map(pair)),
        Kind::LineLen => {
            let line = text.line(n[0]);
            place(line.and_then(|(start, end)| text.count(n[1], start, end)).map(|len| vec![len]))
        }
        Kind::TextChanges => {
            let told = buffer.told.iter().take(n[0] as usize).flatten();
            Answer::new(buffer.told.len() as u64, told.copied().collect())
        }
        _ => return None,
    })
}

fn column_in(text: &Text, bits: u64, (line, column): (u64, u64)) -> Option<u64> {
    let place = text.place_of((line, column))?;
    text.count(bits, text.line(line)?.0, place)
}

fn slice(text: &Text, from: u64, to: u64) -> Option<&[char]> {
    let (from, to) = text.place_of_byte(from).zip(text.place_of_byte(to))?;
    text.chars.get(from..to)
}

fn copied(chars: Option<&[char]>, room: u64) -> Answer {
    let bytes = chars.map(|chars| chars.iter().collect::<String>().into_bytes());
    match bytes.filter(|bytes| bytes.len() as u64 <= room) {
        Some(bytes) => Answer { status: 1, numbers: Vec::new(), bytes },
        None => Answer::default(),
    }
}

/// The matches of rows, by lines and numbers: the first row is that of the line `first`.
pub fn listed_from(first: u64, rows: &[Row]) -> Vec<Listed> {
    let lines = rows.iter().zip(first..).flat_map(|(row, line)| {
        let spans = row.iter().zip(0..);
        spans.map(move |(span, number)| (line, number, span.start, span.stop))
    });
    lines.collect()
}

/// The matches of some of the rows.
fn listed(rows: &[Row], from: u64, to: u64) -> Vec<Listed> {
    let to = to.min(rows.len() as u64);
    listed_from(from, &rows[from.min(to) as usize..to as usize])
}

/// The bounds of a match in a line, by columns in units of so many bits.
fn columns(text: &Text, bits: u64, (line, _, start, stop): Listed) -> Option<[u64; 2]> {
    let from = text.line(line)?.0;
    Some([text.count(bits, from, from + start)?, text.count(bits, from, from + stop)?])
}

fn read_report(buffer: &mut Buffer, call: &Call) -> Answered {
    let (text, rows, n) = (buffer.text(), buffer.rows()?, &call.numbers);
    Ok(match call.kind {
        Kind::CountMatches => Answer::new(listed(&rows, n[0], n[1]).len() as u64, Vec::new()),
        Kind::CopyMatches => matches_in(&text, 16, listed(&rows, n[0], n[1]), n[2]),
        Kind::CopyMatchesIn => matches_in(&text, n[0], listed(&rows, n[1], n[2]), n[3]),
        Kind::ListedFrom | Kind::ListedBefore => look_up(&text, &rows, call),
        Kind::ListIndex => {
            let all = listed(&rows, 0, u64::MAX);
            let index = all.iter().position(|one| (one.0, one.1) == (n[0], n[1]));
            let numbers = index.map(|index| vec![index as u64, all.len() as u64]);
            Answer::new(numbers.is_some().into(), numbers.unwrap_or_default())
        }
        kind => unreachable!("{kind:?} reads no report"),
    })
}

/// How many matches there are, and the bounds of those that there is room for.
pub fn matches_in(text: &Text, bits: u64, matches: Vec<Listed>, room: u64) -> Answer {
    if text.count(bits, 0, 0).is_none() {
        return Answer::default();
    }
    let some = matches.iter().take(room as usize);
    let told = some.filter_map(|&one| Some((one.0, columns(text, bits, one)?)));
    let numbers = told.flat_map(|(line, [start, stop])| [line, start, stop]).collect();
    Answer::new(matches.len() as u64, numbers)
}

fn look_up(text: &Text, rows: &[Row], call: &Call) -> Answer {
    let spot = (call.numbers[0], call.numbers[1]);
    let told = listed(rows, 0, u64::MAX);
    let mut told = told.into_iter().filter_map(|one| Some((one, columns(text, 16, one)?)));
    let found = if call.kind == Kind::ListedFrom {
        told.find(|&(one, [start, _])| (one.0, start) >= spot)
    } else {
        told.filter(|&(one, [start, _])| (one.0, start) < spot).last()
    };
    let numbers = found.map(|(one, [start, stop])| vec![one.0, one.1, start, stop]);
    Answer::new(numbers.is_some().into(), numbers.unwrap_or_default())
}
