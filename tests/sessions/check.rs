//! Carries out the calls of a session by the library and by the model, and compares what they
//! answer and what can be seen of the session after each command.
use crate::calls::*;
use crate::library::Session;
use crate::memory;
use crate::model::{Cost, Model};
use crate::patterns::Patterns;
use crate::patterns::Row;
use crate::walks::TooLong;
use std::rc::Rc;

/// In longer texts not all is compared after each command.
const LONG: usize = 20_000;
const MOST: u64 = u64::MAX;

#[derive(Debug)]
pub enum Wrong {
    /// What is wrong, at the call of this number.
    At(usize, String),
    /// The model's searches took too long: what follows was not compared.
    TooLong,
}

impl From<TooLong> for Wrong {
    fn from(_: TooLong) -> Wrong {
        Wrong::TooLong
    }
}

type Checked = Result<(), Wrong>;

struct Checker {
    model: Model,
    session: Session,
    at: usize,
}

/// Compares a session, which is closed and begun anew.
pub fn check(calls: &[Call], patterns: &Rc<Patterns>) -> Checked {
    memory::hold_none();
    let (model, session) = (Model::new(patterns), Session::new());
    let mut checker = Checker { model, session, at: 0 };
    let checked = checker.all(calls);
    checker.session.carry_out(&Call::new(Kind::Close, &[], &[]));
    if checked.is_ok() && memory::held() != 0 {
        let said = format!("{} allocations are held after the end", memory::held());
        return Err(Wrong::At(calls.len(), said));
    }
    checked
}

impl Checker {
    fn all(&mut self, calls: &[Call]) -> Checked {
        for (at, call) in calls.iter().enumerate() {
            self.at = at;
            if call.kind.is_command() {
                self.command(call)?;
            } else {
                self.read(call)?;
            }
        }
        let buffers = self.model.open.as_ref().map_or(0, |open| open.buffers.len());
        for number in 0..buffers as u64 {
            self.command(&Call::new(Kind::Choose, &[number], &[]))?;
            self.see_all()?;
            self.end_pending()?;
        }
        Ok(())
    }

    /// Searches all lines for the pending pattern, if there is one, and then sets the same pattern:
    /// either leaves the same.
    fn end_pending(&mut self) -> Checked {
        let pending = self.model.buffer().and_then(|buffer| buffer.pending.as_ref());
        let Some(bytes) = pending.map(|pending| pending.bytes.clone()) else { return Ok(()) };
        self.command(&Call::new(Kind::Advance, &[MOST], &[]))?;
        self.see_all()?;
        self.command(&Call::new(Kind::SetPattern, &[], &bytes))?;
        self.see_all()
    }

    fn wrong(&self, said: String) -> Checked {
        Err(Wrong::At(self.at, said))
    }

    fn compare(&self, call: &Call, got: &Answer, due: &Answer) -> Checked {
        if got == due {
            return Ok(());
        }
        self.wrong(format!("{call} is answered {got}, not {due}"))
    }

    fn read(&mut self, call: &Call) -> Checked {
        let due = self.model.read(call)?;
        let got = self.session.carry_out(call);
        self.compare(call, &got, &due)
    }

    /// Carries out a command. If memory is refused to it, all has to stay as it was.
    fn command(&mut self, call: &Call) -> Checked {
        let (before, was_counted) = (self.rows()?, self.session.counted());
        let chosen = self.model.open.as_ref().map(|open| open.chosen);
        let may_lack = self.model.may_lack_memory(call);
        let got = self.session.carry_out(call);
        let is_refused = memory::was_refused();
        let lacks_memory = got.status == MEMORY && is_refused && may_lack;
        let due = if lacks_memory {
            self.model.lose_text(call.kind);
            Model::lacks_memory(call)
        } else {
            self.model.carry_out(call)?
        };
        self.compare(call, &got, &due)?;
        let cost = if lacks_memory { None } else { Some(self.model.cost) };
        self.counts(call, was_counted, cost)?;
        let is_same = chosen == self.model.open.as_ref().map(|open| open.chosen);
        let replaces_rows =
            if call.kind == Kind::Advance { got.numbers == [1] } else { call.kind.replaces_rows() };
        self.changed(call, is_same && got.status == DONE && replaces_rows, &before)?;
        self.see(lacks_memory)
    }

    fn rows(&mut self) -> Result<Rc<Vec<Row>>, TooLong> {
        self.model.buffer().map_or_else(|| Ok(Rc::default()), |buffer| buffer.rows())
    }

    /// Compares what was counted with the least and the most that a command may count.
    fn counts(&mut self, call: &Call, before: [u64; 2], cost: Option<Cost>) -> Checked {
        let counted = self.session.counted();
        if matches!(call.kind, Kind::Open | Kind::Close) {
            let is_kept = counted == before;
            let is_new = counted == [0, 0];
            return if is_kept || is_new { Ok(()) } else { self.wrong(format!("{counted:?}")) };
        }
        let falls = counted[0] < before[0] || counted[1] < before[1];
        let is_other = cost.is_some_and(|cost| {
            let rows = counted[0].wrapping_sub(before[0]);
            !(cost.least..=cost.rows).contains(&rows) || counted[1] - before[1] > cost.wholes
        });
        if falls || is_other {
            return self.wrong(format!(
                "{call}: {counted:?} are counted after {before:?}, which may be {cost:?} more"
            ));
        }
        Ok(())
    }

    /// Compares which rows the library says were replaced with those that were.
    fn changed(&mut self, call: &Call, replaces_rows: bool, before: &[Row]) -> Checked {
        let (told, cost) = (self.session.changed(), self.model.cost);
        let after = self.rows()?;
        let Some(buffer) = self.model.buffer() else {
            return if told == [0; 3] { Ok(()) } else { self.wrong(format!("changed: {told:?}")) };
        };
        if !replaces_rows {
            let due = buffer.stretch;
            return if told == due {
                Ok(())
            } else {
                self.wrong(format!("{call}: {told:?} are told as changed, not {due:?}"))
            };
        }
        buffer.stretch = told;
        match wrong_stretch(before, &after, told, cost) {
            Some(said) => self.wrong(format!("{call}: {told:?} are told as changed, but {said}")),
            None => Ok(()),
        }
    }

    /// Compares what can be seen: all of it, or in a long text less at most calls.
    fn see(&mut self, lacks_memory: bool) -> Checked {
        let Some(buffer) = self.model.buffer() else { return self.see_all() };
        let is_long = buffer.text().chars.len() > LONG;
        if is_long && !lacks_memory && self.at % 4 > 0 { Ok(()) } else { self.see_all() }
    }

    fn see_all(&mut self) -> Checked {
        what_is_seen(&mut self.model)?.iter().try_for_each(|call| self.read(call))
    }
}

/// Calls that read all that can be seen of a session and of its chosen buffer.
pub fn what_is_seen(model: &mut Model) -> Result<Vec<Call>, TooLong> {
    let (mut len, mut count, mut changes) = (0, 0, 0);
    let mut has_pending = false;
    if let Some(buffer) = model.buffer() {
        len = buffer.text().byte_len();
        count = buffer.rows()?.iter().map(|row| row.len() as u64).sum();
        changes = buffer.told.len() as u64;
        has_pending = buffer.pending.is_some();
    }
    use Kind::*;
    let numbers = [
        TextLen, TextLines, Rows, UndoSteps, RedoSteps, CanUndo, CanRedo, Buffers, Chosen, Pending,
    ];
    let mut calls: Vec<Call> = numbers.iter().map(|&kind| Call::new(kind, &[], &[])).collect();
    calls.push(Call::new(CopyText, &[0, len, len], &[]));
    calls.push(Call::new(CopyMatches, &[0, MOST, count], &[]));
    calls.push(Call::new(TextChanges, &[changes], &[]));
    if has_pending {
        let counting = Call::new(CountPending, &[0, MOST], &[]);
        let pending = model.read(&counting)?.numbers[0];
        calls.push(counting);
        calls.push(Call::new(CopyPending, &[0, MOST, pending], &[]));
    }
    Ok(calls)
}

/// What is wrong with rows that are told as replaced, if anything is.
fn wrong_stretch(before: &[Row], after: &[Row], told: [u64; 3], cost: Cost) -> Option<String> {
    let [first, removed, added] = told.map(|number| number as usize);
    let (old_end, new_end) = (first.saturating_add(removed), first.saturating_add(added));
    if old_end > before.len() || new_end > after.len() {
        return Some(format!("there are {} and {} rows", before.len(), after.len()));
    }
    if before[..first] != after[..first] || before[old_end..] != after[new_end..] {
        return Some("other rows are changed".to_string());
    }
    if cost.all && told != [0, before.len() as u64, after.len() as u64] {
        return Some("all rows are".to_string());
    }
    (told[2] > cost.added).then(|| format!("no more than {} may be added", cost.added))
}
