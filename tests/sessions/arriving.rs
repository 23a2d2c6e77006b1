//! A text of the model that arrives in parts.
use crate::calls::*;
use crate::model::Model;

pub struct Arriving {
    bytes: Vec<u8>,
    /// Why it will be refused, as far as that was found; or `DONE`.
    status: u64,
}

fn begins_no_text(bytes: &[u8]) -> bool {
    std::str::from_utf8(bytes).is_err_and(|error| error.error_len().is_some())
}

impl Model {
    pub fn begin_text(&mut self) -> u64 {
        self.session().arriving = Some(Arriving { bytes: Vec::new(), status: DONE });
        DONE
    }

    pub fn append_part(&mut self, part: &[u8]) -> u64 {
        let limit = self.session().limit;
        let Some(text) = &mut self.session().arriving else { return NONE };
        text.bytes.extend_from_slice(part);
        if text.status == DONE {
            text.status = match &text.bytes {
                bytes if bytes.len() as u64 > limit => SIZE,
                bytes if begins_no_text(bytes) => UTF8,
                _ => DONE,
            };
        }
        text.status
    }

    /// Sets the text to all the bytes that arrived.
    pub fn end_text(&mut self) -> u64 {
        match self.session().arriving.take() {
            None => NONE,
            Some(text) if text.status == MEMORY => MEMORY,
            Some(text) => self.set_text(&text.bytes),
        }
    }

    pub fn cancel_text(&mut self) -> u64 {
        self.session().arriving = None;
        DONE
    }

    /// Memory was refused to one of these calls.
    pub fn lose_text(&mut self, kind: Kind) {
        let Some(open) = &mut self.open else { return };
        let arriving = &mut open.arriving;
        match (kind, arriving.as_mut()) {
            (Kind::AppendPart, Some(text)) => text.status = MEMORY,
            (Kind::EndText, _) => *arriving = None,
            _ => {}
        }
    }

    /// Whether memory may be refused to the text: not if it is known that it will be refused.
    pub fn is_arriving(&self) -> bool {
        let arriving = self.open.as_ref().and_then(|open| open.arriving.as_ref());
        arriving.is_some_and(|text| text.status == DONE)
    }
}
