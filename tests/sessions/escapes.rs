//! What stands after a backslash, and the numbers of escapes.
use crate::reader::Reason;

/// The character of a letter or a sign after a backslash.
pub fn escaped_char(letter: char) -> Option<char> {
    Some(match letter {
        'a' => '\u{7}',
        'f' => '\u{C}',
        't' => '\t',
        'n' => '\n',
        'r' => '\r',
        'v' => '\u{B}',
        '<' | '>' => return None,
        _ if letter.is_ascii() && !letter.is_ascii_alphanumeric() => letter,
        _ => return None,
    })
}

/// A number of an escape, as far as it is read: of so many digits, or in braces.
pub struct Number {
    digits: Option<usize>,
    least: char,
    read: usize,
    value: u64,
    is_whole: bool,
}

impl Number {
    pub fn new(digits: Option<usize>, least: char) -> Number {
        Number { digits, least, read: 0, value: 0, is_whole: false }
    }

    /// Reads one more character, if some text that begins so is a number of a character.
    pub fn add(&mut self, c: char) -> Result<(), Reason> {
        if self.digits.is_none() && c == '}' && self.read > 0 {
            self.is_whole = true;
            return self.check(0, 0);
        }
        let Some(digit) = c.to_digit(16).filter(|_| self.read < 8) else {
            return Err(Reason::Escape);
        };
        self.value = self.value * 16 + u64::from(digit);
        self.read += 1;
        match self.digits {
            Some(digits) => {
                self.is_whole = self.read == digits;
                self.check(digits - self.read, digits - self.read)
            }
            None => self.check(0, 8 - self.read),
        }
    }

    /// Whether from `few` to `most` more digits make it the number of a character from the least
    /// on.
    fn check(&self, few: usize, most: usize) -> Result<(), Reason> {
        let spans = (few..=most).map(|more| {
            let power = 16u64.pow(more as u32);
            (self.value * power, self.value * power + power - 1)
        });
        let spans: Vec<(u64, u64)> = spans.collect();
        let has_from = |least: u64| {
            spans.iter().any(|&(low, high)| {
                let (low, high) = (low.max(least), high.min(0x10_FFFF));
                low <= high && !(low >= 0xD800 && high < 0xE000)
            })
        };
        match (has_from(0), has_from(u64::from(self.least as u32))) {
            (false, _) => Err(Reason::Scalar),
            (true, false) => Err(Reason::RangeOrder),
            (true, true) => Ok(()),
        }
    }

    pub fn whole(&self) -> Option<char> {
        let code = self.is_whole.then_some(self.value as u32)?;
        char::from_u32(code)
    }
}
