//! Texts as lists of scalar values, with their lines and positions, as docs/protocol.md defines
//! them.

/// A line, and a column in it.
pub type Position = (u64, u64);

/// A text, with the bytes and the UTF-16 code units before each place. A place is a number of
/// characters.
#[derive(Debug, Default)]
pub struct Text {
    pub chars: Vec<char>,
    bytes: Vec<u32>,
    units: Vec<u32>,
    /// The place where each line starts, and the place where its text ends.
    pub lines: Vec<(usize, usize)>,
}

impl Text {
    pub fn new(chars: Vec<char>) -> Text {
        let before = |len: fn(char) -> usize| {
            let ends = chars.iter().scan(0, |end, &c| {
                *end += len(c) as u32;
                Some(*end)
            });
            [0].into_iter().chain(ends).collect()
        };
        let (bytes, units) = (before(char::len_utf8), before(char::len_utf16));
        let lines = lines_of(&chars);
        Text { chars, bytes, units, lines }
    }

    /// The text that these bytes spell, if they are UTF-8.
    pub fn read(bytes: &[u8]) -> Option<Text> {
        Some(Text::new(std::str::from_utf8(bytes).ok()?.chars().collect()))
    }

    pub fn byte_len(&self) -> u64 {
        self.byte_at(self.chars.len())
    }

    pub fn byte_at(&self, place: usize) -> u64 {
        u64::from(self.bytes[place])
    }

    /// The place of a byte at which a character begins or the text ends.
    pub fn place_of_byte(&self, byte: u64) -> Option<usize> {
        self.bytes.binary_search(&u32::try_from(byte).ok()?).ok()
    }

    /// Whether a place is between the CR and the LF of a break.
    pub fn parts_a_break(&self, place: usize) -> bool {
        place > 0 && self.chars[place - 1] == '\r' && self.chars.get(place) == Some(&'\n')
    }

    /// The length between two places, in bytes (8), UTF-16 code units (16) or characters (32).
    pub fn count(&self, bits: u64, from: usize, to: usize) -> Option<u64> {
        match bits {
            8 => Some(u64::from(self.bytes[to] - self.bytes[from])),
            16 => Some(u64::from(self.units[to] - self.units[from])),
            32 => Some((to - from) as u64),
            _ => None,
        }
    }

    /// The bounds of a line's text.
    pub fn line(&self, line: u64) -> Option<(usize, usize)> {
        self.lines.get(usize::try_from(line).ok()?).copied()
    }

    /// The bounds of the lines from one up to, not including, another, as far as there are such.
    pub fn lines_between(&self, from: u64, to: u64) -> impl Iterator<Item = (usize, usize)> {
        let to = to.min(self.lines.len() as u64);
        self.lines[from.min(to) as usize..to as usize].iter().copied()
    }

    pub fn line_text(&self, line: u64) -> Option<&[char]> {
        self.line(line).map(|(start, end)| &self.chars[start..end])
    }

    /// The place of a line and of a column in units of so many bits, if there is one.
    pub fn place_in(&self, bits: u64, line: u64, column: u64) -> Option<usize> {
        let place = self.last_place_in(bits, line, column)?;
        (self.count(bits, self.line(line)?.0, place) == Some(column)).then_some(place)
    }

    pub fn place_of(&self, (line, column): Position) -> Option<usize> {
        self.place_in(16, line, column)
    }

    /// The last place in a line that is at most so many units after its start.
    fn last_place_in(&self, bits: u64, line: u64, column: u64) -> Option<usize> {
        let (start, end) = self.line(line)?;
        let (mut low, mut high) = (start, end);
        while low < high {
            let middle = high - (high - low) / 2;
            if self.count(bits, start, middle)? <= column {
                low = middle;
            } else {
                high = middle - 1;
            }
        }
        Some(low)
    }

    /// The position of a place; between the CR and the LF of a break it is one past the line's
    /// text.
    pub fn position_at(&self, place: usize) -> Position {
        let line = self.lines.partition_point(|&(start, _)| start <= place) - 1;
        (line as u64, u64::from(self.units[place] - self.units[self.lines[line].0]))
    }

    /// The position nearest to a line and a column in units of so many bits.
    pub fn clamped(&self, bits: u64, line: u64, column: u64) -> Option<Position> {
        self.count(bits, 0, 0)?;
        let place = self.last_place_in(bits, line, column).unwrap_or(self.chars.len());
        Some(self.position_at(place))
    }

    /// The places at which a text that is set is cut, if no part may have more bytes than these: each
    /// part but the last is as long as can be, and no CR LF is parted.
    pub fn seams(&self, most: u64) -> Vec<usize> {
        let (mut seams, mut at) = (Vec::new(), 0);
        while self.byte_at(at) + most < self.byte_len() {
            let end = self.byte_at(at) + most;
            at = self.bytes.partition_point(|&byte| u64::from(byte) <= end) - 1;
            at -= usize::from(self.parts_a_break(at));
            seams.push(at);
        }
        seams
    }

    /// All places at which a position is.
    pub fn is_position(&self, place: usize) -> bool {
        place <= self.chars.len() && !self.parts_a_break(place)
    }
}

/// The bounds of each line's text: LF, CR and CR LF end a line.
pub fn lines_of(chars: &[char]) -> Vec<(usize, usize)> {
    let (mut lines, mut start, mut at) = (Vec::new(), 0, 0);
    while at < chars.len() {
        let is_pair = chars[at] == '\r' && chars.get(at + 1) == Some(&'\n');
        if chars[at] == '\r' || chars[at] == '\n' {
            lines.push((start, at));
            start = at + 1 + usize::from(is_pair);
        }
        at += 1 + usize::from(is_pair);
    }
    lines.push((start, chars.len()));
    lines
}

/// The number of lines of a part of a text.
pub fn line_count(chars: &[char]) -> u64 {
    lines_of(chars).len() as u64
}
