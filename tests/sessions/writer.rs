//! Sessions at random. The session of a seed and a number is always the same.
use crate::calls::*;
use crate::model::Model;
use crate::patterns::Patterns;
use crate::random::Random;
use crate::some_patterns::{PATTERNS, hostile, mangled, pattern};
use crate::texts::Text;
use std::rc::Rc;

/// The last bytes of `À` and of U+10000 are the least that no ASCII character has.
const CHARACTERS: &[char] =
    &['a', 'a', 'b', '\r', '\r', '\n', '\n', '\u{2028}', '🐸', 'é', 'À', '\u{10000}', 'A', ' '];
const LINES: &[&str] =
    &["", "a", "mark", "a mark", "- ab -", "é🐸é", "xyz ab xyz ab", "\u{2028}", "Àmark\u{10000}a"];
const BREAKS: &[&str] = &["\n", "\n", "\n", "\r\n", "\r"];
const LITERALS: &[&str] = &["mark", "a", "ab", "é", "🐸", "\r", "\n", "k\nm", "xyz", "-"];
/// Patterns that are found in long texts in time linear in these.
const QUICK: &[&str] = &[
    "mark",
    "a",
    "é",
    "🐸",
    "ab|mark",
    "\\w+",
    "^",
    "$",
    "(?i)MARK",
    "(m)(a)(r)k",
    "\\bxyz\\b",
    "[^a\\n]*k",
    "\\r?\\n",
    "(?m)^a",
    "x+y?",
    "x*",
];
const PIECES: &[&str] =
    &["$0", "$0", "$1", "$2", "$9", "$$", "$", "$a", "\r", "\n", "\n\r", "a", "b", "é🐸", ""];
/// The most bytes of a leaf of a rope: edits are made near the ends of leaves.
const LEAF: usize = 984;
const MOST: u64 = u64::MAX;
const TEXT_LIMIT: u64 = 1 << 30;
/// How often a session has each command: one of all kinds, and one that goes back and forward.
const WORDS: [Kind; 25] = [
    Kind::Edit,
    Kind::EditBytes,
    Kind::EditAll,
    Kind::Undo,
    Kind::Redo,
    Kind::SetPattern,
    Kind::SetText,
    Kind::Fork,
    Kind::Choose,
    Kind::Off,
    Kind::Next,
    Kind::Replace,
    Kind::Forget,
    Kind::Keep,
    Kind::GroupsAt,
    Kind::PatternError,
    Kind::Open,
    Kind::Close,
    Kind::ReplaceMatch,
    Kind::Join,
    Kind::ReplaceListed,
    Kind::BeginPattern,
    Kind::Advance,
    Kind::Cancel,
    Kind::Window,
];
const OF_ALL_KINDS: &[u32] =
    &[24, 10, 12, 14, 6, 7, 2, 3, 5, 1, 8, 8, 1, 2, 6, 2, 1, 1, 8, 6, 7, 9, 24, 1, 5];
const BACK_AND_FORWARD: &[u32] =
    &[10, 5, 10, 28, 18, 2, 1, 1, 1, 2, 0, 14, 1, 4, 2, 0, 0, 0, 8, 14, 8, 6, 20, 1, 3];
const OF_LONG_HISTORIES: &[u32] =
    &[60, 10, 2, 6, 3, 1, 0, 0, 0, 0, 2, 1, 0, 1, 1, 0, 0, 0, 6, 2, 1, 4, 12, 1, 2];

struct Writer {
    random: Random,
    model: Model,
    calls: Vec<Call>,
    /// The places between the leaves of the text that was last set, and its length.
    seams: Vec<usize>,
    set_len: usize,
    /// How many of 1,000 calls have requests refused.
    refused: u64,
    is_over: bool,
}

/// The calls of a session.
pub fn session(seed: u64, number: u64, patterns: &Rc<Patterns>) -> Vec<Call> {
    let mut random = Random::new(seed, number);
    let refused = if random.per_mille(120) { random.one_of(&[50, 300, 900]) } else { 0 };
    let mut writer = Writer::new(random, refused, patterns);
    match number % 10_000 {
        5_000 => writer.huge(),
        number if number % 1_000 == 500 => writer.many(),
        _ => match writer.random.weighted(&[85, 10, 5]) {
            0 => writer.plain(),
            1 => writer.hostile(),
            _ => writer.long(),
        },
    }
    writer.calls
}

/// The calls of a session that some bytes choose.
pub fn session_of_bytes(bytes: &[u8], patterns: &Rc<Patterns>) -> Vec<Call> {
    let mut random = Random::of_bytes(bytes);
    let refused = random.one_of(&[0, 0, 300]);
    let mut writer = Writer::new(random, refused, patterns);
    while !writer.random.is_over() && !writer.is_over {
        match writer.random.below(5) {
            0 => writer.hostile(),
            1 => writer.long(),
            2 => writer.many(),
            _ => writer.plain(),
        }
    }
    writer.calls
}

impl Writer {
    fn new(random: Random, refused: u64, patterns: &Rc<Patterns>) -> Writer {
        let (model, calls, seams) = (Model::new(patterns), Vec::new(), Vec::new());
        Writer { random, model, calls, seams, set_len: 0, refused, is_over: false }
    }

    /// Adds a call, which the model carries out as if no memory were refused to it.
    fn write(&mut self, kind: Kind, numbers: &[u64], text: &[u8]) {
        if self.is_over || self.random.is_over() {
            return;
        }
        let mut call = Call::new(kind, numbers, text);
        if kind.may_need_memory() && self.random.per_mille(self.refused) {
            let most = self.random.one_of(&[1, 3, 10, 40]);
            let number = self.random.between(1, most) as u64;
            call.refusal = Some(Refusal { number, all: self.random.per_mille(500) });
        }
        if kind.is_command() && !matches!(kind, Kind::GroupsAt | Kind::Window) {
            self.is_over = self.model.carry_out(&call).is_err();
        }
        if kind == Kind::SetText {
            let text = self.text();
            (self.seams, self.set_len) = (text.seams(LEAF as u64), text.chars.len());
        }
        self.calls.push(call);
        self.write_beside(kind);
        self.write_parts(kind);
    }

    /// Adds the call that comes with each one of some kinds. It takes no choice at random, and has the
    /// same requests refused.
    fn write_beside(&mut self, kind: Kind) {
        let number = self.calls.len();
        let call = &self.calls[number - 1];
        let beside = match kind {
            Kind::Next => {
                let room = [40, 0, 1, 3][number % 4];
                Call {
                    kind: Kind::NextAll,
                    numbers: [&call.numbers[..], &[room]].concat(),
                    ..call.clone()
                }
            }
            Kind::PatternError => {
                let room = call.bytes.len() * (number % 3);
                Call { kind: Kind::Escape, numbers: vec![room as u64], ..call.clone() }
            }
            _ => return,
        };
        self.calls.push(beside);
    }

    /// Adds calls for a text that arrives in parts, besides those that set a text or edit it, also to
    /// none that was begun. They take no choice at random either.
    fn write_parts(&mut self, kind: Kind) {
        let number = self.calls.len();
        let call = self.calls[number - 1].clone();
        let (first, last) = call.bytes.split_at(call.bytes.len() * (number % 4) / 3);
        let part = |part: &[u8]| (Kind::AppendPart, part.to_vec());
        let none = |kind| (kind, Vec::new());
        let parts = match (kind, number % 3) {
            (Kind::SetText, 0) => vec![none(Kind::BeginText), part(first)],
            (Kind::SetText, 1) => {
                vec![none(Kind::BeginText), part(first), part(last), none(Kind::EndText)]
            }
            (Kind::SetText, _) => vec![part(first), part(last), none(Kind::EndText)],
            (Kind::Edit | Kind::EditBytes, 0) => vec![part(&call.bytes)],
            (Kind::Choose | Kind::Fork, 0) => vec![none(Kind::EndText)],
            (Kind::Off, 0) => vec![none(Kind::CancelText)],
            _ => return,
        };
        for (kind, bytes) in parts {
            let refusal = call.refusal.filter(|_| kind.may_need_memory());
            let call = Call { kind, numbers: Vec::new(), bytes, refusal };
            self.is_over |= self.model.carry_out(&call).is_err();
            self.calls.push(call);
        }
    }

    fn say(&mut self, kind: Kind, text: &str) {
        self.write(kind, &[], text.as_bytes());
    }

    fn text(&mut self) -> Rc<Text> {
        let text = self.model.buffer().map(|buffer| buffer.text());
        text.unwrap_or_else(|| Rc::new(Text::new(Vec::new())))
    }

    fn some_text(&mut self, most: usize) -> String {
        let count = self.random.between(0, most);
        (0..count).map(|_| self.random.one_of(CHARACTERS)).collect()
    }

    /// Commands of all kinds, in short texts.
    fn plain(&mut self) {
        let weights = match self.random.below(3) {
            0 => OF_ALL_KINDS.to_vec(),
            1 => BACK_AND_FORWARD.to_vec(),
            _ => WORDS.map(|_| self.random.one_of(&[1, 1, 4, 12])).to_vec(),
        };
        if self.random.per_mille(30) {
            self.some_read();
            self.some_command(&weights);
        }
        let limit =
            self.random.one_of(&[TEXT_LIMIT, TEXT_LIMIT, TEXT_LIMIT, TEXT_LIMIT, 0, 3, 10, 40]);
        self.write(Kind::Open, &[limit], &[]);
        let most = self.random.one_of(&[14, 14, 40]);
        let text = self.some_text(most);
        self.say(Kind::SetText, &text);
        if self.random.per_mille(800) {
            let pattern = pattern(&mut self.random);
            self.say(Kind::SetPattern, &pattern);
        }
        for _ in 0..self.random.between(4, 24) {
            self.some_command(&weights);
            for _ in 0..self.random.one_of(&[0, 0, 1, 3]) {
                self.some_read();
            }
        }
    }

    /// Some commands under hostile patterns.
    fn hostile(&mut self) {
        self.write(Kind::Open, &[TEXT_LIMIT], &[]);
        let text = self.some_text(14);
        self.say(Kind::SetText, &text);
        for _ in 0..self.random.between(1, 3) {
            let pattern = hostile(&mut self.random);
            let kinds = [Kind::SetPattern, Kind::SetPattern, Kind::SetPattern, Kind::PatternError];
            let kind = self.random.one_of(&kinds);
            self.say(kind, &pattern);
            for _ in 0..self.random.between(2, 6) {
                let is_short = self.text().chars.len() < 60;
                self.some_command(if is_short { OF_ALL_KINDS } else { BACK_AND_FORWARD });
                self.some_read();
            }
        }
    }

    /// Edits and searches in a text of several leaves.
    fn long(&mut self) {
        let lines = self.random.one_of(&[60, 200, 600]);
        let text = self.lines(lines);
        self.edit_long(&text, &[], 8);
    }

    /// The same in a text of up to 200 kB, or of one made of full leaves.
    fn huge(&mut self) {
        let bytes = self.random.between(50_000, 200_000);
        let mut text = String::new();
        while text.len() < bytes {
            text += &match self.random.below(5) {
                0 => self.lines(40),
                1 => "x".repeat(self.random.between(1, 3 * LEAF)),
                2 => "é🐸".repeat(self.random.between(1, 300)) + "\r\n",
                3 => "\r\n".repeat(self.random.between(1, 600)),
                _ => "mark xyz\n".repeat(self.random.between(1, 200)),
            };
        }
        self.edit_long(&text, QUICK, 20);
    }

    /// A history of some hundreds of texts, and edits of many places at once.
    fn many(&mut self) {
        self.write(Kind::Open, &[TEXT_LIMIT], &[]);
        let text = self.lines(30);
        self.say(Kind::SetText, &text);
        let pattern = self.random.one_of(QUICK);
        self.say(Kind::SetPattern, pattern);
        for _ in 0..self.random.between(100, 400) {
            self.some_command(OF_LONG_HISTORIES);
            if self.random.per_mille(20) {
                let kind = self.random.one_of(&[Kind::Undo, Kind::Redo]);
                for _ in 0..self.random.between(1, 150) {
                    self.write(kind, &[], &[]);
                }
            }
            if self.random.per_mille(10) {
                let steps = self.random.between(2, 120) as u64;
                self.write(Kind::Join, &[steps], &[]);
            }
            if self.random.per_mille(10) {
                let (text, count) = (self.text(), self.random.between(20, 200));
                self.edit_all(&text, count);
            }
        }
    }

    fn lines(&mut self, count: usize) -> String {
        let mut text = String::new();
        for _ in 0..count {
            text += self.random.one_of(LINES);
            if self.random.per_mille(30) {
                text += &"x".repeat(self.random.between(1, 2 * LEAF));
            }
            text += self.random.one_of(BREAKS);
        }
        text
    }

    fn edit_long(&mut self, text: &str, patterns: &[&str], most: usize) {
        self.write(Kind::Open, &[TEXT_LIMIT], &[]);
        self.say(Kind::SetText, text);
        for _ in 0..self.random.between(1, 2) {
            let pattern = self.pattern_of(patterns);
            let kinds = [Kind::SetPattern, Kind::SetPattern, Kind::BeginPattern];
            let kind = self.random.one_of(&kinds);
            self.say(kind, pattern);
            for _ in 0..self.random.between(2, most) {
                self.long_command(patterns);
                self.some_read();
            }
        }
    }

    /// A literal, or one of some patterns, or if these are none any of a list.
    fn pattern_of<'a>(&mut self, patterns: &[&'a str]) -> &'a str {
        let literal = self.random.one_of(LITERALS);
        match self.random.below(10) {
            0..5 => literal,
            _ if !patterns.is_empty() => self.random.one_of(patterns),
            5..8 => self.random.one_of(PATTERNS),
            _ => self.random.one_of(QUICK),
        }
    }

    fn long_command(&mut self, patterns: &[&str]) {
        let kinds = [
            Kind::Edit,
            Kind::Edit,
            Kind::EditBytes,
            Kind::EditAll,
            Kind::Undo,
            Kind::Redo,
            Kind::Next,
            Kind::Fork,
            Kind::Choose,
            Kind::Replace,
            Kind::ReplaceMatch,
            Kind::Keep,
            Kind::Join,
            Kind::GroupsAt,
            Kind::ReplaceListed,
            Kind::BeginPattern,
            Kind::Advance,
            Kind::Advance,
            Kind::Window,
        ];
        let kind = self.random.one_of(&kinds);
        let text = self.text();
        if kind == Kind::BeginPattern {
            let pattern = self.pattern_of(patterns);
            self.say(kind, pattern);
        } else if matches!(kind, Kind::Edit | Kind::EditBytes) {
            let (first, last) = self.some_range(&text);
            let new = self.long_payload();
            let is_bytes = kind == Kind::EditBytes;
            let numbers = ends(&text, first, last, is_bytes);
            self.write(kind, &numbers, new.as_bytes());
        } else if text.chars.len() < 60_000 || !is_of_all(kind) {
            self.command(kind);
        }
    }

    fn long_payload(&mut self) -> String {
        match self.random.below(8) {
            0 => self.random.one_of(LITERALS).to_string(),
            1 => self.random.one_of(BREAKS).to_string(),
            2 => "x".repeat(self.random.between(LEAF - 3, LEAF + 3)),
            3 => "a\r\nb".repeat(self.random.between(1, 500)),
            4 => "é🐸\r".repeat(self.random.between(1, 300)),
            5 => self.lines(20),
            _ => String::new(),
        }
    }

    /// A place between two leaves of a text. Edits move those behind them, so in the back half of the
    /// text it is counted from the end.
    fn seam(&self, text: &Text, number: usize) -> usize {
        match self.seams.get(number) {
            Some(seam) if number < self.seams.len() / 2 => *seam,
            Some(seam) => (text.chars.len() + seam).saturating_sub(self.set_len),
            None => LEAF * number,
        }
    }

    /// A place of a text: one near an end of a leaf, at an end of a line, or any.
    fn some_place(&mut self, text: &Text) -> usize {
        let len = text.chars.len();
        let place = match self.random.below(4) {
            0 if len > LEAF => {
                let number = self.random.between(0, len / LEAF);
                (self.seam(text, number) + self.random.between(0, 4)).saturating_sub(2)
            }
            1 => {
                let (start, end) = self.random.one_of(&text.lines);
                self.random.one_of(&[start, end])
            }
            _ => self.random.between(0, len),
        };
        (place.min(len)..=len).find(|&place| text.is_position(place)).unwrap_or(len)
    }

    /// Two places of a text, often the same, and rarely far from one another.
    fn some_range(&mut self, text: &Text) -> (usize, usize) {
        let first = self.some_place(text);
        let last = match self.random.below(10) {
            0..4 => first,
            4..8 => {
                let most = self.random.one_of(&[1, 2, 5, LEAF, 3 * LEAF]);
                let last = (first + self.random.between(0, most)).min(text.chars.len());
                if text.is_position(last) { last } else { last + 1 }
            }
            _ => self.some_place(text),
        };
        (first.min(last), first.max(last))
    }

    fn some_command(&mut self, weights: &[u32]) {
        let last = self.calls.last().map(|call| call.kind);
        let mut kind = WORDS[self.random.weighted(weights)];
        if matches!(last, Some(Kind::Undo | Kind::Redo)) && self.random.per_mille(400) {
            kind = Kind::Redo;
        }
        if last == Some(Kind::BeginPattern) && self.random.per_mille(600) {
            kind = Kind::Advance;
        }
        self.command(kind);
    }

    /// A command for a pending pattern, as a rule where there is one.
    fn pending_command(&mut self, kind: Kind, text: &Text) {
        let has_pending = self.model.buffer().is_some_and(|buffer| buffer.pending.is_some());
        if !has_pending && self.random.per_mille(800) {
            return self.command(Kind::BeginPattern);
        }
        let numbers = self.numbers_of(kind, text);
        self.write(kind, &numbers, &[]);
    }

    /// A command of a kind.
    fn command(&mut self, kind: Kind) {
        let text = self.text();
        let is_long = text.chars.len() > 400;
        match kind {
            Kind::Edit | Kind::EditBytes => self.edit(kind, &text),
            Kind::EditAll => {
                let count = self.random.one_of(&[0, 1, 1, 2, 2, 3, 5]);
                self.edit_all(&text, count);
            }
            Kind::SetPattern | Kind::BeginPattern => {
                let pattern = pattern(&mut self.random);
                self.bad_or(kind, &pattern);
            }
            Kind::PatternError => {
                let pattern = mangled(&mut self.random);
                self.bad_or(kind, &pattern);
            }
            Kind::SetText => {
                let text = self.some_text(12);
                self.bad_or(kind, &text);
            }
            Kind::Replace => {
                let template = self.template(is_long);
                self.bad_or(kind, &template);
            }
            Kind::Next => {
                let position = self.some_position(&text);
                self.write(kind, &position, &[]);
            }
            Kind::ReplaceMatch => {
                let place = self.some_match(&text);
                let template = self.template(is_long);
                self.bad_or_at(kind, &place, &template);
            }
            Kind::ReplaceListed => {
                let lines = self.some_lines(&text);
                let template = self.template(is_long);
                self.bad_or_at(kind, &lines, &template);
            }
            Kind::GroupsAt => self.groups_at(&text),
            Kind::Advance | Kind::Window => self.pending_command(kind, &text),
            _ => self.plain_command(kind),
        }
    }

    /// A command with a number, or with none.
    fn plain_command(&mut self, kind: Kind) {
        let numbers = match kind {
            Kind::Choose => {
                let buffers = self.model.open.as_ref().map_or(1, |open| open.buffers.len());
                vec![self.random.between(buffers.saturating_sub(4), buffers) as u64]
            }
            Kind::Keep => vec![self.random.one_of(&[0, 1, 1, 2, 5, MOST])],
            Kind::Join => vec![self.random.one_of(&[0, 1, 2, 2, 2, 3, 3, 4, 7, MOST])],
            Kind::Open => vec![self.random.one_of(&[TEXT_LIMIT, TEXT_LIMIT, 20, 1 << 63, MOST])],
            _ => Vec::new(),
        };
        self.write(kind, &numbers, &[]);
    }

    /// A call with a text, which now and then isn't UTF-8.
    fn bad_or(&mut self, kind: Kind, text: &str) {
        self.bad_or_at(kind, &[], text);
    }

    fn bad_or_at(&mut self, kind: Kind, numbers: &[u64], text: &str) {
        if self.random.per_mille(15) {
            let bad: &[&[u8]] =
                &[b"\xff", b"a\xed\xa0\x80", b"\xc3", b"\xf4\x90\x80\x80", b"\xc0\x80"];
            let bytes = [text.as_bytes(), self.random.one_of(bad)].concat();
            return self.write(kind, numbers, &bytes);
        }
        self.write(kind, numbers, text.as_bytes());
    }

    fn template(&mut self, is_long: bool) -> String {
        let most = if is_long { 1 } else { self.random.one_of(&[0, 1, 1, 2, 2, 4]) };
        let count = self.random.between(0, most);
        (0..count).map(|_| self.random.one_of(PIECES)).collect()
    }

    fn some_position(&mut self, text: &Text) -> [u64; 2] {
        if self.random.per_mille(100) {
            return [self.some_number(4), self.some_number(5)];
        }
        let (line, column) = text.position_at(self.some_place(text));
        [line, column]
    }

    /// A small number, or now and then a large one.
    fn some_number(&mut self, most: u64) -> u64 {
        match self.random.below(20) {
            0 => self.random.one_of(&[MOST, 1 << 63, (1 << 32) - 1, 1 << 32]),
            _ => self.random.below(most as usize + 1) as u64,
        }
    }

    fn payload(&mut self) -> Vec<u8> {
        let most = self.random.one_of(&[0, 1, 2, 2, 6]);
        let text = match self.random.below(100) {
            0..2 => return b"\xff".to_vec(),
            2..35 => self.random.one_of(&["", "\n", "\r", "\n\r"]).to_string(),
            _ => self.some_text(most),
        };
        text.into_bytes()
    }

    fn edit(&mut self, kind: Kind, text: &Text) {
        let is_bytes = kind == Kind::EditBytes;
        let (first, last) = self.some_range(text);
        let mut numbers = ends(text, first, last, is_bytes);
        if self.random.per_mille(120) {
            for number in &mut numbers {
                *number = self.some_number(5);
            }
        }
        let payload = self.payload();
        self.write(kind, &numbers, &payload);
    }

    /// Several edits as one: as a rule one after the other, where some touch.
    fn edit_all(&mut self, text: &Text, count: usize) {
        let mut places: Vec<usize> = (0..2 * count).map(|_| self.some_place(text)).collect();
        places.sort_unstable();
        let (mut numbers, mut bytes) = (Vec::new(), Vec::new());
        for pair in places.chunks(2) {
            let last = if self.random.per_mille(400) { pair[0] } else { pair[1] };
            let payload = self.payload();
            numbers.extend(ends(text, pair[0], last, false));
            numbers.push(payload.len() as u64);
            bytes.extend(payload);
        }
        if !numbers.is_empty() && self.random.per_mille(150) {
            let at = self.random.below(numbers.len());
            numbers[at] = self.some_number(5);
        }
        if numbers.len() > 5 && self.random.per_mille(50) {
            numbers.rotate_left(5);
        }
        self.write(Kind::EditAll, &numbers, &bytes);
    }

    fn groups_at(&mut self, text: &Text) {
        let [line, number] = self.some_match(text);
        let room = self.random.one_of(&[10, 10, 10, 0, 1, 3, 12]);
        self.write(Kind::GroupsAt, &[line, number, room], &[]);
    }

    /// The line and the number of a match: any line with a small number, or the next listed match.
    fn some_match(&mut self, text: &Text) -> [u64; 2] {
        let line = match self.random.below(10) {
            0 => self.some_number(6),
            _ => self.random.below(text.lines.len()) as u64,
        };
        let number = self.some_number(2);
        let rows = self.model.buffer().and_then(|buffer| buffer.rows().ok());
        let rows = rows.filter(|_| self.random.per_mille(700)).unwrap_or_default();
        let count = rows.len() as u64;
        let mut lines = (line.min(count)..count).chain(0..count);
        match lines.find(|&line| !rows[line as usize].is_empty()) {
            Some(line) => [line, self.random.below(rows[line as usize].len()) as u64],
            None => [line, number],
        }
    }

    /// Two lines: as a rule one line or some, or all.
    fn some_lines(&mut self, text: &Text) -> [u64; 2] {
        let most = text.lines.len() as u64 + 1;
        let first = self.some_number(most);
        match self.random.below(10) {
            0..3 => [0, MOST],
            3..6 => [first, first.saturating_add(self.random.one_of(&[1, 1, 2, 5]))],
            _ => [first, self.some_number(most)],
        }
    }

    /// A call that reads, about something that is there or isn't.
    fn some_read(&mut self) {
        let text = self.text();
        let kind = self.random.one_of(&READS);
        if kind == Kind::GroupsAt {
            return self.groups_at(&text);
        }
        let numbers = self.numbers_of(kind, &text);
        self.write(kind, &numbers, &[]);
    }

    fn numbers_of(&mut self, kind: Kind, text: &Text) -> Vec<u64> {
        let position = self.some_position(text);
        let bits = self.random.one_of(&[8, 16, 32, 8, 16, 32, 8, 16, 32, 0, 7, 64]);
        match kind {
            Kind::CopyText => {
                let (first, last) = self.some_range(text);
                let (from, to) = (text.byte_at(first), text.byte_at(last));
                let more = self.random.one_of(&[0, 0, 0, 1, 2]);
                let room = (to - from + 1).saturating_sub(self.random.one_of(&[0, 1, 1, 2]));
                vec![from + more, to, room]
            }
            Kind::PositionOf => vec![self.some_number(text.byte_len() + 2)],
            Kind::ByteOf | Kind::ListedFrom | Kind::ListedBefore => position.to_vec(),
            Kind::ColumnIn => vec![bits, position[0], position[1]],
            Kind::PositionIn | Kind::Clamp => {
                vec![bits, position[0], position[1] + self.random.one_of(&[0, 0, 1, 3])]
            }
            Kind::LineLen => vec![position[0], bits],
            Kind::CopyLine => {
                let len = text.line(position[0]).and_then(|(from, to)| text.count(8, from, to));
                let room = (len.unwrap_or(3) + 1).saturating_sub(self.random.one_of(&[0, 1, 2]));
                vec![position[0], room]
            }
            Kind::CountMatches | Kind::CountPending => self.some_lines(text).to_vec(),
            Kind::CopyMatches | Kind::CopyMatchesIn | Kind::CopyPending | Kind::Window => {
                let room = self.random.one_of(&[0, 1, 3, 40, 400]);
                let rows = self.some_lines(text);
                let bits = if kind == Kind::CopyMatchesIn { vec![bits] } else { vec![] };
                [bits, rows.to_vec(), vec![room]].concat()
            }
            Kind::ListIndex => vec![position[0], self.some_number(2)],
            Kind::TextChanges => vec![self.random.one_of(&[0, 1, 2, 5, 50])],
            Kind::Advance if text.lines.len() > 40 => {
                vec![self.random.one_of(&[0, 1, 7, 40, 40, 300, MOST])]
            }
            Kind::Advance => vec![self.random.one_of(&[0, 1, 1, 1, 1, 2, 2, 3, MOST])],
            _ => Vec::new(),
        }
    }
}

/// Whether a command may replace many matches of a text.
fn is_of_all(kind: Kind) -> bool {
    matches!(kind, Kind::Replace | Kind::ReplaceListed)
}

/// The bounds of an edit, as positions or as bytes.
fn ends(text: &Text, first: usize, last: usize, is_bytes: bool) -> Vec<u64> {
    if is_bytes {
        return vec![text.byte_at(first), text.byte_at(last)];
    }
    let (from, to) = (text.position_at(first), text.position_at(last));
    vec![from.0, from.1, to.0, to.1]
}
