//! What one would write in plain Rust in an afternoon: a `String`, Rust's `regex`, and a report
//! that is made again after each change. The benchmarks measure `rope-search` beside it.
//!
//! It takes the commands `text`, `pattern`, `edit`, `undo`, `replace`, `next`, `list` and `print`
//! as docs/protocol.md has them. It knows LF and CR LF as breaks, and no refusals: on what it can't
//! read it panics.
use regex::Regex;
use std::fmt::Write as _;
use std::io::{BufRead, Read, StdinLock, Write};
use std::ops::Range;

/// The matches of a line, as columns in UTF-16 code units.
type Row = Vec<(u32, u32)>;

/// A replaced part of a text: its offset, the number of bytes that replaced it, and its old text.
type Change = (usize, usize, String);

#[derive(Default)]
struct Buffer {
    text: String,
    history: Vec<Change>,
    pattern: Option<Regex>,
    report: Vec<Row>,
}

/// How many UTF-16 code units a text takes.
fn units(text: &str) -> u32 {
    text.chars().map(|letter| letter.len_utf16() as u32).sum()
}

/// The offset of each LF of a text.
fn breaks(text: &str) -> impl Iterator<Item = usize> + '_ {
    memchr::memchr_iter(b'\n', text.as_bytes())
}

/// The lines of a text without their breaks; one that ends in a break has a last line, which is
/// empty.
fn lines(text: &str) -> impl Iterator<Item = &str> {
    text.split('\n').map(|line| line.strip_suffix('\r').unwrap_or(line))
}

fn row_of(pattern: &Regex, line: &str) -> Row {
    let (mut byte, mut column) = (0, 0);
    let mut column_of = |place: usize| {
        column += units(&line[byte..place]);
        byte = place;
        column
    };
    pattern
        .find_iter(line)
        .map(|found| (column_of(found.start()), column_of(found.end())))
        .collect()
}

impl Buffer {
    fn pattern(&self) -> &Regex {
        self.pattern.as_ref().expect("no pattern")
    }

    fn report_again(&mut self) {
        if let Some(pattern) = &self.pattern {
            self.report = lines(&self.text).map(|line| row_of(pattern, line)).collect();
        }
    }

    /// The byte of a position: lines are counted from the text's start, columns from the line's.
    fn byte_of(&self, line: usize, column: u32) -> usize {
        let start = match line {
            0 => 0,
            _ => breaks(&self.text).nth(line - 1).expect("no such line") + 1,
        };
        let mut passed = 0;
        let is_there = |(_, letter): &(usize, char)| {
            let stands = passed < column;
            passed += letter.len_utf16() as u32;
            stands
        };
        let front = self.text[start..].char_indices().take_while(is_there).last();
        start + front.map_or(0, |(at, letter)| at + letter.len_utf8())
    }

    /// The line and column of a byte.
    fn position_of(&self, byte: usize) -> (usize, u32) {
        let front = &self.text[..byte];
        (breaks(front).count(), units(&front[front.rfind('\n').map_or(0, |last| last + 1)..]))
    }

    fn edit(&mut self, from: (usize, u32), to: (usize, u32), text: &str) {
        let range = self.byte_of(from.0, from.1)..self.byte_of(to.0, to.1);
        self.history.push((range.start, text.len(), self.text[range.clone()].to_owned()));
        self.text.replace_range(range, text);
        self.report_again();
    }

    fn undo(&mut self) {
        let (start, len, before) = self.history.pop().expect("no text before it");
        self.text.replace_range(start..start + len, &before);
        self.report_again();
    }

    fn replace(&mut self, template: &str) -> usize {
        let (pattern, text) = (self.pattern(), &self.text);
        let (mut made, mut passed, mut count) = (String::new(), 0, 0);
        let mut pass = |found: Range<usize>, made: &mut String| {
            made.push_str(&text[passed..found.start]);
            (passed, count) = (found.end, count + 1);
        };
        if template.contains('$') {
            for groups in pattern.captures_iter(text) {
                pass(groups.get(0).expect("the whole match").range(), &mut made);
                groups.expand(template, &mut made);
            }
        } else {
            for found in pattern.find_iter(text) {
                pass(found.range(), &mut made);
                made.push_str(template);
            }
        }
        made.push_str(&text[passed..]);
        self.history.push((0, made.len(), std::mem::replace(&mut self.text, made)));
        self.report_again();
        count
    }

    fn next(&self, line: usize, column: u32, out: &mut String) {
        let told = match self.pattern().find_at(&self.text, self.byte_of(line, column)) {
            None => writeln!(out, "no match"),
            Some(found) => {
                let (start, end) = (self.position_of(found.start()), self.position_of(found.end()));
                writeln!(out, "m {} {} {} {}", start.0, start.1, end.0, end.1)
            }
        };
        told.expect("a String takes all");
    }

    fn list(&self, out: &mut String) {
        for (line, row) in self.report.iter().enumerate() {
            for (start, end) in row {
                writeln!(out, "m {line} {start} {end}").expect("a String takes all");
            }
        }
        let count: usize = self.report.iter().map(Vec::len).sum();
        writeln!(out, "ok {count}").expect("a String takes all");
    }
}

/// Standard input, from which commands are taken.
struct Input(StdinLock<'static>);

impl Input {
    /// The next line, unless the input ends.
    fn line(&mut self) -> Option<String> {
        let mut line = String::new();
        let len = self.0.read_line(&mut line).expect("no UTF-8");
        (len > 0).then(|| line.trim_end().to_owned())
    }

    fn payload(&mut self, len: usize) -> String {
        let mut bytes = vec![0; len];
        self.0.read_exact(&mut bytes).expect("the input ends inside a payload");
        String::from_utf8(bytes).expect("no UTF-8")
    }
}

/// The reply to a command, whose payload is next in the input.
fn reply(buffer: &mut Buffer, input: &mut Input, line: &str) -> String {
    let mut words = line.split(' ');
    let word = words.next().unwrap_or_default();
    let numbers: Vec<usize> = words.map(|number| number.parse().expect("no number")).collect();
    let mut out = String::new();
    match (word, &numbers[..]) {
        ("text", &[len]) => {
            buffer.text = input.payload(len);
            buffer.history.clear();
            buffer.report_again();
        }
        ("pattern", &[len]) => {
            buffer.pattern = Some(Regex::new(&input.payload(len)).expect("no pattern"));
            buffer.report_again();
        }
        ("edit", &[line, column, to_line, to_column, len]) => {
            buffer.edit((line, column as u32), (to_line, to_column as u32), &input.payload(len));
        }
        ("undo", []) => buffer.undo(),
        ("replace", &[len]) => return format!("ok {}\n", buffer.replace(&input.payload(len))),
        ("next", &[line, column]) => buffer.next(line, column as u32, &mut out),
        ("list", []) => buffer.list(&mut out),
        ("print", []) => return format!("text {}\n{}\n", buffer.text.len(), buffer.text),
        _ => panic!("no command: {line}"),
    }
    if out.is_empty() {
        "ok\n".to_owned()
    } else {
        out
    }
}

fn main() -> std::io::Result<()> {
    let mut input = Input(std::io::stdin().lock());
    let (mut buffer, mut out) = (Buffer::default(), std::io::stdout().lock());
    while let Some(line) = input.line() {
        out.write_all(reply(&mut buffer, &mut input, &line).as_bytes())?;
        out.flush()?;
    }
    Ok(())
}
