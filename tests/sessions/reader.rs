//! Reads patterns by the grammar of docs/patterns.md. Where a text is no pattern, the reader stops
//! at the first character that no pattern has there, whatever follows, and says why.
use crate::escapes::{Number, escaped_char};
use crate::sets::{Set, Unicode};
use crate::trees::{Count, Look, Tree};
use std::rc::Rc;

/// How deep groups and repetitions may be nested.
pub const NEST_LIMIT: usize = 250;
/// The greatest number of a repetition.
const MOST_TIMES: u64 = 65_535;

/// Why a text is no pattern: the numbers are those of the library's header.
#[derive(Debug, Clone, Copy, PartialEq)]
pub enum Reason {
    Nesting = 1,
    OpenGroup,
    NoOpenGroup,
    NothingToRepeat,
    Count,
    LargeCount,
    CountOrder,
    Escape,
    Scalar,
    OpenClass,
    ClassItem,
    RangeOrder,
    GroupHead,
    RepeatedName,
}

/// The place of a text at which it is no pattern, in characters, and why.
#[derive(Debug, Clone, Copy, PartialEq)]
pub struct Mistake {
    pub place: usize,
    pub reason: Reason,
}

pub type Read<T> = Result<T, Mistake>;

/// The flags that are on.
#[derive(Debug, Clone, Copy, Default)]
struct Flags {
    folds: bool,
    lines: bool,
    dot_all: bool,
    swaps: bool,
}

impl Flags {
    fn set(&mut self, letter: char, on: bool) {
        match letter {
            'i' => self.folds = on,
            'm' => self.lines = on,
            's' => self.dot_all = on,
            _ => self.swaps = on,
        }
    }
}

/// What begins with a parenthesis.
enum Head {
    Setting(Flags),
    Inside(Flags, Option<usize>),
}

pub struct Reader<'a> {
    text: &'a [char],
    at: usize,
    groups: usize,
    names: Vec<&'a [char]>,
    limit: usize,
    unicode: &'a Unicode,
}

/// The tree of a pattern, or the mistake: of the grammar, whatever the depth, or else of the depth.
pub fn read(text: &[char], unicode: &Unicode) -> Read<Tree> {
    let (tree, depth) = read_under(text, unicode, usize::MAX)?;
    if depth <= NEST_LIMIT { Ok(tree) } else { Ok(read_under(text, unicode, NEST_LIMIT)?.0) }
}

/// The tree of a pattern with groups and repetitions up to a limit, and its depth.
fn read_under(text: &[char], unicode: &Unicode, limit: usize) -> Read<(Tree, usize)> {
    let mut reader = Reader { text, at: 0, groups: 0, names: Vec::new(), limit, unicode };
    let read = reader.branches(Flags::default(), 0)?;
    if reader.at < text.len() {
        return reader.mistake(Reason::NoOpenGroup);
    }
    Ok(read)
}

fn one_of(mut parts: Vec<Tree>, many: fn(Vec<Tree>) -> Tree) -> Tree {
    match parts.len() {
        0 => Tree::Empty,
        1 => parts.remove(0),
        _ => many(parts),
    }
}

impl<'a> Reader<'a> {
    fn mistake<T>(&self, reason: Reason) -> Read<T> {
        Err(Mistake { place: self.at, reason })
    }

    fn next(&self) -> Option<char> {
        self.text.get(self.at).copied()
    }

    fn second(&self) -> Option<char> {
        self.text.get(self.at + 1).copied()
    }

    fn eat(&mut self, c: char) -> bool {
        let found = self.next() == Some(c);
        self.at += usize::from(found);
        found
    }

    /// Branches up to a `)` or the end, in so many groups: their tree and its depth.
    fn branches(&mut self, mut flags: Flags, level: usize) -> Read<(Tree, usize)> {
        let (mut branches, mut depth) = (Vec::new(), 0);
        loop {
            let (branch, deep, after) = self.branch(flags, level)?;
            branches.push(branch);
            (depth, flags) = (depth.max(deep), after);
            if !self.eat('|') {
                return Ok((one_of(branches, Tree::Alternation), depth));
            }
        }
    }

    /// Items in a row, and the flags that are on after them.
    fn branch(&mut self, mut flags: Flags, level: usize) -> Read<(Tree, usize, Flags)> {
        let (mut items, mut depth) = (Vec::new(), 0);
        while let Some(c) = self.next().filter(|&c| c != '|' && c != ')') {
            let (atom, deep) = if c == '(' {
                self.at += 1;
                match self.head(flags, level)? {
                    Head::Setting(changed) => {
                        flags = changed;
                        continue;
                    }
                    Head::Inside(inside, number) => self.group(inside, number, level)?,
                }
            } else {
                (self.atom(c, flags)?, 0)
            };
            let (item, deep) = self.repeated(atom, deep, flags, level)?;
            items.push(item);
            depth = depth.max(deep);
        }
        Ok((one_of(items, Tree::Concat), depth, flags))
    }

    /// What follows an opening parenthesis, up to the first item.
    fn head(&mut self, flags: Flags, level: usize) -> Read<Head> {
        let is_too_deep = level >= self.limit;
        if self.next().is_some() && self.next() != Some('?') {
            if is_too_deep {
                return self.mistake(Reason::Nesting);
            }
            return Ok(Head::Inside(flags, Some(self.opened())));
        }
        if !self.eat('?') {
            return self.mistake(Reason::OpenGroup);
        }
        if matches!(self.next(), Some('P' | '<')) {
            if is_too_deep {
                return self.mistake(Reason::Nesting);
            }
            self.name()?;
            return Ok(Head::Inside(flags, Some(self.opened())));
        }
        self.flags(flags, is_too_deep)
    }

    fn opened(&mut self) -> usize {
        self.groups += 1;
        self.groups
    }

    fn name(&mut self) -> Read<()> {
        self.eat('P');
        if !self.eat('<') {
            return self.mistake(Reason::GroupHead);
        }
        let start = self.at;
        let goes_on = |c: char| c.is_ascii_alphabetic() || c == '_';
        while let Some(c) = self.next() {
            let is_digit = c.is_ascii_digit() && self.at > start;
            if !goes_on(c) && !is_digit {
                break;
            }
            self.at += 1;
        }
        let name = &self.text[start..self.at];
        if name.is_empty() || self.next() != Some('>') {
            return self.mistake(Reason::GroupHead);
        }
        if self.names.contains(&name) {
            return self.mistake(Reason::RepeatedName);
        }
        self.names.push(name);
        self.at += 1;
        Ok(())
    }

    /// The flags of a setting or of a group without a number.
    fn flags(&mut self, mut flags: Flags, is_too_deep: bool) -> Read<Head> {
        let (mut letters, mut off, mut is_some_off) = (String::new(), false, false);
        loop {
            match self.next() {
                Some(c @ ('i' | 'm' | 's' | 'U')) if !letters.contains(c) => {
                    letters.push(c);
                    flags.set(c, !off);
                    is_some_off = off;
                }
                Some('-') if !off && letters.len() < 4 => off = true,
                Some(')') if !letters.is_empty() && off == is_some_off => {
                    self.at += 1;
                    return Ok(Head::Setting(flags));
                }
                Some(':') if off == is_some_off => {
                    if is_too_deep {
                        return self.mistake(Reason::Nesting);
                    }
                    self.at += 1;
                    return Ok(Head::Inside(flags, None));
                }
                _ => return self.mistake(Reason::GroupHead),
            }
            self.at += 1;
        }
    }

    /// What is in a group, and its `)`.
    fn group(&mut self, flags: Flags, number: Option<usize>, level: usize) -> Read<(Tree, usize)> {
        let (inside, depth) = self.branches(flags, level + 1)?;
        if !self.eat(')') {
            return self.mistake(Reason::OpenGroup);
        }
        let tree = match number {
            Some(number) => Tree::Group(number, Box::new(inside)),
            None => inside,
        };
        Ok((tree, depth + 1))
    }

    /// The tree with the repetitions that follow it.
    fn repeated(
        &mut self,
        mut tree: Tree,
        mut depth: usize,
        flags: Flags,
        level: usize,
    ) -> Read<(Tree, usize)> {
        while let Some(c @ ('*' | '+' | '?' | '{')) = self.next() {
            if level + depth >= self.limit {
                return self.mistake(Reason::Nesting);
            }
            self.at += 1;
            let (least, most) = match c {
                '*' => (0, None),
                '+' => (1, None),
                '?' => (0, Some(1)),
                _ => self.count()?,
            };
            let is_greedy = flags.swaps == self.eat('?');
            tree = Tree::Repeat(Box::new(tree), Count { least, most, is_greedy });
            depth += 1;
        }
        Ok((tree, depth))
    }

    /// The numbers of a count, and its closing brace.
    fn count(&mut self) -> Read<(u64, Option<u64>)> {
        let least = self.digits(0)?.map_or_else(|| self.mistake(Reason::Count), Ok)?;
        if self.eat('}') {
            return Ok((least, Some(least)));
        }
        if !self.eat(',') {
            return self.mistake(Reason::Count);
        }
        let most = self.digits(least)?;
        if self.next() != Some('}') {
            return self.mistake(Reason::Count);
        }
        if most.is_some_and(|most| most < least) {
            return self.mistake(Reason::CountOrder);
        }
        self.at += 1;
        Ok((least, most))
    }

    /// A number from a least one on, if a digit follows. Each digit must be one with which some
    /// number from the least one to the greatest begins.
    fn digits(&mut self, least: u64) -> Read<Option<u64>> {
        let mut number = None;
        while let Some(digit) = self.next().and_then(|c| c.to_digit(10)) {
            let more = number.unwrap_or(0) * 10 + u64::from(digit);
            if more > MOST_TIMES {
                return self.mistake(Reason::LargeCount);
            }
            let spans = (0..5).map(|zeros| 10u64.pow(zeros));
            let mut spans = spans.map(|power| (more * power, more * power + power - 1));
            if more > 0 && !spans.any(|(low, high)| low <= MOST_TIMES && high >= least) {
                return self.mistake(Reason::CountOrder);
            }
            number = Some(more);
            self.at += 1;
        }
        Ok(number)
    }

    /// An atom that is no group.
    fn atom(&mut self, c: char, flags: Flags) -> Read<Tree> {
        if matches!(c, '*' | '+' | '?' | '{') {
            return self.mistake(Reason::NothingToRepeat);
        }
        self.at += 1;
        Ok(match c {
            '^' if flags.lines => Tree::Look(Look::StartLine),
            '^' => Tree::Look(Look::Start),
            '$' if flags.lines => Tree::Look(Look::EndLine),
            '$' => Tree::Look(Look::End),
            '.' if flags.dot_all => Tree::Set(Rc::new(Set::all())),
            '.' => Tree::Set(Rc::new(Set::of('\n').others())),
            '[' => Tree::Set(Rc::new(self.class(flags)?)),
            '\\' => self.escape(flags)?,
            _ => self.alone(c, flags),
        })
    }

    fn alone(&self, c: char, flags: Flags) -> Tree {
        let set = Set::of(c);
        Tree::Set(Rc::new(if flags.folds { self.unicode.folded(&set) } else { set }))
    }

    fn escape(&mut self, flags: Flags) -> Read<Tree> {
        let look = match self.next() {
            Some('A') => Look::Start,
            Some('z') => Look::End,
            Some('b') => Look::Word,
            Some('B') => Look::NoWord,
            Some(letter @ ('d' | 's' | 'w' | 'D' | 'S' | 'W')) => {
                self.at += 1;
                return Ok(Tree::Set(self.unicode.class(letter)));
            }
            _ => {
                let c = self.character('\0')?;
                return Ok(self.alone(c, flags));
            }
        };
        self.at += 1;
        Ok(Tree::Look(look))
    }

    /// The character of an escape after its backslash, from a least one on.
    fn character(&mut self, least: char) -> Read<char> {
        match self.next() {
            Some('x') => self.number(2, least),
            Some('u') => self.number(4, least),
            letter => {
                let Some(c) = letter.and_then(escaped_char) else {
                    return self.mistake(Reason::Escape);
                };
                if c < least {
                    return self.mistake(Reason::RangeOrder);
                }
                self.at += 1;
                Ok(c)
            }
        }
    }

    /// The character of so many hexadecimal digits, or of one to eight in braces.
    fn number(&mut self, digits: usize, least: char) -> Read<char> {
        self.at += 1;
        let mut number = Number::new(if self.eat('{') { None } else { Some(digits) }, least);
        loop {
            let Some(c) = self.next() else { return self.mistake(Reason::Escape) };
            if let Err(reason) = number.add(c) {
                return self.mistake(reason);
            }
            self.at += 1;
            if let Some(found) = number.whole() {
                return Ok(found);
            }
        }
    }

    /// A class, after its opening bracket.
    fn class(&mut self, flags: Flags) -> Read<Set> {
        let (is_negated, mut ranges) = (self.eat('^'), Vec::new());
        let first = self.next();
        if first == Some(']') || (first == Some('-') && self.second() != Some('-')) {
            ranges.extend(first.map(Set::of).unwrap().ranges);
            self.at += 1;
        } else if first == Some('-') {
            self.at += 1;
            return self.mistake(Reason::ClassItem);
        }
        while !self.eat(']') {
            ranges.extend(self.class_item()?.ranges);
        }
        let set = Set::new(ranges);
        let set = if flags.folds { self.unicode.folded(&set) } else { set };
        Ok(if is_negated { set.others() } else { set })
    }

    /// An item of a class: a letter class, a character, a range, or a `-` at the end.
    fn class_item(&mut self) -> Read<Set> {
        if self.eat('-') {
            return match self.next() {
                Some(']') => Ok(Set::of('-')),
                None => self.mistake(Reason::OpenClass),
                Some(_) => self.mistake(Reason::ClassItem),
            };
        }
        if let Some(letter) = self.letter_class() {
            self.at += 2;
            return Ok(self.unicode.class(letter).as_ref().clone());
        }
        let low = self.class_end('\0')?;
        if self.next() != Some('-') || self.second() == Some(']') {
            return Ok(Set::of(low));
        }
        self.at += 1;
        if self.letter_class().is_some() {
            self.at += 1;
            return self.mistake(Reason::ClassItem);
        }
        Ok(Set::between(low, self.class_end(low)?))
    }

    fn letter_class(&self) -> Option<char> {
        let letter = self.second().filter(|&c| matches!(c, 'd' | 's' | 'w' | 'D' | 'S' | 'W'))?;
        (self.next() == Some('\\')).then_some(letter)
    }

    /// A character of a class, from a least one on, which may be an end of a range.
    fn class_end(&mut self, least: char) -> Read<char> {
        let Some(c) = self.next() else { return self.mistake(Reason::OpenClass) };
        if c == '\\' {
            self.at += 1;
            if matches!(self.next(), Some('A' | 'z' | 'b' | 'B')) {
                return self.mistake(Reason::ClassItem);
            }
            return self.character(least);
        }
        if matches!(c, '[' | '-' | ']') {
            return self.mistake(Reason::ClassItem);
        }
        if c < least {
            return self.mistake(Reason::RangeOrder);
        }
        self.at += 1;
        if matches!(c, '&' | '~') && self.next() == Some(c) {
            return self.mistake(Reason::ClassItem);
        }
        Ok(c)
    }
}
