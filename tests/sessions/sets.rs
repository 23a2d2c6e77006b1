//! Sets of characters, as ranges of ordinals: the numbers of scalar values, surrogates left out.
use std::collections::HashMap;
use std::rc::Rc;

/// The number of scalar values.
const SCALARS: u32 = 0x10_F800;

pub fn ordinal(c: char) -> u32 {
    let code = c as u32;
    if code > 0xDFFF { code - 0x800 } else { code }
}

/// A set, as its maximal ranges in order.
#[derive(Debug, Clone, PartialEq)]
pub struct Set {
    pub ranges: Vec<(u32, u32)>,
}

impl Set {
    pub fn new(mut ranges: Vec<(u32, u32)>) -> Set {
        ranges.sort_unstable();
        let mut merged: Vec<(u32, u32)> = Vec::new();
        for (low, high) in ranges {
            match merged.last_mut() {
                Some(last) if low <= last.1 + 1 => last.1 = last.1.max(high),
                _ => merged.push((low, high)),
            }
        }
        Set { ranges: merged }
    }

    pub fn between(low: char, high: char) -> Set {
        Set { ranges: vec![(ordinal(low), ordinal(high))] }
    }

    pub fn of(c: char) -> Set {
        Set::between(c, c)
    }

    pub fn all() -> Set {
        Set { ranges: vec![(0, SCALARS - 1)] }
    }

    pub fn has(&self, c: char) -> bool {
        self.holds(ordinal(c))
    }

    fn holds(&self, number: u32) -> bool {
        if let [(low, high)] = self.ranges[..] {
            return low <= number && number <= high;
        }
        let at = self.ranges.partition_point(|&(low, _)| low <= number);
        at > 0 && number <= self.ranges[at - 1].1
    }

    /// All characters that aren't in the set.
    pub fn others(&self) -> Set {
        let (mut ranges, mut next) = (Vec::new(), 0);
        for &(low, high) in &self.ranges {
            if next < low {
                ranges.push((next, low - 1));
            }
            next = high + 1;
        }
        if next < SCALARS {
            ranges.push((next, SCALARS - 1));
        }
        Set { ranges }
    }
}

/// What Unicode says: the letter classes, and the characters that have one simple case folding.
/// They are Python's, from a file that tests/sessions/sessions_by_calls.py writes.
pub struct Unicode {
    digit: Rc<Set>,
    space: Rc<Set>,
    word: Rc<Set>,
    alike: Vec<Vec<u32>>,
    alike_at: HashMap<u32, usize>,
}

impl Unicode {
    /// Reads lines of a letter and numbers: `d`, `s` and `w` with the bounds of ranges, and `f`
    /// with the ordinals that fold alike.
    pub fn read(file: &str) -> Unicode {
        let mut classes: HashMap<&str, Rc<Set>> = HashMap::new();
        let mut alike: Vec<Vec<u32>> = Vec::new();
        for line in file.lines() {
            let (letter, rest) = line.split_once(' ').expect("a letter and numbers");
            let numbers = rest.split(' ').map(|one| one.parse().expect("a number"));
            let numbers: Vec<u32> = numbers.collect();
            if letter == "f" {
                alike.push(numbers);
            } else {
                let ranges = numbers.chunks(2).map(|pair| (pair[0], pair[1])).collect();
                classes.insert(letter, Rc::new(Set::new(ranges)));
            }
        }
        let each = alike.iter().enumerate();
        let alike_at = each.flat_map(|(at, numbers)| numbers.iter().map(move |&n| (n, at)));
        let alike_at = alike_at.collect();
        let class = |letter| Rc::clone(&classes[letter]);
        Unicode { digit: class("d"), space: class("s"), word: class("w"), alike, alike_at }
    }

    /// The class of `d`, `s` or `w`, or with a capital letter all other characters.
    pub fn class(&self, letter: char) -> Rc<Set> {
        let class = match letter.to_ascii_lowercase() {
            'd' => &self.digit,
            's' => &self.space,
            _ => &self.word,
        };
        if letter.is_ascii_uppercase() { Rc::new(class.others()) } else { Rc::clone(class) }
    }

    pub fn is_word(&self, c: char) -> bool {
        if c.is_ascii() {
            return c.is_ascii_alphanumeric() || c == '_';
        }
        self.word.has(c)
    }

    /// All characters that have the simple case folding of one in the set.
    pub fn folded(&self, set: &Set) -> Set {
        let mut ranges = set.ranges.clone();
        let count: u32 = set.ranges.iter().map(|(low, high)| high - low + 1).sum();
        let mut add = |at: usize| ranges.extend(self.alike[at].iter().map(|&n| (n, n)));
        if count < 100 {
            let members = set.ranges.iter().flat_map(|&(low, high)| low..=high);
            members.filter_map(|n| self.alike_at.get(&n)).for_each(|&at| add(at));
        } else {
            let is_in = |at: &usize| self.alike[*at].iter().any(|&n| set.holds(n));
            (0..self.alike.len()).filter(is_in).for_each(add);
        }
        Set::new(ranges)
    }
}
