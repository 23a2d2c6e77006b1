//! Patterns at random: of a list, as trees at random, and hostile ones.
use crate::random::Random;

pub const PATTERNS: &[&str] = &[
    "a",
    "b",
    "ab",
    "aa",
    "é",
    "🐸",
    "x*",
    "a*",
    "a+?",
    "a??",
    "(a|b)+",
    "(?:a|ab)b?",
    "[^a]",
    "[ab]{2,3}?",
    "a|🐸",
    "(?U)a+",
    "(a*)*b",
    "(?:a|\\b)+",
    "\\d*b",
    "\\w+",
    "\\W",
    "\\s+",
    "\\S+",
    "(?i)A.",
    "(?i:É)|b",
    ".",
    "(?s).",
    "(?s)a.+b",
    "\\r",
    "\\n",
    "\\r\\n",
    "\\r?\\n?",
    "[\\r\\n]+a",
    "\\n|b$",
    "\\x{2028}|^b",
    "a$",
    "^",
    "$",
    "^$",
    "\\b",
    "\\B",
    "\\ba",
    "a\\b.",
    "(?m)^a",
    "(?m)a$",
    "(?m)^$",
    "\\Aa|\\z",
    "",
    "|b",
    "a\n",
    "a\r\n?",
    "(a)|(b)",
    "((a)|é)+b?",
    "()a*",
    "(\\w)(?:(a)|(b))*",
    "(a)(a)?(a)?(a)?(a)?(a)?(a)?(a)?(a)?(b)?(b)?",
    "(🐸)|(?:(a)(b))",
    "(\\r)(\\n)",
    "a*b|a",
    "(?:a|b)*a(?:a|b){3}",
];
pub const REFUSED: &[&str] = &[
    "a(",
    "*",
    "a|*",
    "(?x)a",
    "[b-a]",
    "a{2,1}",
    "\\q",
    "[[a]",
    "(?<n>a)(?<n>b)",
    "(?=a)",
    "\\w{1000}{1000}",
    "a{65535}{65535}",
    "a{65536}",
    "\\u{D800}",
    "a)",
    "[a-\\d]",
    "[--a]",
    "(?",
];
/// Parts of hostile patterns, and forms in which these are put into one another.
const PARTS: &[&str] = &[
    "a*",
    "a?",
    "(a|a)",
    ".*",
    ".*?",
    "\\w",
    "[^\\w]",
    "a{0,200}",
    "(?:x|)",
    "\\b",
    "\\B",
    "^",
    "$",
    "(?m:^)",
    "|",
    "()",
    "[a-z]",
    "(?i)k",
    "b{65535}",
    "(a*)*",
    "x{0,40}",
    "[\\d\\D]",
    "[^\\s\\S]",
    "(?s:.)",
    "é",
    "🐸",
    "\\z",
    "\\A",
    "(?:ab|a)",
    "(a)(b)?",
];
const NESTED: &[(&str, &str)] = &[
    ("(", ")*"),
    ("(", ")+"),
    ("(?:", ")?"),
    ("(?:", "){0,3}"),
    ("(", "|)"),
    ("(?:", "|a)*"),
    ("(?i:", ")"),
    ("(", "){2}"),
    ("(?<n>", ")"),
];
const SIGNS: &[&str] = &[
    "a", "b", "é", "🐸", " ", "0", "-", "9", "\\", ".", "+", "*", "?", "(", ")", "[", "]", "{",
    "}", "|", "^", "$", ",", ":", "<", "P", ">", "=", "!", "i", "m", "s", "U", "&", "~", "w", "W",
    "d", "D", "S", "B", "A", "z", "x", "n", "r", "u", "\n", "\r", "6", "5",
];
const LOOKS: &[&str] = &["\\A", "^", "\\z", "$", "(?m:^)", "(?m:$)", "\\b", "\\B"];
const CLASSES: &[&str] = &[
    ".",
    "(?s:.)",
    "(?i:x)",
    "[ab]",
    "[^a]",
    "[a-bé]",
    "[^b\\n]",
    "[é-せ]",
    "[^\\W_]",
    "[^\\s\\S]",
    "\\w",
    "\\W",
    "\\d",
    "\\D",
    "\\s",
    "\\S",
];
const CHARACTERS: &[&str] =
    &["a", "a", "a", "b", "b", "b", "x", "3", "_", "é", "せ", "🐸", " ", "\\r", "\\n", "A"];
const COUNTS: &[&str] =
    &["*", "+", "?", "*", "+", "?", "{0,2}", "{1,2}", "{2}", "{2,3}", "{2,}", "{0}"];

/// A pattern as a tree at random.
fn alternation(random: &mut Random, depth: usize) -> String {
    let count = random.one_of(&[1, 1, 1, 2, 2, 3]);
    let branches: Vec<String> = (0..count).map(|_| row(random, depth)).collect();
    branches.join("|")
}

fn row(random: &mut Random, depth: usize) -> String {
    let count = random.one_of(&[0, 1, 1, 1, 2, 2, 2, 3, 3]);
    (0..count).map(|_| item(random, depth)).collect()
}

fn item(random: &mut Random, depth: usize) -> String {
    let mut item = atom(random, depth);
    while random.per_mille(400) {
        let lazy = if random.per_mille(600) { "" } else { "?" };
        item = format!("{item}{}{lazy}", random.one_of(COUNTS));
    }
    item
}

fn atom(random: &mut Random, depth: usize) -> String {
    match random.below(100) {
        0..13 => random.one_of(LOOKS).to_string(),
        13..25 => random.one_of(CLASSES).to_string(),
        25..60 => random.one_of(CHARACTERS).to_string(),
        _ if depth == 0 => random.one_of(CHARACTERS).to_string(),
        60..70 => format!("(?:{})", alternation(random, depth - 1)),
        _ => format!("({})", alternation(random, depth - 1)),
    }
}

/// A pattern, now and then one that is refused.
pub fn pattern(random: &mut Random) -> String {
    match random.below(100) {
        0..20 => alternation(random, 3),
        20..95 => random.one_of(PATTERNS).to_string(),
        _ => random.one_of(REFUSED).to_string(),
    }
}

/// A pattern that is nested, repeated or long, or one with signs put in and taken out.
pub fn hostile(random: &mut Random) -> String {
    match random.below(100) {
        0..25 => nested(random),
        25..50 => {
            let count = random.one_of(&[2, 2, 3, 3, 5, 40, 300]);
            (0..count).map(|_| random.one_of(PARTS)).collect()
        }
        50..60 => {
            let part = random.one_of(PARTS);
            let most: &[usize] =
                if part.contains(['[', 'w', '{']) { &[2, 50] } else { &[2, 50, 300, 4_000] };
            part.repeat(random.one_of(most))
        }
        _ => mangled(random),
    }
}

fn nested(random: &mut Random) -> String {
    let mut pattern = random.one_of(PARTS).to_string();
    for _ in 0..random.one_of(&[1, 2, 2, 3, 3, 5, 12, 60, 249, 251]) {
        let forms = if pattern.len() < 60 { NESTED } else { &NESTED[..3] };
        let (front, back) = random.one_of(forms);
        let again = if pattern.len() < 40 && random.per_mille(100) { pattern.as_str() } else { "" };
        pattern = format!("{front}{pattern}{again}{back}");
    }
    pattern
}

pub fn mangled(random: &mut Random) -> String {
    let list = random.one_of(&[PATTERNS, REFUSED, PARTS]);
    let mut pattern: Vec<char> = random.one_of(list).chars().collect();
    for _ in 0..random.between(1, 6) {
        let at = random.between(0, pattern.len());
        let end = (at + random.one_of(&[0, 0, 1, 2])).min(pattern.len());
        let sign = if random.per_mille(333) { "" } else { random.one_of(SIGNS) };
        pattern.splice(at..end, sign.chars());
    }
    pattern.into_iter().collect()
}
