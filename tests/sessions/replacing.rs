//! What takes the place of matches, by templates.
use crate::model::Part;
use crate::patterns::Pattern;
use crate::texts::Text;
use crate::walks::{Slots, TooLong};

/// Each match of the whole text as a part that the template's expansion replaces.
pub fn replaced(text: &Text, pattern: &Pattern, template: &[char]) -> Result<Vec<Part>, TooLong> {
    let matches = pattern.matches(&text.chars)?;
    let parts = matches.iter().map(|slots| {
        let (start, end) = bounds(slots, 0).expect("a match has bounds");
        (start, end, expanded(&text.chars, template, slots))
    });
    Ok(parts.collect())
}

/// The matches that the report lists in the lines from one up to another as such parts, and the number
/// of these lines that have a match.
pub fn replaced_in_lines(
    text: &Text,
    pattern: &Pattern,
    template: &[char],
    (from, to): (u64, u64),
) -> Result<(Vec<Part>, u64), TooLong> {
    let (mut parts, mut lines) = (Vec::new(), 0);
    for (start, end) in text.lines_between(from, to) {
        let line = &text.chars[start..end];
        let matches = pattern.matches(line)?;
        lines += u64::from(!matches.is_empty());
        parts.extend(matches.iter().map(|slots| {
            let (first, last) = bounds(slots, 0).expect("a match has bounds");
            (start + first, start + last, expanded(line, template, slots))
        }));
    }
    Ok((parts, lines))
}

fn bounds(slots: &Slots, group: usize) -> Option<(usize, usize)> {
    Some(((*slots.get(2 * group)?)?, (*slots.get(2 * group + 1)?)?))
}

/// An item of a template: a character, or `$` and a digit, which is the text of that group.
enum Item {
    Char(char),
    Group(usize),
}

/// The items of a template, in which `$$` is a dollar.
fn items(template: &[char]) -> Vec<Item> {
    let (mut items, mut at) = (Vec::new(), 0);
    while let Some(&c) = template.get(at) {
        let next = template.get(at + 1).filter(|_| c == '$');
        let (item, len) = match next.map(|&next| (next, next.to_digit(10))) {
            Some((_, Some(group))) => (Item::Group(group as usize), 2),
            Some(('$', _)) => (Item::Char('$'), 2),
            _ => (Item::Char(c), 1),
        };
        items.push(item);
        at += len;
    }
    items
}

/// The template with the groups of a match in `chars`.
pub fn expanded(chars: &[char], template: &[char], slots: &Slots) -> Vec<char> {
    let mut expansion = Vec::new();
    for item in items(template) {
        match item {
            Item::Char(c) => expansion.push(c),
            Item::Group(group) => {
                if let Some((start, end)) = bounds(slots, group) {
                    expansion.extend_from_slice(&chars[start..end]);
                }
            }
        }
    }
    expansion
}

/// Whether a template names a group other than the whole match.
pub fn names_a_group(template: &[char]) -> bool {
    items(template).iter().any(|item| matches!(item, Item::Group(1..)))
}
