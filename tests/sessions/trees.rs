//! Patterns as trees, and what they weigh.
use crate::sets::Set;
use std::rc::Rc;

#[derive(Debug, Clone, Copy, PartialEq)]
pub enum Look {
    Start,
    End,
    StartLine,
    EndLine,
    Word,
    NoWord,
}

#[derive(Debug, Clone)]
pub enum Tree {
    Empty,
    Set(Rc<Set>),
    Look(Look),
    /// A group with a number, from 1.
    Group(usize, Box<Tree>),
    Concat(Vec<Tree>),
    Alternation(Vec<Tree>),
    Repeat(Box<Tree>, Count),
}

/// How often a tree is repeated: any number from the least on where there is no most.
#[derive(Debug, Clone, Copy)]
pub struct Count {
    pub least: u64,
    pub most: Option<u64>,
    pub is_greedy: bool,
}

impl Tree {
    /// Whether some path through the tree reads no character, whatever its looks say.
    pub fn may_be_empty(&self) -> bool {
        match self {
            Tree::Empty | Tree::Look(_) => true,
            Tree::Set(_) => false,
            Tree::Group(_, inside) => inside.may_be_empty(),
            Tree::Concat(parts) => parts.iter().all(Tree::may_be_empty),
            Tree::Alternation(parts) => parts.iter().any(Tree::may_be_empty),
            Tree::Repeat(inside, count) => count.least == 0 || inside.may_be_empty(),
        }
    }

    /// The number of nodes of the tree's program, and of the ranges of its sets.
    fn weight(&self) -> u64 {
        match self {
            Tree::Empty | Tree::Look(_) => 1,
            Tree::Set(set) => 1 + set.ranges.len() as u64,
            Tree::Group(_, inside) => inside.weight().saturating_add(2),
            Tree::Concat(parts) => sum(parts),
            Tree::Alternation(parts) => sum(parts).saturating_add(1),
            Tree::Repeat(inside, count) => repeated_weight(inside, count),
        }
    }
}

fn sum(parts: &[Tree]) -> u64 {
    parts.iter().fold(0, |weight, part| weight.saturating_add(part.weight()))
}

fn repeated_weight(inside: &Tree, count: &Count) -> u64 {
    let weight = inside.weight();
    let copies = weight.saturating_mul(count.least);
    match count.most {
        Some(0) => 1,
        Some(most) => {
            copies.saturating_add((most - count.least).saturating_mul(weight.saturating_add(1)))
        }
        None if count.least > 0 => copies.saturating_add(1),
        None => weight.saturating_add(if inside.may_be_empty() { 2 } else { 1 }),
    }
}

/// What a pattern weighs: its tree, the group of the whole match, and the end.
pub fn pattern_weight(tree: &Tree) -> u64 {
    tree.weight().saturating_add(3)
}
