//! Programs of patterns: nodes with ordered edges, as docs/meaning.md defines them.
use crate::sets::Set;
use crate::trees::{Count, Look, Tree};
use std::rc::Rc;

#[derive(Debug)]
pub enum Node {
    Match,
    Look(Look, usize),
    Set(Rc<Set>, usize),
    /// Notes the place in a slot.
    Note(usize, usize),
    Pass(Vec<usize>),
}

/// The nodes of a pattern. A tree's nodes are made after those that follow it.
#[derive(Debug, Default)]
pub struct Program {
    pub nodes: Vec<Node>,
    pub start: usize,
    pub slots: usize,
}

impl Program {
    pub fn new(tree: &Tree) -> Program {
        let mut program = Program { slots: 2, ..Program::default() };
        let end = program.add(Node::Match);
        program.start = program.noted(0, tree, end);
        program
    }

    fn add(&mut self, node: Node) -> usize {
        self.nodes.push(node);
        self.nodes.len() - 1
    }

    /// A node that notes the start, what is inside, and one that notes the end.
    fn noted(&mut self, number: usize, inside: &Tree, on: usize) -> usize {
        self.slots = self.slots.max(2 * number + 2);
        let end = self.add(Node::Note(2 * number + 1, on));
        let into = self.code(inside, end);
        self.add(Node::Note(2 * number, into))
    }

    /// Adds nodes for a tree that is followed by the node `on`, and returns the node that is
    /// entered.
    fn code(&mut self, tree: &Tree, on: usize) -> usize {
        match tree {
            Tree::Empty => self.add(Node::Pass(vec![on])),
            Tree::Set(set) => self.add(Node::Set(Rc::clone(set), on)),
            Tree::Look(look) => self.add(Node::Look(*look, on)),
            Tree::Group(number, inside) => self.noted(*number, inside, on),
            Tree::Concat(parts) => parts.iter().rev().fold(on, |on, part| self.code(part, on)),
            Tree::Alternation(parts) => {
                let edges = parts.iter().map(|part| self.code(part, on)).collect();
                self.add(Node::Pass(edges))
            }
            Tree::Repeat(_, Count { most: Some(0), .. }) => self.add(Node::Pass(vec![on])),
            Tree::Repeat(inside, count) => self.repeat(inside, count, on),
        }
    }

    /// The least number of copies; then optional ones, each inside the one before, or a loop. If
    /// what may be empty is repeated, `*` is an optional `+`.
    fn repeat(&mut self, inside: &Tree, count: &Count, on: usize) -> usize {
        let (mut first, mut copies) = (on, count.least);
        if let Some(most) = count.most {
            for _ in count.least..most {
                let into = self.code(inside, first);
                first = self.fork(into, on, count.is_greedy);
            }
        } else if count.least > 0 {
            (first, _) = self.looped(inside, count.is_greedy, on);
            copies -= 1;
        } else if inside.may_be_empty() {
            let (into, _) = self.looped(inside, count.is_greedy, on);
            first = self.fork(into, on, count.is_greedy);
        } else {
            (_, first) = self.looped(inside, count.is_greedy, on);
        }
        (0..copies).fold(first, |on, _| self.code(inside, on))
    }

    /// A node with edges into what is repeated and on, the first one preferred if it is greedy.
    fn fork(&mut self, into: usize, on: usize, is_greedy: bool) -> usize {
        self.add(Node::Pass(if is_greedy { vec![into, on] } else { vec![on, into] }))
    }

    /// A fork into what is repeated and on, and what is repeated, which leads back to it. Returns
    /// the first node of what is repeated, and the fork.
    fn looped(&mut self, inside: &Tree, is_greedy: bool, on: usize) -> (usize, usize) {
        let fork = self.fork(on, on, is_greedy);
        let into = self.code(inside, fork);
        if let Node::Pass(edges) = &mut self.nodes[fork] {
            edges[usize::from(!is_greedy)] = into;
        }
        (into, fork)
    }
}
