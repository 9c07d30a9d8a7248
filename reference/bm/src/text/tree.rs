//! The tree of a box's process, and its lines by number.

use super::lex::{Parsed, TextError, TextPlace, Token};
use crate::model::{Line, LineNo, MAX_LINES};

/// A node of a box's tree, in the order of reading.
pub type NodeNo = LineNo;
/// A line number with the place of its sign.
pub type Label<'t> = (usize, Token<'t>);

pub struct Node<'t> {
    /// The line, its children being nodes.
    line: Line,
    pub label: Option<Label<'t>>,
    token: Token<'t>,
}

#[derive(Default)]
pub struct Tree<'t> {
    pub nodes: Vec<Node<'t>>,
}

impl<'t> Tree<'t> {
    pub fn add(&mut self, token: Token<'t>, label: Option<Label<'t>>) -> Parsed<NodeNo> {
        if self.nodes.len() == MAX_LINES {
            return Err(token.instead_of("at most 124 lines in a box"));
        }
        self.nodes.push(Node { line: Line::Nil, label, token });
        Ok(LineNo(self.nodes.len() as u16 - 1))
    }

    pub fn set(&mut self, node: NodeNo, line: Line) {
        self.nodes[node.index()].line = line;
    }

    /// The lines by number: labels if there are any, else top down and
    /// first child first.
    pub fn lines(&self, root: NodeNo) -> Parsed<Vec<Line>> {
        let labelled = self.nodes.iter().any(|node| node.label.is_some());
        let numbers = if labelled { self.labels(root)? } else { self.preorder(root) };
        let mut lines = vec![Line::Nil; self.nodes.len()];
        for (node, number) in self.nodes.iter().zip(&numbers) {
            let child_of = |child: NodeNo| LineNo(numbers[child.index()] as u16);
            lines[*number] = renumbered(node.line, child_of);
        }
        Ok(lines)
    }

    fn preorder(&self, root: NodeNo) -> Vec<usize> {
        let mut numbers = vec![0; self.nodes.len()];
        let mut open = vec![root];
        let mut number = 0;
        while let Some(node) = open.pop() {
            numbers[node.index()] = number;
            number += 1;
            let children: Vec<_> = self.nodes[node.index()].line.children().collect();
            open.extend(children.into_iter().rev());
        }
        numbers
    }

    /// The labels: each node has one, they are the numbers below the count,
    /// the root's is 0, and a child's is above its parent's.
    fn labels(&self, root: NodeNo) -> Parsed<Vec<usize>> {
        let mut numbers: Vec<usize> = Vec::new();
        for node in &self.nodes {
            let (number, token) = node
                .label
                .ok_or_else(|| misplaced(node.token.place, "a label on each line or on none"))?;
            if number >= self.nodes.len() || numbers.contains(&number) {
                return Err(misplaced(token.place, "each number below the count of lines once"));
            }
            numbers.push(number);
        }
        if numbers[root.index()] != 0 {
            return Err(misplaced(self.label_place(root), "the label 0 on the root"));
        }
        for (node, number) in self.nodes.iter().zip(&numbers) {
            let mut children = node.line.children();
            if let Some(child) = children.find(|child| numbers[child.index()] < *number) {
                return Err(misplaced(self.label_place(child), "a label above its parent's"));
            }
        }
        Ok(numbers)
    }

    fn label_place(&self, node: NodeNo) -> TextPlace {
        let node = &self.nodes[node.index()];
        node.label.map_or(node.token.place, |(_, token)| token.place)
    }
}

fn misplaced(place: TextPlace, expected: &str) -> TextError {
    let found = "another numbering".to_string();
    TextError { place, expected: expected.to_string(), found, hint: None }
}

/// The line with its children renamed.
pub fn renumbered(line: Line, child: impl Fn(LineNo) -> LineNo) -> Line {
    let mut line = line;
    match &mut line {
        Line::Nil => {}
        Line::Parallel { first, second } => {
            *first = child(*first);
            *second = child(*second);
        }
        Line::Replicate { next }
        | Line::Restrict { next, .. }
        | Line::Output { next, .. }
        | Line::Input { next, .. }
        | Line::Expose { next, .. }
        | Line::Hide { next, .. }
        | Line::Unhide { next, .. } => *next = child(*next),
    }
    line
}
