//! From the program to numbered nodes. S comes before its part and E after it, so that only the way back of a repeat runs downward.
use crate::pattern::{Op, Program};

/// The edges of a node. An edge on bytes, at the head or at the tail goes to the next node.
#[derive(Clone, Copy)]
pub enum Node {
    /// The final node, and a part's end until it is linked.
    End,
    Empty(u16),
    Both(u16, u16),
    Bytes(u16),
    Head,
    Tail,
}

const MOST: usize = 2048;

/// The first node is the start, the last one the final node. None where there are more than 2,048.
pub fn of(program: &Program) -> Option<Vec<Node>> {
    let mut builder = Builder { ops: &program.ops, nodes: Vec::with_capacity(MOST) };
    builder.part(program.ops.len())?;
    Some(builder.nodes)
}

struct Builder<'a> {
    ops: &'a [Op],
    nodes: Vec<Node>,
}

/// A part's first and last node.
type Part = (u16, u16);

impl Builder<'_> {
    fn node(&mut self, node: Node) -> Option<u16> {
        if self.nodes.len() == MOST {
            return None;
        }
        self.nodes.push(node);
        Some(self.nodes.len() as u16 - 1)
    }

    fn two(&mut self, first: Node) -> Option<Part> {
        Some((self.node(first)?, self.node(Node::End)?))
    }

    /// An empty edge.
    fn link(&mut self, from: u16, to: u16) {
        let node = &mut self.nodes[from as usize];
        *node = match *node {
            Node::Empty(other) => Node::Both(other, to),
            _ => Node::Empty(to),
        };
    }

    /// The part whose last operation comes right before `end`.
    fn part(&mut self, end: usize) -> Option<Part> {
        let end = end - 1;
        match self.ops[end] {
            Op::Nothing => self.nothing(),
            Op::Bytes(set) => self.two(Node::Bytes(set)),
            Op::Head => self.two(Node::Head),
            Op::Tail => self.two(Node::Tail),
            Op::Row(right) => {
                let so_far = self.part(end - right as usize)?;
                let next = self.part(end)?;
                Some(self.row(Some(so_far), next))
            }
            Op::Either(right) => {
                let s = self.node(Node::End)?;
                let x = self.part(end - right as usize)?;
                let y = self.part(end)?;
                let e = self.node(Node::End)?;
                self.link(s, x.0);
                self.link(s, y.0);
                self.link(x.1, e);
                self.link(y.1, e);
                Some((s, e))
            }
            Op::Star => self.around(end, true, true),
            Op::Plus => self.around(end, false, true),
            Op::Maybe => self.around(end, true, false),
            Op::Count(_, Some(0)) => self.nothing(),
            Op::Count(least, most) => {
                let mut all = None;
                for _ in 0..least {
                    let next = self.part(end)?;
                    all = Some(self.row(all, next));
                }
                for _ in least..most.unwrap_or(least) {
                    let next = self.around(end, true, false)?;
                    all = Some(self.row(all, next));
                }
                if most.is_none() {
                    let next = self.around(end, true, true)?;
                    all = Some(self.row(all, next));
                }
                all
            }
        }
    }

    fn nothing(&mut self) -> Option<Part> {
        let (s, e) = self.two(Node::End)?;
        self.link(s, e);
        Some((s, e))
    }

    fn row(&mut self, so_far: Option<Part>, next: Part) -> Part {
        so_far.map_or(next, |(s, e)| {
            self.link(e, next.0);
            (s, next.1)
        })
    }

    fn around(&mut self, end: usize, skip: bool, again: bool) -> Option<Part> {
        let s = self.node(Node::End)?;
        let x = self.part(end)?;
        let e = self.node(Node::End)?;
        self.link(s, x.0);
        if skip {
            self.link(s, e);
        }
        if again {
            self.link(x.1, x.0);
        }
        self.link(x.1, e);
        Some((s, e))
    }
}
