//! "Nodes and sets".
use crate::pattern::{Set, Tree};
use std::collections::{BTreeSet, HashMap};

#[derive(Clone, Copy, PartialEq)]
enum On {
    Empty,
    Head,
    Tail,
    Bytes(usize),
}

pub struct Nodes {
    edges: Vec<Vec<(On, usize)>>,
    sets: Vec<Set>,
    start: usize,
    end: usize,
    most: usize,
}

impl Nodes {
    /// None where there are more than 2,048.
    pub fn of(tree: &Tree) -> Option<Nodes> {
        Nodes::up_to(tree, 2048)
    }

    /// None where there are more than `most`.
    pub fn up_to(tree: &Tree, most: usize) -> Option<Nodes> {
        let mut nodes = Nodes { edges: vec![], sets: vec![], start: 0, end: 0, most };
        let (start, end) = nodes.add(tree)?;
        nodes.start = start;
        nodes.end = end;
        Some(nodes)
    }

    pub fn count(&self) -> usize {
        self.edges.len()
    }

    fn node(&mut self) -> Option<usize> {
        if self.edges.len() == self.most {
            return None;
        }
        self.edges.push(vec![]);
        Some(self.edges.len() - 1)
    }

    fn edge(&mut self, from: usize, on: On, to: usize) {
        self.edges[from].push((on, to));
    }

    fn two(&mut self, on: On) -> Option<(usize, usize)> {
        let (s, e) = (self.node()?, self.node()?);
        self.edge(s, on, e);
        Some((s, e))
    }

    fn row(&mut self, so_far: Option<(usize, usize)>, next: (usize, usize)) -> Option<(usize, usize)> {
        Some(match so_far {
            None => next,
            Some((s, e)) => {
                self.edge(e, On::Empty, next.0);
                (s, next.1)
            }
        })
    }

    fn around(&mut self, x: &Tree, skip: bool, again: bool) -> Option<(usize, usize)> {
        let (xs, xe) = self.add(x)?;
        let (s, e) = (self.node()?, self.node()?);
        self.edge(s, On::Empty, xs);
        self.edge(xe, On::Empty, e);
        if skip {
            self.edge(s, On::Empty, e);
        }
        if again {
            self.edge(xe, On::Empty, xs);
        }
        Some((s, e))
    }

    fn add(&mut self, tree: &Tree) -> Option<(usize, usize)> {
        match tree {
            Tree::Nothing => self.two(On::Empty),
            Tree::Bytes(set) => {
                self.sets.push(**set);
                self.two(On::Bytes(self.sets.len() - 1))
            }
            Tree::Head => self.two(On::Head),
            Tree::Tail => self.two(On::Tail),
            Tree::Row(row) => {
                let mut all = None;
                for piece in row {
                    let next = self.add(piece)?;
                    all = self.row(all, next);
                }
                all
            }
            Tree::Either(branches) => {
                let mut x = self.add(&branches[0])?;
                for branch in &branches[1..] {
                    let y = self.add(branch)?;
                    let (s, e) = (self.node()?, self.node()?);
                    self.edge(s, On::Empty, x.0);
                    self.edge(s, On::Empty, y.0);
                    self.edge(x.1, On::Empty, e);
                    self.edge(y.1, On::Empty, e);
                    x = (s, e);
                }
                Some(x)
            }
            Tree::Star(x) => self.around(x, true, true),
            Tree::Plus(x) => self.around(x, false, true),
            Tree::Maybe(x) => self.around(x, true, false),
            Tree::Count(_, 0, Some(0)) => self.two(On::Empty),
            Tree::Count(x, m, n) => {
                let mut all = None;
                for _ in 0..*m {
                    let next = self.add(x)?;
                    all = self.row(all, next);
                }
                match n {
                    None => {
                        let next = self.around(x, true, true)?;
                        all = self.row(all, next);
                    }
                    Some(n) => {
                        for _ in *m..*n {
                            let next = self.around(x, true, false)?;
                            all = self.row(all, next);
                        }
                    }
                }
                all
            }
        }
    }

    fn close(&self, nodes: impl Iterator<Item = usize>, crosses: impl Fn(On) -> bool) -> BTreeSet<usize> {
        let mut set: BTreeSet<usize> = nodes.collect();
        let mut todo: Vec<usize> = set.iter().copied().collect();
        while let Some(u) = todo.pop() {
            for &(on, v) in &self.edges[u] {
                if crosses(on) && set.insert(v) {
                    todo.push(v);
                }
            }
        }
        set
    }

    /// The row's edges on bytes: the set's number and the target.
    fn byte_edges(&self, row: &BTreeSet<usize>) -> Vec<(usize, usize)> {
        let on_bytes = |&(on, v)| match on {
            On::Bytes(k) => Some((k, v)),
            _ => None,
        };
        row.iter().flat_map(|&u| &self.edges[u]).filter_map(on_bytes).collect()
    }

    fn mark(&self, row: &BTreeSet<usize>, head: bool) -> u8 {
        if row.contains(&self.end) {
            return 3;
        }
        let more = self.close(row.iter().copied(), |on| on == On::Empty || on == On::Tail || (head && on == On::Head));
        if more.contains(&self.end) {
            2
        } else {
            0
        }
    }
}

/// The set rows: row 0 is the inside row, row 1 the head row.
pub struct SetRows {
    pub marks: Vec<u8>,
    pub cells: Vec<[u16; 256]>,
}

impl SetRows {
    /// None where there are more than k, or more than 16 bits number.
    pub fn of(nodes: &Nodes, k: usize) -> Option<SetRows> {
        let k = k.min(1 << 16);
        let inside = nodes.close([nodes.start].into_iter(), |on| on == On::Empty);
        let head = nodes.close([nodes.start].into_iter(), |on| on == On::Empty || on == On::Head);
        let mut known = HashMap::from([(inside.clone(), 0)]);
        let mut rows = vec![inside, head];
        let mut all = SetRows { marks: vec![], cells: vec![] };
        if rows.len() > k {
            return None;
        }
        while all.cells.len() < rows.len() {
            let q = all.cells.len();
            all.marks.push(nodes.mark(&rows[q], q == 1));
            let mut cells = [0; 256];
            // the rows that targets lead to, so that bytes with the same targets are closed once
            let mut led = HashMap::new();
            let edges = nodes.byte_edges(&rows[q]);
            for (b, cell) in cells.iter_mut().enumerate() {
                let targets: Vec<usize> = edges.iter().filter(|(k, _)| nodes.sets[*k][b]).map(|&(_, v)| v).collect();
                if let Some(&r) = led.get(&targets) {
                    *cell = r;
                    continue;
                }
                let to = nodes.close(targets.iter().copied(), |on| on == On::Empty);
                let next = rows.len();
                let r = *known.entry(to.clone()).or_insert(next);
                if r == next {
                    if next == k {
                        return None;
                    }
                    rows.push(to);
                }
                *cell = r as u16;
                led.insert(targets, *cell);
            }
            all.cells.push(cells);
        }
        Some(all)
    }
}
