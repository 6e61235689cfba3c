//! Set rows by taken sets. Nothing but its byte edge enters the target of a byte edge, and nothing enters the start. So a row that
//! a byte leads to is fixed by the nodes whose edges were just taken; these stand in the row's set words, and each row is closed once.
//! A column is not looked up where no edge is taken, or the edges of the column before; words in which a row has no edge are passed over.
use crate::nodes::Node;
use crate::pattern::ByteSet;
use crate::{has, members, put, spans, WORDS};
use std::ops::Range;

const BUCKETS: usize = 1024;
const ROWS_MOST: usize = 1024;

/// Rows by a hash of their taken sets: the last row of each bucket, and the row before each in its bucket. 0 is none.
struct Known<'a> {
    last: [u16; BUCKETS],
    before: [u16; ROWS_MOST],
    /// What of its hash does not choose the bucket of a row.
    hash: [u32; ROWS_MOST],
    /// The row in which nothing was taken, once it is known.
    nothing: Option<u16>,
    /// The taken set of each row, and how many rows there are and may be.
    sets: &'a mut [u64],
    rows: usize,
    room: usize,
}

impl Known<'_> {
    /// The row of a taken set, which has members in these words only; it is put down if it is new. None where there is no room.
    fn row_of(&mut self, taken: &[u64], words: Range<usize>) -> Option<u16> {
        let hash = words
            .filter(|&w| taken[w] != 0)
            .fold(0u64, |hash, w| (hash.rotate_left(7) ^ taken[w] ^ w as u64).wrapping_mul(0x9e37_79b9_7f4a_7c15));
        let (hash, bucket) = ((hash >> 32) as u32, (hash ^ hash >> 32) as usize % BUCKETS);
        let mut r = self.last[bucket] as usize;
        while r != 0 {
            if self.hash[r] == hash && self.sets[WORDS * r..WORDS * r + taken.len()] == *taken {
                return Some(r as u16);
            }
            r = self.before[r] as usize;
        }
        if self.rows == self.room {
            return None;
        }
        r = self.rows;
        self.sets[WORDS * r..WORDS * r + taken.len()].copy_from_slice(taken);
        self.hash[r] = hash;
        self.before[r] = self.last[bucket];
        self.last[bucket] = r as u16;
        self.rows += 1;
        Some(r as u16)
    }

    /// The rows that a closed row leads to, column by column. None where there is no room.
    fn targets(&mut self, edges: &Edges, set: &[u64], targets: &mut [u16]) -> Option<()> {
        let words = edges.words(set);
        let mut all = [0u64; WORDS];
        let taken = &mut all[..edges.used];
        let mut before = None;
        for (target, on) in targets.iter_mut().zip(edges.on.chunks(edges.used)) {
            let (mut any, mut new) = (0, 0);
            for ((t, s), o) in taken[words.clone()].iter_mut().zip(&set[words.clone()]).zip(&on[words.clone()]) {
                let now = s & o;
                any |= now;
                new |= now ^ *t;
                *t = now;
            }
            *target = match (before, self.nothing) {
                (Some(row), _) if new == 0 => row,
                (_, Some(row)) if any == 0 => row,
                _ => self.row_of(taken, words.clone())?,
            };
            before = Some(*target);
            if any == 0 {
                self.nothing = before;
            }
        }
        Some(())
    }
}

/// The nodes with an edge on bytes, and for each column those with an edge on it, in as many words as are in use.
struct Edges {
    used: usize,
    bytes: [u64; WORDS],
    on: Vec<u64>,
}

impl Edges {
    fn of(nodes: &[Node], byte_sets: &[ByteSet], columns: &[u8]) -> Edges {
        let used = nodes.len().div_ceil(64);
        let mut edges = Edges { used, bytes: [0; WORDS], on: vec![0; used * columns.len()] };
        for (u, node) in nodes.iter().enumerate() {
            if let Node::Bytes(set) = *node {
                put(&mut edges.bytes, u);
                for (k, &b) in columns.iter().enumerate() {
                    edges.on[used * k + u / 64] |= (has(&byte_sets[set as usize], b as usize) as u64) << (u % 64);
                }
            }
        }
        edges
    }

    /// From the first to the last word in which a set has a node with an edge on bytes.
    fn words(&self, set: &[u64]) -> Range<usize> {
        let with_edge = |w: &usize| set[*w] & self.bytes[*w] != 0;
        let first = (0..self.used).find(with_edge).unwrap_or(0);
        first..(first..self.used).rfind(with_edge).map_or(first, |last| last + 1)
    }
}

/// Which edges are crossed beside the empty ones.
#[derive(Clone, Copy)]
struct Crossing {
    head: bool,
    tail: bool,
}

struct Closer<'a> {
    nodes: &'a [Node],
    todo: Vec<u16>,
}

impl Closer<'_> {
    /// Adds a node and what it leads to.
    fn add(&mut self, set: &mut [u64], node: usize, crossing: Crossing) {
        self.seen(set, node);
        while let Some(u) = self.todo.pop() {
            match self.nodes[u as usize] {
                Node::Empty(v) => self.seen(set, v as usize),
                Node::Both(v, w) => {
                    self.seen(set, v as usize);
                    self.seen(set, w as usize);
                }
                Node::Head if crossing.head => self.seen(set, u as usize + 1),
                Node::Tail if crossing.tail => self.seen(set, u as usize + 1),
                _ => (),
            }
        }
    }

    fn seen(&mut self, set: &mut [u64], node: usize) {
        if !has(set, node) {
            put(set, node);
            self.todo.push(node as u16);
        }
    }
}

/// The set rows' cells and marks, at the front of the room; how many there are. None where there are more than the room is for.
/// A column is a run of bytes that no set parts, by its first byte.
pub fn list(
    nodes: &[Node],
    byte_sets: &[ByteSet],
    columns: &[u8],
    cells: &mut [u16],
    marks: &mut [u8],
    sets: &mut [u64],
) -> Option<usize> {
    let room = ROWS_MOST.min(cells.len() / 256).min(marks.len()).min(sets.len() / WORDS);
    if room < 2 {
        return None;
    }
    let edges = Edges::of(nodes, byte_sets, columns);
    let mut tails = [0u64; WORDS];
    for (u, _) in nodes.iter().enumerate().filter(|(_, node)| matches!(node, Node::Tail)) {
        put(&mut tails, u);
    }
    let mut closer = Closer { nodes, todo: Vec::with_capacity(nodes.len()) };
    let (last, before, hash) = ([0; BUCKETS], [0; ROWS_MOST], [0; ROWS_MOST]);
    let mut known = Known { last, before, hash, nothing: None, sets, rows: 2, room };
    let mut targets = [0u16; 256];
    let mut q = 0;
    while q < known.rows {
        let mut set = [0u64; WORDS];
        if q < 2 {
            closer.add(&mut set, 0, Crossing { head: q == 1, tail: false });
        } else {
            for u in members(&known.sets[WORDS * q..WORDS * q + edges.used]) {
                closer.add(&mut set, u + 1, Crossing { head: false, tail: false });
            }
        }
        known.targets(&edges, &set, &mut targets[..columns.len()])?;
        for (span, &target) in spans(columns).zip(&targets) {
            cells[256 * q + span.start..256 * q + span.end].fill(target);
        }
        marks[q] = mark(&mut closer, &set[..edges.used], &tails, q == 1);
        q += 1;
    }
    Some(known.rows)
}

/// The mark of a closed row.
fn mark(closer: &mut Closer, set: &[u64], tails: &[u64], head: bool) -> u8 {
    let last = closer.nodes.len() - 1;
    if has(set, last) {
        return 3;
    }
    if !head && set.iter().zip(tails).all(|(s, t)| s & t == 0) {
        return 0;
    }
    let mut more = [0u64; WORDS];
    for u in members(set) {
        closer.add(&mut more, u, Crossing { head, tail: true });
    }
    if has(&more, last) {
        2
    } else {
        0
    }
}
