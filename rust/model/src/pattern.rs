//! The reader: pattern bytes to a program, whose operations stand after what they work on.
use crate::{has, Refused};

pub type ByteSet = [u64; 4];

#[derive(Clone, Copy)]
pub enum Op {
    Nothing,
    /// An atom on the bytes of the set with this number.
    Bytes(u16),
    Head,
    Tail,
    /// Two parts in a row; so many operations are the second part's.
    Row(u16),
    Either(u16),
    Star,
    Plus,
    Maybe,
    /// `{m,n}`, or without a top `{m,}`.
    Count(u8, Option<u8>),
}

pub struct Program {
    pub ops: Vec<Op>,
    pub sets: Vec<ByteSet>,
}

/// A name's spelling, and its bytes from the first to the last of each range.
type Name = (&'static [u8], &'static [(u8, u8)]);

const NAMES: [Name; 7] = [
    (b"[:digit:]", &[(b'0', b'9')]),
    (b"[:upper:]", &[(b'A', b'Z')]),
    (b"[:lower:]", &[(b'a', b'z')]),
    (b"[:alpha:]", &[(b'A', b'Z'), (b'a', b'z')]),
    (b"[:alnum:]", &[(b'A', b'Z'), (b'a', b'z'), (b'0', b'9')]),
    (b"[:xdigit:]", &[(b'0', b'9'), (b'A', b'F'), (b'a', b'f')]),
    (b"[:space:]", &[(9, 13), (b' ', b' ')]),
];

pub fn read(pattern: &[u8]) -> Result<Program, Refused> {
    if pattern.len() > 1024 {
        return Err((1, 1024));
    }
    let mut r =
        Reader { pattern, at: 0, open: 0, program: Program { ops: Vec::with_capacity(2 * pattern.len() + 1), sets: vec![] } };
    r.branches()?;
    if r.at < pattern.len() {
        return Err((7, r.at as u32));
    }
    Ok(r.program)
}

struct Reader<'a> {
    pattern: &'a [u8],
    at: usize,
    open: usize,
    program: Program,
}

impl Reader<'_> {
    fn next(&self) -> Option<u8> {
        self.pattern.get(self.at).copied()
    }

    fn push(&mut self, op: Op) {
        self.program.ops.push(op);
    }

    /// A second part that was read from `from` on is joined to the first.
    fn join(&mut self, from: usize, op: fn(u16) -> Op) {
        let right = self.program.ops.len() - from;
        self.push(op(right as u16));
    }

    fn branches(&mut self) -> Result<(), Refused> {
        self.branch()?;
        while self.next() == Some(b'|') {
            self.at += 1;
            let from = self.program.ops.len();
            self.branch()?;
            self.join(from, Op::Either);
        }
        Ok(())
    }

    fn branch(&mut self) -> Result<(), Refused> {
        let mut first = true;
        while self.next().is_some_and(|b| b != b'|' && b != b')') {
            let from = self.program.ops.len();
            self.piece()?;
            if !first {
                self.join(from, Op::Row);
            }
            first = false;
        }
        if first {
            self.push(Op::Nothing);
        }
        Ok(())
    }

    fn piece(&mut self) -> Result<(), Refused> {
        self.atom()?;
        let op = match self.next() {
            Some(b'*') => Op::Star,
            Some(b'+') => Op::Plus,
            Some(b'?') => Op::Maybe,
            Some(b'{') => {
                let (op, next) = self.count(self.at + 1).ok_or((3, self.at as u32))?;
                self.at = next;
                self.push(op);
                return Ok(());
            }
            _ => return Ok(()),
        };
        self.at += 1;
        self.push(op);
        Ok(())
    }

    /// A number of one to three digits, and the place after it.
    fn number(&self, from: usize) -> Option<(u8, usize)> {
        let digits = self.pattern[from..].iter().take(3).take_while(|b| b.is_ascii_digit());
        let (value, next) = digits.fold((0u16, from), |(n, i), b| (10 * n + (b - b'0') as u16, i + 1));
        (from < next && value <= 255).then_some((value as u8, next))
    }

    fn count(&self, from: usize) -> Option<(Op, usize)> {
        let (least, next) = self.number(from)?;
        let (most, next) = match (self.pattern.get(next)?, self.pattern.get(next + 1)) {
            (b'}', _) => (Some(least), next),
            (b',', Some(b'}')) => (None, next + 1),
            (b',', _) => self.number(next + 1).map(|(n, i)| (Some(n), i))?,
            _ => return None,
        };
        let legal = self.pattern.get(next) == Some(&b'}') && most.is_none_or(|n| least <= n);
        legal.then_some((Op::Count(least, most), next + 1))
    }

    fn atom(&mut self) -> Result<(), Refused> {
        let at = self.at;
        let refused = |number: u32| (number, at as u32);
        let (set, next) = match self.pattern[at] {
            b'*' | b'+' | b'?' | b'{' => return Err(refused(2)),
            b']' | b'}' => return Err(refused(6)),
            b'(' => return self.group(),
            sign @ (b'^' | b'$') => {
                self.push(if sign == b'^' { Op::Head } else { Op::Tail });
                self.at += 1;
                return Ok(());
            }
            b'.' => ([u64::MAX; 4], at + 1),
            b'[' => self.class(at + 1).ok_or(refused(4))?,
            b'\\' => self.escape(at).map(|(b, next)| (range(b, b), next)).ok_or(refused(5))?,
            b => (range(b, b), at + 1),
        };
        self.push(Op::Bytes(self.program.sets.len() as u16));
        self.program.sets.push(set);
        self.at = next;
        Ok(())
    }

    fn group(&mut self) -> Result<(), Refused> {
        if self.open == 32 {
            return Err((9, self.at as u32));
        }
        self.at += 1;
        self.open += 1;
        self.branches()?;
        if self.at == self.pattern.len() {
            return Err((8, self.at as u32));
        }
        self.at += 1;
        self.open -= 1;
        Ok(())
    }

    /// The byte of the escape that begins here, and the place after it.
    fn escape(&self, from: usize) -> Option<(u8, usize)> {
        let hex = |i| (*self.pattern.get(i)? as char).to_digit(16);
        Some(match *self.pattern.get(from + 1)? {
            b'n' => (b'\n', from + 2),
            b'r' => (b'\r', from + 2),
            b't' => (b'\t', from + 2),
            b'x' => ((16 * hex(from + 2)? + hex(from + 3)?) as u8, from + 4),
            b if b".[]()|*+?{}^$\\-".contains(&b) => (b, from + 2),
            _ => return None,
        })
    }

    fn member(&self, from: usize) -> Option<(u8, usize)> {
        match *self.pattern.get(from)? {
            b'\\' => self.escape(from),
            b'[' | b']' | b'-' => None,
            b => Some((b, from + 1)),
        }
    }

    fn class(&self, from: usize) -> Option<(ByteSet, usize)> {
        let but = self.pattern.get(from) == Some(&b'^');
        let first = from + but as usize;
        let mut at = first;
        let mut set = [0; 4];
        while *self.pattern.get(at)? != b']' {
            if let Some((name, ranges)) = NAMES.iter().find(|(name, _)| self.pattern[at..].starts_with(name)) {
                ranges.iter().for_each(|&(lo, hi)| join(&mut set, range(lo, hi)));
                at += name.len();
                continue;
            }
            let (lo, next) = self.member(at)?;
            let (hi, next) = if self.pattern.get(next) == Some(&b'-') { self.member(next + 1)? } else { (lo, next) };
            if hi < lo {
                return None;
            }
            join(&mut set, range(lo, hi));
            at = next;
        }
        if but {
            set = set.map(|w| !w);
        }
        (first < at && set != [0; 4]).then_some((set, at + 1))
    }
}

fn join(set: &mut ByteSet, more: ByteSet) {
    for (w, m) in set.iter_mut().zip(more) {
        *w |= m;
    }
}

/// The bytes from lo to hi.
fn range(lo: u8, hi: u8) -> ByteSet {
    // the bits of a word from bit k on
    let from = |k: usize| if k < 64 { u64::MAX << k } else { 0 };
    std::array::from_fn(|w| from((lo as usize).saturating_sub(64 * w)) & !from((hi as usize + 1).saturating_sub(64 * w)))
}

/// The first bytes of the runs of bytes that no set parts.
pub fn columns(sets: &[ByteSet]) -> Vec<u8> {
    let mut parts = [1, 0, 0, 0];
    for set in sets {
        let mut last = set[0] & 1;
        for (p, &w) in parts.iter_mut().zip(set) {
            *p |= w ^ (w << 1 | last);
            last = w >> 63;
        }
    }
    (0..=255).filter(|&b| has(&parts, b as usize)).collect()
}
