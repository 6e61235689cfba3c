//! "The pattern language", and refusals 1 to 9.
use crate::Refused;

pub type Set = [bool; 256];

#[derive(Clone, Debug)]
pub enum Tree {
    Nothing,
    Bytes(Box<Set>),
    Head,
    Tail,
    Row(Vec<Tree>),
    Either(Vec<Tree>),
    Star(Box<Tree>),
    Plus(Box<Tree>),
    Maybe(Box<Tree>),
    /// `{m,n}`, or without a top `{m,}`.
    Count(Box<Tree>, u32, Option<u32>),
}

const SPECIAL: &[u8] = b".[]()|*+?{}^$\\";

type Named = (&'static [u8], &'static [(u8, u8)]);

const NAMED: [Named; 7] = [
    (b"[:digit:]", &[(48, 57)]),
    (b"[:upper:]", &[(65, 90)]),
    (b"[:lower:]", &[(97, 122)]),
    (b"[:alpha:]", &[(65, 90), (97, 122)]),
    (b"[:alnum:]", &[(48, 57), (65, 90), (97, 122)]),
    (b"[:xdigit:]", &[(48, 57), (65, 70), (97, 102)]),
    (b"[:space:]", &[(9, 13), (32, 32)]),
];

fn only(b: u8) -> Tree {
    let mut set = Box::new([false; 256]);
    set[b as usize] = true;
    Tree::Bytes(set)
}

struct Reader<'a> {
    p: &'a [u8],
    at: usize,
    open: usize,
}

type Read<T> = Result<T, Refused>;

pub fn read(p: &[u8]) -> Read<Tree> {
    if p.len() > 1024 {
        return Err((1, 1024));
    }
    let mut r = Reader { p, at: 0, open: 0 };
    let tree = r.branches()?;
    match r.peek() {
        None => Ok(tree),
        Some(_) => Err((7, r.at as u32)),
    }
}

impl Reader<'_> {
    fn peek(&self) -> Option<u8> {
        self.p.get(self.at).copied()
    }

    fn refuse<T>(&self, number: u32, place: usize) -> Read<T> {
        Err((number, place as u32))
    }

    fn branches(&mut self) -> Read<Tree> {
        let mut all = vec![self.branch()?];
        while self.peek() == Some(b'|') {
            self.at += 1;
            all.push(self.branch()?);
        }
        Ok(if all.len() == 1 { all.pop().unwrap() } else { Tree::Either(all) })
    }

    fn branch(&mut self) -> Read<Tree> {
        let mut row = vec![];
        while let Some(b) = self.peek() {
            if b == b'|' || b == b')' {
                break;
            }
            row.push(self.piece()?);
        }
        Ok(match row.len() {
            0 => Tree::Nothing,
            1 => row.pop().unwrap(),
            _ => Tree::Row(row),
        })
    }

    fn piece(&mut self) -> Read<Tree> {
        let atom = Box::new(self.atom()?);
        let at = self.at;
        Ok(match self.peek() {
            Some(b'*') => {
                self.at += 1;
                Tree::Star(atom)
            }
            Some(b'+') => {
                self.at += 1;
                Tree::Plus(atom)
            }
            Some(b'?') => {
                self.at += 1;
                Tree::Maybe(atom)
            }
            Some(b'{') => match self.count() {
                Some((m, n)) => Tree::Count(atom, m, n),
                None => return self.refuse(3, at),
            },
            _ => *atom,
        })
    }

    fn number(&mut self) -> Option<u32> {
        let from = self.at;
        while self.at < from + 3 && self.peek().is_some_and(|b| b.is_ascii_digit()) {
            self.at += 1;
        }
        let digits = std::str::from_utf8(&self.p[from..self.at]).ok()?;
        digits.parse().ok().filter(|&n: &u32| n <= 255)
    }

    fn count(&mut self) -> Option<(u32, Option<u32>)> {
        self.at += 1;
        let m = self.number()?;
        let n = if self.peek() == Some(b',') {
            self.at += 1;
            if self.peek() == Some(b'}') {
                None
            } else {
                Some(self.number()?)
            }
        } else {
            Some(m)
        };
        if self.peek() != Some(b'}') || n.is_some_and(|n| n < m) {
            return None;
        }
        self.at += 1;
        Some((m, n))
    }

    fn atom(&mut self) -> Read<Tree> {
        let at = self.at;
        let b = self.peek().unwrap();
        match b {
            b'*' | b'+' | b'?' | b'{' => self.refuse(2, at),
            b']' | b'}' => self.refuse(6, at),
            b'(' => {
                if self.open == 32 {
                    return self.refuse(9, at);
                }
                self.at += 1;
                self.open += 1;
                let inner = self.branches()?;
                if self.peek().is_none() {
                    return self.refuse(8, self.p.len());
                }
                self.at += 1;
                self.open -= 1;
                Ok(inner)
            }
            b'[' => match self.class() {
                Some(set) => Ok(Tree::Bytes(Box::new(set))),
                None => self.refuse(4, at),
            },
            b'\\' => match self.escape() {
                Some(b) => Ok(only(b)),
                None => self.refuse(5, at),
            },
            b'.' => {
                self.at += 1;
                Ok(Tree::Bytes(Box::new([true; 256])))
            }
            b'^' => {
                self.at += 1;
                Ok(Tree::Head)
            }
            b'$' => {
                self.at += 1;
                Ok(Tree::Tail)
            }
            _ => {
                self.at += 1;
                Ok(only(b))
            }
        }
    }

    fn escape(&mut self) -> Option<u8> {
        self.at += 1;
        let c = self.peek()?;
        self.at += 1;
        match c {
            b'n' => Some(10),
            b'r' => Some(13),
            b't' => Some(9),
            b'x' => {
                let mut value = 0;
                for _ in 0..2 {
                    let digit = (self.peek()? as char).to_digit(16)?;
                    self.at += 1;
                    value = 16 * value + digit;
                }
                Some(value as u8)
            }
            b'-' => Some(c),
            _ if SPECIAL.contains(&c) => Some(c),
            _ => None,
        }
    }

    fn member(&mut self) -> Option<u8> {
        match self.peek()? {
            b'\\' => self.escape(),
            b'[' | b']' | b'-' => None,
            b => {
                self.at += 1;
                Some(b)
            }
        }
    }

    fn class(&mut self) -> Option<Set> {
        self.at += 1;
        let but = self.peek() == Some(b'^');
        if but {
            self.at += 1;
        }
        let mut set = [false; 256];
        let mut items = 0;
        while self.peek()? != b']' {
            items += 1;
            if let Some((name, ranges)) = NAMED.iter().find(|(name, _)| self.p[self.at..].starts_with(name)) {
                self.at += name.len();
                for &(lo, hi) in *ranges {
                    set[lo as usize..=hi as usize].fill(true);
                }
                continue;
            }
            let lo = self.member()?;
            let mut hi = lo;
            if self.peek() == Some(b'-') {
                self.at += 1;
                hi = self.member()?;
                if hi < lo {
                    return None;
                }
            }
            set[lo as usize..=hi as usize].fill(true);
        }
        self.at += 1;
        if but {
            set.iter_mut().for_each(|b| *b = !*b);
        }
        (items > 0 && set.contains(&true)).then_some(set)
    }
}
