//! Random patterns: legal ones, damaged ones, and the signs of the language in any order. Letters and counts are few and small
//! most of the time, so that patterns compile and short texts match.
use crate::Random;

/// Bytes that mean something somewhere, and a few that don't.
const SIGNS: &[u8] = b".[]()|*+?{}^$\\-,:=!nrtx019afAFgz \n\x00\x7f\xff";

/// What classes are made of, right and wrong.
const CLASS_PARTS: &str =
    r"a b z 0 9 . ^ - - - [ ] \ \- \] \x3F \xc0 \n [:digit:] [:upper:] [:xdigit:] [:space:] [:Alpha:] [: :]";

const NAMES: &str = "digit upper lower alpha alnum xdigit space";

pub fn pattern(random: &mut Random) -> Vec<u8> {
    let mut out = vec![];
    match random.below(64) {
        0..=23 => branches(random, 3, &mut out),
        24..=35 => damaged(random, &mut out),
        36..=41 => {
            branches(random, 3, &mut out);
            let end = random.below(out.len() as u64 + 1) as usize;
            out.truncate(end);
        }
        42..=45 => soup(random, &mut out),
        46 => deep(random, &mut out),
        47..=51 => {
            atom(random, 1, &mut out);
            out.push(b'{');
            some_of(random, 7, b"0123459,,}{ ", &mut out);
            out.push(b'}');
        }
        52..=58 => {
            out.push(b'[');
            for _ in 0..random.below(6) {
                one_word(random, CLASS_PARTS, &mut out);
            }
            out.push(b']');
        }
        59..=62 => {
            out.push(b'\\');
            some_of(random, 4, SIGNS, &mut out);
        }
        _ => long(random, &mut out),
    }
    out
}

/// Fewer than so many of these bytes.
fn some_of(random: &mut Random, most: u64, bytes: &[u8], out: &mut Vec<u8>) {
    for _ in 0..random.below(most) {
        out.push(random.one_of(bytes));
    }
}

fn one_word(random: &mut Random, words: &str, out: &mut Vec<u8>) {
    let all: Vec<&str> = words.split(' ').collect();
    out.extend_from_slice(random.one_of(&all).as_bytes());
}

// ---- legal

fn branches(random: &mut Random, depth: u32, out: &mut Vec<u8>) {
    branch(random, depth, out);
    while random.below(4) == 0 {
        out.push(b'|');
        branch(random, depth, out);
    }
}

fn branch(random: &mut Random, depth: u32, out: &mut Vec<u8>) {
    for _ in 0..random.below(5) {
        atom(random, depth, out);
        sign(random, out);
    }
}

fn atom(random: &mut Random, depth: u32, out: &mut Vec<u8>) {
    match random.below(if depth == 0 { 12 } else { 15 }) {
        0..=6 => out.push(random.one_of(b"aaabbbc-,:\x00\xff")),
        7 => out.push(b'.'),
        8 => out.push(random.one_of(b"^$")),
        9 => escape(random, out),
        10..=11 => class(random, out),
        _ => {
            out.push(b'(');
            branches(random, depth - 1, out);
            out.push(b')');
        }
    }
}

fn sign(random: &mut Random, out: &mut Vec<u8>) {
    match random.below(10) {
        0..=1 => out.push(b'*'),
        2 => out.push(b'+'),
        3 => out.push(b'?'),
        4 => {
            let m = if random.below(20) == 0 { random.below(256) } else { random.below(4) };
            let n = (m + random.below(3)).min(255);
            let text = match random.below(5) {
                0 => format!("{{{m}}}"),
                1 => format!("{{{m},}}"),
                2 => format!("{{{m:03},{n}}}"),
                _ => format!("{{{m},{n}}}"),
            };
            out.extend_from_slice(text.as_bytes());
        }
        _ => (),
    }
}

fn escape(random: &mut Random, out: &mut Vec<u8>) {
    out.push(b'\\');
    match random.below(3) {
        0 => out.push(random.one_of(b".[]()|*+?{}^$\\-")),
        1 => out.push(random.one_of(b"nrt")),
        _ => {
            let b = if random.below(2) == 0 { 97 + random.below(3) } else { random.below(256) };
            let text = if random.below(2) == 0 { format!("x{b:02x}") } else { format!("x{b:02X}") };
            out.extend_from_slice(text.as_bytes());
        }
    }
}

fn class(random: &mut Random, out: &mut Vec<u8>) {
    out.push(b'[');
    if random.below(3) == 0 {
        out.push(b'^');
    }
    for _ in 0..1 + random.below(3) {
        match random.below(6) {
            0..=2 => out.push(random.one_of(b"abc0.*$")),
            3 => escape(random, out),
            4 => {
                let lo = random.one_of(b"0ab");
                out.extend_from_slice(&[lo, b'-', lo + random.below(4) as u8]);
            }
            _ => {
                out.extend_from_slice(b"[:");
                one_word(random, NAMES, out);
                out.extend_from_slice(b":]");
            }
        }
    }
    out.push(b']');
}

// ---- not so legal

/// A legal pattern with one to three changes.
fn damaged(random: &mut Random, out: &mut Vec<u8>) {
    branches(random, 3, out);
    for _ in 0..1 + random.below(3) {
        let at = random.below(out.len() as u64 + 1) as usize;
        let end = (at + random.below(4) as usize).min(out.len());
        match random.below(4) {
            0 => out.insert(at, random.one_of(SIGNS)),
            1 => out.drain(at..end).for_each(drop),
            2 => out.extend_from_within(at..end),
            _ if at < out.len() => out[at] = random.one_of(SIGNS),
            _ => out.push(random.below(256) as u8),
        }
    }
}

fn soup(random: &mut Random, out: &mut Vec<u8>) {
    if random.below(4) > 0 {
        return some_of(random, 14, SIGNS, out);
    }
    for _ in 0..random.below(10) {
        out.push(random.below(256) as u8);
    }
}

/// About as many groups as may be open.
fn deep(random: &mut Random, out: &mut Vec<u8>) {
    let groups = 30 + random.below(5);
    for _ in 0..groups {
        some_of(random, 2, b"ab|^", out);
        out.push(b'(');
    }
    some_of(random, 3, SIGNS, out);
    for _ in 0..groups + random.below(3) - 1 {
        out.push(b')');
        some_of(random, 2, b"a*+?|$", out);
    }
}

/// About as long as a pattern may be.
fn long(random: &mut Random, out: &mut Vec<u8>) {
    let mut part = vec![];
    atom(random, 1, &mut part);
    sign(random, &mut part);
    while out.len() < 1018 {
        out.extend_from_slice(&part);
    }
    some_of(random, 10, b"aaaab(|*", out);
    out.truncate(1022 + random.below(8) as usize);
}
