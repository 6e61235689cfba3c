//! Patterns with many rows: random ones with large counts, and shapes that are bad for merging.
use crate::Random;

/// A byte outside a class.
pub fn spelled(b: u8) -> Vec<u8> {
    escaped(b, b".[]()|*+?{}^$\\")
}

fn escaped(b: u8, signs: &[u8]) -> Vec<u8> {
    if signs.contains(&b) {
        vec![b'\\', b]
    } else {
        vec![b]
    }
}

/// The class of the bytes in these ranges, from the first byte to the last.
fn class(ranges: impl Iterator<Item = (u8, u8)>) -> Vec<u8> {
    let member = |b| escaped(b, b"[]\\-^");
    let mut out = b"[".to_vec();
    for (lo, hi) in ranges {
        out.extend(member(lo));
        if hi - lo > 1 {
            out.push(b'-');
        }
        if hi > lo {
            out.extend(member(hi));
        }
    }
    out.push(b']');
    out
}

/// The class of the bytes that have a bit.
fn with_bit(k: u32) -> Vec<u8> {
    let width = 1 << k;
    class((width..256).step_by(2 * width).map(|lo| (lo as u8, (lo + width - 1) as u8)))
}

/// For each bit the class of the bytes that have it. A pattern with all eight has 256 columns.
pub fn bits() -> [Vec<u8>; 8] {
    std::array::from_fn(|k| with_bit(k as u32))
}

// ---- random ones

fn atom(random: &mut Random, out: &mut Vec<u8>) {
    match random.below(9) {
        0 => out.push(b'.'),
        1 => out.extend(b"[\\x00-\\xff]"),
        2 | 3 => out.extend(with_bit(3 + random.below(5) as u32)),
        4 => out.extend([b"[^", &[b'a' + random.below(26) as u8][..], b"]"].concat()),
        5 => out.extend(b"()"),
        _ => out.push(b'a' + random.below(4) as u8),
    }
}

/// Up to four pieces or branches, groups in groups up to the depth.
pub fn part(random: &mut Random, depth: u32, out: &mut Vec<u8>) {
    for i in 0..1 + random.below(4) {
        if i > 0 && random.below(5) == 0 {
            out.push(b'|');
        }
        if depth > 0 && random.below(2) == 0 {
            out.push(b'(');
            part(random, depth - 1, out);
            out.push(b')');
        } else {
            atom(random, out);
        }
        let many = [12, 250][random.below(2) as usize];
        match random.below(9) {
            0 => out.push(b'*'),
            1 => out.push(b'+'),
            2 => out.push(b'?'),
            3 => out.extend(format!("{{{}}}", 1 + random.below(many)).bytes()),
            4 => out.extend(format!("{{0,{}}}", 1 + random.below(many)).bytes()),
            5 => out.extend(format!("{{{},}}", 1 + random.below(many)).bytes()),
            _ => {}
        }
    }
}

/// A name, and a pattern at random.
pub type Kind = (&'static str, fn(&mut Random) -> Vec<u8>);

/// The shapes below.
pub const SHAPES: [Kind; 4] = [
    ("registers", |random| registers(&kept(random), 0)),
    ("ladders", |random| ladder(1 + random.below(31) as usize, 1 + random.below(8) as usize)),
    ("pairs", |random| pairs(2 + random.below(60) as usize, 1 + random.below(40) as usize)),
    ("windows", |random| windows(1 + random.below(7) as usize, 1 + random.below(30) as usize, 1 + random.below(60) as usize)),
];

/// One of the shapes.
pub fn shape(random: &mut Random) -> Vec<u8> {
    let (_, make) = random.one_of(&SHAPES);
    shaped(random, make)
}

/// A pattern of this shape, and perhaps another branch.
pub fn shaped(random: &mut Random, make: fn(&mut Random) -> Vec<u8>) -> Vec<u8> {
    let mut out = make(random);
    match random.below(4) {
        0 => out.extend([b"|", &bits().concat()[..]].concat()),
        1 => {
            out.push(b'|');
            part(random, 2, &mut out);
        }
        _ => {}
    }
    out
}

/// How many letters each register keeps, so that there are at most some 1,000 rows.
fn kept(random: &mut Random) -> Vec<usize> {
    let mut all = vec![];
    let mut left = 980;
    while left >= 16 && all.len() < 6 {
        let k = 3 + random.below(7) as usize;
        if 1 << k <= left {
            left -= 1 << k;
            all.push(k);
        }
    }
    all
}

// ---- shapes

/// Rows that part in one round and differ in their last columns only, 256 columns in all. A register keeps the last so many letters of
/// two kinds in the row; the last bytes there are ask for one of them each. After the letters there may be empty ways in a row.
pub fn registers(kept: &[usize], ways: usize) -> Vec<u8> {
    let ask = 256 - kept.iter().max().expect("a register");
    let own = ask - kept.len();
    let letters = own - 2 * kept.len();
    let register = |(j, &k): (usize, &usize)| register(k, (letters + 2 * j) as u8, (own + j) as u8, ask as u8, ways);
    let mut branches: Vec<Vec<u8>> = kept.iter().enumerate().map(register).collect();
    branches.push(class((0..letters as u8).step_by(2).map(|b| (b, b))));
    branches.join(&b'|')
}

/// `[pq]*(o|p(x|[pq](y|[pq]z)))` for three letters: p and q are the letters, o is the register's own, x, y and z ask.
fn register(kept: usize, p: u8, own: u8, ask: u8, ways: usize) -> Vec<u8> {
    let letter = class([(p, p + 1)].into_iter());
    let mut asked: Vec<Vec<u8>> = (ask..=255).take(kept).map(spelled).collect();
    let last = asked.pop().expect("a letter");
    let inside = asked.iter().rfold(last, |inside, b| [b"(", &b[..], b"|", &letter, &inside, b")"].concat());
    let empty = if ways > 0 { format!("(){{{ways}}}") } else { String::new() };
    [&letter[..], b"*", empty.as_bytes(), b"(", &spelled(own), b"|", &spelled(p), &inside, b")"].concat()
}

/// A chain of `x` that each byte enters at another place, the nearer to its end the less the byte is. So rows are listed from the end
/// of the chain on, and in each round the least row of the largest class parts. There are so many levels of groups, with so many
/// places each.
pub fn ladder(levels: usize, width: usize) -> Vec<u8> {
    let top = class([((levels * width) as u8, 255)].into_iter());
    (0..levels).rfold(top, |inside, level| {
        let mut out = [b"(", &inside[..], format!(")x{{{width}}}").as_bytes()].concat();
        for i in 0..width {
            out.push(b'|');
            out.extend(spelled((level * width + i) as u8));
            out.extend(if i < 4 { "x".repeat(i) } else { format!("x{{{i}}}") }.bytes());
        }
        out
    })
}

/// Each of so many bytes twice in a row, and this so many times: by turns one row parts and so many do.
pub fn pairs(width: usize, times: usize) -> Vec<u8> {
    let branches: Vec<Vec<u8>> = (b'0'..).take(width).map(|b| spelled(b).repeat(2)).collect();
    [b"(", &branches.join(&b'|')[..], format!("){{{times}}}").as_bytes()].concat()
}

/// Letters of two kinds, of which the row keeps some, then a chain, and this so many times: rounds with many rows to look at, then
/// rounds with one.
pub fn windows(kept: usize, chain: usize, times: usize) -> Vec<u8> {
    format!("([ab]*a[ab]{{{kept}}}c{{{chain}}}){{{times}}}").into_bytes()
}
