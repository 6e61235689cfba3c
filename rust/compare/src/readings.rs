//! The proved reader beside that of `paper`, by way of text: a line for each pattern, and the answers that the program `readings` prints.
use paper::pattern::{read, Tree};

/// The line of a pattern: `%` and two digits for a byte that can't be seen, and for `%`.
pub fn line_of(pattern: &[u8]) -> String {
    let shown = |&b: &u8| match b {
        b'%' => "%25".to_string(),
        b' '..=b'~' => (b as char).to_string(),
        _ => format!("%{b:02x}"),
    };
    pattern.iter().map(shown).collect()
}

/// The pattern of a line.
pub fn pattern_of(line: &str) -> Vec<u8> {
    let bytes = line.as_bytes();
    let (mut out, mut at) = (vec![], 0);
    while at < bytes.len() {
        if bytes[at] == b'%' && at + 2 < bytes.len() {
            out.push(u8::from_str_radix(&line[at + 1..at + 3], 16).expect("two digits"));
            at += 3;
        } else {
            out.push(bytes[at]);
            at += 1;
        }
    }
    out
}

/// The words of a tree's program without those of its classes: one for each atom, each sign, and each part but the first.
fn words(tree: &Tree) -> usize {
    match tree {
        Tree::Nothing | Tree::Bytes(_) | Tree::Head | Tree::Tail => 1,
        Tree::Row(all) | Tree::Either(all) => all.iter().map(words).sum::<usize>() + all.len() - 1,
        Tree::Star(x) | Tree::Plus(x) | Tree::Maybe(x) | Tree::Count(x, ..) => words(x) + 1,
    }
}

/// How many classes a legal pattern has.
fn classes(pattern: &[u8]) -> usize {
    let (mut count, mut inside, mut at) = (0, false, 0);
    while at < pattern.len() {
        match (pattern[at], inside) {
            (b'\\', _) => at += 1,
            (b'[', true) => at += pattern[at..].iter().position(|&b| b == b']').unwrap(),
            (b'[', false) => (count, inside) = (count + 1, true),
            (b']', true) => inside = false,
            _ => (),
        }
        at += 1;
    }
    count
}

/// What the program prints of a pattern, by `paper`: the words of its program, four more for each class; or the refusal.
fn answer(pattern: &[u8]) -> String {
    match read(pattern) {
        Ok(tree) => format!("words {}", words(&tree) + 4 * classes(pattern)),
        Err((number, place)) => format!("refused {number} at {place}"),
    }
}

/// How many patterns were taken, and at 1 to 9 how many were refused with that number.
pub type Tally = [u32; 10];

pub fn tally(patterns: impl Iterator<Item = Vec<u8>>) -> Tally {
    let mut tally = [0; 10];
    for pattern in patterns {
        tally[read(&pattern).map_or_else(|(number, _)| number as usize, |_| 0)] += 1;
    }
    tally
}

/// Holds printed answers to those of `paper`, one for each pattern.
pub fn check(patterns: &[Vec<u8>], answers: &str) {
    assert_eq!(answers.lines().count(), patterns.len(), "answers, and patterns");
    for (pattern, found) in patterns.iter().zip(answers.lines()) {
        assert_eq!(found, answer(pattern), "the pattern {}", line_of(pattern));
    }
}
