//! Compiling in exact room beside regex-automata 0.1, which makes the smallest table too: `peer` prints the times, `peer counted` the
//! instructions. The options of its builder:
//! - `anchored`: a match begins where reading begins, as from a row here;
//! - `longest_match`: all ends count, where it would else leave out those that a search does not see;
//! - `minimize`, and `byte_classes` (as by default): the smallest table, worked out over classes of bytes;
//! - `premultiply` off, and numbers of 16 bits: rows are numbered as here, and a step less is done;
//! - `unicode` off, `allow_invalid_utf8`, `dot_matches_new_line`: bytes, and `.` is any of them.
//!
//! It knows no anchors: `^` before a pattern and `$` after it are left out, so that it has no head row and no mark 2.
use bench::counting::instructions;
use bench::patterns::{sums, usual, Pattern};
use bench::timing::{least, mean, set_rows};
use compare::readings::{line_of, pattern_of};
use compare::room::Room;
use compare::Random;
use jorvimest::Table;
use regex_automata::{dense, DenseDFA, DFA};
use std::hint::black_box;

type Theirs = DenseDFA<Vec<u16>, u16>;

/// The pattern in their spelling.
fn text_of(pattern: &[u8]) -> &str {
    let text = std::str::from_utf8(pattern).expect("ASCII");
    let text = text.strip_prefix('^').unwrap_or(text);
    text.strip_suffix('$').unwrap_or(text)
}

#[inline(never)]
#[no_mangle]
fn peer_compile(text: &str) -> Theirs {
    dense::Builder::new()
        .anchored(true)
        .longest_match(true)
        .minimize(true)
        .byte_classes(true)
        .premultiply(false)
        .unicode(false)
        .allow_invalid_utf8(true)
        .dot_matches_new_line(true)
        .build_with_size(text)
        .expect("a pattern that it takes")
}

/// A text that leads through rows from which a match can be reached, most of the time.
fn text(random: &mut Random, table: &Table) -> Vec<u8> {
    let row = |q: u16| &table.cells[256 * q as usize..256 * q as usize + 256];
    let dead = |q: u16| table.marks[q as usize] == 0 && row(q).iter().all(|&to| to == q);
    let mut q = table.head;
    let mut out = vec![];
    for _ in 0..random.below(1500) {
        let mut next: Vec<(u16, u8)> = (0..=255).map(|b| (row(q)[b as usize], b)).filter(|&(to, _)| !dead(to)).collect();
        next.sort_unstable();
        next.dedup_by_key(|&mut (to, _)| to);
        let b = if next.is_empty() || random.below(1000) == 0 { random.below(256) as u8 } else { random.one_of(&next).1 };
        q = row(q)[b as usize];
        out.push(b);
    }
    out
}

/// Both take the same texts as a whole: random ones, and all that they begin with.
fn agree(pattern: &Pattern) {
    let table = Table::compile(&pattern.bytes).expect("a table");
    let theirs = peer_compile(text_of(&pattern.bytes));
    let mut random = Random::new(1);
    let mut taken = 0;
    for _ in 0..100 {
        let text = text(&mut random, &table);
        for end in 0..=text.len() {
            let text = &text[..end];
            let whole = theirs.find(text) == Some(end);
            assert_eq!(table.whole(text), Ok(whole), "{} on {}", pattern.name, text.escape_ascii());
            taken += whole as u32;
        }
    }
    assert!(taken > 0, "{}: no text was taken", pattern.name);
}

/// Prints; the ratio of our time to theirs.
fn race(pattern: &Pattern) -> f64 {
    let Pattern { name, bytes } = pattern;
    agree(pattern);
    let rows = set_rows(bytes);
    let mut room = Room::for_rows(rows);
    let text = text_of(bytes);
    let [ours, theirs] =
        least([&mut || _ = black_box(room.proved(black_box(bytes))), &mut || _ = black_box(peer_compile(black_box(text)))]);
    println!("{name:31} {rows:5} {ours:12.1} {theirs:12.1} {:7.3}", ours / theirs);
    ours / theirs
}

/// The same for instructions.
fn count(pattern: &Pattern) -> f64 {
    let rows = set_rows(&pattern.bytes);
    let (number, line) = (rows.to_string(), line_of(&pattern.bytes));
    let counted = |function, whose| instructions(function, &["once", whose, &number, &line]);
    let (ours, theirs) = (counted("jorvimest_compile", "ours"), counted("peer_compile", "theirs"));
    let ratio = ours as f64 / theirs as f64;
    println!("{:31} {rows:5} {ours:12} {theirs:12} {ratio:7.3}", pattern.name);
    ratio
}

/// Compiles once, for a count of instructions.
fn once(whose: &str, rows: &str, line: &str) {
    let pattern = pattern_of(line);
    if whose == "theirs" {
        black_box(peer_compile(text_of(&pattern)));
    } else {
        black_box(Room::for_rows(rows.parse().expect("a number of rows")).proved(&pattern)).expect("a table");
    }
}

fn main() {
    let words: Vec<String> = std::env::args().skip(1).collect();
    let (unit, ratio_of): (_, fn(&Pattern) -> f64) = match &words[..] {
        [once_word, whose, rows, line] if once_word == "once" => return once(whose, rows, line),
        [counted] if counted == "counted" => ("instructions", count),
        _ => ("microseconds", race),
    };
    println!("compiling in exact room, {unit}");
    println!("{:31} {:>5} {:>12} {:>12} {:>7}", "", "S", "proved", "peer", "ratio");
    for patterns in [usual(), sums()] {
        let ratios: Vec<f64> = patterns.iter().map(ratio_of).collect();
        println!("geometric mean of the ratios: {:.3}", mean(&ratios));
    }
}
