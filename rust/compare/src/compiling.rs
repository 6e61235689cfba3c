//! Random patterns compiled in lent room of any size with something in it, against `paper`; then the listing and the four
//! matchers over the compiled table, against the pattern's meaning.
use crate::patterns::pattern;
use crate::room::Room;
use crate::Random;
use jorvimest::{compile_into, Lent, Table, Text};
use paper::pattern::Tree;

/// How many patterns compiled, and at 1 to 11 how many answers were refusals with that number.
pub type Tally = [u32; 12];

/// Compares compiling, the listing and the matchers on so many patterns.
pub fn compare(cases: u32, seed: u64) -> Tally {
    let mut random = Random::new(seed);
    let mut tally = [0; 12];
    for case in 0..cases {
        let pattern = pattern(&mut random);
        let name = format!("seed {seed}, case {case}, the pattern {}", pattern.escape_ascii());
        let drawn = paper::drawn(&pattern);
        for _ in 0..2 {
            let mut room = room(&mut random, drawn.as_ref().map_or(2, |(_, s)| *s));
            tally[compare_in(&mut room, &pattern, &drawn, &name)] += 1;
        }
        let table = Table::compile(&pattern);
        let due =
            drawn.as_ref().map(|(t, _)| Lent { rows: t.rows as u16, head: t.head as u16, cells: &t.cells, marks: &t.marks });
        assert!(
            match (&table, &due) {
                (Ok(found), Ok(due)) => found == due,
                (Err(refusal), Err(due)) => (refusal.number(), refusal.place()) == **due,
                _ => false,
            },
            "{name}: {table:?}, and {due:?} is due"
        );
        if let Ok(table) = &table {
            let tree = paper::pattern::read(&pattern).unwrap();
            for _ in 0..3 {
                let text = text(&mut random, &pattern);
                compare_matches(table, &tree, &text, &format!("{name}, the text {}", text.escape_ascii()));
            }
        }
    }
    tally
}

/// Room for about as many rows as are needed, or for any number of them; one part of it is the least, by a little or a lot.
fn room(random: &mut Random, needed: usize) -> Room {
    let rows = match random.below(40) {
        0 => 1020 + random.below(8) as usize,
        1 => random.below(1024) as usize,
        2..=7 => random.below(5) as usize,
        _ => (needed + random.below(4) as usize).saturating_sub(1),
    };
    let least = random.below(3);
    let mut part = |which: u64, unit: u64| {
        let more = if which == least { 0 } else { random.below(3) };
        (unit * (rows as u64 + more) + random.below(unit)) as usize
    };
    let (cells, marks, sets) = (part(0, 256), part(1, 1), part(2, 32));
    // rubbish, never 0
    let mut rubbish = || random.below(u64::MAX) | 1;
    Room {
        cells: (0..cells).map(|_| rubbish() as u16).collect(),
        marks: (0..marks).map(|_| rubbish() as u8).collect(),
        sets: (0..sets).map(|_| rubbish()).collect(),
    }
}

/// Compiles in the room; the refusal's number, or 0.
fn compare_in(room: &mut Room, pattern: &[u8], drawn: &Result<(paper::Table, usize), paper::Refused>, name: &str) -> usize {
    let k = paper::rows_for(room.cells.len(), room.marks.len(), room.sets.len());
    let due = match drawn {
        Ok((table, s)) if *s <= k => Ok(table),
        Ok(_) => Err((11, 0)),
        Err(refused) => Err(*refused),
    };
    let mut other = room.clone();
    assert_eq!(other.model(pattern), due.map(|t| (t.rows as u16, t.head as u16)), "the model, {name}, K {k}");
    check_room(&other, due.ok(), &format!("the model, {name}, K {k}"));

    let found = compile_into(pattern, &mut room.cells, &mut room.marks, &mut room.sets);
    match (&found, due) {
        (Ok(table), Ok(paper)) => {
            assert_eq!((table.rows as usize, table.head as usize), (paper.rows, paper.head), "{name}, K {k}");
            if table.rows <= 64 {
                compare_listing(table, &paper.listing(), &format!("{name}, K {k}"));
            }
        }
        (Err(refusal), Err(paper)) => {
            assert_eq!((refusal.number(), refusal.place()), paper, "{name}, K {k}");
            assert_eq!(refusal.line(), paper::line(paper), "{name}, K {k}");
        }
        _ => panic!("{name}, K {k}: {found:?}, and {due:?} is due"),
    }
    check_room(room, due.ok(), &format!("{name}, K {k}"));
    due.err().map_or(0, |(number, _)| number as usize)
}

/// The table at the front, and zeros.
fn check_room(room: &Room, table: Option<&paper::Table>, name: &str) {
    let (cells, marks) = table.map_or((&[][..], &[][..]), |t| (&t.cells[..], &t.marks[..]));
    assert_eq!(room.cells[..cells.len()], *cells, "cells, {name}");
    assert_eq!(room.marks[..marks.len()], *marks, "marks, {name}");
    assert!(room.cells[cells.len()..].iter().all(|&c| c == 0), "cells past the table, {name}");
    assert!(room.marks[marks.len()..].iter().all(|&m| m == 0), "marks past the table, {name}");
    assert!(room.sets.iter().all(|&w| w == 0), "set words, {name}");
}

/// The listing in buffers that are too small, just enough and too large.
fn compare_listing(table: &Lent, due: &str, name: &str) {
    for room in [0, due.len() - 1, due.len(), due.len() + 3] {
        let mut out = vec![b'#'; room];
        let answer = if room < due.len() { Text::Longer(due.len()) } else { Text::Written(due.len()) };
        assert_eq!(table.listing_into(&mut out), Ok(answer), "the listing, {name}");
        let expected: Vec<u8> = due.bytes().chain([b'#'; 3]).take(room).collect();
        assert_eq!(out, expected, "the listing, {name}");
    }
}

/// A short text of bytes that the pattern has, and a few others.
fn text(random: &mut Random, pattern: &[u8]) -> Vec<u8> {
    let mut letters = b"aab\n\xff".to_vec();
    letters.extend_from_slice(pattern);
    (0..random.below(9)).map(|_| random.one_of(&letters)).collect()
}

fn compare_matches(table: &Table, tree: &Tree, text: &[u8], name: &str) {
    let n = text.len();
    let ends: Vec<Vec<usize>> = (0..=n).map(|s| paper::meaning::from(tree, text, s)).collect();
    let longest: Vec<Option<usize>> = ends.iter().map(|all| all.last().copied()).collect();
    let starts: Vec<usize> = (0..=n).filter(|&s| longest[s].is_some()).collect();
    assert_eq!(table.whole(text), Ok(ends[0].contains(&n)), "whole, {name}");
    for (s, &end) in longest.iter().enumerate() {
        assert_eq!(table.longest(text, s), Ok(end), "longest from {s}, {name}");
    }
    let first = starts.first().map(|&s| s..longest[s].unwrap());
    assert_eq!(table.first_part(text), Ok(first.clone().map(|part| &text[part])), "the part that is first, {name}");
    assert_eq!(table.first(text), Ok(first), "first, {name}");
    assert_eq!(table.starts(text), Ok(starts), "starts, {name}");
}
