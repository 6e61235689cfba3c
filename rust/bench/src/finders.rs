//! First and all starts: typical rows beside a loop that tries each start and stops at a dead end; and texts made to be slow for such a loop.
use crate::race;
use jorvimest::Lent;
use std::hint::black_box;
use std::ops::Range;
use std::time::Instant;

/// The row that nothing leads out of and that makes no match, if there is one.
fn dead_end(t: &Lent) -> usize {
    (0..t.rows as usize)
        .find(|&q| t.marks[q] == 0 && t.cells[256 * q..256 * q + 256].iter().all(|&c| c as usize == q))
        .unwrap_or(usize::MAX)
}

/// The longest end of a match from s, read up to a dead end.
fn plain_longest(t: &Lent, dead: usize, text: &[u8], s: usize) -> Option<usize> {
    let mut q = if s == 0 { t.head as usize } else { 0 };
    let mut best = None;
    for (p, &b) in text.iter().enumerate().skip(s) {
        if t.marks[q] == 3 {
            best = Some(p);
        }
        q = t.cells[256 * q + b as usize] as usize;
        if q == dead {
            return best;
        }
    }
    if t.marks[q] != 0 {
        best = Some(text.len());
    }
    best
}

fn plain_first(t: &Lent, text: &[u8]) -> Option<Range<usize>> {
    let dead = dead_end(t);
    (0..=text.len()).find_map(|s| plain_longest(t, dead, text, s).map(|e| s..e))
}

/// Whether some stretch from s matches, read up to the first match or a dead end.
fn plain_begins(t: &Lent, dead: usize, text: &[u8], s: usize) -> bool {
    let mut q = if s == 0 { t.head as usize } else { 0 };
    for &b in &text[s..] {
        if t.marks[q] == 3 {
            return true;
        }
        q = t.cells[256 * q + b as usize] as usize;
        if q == dead {
            return false;
        }
    }
    t.marks[q] != 0
}

fn plain_starts(t: &Lent, text: &[u8], list: &mut [u32]) -> usize {
    let dead = dead_end(t);
    let mut count = 0;
    for s in 0..=text.len() {
        if plain_begins(t, dead, text, s) {
            list[count] = s as u32;
            count += 1;
        }
    }
    count
}

const MIB: usize = 1 << 20;

pub fn run() {
    let row = b"2024-01-17;13:45;DE00123456789AB12CD34EF56GH78IJ90;-1234,567;kWh;V;ok\r\n";
    let meter: Vec<u8> = row.iter().cycle().take(MIB).copied().collect();
    let mut late = vec![b';'; MIB - 8];
    late.extend_from_slice(b"-1,5;kWh");
    let mut list = vec![0; MIB + 1];
    for pattern in ["[01][0-9]:[0-5][0-9]", "-?[0-9]+,[0-9]+;kWh", "[A-Z]{2}[0-9A-Z]{32}"] {
        let table = paper::compile(pattern.as_bytes(), 1024).unwrap();
        let t = Lent { rows: table.rows as u16, head: table.head as u16, cells: &table.cells, marks: &table.marks };
        for (name, text) in [("meter rows", &meter), ("no match before the end", &late)] {
            assert_eq!(t.first(text), Ok(plain_first(&t, text)));
            race(
                &format!("first {pattern}, {name}"),
                || _ = black_box(black_box(&t).first(text)),
                || _ = black_box(plain_first(black_box(&t), text)),
            );
        }
        let mut other = list.clone();
        assert_eq!(t.starts_into(&meter, &mut list), Ok(plain_starts(&t, &meter, &mut other)));
        assert_eq!(list, other);
        race(
            &format!("starts {pattern}, meter rows"),
            || _ = black_box(black_box(&t).starts_into(&meter, &mut list)),
            || _ = black_box(plain_starts(black_box(&t), &meter, &mut other)),
        );
    }
    println!("texts on which trying each start is quadratic, 1 MiB of `a`:");
    let text = vec![b'a'; MIB];
    for pattern in ["a*b", "(a{254}){4}ab"] {
        let table = paper::compile(pattern.as_bytes(), 1024).unwrap();
        let t = Lent { rows: table.rows as u16, head: table.head as u16, cells: &table.cells, marks: &table.marks };
        let from = Instant::now();
        let first = t.first(&text);
        let first_ms = from.elapsed().as_secs_f64() * 1e3;
        let from = Instant::now();
        let starts = t.starts_into(&text, &mut list);
        let starts_ms = from.elapsed().as_secs_f64() * 1e3;
        println!("{pattern:14} {:5} rows: first {first:?} in {first_ms:.1} ms, starts {starts:?} in {starts_ms:.1} ms", t.rows);
    }
}
