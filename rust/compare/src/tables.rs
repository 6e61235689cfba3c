//! Random tables, some of them damaged, and texts over few letters, most of them short.
use crate::Random;
use jorvimest::Lent;
use jorvimest::Refusal;
use paper::find;

/// What texts are of: the first bytes of this, among them the first and the last byte there is.
const LETTERS: [u8; 4] = [97, 255, 0, 98];

/// A table of few rows most of the time, so that matches end, go on and begin again; with something past it, or damaged.
struct Made {
    rows: u16,
    head: u16,
    cells: Vec<u16>,
    marks: Vec<u8>,
}

fn table(random: &mut Random) -> Made {
    let rows = match random.below(50) {
        0 => 1024,
        1 => 1 + random.below(1024) as u16,
        _ => 1 + random.below(12) as u16,
    };
    let past = random.below(3) as usize;
    let mut made = Made {
        rows,
        head: random.below(rows as u64) as u16,
        cells: (0..256 * rows as usize + past).map(|_| random.below(rows as u64) as u16).collect(),
        marks: (0..rows as usize + past).map(|_| random.one_of(&[0, 0, 0, 2, 3])).collect(),
    };
    if random.below(3) == 0 {
        let q = random.below(rows as u64) as usize;
        keep_in(&mut made.cells[256 * q..256 * q + 256], q as u16, random);
    }
    match random.below(12) {
        0 => made.rows = random.one_of(&[0, 1025, 65535, rows + 1]),
        1 => made.head = random.one_of(&[rows, 65535]),
        2 => {
            let i = random.below(made.cells.len() as u64) as usize;
            made.cells[i] = random.one_of(&[rows, rows + 1, 65535]);
        }
        3 => {
            let i = random.below(made.marks.len() as u64) as usize;
            made.marks[i] = random.one_of(&[1, 4, 5, 255]);
        }
        4 => made.cells.truncate(random.below(made.cells.len() as u64) as usize),
        5 => made.marks.truncate(random.below(made.marks.len() as u64) as usize),
        _ => (),
    }
    made
}

/// A row that no byte leaves, or one letter alone.
fn keep_in(cells: &mut [u16], q: u16, random: &mut Random) {
    let other = cells[0];
    cells.fill(q);
    if random.below(2) == 0 {
        cells[random.one_of(&LETTERS) as usize] = other;
    }
}

/// Short most of the time; at times over the limit, or long enough that reading stops in a row that no byte leaves.
fn length(random: &mut Random) -> usize {
    match random.below(20_000) {
        0 => 1_048_577,
        1..=1999 => 230 + random.below(330) as usize,
        _ => random.below(20) as usize,
    }
}

/// A start in the text, or past its end by a little or by so much that 32 bits do not hold it.
fn start(random: &mut Random, length: usize) -> usize {
    let near = random.below(length as u64 + 3) as usize;
    match random.below(10) {
        0 => random.one_of(&[u32::MAX as usize, (1 << 32) + near, usize::MAX]),
        _ => near,
    }
}

/// Compares every matcher on so many tables and texts; how many were refused, and how many had a longest end.
pub fn compare(cases: u32, seed: u64) -> (u32, u32) {
    let mut random = Random::new(seed);
    let (mut refused, mut found) = (0, 0);
    for case in 0..cases {
        let made = table(&mut random);
        let length = length(&mut random);
        let letters = &LETTERS[..1 + random.below(4) as usize];
        let text: Vec<u8> = (0..length).map(|_| random.one_of(letters)).collect();
        let start = start(&mut random, length);
        let name = format!("seed {seed}, case {case}");

        let proved = Lent { rows: made.rows, head: made.head, cells: &made.cells, marks: &made.marks };
        let paper = find::Lent { rows: made.rows as usize, head: made.head as usize, cells: &made.cells, marks: &made.marks };
        let number = |(number, _)| number;
        assert_eq!(proved.well_formed(), paper.whole(&[]).is_ok(), "{name}");
        assert_eq!(proved.whole(&text).map_err(Refusal::number), paper.whole(&text).map_err(number), "{name}");
        let longest = paper.longest(&text, start).map_err(number);
        assert_eq!(proved.longest(&text, start).map_err(Refusal::number), longest, "{name}, from {start}");
        let first = paper.first(&text).map_err(number).map(|found| found.map(|(s, e)| s..e));
        assert_eq!(proved.first(&text).map_err(Refusal::number), first, "{name}");
        // the part is the text's own, not only equal to it
        let part = proved.first_part(&text).map_err(Refusal::number).map(|found| found.map(<[u8]>::as_ptr_range));
        assert_eq!(part, first.map(|found| found.map(|part| text[part].as_ptr_range())), "{name}");
        compare_starts(&proved, &paper, &text, random.below(2 + length.min(20) as u64) as usize, &name);
        refused += longest.is_err() as u32;
        found += matches!(longest, Ok(Some(_))) as u32;
    }
    (refused, found)
}

/// All starts, in a lent list with so many places and by value.
fn compare_starts(proved: &Lent, paper: &find::Lent, text: &[u8], places: usize, name: &str) {
    let before: Vec<u32> = (0..places as u32).map(|i| 7_000_000 + i).collect();
    let mut list = before.clone();
    let count = proved.starts_into(text, &mut list).map_err(|refusal| match refusal {
        Refusal::FewPlaces(all) => (15, all as usize),
        _ => (refusal.number(), 0),
    });
    match paper.starts(text, places) {
        Err(((n, _), all)) => {
            assert_eq!(count, Err((n, all)), "{name}");
            assert_eq!(list, before, "{name}");
        }
        Ok(all) => {
            assert_eq!(count, Ok(all.len()), "{name}");
            let due: Vec<u32> = all.iter().map(|&s| s as u32).collect();
            assert_eq!(list[..all.len()], due, "{name}");
            assert_eq!(list[all.len()..], before[all.len()..], "{name}");
        }
    }
    let all = paper.starts(text, usize::MAX).map_err(|((number, _), _)| number);
    assert_eq!(proved.starts(text).map_err(Refusal::number), all, "{name}");
}
