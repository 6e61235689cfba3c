//! `bench [walks] [finders] [compiling]`: the proved library beside the same work in plain Rust, in one run, a ratio a line; all of it
//! where nothing is said. `bench counted [FILE]`: the time and the instructions of compiling each pattern, those of the file too.
use jorvimest::Lent;
use std::hint::black_box;
use std::time::Instant;

/// A table check that runs over many cells at once.
#[inline(never)]
fn plain_check(t: &Lent) -> bool {
    let rows = t.rows as usize;
    if !(1..=1024).contains(&rows) || t.marks.len() < rows || t.cells.len() < 256 * rows || t.rows <= t.head {
        return false;
    }
    let mut good = true;
    for &c in &t.cells[..256 * rows] {
        good &= c < t.rows;
    }
    for &m in &t.marks[..rows] {
        good &= m == 0 || m == 2 || m == 3;
    }
    good
}

/// One load a byte, no bounds checks.
///
/// # Safety
/// The table is well formed.
#[inline(never)]
pub unsafe fn plain_whole(t: &Lent, text: &[u8]) -> bool {
    let mut q = t.head;
    for &b in text {
        // SAFETY: q is a row, as the head row and every cell of a well-formed table are, and each row has 256 cells
        q = unsafe { *t.cells.get_unchecked(256 * q as usize + b as usize) };
    }
    // SAFETY: q is a row, and each has a mark
    let mark = unsafe { *t.marks.get_unchecked(q as usize) };
    mark == 3 || mark == 2
}

/// # Safety
/// The table is well formed.
#[inline(never)]
pub unsafe fn plain_longest(t: &Lent, text: &[u8], start: usize) -> Option<usize> {
    let mut q = if start == 0 { t.head } else { 0 };
    let mut best = None;
    for p in start..text.len() {
        // SAFETY: q is a row, as row 0, the head row and every cell of a well-formed table are; each row has a mark and 256 cells; p is
        // below the text's length
        unsafe {
            if *t.marks.get_unchecked(q as usize) == 3 {
                best = Some(p);
            }
            q = *t.cells.get_unchecked(256 * q as usize + *text.get_unchecked(p) as usize);
        }
    }
    // SAFETY: q is a row, and each has a mark
    let mark = unsafe { *t.marks.get_unchecked(q as usize) };
    if mark == 3 || mark == 2 {
        best = Some(text.len());
    }
    best
}

/// The least of many times, taken in turn so that both see the same machine.
pub fn race(name: &str, mut proved: impl FnMut(), mut plain: impl FnMut()) {
    let time = |f: &mut dyn FnMut()| {
        let t = Instant::now();
        f();
        t.elapsed().as_secs_f64()
    };
    let (mut a, mut b) = (f64::MAX, f64::MAX);
    for _ in 0..60 {
        a = a.min(time(&mut proved));
        b = b.min(time(&mut plain));
    }
    println!("{name:42} {:10.1} us {:10.1} us  ratio {:.3}", a * 1e6, b * 1e6, a / b);
}

mod compiling;
mod finders;
mod meter;

fn main() {
    let words: Vec<String> = std::env::args().skip(1).collect();
    let asked: Vec<&str> = words.iter().map(|word| &word[..]).collect();
    match asked[..] {
        ["once", rows, line] => return compiling::once(rows, line),
        ["counted"] => return compiling::counted(None),
        ["counted", file] => return compiling::counted(Some(file)),
        _ => (),
    }
    let parts: [(&str, fn()); 3] = [("walks", walks), ("finders", finders::run), ("compiling", compiling::run)];
    for (name, run) in parts {
        if asked.is_empty() || asked.contains(&name) {
            run();
        }
    }
}

fn walks() {
    let mut seed = 88172645463325252u64;
    let mut random = move || {
        seed ^= seed << 13;
        seed ^= seed >> 7;
        seed ^= seed << 17;
        seed
    };
    println!("{:42} {:>13} {:>13}", "", "proved", "plain Rust");
    for rows in [5u16, 64, 768] {
        let cells: Vec<u16> = (0..256 * rows as usize).map(|_| (random() % rows as u64) as u16).collect();
        let marks: Vec<u8> = (0..rows).map(|_| [0, 0, 0, 2, 3][(random() % 5) as usize]).collect();
        let text: Vec<u8> = (0..1048576).map(|_| random() as u8).collect();
        let t = Lent { rows, head: 1, cells: &cells, marks: &marks };
        assert!(t.well_formed() && plain_check(&t));
        // SAFETY: it is given t alone, which is well formed
        let plain_whole = |t: &Lent| unsafe { plain_whole(t, &text) };
        // SAFETY: the same
        let plain_longest = |t: &Lent, start| unsafe { plain_longest(t, &text, start) };
        assert_eq!(t.whole(&text), Ok(plain_whole(&t)));
        race(
            &format!("table check, {rows} rows, 100 times"),
            || (0..100).for_each(|_| assert!(black_box(&t).well_formed())),
            || (0..100).for_each(|_| assert!(plain_check(black_box(&t)))),
        );
        // The proved matchers check the table too; the plain loops do not.
        race(
            &format!("whole, {rows} rows, 1 MiB"),
            || _ = black_box(black_box(&t).whole(&text)),
            || _ = black_box(plain_whole(black_box(&t))),
        );
        for start in [0, 1] {
            assert_eq!(t.longest(&text, start), Ok(plain_longest(&t, start)));
            race(
                &format!("longest from {start}, {rows} rows, 1 MiB"),
                || _ = black_box(black_box(&t).longest(&text, start)),
                || _ = black_box(plain_longest(black_box(&t), start)),
            );
        }
    }
    meter::run();
}
