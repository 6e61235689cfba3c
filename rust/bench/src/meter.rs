//! Whole and longest of rows that a pattern matches to the text's end, and of the same with a mistake in the first row: it leads to a
//! row that no byte leaves, where the proved matchers stop.
use crate::{plain_longest, plain_whole, race};
use jorvimest::Lent;
use std::hint::black_box;

pub fn run() {
    let pattern = br"(20[0-9]{2}-[01][0-9]-[0-3][0-9];[0-2][0-9]:[0-5][0-9];-?[0-9]{1,7},[0-9]{3};kWh\r\n)*";
    let table = paper::compile(pattern, 1024).unwrap();
    let t = Lent { rows: table.rows as u16, head: table.head as u16, cells: &table.cells, marks: &table.marks };
    assert!(t.well_formed());
    let rows: Vec<u8> = b"2024-01-17;13:45;-1234,567;kWh\r\n".iter().cycle().take(1 << 20).copied().collect();
    let mut mistake = rows.clone();
    mistake[20] = b'.';
    for (name, text) in [("meter rows", &rows), ("mistake in the first row", &mistake)] {
        // SAFETY: it is given t alone, which is well formed
        let plain_whole = |t: &Lent| unsafe { plain_whole(t, text) };
        // SAFETY: the same
        let plain_longest = |t: &Lent| unsafe { plain_longest(t, text, 0) };
        assert_eq!(t.whole(text), Ok(plain_whole(&t)));
        assert_eq!(t.longest(text, 0), Ok(plain_longest(&t)));
        race(
            &format!("whole, {name}, 1 MiB"),
            || _ = black_box(black_box(&t).whole(text)),
            || _ = black_box(plain_whole(black_box(&t))),
        );
        race(
            &format!("longest, {name}, 1 MiB"),
            || _ = black_box(black_box(&t).longest(text, 0)),
            || _ = black_box(plain_longest(black_box(&t))),
        );
    }
}
