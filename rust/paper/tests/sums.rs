//! The sums of docs/RULES.md, and slips that other tools make.
use paper::find::Lent;
use paper::nodes::{Nodes, SetRows};
use paper::{compile, listing, meaning, pattern::read};

/// The nodes of a pattern, however many.
fn nodes(pattern: &[u8]) -> Nodes {
    Nodes::up_to(&read(pattern).unwrap(), usize::MAX).unwrap()
}

/// S, however great.
fn set_rows(pattern: &[u8]) -> usize {
    SetRows::of(&nodes(pattern), usize::MAX).unwrap().marks.len()
}

fn shape(pattern: &[u8]) -> (usize, usize, Vec<u8>) {
    let t = compile(pattern, 1024).unwrap();
    (t.rows, t.head, t.marks)
}

/// The longest end from each start, by the meaning, and the same by the table.
fn longest(pattern: &[u8], text: &[u8]) -> Vec<Option<usize>> {
    let tree = read(pattern).unwrap();
    let by_meaning: Vec<_> = (0..=text.len()).map(|s| meaning::from(&tree, text, s).last().copied()).collect();
    let t = compile(pattern, 1024).unwrap();
    let lent = Lent { rows: t.rows, head: t.head, marks: &t.marks, cells: &t.cells };
    let by_table: Vec<_> = (0..=text.len()).map(|s| lent.longest(text, s).unwrap()).collect();
    assert_eq!(by_meaning, by_table);
    let starts: Vec<_> = (0..=text.len()).filter(|&s| by_meaning[s].is_some()).collect();
    assert_eq!(lent.first(text).unwrap(), starts.first().map(|&s| (s, by_meaning[s].unwrap())));
    assert_eq!(lent.starts(text, text.len() + 1).unwrap(), starts);
    by_meaning
}

fn starts(pattern: &[u8], text: &[u8]) -> Vec<usize> {
    longest(pattern, text).iter().enumerate().filter_map(|(s, end)| end.map(|_| s)).collect()
}

#[test]
fn node_counts() {
    for (pattern, count) in [
        (&b""[..], 2),
        (b"a", 2),
        (b"a$", 4),
        (b"^$", 4),
        (b"$^", 4),
        (b"$a", 4),
        (b".*", 4),
        (b"a*", 4),
        (b"^a", 4),
        (b"$", 2),
        (b"a+", 4),
        (b"[01][0-9]|2[0-3]", 10),
        (b"0[013-9]|1[0-9]|2[0-3]", 16),
        (b"[ab]*a[ab]{8}", 22),
        (b"[ab]*a[ab]{9}", 24),
    ] {
        assert_eq!(nodes(pattern).count(), count, "{}", pattern.escape_ascii());
    }
    assert_eq!(nodes(b"(a{255}){4}").count(), 2040);
    assert_eq!(nodes(b"(a{255}){4}a{4}").count(), 2048);
    assert_eq!(nodes(b"(a{255}){4}a{5}").count(), 2050);
    assert_eq!(nodes(b"(((a{255}){255}){255}){0}").count(), 2);
}

#[test]
fn set_row_counts() {
    assert_eq!(set_rows(b""), 3);
    assert_eq!(set_rows(b"a"), 4);
    assert_eq!(set_rows(b"a$"), 4);
    assert_eq!(set_rows(b"^$"), 3);
    assert_eq!(set_rows(b"$^"), 3);
    assert_eq!(set_rows(b"$a"), 3);
    assert_eq!(set_rows(b".*"), 3);
    assert_eq!(set_rows(b"a*"), 4);
    assert_eq!(set_rows(b"^a"), 4);
    assert_eq!(set_rows(b"$"), 3);
    assert_eq!(set_rows(b"a+"), 4);
    assert_eq!(set_rows(b"[01][0-9]|2[0-3]"), 7);
    assert_eq!(set_rows(b"0[013-9]|1[0-9]|2[0-3]"), 9);
    assert_eq!(set_rows(b"(((a{255}){255}){255}){0}"), 3);
    assert_eq!(set_rows(b"[ab]*a[ab]{8}"), 515);
    assert_eq!(set_rows(b"[ab]*a[ab]{9}"), 1027);
    assert_eq!(set_rows(b"(a{255}){4}"), 1023);
    assert_eq!(set_rows(b"(a{255}){4}a{4}"), 1027);
}

#[test]
fn tables() {
    assert_eq!(shape(b""), (2, 0, vec![3, 0]));
    assert_eq!(shape(b"a"), (3, 0, vec![0, 0, 3]));
    assert_eq!(compile(b"a", 1024).unwrap().cells[97], 2);
    assert_eq!(shape(b"a$"), (3, 0, vec![0, 0, 2]));
    assert_eq!(shape(b"^$"), (2, 1, vec![0, 2]));
    assert_eq!(compile(b"^$", 1024), compile(b"$^", 1024));
    assert_eq!(shape(b"$a"), (1, 0, vec![0]));
    assert_eq!(shape(b".*"), (1, 0, vec![3]));
    assert_eq!(shape(b"[01][0-9]|2[0-3]").0, 5);
    assert_eq!(compile(b"[01][0-9]|2[0-3]", 1024), compile(b"0[0-9]|1[0-9]|2[0-3]", 1024));
    assert_eq!(shape(b"0[013-9]|1[0-9]|2[0-3]").0, 6);
    assert_eq!(shape(b"[ab]*a[ab]{8}").0, 513);
    assert_eq!(shape(b"(a{255}){4}").0, 1022);
    assert_eq!(compile(b"(((a{255}){255}){255}){0}", 1024), compile(b"", 1024));
}

#[test]
fn rooms() {
    assert_eq!(compile(b"", 2), Err((11, 0)));
    assert!(compile(b"", 3).is_ok());
    assert!(compile(b"[ab]*a[ab]{8}", 515).is_ok());
    assert_eq!(compile(b"[ab]*a[ab]{8}", 514), Err((11, 0)));
    assert_eq!(compile(b"[ab]*a[ab]{9}", 1024), Err((11, 0)));
    assert!(compile(b"(a{255}){4}", 1023).is_ok());
    assert_eq!(compile(b"(a{255}){4}", 1022), Err((11, 0)));
    assert_eq!(compile(b"(a{255}){4}a{4}", 1024), Err((11, 0)));
    assert_eq!(compile(b"(a{255}){4}a{5}", 1024), Err((10, 0)));
}

#[test]
fn matches() {
    assert_eq!(longest(b"a*", b"aab")[0], Some(2));
    assert_eq!(longest(b"a*", b"aab")[2], Some(2));
    assert_eq!(starts(b"a$", b"aa"), [1]);
    assert_eq!(starts(b"^a", b"aa"), [0]);
    assert_eq!(starts(b"$", b""), [0]);
    assert_eq!(longest(b"a+", b"baab")[..2], [None, Some(3)]);
    assert_eq!(starts(b"a*", b"ba"), [0, 1, 2]);
}

#[test]
fn refusals() {
    assert_eq!(compile(b"a**", 9), Err((2, 2)));
    assert_eq!(compile(b"a{3,2}", 9), Err((3, 1)));
    assert_eq!(compile(b"[]", 9), Err((4, 0)));
    assert_eq!(compile(b"(a", 9), Err((8, 2)));
    assert_eq!(compile(&[b'a'; 1025], 1024), Err((1, 1024)));
}

#[test]
fn slips() {
    // the head row given up for another row with its nodes
    assert_eq!(starts(b"$^", b""), [0]);
    // an anchor over both branches would leave the b out
    assert_eq!(starts(b"^a|b", b"ab"), [0, 1]);
    assert_eq!(starts(b"^(a|b)", b"ab"), [0]);
    // 2 folded into 3 would match the first a
    assert_eq!(starts(b"a$", b"ab"), []);
    // the first end found
    assert_eq!(longest(b"a|ab", b"ab")[0], Some(2));
}

#[test]
fn the_listing() {
    assert_eq!(listing(b"^a"), "rows 3 head 1\n0 0 0-255>0\n1 0 0-96>0 97-97>2 98-255>0\n2 3 0-255>0\n");
    assert_eq!(listing(b"a**"), "refused 2 at 2\n");
}
