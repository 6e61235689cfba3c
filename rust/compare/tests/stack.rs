//! The patterns that go deepest, compiled and matched on threads whose stack is little more than the library promises to need. A call
//! that needs more ends the process.
use jorvimest::{compile_into, Lent, CELLS_A_ROW, MARKS_A_ROW, ROWS_MOST, STACK_COMPILE, STACK_OTHERS, WORDS_A_ROW};
use std::thread::{scope, Builder};

/// What a thread takes for itself, with the frames from there to the call.
const THREAD: usize = 16 * 1024;

/// Runs on a thread with so much stack beside its own.
fn with_stack<T: Send>(stack: usize, run: impl FnOnce() -> T + Send) -> T {
    scope(|scope| {
        let thread = Builder::new().stack_size(THREAD + stack).spawn_scoped(scope, run).expect("a thread");
        thread.join().expect("no panic")
    })
}

/// Compiles with the stack that is promised for compiling, and matches over the table with what is promised for the rest. The answer
/// is that of `paper`: a table, or a refusal with its number.
fn compile(pattern: &[u8]) -> Result<(), u32> {
    let mut cells = vec![0; CELLS_A_ROW * ROWS_MOST];
    let mut marks = vec![0; MARKS_A_ROW * ROWS_MOST];
    let mut sets = vec![0; WORDS_A_ROW * ROWS_MOST];
    let found = with_stack(STACK_COMPILE, || compile_into(pattern, &mut cells, &mut marks, &mut sets));
    let due = paper::compile(pattern, ROWS_MOST);
    match (found, &due) {
        (Ok(table), Ok(t)) => {
            assert_eq!(table, Lent { rows: t.rows as u16, head: t.head as u16, cells: &t.cells, marks: &t.marks });
            matches(&table);
            Ok(())
        }
        (Err(refusal), Err(due)) => {
            assert_eq!((refusal.number(), refusal.place()), *due);
            Err(refusal.number())
        }
        (found, _) => panic!("{found:?}, and {due:?} is due"),
    }
}

/// Every matcher and the listing, over a text that is long for trying each start.
fn matches(table: &Lent) {
    let text = b"ab".repeat(4096);
    let mut list = vec![0; text.len() + 1];
    let mut out = vec![0; 1 << 16];
    with_stack(STACK_OTHERS, || {
        assert!(table.well_formed());
        assert!(table.whole(&text).is_ok());
        let first = table.first(&text).unwrap();
        let count = table.starts_into(&text, &mut list).unwrap();
        assert_eq!(first.as_ref().map(|part| part.start), list[..count].first().map(|&s| s as usize));
        if let Some(part) = first {
            assert_eq!(table.longest(&text, part.start), Ok(Some(part.end)));
        }
        // where there are too few places the starts are counted first
        assert_eq!(table.starts_into(&text, &mut list[..count]), Ok(count));
        assert!(table.listing_into(&mut out).is_ok());
    });
}

/// 32 groups: what opens each, what is innermost, what closes each.
fn groups(open: &str, inside: &str, close: &str) -> Vec<u8> {
    [&open.repeat(32), inside, &close.repeat(32)].concat().into_bytes()
}

#[test]
fn long_rows() {
    assert_eq!(compile(&[b'a'; 1021]), Ok(()));
    assert_eq!(compile(&[b'a'; 1024]), Err(11));
    assert_eq!(compile(&[b'^'; 1024]), Ok(()));
    assert_eq!(compile(&b"a*".repeat(512)), Ok(()));
    assert_eq!(compile(&b"(a)".repeat(341)), Ok(()));
    assert_eq!(compile(&b"a{2}b".repeat(204)), Ok(()));
}

#[test]
fn long_choices() {
    assert_eq!(compile(&b"a|".repeat(511)), Ok(()));
    assert_eq!(compile(&[b'|'; 511]), Ok(()));
    assert_eq!(compile(&[b'|'; 1024]), Err(10));
}

#[test]
fn groups_nested_left() {
    assert_eq!(compile(&groups("(", "a", ")b")), Ok(()));
    assert_eq!(compile(&groups("(", "a", ")bbbbbbbbbbbbbbb")), Ok(()));
    assert_eq!(compile(&groups("(", "a", ")?b|c")), Ok(()));
    assert_eq!(compile(&groups("(", "a", "){1}b|c")), Ok(()));
}

#[test]
fn groups_nested_right() {
    assert_eq!(compile(&groups("(a", "", ")")), Ok(()));
    assert_eq!(compile(&groups("(aaaaaaaaaaaaaaa", "", ")")), Ok(()));
    assert_eq!(compile(&groups("(a|b", "", ")*")), Ok(()));
    assert_eq!(compile(&groups("(a|b", "a", "){0,1}")), Ok(()));
}

#[test]
fn counts_in_counts() {
    assert_eq!(compile(&groups("(", "a{2}", "){2}")), Err(10));
    assert_eq!(compile(&groups("(a|b", "a{255}", "){255}")), Err(10));
    assert_eq!(compile(format!("{}a{{2}}{}){{0}}", "(".repeat(32), "){2}".repeat(31)).as_bytes()), Ok(()));
}

#[test]
fn many_rows() {
    assert_eq!(compile(b"(a{255}){4}"), Ok(()));
    assert_eq!(compile(b"(a{255}){4}a{4}"), Err(11));
    assert_eq!(compile(b"(a{255}){4}a{5}"), Err(10));
    assert_eq!(compile(b"[ab]*a[ab]{8}"), Ok(()));
}
