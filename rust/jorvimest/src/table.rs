use crate::text::whole_text;
use crate::{linked, Refusal, Text, CELLS_A_ROW, MARKS_A_ROW, ROWS_MOST, TEXT_MOST, WORDS_A_ROW};
use std::fmt::{Debug, Formatter, Result as Written};
use std::hash::{Hash, Hasher};
use std::ops::Range;

/// A table, whose cells and marks are its own; or lent, as [`Lent`]. Its methods take any table, well formed or not.
///
/// Tables are equal if their rows, head rows, cells and marks are. Two patterns match the same stretches of all texts exactly
/// when their compiled tables are equal.
///
/// ```
/// use jorvimest::Table;
///
/// let hours = Table::compile(b"[01][0-9]|2[0-3]")?;
/// assert!(hours == Table::compile(b"0[0-9]|1[0-9]|2[0-3]")?);
/// assert!(hours != Table::compile(b"0[013-9]|1[0-9]|2[0-3]")?);
/// # Ok::<(), jorvimest::Refusal>(())
/// ```
#[derive(Clone, Copy)]
pub struct Table<Cells = Box<[u16]>, Marks = Box<[u8]>> {
    /// R, from 1 to 1,024.
    pub rows: u16,
    /// The row where reading begins at position 0; inside a text it begins at row 0.
    pub head: u16,
    /// The row that each byte leads to, 256 a row. What is past the first R rows is not looked at.
    pub cells: Cells,
    /// A stretch matches if the row then reached is marked 3, or is marked 2 and the text ends there. Else 0.
    pub marks: Marks,
}

/// A table of lent cells and marks.
///
/// ```
/// use jorvimest::{Lent, Table};
///
/// // `^a`: row 0 inside, row 1 at position 0, row 2 after the a
/// let mut cells = vec![0; 3 * 256];
/// cells[256 + 97] = 2;
/// let table = Lent { rows: 3, head: 1, cells: &cells, marks: &[0, 0, 3] };
/// assert_eq!(table.first(b"ab"), Ok(Some(0..1)));
/// assert_eq!(table.first(b"ba"), Ok(None));
/// assert!(table == Table::compile(b"^a")?);
/// # Ok::<(), jorvimest::Refusal>(())
/// ```
pub type Lent<'a> = Table<&'a [u16], &'a [u8]>;

/// Compiles the pattern into the front of the lent cells and marks, which are the table's as long as it lives. There is room for the
/// least of 1,024, cells / 256, marks and set words / 32 rows. Of all that is lent, what is not the table is 0 afterwards.
///
/// ```
/// let (mut cells, mut marks, mut sets) = ([0; 256 * 4], [0; 4], [0; 32 * 4]);
/// let table = jorvimest::compile_into(b"a", &mut cells, &mut marks, &mut sets)?;
/// assert_eq!((table.rows, table.head, table.marks), (3, 0, &[0, 0, 3][..]));
/// # Ok::<(), jorvimest::Refusal>(())
/// ```
pub fn compile_into<'a>(
    pattern: &[u8],
    cells: &'a mut [u16],
    marks: &'a mut [u8],
    sets: &mut [u64],
) -> Result<Lent<'a>, Refusal> {
    let (mut rows, mut head, mut place) = (0, 0, 0);
    // SAFETY: each pointer is a slice's and stands with its length, or is a number's; none is null, and each is aligned for its type.
    // What is written is borrowed mutably, so it overlaps nothing else. The function is proved to keep within the lengths; it keeps
    // no pointer.
    let code = unsafe {
        linked::jorvimest_compile(
            pattern.as_ptr(),
            pattern.len(),
            cells.as_mut_ptr(),
            cells.len(),
            marks.as_mut_ptr(),
            marks.len(),
            sets.as_mut_ptr(),
            sets.len(),
            &mut rows,
            &mut head,
            &mut place,
        )
    };
    match code {
        0 => Ok(Table { rows, head, cells: &cells[..256 * rows as usize], marks: &marks[..rows as usize] }),
        n => Err(Refusal::of(n, place, 0)),
    }
}

impl Table {
    /// The pattern's table, compiled with room for 1,024 rows and kept in as much as it needs.
    pub fn compile(pattern: &[u8]) -> Result<Table, Refusal> {
        let mut cells = vec![0; CELLS_A_ROW * ROWS_MOST];
        let mut marks = vec![0; MARKS_A_ROW * ROWS_MOST];
        let mut sets = vec![0; WORDS_A_ROW * ROWS_MOST];
        Ok(compile_into(pattern, &mut cells, &mut marks, &mut sets)?.owned())
    }
}

/// What a linked function answers over the table: it is given the table's numbers and slices, then what else is named.
macro_rules! over_table {
    ($table:expr, $function:ident $(, $given:expr)*) => {{
        let Table { rows, head, cells, marks } = $table.lent();
        // SAFETY: as in `compile_into`: each pointer is a slice's and stands with its length, or is a number's; behind those that are
        // not mutable the function writes nothing, and what is behind the others is borrowed mutably
        unsafe { linked::$function(rows, head, cells.as_ptr(), cells.len(), marks.as_ptr(), marks.len() $(, $given)*) }
    }};
}

impl<Cells: AsRef<[u16]>, Marks: AsRef<[u8]>> Table<Cells, Marks> {
    /// The cells of its rows, as far as there are any.
    fn row_cells(&self) -> &[u16] {
        let cells = self.cells.as_ref();
        &cells[..cells.len().min(256 * self.rows as usize)]
    }

    fn row_marks(&self) -> &[u8] {
        let marks = self.marks.as_ref();
        &marks[..marks.len().min(self.rows as usize)]
    }

    /// The same table lent on.
    pub fn lent(&self) -> Lent<'_> {
        Table { rows: self.rows, head: self.head, cells: self.cells.as_ref(), marks: self.marks.as_ref() }
    }

    /// A copy of the table without what is past its rows.
    pub fn owned(&self) -> Table {
        Table { rows: self.rows, head: self.head, cells: self.row_cells().into(), marks: self.row_marks().into() }
    }

    /// Whether the row count is from 1 to 1,024, there are cells and marks for it, the head row and all cells are below it, and all
    /// marks are 0, 2 or 3. Every other method refuses a table that is not well formed.
    pub fn well_formed(&self) -> bool {
        over_table!(self, jorvimest_well_formed)
    }

    /// Whether the whole text matches.
    pub fn whole(&self, text: &[u8]) -> Result<bool, Refusal> {
        let code = over_table!(self, jorvimest_whole, text.as_ptr(), text.len());
        Ok(found(code)?.is_some())
    }

    /// The greatest end of a match from the start. A start equal to the text's length is allowed.
    ///
    /// ```
    /// let table = jorvimest::Table::compile(b"a|ab")?;
    /// assert_eq!(table.longest(b"ab", 0), Ok(Some(2)));
    /// assert_eq!(table.longest(b"ab", 1), Ok(None));
    /// assert_eq!(table.longest(b"ab", 3), Err(jorvimest::Refusal::PastEnd));
    /// # Ok::<(), jorvimest::Refusal>(())
    /// ```
    pub fn longest(&self, text: &[u8], start: usize) -> Result<Option<usize>, Refusal> {
        // a start that 32 bits can't hold is past the end of every text that is not too long, and so is the greatest that they hold
        let start = u32::try_from(start).unwrap_or(u32::MAX);
        let mut end = 0;
        let code = over_table!(self, jorvimest_longest, text.as_ptr(), text.len(), start, &mut end);
        Ok(found(code)?.map(|()| end as usize))
    }

    /// The first match: the least start that has any, with its longest end. For a text of n bytes it looks at no more than
    /// n · (R + 5) cells, beside those that the check of the table takes.
    ///
    /// ```
    /// let table = jorvimest::Table::compile(b"a+")?;
    /// assert_eq!(table.first(b"baab"), Ok(Some(1..3)));
    /// # Ok::<(), jorvimest::Refusal>(())
    /// ```
    pub fn first(&self, text: &[u8]) -> Result<Option<Range<usize>>, Refusal> {
        let (mut start, mut end) = (0, 0);
        let code = over_table!(self, jorvimest_first, text.as_ptr(), text.len(), &mut start, &mut end);
        Ok(found(code)?.map(|()| start as usize..end as usize))
    }

    /// The first match as a part of the text, borrowed from the text and not from the table.
    ///
    /// ```
    /// use jorvimest::Table;
    ///
    /// let text = b"at 17:45".to_vec();
    /// let hour = Table::compile(b"[01][0-9]|2[0-3]")?.first_part(&text)?;
    /// assert_eq!(hour, Some(&text[3..5]));
    /// # Ok::<(), jorvimest::Refusal>(())
    /// ```
    pub fn first_part<'t>(&self, text: &'t [u8]) -> Result<Option<&'t [u8]>, Refusal> {
        Ok(self.first(text)?.map(|part| &text[part]))
    }

    /// Every start that has any match, ascending, in the first places of the lent list; their number. A refusal leaves the list.
    /// For a text of n bytes it looks at no more than n · (2 R + 1) cells, beside those that the check of the table takes; and at
    /// twice as many where the list has fewer than n + 1 places, since it counts the starts first then.
    ///
    /// The list is of 32 bits, which hold every position, as the linked function fills it: nothing is copied.
    pub fn starts_into(&self, text: &[u8], list: &mut [u32]) -> Result<usize, Refusal> {
        let mut count = 0;
        let code = over_table!(self, jorvimest_starts, text.as_ptr(), text.len(), list.as_mut_ptr(), list.len(), &mut count);
        match code {
            0 => Ok(count as usize),
            n => Err(Refusal::of(n, 0, count)),
        }
    }

    /// Every start that has any match, ascending, as positions of a slice are.
    ///
    /// ```
    /// let table = jorvimest::Table::compile(b"a*")?;
    /// assert_eq!(table.starts(b"ba"), Ok(vec![0, 1, 2]));
    /// # Ok::<(), jorvimest::Refusal>(())
    /// ```
    pub fn starts(&self, text: &[u8]) -> Result<Vec<usize>, Refusal> {
        // a place for every start that could be, so that they are not counted first; a text that is too long is refused
        let mut list = vec![0; text.len().min(TEXT_MOST) + 1];
        let count = self.starts_into(text, &mut list)?;
        Ok(list[..count].iter().map(|&start| start as usize).collect())
    }

    /// The listing in a lent buffer.
    pub fn listing_into(&self, out: &mut [u8]) -> Result<Text, Refusal> {
        let mut length = 0;
        let code = over_table!(self, jorvimest_listing, out.as_mut_ptr(), out.len(), &mut length);
        Text::of(code, length)
    }

    /// The listing: a line with the rows and the head row, then for each row its number, its mark and the row that each run of bytes
    /// leads to.
    ///
    /// ```
    /// let table = jorvimest::Table::compile(b"^a")?;
    /// assert_eq!(table.listing()?, "\
    /// rows 3 head 1
    /// 0 0 0-255>0
    /// 1 0 0-96>0 97-97>2 98-255>0
    /// 2 3 0-255>0
    /// ");
    /// # Ok::<(), jorvimest::Refusal>(())
    /// ```
    pub fn listing(&self) -> Result<String, Refusal> {
        whole_text(|out| self.listing_into(out))
    }
}

/// A matcher's code: 0 for a match, 1 for none, or a refusal's number.
fn found(code: u32) -> Result<Option<()>, Refusal> {
    match code {
        0 => Ok(Some(())),
        1 => Ok(None),
        n => Err(Refusal::of(n, 0, 0)),
    }
}

impl<C: AsRef<[u16]>, M: AsRef<[u8]>, D: AsRef<[u16]>, N: AsRef<[u8]>> PartialEq<Table<D, N>> for Table<C, M> {
    fn eq(&self, other: &Table<D, N>) -> bool {
        (self.rows, self.head) == (other.rows, other.head)
            && self.row_marks() == other.row_marks()
            && self.row_cells() == other.row_cells()
    }
}

impl<C: AsRef<[u16]>, M: AsRef<[u8]>> Eq for Table<C, M> {}

impl<C: AsRef<[u16]>, M: AsRef<[u8]>> Hash for Table<C, M> {
    fn hash<H: Hasher>(&self, state: &mut H) {
        (self.rows, self.head, self.row_marks(), self.row_cells()).hash(state);
    }
}

/// Bytes of the listing that [`Debug`] shows, at most.
const SHOWN: usize = 1024;

/// Short: the rows, the head row and the first rows of the listing, as many as 1,024 bytes have room for, and how many are left out.
/// [`Table::listing`] has all.
impl<C: AsRef<[u16]>, M: AsRef<[u8]>> Debug for Table<C, M> {
    fn fmt(&self, f: &mut Formatter) -> Written {
        let mut out = [0; SHOWN];
        let ascii = |bytes| std::str::from_utf8(bytes).expect("the listing is ASCII");
        match self.listing_into(&mut out) {
            Ok(Text::Written(n)) => f.write_str(ascii(&out[..n])),
            Ok(Text::Longer(_)) => {
                // up to the last line end: the line of the rows and the head row, and some rows
                let end = out.iter().rposition(|&b| b == b'\n').map_or(0, |i| i + 1);
                let shown = ascii(&out[..end]);
                writeln!(f, "{shown}rows left out: {}", self.rows as usize + 1 - shown.lines().count())
            }
            Err(refusal) => write!(f, "rows {} head {}: {refusal}", self.rows, self.head),
        }
    }
}

#[test]
fn short_debug() {
    let shown = |pattern: &[u8]| format!("{:?}", Table::compile(pattern).unwrap());
    assert_eq!(shown(b"^a"), Table::compile(b"^a").unwrap().listing().unwrap());
    let rows = shown(b"(a{255}){4}");
    assert!(rows.starts_with("rows 1022 head 0\n0 0 0-96>1 97-97>2 98-255>1\n1 0 0-255>1\n"), "{rows}");
    let left_out = 1022 - (rows.lines().count() - 2);
    assert_eq!(rows.lines().last().unwrap(), format!("rows left out: {left_out}"));
    assert!(rows.len() < SHOWN + 32, "{rows}");
    // a first row that is too long to be shown
    let cells: Vec<u16> = (0..512).map(|b| b % 2).collect();
    let table = Lent { rows: 2, head: 0, cells: &cells, marks: &[0, 3] };
    assert_eq!(format!("{table:?}"), "rows 2 head 0\nrows left out: 2\n");
    assert_eq!(format!("{:?}", Lent { rows: 3, ..table }), "rows 3 head 0: table not well formed (13 at 0)");
}

#[test]
fn starts_past_the_end() {
    let table = Table::compile(b"a*").unwrap();
    let long = vec![b'a'; TEXT_MOST + 1];
    for start in [3, u32::MAX as usize, 1 << 32, (1 << 32) + 1, usize::MAX] {
        assert_eq!(table.longest(b"aa", start), Err(Refusal::PastEnd));
        assert_eq!(table.longest(&long, start), Err(Refusal::LongText));
        assert_eq!(Lent { rows: 0, ..table.lent() }.longest(&long, start), Err(Refusal::NotFormed));
    }
    assert_eq!(table.longest(b"aa", 2), Ok(Some(2)));
    assert_eq!(table.longest(&long[1..], TEXT_MOST), Ok(Some(TEXT_MOST)));
}
