//! The house rules once more, written from their words alone and for clarity only: what the proved library is compared with.
//! Nothing here is shared with it, and where there are several methods this takes another one.

pub mod draw;
pub mod find;
pub mod meaning;
pub mod nodes;
pub mod pattern;

/// A table by value.
#[derive(Clone, Debug, PartialEq, Eq)]
pub struct Table {
    pub rows: usize,
    pub head: usize,
    pub marks: Vec<u8>,
    pub cells: Vec<u16>,
}

/// A refusal: number and place.
pub type Refused = (u32, u32);

/// The table of a pattern, and S, where S is at most 1,024.
pub fn drawn(pattern: &[u8]) -> Result<(Table, usize), Refused> {
    let tree = pattern::read(pattern)?;
    let nodes = nodes::Nodes::of(&tree).ok_or((10, 0))?;
    let rows = nodes::SetRows::of(&nodes, 1024).ok_or((11, 0))?;
    Ok((draw::smallest(&rows), rows.marks.len()))
}

/// What compiling answers where the lent room is enough for `k` rows.
pub fn compile(pattern: &[u8], k: usize) -> Result<Table, Refused> {
    match drawn(pattern)? {
        (_, s) if s > k => Err((11, 0)),
        (table, _) => Ok(table),
    }
}

/// K: the rows that lent cells, marks and set words are enough for.
pub fn rows_for(cells: usize, marks: usize, words: usize) -> usize {
    1024.min(cells / 256).min(marks).min(words / 32)
}

/// What the listing program prints for a pattern, without the line end that it drops.
pub fn listing(pattern: &[u8]) -> String {
    match compile(pattern, 64) {
        Err(refused) => line(refused),
        Ok(table) => table.listing(),
    }
}

/// The line of a refusal.
pub fn line((number, place): Refused) -> String {
    format!("refused {number} at {place}\n")
}

impl Table {
    pub fn listing(&self) -> String {
        let mut out = format!("rows {} head {}\n", self.rows, self.head);
        for q in 0..self.rows {
            out += &format!("{q} {}", self.marks[q]);
            let row = &self.cells[256 * q..256 * q + 256];
            let mut lo = 0;
            for b in 0..256 {
                if b == 255 || row[b + 1] != row[b] {
                    out += &format!(" {lo}-{b}>{}", row[b]);
                    lo = b + 1;
                }
            }
            out += "\n";
        }
        out
    }
}
