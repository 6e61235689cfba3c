//! Compiling once more by the quick methods, in plain Rust: the yardstick for the proved library's time. It takes the room that
//! is lent to it, and answers and leaves what the proved library does.

mod merge;
mod nodes;
mod pattern;
mod rows;

use std::ops::Range;

/// A refusal: number and place.
pub type Refused = (u32, u32);

/// Set words for a row.
const WORDS: usize = 32;

/// The rows and the head row of the table that then stands in the cells and marks. Of the room, all but the table is 0 afterwards.
pub fn compile(pattern: &[u8], cells: &mut [u16], marks: &mut [u8], sets: &mut [u64]) -> Result<(u16, u16), Refused> {
    let answer = draw(pattern, cells, marks, sets);
    let kept = answer.map_or(0, |(rows, _)| rows as usize);
    cells[256 * kept..].fill(0);
    marks[kept..].fill(0);
    sets.fill(0);
    answer
}

fn draw(pattern: &[u8], cells: &mut [u16], marks: &mut [u8], sets: &mut [u64]) -> Result<(u16, u16), Refused> {
    let program = pattern::read(pattern)?;
    let nodes = nodes::of(&program).ok_or((10, 0))?;
    let columns = pattern::columns(&program.sets);
    let count = rows::list(&nodes, &program.sets, &columns, cells, marks, sets).ok_or((11, 0))?;
    Ok(merge::merge(&mut cells[..256 * count], &mut marks[..count], sets, &columns))
}

/// The bytes of each column, from its first byte to that of the next.
fn spans(columns: &[u8]) -> impl Iterator<Item = Range<usize>> + '_ {
    let ends = columns.iter().skip(1).map(|&b| b as usize).chain([256]);
    columns.iter().zip(ends).map(|(&first, end)| first as usize..end)
}

/// Whether a set in words has a member.
fn has(set: &[u64], i: usize) -> bool {
    set[i / 64] >> (i % 64) & 1 == 1
}

fn put(set: &mut [u64], i: usize) {
    set[i / 64] |= 1 << (i % 64);
}

/// The members of a set in words, ascending.
fn members(set: &[u64]) -> impl Iterator<Item = usize> + '_ {
    set.iter().enumerate().flat_map(|(k, &word)| {
        let mut left = word;
        std::iter::from_fn(move || {
            if left == 0 {
                return None;
            }
            let i = 64 * k + left.trailing_zeros() as usize;
            left &= left - 1;
            Some(i)
        })
    })
}
