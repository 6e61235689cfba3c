//! The matchers over any table, by the table's rule, each stretch by itself.
use crate::Refused;

/// A table as it is lent: any numbers and any lengths.
#[derive(Clone, Copy)]
pub struct Lent<'a> {
    pub rows: usize,
    pub head: usize,
    pub marks: &'a [u8],
    pub cells: &'a [u16],
}

impl Lent<'_> {
    fn refuses(&self, text: &[u8]) -> Result<(), Refused> {
        let n = self.rows;
        let formed = (1..=1024).contains(&n)
            && self.cells.len() >= 256 * n
            && self.marks.len() >= n
            && self.head < n
            && self.cells[..256 * n].iter().all(|&c| (c as usize) < n)
            && self.marks[..n].iter().all(|m| [0, 2, 3].contains(m));
        if !formed {
            return Err((13, 0));
        }
        if text.len() > 1_048_576 {
            return Err((12, 0));
        }
        Ok(())
    }

    /// The ends of matches from s.
    fn ends(&self, text: &[u8], s: usize) -> Vec<usize> {
        let mut row = if s == 0 { self.head } else { 0 };
        let mut all = vec![];
        for e in s..=text.len() {
            let mark = self.marks[row];
            if mark == 3 || (mark == 2 && e == text.len()) {
                all.push(e);
            }
            if e < text.len() {
                row = self.cells[256 * row + text[e] as usize] as usize;
            }
        }
        all
    }

    pub fn whole(&self, text: &[u8]) -> Result<bool, Refused> {
        self.refuses(text)?;
        Ok(self.ends(text, 0).last() == Some(&text.len()))
    }

    pub fn longest(&self, text: &[u8], s: usize) -> Result<Option<usize>, Refused> {
        self.refuses(text)?;
        if s > text.len() {
            return Err((14, 0));
        }
        Ok(self.ends(text, s).last().copied())
    }

    pub fn first(&self, text: &[u8]) -> Result<Option<(usize, usize)>, Refused> {
        self.refuses(text)?;
        Ok((0..=text.len()).find_map(|s| self.ends(text, s).last().map(|&e| (s, e))))
    }

    /// The starts, or 15 with their number where there are more than places.
    pub fn starts(&self, text: &[u8], places: usize) -> Result<Vec<usize>, (Refused, usize)> {
        self.refuses(text).map_err(|r| (r, 0))?;
        let all: Vec<usize> = (0..=text.len()).filter(|&s| !self.ends(text, s).is_empty()).collect();
        if all.len() > places {
            return Err(((15, 0), all.len()));
        }
        Ok(all)
    }
}
