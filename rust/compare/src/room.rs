//! Room to lend, and what compiling in it answers.

/// The rows and the head row of the table that then stands in the room; or a refusal's number and place.
pub type Answer = Result<(u16, u16), (u32, u32)>;

#[derive(Clone, PartialEq)]
pub struct Room {
    pub cells: Vec<u16>,
    pub marks: Vec<u8>,
    pub sets: Vec<u64>,
}

impl Room {
    pub fn for_rows(rows: usize) -> Room {
        Room { cells: vec![0; 256 * rows], marks: vec![0; rows], sets: vec![0; 32 * rows] }
    }

    pub fn proved(&mut self, pattern: &[u8]) -> Answer {
        jorvimest::compile_into(pattern, &mut self.cells, &mut self.marks, &mut self.sets)
            .map(|table| (table.rows, table.head))
            .map_err(|refusal| (refusal.number(), refusal.place()))
    }

    pub fn model(&mut self, pattern: &[u8]) -> Answer {
        model::compile(pattern, &mut self.cells, &mut self.marks, &mut self.sets)
    }
}
