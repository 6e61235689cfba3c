//! `tables_of CASES SEED BLOCK`: patterns compiled in rooms of several sizes, and for each block of so many patterns a sum of all that
//! was answered and left in the room; 1,000,000 cases, seed 1 and blocks of 10,000 where nothing is said. Linked with two versions of
//! the proved library it prints the same lines where they answer and leave the same. The line of a block of one has the pattern too.
use compare::readings::line_of;
use compare::room::Room;
use compare::{large, patterns, Random};

/// A sum of numbers in order.
struct Sum(u64);

impl Sum {
    fn add(&mut self, n: u64) {
        self.0 = (self.0.rotate_left(5) ^ n).wrapping_mul(0x9e37_79b9_7f4a_7c15);
    }

    fn add_room(&mut self, room: &Room) {
        for part in room.cells.chunks(4) {
            self.add(part.iter().fold(0, |word, &cell| word << 16 | cell as u64));
        }
        for part in room.marks.chunks(8) {
            self.add(part.iter().fold(0, |word, &mark| word << 8 | mark as u64));
        }
        room.sets.iter().for_each(|&word| self.add(word));
    }
}

/// A block's sum, its tables and their rows.
struct Block {
    sum: Sum,
    tables: u32,
    rows: u64,
}

impl Block {
    fn new() -> Block {
        Block { sum: Sum(0), tables: 0, rows: 0 }
    }

    /// Compiles in room for so many rows, a little more of one part or another, with something in it; whether there was room.
    fn compile(&mut self, random: &mut Random, pattern: &[u8], rows: usize) -> bool {
        let mut room = Room::for_rows(rows);
        room.cells.resize(256 * rows + random.below(300) as usize, 0);
        room.marks.resize(rows + random.below(2) as usize, 0);
        room.sets.resize(32 * rows + random.below(40) as usize, 0);
        room.cells.fill(0xa5a5);
        room.marks.fill(0xa5);
        room.sets.fill(!0);
        let answer = room.proved(pattern);
        let (first, second) =
            answer.map_or_else(|(n, place)| (n + 1, place), |(rows, head)| (0, (rows as u32) << 16 | head as u32));
        self.sum.add((first as u64) << 32 | second as u64);
        self.sum.add_room(&room);
        if let Ok((rows, _)) = answer {
            self.tables += 1;
            self.rows += rows as u64;
        }
        answer != Err((11, 0))
    }

    /// Compiles in room for few rows, for the least number of rows that is enough, for one fewer, and for some between.
    fn compile_in_rooms(&mut self, random: &mut Random, pattern: &[u8]) {
        let (mut few, mut enough) = (random.below(4) as usize, 8);
        self.compile(random, pattern, few);
        while !self.compile(random, pattern, enough) {
            if enough == 1024 {
                return;
            }
            (few, enough) = (enough, (8 * enough).min(1024));
        }
        while few + 1 < enough {
            let middle = (few + enough) / 2;
            if self.compile(random, pattern, middle) {
                enough = middle;
            } else {
                few = middle;
            }
        }
    }
}

/// Most are small; some have many rows.
fn pattern(random: &mut Random) -> Vec<u8> {
    match random.below(100) {
        0 => large::shape(random),
        1..=3 => {
            let mut out = vec![];
            large::part(random, 3, &mut out);
            out
        }
        _ => patterns::pattern(random),
    }
}

fn main() {
    let words: Vec<u64> = std::env::args().skip(1).map(|w| w.parse().expect("a number")).collect();
    let number = |i: usize, none: u64| words.get(i).copied().unwrap_or(none);
    let (cases, seed, size) = (number(0, 1_000_000), number(1, 1), number(2, 10_000));
    let mut random = Random::new(seed);
    let mut from = 0;
    while from < cases {
        let to = (from + size).min(cases);
        let mut block = Block::new();
        let mut last = vec![];
        for _ in from..to {
            last = pattern(&mut random);
            block.compile_in_rooms(&mut random, &last);
        }
        let name = if size == 1 { line_of(&last) } else { format!("up to {to}") };
        println!("{name}: {} tables with {} rows, {:016x}", block.tables, block.rows, block.sum.0);
        from = to;
    }
}
