//! A search for patterns that are slow to compile. There are some kinds: known and random patterns, and shapes that are bad for merging;
//! each is given as much time. The slowest of a kind are kept, and changed; a change takes the place of what it was made from where it
//! is slower. `search SECONDS SEED` prints the slowest, each with its time and answer, and as a line for `bench counted`.
use bench::patterns::{large, sums, usual};
use bench::timing::time;
use compare::large::{part, shaped, Kind, SHAPES};
use compare::readings::line_of;
use compare::room::{Answer, Room};
use compare::Random;
use std::time::{Duration, Instant};

const KEPT: usize = 4;

const PARTS: Kind = ("parts", |random| {
    let mut out = vec![];
    part(random, 3, &mut out);
    out
});

struct Found {
    time: f64,
    pattern: Vec<u8>,
    answer: Answer,
}

struct Search {
    kind: Kind,
    /// Those that are still to be tried.
    known: Vec<Vec<u8>>,
    slowest: Vec<Found>,
    tried: u64,
    spent: Duration,
}

impl Search {
    fn of(kind: Kind, known: Vec<Vec<u8>>) -> Search {
        Search { kind, known, slowest: vec![], tried: 0, spent: Duration::ZERO }
    }

    /// A pattern to try, and which of the slowest it was made from.
    fn next(&mut self, random: &mut Random) -> (Vec<u8>, Option<usize>) {
        match self.known.pop() {
            Some(pattern) => (pattern, None),
            None if self.slowest.is_empty() || random.below(3) == 0 => (shaped(random, self.kind.1), None),
            None => {
                let i = random.below(self.slowest.len() as u64) as usize;
                (changed(random, &self.slowest[i].pattern), Some(i))
            }
        }
    }

    fn step(&mut self, random: &mut Random, room: &mut Room) {
        let from = Instant::now();
        let (pattern, made_from) = self.next(random);
        let least = made_from.unwrap_or(KEPT - 1);
        let over = self.slowest.get(least).map_or(0.0, |found| found.time);
        let found = compiled(room, pattern, over);
        if found.time > over && self.slowest.iter().all(|other| other.pattern != found.pattern) {
            match made_from {
                Some(i) => self.slowest[i] = found,
                None => self.slowest.push(found),
            }
            self.slowest.sort_by(|a, b| b.time.total_cmp(&a.time));
            self.slowest.truncate(KEPT);
        }
        self.tried += 1;
        self.spent += from.elapsed();
    }
}

/// The least of a few times in milliseconds, as long as it is over what is asked.
fn compiled(room: &mut Room, pattern: Vec<u8>, over: f64) -> Found {
    let mut found = Found { time: f64::MAX, pattern, answer: Err((0, 0)) };
    for _ in 0..6 {
        if found.time > over {
            let ms = time(&mut || found.answer = room.proved(&found.pattern)) / 1e3;
            found.time = found.time.min(ms);
        }
    }
    found
}

/// A stretch of the pattern gives way to a new part, to a number, or to another stretch of the pattern.
fn changed(random: &mut Random, pattern: &[u8]) -> Vec<u8> {
    let mut stretch = |most: u64| {
        let from = random.below(pattern.len() as u64 + 1);
        let length = random.below(pattern.len() as u64 - from + 1).min(random.below(most));
        from as usize..(from + length) as usize
    };
    let (old, other) = (stretch(12), stretch(60));
    let mut new = vec![];
    match random.below(4) {
        0 => new.extend(random.below(256).to_string().bytes()),
        1 => new.extend(&pattern[other]),
        _ => part(random, 1, &mut new),
    }
    [&pattern[..old.start], &new, &pattern[old.end..]].concat()
}

fn main() {
    let words: Vec<u64> = std::env::args().skip(1).map(|w| w.parse().expect("a number")).collect();
    let seconds = Duration::from_secs(words.first().copied().unwrap_or(60));
    let mut random = Random::new(words.get(1).copied().unwrap_or(1));
    let mut room = Room::for_rows(1024);
    let known = [usual(), sums(), large()].into_iter().flatten().map(|pattern| pattern.bytes).collect();
    let mut kinds = vec![Search::of(PARTS, known)];
    kinds.extend(SHAPES.map(|kind| Search::of(kind, vec![])));
    let from = Instant::now();
    while from.elapsed() < seconds {
        let next = kinds.iter_mut().min_by_key(|search| search.spent).expect("a kind");
        next.step(&mut random, &mut room);
    }
    for Search { kind, slowest, tried, .. } in &kinds {
        println!("{}: {tried} tried; the slowest:", kind.0);
        for Found { time, pattern, answer } in slowest {
            let answer = answer.map_or_else(|(number, _)| format!("refused {number}"), |(rows, _)| format!("{rows} rows"));
            println!("{time:8.2} ms  {answer:12}  {}", line_of(pattern));
        }
    }
}
