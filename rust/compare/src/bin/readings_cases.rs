//! `readings_cases CASES SEED` prints so many patterns, a line each, for the program `readings`; with `check` after it, it holds that
//! program's answers to those of `paper`. In one line, here for 100,000 cases and seed 1:
//! `readings_cases 100000 1 | crates/readings/out/readings | readings_cases 100000 1 check`.
use compare::readings::{check, line_of, tally};
use compare::{patterns::pattern, Random};
use std::io::{read_to_string, stdin, Write};

fn main() {
    let words: Vec<String> = std::env::args().skip(1).collect();
    let number = |i: usize, none: u64| words.get(i).map_or(none, |w| w.parse().expect("a number"));
    let (cases, seed) = (number(0, 100_000), number(1, 1));
    let mut random = Random::new(seed);
    let patterns: Vec<_> = (0..cases).map(|_| pattern(&mut random)).collect();
    if words.get(2).is_some_and(|w| w == "check") {
        check(&patterns, &read_to_string(stdin()).expect("answers"));
        let tally = tally(patterns.into_iter());
        println!("{cases} patterns, seed {seed}: no difference; {} taken, refused by number {:?}", tally[0], &tally[1..]);
        return;
    }
    let lines: Vec<_> = patterns.iter().map(|p| line_of(p) + "\n").collect();
    std::io::stdout().write_all(lines.concat().as_bytes()).expect("written");
}
