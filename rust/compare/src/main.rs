//! `compare CASES SEED`: the full comparison; 1,000,000 cases and seed 1 where nothing is said.
fn main() {
    let mut words = std::env::args().skip(1).map(|w| w.parse().expect("a number"));
    let cases = words.next().unwrap_or(1_000_000) as u32;
    let seed = words.next().unwrap_or(1);
    let (refused, found) = compare::tables::compare(cases, seed);
    println!("{cases} tables and texts, seed {seed}: no difference; longest refused {refused} times, found {found} times");
    let tally = compare::compiling::compare(cases, seed);
    println!("{cases} patterns, seed {seed}: no difference; tables, and refusals 1 to 11: {tally:?}");
}
