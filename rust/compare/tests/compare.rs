//! The comparison that the gate runs: fewer cases than `compare` by hand, the same kinds.
use compare::patterns::pattern;
use compare::readings::{check, pattern_of, tally};

const CASES: u32 = 10_000;

/// As many cases as the environment's COMPARE_CASES says; where it is silent, enough to ask that they reach everything.
fn cases() -> u32 {
    std::env::var("COMPARE_CASES").map_or(CASES, |n| n.parse().expect("a number"))
}

#[test]
fn tables() {
    let (refused, found) = compare::tables::compare(cases(), 1);
    if cases() >= CASES {
        assert!(refused > 1_000 && found > 1_000, "the cases reach both: {refused} refused, {found} found");
    }
}

/// In two halves at once, since this takes longest.
#[test]
fn compiling() {
    let [one, two] = std::thread::scope(|scope| {
        let halves = [1, 2].map(|seed| scope.spawn(move || compare::compiling::compare(cases() / 2, seed)));
        halves.map(|half| half.join().expect("no difference"))
    });
    let tally: Vec<_> = one.iter().zip(&two).map(|(m, n)| m + n).collect();
    if cases() >= CASES {
        assert!(!tally.contains(&0), "the cases reach tables and every refusal: {tally:?}");
    }
}

#[test]
fn patterns() {
    let mut random = compare::Random::new(1);
    let tally = tally((0..20_000).map(|_| pattern(&mut random)));
    assert!(tally[0] > 8_000 && tally.iter().all(|&n| n > 40), "the cases reach each answer: {tally:?}");
}

#[test]
fn stored_readings() {
    let cases = include_str!("../../../crates/readings/stdin");
    let patterns: Vec<_> = cases.lines().map(pattern_of).collect();
    check(&patterns, include_str!("../../../crates/readings/stdout"));
    assert!(tally(patterns.into_iter()).iter().all(|&n| n > 0), "the stored cases reach each answer");
}
