//! Compiling in exact room: the proved library beside the model, which does the same in plain Rust, and beside `paper`; and the
//! instructions that it takes.
use bench::counting::instructions;
use bench::patterns::{sums, usual, worst, Pattern};
use bench::timing::{least, mean, set_rows};
use compare::readings::{line_of, pattern_of};
use compare::room::{Answer, Room};
use std::hint::black_box;

fn shown(answer: Answer) -> String {
    answer.map_or_else(|(number, _)| format!("No. {number}"), |(rows, _)| rows.to_string())
}

/// Compares and prints; the ratio to the model. `paper` is too slow for patterns that are made to be slow.
fn race(pattern: &Pattern, with_paper: bool) -> f64 {
    let Pattern { name, bytes } = pattern;
    let rows = set_rows(bytes);
    let (mut a, mut b) = (Room::for_rows(rows), Room::for_rows(rows));
    let answer = a.proved(bytes);
    assert!(answer == b.model(bytes) && a == b, "{name}");
    let [proved, model] =
        least([&mut || _ = black_box(a.proved(black_box(bytes))), &mut || _ = black_box(b.model(black_box(bytes)))]);
    let answer = shown(answer);
    print!("{name:31} {:5} {rows:5} {answer:>6} {proved:10.1} {model:10.1} {:7.3}", bytes.len(), proved / model);
    if with_paper {
        let [paper] = least([&mut || _ = black_box(paper::compile(black_box(bytes), rows))]);
        print!(" {paper:12.0} {:9.5}", proved / paper);
    }
    println!();
    proved / model
}

pub fn run() {
    println!("compiling in exact room, microseconds");
    println!(
        "{:31} {:>5} {:>5} {:>6} {:>10} {:>10} {:>7} {:>12} {:>9}",
        "", "bytes", "S", "R", "proved", "model", "ratio", "paper", "ratio"
    );
    for (patterns, with_paper) in [(usual(), true), (sums(), true), (worst(), false)] {
        let ratios: Vec<f64> = patterns.iter().map(|pattern| race(pattern, with_paper)).collect();
        println!("geometric mean of the ratios to the model: {:.3}", mean(&ratios));
    }
}

/// A table for a note: the patterns here, then those of a file, one a line as `line_of` has it; each with its time and instructions in
/// exact room.
pub fn counted(file: Option<&str>) {
    let text = file.map_or(String::new(), |file| std::fs::read_to_string(file).expect("a file of patterns"));
    let given = text.lines().zip(1..).map(|(line, i)| Pattern { name: format!("line {i}"), bytes: pattern_of(line) });
    println!("| pattern | bytes | S | R | microseconds | instructions |");
    println!("|---|---|---|---|---|---|");
    for Pattern { name, bytes } in [usual(), sums(), worst()].into_iter().flatten().chain(given) {
        let rows = set_rows(&bytes);
        let mut room = Room::for_rows(rows);
        let answer = shown(room.proved(&bytes));
        let [time] = least([&mut || _ = black_box(room.proved(black_box(&bytes)))]);
        let count = instructions("jorvimest_compile", &["once", &rows.to_string(), &line_of(&bytes)]);
        println!("| {} | {} | {rows} | {answer} | {time:.1} | {count} |", name.replace('|', "\\|"), bytes.len());
    }
}

/// Compiles the pattern of a line in room for so many rows, for a count of instructions.
pub fn once(rows: &str, line: &str) {
    let answer = Room::for_rows(rows.parse().expect("a number of rows")).proved(&pattern_of(line));
    println!("{}", shown(answer));
}
