//! Runs the library beside the unchanged Rust and stops at the first difference.
//!
//!     harness compare [COUNT] [NAME..]    every test, or those whose names begin with a NAME, over COUNT random cases each
//!     harness grids COUNT [SEED]          whole extractions: COUNT small grids and one in 5,000 as many large ones, with progress
//!     harness check RECORD..              the grids of sample records
//!     harness replay FILE [COUNT]         requests and the Rust's answers, for the C driver of the archive
//!     harness listings FOLDER             records for the listing program, and the text that it owes for each
mod cell;
mod extraction;
mod grids;
mod listing;
mod mesh;
mod morton;
mod positions;
mod random;
mod record;
mod replay;
mod scale;
mod seam;

pub use exposed as isosurface;

/// A behaviour that is compared, and a function from the number of random cases to a summary or to the first difference.
pub type Test = (&'static str, fn(u64) -> Result<String, String>);

const SUBJECTS: &[&[Test]] = &[cell::TESTS, positions::TESTS, morton::TESTS, record::TESTS, extraction::TESTS, seam::TESTS, mesh::TESTS];

fn compare(count: u64, names: &[String]) -> i32 {
    let chosen = |name: &str| names.is_empty() || names.iter().any(|n| name.starts_with(n.as_str()));
    let mut ran = 0;
    for (name, test) in SUBJECTS.iter().flat_map(|tests| tests.iter()).filter(|(name, _)| chosen(name)) {
        let start = std::time::Instant::now();
        match test(count) {
            Ok(summary) => println!("{name}: {summary}, no difference ({:.1} s)", start.elapsed().as_secs_f64()),
            Err(difference) => {
                println!("{name}: DIFFERS: {difference}");
                return 1;
            }
        }
        ran += 1;
    }
    println!("oracle: {ran} behaviours compared");
    (ran == 0) as i32
}

fn main() {
    let words: Vec<String> = std::env::args().skip(1).collect();
    let number = |at: usize, default: u64| words.get(at).map_or(default, |w| w.parse().expect("COUNT is a whole number"));
    std::process::exit(match words.first().map(String::as_str) {
        Some("compare") => compare(number(1, 1_000_000), words.get(2..).unwrap_or(&[])),
        Some("replay") if words.len() > 1 => {
            replay::write(&words[1], number(2, 100_000)).expect("writing the replay file");
            0
        }
        Some("grids") => scale::grids(number(1, 1_000_000), number(2, 1), "build/oracle/differs"),
        Some("check") => scale::check(&words[1..]),
        Some("listings") if words.len() > 1 => {
            listing::write(&words[1]).expect("writing the records and texts");
            0
        }
        _ => {
            eprintln!("usage: harness compare [COUNT] [NAME..] | grids COUNT [SEED] | check RECORD.. | replay FILE [COUNT] | listings FOLDER");
            2
        }
    });
}
