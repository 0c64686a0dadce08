//! Instructions of one call for each surface, by callgrind: repeatable where the machine is busy and times are not. Each call is made by
//! this program started anew under valgrind, which counts inside the library alone. A program of its own, since what is compiled into
//! the bench changes how fast the Rust beside it comes out: by 14 % on the gyroid when this stood there.
//!
//!     instructions                   the table
//!     instructions NAME NUMBERING    the call that is counted
#[path = "../../../oracle/harness/src/grids.rs"]
#[allow(dead_code)]
mod grids;
#[path = "../../../oracle/harness/src/random.rs"]
#[allow(dead_code)]
mod random;
#[path = "../../../oracle/harness/src/extraction.rs"]
#[allow(dead_code)]
mod extraction;
#[path = "../surfaces.rs"]
mod surfaces;

pub use exposed as isosurface;
pub type Test = (&'static str, fn(u64) -> Result<String, String>);

use extraction::{Lent, CRATE, JOINED};
use std::fmt::Write;
use std::process::Command;

const SIZE: usize = 64;

/// The call that is counted. There is room for fifteen indices in each cell, and for as many vertices.
fn once(name: &str, numbering: u32) {
    let most = 15 * SIZE * SIZE * SIZE;
    let mut lent = Lent { work: vec![0; extraction::work_room(SIZE)], vertices: vec![0.0; 3 * most], indices: vec![0; most] };
    std::hint::black_box(extraction::extract(SIZE as u32, numbering, &surfaces::samples(name, SIZE), &mut lent));
}

fn counted(name: &str, numbering: u32) -> Option<f64> {
    let output = Command::new("valgrind")
        .args(["--tool=callgrind", "--callgrind-out-file=/dev/null", "--toggle-collect=bridgeyarn_extract"])
        .arg(std::env::current_exe().ok()?)
        .args([name, &numbering.to_string()])
        .output()
        .ok()?;
    let said = String::from_utf8_lossy(&output.stderr).into_owned();
    let line = said.lines().find(|line| line.contains("Collected"))?;
    line.split_whitespace().last()?.parse::<f64>().ok().filter(|count| *count > 0.0)
}

/// The table, or one sentence where valgrind is not installed or does not know this processor.
fn table() -> String {
    let mut text = format!("| instructions for each cell, n = {SIZE}, callgrind | {} |\n|---|---|---|---|---|---|\n", surfaces::NAMES.join(" | "));
    for (title, numbering) in [("joined", JOINED), ("crate", CRATE)] {
        write!(text, "| {title} |").unwrap();
        for name in surfaces::NAMES {
            let Some(count) = counted(name, numbering) else {
                return "Instruction counts are left out: valgrind is not installed here, or counted nothing.\n".into();
            };
            write!(text, " {:.2} |", count / ((SIZE * (SIZE - 1) * (SIZE - 1)) as f64)).unwrap();
        }
        text.push('\n');
    }
    text
}

fn main() {
    let words: Vec<String> = std::env::args().skip(1).collect();
    match words.as_slice() {
        [name, numbering] => once(name, numbering.parse().expect("a numbering")),
        _ => print!("{}", table()),
    }
}
