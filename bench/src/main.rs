//! Times the library beside the unchanged Rust on the same samples, in one process, and writes the figures.
//!
//!     bench run DOCUMENT [PEERS]   times everything, prints it, and replaces the figures at the end of the document
//!     bench quick [NAME..]         the surfaces at n = 128 alone, or those named
//!     bench grids FOLDER           writes the samples of each surface, for peers that are timed by another program
//!
//! Nothing is allocated in a timed part but what the Rust allocates itself; its Vecs are kept from run to run.
#[path = "../../oracle/harness/src/grids.rs"]
#[allow(dead_code)]
mod grids;
#[path = "../../oracle/harness/src/random.rs"]
#[allow(dead_code)]
mod random;
#[path = "../../oracle/harness/src/extraction.rs"]
#[allow(dead_code)]
mod extraction;
mod clock;
mod surfaces;

pub use exposed as isosurface;
pub type Test = (&'static str, fn(u64) -> Result<String, String>);

use extraction::{Lent, CRATE, JOINED};
use isosurface::marching_cubes::MarchingCubes;
use isosurface::source::Source;
use std::cell::Cell;
use std::fmt::Write;

const SIZES: [usize; 3] = [32, 64, 128];
const BEGIN: &str = "## Measured";

/// The Rust asks for its samples in the order of their places.
struct Stored<'a>(&'a [f32], Cell<usize>);

impl Source for Stored<'_> {
    fn sample(&self, _: f32, _: f32, _: f32) -> f32 {
        let at = self.1.get();
        self.1.set(at + 1);
        self.0[at]
    }
}

/// Nanoseconds of one call: the Rust, then joined, crate, the count call of each, and a plain read of the grid.
struct Times {
    rust: f64,
    joined: f64,
    crate_: f64,
    joined_count: f64,
    crate_count: f64,
    read: f64,
}

fn room(n: usize, vertices: usize, indices: usize) -> Lent {
    Lent { work: vec![0; extraction::work_room(n)], vertices: vec![0.0; vertices], indices: vec![0; indices] }
}

/// Samples at the refused limit would be seen by nobody else: the largest magnitude, read once from start to end.
fn plain_read(samples: &[f32]) -> u32 {
    samples.iter().fold(0, |largest, v| largest.max(v.to_bits() & 0x7FFF_FFFF))
}

/// The answers are compared with what is expected before anything is timed.
fn times(n: usize, samples: &[f32], rounds: usize) -> Times {
    let size = n as u32;
    let mut lent = [CRATE, JOINED].map(|numbering| {
        let mesh = extraction::mesh_of(numbering, n, samples);
        let lent = room(n, mesh.vertices.len(), mesh.indices.len());
        extraction::compare(size, numbering, samples, &lent).expect("the same mesh as the Rust's");
        lent
    });
    let [ref mut with_cache, ref mut with_slots] = lent;
    let (mut no_room, mut no_room_either) = (room(n, 0, 0), room(n, 0, 0));
    let (mut vertices, mut indices) = (Vec::new(), Vec::new());
    let mut rust = MarchingCubes::new(n);
    let mut tasks: Vec<Box<dyn FnMut() + '_>> = vec![
        Box::new(|| {
            vertices.clear();
            indices.clear();
            rust.extract(&Stored(samples, Cell::new(0)), &mut vertices, &mut indices);
        }),
        Box::new(|| { std::hint::black_box(extraction::extract(size, JOINED, samples, with_slots)); }),
        Box::new(|| { std::hint::black_box(extraction::extract(size, CRATE, samples, with_cache)); }),
        Box::new(|| { std::hint::black_box(extraction::extract(size, JOINED, samples, &mut no_room)); }),
        Box::new(|| { std::hint::black_box(extraction::extract(size, CRATE, samples, &mut no_room_either)); }),
        Box::new(|| { std::hint::black_box(plain_read(std::hint::black_box(samples))); }),
    ];
    let best = clock::best(&mut tasks, rounds);
    Times { rust: best[0], joined: best[1], crate_: best[2], joined_count: best[3], crate_count: best[4], read: best[5] }
}

fn cells(n: usize) -> f64 {
    (n * (n - 1) * (n - 1)) as f64
}

/// One surface at one size, in nanoseconds for each cell.
fn row(name: &str, n: usize, t: &Times) -> String {
    let each = |time: f64| time / cells(n);
    format!(
        "| {name} | {:.2} | {:.1} | {:.2} | {:.1} | {:.2} | {:.1} | {:.2} ({:.0} %) | {:.2} ({:.0} %) |",
        each(t.read), each(t.rust), each(t.joined), t.rust / t.joined, each(t.crate_), t.rust / t.crate_, each(t.joined_count),
        100.0 * t.joined_count / t.joined, each(t.crate_count), 100.0 * t.crate_count / t.crate_
    )
}

const HEAD: &str = "| grid | plain read | Rust | joined | ratio | crate | ratio | joined, count alone | crate, count alone |\n|---|---|---|---|---|---|---|---|---|";

fn table(n: usize, names: &[&str], rounds: usize) -> String {
    let mut text = format!("n = {n}, {} cells:\n\n{HEAD}\n", n * (n - 1) * (n - 1));
    println!("n = {n}\n{HEAD}");
    for name in names {
        let line = row(name, n, &times(n, &surfaces::samples(name, n), rounds));
        println!("{line}");
        writeln!(text, "{line}").unwrap();
    }
    text
}

/// From size 16 on the smallest ratio to the Rust's time, below it the largest number of microseconds that a call takes more.
fn small_and_large(rounds: usize) -> String {
    let mut least = [(f64::INFINITY, 0, ""); 2];
    let mut most = [(f64::NEG_INFINITY, 0, ""); 2];
    for name in surfaces::NAMES {
        for n in (2..=20).chain([24, 31, 33, 48, 63, 65, 96]) {
            let t = times(n, &surfaces::samples(name, n), rounds);
            for (i, ours) in [t.joined, t.crate_].into_iter().enumerate() {
                let (ratio, more) = (t.rust / ours, (ours - t.rust) / 1000.0);
                if n >= 16 && ratio < least[i].0 {
                    least[i] = (ratio, n, name);
                }
                if n < 16 && more > most[i].0 {
                    most[i] = (more, n, name);
                }
            }
        }
        println!("sizes 2 to 96: {name} done");
    }
    let mut text = String::from("| sizes | numbering | the worst of the five grids |\n|---|---|---|\n");
    for (i, numbering) in ["joined", "crate"].into_iter().enumerate() {
        let ((ratio, n, name), (more, m, other)) = (least[i], most[i]);
        writeln!(text, "| 16 to 96 | {numbering} | ratio {ratio:.2}, {name} at size {n} |").unwrap();
        writeln!(text, "| 2 to 15 | {numbering} | {more:.2} microseconds more than the Rust, {other} at size {m} |").unwrap();
    }
    println!("{text}");
    text
}

fn said_by(program: &str, arguments: &[&str]) -> String {
    let output = std::process::Command::new(program).args(arguments).output();
    output.map_or("unknown".into(), |o| String::from_utf8_lossy(&o.stdout).trim().to_string())
}

fn run(document: &str, peers: Option<&String>) {
    let processor = said_by("sh", &["-c", "lscpu | sed -n 's/^Model name: *//p' | head -1"]);
    let kit = std::fs::read_to_string("KIT").unwrap_or_default();
    let mut text = format!(
        "{BEGIN}\n\n{}, {processor} ({}), kit {}, {}. CPU time of one thread, the best of several runs, nanoseconds for each cell; `ratio` is the Rust's time over ours.\n\n",
        said_by("date", &["-u", "+%Y-%m-%d"]), said_by("uname", &["-m"]), kit.trim(), said_by("rustc", &["--version"])
    );
    for n in SIZES {
        text += &table(n, &surfaces::NAMES, if n == 128 { 9 } else { 25 });
        text += "\n";
    }
    text += &small_and_large(15);
    if let Some(figures) = peers.and_then(|file| std::fs::read_to_string(file).ok()) {
        text += "\n";
        text += &figures;
    }
    let before = std::fs::read_to_string(document).unwrap_or_else(|_| "# Speed\n\n".into());
    let kept = before.split(BEGIN).next().unwrap_or_default();
    std::fs::write(document, format!("{kept}{text}")).expect("writing the document");
    println!("bench: {document} has the figures");
}

fn write_grids(folder: &str) {
    std::fs::create_dir_all(folder).expect("making the folder");
    for n in SIZES {
        for name in surfaces::NAMES {
            let bytes: Vec<u8> = surfaces::samples(name, n).iter().flat_map(|v| v.to_le_bytes()).collect();
            std::fs::write(format!("{folder}/{name}-{n}"), bytes).expect("writing a grid");
        }
    }
}

fn main() {
    let words: Vec<String> = std::env::args().skip(1).collect();
    match words.first().map(String::as_str) {
        Some("run") if words.len() > 1 => run(&words[1], words.get(2)),
        Some("quick") => {
            let named: Vec<&str> = words[1..].iter().map(String::as_str).collect();
            table(128, if named.is_empty() { &surfaces::NAMES } else { &named }, 7);
        }
        Some("grids") if words.len() > 1 => write_grids(&words[1]),
        _ => {
            eprintln!("usage: bench run DOCUMENT [PEERS] | bench quick [NAME..] | bench grids FOLDER");
            std::process::exit(2);
        }
    }
}
