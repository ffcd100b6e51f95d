//! Compares the Rattle crates with lumo's Rust, function by function, and at 471 entries and not in air with a second
//! reading.
//!
//! With no words, a million inputs for each function and ten million roots. A number: so many. --gate: fewer, for a gate.
//! --seed N: other inputs. --library: the static library alone, ten million bounces and calls on lists, or as many as a number says.
//! --sample FOLDER: writes answers of the Rust and of the second reading for the crates there. --bench: times. --rays [JOB]: the program `rays` in Rust.
//! --bench-rays: times and memory of both programs.
mod bench;
mod bench_rays;
mod book;
mod candidates;
#[macro_use]
mod harness;
mod inputs;
mod job;
mod judge;
mod lengths;
mod library;
mod numbers;
mod optics;
mod outer;
mod path;
mod reading;
mod root;
#[path = "../../examples/rust/rulvimba.rs"]
mod rulvimba;
mod spectra;
mod surfaces;
mod wall;

use harness::Function;
use judge::Tables;
use spectra::{FINE_SAMPLES, SAMPLES};

/// A family of functions is a file of this driver.
fn families() -> Vec<Function> {
    let mut all = numbers::table();
    all.extend(optics::table());
    all
}

/// `count` inputs for each function; of bounces five times as many in air on 95 entries and as many on 471, and with outer
/// spectra five times as many on 95 and `fine_outer` on 471.
fn compare(seed: u64, count: usize, fine_outer: usize) -> usize {
    let mut differences = numbers::reading_beside_rust().compare(seed, count);
    for f in families() {
        differences += f.compare(seed, count);
    }
    differences += lengths::compare();
    differences += library::compare_starts(seed, count);
    differences += candidates::compare(seed, count, count).1;
    differences += book::compare(seed, count).1;
    for (tables, through_library, thin) in [
        (Tables::in_air(SAMPLES), count * 5, count * 5),
        (Tables::in_air(FINE_SAMPLES), count, count),
        (Tables::any_outer(SAMPLES), count * 5, count),
        (Tables::any_outer(FINE_SAMPLES), fine_outer, count),
    ] {
        differences += library::compare_bounces(seed, tables, through_library).1;
        differences += library::compare_thin(seed, tables, thin);
    }
    differences + root::compare(seed, (count * 10).max(1_000_000))
}

/// Writes the samples that programs replay, each to the data of its program, whose folder is in this one.
fn sample(seed: u64, folder: &str) {
    let files = [
        ("replay/data/numbers.hex", numbers::sample(seed)),
        ("replay/data/optics.hex", optics::sample(seed)),
        ("replay/data/path.hex", path::sample(seed)),
        ("replay/data/outer.hex", outer::sample(seed)),
        ("replay_candidates/data/candidates.hex", candidates::sample(seed)),
    ];
    for (name, records) in files {
        let file = format!("{folder}/{name}");
        std::fs::write(&file, &records).unwrap();
        println!("compare: {} records in {file}", records.lines().count());
    }
    let (files, calls) = book::sample();
    for (name, bytes) in &files {
        std::fs::write(format!("{folder}/replay_books/data/{name}"), bytes).unwrap();
    }
    println!("compare: {calls} calls on {} books in {folder}/replay_books/data", files.len() - 1);
}

pub fn main() {
    harness::set_hook();
    let mut seed = 1;
    let mut count = None;
    let (mut gate, mut of_library) = (false, false);
    let mut words = std::env::args().skip(1);
    while let Some(word) = words.next() {
        match word.as_str() {
            "--gate" => gate = true,
            "--library" => of_library = true,
            "--seed" => seed = words.next().and_then(|w| w.parse().ok()).expect("--seed N"),
            "--sample" => return sample(seed, &words.next().expect("--sample FOLDER")),
            "--rays" => return job::program(words.next(), job::PLAIN),
            "--bench-rays" => std::process::exit(!bench_rays::bench(seed) as i32),
            "--bench" => return bench::bench(seed, &families()),
            n => count = Some(n.parse().expect("a number of inputs")),
        }
    }
    let differences = if of_library {
        library::compare(seed, count.unwrap_or(10_000_000))
    } else if gate {
        compare(seed, 50_000, 50_000) + job::compare_example()
    } else {
        let count = count.unwrap_or(1_000_000);
        compare(seed, count, count * 5)
    };
    if differences > 0 {
        println!("compare: {differences} differences");
        std::process::exit(1);
    }
    println!("compare: every answer is its judge's, the Rust's or the second reading's (seed {seed})");
}
