//! Measures the library against the same calls in plain C and plain Rust, and prints a table.
//! `bench/run` builds and runs it: PROGRAM PROVED FOLDER, the proved programs' folder and one for its
//! files, in which the plain programs are.

mod agree;
mod calls;
mod cases;
mod clock;
mod lookups;
mod pairs;
mod plain;
mod questions;
mod random;
mod replays;
#[path = "../include/wazimroot.rs"]
mod wazimroot;

use cases::Case;
use clock::processor_time;
use pairs::Pair;
use questions::{Asked, Questions};
use random::Random;
use std::io::{self, Write};
use std::path::{Path, PathBuf};
use std::process::Stdio;
use std::time::{Duration, Instant};
use wazimroot::Table;

/// A round is long against the clock's grain and short against what else the machine does.
const ROUND: Duration = Duration::from_micros(100);
/// What a row of the table may take, and the rounds that it has in any case.
const ROW: Duration = Duration::from_millis(700);
const ROUNDS: usize = 15;

fn main() -> io::Result<()> {
    let words: Vec<PathBuf> = std::env::args_os().skip(1).map(PathBuf::from).collect();
    let [proved, folder]: [PathBuf; 2] = words.try_into().expect("two paths");
    let random = &mut Random::new();
    let tables = calls::all();
    agree::agree(&tables, random);
    println!("| call | library | gcc -O3 | rustc -O | ratio |");
    println!("|---|---:|---:|---:|---:|");
    for case in &mut cases::all(random) {
        let [library, c, rust] = measure(&tables, case);
        print_row(&case.name, library, c, Some(rust));
    }
    compare_programs("lookup", "1,000,000 records", &proved, &folder, |file| {
        lookups::write(random, file)
    })?;
    compare_programs(
        "replay",
        "200,000 records of kind 3",
        &proved,
        &folder,
        |file| replays::write(&tables[2], random, file),
    )?;
    compare_questions(random);
    Ok(())
}

fn compare_questions(random: &mut Random) {
    let tables = questions::tables();
    questions::agree(&tables, random);
    println!();
    println!("| 1,000,000 questions | library | C, rule | C, tables | ratio |");
    println!("|---|---:|---:|---:|---:|");
    for kind in [5, 3] {
        for asked in [Asked::Place, Asked::Find] {
            let asked = Questions::new(asked, kind, random);
            let [library, rule, table] = medians(|which| {
                let began = processor_time();
                asked.ask(&tables[which]);
                processor_time() - began
            })
            .map(micros);
            print_cells(
                &asked.name,
                &[library, rule, table].map(digits),
                library / rule,
            );
        }
    }
}

/// The proved program of a name and the plain one, on records that `write` writes.
fn compare_programs(
    name: &str,
    records: &str,
    proved: &Path,
    folder: &Path,
    write: impl FnOnce(&mut dyn Write) -> io::Result<()>,
) -> io::Result<()> {
    let programs = [proved.join(name), folder.join(format!("plain_{name}"))];
    let pair = Pair::new(programs, folder, write)?;
    if !pair.agree(folder)? {
        eprintln!("{name}: the two programs print different lines");
        std::process::exit(1);
    }
    let [proved, plain] = medians(|which| {
        let began = Instant::now();
        pair.run(which, Stdio::null()).expect("a program runs");
        began.elapsed()
    });
    print_row(
        &format!("{name} program, {records}"),
        micros(proved),
        micros(plain),
        None,
    );
    Ok(())
}

/// Microseconds a call of each implementation.
fn measure(tables: &[Table; 3], case: &mut Case) -> [f64; 3] {
    let mut timed = |which: usize, count: usize| {
        let began = processor_time();
        (case.repeat)(&tables[which], count);
        processor_time() - began
    };
    let mut count = 1;
    while timed(0, count) < ROUND {
        count *= 2;
    }
    medians(|which| timed(which, count)).map(|round| micros(round) / count as f64)
}

/// The median of each one's rounds. They take turns, and each is first as often as the others.
fn medians<const N: usize>(mut round: impl FnMut(usize) -> Duration) -> [Duration; N] {
    let began = Instant::now();
    let mut times = [(); N].map(|_| Vec::new());
    while times[0].len() < ROUNDS || began.elapsed() < ROW {
        let first = times[0].len() % N;
        for which in (first..N).chain(0..first) {
            times[which].push(round(which));
        }
    }
    times.map(|mut rounds| {
        rounds.sort();
        rounds[rounds.len() / 2]
    })
}

fn micros(time: Duration) -> f64 {
    time.as_secs_f64() * 1e6
}

/// The ratio is to the faster of the plain ones.
fn print_row(name: &str, library: f64, c: f64, rust: Option<f64>) {
    let faster = rust.map_or(c, |rust| rust.min(c));
    let cells = [
        digits(library),
        digits(c),
        rust.map_or(String::new(), digits),
    ];
    print_cells(name, &cells, library / faster);
}

fn print_cells(name: &str, cells: &[String; 3], ratio: f64) {
    println!("| {name} | {} | {ratio:.2} |", cells.join(" | "));
}

/// With three digits, or all those before the point.
fn digits(number: f64) -> String {
    let decimals = [1.0, 10.0, 100.0]
        .iter()
        .filter(|limit| number < **limit)
        .count();
    format!("{number:.decimals$}")
}
