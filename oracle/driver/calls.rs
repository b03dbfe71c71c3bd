// The calls program beside the same lines over the crate: their answers byte for byte, and the time of both.

use crate::line_loads::{Load, LOADS};
use std::fs::{self, File};
use std::io::{self, Read};
use std::path::{Path, PathBuf};
use std::process::{Command, Stdio};

const CALLS: &str = "target/bin/calls";
const FOLDER: &str = "target/oracle/lines";
const RUNS: usize = 5;

// Prints a table. Are all answers alike?
pub fn run(seed: u64) -> bool {
    println!(
        "Processor time, least of {} runs, of the calls program and of a Rust program over the crate; seed {}.\n",
        RUNS, seed
    );
    println!("| Lines | In | Out | calls | Rust over the crate | calls / Rust | Answers |");
    println!("|---|---|---|---|---|---|---|");
    let compared: io::Result<Vec<bool>> = LOADS.iter().map(|load| compare(load, seed)).collect();
    match compared {
        Ok(alike) => alike.into_iter().all(|alike| alike),
        Err(error) => {
            eprintln!("{}: {} (tools/program.sh calls builds {})", FOLDER, error, CALLS);
            false
        }
    }
}

// Makes the lines, compares the answers, and prints a row of the table.
fn compare(load: &Load, seed: u64) -> io::Result<bool> {
    fs::create_dir_all(FOLDER)?;
    let [input, ours, theirs] = ["in", "calls", "crate"].map(|end| file(load, end));
    fs::write(&input, load.make(seed))?;
    let passes: &[&str] = if load.strikes { &["lines", "passes"] } else { &["lines"] };
    let driver = std::env::current_exe()?;
    let programs: [(&Path, &[&str]); 2] = [(Path::new(CALLS), &[]), (&driver, passes)];
    for ((program, words), out) in programs.into_iter().zip([&ours, &theirs]) {
        answer(program, words, &input, File::create(out)?.into())?;
    }
    let alike = same(&ours, &theirs)?;
    let mut least = [f64::MAX; 2];
    for _ in 0..RUNS {
        for ((program, words), least) in programs.into_iter().zip(&mut least) {
            *least = least.min(answer(program, words, &input, Stdio::null())?);
        }
    }
    print_row(load, [&input, &ours], least, alike)?;
    Ok(alike)
}

fn print_row(load: &Load, files: [&PathBuf; 2], [ours, theirs]: [f64; 2], alike: bool) -> io::Result<()> {
    let mega = |path| fs::metadata(path).map(|found| found.len() as f64 / 1e6);
    let (lines, ratio) = (grouped(load.lines), ours / theirs);
    let answers = if alike { "the same bytes" } else { "DIFFERENT" };
    print!("| {} lines: {} | {:.1} MB | {:.1} MB ", lines, load.what, mega(files[0])?, mega(files[1])?);
    println!("| {:.2} s | {:.2} s | {:.1} | {} |", ours, theirs, ratio, answers);
    Ok(())
}

// A number with a comma between thousands.
pub fn grouped(number: usize) -> String {
    let digits = number.to_string();
    let parts: Vec<&str> = digits.as_bytes().rchunks(3).rev().map(|part| std::str::from_utf8(part).unwrap()).collect();
    parts.join(",")
}

fn file(load: &Load, end: &str) -> PathBuf {
    Path::new(FOLDER).join(format!("{}.{}", load.name, end))
}

// Runs a program on the lines; the seconds of processor time that it takes.
fn answer(program: &Path, words: &[&str], input: &Path, out: Stdio) -> io::Result<f64> {
    let before = time_of_children();
    let status = Command::new(program).args(words).stdin(File::open(input)?).stdout(out).status()?;
    if status.success() {
        return Ok(time_of_children() - before);
    }
    Err(io::Error::new(io::ErrorKind::Other, format!("{} ends with {}", program.display(), status)))
}

extern "C" {
    fn getrusage(who: i32, usage: *mut [i64; 18]) -> i32;
}

// The seconds that the programs run so far took, in user code and in the kernel. The C library's record begins with both,
// each as seconds and millionths.
fn time_of_children() -> f64 {
    let mut usage = [0; 18];
    let failed = unsafe { getrusage(-1, &mut usage) };
    assert_eq!(failed, 0, "getrusage fails");
    (usage[0] + usage[2]) as f64 + (usage[1] + usage[3]) as f64 / 1e6
}

// Have the files the same bytes?
fn same(left: &Path, right: &Path) -> io::Result<bool> {
    let (mut left, mut right) = (File::open(left)?, File::open(right)?);
    if left.metadata()?.len() != right.metadata()?.len() {
        return Ok(false);
    }
    let (mut one, mut other) = (vec![0; 1 << 20], vec![0; 1 << 20]);
    loop {
        let count = left.read(&mut one)?;
        right.read_exact(&mut other[..count])?;
        if count == 0 || one[..count] != other[..count] {
            return Ok(count == 0);
        }
    }
}
