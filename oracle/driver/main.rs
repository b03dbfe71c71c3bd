// Runs lists of calls beside the Rust crate: on the steps of documents 01 and 02, on the crate and on the port.
#![allow(unknown_lints, unexpected_cfgs)]

#[cfg(not(without_port))]
mod bench;
#[cfg(not(without_port))]
mod bench_cases;
mod calls;
#[cfg(not(without_port))]
mod chart;
#[cfg(not(without_port))]
mod clock;
mod compare;
mod coverage;
mod crate_map;
#[cfg(not(without_port))]
mod damage;
#[cfg(not(without_port))]
#[path = "../../bindings/rust/src/declarations.rs"]
mod declarations;
mod endings;
mod faults;
mod image;
#[cfg(not(without_port))]
mod images;
#[cfg(not(without_port))]
mod library;
mod line_loads;
mod lines;
#[cfg_attr(without_port, path = "unlinked.rs")]
mod linked;
mod lists;
mod mixes;
mod model;
mod port;
mod sample;
mod selftest;
mod shrink;
mod stops;

use compare::{Difference, Listed, Session};
use lists::Random;
use model::{OPS, REFUSALS};
use std::process::exit;
use std::time::Instant;

const USAGE: &str = "usage: driver quick [SEED] | full [SEED] | selftest [CRASH] | faults | mixes | sample [write]
       | damage [SEED] | images [SEED] | calls [SEED] | lines [passes] | bench";

fn main() {
    let words: Vec<String> = std::env::args().skip(1).collect();
    let mode = words.first().map_or("", |word| word.as_str());
    let second = words.get(1).map_or("", |word| word.as_str());
    let seed = if words.len() < 2 { Some(1) } else { second.parse().ok() };
    stops::report_crashes();
    if linked::ports().is_empty() && std::env::var_os("ORACLE_WITHOUT_PORT").is_none() {
        eprintln!("the driver is built without the port; ORACLE_WITHOUT_PORT=1 asks for that");
        exit(1)
    }
    let passed = match (mode, seed) {
        ("quick", Some(seed)) => compare_all(false, seed),
        ("full", Some(seed)) => compare_all(true, seed),
        ("selftest", _) if words.len() == 2 => endings::crash(second),
        ("selftest", _) => selftest::run(),
        ("faults", _) => faults::run(),
        ("mixes", _) => mixes::run(),
        ("sample", _) => sample::run(second == "write"),
        ("lines", _) => lines::run(second == "passes"),
        ("calls", Some(seed)) => calls::run(seed),
        (mode, Some(seed)) => linked::run(mode, seed).unwrap_or_else(usage),
        _ => usage(),
    };
    exit(if passed { 0 } else { 1 })
}

fn usage() -> bool {
    eprintln!("{}", USAGE);
    exit(2)
}

// Runs all lists and images. Was there no difference, and was everything met that has to be?
fn compare_all(full: bool, seed: u64) -> bool {
    // a stop of the crate is a difference, and reported as one
    stops::note_panics();
    println!("seed {}", seed);
    let mut session = Session::new(linked::ports());
    if let Err(first) = run_lists(&mut session, full, seed) {
        let compare = |limits, list: &[_]| Session::new(linked::ports()).list(limits, list).err();
        let smallest = shrink::shrink(first, 60, compare);
        print_difference(&smallest);
        return false;
    }
    let images = stops::outcome_of(|| linked::compare_images(seed)).and_then(|found| found);
    match images {
        Ok(refused) => (1..=REFUSALS).for_each(|number| session.tally.refused_by[number] += refused[number]),
        Err(what) => {
            println!("differences: 1, of images: {}", what);
            return false;
        }
    }
    print_tally(&session);
    met_all(&session)
}

// Says what the comparison came to. Did it meet all that it has to?
fn met_all(session: &Session) -> bool {
    let with_port = !linked::ports().is_empty();
    let gaps = coverage::gaps(&session.tally, with_port);
    gaps.iter().for_each(|gap| println!("not met: {}", gap));
    let left_out = if with_port { "" } else { ", with the port left out, as ORACLE_WITHOUT_PORT asks" };
    println!("differences: 0{}{}", left_out, if gaps.is_empty() { "" } else { "; but this says too little" });
    gaps.is_empty()
}

fn run_lists(session: &mut Session, full: bool, seed: u64) -> Result<(), Difference> {
    let mut random = Random(seed);
    let (depth, rounds, pools, small, again) = if full { (5, 7, 3, 8_000_000, 8) } else { (4, 5, 1, 600_000, 1) };
    timed(session, "every short list", |session| lists::every_short_list(session, depth))?;
    timed(session, "every arrangement and marks", |session| lists::every_arrangement(session, rounds))?;
    timed(session, "every edge", |session| lists::every_edge(session, &mut random, pools))?;
    timed(session, "small random lists", |session| lists::small_random_lists(session, &mut random, small))?;
    timed(session, "random lists at the limits", |session| {
        lists::random_lists_at_the_limits(session, &mut random, again)
    })?;
    selftest::odd_tapes().iter().try_for_each(|tape| session.tape(tape))
}

fn timed(
    session: &mut Session,
    name: &str,
    run: impl FnOnce(&mut Session) -> Result<(), Difference>,
) -> Result<(), Difference> {
    let start = Instant::now();
    let before = session.tally.calls();
    let outcome = run(session);
    let calls = session.tally.calls() - before;
    println!("{:30} {:>10} calls {:>7.1} s", name, calls, start.elapsed().as_secs_f64());
    outcome
}

fn print_tally(session: &Session) {
    let tally = &session.tally;
    println!("{:24} {:>10} {:>10} {:>10}", "call", "made", "refused", "on crate");
    for (op, name) in OPS {
        let at = op as usize;
        println!("{:24} {:>10} {:>10} {:>10}", name, tally.made[at], tally.refused[at], tally.on_crate[at]);
    }
    let refused: u64 = tally.refused.iter().sum();
    let on_crate: u64 = tally.on_crate.iter().sum();
    println!("{:24} {:>10} {:>10} {:>10}", "all", tally.calls(), refused, on_crate);
    let by: Vec<String> = (1..=REFUSALS).map(|number| format!("{}: {}", number, tally.refused_by[number])).collect();
    println!("refusals by number: {}", by.join(", "));
    let own: Vec<String> = [1, 2, 6].map(|number| format!("{}: {}", number, tally.refused_by_own[number])).into();
    println!("of these, only for the map's own limits: {}", own.join(", "));
    let next: Vec<String> =
        coverage::BEHIND.map(|number| format!("{}: {}", number, tally.behind_no_poster[number])).into();
    println!("of those by 16, these would have been next: {}", next.join(", "));
    let accepted = tally.accepted.map(|count| count.to_string());
    println!("rounds accepted, by poster from 0 to 15: {}", accepted.join(" "));
    println!("most rounds held: {}, most members held: {}", tally.most_rounds, tally.most_members);
    println!("retains given to the crate in several passes: {}", tally.split_retains);
    println!("tapes run by the port: {}, with {} calls", tally.tapes, tally.on_port);
    println!("made one by one, by number and by value, with the map looked at: {} calls each", tally.one_by_one);
}

fn print_difference(difference: &Difference) {
    println!("differences: 1, with the smallest list that shows one:");
    print!("{}", Listed(difference.limits, &difference.list));
    println!("{}", difference.what);
}
