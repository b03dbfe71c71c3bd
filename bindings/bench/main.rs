// Times the package and the crate call by call, in turn in one run; prints least times and their ratio, as a table in
// Markdown.

mod cases;
mod maps;

use cases::{cases, pairs, Case};
use maps::{Crate, Map, Package};
use std::hint::black_box;
use std::time::Instant;

const RUNS: usize = 301;

// The bytes of a map.
const RECORD: usize = std::mem::size_of::<prelgammo::Record>();

// Nanoseconds for one of so many calls that the work makes.
fn time(calls: usize, work: impl FnOnce()) -> f64 {
    let start = Instant::now();
    work();
    start.elapsed().as_nanos() as f64 / calls as f64
}

// One run on a fresh copy of the map.
fn once<M: Map>(case: &Case<M>, made: &M) -> f64 {
    let mut map = made.clone();
    let taken = time(case.calls, || (case.timed)(&mut map));
    black_box(&map);
    taken
}

fn made<M: Map>(case: &Case<M>) -> M {
    let mut map = M::new();
    (case.before)(&mut map);
    map
}

fn least(mut run: impl FnMut() -> f64) -> f64 {
    (0..RUNS).map(|_| run()).fold(f64::MAX, f64::min)
}

fn time_copy() -> f64 {
    let (from, mut to) = (vec![1u8; RECORD], vec![0u8; RECORD]);
    least(|| time(1, || black_box(&mut to).copy_from_slice(black_box(&from))))
}

fn shown(time: f64) -> String {
    match time.round() as u64 {
        0..20 => format!("{time:.1}"),
        whole @ 20..1000 => whole.to_string(),
        whole => format!("{},{:03}", whole / 1000, whole % 1000),
    }
}

// The crate has no image.
fn time_image() {
    let map = Package::from_pairs(&pairs()).unwrap();
    let bytes = map.to_bytes();
    let writing = least(|| time(1, || drop(black_box(map.to_bytes()))));
    let reading = least(|| time(1, || drop(black_box(Package::from_bytes(&bytes)))));
    println!("| to_bytes, 1,024 | {} | - | - |", shown(writing));
    println!("| from_bytes, 1,024 | {} | - | - |", shown(reading));
}

fn main() {
    println!(
        "Nanoseconds, least times of {RUNS} runs. A plain copy of the record ({RECORD} bytes): {:.0} ns.\n",
        time_copy()
    );
    println!("| Call | Package | Crate | Package / crate |");
    println!("|---|---|---|---|");
    for (on_package, on_crate) in cases::<Package>().iter().zip(&cases::<Crate>()) {
        let (package, other) = (made(on_package), made(on_crate));
        let (mut left, mut right) = (f64::MAX, f64::MAX);
        for _ in 0..RUNS {
            left = left.min(once(on_package, &package));
            right = right.min(once(on_crate, &other));
        }
        println!("| {} | {} | {} | {:.2} |", on_package.name, shown(left), shown(right), left / right);
    }
    time_image();
}
