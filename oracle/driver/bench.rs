// Times each call on the port, in place and by value through its C functions, and on the crate, in turn in one run; beside
// them plain copies of a record as large as the port's. Prints a table in Markdown, and writes a chart.

use crate::bench_cases::{cases, Aim, Case};
use crate::calls::grouped;
use crate::chart;
use crate::clock::{deep, hold, keep_memory, median, time_copies, time_copy, time_handing, timed};
use crate::crate_map::CrateMap;
use crate::library::{ByValue, PortMap, Tapes, RECORD};
use crate::model::{Call, Op, HIGHEST, MAX_MEMBERS, MAX_ROUNDS};
use crate::port::{Port, Tape};
use std::mem::MaybeUninit;

const RUNS: usize = 1001;
const TOGETHER: usize = 250;
const TAPES: usize = 101;
// How many copies of the record a call by value may take longer than the crate's.
const MOST_COPIES: f64 = 6.0;
const CHART: &str = "docs/benchmarks.svg";

// Nanoseconds for one call.
pub struct Row {
    pub group: &'static str,
    pub name: &'static str,
    pub aim: Aim,
    pub on_port: f64,
    pub on_crate: Option<f64>,
    pub by_value: Option<f64>,
    pub on_tape: Option<f64>,
}

impl Row {
    pub fn ratio(&self) -> Option<f64> {
        self.on_crate.map(|on_crate| self.on_port / on_crate)
    }

    // Is the aim in place met, where there is one?
    fn met(&self, copy: &CopyTime) -> Option<bool> {
        match self.aim {
            Aim::NoSlower => self.ratio().map(|ratio| ratio <= 1.0),
            Aim::Half => self.ratio().map(|ratio| ratio <= 0.5),
            Aim::Fifth => self.ratio().map(|ratio| ratio <= 0.2),
            Aim::Copies(most) => Some(self.on_port <= most * copy.between),
            Aim::None => None,
        }
    }

    // How many copies of the record the call by value takes longer than the crate's.
    fn copies(&self, copy: &CopyTime) -> Option<f64> {
        self.by_value.zip(self.on_crate).map(|(by_value, on_crate)| (by_value - on_crate) / copy.between)
    }

    // Is the aim by value met?
    fn met_by_value(&self, copy: &CopyTime) -> Option<bool> {
        self.copies(copy).map(|copies| copies <= MOST_COPIES)
    }
}

// Nanoseconds for a plain copy of the record: over and over from one place to another, and along a row of places; and for a
// function that only takes the record by value and hands it back.
struct CopyTime {
    between: f64,
    along: f64,
    handed: f64,
}

pub fn run() -> bool {
    keep_memory();
    let (mut between, mut along, mut handed, mut rows) = (Vec::new(), Vec::new(), Vec::new(), Vec::new());
    for case in cases() {
        between.push(time_copy(RECORD));
        along.push(time_copies(RECORD));
        handed.push(time_handing());
        rows.push(time_case(&case));
    }
    rows.extend([time_new(), time_writing(), time_reading()]);
    print_table(&rows, &CopyTime { between: median(between), along: median(along), handed: median(handed) });
    chart::write(CHART, &rows).map_err(|error| eprintln!("{}: {}", CHART, error)).is_ok()
}

fn print_table(rows: &[Row], copy: &CopyTime) {
    println!(
        "Nanoseconds, medians of {} runs. A plain copy of the record ({} bytes): {:.0} ns over and over between two places, \
         {:.0} ns from each of eight places to the next. A function of Rust's own that takes the record by value and hands it back, \
         as C passes it: {:.0} ns.\n",
        grouped(RUNS),
        grouped(RECORD),
        copy.between,
        copy.along,
        copy.handed
    );
    println!("| Call | Port | Crate | Port / crate | Aim | By value | Copies over the crate | Aim | On a tape |");
    println!("|---|---|---|---|---|---|---|---|---|");
    rows.iter().for_each(|row| print_row(row, copy));
    let in_place = share(rows.iter().filter_map(|row| row.met(copy)));
    let by_value = share(rows.iter().filter_map(|row| row.met_by_value(copy)));
    println!("\nAims met: in place {}, by value {}.", in_place, by_value);
}

fn print_row(row: &Row, copy: &CopyTime) {
    let times = [Some(row.on_port), row.on_crate, row.by_value, row.on_tape].map(|time| shown(time, 1));
    let [on_port, on_crate, by_value, on_tape] = times;
    let ratio = row.ratio().map_or("-".to_string(), |ratio| format!("{:.2}", ratio));
    let copies = match row.copies(copy) {
        Some(copies) if copies < 0.0 => "none".to_string(),
        copies => shown(copies, 1),
    };
    let [met, met_by_value] = [row.met(copy), row.met_by_value(copy)].map(word);
    println!(
        "| {} | {} | {} | {} | {} | {} | {} | {} | {} |",
        row.name, on_port, on_crate, ratio, met, by_value, copies, met_by_value, on_tape
    );
}

fn word(met: Option<bool>) -> &'static str {
    met.map_or("-", |met| if met { "met" } else { "missed" })
}

// How many are true, and of how many.
fn share(met: impl Iterator<Item = bool>) -> String {
    let (good, all) = met.fold((0, 0), |(good, all), met| (good + met as usize, all + 1));
    format!("{} of {}", good, all)
}

pub fn shown(number: Option<f64>, digits: usize) -> String {
    match number {
        Some(number) if number >= 1000.0 => grouped(number.round() as usize),
        Some(number) => format!("{:.*}", if number >= 20.0 { 0 } else { digits }, number),
        None => "-".to_string(),
    }
}

// A map whose calls are timed. On each side a call is chosen by the same `match`, behind a function that is not put into its
// caller, and its answer is held.
trait Timed: Clone {
    fn make(&mut self, call: &Call, out: &mut [u64], out2: &mut [u64]);

    // A copy to time calls on.
    fn fresh(&self) -> Self {
        self.clone()
    }
}

impl Timed for CrateMap {
    #[inline(never)]
    fn make(&mut self, call: &Call, out: &mut [u64], out2: &mut [u64]) {
        match call.op {
            Op::Retain => self.retain(&call.marks),
            _ => hold(&mut self.call(call, out, out2)),
        }
    }

    // With room for as much as the port has, so that no vector grows while it is timed.
    fn fresh(&self) -> CrateMap {
        let mut map = self.clone();
        map.map.reserve_keys(MAX_MEMBERS - map.map.keys_len());
        map.map.reserve_values(MAX_ROUNDS - map.map.values_len());
        map
    }
}

impl Timed for PortMap {
    #[inline(never)]
    fn make(&mut self, call: &Call, out: &mut [u64], out2: &mut [u64]) {
        let mut answer = MaybeUninit::uninit();
        // each call writes all four numbers of its answer, which is an array of its own
        unsafe { PortMap::make(self, call, out, out2, answer.as_mut_ptr()) };
        hold(&mut answer);
    }
}

impl Timed for ByValue {
    #[inline(never)]
    fn make(&mut self, call: &Call, out: &mut [u64], out2: &mut [u64]) {
        hold(&mut self.call(call, out, out2));
    }
}

// One side of a case: its map before the timed calls, room for what they write, and the times so far.
struct Side<Map> {
    map: Map,
    out: Vec<u64>,
    out2: Vec<u64>,
    times: Vec<f64>,
}

impl<Map: Timed> Side<Map> {
    fn new(empty: Map, case: &Case) -> Side<Map> {
        let mut side = Side { map: empty, out: vec![0; MAX_ROUNDS], out2: vec![0; MAX_ROUNDS], times: Vec::new() };
        for call in &case.before {
            side.map.make(call, &mut side.out, &mut side.out2);
        }
        side
    }

    // Times the calls on fresh copies of the map, some at a time, so that few of the times are those of calls that were
    // interrupted.
    fn run(&mut self, case: &Case, run: usize) {
        let Side { map, out, out2, times } = self;
        let mut fresh: Vec<Map> = (0..case.maps).map(|_| map.fresh()).collect();
        deep(run % 100, &mut || {
            for calls in case.timed.chunks(TOGETHER) {
                let mut each = |map: &mut Map| calls.iter().for_each(|call| map.make(call, out, out2));
                let time = timed(|| fresh.iter_mut().for_each(&mut each));
                times.push(time / (case.maps * calls.len()) as f64);
            }
        });
        hold(&mut fresh);
    }
}

fn time_case(case: &Case) -> Row {
    let (mut on_port, mut by_value) = (Side::new(PortMap::new(), case), Side::new(ByValue::new(), case));
    let mut on_crate = (case.timed[0].op != Op::Taken).then(|| Side::new(CrateMap::new(), case));
    for run in 0..RUNS {
        on_port.run(case, run);
        on_crate.iter_mut().for_each(|side| side.run(case, run));
        by_value.run(case, run);
    }
    Row {
        group: case.group,
        name: case.name,
        aim: case.aim,
        on_port: median(on_port.times),
        on_crate: on_crate.map(|side| median(side.times)),
        by_value: Some(median(by_value.times)),
        on_tape: time_tape(case),
    }
}

// The map is made and used in one tape, so the time of the calls before is taken off. No time where that is nearly all.
fn time_tape(case: &Case) -> Option<f64> {
    let before = Tape::of(HIGHEST, &case.before);
    let whole = Tape::of(HIGHEST, &[&case.before[..], &case.timed].concat());
    let mut least = [f64::MAX; 2];
    for run in 0..TAPES {
        for (tape, least) in [&before, &whole].into_iter().zip(&mut least) {
            let mut tape = tape.clone();
            deep(run, &mut || *least = least.min(timed(|| hold(&mut Tapes.replay(&mut tape)))));
            hold(&mut tape);
        }
    }
    let [before, whole] = least;
    (whole > 1.1 * before).then(|| (whole - before) / case.timed.len() as f64)
}

// A row of the times of both sides, which are taken in turn.
fn time_both(name: &'static str, aim: Aim, mut on_port: impl FnMut() -> f64, mut on_crate: impl FnMut() -> f64) -> Row {
    let mut times = [Vec::new(), Vec::new()];
    for run in 0..RUNS {
        deep(run % 100, &mut || {
            times[0].push(on_port());
            times[1].push(on_crate());
        });
    }
    let [on_port, on_crate] = times.map(median);
    Row { group: "The whole map", name, aim, on_port, on_crate: Some(on_crate), by_value: None, on_tape: None }
}

fn time_new() -> Row {
    let mut map = PortMap::new();
    let on_port = || {
        let turn = |_| {
            hold(&mut map.make_new());
            hold(&mut map);
        };
        timed(|| (0..TOGETHER).for_each(turn)) / TOGETHER as f64
    };
    let on_crate = || timed(|| (0..TOGETHER).for_each(|_| hold(&mut CrateMap::new()))) / TOGETHER as f64;
    time_both("new", Aim::Copies(1.5), on_port, on_crate)
}

// A list of 1,024 rounds of 256 members.
fn full() -> Vec<Call> {
    (0..1024).map(|at| Call::new(Op::Append, at % 256, at)).collect()
}

fn full_map<Map: Timed>(mut map: Map) -> Map {
    full().iter().for_each(|call| map.make(call, &mut [], &mut []));
    map
}

const IMAGE: usize = 8 + 16 * MAX_ROUNDS;

// The crate has no image. Beside it, the same bytes are laid out by a walk over the crate's `iter`.
fn time_writing() -> Row {
    let (map, beside) = (full_map(PortMap::new()), full_map(CrateMap::new()));
    let (mut image, mut other) = (vec![0; IMAGE], vec![0; IMAGE]);
    let row = time_both(
        "writing an image of 1,024 rounds; on the crate, by iter",
        Aim::NoSlower,
        || timed(|| hold(&mut map.write_image(&mut image))),
        || timed(|| lay_out(&beside, &mut other)),
    );
    assert!(image == other, "both lay out the same bytes");
    row
}

#[inline(never)]
fn lay_out(map: &CrateMap, out: &mut [u8]) {
    let sizes = [map.map.values_len() as u32, map.map.keys_len() as u32].map(u32::to_le_bytes).concat();
    out[..8].copy_from_slice(&sizes);
    let (members, rounds) = out[8..].split_at_mut(8 * map.map.values_len());
    let places = members.chunks_exact_mut(8).zip(rounds.chunks_exact_mut(8));
    for ((member, round), (to, to2)) in map.map.iter().zip(places) {
        to.copy_from_slice(&member.to_le_bytes());
        to2.copy_from_slice(&round.to_le_bytes());
    }
    hold(out);
}

// Beside it, the image's pairs are appended to a new map of the crate that has room for them.
fn time_reading() -> Row {
    let mut image = vec![0; IMAGE];
    let mut map = full_map(PortMap::new());
    map.write_image(&mut image);
    let on_crate = || {
        let mut beside = None;
        let time = timed(|| beside = Some(appended(&image)));
        hold(&mut beside);
        time
    };
    time_both(
        "reading an image of 1,024 rounds; on the crate, appends",
        Aim::Fifth,
        || timed(|| hold(&mut map.read_image(HIGHEST, &image))),
        on_crate,
    )
}

#[inline(never)]
fn appended(image: &[u8]) -> CrateMap {
    let mut map = CrateMap::new();
    map.map.reserve_keys(MAX_MEMBERS);
    map.map.reserve_values(MAX_ROUNDS);
    let (members, rounds) = image[8..].split_at((image.len() - 8) / 2);
    let number = |bytes: &[u8]| u64::from_le_bytes(bytes.try_into().unwrap());
    for (member, round) in members.chunks_exact(8).zip(rounds.chunks_exact(8)) {
        map.map.append(number(member), number(round));
    }
    map
}
