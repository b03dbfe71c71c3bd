// Tests of how a run ends: what it says of calls, refusals and limits that it did not meet, of refusals that there are none
// of, of panics and of crashes.

use crate::compare::{Listed, Session, Tally};
use crate::coverage;
use crate::model::{Answer, Call, Model, Op, HIGHEST, MAX_MEMBERS, MAX_ROUNDS, OPS, POSTERS, REFUSALS};
use crate::port::{replay_with, words, Port, Tape};
use crate::selftest::{sample, WrongPort};
use std::process::Command;

pub fn checks() -> [(&'static str, bool); 4] {
    [
        ("what was not met is told", gaps_are_told()),
        ("an unknown refusal is told", unknown_refusals_are_told()),
        ("a panic is a difference with its list", panics_are_told()),
        ("a crash prints its list", CRASHES.iter().all(|(name, _)| crash_prints_its_list(name))),
    ]
}

// A tally that met everything, and the same with one thing missing in turn.
fn gaps_are_told() -> bool {
    let whole = || Tally {
        made: [2; OPS.len()],
        on_crate: [1; OPS.len()],
        refused_by: [1; REFUSALS + 1],
        refused_by_own: [1; REFUSALS + 1],
        by_no_poster: [1; OPS.len()],
        behind_no_poster: [1; REFUSALS + 1],
        accepted: [1; POSTERS],
        most_rounds: MAX_ROUNDS,
        most_members: MAX_MEMBERS,
        tapes: 1,
        one_by_one: 1,
        ..Tally::default()
    };
    let without = |change: &dyn Fn(&mut Tally)| {
        let mut tally = whole();
        change(&mut tally);
        coverage::gaps(&tally, true).len()
    };
    let taken_needs_no_crate = without(&|tally| tally.on_crate[Op::Taken as usize] = 0) == 0;
    taken_needs_no_crate
        && coverage::gaps(&whole(), true).is_empty()
        && (0..OPS.len()).all(|op| without(&|tally| tally.made[op] = 0) == 1)
        && (1..=REFUSALS).all(|number| without(&|tally| tally.refused_by[number] = 0) == 1)
        && [1, 2, 6].iter().all(|&number| without(&|tally| tally.refused_by_own[number] = 0) == 1)
        && OPS.iter().all(|(op, _)| without(&|tally| tally.by_no_poster[*op as usize] = 0) == op.posts() as usize)
        && coverage::BEHIND.iter().all(|&number| without(&|tally| tally.behind_no_poster[number] = 0) == 1)
        && (0..POSTERS).all(|poster| without(&|tally| tally.accepted[poster] = 0) == 1)
        && without(&|tally| tally.on_crate[Op::PopBack as usize] = 0) == 1
        && without(&|tally| tally.most_rounds -= 1) == 1
        && without(&|tally| tally.most_members -= 1) == 1
        && without(&|tally| tally.tapes = 0) == 1
        && without(&|tally| tally.one_by_one = 0) == 1
}

// By the steps, which would be a fault of the driver's, and by a port.
fn unknown_refusals_are_told() -> bool {
    let port = WrongPort(|_, _, _, _| Answer::Refused(17));
    let found = Session::new(vec![Box::new(port)]).list(HIGHEST, &sample()).err();
    let (append, model) = (Call::new(Op::Append, 1, 1), Model::new(HIGHEST));
    let counted = |number| Tally::default().count(&append, Answer::Refused(number), &model);
    found.map_or(false, |found| found.what.contains("17 is no refusal of documents 01 and 02"))
        && [1, 16].map(counted) == [Ok(()), Ok(())]
        && [0, 17, u64::MAX].map(counted).iter().all(|counted| counted.is_err())
}

fn panics_are_told() -> bool {
    let port = WrongPort(|_, call, _, _| panic!("{} stops the port", call));
    let found = Session::new(vec![Box::new(port)]).list(HIGHEST, &sample()).err();
    found.map_or(false, |found| found.list == sample() && found.what.contains("append 7 10 by 3 stops the port"))
}

// The ways to crash that are tried, each in a process of its own.
const CRASHES: [(&str, fn()); 3] = [
    ("abort", || std::process::abort()),
    ("fault", || {
        // no one has this address
        unsafe { (8 as *const u64).read_volatile() };
    }),
    ("overflow", || {
        endless(&[0; 64]);
    }),
];

#[allow(unconditional_recursion)]
fn endless(numbers: &[u64; 64]) -> u64 {
    let more = numbers.map(|number| number + 1);
    let at = endless(&more) % 64;
    // what is read so late keeps the array on the stack
    unsafe { std::ptr::read_volatile(&more[at as usize]) }
}

// The model, and a crash at pop_back.
struct CrashingPort(fn());

impl Port for CrashingPort {
    fn replay(&self, tape: &mut Tape) -> Result<u64, String> {
        let mut model = Model::new(tape.limits);
        let ran = replay_with(tape, &mut model, |model, call, out, out2| {
            if call.op == Op::PopBack {
                (self.0)();
            }
            words(model.step(call, out, out2))
        });
        Ok(ran)
    }
}

// Crashes in this way while the sample is running.
pub fn crash(name: &str) -> bool {
    let crash = CRASHES.iter().find(|row| row.0 == name).expect("there is no such crash").1;
    Session::new(vec![Box::new(CrashingPort(crash))]).list(HIGHEST, &sample()).is_ok()
}

fn crash_prints_its_list(name: &str) -> bool {
    let driver = std::env::current_exe().expect("the driver has a path");
    let run = Command::new(driver).args(["selftest", name]).output().expect("the driver can be run");
    let said = String::from_utf8_lossy(&run.stderr);
    !run.status.success() && said.contains("crash by SIG") && said.contains(&Listed(HIGHEST, &sample()).to_string())
}
