// Runs lists of calls on the model, the crate and the port, and compares them after every call.

use crate::crate_map::{strikes_neighbours, CrateMap};
use crate::model::{Accounts, Answer, Call, Counters, Limits, Model, Op, RefusedBy, HIGHEST, OPS, POSTERS};
use crate::port::{is_refusal, untouched, ModelPort, Port, Tape, WIDTH};
use crate::stops::{outcome_of, while_running};
use std::fmt;

// A list to print: the limits of the map that it begins on, and a call on each line.
pub struct Listed<'list>(pub Limits, pub &'list [Call]);

impl fmt::Display for Listed<'_> {
    fn fmt(&self, f: &mut fmt::Formatter) -> fmt::Result {
        writeln!(f, "  a new map with {}", self.0)?;
        self.1.iter().try_for_each(|call| writeln!(f, "  {}", call))
    }
}

pub struct Difference {
    pub limits: Limits,
    // the calls up to the one after which it was seen
    pub list: Vec<Call>,
    pub what: String,
}

// What was run so far, by the calls' numbers.
#[derive(Default)]
pub struct Tally {
    pub made: [u64; OPS.len()],
    pub refused: [u64; OPS.len()],
    pub on_crate: [u64; OPS.len()],
    pub refused_by: RefusedBy,
    // those that a map which holds something refused, and would not have refused with the highest limits
    pub refused_by_own: RefusedBy,
    // calls refused by 16: by their own numbers, and by what would have refused them next, 0 for nothing
    pub by_no_poster: [u64; OPS.len()],
    pub behind_no_poster: RefusedBy,
    // rounds accepted, by their posters
    pub accepted: Counters,
    // retains given to the crate in several passes
    pub split_retains: u64,
    // the most rounds and members held
    pub most_rounds: usize,
    pub most_members: usize,
    // tapes run by the port, the calls on them, and of these the ones that were made one by one, in each of the ways
    pub tapes: u64,
    pub on_port: u64,
    pub one_by_one: u64,
}

impl Tally {
    // Counts the making of a map, which may be refused.
    pub fn count_making(&mut self, answer: Answer) {
        if let Answer::Refused(by) = answer {
            self.refused_by[by as usize] += 1;
        }
    }

    pub fn count(&mut self, call: &Call, answer: Answer, model: &Model) -> Result<(), String> {
        let op = call.op;
        self.made[op as usize] += 1;
        if let Answer::Refused(by) = answer {
            if !is_refusal(by) {
                return Err(format!("the steps refuse by {}, which is no number of documents 01 and 02", by));
            }
            self.refused[op as usize] += 1;
            self.refused_by[by as usize] += 1;
            self.refused_by_own[by as usize] += is_by_own_limits(call, model) as u64;
            if by == 16 {
                self.by_no_poster[op as usize] += 1;
                self.behind_no_poster[model.refusal_by_lists(call).unwrap_or(0) as usize] += 1;
            }
        } else {
            self.on_crate[op as usize] += (op != Op::Taken) as u64;
            if op.posts() {
                self.accepted[call.poster as usize] += 1;
            }
        }
        self.most_rounds = self.most_rounds.max(model.pairs.len());
        self.most_members = self.most_members.max(model.members.len());
        Ok(())
    }

    pub fn calls(&self) -> u64 {
        self.made.iter().sum()
    }
}

// Was the call refused only for the map's own limits, and does the map hold something?
fn is_by_own_limits(call: &Call, model: &Model) -> bool {
    let with_highest = || Model { limits: HIGHEST, ..model.clone() };
    model.limits != HIGHEST && !model.pairs.is_empty() && with_highest().refusal(call).is_none()
}

// A list of calls under way, on the model and the crate.
#[derive(Clone)]
pub struct Run {
    // with which the map was to be made
    pub limits: Limits,
    pub list: Vec<Call>,
    pub model: Model,
    accounts: Accounts,
    crate_map: CrateMap,
}

impl Run {
    fn difference(&self, what: String) -> Difference {
        Difference { limits: self.limits, list: self.list.clone(), what }
    }
}

pub struct Session {
    pub tally: Tally,
    // the first runs every list, each other one every 16th
    ports: Vec<Box<dyn Port>>,
    lists: u64,
}

impl Session {
    pub fn new(ports: Vec<Box<dyn Port>>) -> Session {
        Session { tally: Tally::default(), ports, lists: 0 }
    }

    // Begins a list, on a new map with these limits.
    pub fn begin(&mut self, limits: Limits) -> Run {
        let (answer, model) = Model::make(limits);
        self.tally.count_making(answer);
        Run { limits, list: Vec::new(), model, accounts: Accounts::default(), crate_map: CrateMap::new() }
    }

    // Makes one call more of a list, and compares answer, slices and state.
    pub fn call(&mut self, run: &mut Run, call: Call) -> Result<(), Difference> {
        run.list.push(call);
        let Run { limits, list, model, accounts, crate_map } = run;
        let (tally, call) = (&mut self.tally, &list[list.len() - 1]);
        let compared = running(*limits, list, || {
            let (mut out, mut out2) = (untouched(call.out), untouched(call.out2));
            let answer = step(tally, call, model, accounts, &mut out, &mut out2)?;
            if !matches!(answer, Answer::Refused(_)) {
                call_crate(tally, call, crate_map, answer, &out, &out2)?;
            }
            read_crate(crate_map, model, call.k)
        });
        compared.map_err(|what| run.difference(what))
    }

    // Ends a list: the port runs it from a new map, and its state is read after each call from number `from` on. Calls
    // before that were compared with another list.
    pub fn end(&mut self, run: &Run, from: usize) -> Result<(), Difference> {
        if self.ports.is_empty() {
            return Ok(());
        }
        self.lists += 1;
        let longer = with_reads(run.limits, &run.list, from);
        let compared = running(run.limits, &run.list, || self.run_tape(&Tape::of(run.limits, &longer)));
        compared.map_err(|what| run.difference(what))
    }

    // The tape on the ports whose turn it is.
    fn run_tape(&mut self, tape: &Tape) -> Result<(), String> {
        let turn = if self.lists % 16 == 1 { self.ports.len() } else { 1 };
        let calls = (tape.calls.len() / WIDTH) as u64;
        self.tally.tapes += 1;
        self.tally.on_port += calls;
        self.tally.one_by_one += if turn > 1 { calls } else { 0 };
        self.ports.iter().take(turn).try_for_each(|port| tape_difference(port.as_ref(), tape).map_or(Ok(()), Err))
    }

    // Runs a whole list.
    pub fn list(&mut self, limits: Limits, list: &[Call]) -> Result<(), Difference> {
        let mut run = self.begin(limits);
        for call in list {
            self.call(&mut run, call.clone())?;
        }
        self.end(&run, 0)
    }

    // The port's answer to a tape that is no encoded list.
    pub fn tape(&mut self, tape: &Tape) -> Result<(), Difference> {
        let list = tape.decode();
        let found = |port: &Box<dyn Port>| tape_difference(port.as_ref(), tape).map_or(Ok(()), Err);
        let compared = running(tape.limits, &list, || self.ports.iter().try_for_each(found));
        compared.map_err(|what| Difference { limits: tape.limits, list, what })
    }
}

// Does a part of a list's comparison. A panic is a difference, and a crash prints the list.
fn running(limits: Limits, list: &[Call], part: impl FnOnce() -> Result<(), String>) -> Result<(), String> {
    let listed = Listed(limits, list);
    while_running(&listed, || outcome_of(part)).unwrap_or_else(|stop| Err(format!("the driver {}", stop)))
}

// The call on the model, counted.
fn step(
    tally: &mut Tally,
    call: &Call,
    model: &mut Model,
    accounts: &mut Accounts,
    out: &mut [u64],
    out2: &mut [u64],
) -> Result<Answer, String> {
    let (record, held) = (model.record(call.k).len() as u64, model.pairs.len() as u64);
    let answer = model.step(call, out, out2);
    tally.count(call, answer, model)?;
    accounts.count(call, answer, record, held);
    if !accounts.balanced(model) {
        return Err(format!("the accounts {:?} do not balance", accounts));
    }
    Ok(answer)
}

// The call on the crate, with the answer and the slices that are due.
fn call_crate(
    tally: &mut Tally,
    call: &Call,
    map: &mut CrateMap,
    answer: Answer,
    out: &[u64],
    out2: &[u64],
) -> Result<(), String> {
    if call.op == Op::Retain {
        let members: Vec<u64> = map.map.iter().map(|pair| *pair.0).collect();
        tally.split_retains += strikes_neighbours(&members, &call.marks) as u64;
    }
    let (mut crate_out, mut crate_out2) = (untouched(call.out), untouched(call.out2));
    let found = outcome_of(|| map.call(call, &mut crate_out, &mut crate_out2));
    match found.map_err(|stop| format!("the crate {}", stop))? {
        Some(other) if other != answer => Err(format!("the crate answers {:?}, not {:?}", other, answer)),
        Some(_) if crate_out != out || crate_out2 != out2 => {
            let (found, due) = ([&crate_out[..], &crate_out2], [out, out2]);
            Err(format!("the crate leaves {}, not {}", text_of(&found), text_of(&due)))
        }
        _ => Ok(()),
    }
}

// The crate's whole state beside the model's; `named` is the member of the call just made.
fn read_crate(map: &CrateMap, model: &Model, named: u64) -> Result<(), String> {
    let seen = outcome_of(|| map.difference(model, named)).map_err(|stop| format!("in a read, the crate {}", stop))?;
    seen.map_or(Ok(()), |what| Err(format!("in the crate, {}", what)))
}

// The members up to which all records are read on a tape after every call. Above, the record that the call names is read
// after every call, and all of them after the last and after every 32nd.
const FEW_MEMBERS: usize = 8;

// A list with reads of the whole state after each call from number `from` on.
fn with_reads(limits: Limits, list: &[Call], from: usize) -> Vec<Call> {
    let mut model = Model::new(limits);
    let mut longer = Vec::new();
    for (at, call) in list.iter().enumerate() {
        model.step(call, &mut untouched(call.out), &mut untouched(call.out2));
        longer.push(call.clone());
        if at >= from {
            let all = model.members.len() <= FEW_MEMBERS || at % 32 == 31 || at + 1 == list.len();
            add_reads(&model, call.k, all, &mut longer);
        }
    }
    longer
}

fn add_reads(model: &Model, named: u64, all: bool, list: &mut Vec<Call>) {
    let (pairs, members) = (model.pairs.len(), model.members.len());
    list.push(Call::iter(pairs + 1, pairs + 2));
    list.push(Call::lending(Op::Keys, 0, 0, members + 1));
    list.push(Call::new(Op::KeysLen, 0, 0));
    list.push(Call::new(Op::ValuesLen, 0, 0));
    list.push(Call::taken(POSTERS + 1));
    list.push(Call::new(Op::ContainsKey, named, 0));
    list.push(Call::new(Op::Get, named, 0));
    list.push(Call::lending(Op::GetAll, named, 0, model.record(named).len() + 1));
    list.push(Call::new(Op::EntryLen, named, 0));
    for &k in model.members.iter().filter(|&&k| all && k != named) {
        list.push(Call::lending(Op::GetAll, k, 0, model.record(k).len() + 1));
        list.push(Call::new(Op::EntryLen, k, 0));
    }
}

// Where a port leaves a tape otherwise than the model does.
pub fn tape_difference(port: &dyn Port, tape: &Tape) -> Option<String> {
    let (mut found, mut due) = (tape.clone(), tape.clone());
    let (ran, calls) = match (port.replay(&mut found), ModelPort.replay(&mut due)) {
        (Ok(ran), Ok(calls)) => (ran, calls),
        (Err(what), _) | (_, Err(what)) => return Some(what),
    };
    if found == due {
        return (ran != calls).then(|| format!("the port says that it ran {} calls, not {}", ran, calls));
    }
    let (mut out, mut out2) = (0, 0);
    for (at, call) in tape.decode().iter().enumerate() {
        let (answer, slice, slice2) = (4 * at..4 * at + 4, out..out + call.out, out2..out2 + call.out2);
        let (left, right) = (part(&found, &answer, &slice, &slice2), part(&due, &answer, &slice, &slice2));
        if left != right {
            let (left, right, unknown) = (text_of(&left), text_of(&right), unknown_refusal(left[0]));
            return Some(format!("at {}, the port leaves {}, not {}{}", call, left, right, unknown));
        }
        out += call.out;
        out2 += call.out2;
    }
    Some("the port writes past the tape's calls".to_string())
}

type Span = std::ops::Range<usize>;

// The answer and the slices of one call on a tape.
fn part<'tape>(tape: &'tape Tape, answer: &Span, slice: &Span, slice2: &Span) -> [&'tape [u64]; 3] {
    [&tape.answers[answer.clone()], &tape.outs[slice.clone()], &tape.outs2[slice2.clone()]]
}

// A remark on four numbers that are no answer, since they refuse by a number that documents 01 and 02 do not have.
fn unknown_refusal(words: &[u64]) -> String {
    match *words {
        [0, number, 0, 0] if !is_refusal(number) => format!("; {} is no refusal of documents 01 and 02", number),
        _ => String::new(),
    }
}

// Numbers to print, with _ where a slice was not written to.
fn text_of(slices: &[&[u64]]) -> String {
    let first = untouched(1)[0];
    let number = |&n: &u64| if n >= first && n - first <= u32::MAX as u64 { "_".to_string() } else { n.to_string() };
    let text = |slice: &&[u64]| slice.iter().map(number).collect::<Vec<_>>().join(" ");
    format!("[{}]", slices.iter().map(text).collect::<Vec<_>>().join("] ["))
}
