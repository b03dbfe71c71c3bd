// Document 01's refusals and steps over plain lists, with a map's own limits and a counter for each poster, written from
// documents 01 and 02 (No. 1 and 2). Every other map is held to this one.

use std::fmt;

pub const MAX_ROUNDS: usize = 1024;
pub const MAX_MEMBERS: usize = 256;
pub const MAX_TAKEN: u64 = 4_294_967_295;
// posters have the numbers from 0 on
pub const POSTERS: usize = 16;
// refusals have the numbers from 1 on
pub const REFUSALS: usize = 16;

// How often something was refused, by the refusals' numbers.
pub type RefusedBy = [u64; REFUSALS + 1];

// Rounds by their posters.
pub type Counters = [u64; POSTERS];

// The calls, in the order of their numbers in a tape.
#[derive(Clone, Copy, Debug, PartialEq, Eq)]
pub enum Op {
    Append,
    Insert,
    InsertAll,
    Remove,
    RemoveAll,
    Entry,
    OccupiedAppend,
    OccupiedInsert,
    OccupiedRemoveEntry,
    VacantInsert,
    PopFront,
    PopBack,
    Retain,
    PackTo,
    Clear,
    Get,
    GetAll,
    EntryLen,
    ContainsKey,
    Keys,
    KeysLen,
    ValuesLen,
    Iter,
    Taken,
}

pub const OPS: [(Op, &str); 24] = [
    (Op::Append, "append"),
    (Op::Insert, "insert"),
    (Op::InsertAll, "insert_all"),
    (Op::Remove, "remove"),
    (Op::RemoveAll, "remove_all"),
    (Op::Entry, "entry"),
    (Op::OccupiedAppend, "occupied append"),
    (Op::OccupiedInsert, "occupied insert"),
    (Op::OccupiedRemoveEntry, "occupied remove_entry"),
    (Op::VacantInsert, "vacant insert"),
    (Op::PopFront, "pop_front"),
    (Op::PopBack, "pop_back"),
    (Op::Retain, "retain"),
    (Op::PackTo, "pack_to"),
    (Op::Clear, "clear"),
    (Op::Get, "get"),
    (Op::GetAll, "get_all"),
    (Op::EntryLen, "entry_len"),
    (Op::ContainsKey, "contains_key"),
    (Op::Keys, "keys"),
    (Op::KeysLen, "keys_len"),
    (Op::ValuesLen, "values_len"),
    (Op::Iter, "iter"),
    (Op::Taken, "taken"),
];

impl Op {
    pub fn name(self) -> &'static str {
        OPS[self as usize].1
    }

    // Does the call change nothing?
    pub fn reads(self) -> bool {
        use Op::*;
        matches!(self, Entry | Get | GetAll | EntryLen | ContainsKey | Keys | KeysLen | ValuesLen | Iter | Taken)
    }

    // Does the call add a round, for which it has a poster?
    pub fn posts(self) -> bool {
        use Op::*;
        matches!(self, Append | Insert | InsertAll | OccupiedAppend | OccupiedInsert | VacantInsert)
    }

    // Has the call an out slice?
    pub fn lends(self) -> bool {
        matches!(self, Op::InsertAll | Op::RemoveAll | Op::GetAll | Op::Keys | Op::Iter | Op::Taken)
    }
}

// A call with its arguments. Of its lent slices it has the lengths; what they hold comes with the run.
#[derive(Clone, Debug, PartialEq, Eq)]
pub struct Call {
    pub op: Op,
    // who posts the round; a call that adds none has no use for it
    pub poster: u64,
    // the member; for pack_to the members' minimum
    pub k: u64,
    // the round; for pack_to the rounds' minimum
    pub v: u64,
    // the length of the out slice, and of iter's second one
    pub out: usize,
    pub out2: usize,
    pub marks: Vec<u8>,
}

impl Call {
    // By poster 0.
    pub fn new(op: Op, k: u64, v: u64) -> Call {
        Call { op, poster: 0, k, v, out: 0, out2: 0, marks: Vec::new() }
    }

    // The same call by another poster.
    pub fn by(self, poster: u64) -> Call {
        Call { poster, ..self }
    }

    pub fn lending(op: Op, k: u64, v: u64, out: usize) -> Call {
        Call { out, ..Call::new(op, k, v) }
    }

    pub fn iter(out: usize, out2: usize) -> Call {
        Call { out, out2, ..Call::new(Op::Iter, 0, 0) }
    }

    pub fn retain(marks: Vec<u8>) -> Call {
        Call { marks, ..Call::new(Op::Retain, 0, 0) }
    }

    pub fn taken(out: usize) -> Call {
        Call::lending(Op::Taken, 0, 0, out)
    }
}

impl fmt::Display for Call {
    fn fmt(&self, f: &mut fmt::Formatter) -> fmt::Result {
        write!(f, "{}", self.op.name())?;
        match self.op {
            Op::Append | Op::Insert | Op::InsertAll | Op::OccupiedAppend => write!(f, " {} {}", self.k, self.v)?,
            Op::OccupiedInsert | Op::VacantInsert | Op::PackTo => write!(f, " {} {}", self.k, self.v)?,
            Op::Remove | Op::RemoveAll | Op::Entry | Op::OccupiedRemoveEntry => write!(f, " {}", self.k)?,
            Op::Get | Op::GetAll | Op::EntryLen | Op::ContainsKey => write!(f, " {}", self.k)?,
            Op::Retain => {
                write!(f, " ")?;
                for mark in &self.marks {
                    write!(f, "{}", mark)?;
                }
            }
            _ => {}
        }
        if self.op.posts() && self.poster > 0 {
            write!(f, " by {}", self.poster)?;
        }
        if self.op == Op::Iter {
            write!(f, " (slices of {} and {})", self.out, self.out2)?;
        } else if self.op.lends() {
            write!(f, " (slice of {})", self.out)?;
        }
        Ok(())
    }
}

#[derive(Clone, Copy, Debug, PartialEq, Eq)]
pub enum Answer {
    Refused(u64),
    None,
    Done,
    Round(u64),
    Count(u64),
    Present(bool),
    // member, round, whether the member left K
    Popped(u64, u64, bool),
    // the record's length
    Occupied(u64),
    Vacant(u64),
}

pub type Pair = (u64, u64);

// How many members and rounds a map may hold. They are printed in this order.
#[derive(Clone, Copy, Debug, PartialEq, Eq)]
pub struct Limits {
    pub members: u64,
    pub rounds: u64,
}

pub const HIGHEST: Limits = Limits { members: MAX_MEMBERS as u64, rounds: MAX_ROUNDS as u64 };
pub const NONE: Limits = Limits { members: 0, rounds: 0 };

impl Limits {
    // May a map not have them? Refusal 15.
    pub fn too_high(self) -> bool {
        self.members > HIGHEST.members || self.rounds > HIGHEST.rounds
    }
}

impl fmt::Display for Limits {
    fn fmt(&self, f: &mut fmt::Formatter) -> fmt::Result {
        write!(f, "limits {} and {}", self.members, self.rounds)
    }
}

#[derive(Clone, Debug, PartialEq, Eq)]
pub struct Model {
    pub limits: Limits,
    // P
    pub pairs: Vec<Pair>,
    // K
    pub members: Vec<u64>,
    // T, of each poster
    pub taken: Counters,
}

impl Model {
    // The answer to the making of a map with these limits, and the map: with both limits 0 where it may not have them.
    pub fn make(limits: Limits) -> (Answer, Model) {
        let (answer, limits) = if limits.too_high() { (Answer::Refused(15), NONE) } else { (Answer::Done, limits) };
        (answer, Model { limits, pairs: Vec::new(), members: Vec::new(), taken: [0; POSTERS] })
    }

    pub fn new(limits: Limits) -> Model {
        Model::make(limits).1
    }

    pub fn present(&self, k: u64) -> bool {
        self.members.contains(&k)
    }

    pub fn record(&self, k: u64) -> Vec<u64> {
        self.pairs.iter().filter(|p| p.0 == k).map(|p| p.1).collect()
    }

    // The number of the first row of the table that turns the call away: before all others, that there is no such poster.
    pub fn refusal(&self, call: &Call) -> Option<u64> {
        let no_poster = call.op.posts() && call.poster >= POSTERS as u64;
        no_poster.then_some(16).or_else(|| self.refusal_by_lists(call))
    }

    // The same where the poster is one.
    pub fn refusal_by_lists(&self, call: &Call) -> Option<u64> {
        let full = self.pairs.len() as u64 >= self.limits.rounds;
        let crowded = self.members.len() as u64 >= self.limits.members;
        let absent = !self.present(call.k);
        let rows: Vec<(bool, u64)> = match call.op {
            Op::Append => vec![(full, 1), (absent && crowded, 2)],
            Op::OccupiedAppend => vec![(absent, 9), (full, 1)],
            Op::Insert => vec![(absent && full, 1), (absent && crowded, 2)],
            Op::InsertAll => {
                vec![(absent && full, 1), (absent && crowded, 2), (!absent && call.out < self.record(call.k).len(), 3)]
            }
            Op::VacantInsert => vec![(!absent, 10), (full, 1), (crowded, 2)],
            Op::OccupiedInsert | Op::OccupiedRemoveEntry => vec![(absent, 9)],
            Op::RemoveAll | Op::GetAll => vec![(call.out < self.record(call.k).len(), 3)],
            Op::Keys => vec![(call.out < self.members.len(), 3)],
            Op::Iter => vec![(call.out < self.pairs.len() || call.out2 < self.pairs.len(), 3)],
            Op::Retain => {
                vec![(call.marks.len() != self.pairs.len(), 7), (call.marks.iter().any(|&mark| mark > 1), 8)]
            }
            Op::PackTo => vec![
                (call.k < self.members.len() as u64, 4),
                (call.v < self.pairs.len() as u64, 5),
                (call.k > self.limits.members || call.v > self.limits.rounds, 6),
            ],
            _ => vec![],
        };
        rows.into_iter().find(|row| row.0).map(|row| row.1)
    }

    // Makes a call with its lent slices; a refusal leaves the lists and the slices as they are.
    pub fn step(&mut self, call: &Call, out: &mut [u64], out2: &mut [u64]) -> Answer {
        match self.refusal(call) {
            Some(number) => Answer::Refused(number),
            None => self.act(call, out, out2),
        }
    }

    fn act(&mut self, call: &Call, out: &mut [u64], out2: &mut [u64]) -> Answer {
        let k = call.k;
        match call.op {
            Op::Append => {
                let present = self.present(k);
                self.add(call);
                Answer::Present(present)
            }
            Op::OccupiedAppend | Op::VacantInsert => {
                self.add(call);
                Answer::Done
            }
            Op::Insert | Op::OccupiedInsert => first(&self.replace(call)),
            Op::InsertAll => write(&self.replace(call), out),
            Op::Remove | Op::OccupiedRemoveEntry => first(&self.remove_member(k)),
            Op::RemoveAll => write(&self.remove_member(k), out),
            Op::Entry if self.present(k) => Answer::Occupied(self.record(k).len() as u64),
            Op::Entry => Answer::Vacant(k),
            Op::PopFront if !self.pairs.is_empty() => self.pop(0),
            Op::PopBack if !self.pairs.is_empty() => self.pop(self.pairs.len() - 1),
            Op::PopFront | Op::PopBack => Answer::None,
            Op::Retain => self.retain(&call.marks),
            Op::PackTo => Answer::Done,
            Op::Clear => {
                self.pairs.clear();
                self.members.clear();
                Answer::Done
            }
            Op::Get => first(&self.record(k)),
            Op::GetAll => write(&self.record(k), out),
            Op::EntryLen => Answer::Count(self.record(k).len() as u64),
            Op::ContainsKey => Answer::Present(self.present(k)),
            Op::Keys => write(&self.members, out),
            Op::KeysLen => Answer::Count(self.members.len() as u64),
            Op::ValuesLen => Answer::Count(self.pairs.len() as u64),
            Op::Iter => {
                let (keys, values): (Vec<u64>, Vec<u64>) = self.pairs.iter().copied().unzip();
                write(&keys, out);
                write(&values, out2)
            }
            // as many as the slice holds
            Op::Taken => write(&self.taken[..out.len().min(POSTERS)], out),
        }
    }

    // Adds the call's round, and counts it for its poster.
    fn add(&mut self, call: &Call) {
        self.pairs.push((call.k, call.v));
        if !self.present(call.k) {
            self.members.push(call.k);
        }
        let counter = &mut self.taken[call.poster as usize];
        *counter = (*counter + 1).min(MAX_TAKEN);
    }

    // These two give back the old record.
    fn replace(&mut self, call: &Call) -> Vec<u64> {
        let old = self.record(call.k);
        self.pairs.retain(|p| p.0 != call.k);
        self.add(call);
        old
    }

    fn remove_member(&mut self, k: u64) -> Vec<u64> {
        let old = self.record(k);
        self.pairs.retain(|p| p.0 != k);
        self.members.retain(|&member| member != k);
        old
    }

    fn pop(&mut self, at: usize) -> Answer {
        let (k, v) = self.pairs.remove(at);
        let gone = !has(k, &self.pairs);
        if gone {
            self.members.retain(|&member| member != k);
        }
        Answer::Popped(k, v, gone)
    }

    fn retain(&mut self, marks: &[u8]) -> Answer {
        let mut at = 0;
        self.pairs.retain(|_| {
            at += 1;
            marks[at - 1] == 1
        });
        let pairs = &self.pairs;
        self.members.retain(|&member| has(member, pairs));
        Answer::Count(pairs.len() as u64)
    }
}

fn has(k: u64, pairs: &[Pair]) -> bool {
    pairs.iter().any(|p| p.0 == k)
}

fn first(record: &[u64]) -> Answer {
    record.first().map_or(Answer::None, |&v| Answer::Round(v))
}

fn write(list: &[u64], out: &mut [u64]) -> Answer {
    out[..list.len()].copy_from_slice(list);
    Answer::Count(list.len() as u64)
}

// The rounds accepted, of each poster, handed out and dropped in a list of calls, as documents 01 and 02 count them.
#[derive(Clone, Debug, Default)]
pub struct Accounts {
    accepted: Counters,
    handed_out: u64,
    dropped: u64,
}

impl Accounts {
    // Counts a call by its answer and the record and rounds held before it.
    pub fn count(&mut self, call: &Call, answer: Answer, record: u64, held: u64) {
        if let Answer::Refused(_) = answer {
            return;
        }
        if call.op.posts() {
            self.accepted[call.poster as usize] += 1;
        }
        match call.op {
            Op::Insert | Op::Remove | Op::OccupiedInsert | Op::OccupiedRemoveEntry if record > 0 => {
                self.handed_out += 1;
                self.dropped += record - 1;
            }
            Op::InsertAll | Op::RemoveAll => self.handed_out += record,
            Op::PopFront | Op::PopBack if answer != Answer::None => self.handed_out += 1,
            Op::Clear => self.dropped += held,
            Op::Retain => self.dropped += call.marks.iter().filter(|&&mark| mark == 0).count() as u64,
            _ => {}
        }
    }

    // Accepted, of all posters summed, is held, handed out and dropped together; and each counter of T is its poster's
    // accepted rounds, up to its ceiling.
    pub fn balanced(&self, model: &Model) -> bool {
        self.accepted.iter().sum::<u64>() == model.pairs.len() as u64 + self.handed_out + self.dropped
            && model.taken == self.accepted.map(|accepted| accepted.min(MAX_TAKEN))
    }
}
