// The Rust crate's map behind the calls of document 01, and the comparison of all that it shows with the model's lists.

use crate::model::{Answer, Call, Model, Op, Pair};
use ordered_multimap::list_ordered_multimap::{Entry, KeyWrapper, OccupiedEntry, VacantEntry};
use ordered_multimap::ListOrderedMultimap;
use std::collections::HashMap;

#[derive(Clone)]
pub struct CrateMap {
    pub map: ListOrderedMultimap<u64, u64>,
}

impl CrateMap {
    pub fn new() -> CrateMap {
        CrateMap { map: ListOrderedMultimap::new() }
    }

    // Makes a call that documents 01 and 02 do not refuse. The crate has no posters and no T, so `taken` has no answer.
    pub fn call(&mut self, call: &Call, out: &mut [u64], out2: &mut [u64]) -> Option<Answer> {
        let (k, v) = (call.k, call.v);
        let map = &mut self.map;
        Some(match call.op {
            Op::Append => Answer::Present(map.append(k, v)),
            Op::Insert => first(map.insert(k, v)),
            Op::InsertAll => write(map.insert_all(k, v), out),
            Op::Remove => first(map.remove(&k)),
            Op::RemoveAll => write(map.remove_all(&k), out),
            Op::Entry => match map.entry(k) {
                Entry::Occupied(entry) => Answer::Occupied(entry.len() as u64),
                Entry::Vacant(entry) => Answer::Vacant(*entry.key()),
            },
            Op::OccupiedAppend => {
                occupied(map, k).append(v);
                Answer::Done
            }
            Op::OccupiedInsert => Answer::Round(occupied(map, k).insert(v)),
            Op::OccupiedRemoveEntry => {
                let (member, round) = occupied(map, k).remove_entry();
                assert_eq!(member, k);
                Answer::Round(round)
            }
            Op::VacantInsert => {
                let round = vacant(map, k).insert(v);
                assert_eq!(*round, v);
                Answer::Done
            }
            Op::PopFront => popped(map.pop_front()),
            Op::PopBack => popped(map.pop_back()),
            Op::Retain => {
                self.retain_in_passes(&call.marks);
                Answer::Count(self.map.values_len() as u64)
            }
            Op::PackTo => {
                map.pack_to(k as usize, v as usize);
                Answer::Done
            }
            Op::Clear => {
                map.clear();
                Answer::Done
            }
            Op::Get => first(map.get(&k).copied()),
            Op::GetAll => write(map.get_all(&k).copied(), out),
            Op::EntryLen => Answer::Count(map.entry_len(&k) as u64),
            Op::ContainsKey => Answer::Present(map.contains_key(&k)),
            Op::Keys => write(map.keys().copied(), out),
            Op::KeysLen => Answer::Count(map.keys_len() as u64),
            Op::ValuesLen => Answer::Count(map.values_len() as u64),
            Op::Iter => {
                let mut count = 0;
                for (&member, &round) in map.iter() {
                    out[count] = member;
                    out2[count] = round;
                    count += 1;
                }
                Answer::Count(count as u64)
            }
            Op::Taken => return None,
        })
    }

    // The crate's own retain, by marks.
    pub fn retain(&mut self, marks: &[u8]) {
        let mut at = 0;
        self.map.retain(|_, _| {
            at += 1;
            marks[at - 1] == 1
        });
    }

    pub fn retain_in_passes(&mut self, marks: &[u8]) {
        let members: Vec<u64> = self.map.iter().map(|pair| *pair.0).collect();
        for pass in passes(&members, marks) {
            self.retain(&pass);
        }
    }

    // What the crate shows of its state otherwise than the model, if anything. Lists and records are read from both
    // ends, so that links in both directions are followed. `named` is the member of the call just made.
    pub fn difference(&self, model: &Model, named: u64) -> Option<String> {
        let map = &self.map;
        let pairs = || map.iter().map(|pair| (*pair.0, *pair.1));
        if !pairs().eq(model.pairs.iter().copied()) {
            return Some(format!("iter is {:?}, not {:?}", pairs().collect::<Vec<_>>(), model.pairs));
        }
        if !pairs().rev().eq(model.pairs.iter().rev().copied()) {
            return Some("iter from the back is not iter from the front".to_string());
        }
        if !map.keys().eq(&model.members) || !map.keys().rev().eq(model.members.iter().rev()) {
            return Some(format!("keys is {:?}, not {:?}", map.keys().collect::<Vec<_>>(), model.members));
        }
        if map.keys_len() != model.members.len() || map.values_len() != model.pairs.len() {
            return Some(format!("keys_len is {}, values_len {}", map.keys_len(), map.values_len()));
        }
        let records = by_member(model);
        let members = model.members.iter().copied();
        members.chain(Some(named)).find_map(|k| self.record_difference(k, record_of(k, &records)))
    }

    fn record_difference(&self, k: u64, record: &[Pair]) -> Option<String> {
        let map = &self.map;
        let same = map.entry_len(&k) == record.len()
            && map.contains_key(&k) == !record.is_empty()
            && map.get(&k).copied() == record.first().map(|p| p.1)
            && map.get_all(&k).copied().eq(record.iter().map(|p| p.1))
            && map.get_all(&k).rev().copied().eq(record.iter().rev().map(|p| p.1));
        if same {
            return None;
        }
        Some(format!("the record of {} is {:?}, not {:?}", k, map.get_all(&k).collect::<Vec<_>>(), record))
    }
}

fn occupied(map: &mut ListOrderedMultimap<u64, u64>, k: u64) -> OccupiedEntry<'_, u64, u64> {
    match map.entry(k) {
        Entry::Occupied(entry) => entry,
        Entry::Vacant(_) => panic!("member {} is absent", k),
    }
}

fn vacant(map: &mut ListOrderedMultimap<u64, u64>, k: u64) -> VacantEntry<'_, u64, u64> {
    match map.entry(k) {
        Entry::Vacant(entry) => entry,
        Entry::Occupied(_) => panic!("member {} is present", k),
    }
}

fn first(round: Option<u64>) -> Answer {
    round.map_or(Answer::None, Answer::Round)
}

fn popped(pair: Option<(KeyWrapper<u64>, u64)>) -> Answer {
    match pair {
        Some((KeyWrapper::Borrowed(&k), v)) => Answer::Popped(k, v, false),
        Some((KeyWrapper::Owned(k), v)) => Answer::Popped(k, v, true),
        None => Answer::None,
    }
}

fn write(rounds: impl Iterator<Item = u64>, out: &mut [u64]) -> Answer {
    let mut count = 0;
    for round in rounds {
        out[count] = round;
        count += 1;
    }
    Answer::Count(count as u64)
}

// The pairs sorted by member, each record in its own order.
fn by_member(model: &Model) -> Vec<Pair> {
    let mut pairs = model.pairs.clone();
    pairs.sort_by_key(|p| p.0);
    pairs
}

fn record_of(k: u64, sorted: &[Pair]) -> &[Pair] {
    let start = sorted.partition_point(|p| p.0 < k);
    let end = sorted.partition_point(|p| p.0 <= k);
    &sorted[start..end]
}

// Are two neighbours of one record struck?
pub fn strikes_neighbours(members: &[u64], marks: &[u8]) -> bool {
    let next = |at: usize| (at + 1..members.len()).find(|&other| members[other] == members[at]);
    (0..members.len()).any(|at| marks[at] == 0 && next(at).map_or(false, |other| marks[other] == 0))
}

// The marks of several retains that together do what these marks say and of which none strikes two neighbours of one
// record, where the crate stops. At least one.
pub fn passes(members: &[u64], marks: &[u8]) -> Vec<Vec<u8>> {
    let mut left: Vec<(u64, u8)> = members.iter().copied().zip(marks.iter().copied()).collect();
    let mut passes = Vec::new();
    loop {
        let pass = one_pass(&left);
        let mut at = 0;
        left.retain(|_| {
            at += 1;
            pass[at - 1] == 1
        });
        passes.push(pass);
        if left.iter().all(|pair| pair.1 == 1) {
            return passes;
        }
    }
}

// Strikes what is marked, save where the round before it in its record is struck in this pass.
fn one_pass(left: &[(u64, u8)]) -> Vec<u8> {
    let mut struck_before: HashMap<u64, bool> = HashMap::new();
    let mut pass = Vec::with_capacity(left.len());
    for &(k, mark) in left {
        let strike = mark == 0 && !struck_before.get(&k).copied().unwrap_or(false);
        struck_before.insert(k, strike);
        pass.push(if strike { 0 } else { 1 });
    }
    pass
}
