// What the crate does where document 01 says otherwise, each confirmed by a run. docs/DIFFERENCES.md has it as a table.

use crate::crate_map::{strikes_neighbours, CrateMap};
use crate::linked;
use crate::model::{Call, Limits, Model, Op, HIGHEST, MAX_MEMBERS, MAX_ROUNDS};
use crate::port::{answer_of, ModelPort, Port, Tape};
use crate::stops::{note_panics, outcome_of};
use std::collections::VecDeque;

pub fn run() -> bool {
    note_panics();
    let checks = [
        ("the smallest stop", smallest_stop()),
        ("stops exactly at neighbours", stops_exactly_at_neighbours()),
        ("pack_to with too few members", pack_to_below(1, 2, 4, "list_ordered_multimap.rs:1094")),
        ("pack_to with too few rounds", pack_to_below(2, 1, 5, "list_ordered_multimap.rs:1098")),
        ("pack_to above the limits", pack_to_above()),
        ("no limit of rounds", no_limit_of_rounds()),
        ("no limit of members", no_limit_of_members()),
        ("no limits of a club's own", no_limits_of_its_own()),
        ("a forgotten drain", forgotten_drain()),
        ("EntryValues", ends_in_any_mix()),
    ];
    for (name, as_recorded) in &checks {
        println!("{:50} {}", name, if *as_recorded { "as recorded" } else { "NOT AS RECORDED" });
    }
    checks.iter().all(|check| check.1)
}

// Prints an input and what the crate does; and for a list what document 01 and the port answer to its last call, on a map
// with the highest limits. Does the port answer as document 01 says, in each of its ways?
fn say(input: &str, crate_does: &str, list: &[Call]) -> bool {
    say_within(HIGHEST, input, crate_does, list)
}

// The same on a map with these limits.
fn say_within(limits: Limits, input: &str, crate_does: &str, list: &[Call]) -> bool {
    println!("input:    {}", input);
    println!("crate:    {}", crate_does);
    let mut agrees = true;
    if !list.is_empty() {
        let due = last_answer(limits, list, &ModelPort);
        println!("document: {}", due);
        let found: Vec<String> = linked::ports().iter().map(|port| last_answer(limits, list, port.as_ref())).collect();
        agrees = found.iter().all(|found| *found == due);
        println!("port:     {}", found.first().map_or("not linked", |found| found));
    }
    println!();
    agrees
}

fn last_answer(limits: Limits, list: &[Call], port: &dyn Port) -> String {
    let mut tape = Tape::of(limits, list);
    if let Err(what) = port.replay(&mut tape) {
        return what;
    }
    let words = &tape.answers[4 * list.len() - 4..];
    answer_of(words).map_or(format!("{:?}", words), |answer| format!("{:?}", answer))
}

fn crate_with(pairs: &[(u64, u64)]) -> CrateMap {
    let mut map = CrateMap::new();
    for &(k, v) in pairs {
        map.map.append(k, v);
    }
    map
}

fn appends(pairs: &[(u64, u64)]) -> Vec<Call> {
    pairs.iter().map(|&(k, v)| Call::new(Op::Append, k, v)).collect()
}

fn model_with(pairs: &[(u64, u64)]) -> Model {
    let mut model = Model::new(HIGHEST);
    for call in appends(pairs) {
        model.step(&call, &mut [], &mut []);
    }
    model
}

fn text_of(list: &[Call]) -> String {
    list.iter().map(|call| call.to_string()).collect::<Vec<_>>().join(", ")
}

// Every arrangement of n rounds up to the members' names: each round is of a member already there or of the next new one.
fn arrangements(n: usize) -> Vec<Vec<(u64, u64)>> {
    let mut all: Vec<Vec<(u64, u64)>> = vec![vec![]];
    for at in 0..n as u64 {
        let longer = |pairs: &Vec<(u64, u64)>| {
            let members = pairs.iter().map(|p| p.0).max().unwrap_or(0);
            let next = |k| [&pairs[..], &[(k, 10 + at)]].concat();
            (1..=members + 1).map(next).collect::<Vec<_>>()
        };
        all = all.iter().flat_map(longer).collect();
    }
    all
}

fn every_marks(n: usize) -> Vec<Vec<u8>> {
    (0..1usize << n).map(|bits| (0..n).map(|at| (bits >> at & 1) as u8).collect()).collect()
}

fn smallest_stop() -> bool {
    for n in 0..=6 {
        for pairs in arrangements(n) {
            for marks in every_marks(n) {
                let mut map = crate_with(&pairs);
                if let Err(stop) = outcome_of(|| map.retain(&marks)) {
                    return say_smallest(&pairs, marks, &stop, &map);
                }
            }
        }
    }
    false
}

fn say_smallest(pairs: &[(u64, u64)], marks: Vec<u8>, stop: &str, map: &CrateMap) -> bool {
    let mut list = appends(pairs);
    list.push(Call::retain(marks));
    let input = text_of(&list);
    let agrees = say(&format!("{} (the smallest on which retain stops)", input), stop, &list);
    let map = &map.map;
    let read = |name: &str, found: Result<String, String>| format!("{}: {}", name, found.unwrap_or_else(|stop| stop));
    let after = [
        read("keys_len", outcome_of(|| map.keys_len().to_string())),
        read("values_len", outcome_of(|| map.values_len().to_string())),
        read("contains_key 1", outcome_of(|| map.contains_key(&1).to_string())),
        read("entry_len 1", outcome_of(|| map.entry_len(&1).to_string())),
        read("get 1", outcome_of(|| format!("{:?}", map.get(&1)))),
    ];
    let after = after.join(", ");
    say("the same map after the stop", &after, &[]);
    agrees
        && input == "append 1 10, append 1 11, retain 00"
        && stop.contains("list_ordered_multimap.rs:1597")
        && after == "keys_len: 1, values_len: 0, contains_key 1: true, entry_len 1: 0, get 1: None"
}

// Over all arrangements of up to six rounds and all marks: retain stops exactly when two neighbours of one record are
// struck, and where it doesn't the map is as document 01 has it.
fn stops_exactly_at_neighbours() -> bool {
    let (mut runs, mut stops, mut others) = (0, 0, 0);
    for n in 0..=6 {
        for pairs in arrangements(n) {
            let members: Vec<u64> = pairs.iter().map(|p| p.0).collect();
            for marks in every_marks(n) {
                let mut map = crate_with(&pairs);
                let mut model = model_with(&pairs);
                model.step(&Call::retain(marks.clone()), &mut [], &mut []);
                let stopped = outcome_of(|| map.retain(&marks)).is_err();
                runs += 1;
                stops += stopped as u64;
                let differs = !stopped && map.difference(&model, 1).is_some();
                others += (stopped != strikes_neighbours(&members, &marks) || differs) as u64;
            }
        }
    }
    let found = format!(
        "of {} runs {} stop; {} where that is not exactly when two neighbours of one record are struck, or where the map \
         is another than document 01's",
        runs, stops, others
    );
    say("retain on every arrangement of up to six rounds, every marks", &found, &[]);
    (runs, stops, others) == (14_947, 7_082, 0)
}

// Two members with a round each, packed to minimums of which one is too small.
fn pack_to_below(members: u64, rounds: u64, number: u64, place: &str) -> bool {
    let pairs = [(1, 10), (2, 20)];
    let mut list = appends(&pairs);
    list.push(Call::new(Op::PackTo, members, rounds));
    let mut map = crate_with(&pairs);
    let stop = outcome_of(|| map.map.pack_to(members as usize, rounds as usize)).err().unwrap_or_default();
    let whole = map.difference(&model_with(&pairs), 1).is_none();
    let after = if whole { "and leaves the map as it was" } else { "and leaves another map" };
    say(&text_of(&list), &format!("{}, {}", stop, after), &list)
        && stop.contains(place)
        && whole
        && last_refusal(HIGHEST, &list) == Some(number)
}

fn last_refusal(limits: Limits, list: &[Call]) -> Option<u64> {
    let mut model = Model::new(limits);
    let (last, before) = list.split_last()?;
    for call in before {
        model.step(call, &mut [], &mut []);
    }
    model.refusal(last)
}

fn pack_to_above() -> bool {
    let pairs = [(1, 10), (2, 20)];
    let above = [(257, 1024), (256, 1025), (1000, 5000)];
    above.iter().all(|&(members, rounds)| {
        let mut list = appends(&pairs);
        list.push(Call::new(Op::PackTo, members, rounds));
        let mut map = crate_with(&pairs);
        let done = outcome_of(|| map.map.pack_to(members as usize, rounds as usize)).is_ok();
        let whole = map.difference(&model_with(&pairs), 1).is_none();
        let room = (map.map.keys_capacity() as u64, map.map.values_capacity() as u64);
        let found = format!(
            "packs (done {}, same map {}), with room for {} members and {} rounds",
            done, whole, room.0, room.1
        );
        say(&text_of(&list), &found, &list)
            && done
            && whole
            && room == (members, rounds)
            && last_refusal(HIGHEST, &list) == Some(6)
    })
}

fn no_limit_of_rounds() -> bool {
    let pairs: Vec<(u64, u64)> = (0..=MAX_ROUNDS as u64).map(|at| (1, at)).collect();
    let map = crate_with(&pairs);
    let found = format!("takes it: values_len is {}", map.map.values_len());
    say("append 1 with 1,024 rounds held", &found, &appends(&pairs))
        && map.map.values_len() == 1025
        && last_refusal(HIGHEST, &appends(&pairs)) == Some(1)
}

fn no_limit_of_members() -> bool {
    let pairs: Vec<(u64, u64)> = (0..=MAX_MEMBERS as u64).map(|at| (at, at)).collect();
    let map = crate_with(&pairs);
    let found = format!("takes it: keys_len is {}", map.map.keys_len());
    say("append of a new member with 256 members held", &found, &appends(&pairs))
        && map.map.keys_len() == 257
        && last_refusal(HIGHEST, &appends(&pairs)) == Some(2)
}

// A map for one member and two rounds: a third round, and a second member.
fn no_limits_of_its_own() -> bool {
    let limits = Limits { members: 1, rounds: 2 };
    let lists: [(&[(u64, u64)], u64); 2] = [(&[(1, 10), (1, 11), (1, 12)], 1), (&[(1, 10), (2, 20)], 2)];
    lists.iter().all(|&(pairs, number)| {
        let (map, list) = (crate_with(pairs), appends(pairs));
        let held = (map.map.keys_len(), map.map.values_len());
        let input = format!("{}, on a map with {}", text_of(&list), limits);
        let found = format!("has no such limits and takes it: keys_len is {}, values_len {}", held.0, held.1);
        say_within(limits, &input, &found, &list)
            && held.1 == pairs.len()
            && last_refusal(limits, &list) == Some(number)
    })
}

// The crate takes the old rounds away while its drain is dropped, so a drain that is forgotten leaves them.
fn forgotten_drain() -> bool {
    let mut map = crate_with(&[(1, 10), (1, 11)]);
    std::mem::forget(map.map.insert_all(1, 12));
    let rounds: Vec<u64> = map.map.iter().map(|pair| *pair.1).collect();
    let record: Vec<u64> = map.map.get_all(&1).copied().collect();
    let found = format!("iter has the rounds {:?}, get_all 1 has {:?}", rounds, record);
    say("append 1 10, append 1 11, insert_all 1 12 with its drain forgotten (std::mem::forget)", &found, &[]);
    rounds == [10, 11, 12] && record == [12]
}

// EntryValues of records of up to eight rounds, each taken apart by every mix of next and next_back, two steps further
// than it has rounds.
fn ends_in_any_mix() -> bool {
    let (mut mixes, mut others) = (0, 0);
    for n in 0..=8u64 {
        let pairs: Vec<(u64, u64)> = (0..2 * n).map(|at| (1 + at % 2, at)).collect();
        let (map, record) = (crate_with(&pairs), model_with(&pairs).record(1));
        for bits in 0..1u64 << (n + 2) {
            let mut left: VecDeque<u64> = record.iter().copied().collect();
            let mut values = map.map.get_all(&1);
            let same = (0..n + 2).all(|at| match bits >> at & 1 {
                0 => values.next().copied() == left.pop_front(),
                _ => values.next_back().copied() == left.pop_back(),
            });
            mixes += 1;
            others += !same as u64;
        }
    }
    let found = format!("{} mixes, {} other than document 01 has it", mixes, others);
    say("EntryValues, next and next_back in every mix, records of up to eight rounds", &found, &[]);
    others == 0
}
