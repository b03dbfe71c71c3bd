// What is timed: calls mostly on a map of 1,000 values of 250 keys.

use crate::maps::Map;
use std::hint::black_box;

pub struct Case<M> {
    pub name: &'static str,
    // makes the map; not timed
    pub before: fn(&mut M),
    pub timed: fn(&mut M),
    // how many calls are timed
    pub calls: usize,
}

fn append<M: Map>(map: &mut M, count: u64, keys: u64) {
    (0..count).for_each(|at| map.append(at % keys, at));
}

fn filled<M: Map>(map: &mut M) {
    append(map, 1000, 250);
}

fn full<M: Map>(map: &mut M) {
    append(map, 1024, 251);
}

// One record of 1,000 values among others.
fn long_record<M: Map>(map: &mut M) {
    (0..1024).for_each(|at| map.append(if at < 1000 { 7 } else { at }, at));
}

fn empty<M: Map>(_: &mut M) {}

// As many as a map holds.
pub fn pairs() -> Vec<(u64, u64)> {
    (0..1024).map(|at| (at % 256, at)).collect()
}

fn each<M: Map>(map: &mut M, call: fn(&mut M, u64)) {
    (0..250).for_each(|key| call(map, key));
}

// Every second one absent.
fn reads<M: Map>(map: &mut M, call: fn(&M, u64)) {
    (0..500).for_each(|key| call(map, key));
}

pub fn cases<M: Map>() -> Vec<Case<M>> {
    [adding(), taking_out(), over_many(), reading(), at_once()].into_iter().flatten().collect()
}

fn adding<M: Map>() -> Vec<Case<M>> {
    vec![
        Case { name: "append, known key", before: |m| append(m, 250, 250), timed: |m| append(m, 750, 250), calls: 750 },
        Case { name: "append, new key", before: empty, timed: |m| append(m, 250, 250), calls: 250 },
        Case { name: "insert, record of 4", before: filled, timed: |m| each(m, |m, k| m.insert(k, 0)), calls: 250 },
        Case {
            name: "insert_all, record of 4",
            before: filled,
            timed: |m| each(m, |m, k| m.insert_all(k, 0)),
            calls: 250,
        },
        Case {
            name: "entry, occupied append",
            before: |m| append(m, 250, 250),
            timed: |m| each(m, |m, k| m.occupied_append(k, 0)),
            calls: 250,
        },
        Case {
            name: "entry, occupied insert, record of 4",
            before: filled,
            timed: |m| each(m, |m, k| m.occupied_insert(k, 0)),
            calls: 250,
        },
        Case {
            name: "entry, vacant insert",
            before: empty,
            timed: |m| each(m, |m, k| m.vacant_insert(k, 0)),
            calls: 250,
        },
    ]
}

fn taking_out<M: Map>() -> Vec<Case<M>> {
    vec![
        Case { name: "remove, record of 4", before: filled, timed: |m| each(m, |m, k| m.remove(k)), calls: 250 },
        Case {
            name: "remove_all, record of 4",
            before: filled,
            timed: |m| each(m, |m, k| m.remove_all(k)),
            calls: 250,
        },
        Case {
            name: "entry, remove_entry, record of 4",
            before: filled,
            timed: |m| each(m, |m, k| m.occupied_remove_entry(k)),
            calls: 250,
        },
        Case { name: "pop_front", before: filled, timed: |m| (0..1000).for_each(|_| m.pop_front()), calls: 1000 },
        Case { name: "pop_back", before: filled, timed: |m| (0..1000).for_each(|_| m.pop_back()), calls: 1000 },
    ]
}

fn over_many<M: Map>() -> Vec<Case<M>> {
    vec![
        Case { name: "insert_all, record of 1,000", before: long_record, timed: |m| m.insert_all(7, 0), calls: 1 },
        Case { name: "remove_all, record of 1,000", before: long_record, timed: |m| m.remove_all(7), calls: 1 },
        Case { name: "retain, 512 of 1,024 struck", before: full, timed: |m| m.retain(|_, v| v % 2 == 0), calls: 1 },
        Case { name: "retain, 64 of 1,024 struck", before: full, timed: |m| m.retain(|_, v| v % 16 > 0), calls: 1 },
        Case { name: "retain, 1 of 1,024 struck", before: full, timed: |m| m.retain(|_, v| v != 512), calls: 1 },
        Case { name: "retain, none of 1,024 struck", before: full, timed: |m| m.retain(|_, _| true), calls: 1 },
        Case { name: "pack_to", before: filled, timed: |m| m.pack_to(256, 1024), calls: 1 },
        Case { name: "clear", before: filled, timed: |m| m.clear(), calls: 1 },
        Case { name: "clone", before: filled, timed: |m| drop(black_box(m.clone())), calls: 1 },
    ]
}

fn reading<M: Map>() -> Vec<Case<M>> {
    vec![
        Case { name: "get", before: filled, timed: |m| reads(m, M::get), calls: 500 },
        Case { name: "get_all, record of 4", before: filled, timed: |m| each(m, |m, k| m.get_all(k)), calls: 250 },
        Case { name: "get_all, record of 1,000", before: long_record, timed: |m| m.get_all(7), calls: 1 },
        Case { name: "entry_len", before: filled, timed: |m| reads(m, M::entry_len), calls: 500 },
        Case { name: "contains_key", before: filled, timed: |m| reads(m, M::contains_key), calls: 500 },
        Case { name: "keys, 250", before: filled, timed: |m| m.keys(), calls: 1 },
        Case { name: "keys_len", before: filled, timed: |m| reads(m, |m, _| m.keys_len()), calls: 500 },
        Case { name: "values_len", before: filled, timed: |m| reads(m, |m, _| m.values_len()), calls: 500 },
        Case { name: "iter, 1,000", before: filled, timed: |m| m.iter(), calls: 1 },
    ]
}

fn at_once<M: Map>() -> Vec<Case<M>> {
    vec![
        Case { name: "new", before: empty, timed: |_| drop(black_box(M::new())), calls: 1 },
        Case { name: "1,024 appends to a new map", before: empty, timed: |m| append(m, 1024, 256), calls: 1 },
        Case {
            name: "from_pairs (crate: collect), 1,024",
            before: empty,
            timed: |_| drop(black_box(M::from_pairs(&black_box(pairs())))),
            calls: 1,
        },
    ]
}
