// Posters: each adding call by each of them, and by numbers that are none.

mod common;

use common::{same, Model};
use prelgammo::{Entry, ListOrderedMultimap, Refused, MEMBERS, ROUNDS};

const POSTED: [u64; 3] = [0, 3, 15];
const ABOVE: [u64; 3] = [16, 17, u64::MAX];

// Makes an adding call as a poster, for a key and a value.
type Call = fn(&mut ListOrderedMultimap, u64, u64, u64) -> Result<(), Refused>;

// For any key.
const OF_MAPS: [(&str, Call); 4] = [
    ("append", |map, poster, k, v| map.posting_as(poster).append(k, v).map(drop)),
    ("insert", |map, poster, k, v| map.posting_as(poster).insert(k, v).map(drop)),
    ("insert_all", |map, poster, k, v| map.posting_as(poster).insert_all(k, v).map(drop)),
    ("try_extend", |map, poster, k, v| map.posting_as(poster).try_extend([(k, v)])),
];

// For a key that is present.
const OCCUPIED: [(&str, Call); 3] = [
    ("OccupiedEntry::append", |map, poster, k, v| match map.entry(k) {
        Entry::Occupied(mut entry) => entry.posting_as(poster).append(v),
        Entry::Vacant(entry) => panic!("{entry:?}"),
    }),
    ("OccupiedEntry::insert", |map, poster, k, v| match map.entry(k) {
        Entry::Occupied(mut entry) => entry.posting_as(poster).insert(v).map(drop),
        Entry::Vacant(entry) => panic!("{entry:?}"),
    }),
    ("OccupiedEntry::insert_all", |map, poster, k, v| match map.entry(k) {
        Entry::Occupied(mut entry) => entry.posting_as(poster).insert_all(v).map(drop),
        Entry::Vacant(entry) => panic!("{entry:?}"),
    }),
];

// For a key that is absent.
const VACANT: [(&str, Call); 2] = [
    ("VacantEntry::insert", |map, poster, k, v| match map.entry(k) {
        Entry::Vacant(entry) => entry.posting_as(poster).insert(v),
        Entry::Occupied(entry) => panic!("{entry:?}"),
    }),
    ("VacantEntry::insert_entry", |map, poster, k, v| match map.entry(k) {
        Entry::Vacant(entry) => entry.posting_as(poster).insert_entry(v).map(drop),
        Entry::Occupied(entry) => panic!("{entry:?}"),
    }),
];

// Every call, with a key that it is for, where 0 is present and 1,000 is not.
fn calls() -> Vec<(&'static str, Call, u64)> {
    let present = OF_MAPS.iter().chain(&OCCUPIED).map(|&(name, call)| (name, call, 0));
    let absent = OF_MAPS.iter().chain(&VACANT).map(|&(name, call)| (name, call, 1000));
    present.chain(absent).collect()
}

// A map and its model with so many pairs over so many keys, posted in turn.
fn filled(rounds: u64, members: u64) -> (ListOrderedMultimap, Model) {
    let (mut map, mut model) = (ListOrderedMultimap::new(), Model::default());
    for at in 0..rounds {
        let found = map.posting_as(at % 16).append(at % members, at);
        assert_eq!(found, model.append_as(at % 16, at % members, at));
    }
    same(&map, &model);
    (map, model)
}

#[test]
fn each_call_counts_one_for_its_poster() {
    let (made, _) = filled(20, 4);
    for (name, call, key) in calls() {
        for poster in POSTED {
            let mut map = made.clone();
            assert_eq!(call(&mut map, poster, key, 7), Ok(()), "{name} as {poster}");
            let mut due = made.taken();
            due[poster as usize] += 1;
            assert_eq!((map.taken(), map.back()), (due, Some((key, 7))), "{name} as {poster}");
        }
    }
}

#[test]
fn the_calls_that_name_no_poster_post_as_0() {
    let mut map = ListOrderedMultimap::new();
    map.append(7, 1).unwrap();
    map.insert(7, 2).unwrap();
    map.insert_all(7, 3).unwrap();
    map.try_extend([(7, 4), (7, 5)]).unwrap();
    let Entry::Occupied(mut entry) = map.entry(7) else { panic!("7 is absent") };
    entry.append(6).unwrap();
    entry.insert(7);
    entry.insert_all(8);
    let Entry::Vacant(entry) = map.entry(9) else { panic!("9 is present") };
    let mut entry = entry.posting_as(3).insert_entry(9).unwrap();
    // what a poster made is no poster's own
    entry.append(10).unwrap();
    let mut due = [0; 16];
    (due[0], due[3]) = (9, 1);
    assert_eq!(map.taken(), due);
    assert_eq!(ListOrderedMultimap::from_pairs(&[(7, 1), (7, 2)]).unwrap().taken()[0], 2);
}

#[test]
fn a_number_that_is_no_poster_s_is_refused() {
    let (mut map, model) = filled(20, 4);
    let before = *map.as_record();
    for (name, call, key) in calls() {
        for poster in ABOVE {
            assert_eq!(call(&mut map, poster, key, 7), Err(Refused::NoPoster), "{name} as {poster}");
            assert!(*map.as_record() == before, "{name} as {poster}");
        }
    }
    same(&map, &model);
}

// On maps that refuse by 1 and by 2; src/checks.rs has 9, 10 and 3.
#[test]
fn a_poster_is_refused_before_a_full_and_a_crowded_map() {
    let (full, _) = filled(ROUNDS as u64, 200);
    let (crowded, _) = filled(MEMBERS as u64, MEMBERS as u64);
    for (name, call, key) in calls() {
        let replaces = key == 0 && name.contains("insert");
        let by_full = if replaces { Ok(()) } else { Err(Refused::Full) };
        let by_crowded = if key == 0 { Ok(()) } else { Err(Refused::Crowded) };
        for (made, refused) in [(&full, by_full), (&crowded, by_crowded)] {
            assert_eq!(call(&mut made.clone(), 15, key, 7), refused, "{name}");
            let mut map = made.clone();
            assert_eq!(call(&mut map, 16, key, 7), Err(Refused::NoPoster), "{name}");
            assert!(map.as_record() == made.as_record());
        }
    }
}

#[test]
fn nothing_but_adding_moves_a_counter() {
    let changes: [fn(&mut ListOrderedMultimap); 9] = [
        |map| map.clear(),
        |map| map.pack_to(256, 1024).unwrap(),
        |map| map.pack_to_fit(),
        |map| assert_eq!(map.retain(|_, value| value % 2 == 0), 20),
        |map| assert_eq!(map.remove(&0), Some(0)),
        |map| assert_eq!(map.remove_all(&1).len(), 10),
        |map| assert!(map.pop_front().is_some()),
        |map| assert!(map.pop_back().is_some()),
        |map| *map = ListOrderedMultimap::from_record(map.as_record()).unwrap(),
    ];
    for change in changes {
        let (mut map, _) = filled(40, 4);
        let before = map.taken();
        change(&mut map);
        assert_eq!(map.taken(), before);
        // and goes on from there
        map.posting_as(5).append(0, 0).unwrap();
        assert_eq!(map.taken()[5], before[5] + 1);
    }
}

#[test]
fn a_restored_map_has_all_from_poster_0() {
    for rounds in [0, 1, 40, 1024] {
        let (map, _) = filled(rounds, 100);
        let mut back = ListOrderedMultimap::from_bytes(&map.to_bytes()).unwrap();
        let mut due = [0; 16];
        due[0] = rounds;
        assert_eq!((back.taken(), back == map), (due, true));
        back.clear();
        assert_eq!(back.taken(), due);
    }
}

// All posters summed: what was added is what is held, was handed out or was dropped.
#[test]
fn the_counters_sum_to_the_rounds_added() {
    let (mut map, model) = filled(1000, 100);
    assert_eq!(map.taken().iter().sum::<u64>(), 1000);
    let handed_out = map.remove_all(&5).len() as u64;
    let before = map.values_len() as u64;
    let dropped = before - map.retain(|_, value| value % 3 > 0) as u64;
    assert_eq!(map.taken(), model.taken);
    assert_eq!(map.taken().iter().sum::<u64>(), map.values_len() as u64 + handed_out + dropped);
}
