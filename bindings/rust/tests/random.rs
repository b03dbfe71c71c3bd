// Random lists of calls, seeded, beside the model.

mod common;

use common::{same, same_lists, same_record, Model, Random};
use prelgammo::{Entry, ListOrderedMultimap, OccupiedEntry, MEMBERS, ROUNDS};

// Keys that come up often, so that records grow, how often a call adds, and the limits of members and of rounds.
struct Mix {
    keys: Vec<u64>,
    adding: usize,
    calls: usize,
    limits: (usize, usize),
}

fn mixes(random: &mut Random) -> Vec<Mix> {
    let spread = (0..400).map(|_| random.next()).chain([0, u64::MAX]).collect();
    let limits = (MEMBERS, ROUNDS);
    let mut mixes = vec![
        Mix { keys: (0..3).collect(), adding: 5, calls: 2000, limits },
        Mix { keys: (0..40).collect(), adding: 12, calls: 2000, limits },
        Mix { keys: vec![0, u64::MAX, 512, 1 << 63], adding: 8, calls: 1000, limits },
        Mix { keys: spread, adding: 200, calls: 3000, limits },
        Mix { keys: (0..200).collect(), adding: 1500, calls: 4000, limits },
    ];
    let lower = [(0, 0), (0, 5), (5, 0), (2, 3), (8, 40), (256, 40), (8, 1024)];
    mixes.extend(lower.map(|limits| Mix { keys: (0..12).collect(), adding: 30, calls: 1500, limits }));
    mixes
}

// One of the posters, and now and then none of them.
fn some_poster(random: &mut Random) -> u64 {
    match random.below(24) {
        0 => 16 + random.next() % 3,
        1 => random.next(),
        _ => random.next() % 16,
    }
}

// Makes one call of each, and compares what they answer.
fn call(map: &mut ListOrderedMultimap, model: &mut Model, key: u64, value: u64, which: usize, random: &mut Random) {
    let poster = some_poster(random);
    match which {
        0 => {
            let due = model.insert_all_as(poster, key, value).map(|old| old.first().copied());
            assert_eq!(map.posting_as(poster).insert(key, value), due);
        }
        1 => {
            let found = map.posting_as(poster).insert_all(key, value).map(Iterator::collect);
            assert_eq!(found, model.insert_all_as(poster, key, value));
        }
        2 => assert_eq!(map.remove(&key), model.remove_all(key).first().copied()),
        3 => assert_eq!(map.remove_all(&key).collect::<Vec<_>>(), model.remove_all(key)),
        4 => assert_eq!(map.pop_front(), model.pop_front()),
        5 => assert_eq!(map.pop_back(), model.pop_back()),
        6 => {
            let bits = random.next() | random.next();
            let keep = |key: &u64, value: &u64| bits >> (key.wrapping_add(*value) % 64) & 1 == 1;
            assert_eq!(map.retain(keep), model.retain(keep));
        }
        7 => {
            let members = [random.below(300), random.below(model.most_members + 2)][random.below(2)];
            let rounds = [random.below(1100), random.below(model.most_rounds + 2)][random.below(2)];
            assert_eq!(map.pack_to(members, rounds), model.pack_to(members, rounds));
        }
        8 => entry_call(map, model, poster, key, value, random.below(7)),
        9 if random.below(20) == 0 => {
            map.clear();
            model.clear();
        }
        10 => assert_eq!(map.remove_entry(&key), model.remove_all(key).first().map(|&first| (key, first))),
        11 => {
            let (found, due) = (map.remove_entry_all(&key), model.remove_all(key));
            assert_eq!(found.map(|(key, values)| (key, values.collect())), (!due.is_empty()).then_some((key, due)));
        }
        12 => map.pack_to_fit(),
        13 => {
            let pairs: Vec<_> = (0..random.below(30) as u64).map(|at| (key.wrapping_add(at % 4), value + at)).collect();
            let found = map.posting_as(poster).try_extend(pairs.iter().copied());
            assert_eq!(found, model.try_extend_as(poster, &pairs));
        }
        14 => plain_call(map, model, key, value, random.below(4)),
        _ => assert_eq!(map.posting_as(poster).append(key, value), model.append_as(poster, key, value)),
    }
}

// The adding calls that name no poster.
fn plain_call(map: &mut ListOrderedMultimap, model: &mut Model, key: u64, value: u64, which: usize) {
    match which {
        0 => assert_eq!(map.insert(key, value), model.insert_all(key, value).map(|old| old.first().copied())),
        1 => assert_eq!(map.insert_all(key, value).map(Iterator::collect), model.insert_all(key, value)),
        2 => assert_eq!(map.append(key, value), model.append(key, value)),
        _ => match map.entry(key) {
            Entry::Occupied(mut entry) => {
                assert_eq!(entry.append(value), model.append(key, value).map(|_| ()));
                assert_eq!(entry.insert(value), model.insert_all(key, value).unwrap()[0]);
                assert_eq!(Ok(entry.insert_all(value).collect()), model.insert_all(key, value));
            }
            Entry::Vacant(entry) => {
                let due = model.append(key, value).map(|_| vec![value]);
                assert_eq!(entry.insert_entry(value).map(|entry| entry.iter().collect()), due);
            }
        },
    }
}

fn entry_call(map: &mut ListOrderedMultimap, model: &mut Model, poster: u64, key: u64, value: u64, which: usize) {
    match map.entry(key) {
        Entry::Occupied(entry) => occupied_call(entry, model, poster, key, value, which),
        Entry::Vacant(entry) => {
            assert!(!model.contains_key(key));
            let due = model.append_as(poster, key, value).map(|_| vec![value]);
            let entry = entry.posting_as(poster);
            match which % 2 {
                0 => assert_eq!(entry.insert(value), due.map(|_| ())),
                _ => assert_eq!(entry.insert_entry(value).map(|entry| entry.iter().collect()), due),
            }
        }
    }
}

fn occupied_call(mut entry: OccupiedEntry, model: &mut Model, poster: u64, key: u64, value: u64, which: usize) {
    let record = model.get_all(key);
    assert_eq!((entry.get(), entry.len()), (record[0], record.len()));
    assert!(entry.iter().eq(record.iter().copied()));
    let mut posting = entry.posting_as(poster);
    match which {
        0 => return assert_eq!(posting.append(value), model.append_as(poster, key, value).map(|_| ())),
        1 => return assert_eq!(posting.insert(value), model.insert_all_as(poster, key, value).map(|old| old[0])),
        2 => {
            let found = posting.insert_all(value).map(Iterator::collect);
            return assert_eq!(found, model.insert_all_as(poster, key, value));
        }
        _ => drop(model.remove_all(key)),
    }
    match which {
        3 => assert_eq!(entry.remove(), record[0]),
        4 => assert!(entry.remove_all().eq(record)),
        5 => assert_eq!(entry.remove_entry(), (key, record[0])),
        _ => {
            let (given, values) = entry.remove_entry_all();
            assert_eq!((given, values.collect()), (key, record));
        }
    }
}

fn run(mix: &Mix, random: &mut Random) -> (usize, usize) {
    let (members, rounds) = mix.limits;
    let mut map = ListOrderedMultimap::with_limits(members, rounds).unwrap();
    let mut model = Model::with_limits(members, rounds);
    let (mut most_members, mut most_rounds) = (0, 0);
    for at in 0..mix.calls {
        let key = mix.keys[random.below(mix.keys.len())];
        let which = random.below(15 + mix.adding);
        call(&mut map, &mut model, key, at as u64, which, random);
        same_lists(&map, &model);
        same_record(&map, &model, key);
        if at % 32 == 0 {
            same(&map, &model);
        }
        most_members = most_members.max(model.members.len());
        most_rounds = most_rounds.max(model.pairs.len());
    }
    same(&map, &model);
    (most_members, most_rounds)
}

#[test]
fn random_lists_answer_as_the_model() {
    let mut random = Random(20_240_607);
    let mixes = mixes(&mut random);
    let reached: Vec<_> = mixes.iter().map(|mix| run(mix, &mut random)).collect();
    // The lists come to both limits, the highest and lower ones, or the test would say little.
    assert!(reached.iter().any(|most| most.0 == 256), "{reached:?}");
    assert!(reached.iter().any(|most| most.1 == 1024), "{reached:?}");
    assert!(mixes.iter().zip(&reached).any(|(mix, most)| mix.limits == (8, 40) && *most == (8, 40)), "{reached:?}");
}
