// retain: neighbours of one record, every arrangement of a few pairs with every marks, and a function that panics.

mod common;

use common::{same, Model};
use prelgammo::ListOrderedMultimap;
use std::panic::{catch_unwind, AssertUnwindSafe};

#[test]
fn struck_neighbours_of_one_record_leave() {
    let mut map = ListOrderedMultimap::from_pairs(&[(1, 10), (1, 11)]).unwrap();
    assert_eq!(map.retain(|_, _| false), 0);
    assert_eq!((map.keys_len(), map.values_len(), map.contains_key(&1)), (0, 0, false));
    let mut map = ListOrderedMultimap::from_pairs(&[(1, 10), (1, 11), (1, 12), (1, 13)]).unwrap();
    assert_eq!(map.retain(|_, &value| value == 10 || value == 13), 2);
    assert!(map.get_all(&1).eq([10, 13]));
    assert!(map.get_all(&1).rev().eq([13, 10]));
}

// Every arrangement of up to five pairs over three keys, with every marks, and then used further.
#[test]
fn every_small_arrangement() {
    for count in 0..=5u32 {
        for arrangement in 0..3u64.pow(count) {
            let pairs: Vec<_> = (0..count).map(|at| (arrangement / 3u64.pow(at) % 3, at as u64)).collect();
            let made = ListOrderedMultimap::from_pairs(&pairs).unwrap();
            for marks in 0..1u64 << count {
                strike(&made, &pairs, marks);
            }
        }
    }
}

fn strike(made: &ListOrderedMultimap, pairs: &[(u64, u64)], marks: u64) {
    let (mut map, mut model) = (made.clone(), Model::default());
    for &(key, value) in pairs {
        model.append(key, value).unwrap();
    }
    let keep = |_: &u64, value: &u64| marks >> value & 1 == 1;
    assert_eq!(map.retain(keep), model.retain(keep));
    assert_eq!(map.append(1, 9), model.append(1, 9));
    same(&map, &model);
}

#[test]
fn the_function_sees_each_pair_once_in_order() {
    let pairs = [(7, 10), (9, 20), (7, 11), (7, 12)];
    let mut map = ListOrderedMultimap::from_pairs(&pairs).unwrap();
    let mut seen = Vec::new();
    map.retain(|&key, &value| {
        seen.push((key, value));
        seen.len() % 2 == 0
    });
    assert_eq!(seen, pairs);
    assert!(map.iter().eq([(9, 20), (7, 12)]));
}

#[test]
fn a_panic_in_the_function_leaves_the_map() {
    let (mut map, mut model) = (ListOrderedMultimap::new(), Model::default());
    for value in 0..100 {
        assert_eq!(map.append(value % 9, value), model.append(value % 9, value));
    }
    for stop in [0, 1, 50, 99] {
        let keep = |_: &u64, value: &u64| if *value == stop { panic!("at {stop}") } else { value % 2 == 1 };
        assert!(catch_unwind(AssertUnwindSafe(|| map.retain(keep))).is_err());
        same(&map, &model);
    }
    assert_eq!(map.append(3, 100), model.append(3, 100));
    assert_eq!(map.retain(|_, value| value % 2 == 1), model.retain(|_, value| value % 2 == 1));
    same(&map, &model);
}
