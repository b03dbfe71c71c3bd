// The crate's methods that document 01 does not name, at their edges; tests/random.rs has them on any map.

mod common;

use common::{same, Model};
use prelgammo::list_ordered_multimap::{Entry, ListOrderedMultimap};
use prelgammo::Refused;
use std::panic::{catch_unwind, AssertUnwindSafe};

fn of(pairs: &[(u64, u64)]) -> (ListOrderedMultimap, Model) {
    let mut model = Model::default();
    model.try_extend(pairs).unwrap();
    (ListOrderedMultimap::from_pairs(pairs).unwrap(), model)
}

#[test]
fn the_empty_map_has_no_ends() {
    let mut map = ListOrderedMultimap::new();
    assert_eq!((map.front(), map.back(), map.is_empty()), (None, None, true));
    assert_eq!((map.values().len(), map.pairs().len(), map.clone().into_iter().len()), (0, 0, 0));
    assert_eq!(map.remove_entry(&7), None);
    assert!(map.remove_entry_all(&7).is_none());
    map.pack_to_fit();
    assert!(map.is_empty());
}

// A map that was filled to both limits, emptied and filled again has its ends in other places than at first.
#[test]
fn the_ends_are_followed() {
    let pairs: Vec<(u64, u64)> = (0..1024).map(|at| (at % 256, at)).collect();
    let (mut map, mut model) = of(&pairs);
    same(&map, &model);
    for turn in 0..3 {
        while !model.pairs.is_empty() {
            assert_eq!(map.pop_front(), model.pop_front());
            assert_eq!(map.pop_back(), model.pop_back());
            assert_eq!((map.front(), map.back()), (model.pairs.first().copied(), model.pairs.last().copied()));
        }
        let again: Vec<(u64, u64)> = (0..500).map(|at| (at * 7 % 200, 1000 * turn + at)).collect();
        assert_eq!(map.try_extend(again.iter().copied()), model.try_extend(&again));
        same(&map, &model);
    }
}

#[test]
fn pairs_follow_the_joining_order() {
    let mut map = ListOrderedMultimap::from_pairs(&[(7, 10), (9, 20), (7, 11)]).unwrap();
    map.insert(7, 12).unwrap();
    assert!(map.values().eq([20, 12]));
    let pairs: Vec<(u64, Vec<u64>)> = map.pairs().map(|(key, values)| (key, values.collect())).collect();
    assert_eq!(pairs, [(7, vec![12]), (9, vec![20])]);
}

// The iterators own what they give, so that the map may change below them.
#[test]
fn an_iterator_outlives_a_change() {
    let mut map = ListOrderedMultimap::from_pairs(&[(7, 10), (9, 20)]).unwrap();
    let (values, pairs) = (map.values(), map.pairs());
    map.clear();
    assert!(values.eq([10, 20]));
    assert!(pairs.map(|pair| pair.0).eq([7, 9]));
}

#[test]
fn try_extend_adds_all_or_nothing() {
    let (mut map, model) = of(&[(7, 10), (9, 20)]);
    let full = (0..1023).map(|at| (at % 5, at));
    assert_eq!(map.try_extend(full.clone()), Err(Refused::Full));
    same(&map, &model);
    assert_eq!(map.try_extend((0..255).map(|at| (1000 + at, at))), Err(Refused::Crowded));
    same(&map, &model);
    // stops at the first that is refused, so that an endless iterator is no harm
    assert_eq!(map.try_extend((0..).map(|at| (at, at))), Err(Refused::Crowded));
    same(&map, &model);
    assert_eq!(map.try_extend(full.take(1022)), Ok(()));
    assert_eq!((map.values_len(), map.taken()[0], map.back()), (1024, 1024, Some((1, 1021))));
}

#[test]
fn try_extend_with_an_iterator_that_panics_leaves_the_map() {
    let (mut map, model) = of(&[(7, 10), (9, 20)]);
    let pairs = (0..9).map(|at| if at == 5 { panic!("at {at}") } else { (at, at) });
    assert!(catch_unwind(AssertUnwindSafe(|| map.try_extend(pairs))).is_err());
    same(&map, &model);
}

#[test]
fn a_map_is_extended_by_its_own_pairs() {
    let (mut map, mut model) = of(&[(7, 10), (9, 20), (7, 11)]);
    assert_eq!(map.try_extend(map.iter()), model.try_extend(&model.pairs.clone()));
    same(&map, &model);
}

#[test]
fn pack_to_fit_puts_the_pairs_into_the_first_places() {
    let pairs: Vec<(u64, u64)> = (0..900).map(|at| (at % 250, at)).collect();
    let (mut map, mut model) = of(&pairs);
    assert_eq!(map.retain(|_, value| value % 7 > 1), model.retain(|_, value| value % 7 > 1));
    let before = map.as_record().values[..model.pairs.len()].to_vec();
    map.pack_to_fit();
    same(&map, &model);
    let values: Vec<u64> = model.pairs.iter().map(|pair| pair.1).collect();
    assert_ne!(before, values);
    assert_eq!(map.as_record().values[..values.len()], values);
    assert_eq!(map.as_record().keys[..model.members.len()], model.members);
}

#[test]
fn an_entry_is_refused_at_the_limits() {
    let pairs: Vec<(u64, u64)> = (0..1024).map(|at| (at % 256, at)).collect();
    let (mut map, mut model) = of(&pairs);
    let Entry::Vacant(entry) = map.entry(256) else { panic!("256 is present") };
    assert_eq!(entry.insert_entry(0).err(), Some(Refused::Full));
    let Entry::Occupied(mut entry) = map.entry(5) else { panic!("5 is absent") };
    assert_eq!(Ok(entry.insert_all(7).collect()), model.insert_all(5, 7));
    same(&map, &model);
    let Entry::Vacant(entry) = map.entry(256) else { panic!("256 is present") };
    assert_eq!(entry.insert_entry(0).err(), Some(Refused::Crowded));
    same(&map, &model);
}

// Writes each type by the crate's path to it, as a program that came from the crate may.
#[test]
fn the_crate_s_path_leads_to_every_type() {
    use prelgammo::list_ordered_multimap as path;
    let map: path::ListOrderedMultimap = ListOrderedMultimap::from_pairs(&[(7, 10)]).unwrap();
    let (values, keys, all): (path::EntryValues, path::Keys, path::Values) =
        (map.get_all(&7), map.keys(), map.values());
    let (pairs, iter): (path::KeyValues, path::Iter) = (map.pairs(), map.iter());
    assert_eq!([values.len(), keys.len(), all.len(), pairs.len(), iter.len()], [1; 5]);
    let mut copy = map.clone();
    let drain: path::EntryValuesDrain = copy.remove_all(&7);
    let vacant: path::Entry = copy.entry(7);
    assert!(matches!(vacant, path::Entry::Vacant(path::VacantEntry { .. })));
    let mut popped = map.clone();
    let key: Option<(path::KeyWrapper, u64)> = popped.pop_back();
    let into: path::IntoIter = map.into_iter();
    assert_eq!((drain.len(), into.len(), key), (1, 1, Some((path::KeyWrapper::Owned(7), 10))));
}
