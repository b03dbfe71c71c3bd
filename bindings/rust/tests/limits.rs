// The calls at 1,024 values and 256 keys, and at lower limits; and every refusal that the package gives.

mod common;

use common::{same, Model};
use prelgammo::{Entry, ListOrderedMultimap, Refused};

// Maps with so many pairs over so many keys, in turn.
fn filled(rounds: u64, members: u64) -> (ListOrderedMultimap, Model) {
    filled_within((256, 1024), rounds, members)
}

// The same with limits, of members and of rounds.
fn filled_within(limits: (usize, usize), rounds: u64, members: u64) -> (ListOrderedMultimap, Model) {
    let mut map = ListOrderedMultimap::with_limits(limits.0, limits.1).unwrap();
    let mut model = Model::with_limits(limits.0, limits.1);
    for value in 0..rounds {
        assert_eq!(map.append(value % members, value), model.append(value % members, value));
    }
    same(&map, &model);
    (map, model)
}

fn vacant_insert(map: &mut ListOrderedMultimap, key: u64) -> Result<(), Refused> {
    match map.entry(key) {
        Entry::Vacant(entry) => entry.insert(0),
        Entry::Occupied(entry) => panic!("{entry:?}"),
    }
}

fn occupied_append(map: &mut ListOrderedMultimap, key: u64) -> Result<(), Refused> {
    match map.entry(key) {
        Entry::Occupied(mut entry) => entry.append(0),
        Entry::Vacant(entry) => panic!("{entry:?}"),
    }
}

#[test]
fn a_full_map_takes_no_round() {
    let (mut map, _) = filled(1023, 100);
    assert_eq!(map.clone().append(5, 0), Ok(true));
    assert_eq!(map.append(1000, 0), Ok(false));
    assert_eq!(map.append(5, 0), Err(Refused::Full));
    assert_eq!(map.append(2000, 0), Err(Refused::Full));
    assert_eq!(map.insert(2000, 0), Err(Refused::Full));
    assert_eq!(map.insert_all(2000, 0).unwrap_err(), Refused::Full);
    assert_eq!(occupied_append(&mut map, 5), Err(Refused::Full));
    assert_eq!(vacant_insert(&mut map, 2000), Err(Refused::Full));
    assert_eq!((map.values_len(), map.keys_len(), map.taken()[0]), (1024, 101, 1024));
}

#[test]
fn a_full_map_takes_a_present_key_s_insert() {
    let (mut map, mut model) = filled(1024, 100);
    assert_eq!(map.insert_all(5, 7).map(Iterator::collect), model.insert_all(5, 7));
    same(&map, &model);
    let (mut map, mut model) = filled(1024, 1);
    assert_eq!(map.insert(0, 7), model.insert_all(0, 7).map(|old| Some(old[0])));
    same(&map, &model);
}

#[test]
fn a_crowded_map_takes_no_member() {
    let (mut map, mut model) = filled(300, 256);
    let before = map.clone();
    assert_eq!(map.append(256, 0), Err(Refused::Crowded));
    assert_eq!(map.insert(256, 0), Err(Refused::Crowded));
    assert_eq!(map.insert_all(256, 0).unwrap_err(), Refused::Crowded);
    assert_eq!(vacant_insert(&mut map, 256), Err(Refused::Crowded));
    assert_eq!(map, before);
    assert_eq!(map.append(255, 0), model.append(255, 0));
    assert_eq!(map.remove(&0), model.remove_all(0).first().copied());
    assert_eq!(map.append(256, 0), model.append(256, 0));
    same(&map, &model);
}

#[test]
fn rounds_are_refused_before_members() {
    let (mut map, _) = filled(1024, 256);
    assert_eq!(map.append(256, 0), Err(Refused::Full));
    assert_eq!(vacant_insert(&mut map, 256), Err(Refused::Full));
}

#[test]
fn freed_places_are_used_again() {
    let (mut map, mut model) = filled(1024, 256);
    for turn in 0..3 {
        assert_eq!(map.retain(|_, value| value % 3 == turn), model.retain(|_, value| value % 3 == turn));
        let mut value = 0;
        while model.pairs.len() < 1024 {
            assert_eq!(map.append(value % 256, value), model.append(value % 256, value));
            value += 1;
        }
        assert_eq!(map.append(0, 0), Err(Refused::Full));
        same(&map, &model);
    }
}

#[test]
fn pack_to_is_refused_in_order() {
    let (mut map, model) = filled(20, 10);
    assert_eq!(map.pack_to(9, 19), Err(Refused::MembersBelow));
    assert_eq!(map.pack_to(9, 5000), Err(Refused::MembersBelow));
    assert_eq!(map.pack_to(10, 19), Err(Refused::RoundsBelow));
    assert_eq!(map.pack_to(300, 19), Err(Refused::RoundsBelow));
    assert_eq!(map.pack_to(257, 1024), Err(Refused::Above));
    assert_eq!(map.pack_to(256, 1025), Err(Refused::Above));
    assert_eq!(map.pack_to(usize::MAX, usize::MAX), Err(Refused::Above));
    assert_eq!(map.pack_to(10, 20), Ok(()));
    assert_eq!(map.pack_to(256, 1024), Ok(()));
    same(&map, &model);
}

#[test]
fn a_packed_map_has_its_pairs_in_the_first_places() {
    let (mut map, mut model) = filled(900, 250);
    assert_eq!(map.retain(|_, value| value % 7 > 1), model.retain(|_, value| value % 7 > 1));
    map.pack_to(256, 1024).unwrap();
    let record = map.as_record();
    let places = record.key_index.map(|place| record.keys[place as usize % 256]);
    assert!(places.iter().copied().zip(record.values).take(model.pairs.len()).eq(model.pairs.iter().copied()));
    assert_eq!(record.keys[..model.members.len()], model.members);
}

#[test]
fn limits_of_its_own_make_a_map_full() {
    let (mut map, model) = filled_within((2, 3), 3, 2);
    for key in [0, 1, 2] {
        assert_eq!(map.append(key, 0), Err(Refused::Full));
    }
    assert_eq!(map.insert(2, 0), Err(Refused::Full));
    assert_eq!(map.insert_all(2, 0).unwrap_err(), Refused::Full);
    assert_eq!(occupied_append(&mut map, 1), Err(Refused::Full));
    assert_eq!(vacant_insert(&mut map, 2), Err(Refused::Full));
    assert_eq!(map.try_extend([(0, 0)]), Err(Refused::Full));
    same(&map, &model);
    // a present key's old values make way
    assert_eq!(map.insert(0, 9), Ok(Some(0)));
    assert_eq!((map.values_len(), map.append(0, 10), map.append(0, 11)), (2, Ok(true), Err(Refused::Full)));
}

#[test]
fn limits_of_its_own_make_a_map_crowded() {
    let (mut map, mut model) = filled_within((2, 3), 2, 2);
    assert_eq!(map.append(2, 0), Err(Refused::Crowded));
    assert_eq!(map.insert(2, 0), Err(Refused::Crowded));
    assert_eq!(map.insert_all(2, 0).unwrap_err(), Refused::Crowded);
    assert_eq!(vacant_insert(&mut map, 2), Err(Refused::Crowded));
    assert_eq!(map.append(1, 5), model.append(1, 5));
    same(&map, &model);
    assert_eq!(map.remove(&0), model.remove_all(0).first().copied());
    assert_eq!(map.append(2, 6), model.append(2, 6));
    same(&map, &model);
}

#[test]
fn pack_to_is_refused_above_the_map_s_own_limits() {
    let (mut map, model) = filled_within((4, 6), 5, 3);
    assert_eq!(map.pack_to(2, 7), Err(Refused::MembersBelow));
    assert_eq!(map.pack_to(5, 4), Err(Refused::RoundsBelow));
    assert_eq!(map.pack_to(5, 6), Err(Refused::Above));
    assert_eq!(map.pack_to(4, 7), Err(Refused::Above));
    assert_eq!(map.pack_to(256, 1024), Err(Refused::Above));
    assert_eq!(map.pack_to(4, 6), Ok(()));
    same(&map, &model);
}

#[test]
fn a_limit_may_be_0() {
    for (members, rounds, refused) in [(0, 0, Refused::Full), (5, 0, Refused::Full), (0, 5, Refused::Crowded)] {
        let mut map = ListOrderedMultimap::with_limits(members, rounds).unwrap();
        assert_eq!(map.append(7, 10), Err(refused));
        assert_eq!(map.insert(7, 10), Err(refused));
        assert_eq!(vacant_insert(&mut map, 7), Err(refused));
        assert_eq!(map.pack_to(0, 0), Ok(()));
        assert_eq!(map.pack_to(members + 1, 0), Err(Refused::Above));
        assert_eq!((map.pop_front(), map.values_len(), map.keys_len(), map.taken()), (None, 0, 0, [0; 16]));
        let back = ListOrderedMultimap::from_bytes_with_limits(&map.to_bytes(), members, rounds);
        assert_eq!(back.map(|mut back| back.append(7, 10)), Ok(Err(refused)));
    }
}

#[test]
fn limits_that_are_too_high_are_refused() {
    for (members, rounds) in [(257, 1024), (256, 1025), (257, 0), (0, 1025), (usize::MAX, usize::MAX)] {
        assert_eq!(ListOrderedMultimap::with_limits(members, rounds), Err(Refused::LimitsAbove));
    }
    for (members, rounds) in [(256, 1024), (256, 0), (0, 1024)] {
        assert!(ListOrderedMultimap::with_limits(members, rounds).is_ok());
    }
}

// Each of these leaves a map with the limits that it was made with.
#[test]
fn every_way_to_another_map_keeps_the_limits() {
    let has_limits = |mut map: ListOrderedMultimap| {
        while map.pop_front().is_some() {}
        assert_eq!([map.append(0, 1), map.append(1, 2)], [Ok(false); 2]);
        assert_eq!(map.append(2, 3), Err(Refused::Crowded));
        assert_eq!([map.append(0, 4), map.append(0, 5)], [Ok(true), Err(Refused::Full)]);
        assert_eq!([map.pack_to(3, 3), map.pack_to(2, 4)], [Err(Refused::Above); 2]);
    };
    let changes: [fn(&mut ListOrderedMultimap); 9] = [
        |map| map.clear(),
        |map| map.pack_to(2, 3).unwrap(),
        |map| map.pack_to_fit(),
        |map| assert_eq!(map.retain(|_, _| false), 0),
        |map| assert_eq!(map.remove(&0), Some(0)),
        |map| assert_eq!(map.insert(1, 9), Ok(Some(1))),
        |map| assert_eq!(map.append(2, 9), Err(Refused::Full)),
        |map| assert_eq!(map.try_extend([(0, 9)]), Err(Refused::Full)),
        |map| *map = ListOrderedMultimap::from_record(map.as_record()).unwrap(),
    ];
    for change in changes {
        let (mut map, _) = filled_within((2, 3), 3, 2);
        change(&mut map);
        has_limits(map.clone());
        has_limits(map);
    }
}

#[test]
fn the_empty_map_has_nothing() {
    let mut map = ListOrderedMultimap::default();
    assert_eq!((map.pop_front(), map.pop_back()), (None, None));
    assert_eq!((map.get(&0), map.remove(&0)), (None, None));
    assert_eq!(map.get_all(&0).len() + map.remove_all(&0).len() + map.iter().len() + map.keys().len(), 0);
    assert_eq!(map.retain(|_, _| panic!("there is no pair")), 0);
    map.clear();
    assert_eq!((map.entry_len(&0), map.contains_key(&0), map.taken()), (0, false, [0; 16]));
    assert_eq!(format!("{map:?}"), "{}");
}

#[test]
fn refusals_have_numbers_and_words() {
    let rows = [
        (Refused::Full, 1, "as many rounds held as the map's limit"),
        (Refused::Crowded, 2, "as many members held as the map's limit"),
        (Refused::Short, 3, "a slice to be written is shorter than the result"),
        (Refused::MembersBelow, 4, "members' minimum below members held"),
        (Refused::RoundsBelow, 5, "rounds' minimum below rounds held"),
        (Refused::Above, 6, "members' minimum above the map's limit of members, or rounds' above that of rounds"),
        (Refused::MarksCount, 7, "marks are not as many as the rounds held"),
        (Refused::MarkValue, 8, "a mark is neither 0 nor 1"),
        (Refused::Absent, 9, "member absent"),
        (Refused::Present, 10, "member present"),
        (Refused::TooShort, 11, "fewer than 8 bytes"),
        (Refused::TooMany, 12, "n above the limit of rounds or m above the limit of members"),
        (Refused::WrongLength, 13, "length is not 8 + 16 × n"),
        (Refused::WrongMembers, 14, "m is not the number of distinct members"),
        (Refused::LimitsAbove, 15, "members' limit above 256, or rounds' above 1,024"),
        (Refused::NoPoster, 16, "poster above 15"),
    ];
    for (refused, number, words) in rows {
        assert_eq!(refused.number(), number);
        let error: Box<dyn std::error::Error> = refused.into();
        assert_eq!(error.to_string(), format!("refused {number}: {words}"));
    }
}
