// Records of unknown origin: only well-linked ones become maps.

use prelgammo::{ListOrderedMultimap, Record, Refused};

fn sample() -> ListOrderedMultimap {
    let mut map = ListOrderedMultimap::from_pairs(&[(7, 10), (9, 20), (7, 11), (3, 30), (7, 12)]).unwrap();
    map.remove(&9);
    map
}

fn refused(damage: impl Fn(&mut Record)) {
    let mut record = Box::new(*sample().as_record());
    damage(&mut record);
    assert!(ListOrderedMultimap::from_record(&record).is_none());
}

#[test]
fn a_map_s_record_is_well_linked() {
    let map = sample();
    let mut back = ListOrderedMultimap::from_record(map.as_record()).unwrap();
    assert_eq!(back, map);
    assert!(back.keys().eq([7, 3]));
    assert_eq!(back.taken(), map.taken());
    assert_eq!(back.append(9, 1), Ok(false));
}

#[test]
fn damaged_records_are_no_maps() {
    refused(|record| record.keys_len += 1);
    refused(|record| record.keys_len = 0);
    refused(|record| record.values_len += 1);
    refused(|record| record.keys_fresh = 300);
    refused(|record| record.values_free = 0);
    refused(|record| record.next_value[0] = 0);
    refused(|record| record.previous_value[1024] = 65535);
    refused(|record| record.next_index[1024] = 2);
    refused(|record| record.length[0] = 2);
    refused(|record| record.key_index[0] = 2);
    refused(|record| record.index = [65535; 512]);
    refused(|record| record.keys[0] = 8);
}

// The sample has two members and four rounds.
#[test]
fn a_record_s_limits_hold_it_and_are_not_too_high() {
    refused(|record| record.keys_limit = 1);
    refused(|record| record.keys_limit = 257);
    refused(|record| record.keys_limit = 65535);
    refused(|record| record.values_limit = 3);
    refused(|record| record.values_limit = 1025);
    let mut record = Box::new(*sample().as_record());
    (record.keys_limit, record.values_limit) = (2, 5);
    let mut map = ListOrderedMultimap::from_record(&record).unwrap();
    assert_eq!(map.append(8, 1), Err(Refused::Crowded));
    assert_eq!((map.append(3, 2), map.append(3, 3)), (Ok(true), Err(Refused::Full)));
}

// The check asks nothing of the posters' counters but their ceiling, which each stays at.
#[test]
fn a_record_may_have_any_counters() {
    let mut record = Box::new(*sample().as_record());
    for (poster, count) in record.taken.iter_mut().enumerate() {
        *count = u32::MAX - poster as u32;
    }
    let mut map = ListOrderedMultimap::from_record(&record).unwrap();
    for poster in [0, 1, 1, 2, 15] {
        assert_eq!(map.posting_as(poster).append(3, 0), Ok(true));
    }
    let most = u64::from(u32::MAX);
    assert_eq!(map.taken()[..4], [most, most, most - 1, most - 3]);
    assert_eq!(map.taken()[14..], [most - 14, most - 14]);
}
