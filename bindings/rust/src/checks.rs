// The checks that no safe call comes to, 9, 10 and 3, and that a poster above 15 is refused before each of them.
#![allow(unsafe_code)]

use crate::ffi::Map;
use crate::{declarations, MEMBERS, ROUNDS};

const ABOVE: [u64; 3] = [16, 17, u64::MAX];

// A map with two values of key 7.
fn made() -> Map {
    let (mut map, answer) = Map::new(MEMBERS as u64, ROUNDS as u64);
    answer.done();
    assert!(!map.append(0, 7, 10).present());
    assert!(map.append(0, 7, 11).present());
    map
}

// The call is refused by this number for every poster up to 15, by 16 for those above, and leaves the map.
fn refused(number: u64, call: impl Fn(&mut Map, u64) -> [u64; 4]) {
    let mut map = made();
    for (poster, number) in (0..16).map(|poster| (poster, number)).chain(ABOVE.map(|poster| (poster, 16))) {
        assert_eq!(call(&mut map, poster), [0, number, 0, 0]);
        assert!(map.record() == made().record());
    }
}

#[test]
fn a_poster_is_refused_before_an_absent_key() {
    refused(9, |map, poster| map.occupied_append(poster, 8, 0).0);
    refused(9, |map, poster| map.occupied_insert(poster, 8, 0).0);
}

#[test]
fn a_poster_is_refused_before_a_present_key() {
    refused(10, |map, poster| map.vacant_insert(poster, 7, 0).0);
}

#[test]
fn a_poster_is_refused_before_a_short_slice() {
    refused(3, |map, poster| {
        let (mut record, mut out, mut answer) = (*map.record(), [5], [0; 4]);
        // the record is well-linked, as a map's is
        unsafe { declarations::insert_all(&mut record, poster, 7, 12, out.as_mut_ptr(), out.len(), &mut answer) };
        assert!(record == *map.record());
        assert_eq!(out, [5]);
        answer
    });
}
