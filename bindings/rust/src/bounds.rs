// How far the library writes: a record between bytes that no call may touch.
#![allow(unsafe_code)]

use crate::declarations::{self, Record};
use std::mem::{offset_of, size_of};

const FILL: u8 = 0xAA;
const AROUND: usize = 4096;

// Holds a record, with AROUND bytes before it and after it, all of them filled.
struct Room {
    words: Vec<u64>,
}

impl Room {
    fn new() -> Room {
        Room { words: vec![u64::from_ne_bytes([FILL; 8]); (size_of::<Record>() + 2 * AROUND) / 8] }
    }

    fn record(&mut self) -> *mut Record {
        unsafe { self.words.as_mut_ptr().byte_add(AROUND).cast() }
    }

    // The record's bytes, where those around it are as they were filled.
    fn bytes(&self) -> Vec<u8> {
        let bytes: Vec<u8> = self.words.iter().flat_map(|word| word.to_ne_bytes()).collect();
        let (before, rest) = bytes.split_at(AROUND);
        let (record, after) = rest.split_at(size_of::<Record>());
        assert!(before.iter().chain(after).all(|&byte| byte == FILL), "a call wrote beside the record");
        record.to_vec()
    }
}

// The numbers that a call answers.
fn told(call: impl FnOnce(*mut [u64; 4])) -> [u64; 4] {
    let mut answer = [u64::MAX; 4];
    call(&mut answer);
    answer
}

#[test]
fn the_empty_map_is_every_field_and_no_more() {
    let mut room = Room::new();
    told(|answer| unsafe { declarations::new(room.record(), 256, 1024, answer) });
    let bytes = room.bytes();
    let kept: Vec<usize> = (0..bytes.len()).filter(|&at| bytes[at] == FILL).collect();
    // what C leaves between two fields, and after the last one where it leaves any
    let gap = offset_of!(Record, previous_key) + size_of::<[u16; 257]>()..offset_of!(Record, values);
    let end = offset_of!(Record, taken) + size_of::<[u32; 16]>()..size_of::<Record>();
    assert_eq!(kept, gap.chain(end).collect::<Vec<_>>());
}

// A refused making leaves a whole map too.
#[test]
fn a_refused_making_is_every_field() {
    let made = |members, rounds| {
        let mut room = Room::new();
        let answer = told(|answer| unsafe { declarations::new(room.record(), members, rounds, answer) });
        (answer, room.bytes())
    };
    let (done, none) = made(0, 0);
    assert_eq!(done, [2, 0, 0, 0]);
    for (members, rounds) in [(257, 0), (0, 1025), (u64::MAX, u64::MAX)] {
        assert_eq!(made(members, rounds), ([0, 15, 0, 0], none.clone()));
    }
}

#[test]
fn calls_on_a_full_map_stay_within_it() {
    let mut room = Room::new();
    let record = room.record();
    unsafe {
        told(|answer| declarations::new(record, 256, 1024, answer));
        for at in 0..1026 {
            told(|answer| declarations::append(record, at % 16, at % 256, u64::MAX - at, answer));
        }
        assert_eq!(told(|answer| declarations::values_len(record, answer))[1], 1024);
        told(|answer| declarations::append(record, 0, 256, 0, answer));
        told(|answer| declarations::pop_front(record, answer));
        told(|answer| declarations::insert(record, 15, 7, 1, answer));
        told(|answer| declarations::pack_to(record, 256, 1024, answer));
        assert_eq!(declarations::well_linked(record), 1);
    }
    room.bytes();
}

#[test]
fn reading_an_image_stays_within_the_record() {
    let map = crate::ListOrderedMultimap::from_pairs(&[(7, 10); 1024]).unwrap();
    let (image, mut room) = (map.to_bytes(), Room::new());
    let record = room.record();
    // whole, cut off, and for limits that do not hold it or are too high
    for (len, rounds) in [(image.len(), 1024), (image.len() - 1, 1024), (image.len(), 1023), (image.len(), 1025)] {
        told(|answer| unsafe { declarations::read_image(record, 256, rounds, image.as_ptr(), len, answer) });
        room.bytes();
    }
}
