// Maps over the functions of libprelgammo.a. With declarations.rs, which has them, the only unsafe code of this package.
#![allow(unsafe_code)]

use crate::answer::Answer;
pub use crate::declarations::Record;
use crate::{declarations, Refused, POSTERS};

// The library's functions are lent the map's record, and change it where it stands. What every function
// but om_new, om_well_linked and om_read_image promises, it promises of a well-linked map.

// The answer of a function that may change the map. A Map is well-linked, so that the promise holds. The record is lent
// for the call, as is each slice, and they overlap nowhere.
macro_rules! change {
    ($map:ident, $function:ident($($argument:expr),*)) => {{
        let mut answer = [0; 4];
        unsafe { declarations::$function(&mut *$map.record, $($argument,)* &mut answer) };
        Answer(answer)
    }};
}

// The answer of one that only reads.
macro_rules! read {
    ($map:ident, $function:ident($($argument:expr),*)) => {{
        let mut answer = [0; 4];
        unsafe { declarations::$function(&*$map.record, $($argument,)* &mut answer) };
        Answer(answer)
    }};
}

// A well-linked map: it comes from om_new or om_read_image and was changed by calls alone, or it passed om_well_linked.
#[derive(Clone)]
pub struct Map {
    record: Box<Record>,
}

// A record in a box, written whole by a call.
fn made(write: impl FnOnce(*mut Record)) -> Box<Record> {
    let mut record = Box::new_uninit();
    write(record.as_mut_ptr());
    unsafe { record.assume_init() }
}

// What a call wrote to the front of a vector's room: so many numbers, which is no more than there was room for.
fn written<T: Copy>(mut out: Vec<T>, count: u64) -> Vec<T> {
    assert!(count as usize <= out.capacity());
    unsafe { out.set_len(count as usize) };
    out
}

impl Map {
    // The empty map with these limits, or with both 0 where the answer is a refusal.
    pub fn new(members: u64, rounds: u64) -> (Map, Answer) {
        let mut answer = [0; 4];
        // om_new writes every field
        let record = made(|record| unsafe { declarations::new(record, members, rounds, &mut answer) });
        (Map { record }, Answer(answer))
    }

    // The map of an image with these limits, or the empty one where the answer is a refusal.
    pub fn read_image(members: u64, rounds: u64, bytes: &[u8]) -> (Map, Answer) {
        let (room, len, mut answer) = (bytes.as_ptr(), bytes.len(), [0; 4]);
        // om_read_image does so too, before all else
        let record =
            made(|record| unsafe { declarations::read_image(record, members, rounds, room, len, &mut answer) });
        (Map { record }, Answer(answer))
    }

    // The map of a record, where it is well-linked.
    pub fn check(record: &Record) -> Option<Map> {
        let well_linked = unsafe { declarations::well_linked(record) };
        (well_linked == 1).then(|| Map { record: Box::new(*record) })
    }

    pub fn record(&self) -> &Record {
        &self.record
    }

    pub fn append(&mut self, poster: u64, k: u64, v: u64) -> Answer {
        change!(self, append(poster, k, v))
    }

    pub fn insert(&mut self, poster: u64, k: u64, v: u64) -> Answer {
        change!(self, insert(poster, k, v))
    }

    pub fn insert_all(&mut self, poster: u64, k: u64, v: u64) -> Result<Vec<u64>, Refused> {
        let mut out = self.room_for(k);
        let answer = change!(self, insert_all(poster, k, v, out.as_mut_ptr(), out.capacity())).accepted()?;
        Ok(written(out, answer.count()))
    }

    pub fn remove(&mut self, k: u64) -> Answer {
        change!(self, remove(k))
    }

    pub fn remove_all(&mut self, k: u64) -> Vec<u64> {
        let mut out = self.room_for(k);
        let answer = change!(self, remove_all(k, out.as_mut_ptr(), out.capacity()));
        written(out, answer.count())
    }

    pub fn occupied_append(&mut self, poster: u64, k: u64, v: u64) -> Answer {
        change!(self, occupied_append(poster, k, v))
    }

    pub fn occupied_insert(&mut self, poster: u64, k: u64, v: u64) -> Answer {
        change!(self, occupied_insert(poster, k, v))
    }

    pub fn occupied_remove_entry(&mut self, k: u64) -> Answer {
        change!(self, occupied_remove_entry(k))
    }

    pub fn vacant_insert(&mut self, poster: u64, k: u64, v: u64) -> Answer {
        change!(self, vacant_insert(poster, k, v))
    }

    pub fn pop_front(&mut self) -> Answer {
        change!(self, pop_front())
    }

    pub fn pop_back(&mut self) -> Answer {
        change!(self, pop_back())
    }

    pub fn retain(&mut self, marks: &[u8]) -> Answer {
        change!(self, retain(marks.as_ptr(), marks.len()))
    }

    pub fn pack_to(&mut self, keys_minimum: u64, values_minimum: u64) -> Answer {
        change!(self, pack_to(keys_minimum, values_minimum))
    }

    pub fn clear(&mut self) -> Answer {
        change!(self, clear())
    }

    pub fn entry(&self, k: u64) -> Answer {
        read!(self, entry(k))
    }

    pub fn get(&self, k: u64) -> Answer {
        read!(self, get(k))
    }

    pub fn get_all(&self, k: u64) -> Vec<u64> {
        let mut out = self.room_for(k);
        let (room, len) = (out.as_mut_ptr(), out.capacity());
        let answer = read!(self, get_all(k, room, len));
        written(out, answer.count())
    }

    pub fn entry_len(&self, k: u64) -> Answer {
        read!(self, entry_len(k))
    }

    pub fn contains_key(&self, k: u64) -> Answer {
        read!(self, contains_key(k))
    }

    pub fn keys(&self) -> Vec<u64> {
        let mut out = Vec::with_capacity(self.keys_len().count() as usize);
        let answer = read!(self, keys(out.as_mut_ptr(), out.capacity()));
        written(out, answer.count())
    }

    pub fn keys_len(&self) -> Answer {
        read!(self, keys_len())
    }

    pub fn values_len(&self) -> Answer {
        read!(self, values_len())
    }

    // The keys of all pairs in order, and their values.
    pub fn iter(&self) -> (Vec<u64>, Vec<u64>) {
        let held = self.values_len().count() as usize;
        let (mut out, mut out2) = (Vec::with_capacity(held), Vec::with_capacity(held));
        let (room, len, room2, len2) = (out.as_mut_ptr(), out.capacity(), out2.as_mut_ptr(), out2.capacity());
        let answer = read!(self, iter(room, len, room2, len2));
        let count = answer.count();
        (written(out, count), written(out2, count))
    }

    pub fn taken(&self) -> [u64; POSTERS] {
        let mut out = [0; POSTERS];
        let answer = read!(self, taken(&mut out));
        assert_eq!(answer.count(), POSTERS as u64);
        out
    }

    pub fn write_image(&self) -> Vec<u8> {
        let mut out = Vec::with_capacity(8 + 16 * self.values_len().count() as usize);
        let (room, len) = (out.as_mut_ptr(), out.capacity());
        let answer = read!(self, write_image(room, len));
        written(out, answer.count())
    }

    // Room for the key's values, which hold nothing yet.
    fn room_for(&self, k: u64) -> Vec<u64> {
        Vec::with_capacity(self.entry_len(k).count() as usize)
    }
}
