// Maps of the port (libprelgammo.a) on which calls are made one by one: in place, and by value. The package's declarations
// have its functions and its record.

use crate::declarations;
pub use crate::declarations::Record as Map;
use crate::lists::Random;
use crate::model::{Call, Limits, Op, HIGHEST, POSTERS};
use crate::port::{Port, Tape};

// The bytes of the record.
pub const RECORD: usize = std::mem::size_of::<Map>();

// What an answer's numbers are before a call, which writes all four.
pub const UNSAID: [u64; 4] = [u64::MAX; 4];

impl Map {
    // A record of any numbers: every pattern of bits is one.
    pub fn any(random: &mut Random) -> Map {
        let words: Vec<u64> = (0..RECORD / 8).map(|_| random.next()).collect();
        unsafe { words.as_ptr().cast::<Map>().read() }
    }

    // Makes it the empty map with these limits, whatever it is. The four numbers of the answer.
    pub fn make_new(&mut self, limits: Limits) -> [u64; 4] {
        let mut answer = UNSAID;
        unsafe { declarations::new(self, limits.members, limits.rounds, &mut answer) };
        answer
    }

    pub fn limits(&self) -> Limits {
        Limits { members: self.keys_limit.into(), rounds: self.values_limit.into() }
    }

    pub fn well_linked(&self) -> bool {
        let said = unsafe { declarations::well_linked(self) };
        match said {
            0 => false,
            1 => true,
            other => panic!("om_well_linked says {}", other),
        }
    }
}

// A map of the port, changed in place.
#[derive(Clone, PartialEq)]
pub struct PortMap {
    map: Box<Map>,
}

impl PortMap {
    // The empty map with the highest limits.
    pub fn new() -> PortMap {
        PortMap::with_limits(HIGHEST).1
    }

    // The answer to the making of a map with these limits, and the map, made of a record of any numbers.
    pub fn with_limits(limits: Limits) -> ([u64; 4], PortMap) {
        let mut map = Box::new(Map::any(&mut Random(1)));
        let answer = map.make_new(limits);
        (answer, PortMap { map })
    }

    pub fn map(&self) -> &Map {
        &self.map
    }

    pub fn make_new(&mut self) -> [u64; 4] {
        self.map.make_new(HIGHEST)
    }

    // Makes any call with its lent slices. The four numbers of its answer.
    pub fn call(&mut self, call: &Call, out: &mut [u64], out2: &mut [u64]) -> [u64; 4] {
        let mut answer = UNSAID;
        // the answer is an array of its own
        unsafe { self.make(call, out, out2, &mut answer) };
        answer
    }

    // The same, with the answer written where it is to stand. What stood there is not read. Reading T in place writes sixteen
    // numbers, so a slice that is shorter is lent by the call's number.
    #[inline]
    pub unsafe fn make(&mut self, call: &Call, out: &mut [u64], out2: &mut [u64], answer: *mut [u64; 4]) {
        let (poster, k, v, marks, map) = (call.poster, call.k, call.v, &call.marks, &mut *self.map);
        // the record is lent for the call; each pointer and length are those of one slice, and nothing overlaps
        unsafe {
            match call.op {
                Op::Append => declarations::append(map, poster, k, v, answer),
                Op::Insert => declarations::insert(map, poster, k, v, answer),
                Op::InsertAll => declarations::insert_all(map, poster, k, v, out.as_mut_ptr(), out.len(), answer),
                Op::Remove => declarations::remove(map, k, answer),
                Op::RemoveAll => declarations::remove_all(map, k, out.as_mut_ptr(), out.len(), answer),
                Op::OccupiedAppend => declarations::occupied_append(map, poster, k, v, answer),
                Op::OccupiedInsert => declarations::occupied_insert(map, poster, k, v, answer),
                Op::OccupiedRemoveEntry => declarations::occupied_remove_entry(map, k, answer),
                Op::VacantInsert => declarations::vacant_insert(map, poster, k, v, answer),
                Op::PopFront => declarations::pop_front(map, answer),
                Op::PopBack => declarations::pop_back(map, answer),
                Op::Retain => declarations::retain(map, marks.as_ptr(), marks.len(), answer),
                Op::PackTo => declarations::pack_to(map, k, v, answer),
                Op::Clear => declarations::clear(map, answer),
                Op::Entry => declarations::entry(map, k, answer),
                Op::Get => declarations::get(map, k, answer),
                Op::GetAll => declarations::get_all(map, k, out.as_mut_ptr(), out.len(), answer),
                Op::EntryLen => declarations::entry_len(map, k, answer),
                Op::ContainsKey => declarations::contains_key(map, k, answer),
                Op::Keys => declarations::keys(map, out.as_mut_ptr(), out.len(), answer),
                Op::KeysLen => declarations::keys_len(map, answer),
                Op::ValuesLen => declarations::values_len(map, answer),
                Op::Iter => {
                    let (out, len, out2, len2) = (out.as_mut_ptr(), out.len(), out2.as_mut_ptr(), out2.len());
                    declarations::iter(map, out, len, out2, len2, answer)
                }
                Op::Taken if out.len() < POSTERS => self.make_by_number(call, out, out2, answer),
                Op::Taken => declarations::taken(map, out.as_mut_ptr().cast(), answer),
            }
        }
    }

    // Makes any call by its number.
    pub fn call_by_number(&mut self, call: &Call, out: &mut [u64], out2: &mut [u64]) -> [u64; 4] {
        let mut answer = UNSAID;
        // the answer is an array of its own
        unsafe { self.make_by_number(call, out, out2, &mut answer) };
        answer
    }

    unsafe fn make_by_number(&mut self, call: &Call, out: &mut [u64], out2: &mut [u64], answer: *mut [u64; 4]) {
        let (map, op, poster, k, v) = (&mut *self.map, call.op as u64, call.poster, call.k, call.v);
        let (out, len, out2, len2) = (out.as_mut_ptr(), out.len(), out2.as_mut_ptr(), out2.len());
        let (marks, marks_len) = (call.marks.as_ptr(), call.marks.len());
        // each pointer and length are those of one slice, and nothing overlaps
        unsafe { declarations::call(map, op, poster, k, v, out, len, out2, len2, marks, marks_len, answer) };
    }

    pub fn write_image(&self, out: &mut [u8]) -> [u64; 4] {
        let mut answer = UNSAID;
        unsafe { declarations::write_image(&*self.map, out.as_mut_ptr(), out.len(), &mut answer) };
        answer
    }

    // Makes it the map of an image with these limits, or the empty one, whatever it was.
    pub fn read_image(&mut self, limits: Limits, bytes: &[u8]) -> [u64; 4] {
        let (Limits { members, rounds }, mut answer) = (limits, UNSAID);
        let map = &mut *self.map;
        unsafe { declarations::read_image(map, members, rounds, bytes.as_ptr(), bytes.len(), &mut answer) };
        answer
    }

    // Puts a record of any numbers into its place.
    pub fn spoil(&mut self, garbage: &Map) {
        *self.map = *garbage;
    }
}

// A map that each call takes by value, and room for the one that it gives back.
#[derive(Clone)]
pub struct ByValue {
    now: Box<Map>,
    next: Box<Map>,
}

impl ByValue {
    pub fn new() -> ByValue {
        ByValue::with_limits(HIGHEST).1
    }

    pub fn with_limits(limits: Limits) -> ([u64; 4], ByValue) {
        let (answer, PortMap { map }) = PortMap::with_limits(limits);
        (answer, ByValue { now: map.clone(), next: map })
    }

    pub fn call(&mut self, call: &Call, out: &mut [u64], out2: &mut [u64]) -> [u64; 4] {
        let (now, next, op, poster, k, v) = (&*self.now, &mut *self.next, call.op as u64, call.poster, call.k, call.v);
        let (out, len, out2, len2) = (out.as_mut_ptr(), out.len(), out2.as_mut_ptr(), out2.len());
        let (marks, marks_len) = (call.marks.as_ptr(), call.marks.len());
        let mut answer = UNSAID;
        let said = &mut answer;
        // the record that is given back is written where it is to stand; the one that is taken is copied by Rust for its
        // argument: once, or twice by rustc 1.63
        unsafe { declarations::om_turn(next, *now, op, poster, k, v, out, len, out2, len2, marks, marks_len, said) };
        std::mem::swap(&mut self.now, &mut self.next);
        answer
    }
}

impl PartialEq for ByValue {
    fn eq(&self, other: &ByValue) -> bool {
        self.now == other.now
    }
}

// Runs a tape by the port's function for tapes.
pub struct Tapes;

impl Port for Tapes {
    fn replay(&self, tape: &mut Tape) -> Result<u64, String> {
        // each pointer and length are those of one vector, and the five vectors do not overlap
        let ran = unsafe {
            declarations::replay(
                tape.limits.members,
                tape.limits.rounds,
                tape.calls.as_ptr(),
                tape.calls.len(),
                tape.outs.as_mut_ptr(),
                tape.outs.len(),
                tape.outs2.as_mut_ptr(),
                tape.outs2.len(),
                tape.marks.as_ptr(),
                tape.marks.len(),
                tape.answers.as_mut_ptr(),
                tape.answers.len(),
            )
        };
        Ok(ran)
    }
}
