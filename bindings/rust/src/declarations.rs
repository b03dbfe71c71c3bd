// Made by tools/declarations.py from crates/*/src, and not to be edited: the record of libprelgammo.a and its functions. A
// slice is a pointer and a length.
#![allow(clippy::too_many_arguments, dead_code, unsafe_code)]

use core::ptr::addr_of;

/// The map as C sees it: one record of arrays, 24,160 bytes. The file `crates/multimap/src/lib.rt` says what each field
/// has.
#[allow(missing_docs)]
#[repr(C)]
#[derive(Clone, Copy, PartialEq)]
pub struct Record {
    // Of a member place: the member number, and how many rounds it has.
    pub keys: [u64; 256],
    pub length: [u16; 256],
    // The list of members: the place after a place and the one before it. After 256 comes the first, and before 256 the last.
    pub next_key: [u16; 257],
    pub previous_key: [u16; 257],
    // Of a round place: the round, and its member's place.
    pub values: [u64; 1024],
    pub key_index: [u16; 1024],
    // The list of rounds, likewise. After 1024 comes the first, and before 1024 the last.
    pub next_value: [u16; 1025],
    pub previous_value: [u16; 1025],
    // The next and the previous round of the same member. At 1024 + k the head and the tail of the member place k, where the
    // last round's next and the first one's previous lead back to.
    pub next_index: [u16; 1280],
    pub previous_index: [u16; 1280],
    // The index: member places, or EMPTY.
    pub index: [u16; 512],
    // Of each list: how many places are in use, how many have ever been, the first freed one, from which the others
    // follow by next, and the map's limit.
    pub keys_len: u16,
    pub keys_fresh: u16,
    pub keys_free: u16,
    pub keys_limit: u16,
    pub values_len: u16,
    pub values_fresh: u16,
    pub values_free: u16,
    pub values_limit: u16,
    // Rounds ever taken in, of each poster.
    pub taken: [u32; 16],
}

const _: () = assert!(core::mem::size_of::<Record>() == 24_160);

extern "C" {
    // Defined by an archive of this layout and these signatures alone.
    static prelgammo_layout_b340bb707711f605: u8;
}

// Has the program refer to the layout's symbol.
fn same_layout() {
    unsafe { addr_of!(prelgammo_layout_b340bb707711f605).read_volatile() };
}

extern "C" {
    #[link_name = "om_append"]
    pub fn append(map: *mut Record, poster: u64, k: u64, v: u64, answer: *mut [u64; 4]);
    #[link_name = "om_call"]
    pub fn call(
        map: *mut Record,
        op: u64,
        poster: u64,
        k: u64,
        v: u64,
        out: *mut u64,
        out_len: usize,
        out2: *mut u64,
        out2_len: usize,
        marks: *const u8,
        marks_len: usize,
        answer: *mut [u64; 4],
    );
    #[link_name = "om_clear"]
    pub fn clear(map: *mut Record, answer: *mut [u64; 4]);
    #[link_name = "om_contains_key"]
    pub fn contains_key(map: *const Record, k: u64, answer: *mut [u64; 4]);
    #[link_name = "om_entry"]
    pub fn entry(map: *const Record, k: u64, answer: *mut [u64; 4]);
    #[link_name = "om_entry_len"]
    pub fn entry_len(map: *const Record, k: u64, answer: *mut [u64; 4]);
    #[link_name = "om_get"]
    pub fn get(map: *const Record, k: u64, answer: *mut [u64; 4]);
    #[link_name = "om_get_all"]
    pub fn get_all(map: *const Record, k: u64, out: *mut u64, out_len: usize, answer: *mut [u64; 4]);
    #[link_name = "om_insert"]
    pub fn insert(map: *mut Record, poster: u64, k: u64, v: u64, answer: *mut [u64; 4]);
    #[link_name = "om_insert_all"]
    pub fn insert_all(
        map: *mut Record,
        poster: u64,
        k: u64,
        v: u64,
        out: *mut u64,
        out_len: usize,
        answer: *mut [u64; 4],
    );
    #[link_name = "om_iter"]
    pub fn iter(
        map: *const Record,
        out: *mut u64,
        out_len: usize,
        out2: *mut u64,
        out2_len: usize,
        answer: *mut [u64; 4],
    );
    #[link_name = "om_keys"]
    pub fn keys(map: *const Record, out: *mut u64, out_len: usize, answer: *mut [u64; 4]);
    #[link_name = "om_keys_len"]
    pub fn keys_len(map: *const Record, answer: *mut [u64; 4]);
    fn om_new(map: *mut Record, members_limit: u64, rounds_limit: u64, answer: *mut [u64; 4]);
    #[link_name = "om_occupied_append"]
    pub fn occupied_append(map: *mut Record, poster: u64, k: u64, v: u64, answer: *mut [u64; 4]);
    #[link_name = "om_occupied_insert"]
    pub fn occupied_insert(map: *mut Record, poster: u64, k: u64, v: u64, answer: *mut [u64; 4]);
    #[link_name = "om_occupied_remove_entry"]
    pub fn occupied_remove_entry(map: *mut Record, k: u64, answer: *mut [u64; 4]);
    #[link_name = "om_pack_to"]
    pub fn pack_to(map: *mut Record, keys_minimum: u64, values_minimum: u64, answer: *mut [u64; 4]);
    #[link_name = "om_pop_back"]
    pub fn pop_back(map: *mut Record, answer: *mut [u64; 4]);
    #[link_name = "om_pop_front"]
    pub fn pop_front(map: *mut Record, answer: *mut [u64; 4]);
    fn om_read_image(
        map: *mut Record,
        members_limit: u64,
        rounds_limit: u64,
        bytes: *const u8,
        bytes_len: usize,
        answer: *mut [u64; 4],
    );
    #[link_name = "om_remove"]
    pub fn remove(map: *mut Record, k: u64, answer: *mut [u64; 4]);
    #[link_name = "om_remove_all"]
    pub fn remove_all(map: *mut Record, k: u64, out: *mut u64, out_len: usize, answer: *mut [u64; 4]);
    #[link_name = "om_retain"]
    pub fn retain(map: *mut Record, marks: *const u8, marks_len: usize, answer: *mut [u64; 4]);
    #[link_name = "om_taken"]
    pub fn taken(map: *const Record, out: *mut [u64; 16], answer: *mut [u64; 4]);
    // Gives a record back, for which the caller passes a pointer first (System V, amd64).
    pub fn om_turn(
        given: *mut Record,
        m: Record,
        op: u64,
        poster: u64,
        k: u64,
        v: u64,
        out: *mut u64,
        out_len: usize,
        out2: *mut u64,
        out2_len: usize,
        marks: *const u8,
        marks_len: usize,
        answer: *mut [u64; 4],
    );
    #[link_name = "om_vacant_insert"]
    pub fn vacant_insert(map: *mut Record, poster: u64, k: u64, v: u64, answer: *mut [u64; 4]);
    #[link_name = "om_values_len"]
    pub fn values_len(map: *const Record, answer: *mut [u64; 4]);
    fn om_well_linked(map: *const Record) -> u64;
    #[link_name = "om_write_image"]
    pub fn write_image(map: *const Record, out: *mut u8, out_len: usize, answer: *mut [u64; 4]);
    pub fn replay(
        members_limit: u64,
        rounds_limit: u64,
        calls: *const u64,
        calls_len: usize,
        outs: *mut u64,
        outs_len: usize,
        outs2: *mut u64,
        outs2_len: usize,
        marks: *const u8,
        marks_len: usize,
        answers: *mut u64,
        answers_len: usize,
    ) -> u64;
}

pub unsafe fn new(map: *mut Record, members_limit: u64, rounds_limit: u64, answer: *mut [u64; 4]) {
    same_layout();
    om_new(map, members_limit, rounds_limit, answer)
}

pub unsafe fn read_image(
    map: *mut Record,
    members_limit: u64,
    rounds_limit: u64,
    bytes: *const u8,
    bytes_len: usize,
    answer: *mut [u64; 4],
) {
    same_layout();
    om_read_image(map, members_limit, rounds_limit, bytes, bytes_len, answer)
}

pub unsafe fn well_linked(map: *const Record) -> u64 {
    same_layout();
    om_well_linked(map)
}
