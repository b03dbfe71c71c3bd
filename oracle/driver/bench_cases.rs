// The calls that are timed, all by poster 0, and the maps that they are timed on.

use crate::model::{Call, Op, MAX_MEMBERS, MAX_ROUNDS, POSTERS};

// What a call of the port may take: no longer than the crate's, half of it, or so many plain copies of the record.
#[derive(Clone, Copy)]
pub enum Aim {
    NoSlower,
    Half,
    Fifth,
    Copies(f64),
    None,
}

pub struct Case {
    pub group: &'static str,
    pub name: &'static str,
    pub aim: Aim,
    // the calls that make the map, which are not timed
    pub before: Vec<Call>,
    pub timed: Vec<Call>,
    // on how many copies of the map each is made: several where one call alone is too short to be timed
    pub maps: usize,
}

fn repeated(count: u64, call: impl Fn(u64) -> Call) -> Vec<Call> {
    (0..count).map(call).collect()
}

// 1,000 rounds of 250 members, in turn.
fn filled() -> Vec<Call> {
    repeated(1000, |at| Call::new(Op::Append, at % 250, at))
}

// 250 members with a round each.
fn one_each() -> Vec<Call> {
    repeated(250, |at| Call::new(Op::Append, at, at))
}

// 700 rounds of six other members.
fn few_members() -> Vec<Call> {
    repeated(700, |at| Call::new(Op::Append, 1000 + at % 6, at))
}

// 1,024 rounds of 251 members.
fn full() -> Vec<Call> {
    repeated(1024, |at| Call::new(Op::Append, at % 251, at))
}

// 1,000 rounds of member 7, and 24 members with a round each.
fn long_record() -> Vec<Call> {
    repeated(1024, |at| Call::new(Op::Append, if at < 1000 { 7 } else { at }, at))
}

// One call of each of the 250 members.
fn each(op: Op) -> Vec<Call> {
    repeated(250, |at| Call::new(op, at, at))
}

// Three calls of each of them.
fn each_thrice(op: Op) -> Vec<Call> {
    repeated(750, |at| Call::new(op, at % 250, at))
}

fn lent(op: Op) -> Vec<Call> {
    repeated(250, |at| Call::lending(op, at, at, 4))
}

// Of 500 members, of which 250 are there.
fn half_absent(op: Op) -> Vec<Call> {
    repeated(1000, |at| Call::new(op, at % 500, 0))
}

// Calls that name no member.
fn plain(op: Op, count: u64) -> Vec<Call> {
    repeated(count, |_| Call::new(op, 0, 0))
}

pub fn cases() -> Vec<Case> {
    adding().into_iter().chain(taking_out()).chain(reading()).chain(spread_numbers()).chain(over_all()).collect()
}

fn adding() -> Vec<Case> {
    let case = |name, aim, before, timed| Case { group: "Adding", name, aim, before, timed, maps: 1 };
    let (half, as_fast) = (Aim::Half, Aim::NoSlower);
    vec![
        case("append, known member", half, one_each(), each_thrice(Op::Append)),
        case("append, new member", half, few_members(), each(Op::Append)),
        case("insert over one round", half, one_each(), each(Op::Insert)),
        case("insert over 4 rounds", half, filled(), each(Op::Insert)),
        case("insert, new member", half, few_members(), each(Op::Insert)),
        case("insert_all over 4 rounds", as_fast, filled(), lent(Op::InsertAll)),
        case("insert_all over 1,000 rounds", as_fast, long_record(), vec![Call::lending(Op::InsertAll, 7, 1, 1000)]),
        case("occupied append", as_fast, one_each(), each_thrice(Op::OccupiedAppend)),
        case("occupied insert over one round", as_fast, one_each(), each(Op::OccupiedInsert)),
        case("occupied insert over 4 rounds", as_fast, filled(), each(Op::OccupiedInsert)),
        case("vacant insert", as_fast, few_members(), each(Op::VacantInsert)),
    ]
}

fn taking_out() -> Vec<Case> {
    let case = |name, aim, before, timed| Case { group: "Taking out", name, aim, before, timed, maps: 1 };
    let (half, as_fast) = (Aim::Half, Aim::NoSlower);
    vec![
        case("remove of one round", as_fast, one_each(), each(Op::Remove)),
        case("remove of 4 rounds", as_fast, filled(), each(Op::Remove)),
        case("remove_all of 4 rounds", as_fast, filled(), lent(Op::RemoveAll)),
        case("remove_all of 1,000 rounds", as_fast, long_record(), vec![Call::lending(Op::RemoveAll, 7, 0, 1000)]),
        case("occupied remove_entry of one round", as_fast, one_each(), each(Op::OccupiedRemoveEntry)),
        case("occupied remove_entry of 4 rounds", as_fast, filled(), each(Op::OccupiedRemoveEntry)),
        case("pop_front, member stays", half, filled(), plain(Op::PopFront, 750)),
        case("pop_front, member gone", half, one_each(), plain(Op::PopFront, 250)),
        case("pop_back, member stays", half, filled(), plain(Op::PopBack, 750)),
        case("pop_back, member gone", half, one_each(), plain(Op::PopBack, 250)),
    ]
}

// Of a member's number, every second one is of no member.
fn reading() -> Vec<Case> {
    let case = |name, aim, before, timed| Case { group: "Reading", name, aim, before, timed, maps: 1 };
    let as_fast = Aim::NoSlower;
    vec![
        case("get", Aim::Half, filled(), half_absent(Op::Get)),
        case("entry_len", as_fast, filled(), half_absent(Op::EntryLen)),
        case("contains_key", as_fast, filled(), half_absent(Op::ContainsKey)),
        case("entry", as_fast, filled(), half_absent(Op::Entry)),
        case("keys_len", as_fast, filled(), half_absent(Op::KeysLen)),
        case("values_len", as_fast, filled(), half_absent(Op::ValuesLen)),
        case("T, which the crate has not", Aim::None, filled(), repeated(1000, |_| Call::taken(POSTERS))),
        case("get_all of 4 rounds", as_fast, filled(), lent(Op::GetAll)),
        case(
            "get_all of 1,000 rounds",
            as_fast,
            long_record(),
            repeated(20, |_| Call::lending(Op::GetAll, 7, 0, 1000)),
        ),
        case("keys, 250", as_fast, filled(), repeated(100, |_| Call::lending(Op::Keys, 0, 0, 250))),
        case("iter, 1,000", as_fast, filled(), repeated(20, |_| Call::iter(1000, 1000))),
    ]
}

// The same calls with member numbers over all 64 bits. Elsewhere they are below 1,024: the port hashes a number below 2^32 in
// less time, and the numbers from 0 to 255 all start at places of their own in its index.
fn spread_numbers() -> Vec<Case> {
    let spread = |calls: Vec<Call>| {
        let number = |k: u64| k.wrapping_mul(0x9e37_79b9_7f4a_7c15);
        calls.into_iter().map(|call| Call { k: number(call.k), ..call }).collect()
    };
    let case = |name, before, timed| {
        let (before, timed) = (spread(before), spread(timed));
        Case { group: "Member numbers over 64 bits", name, aim: Aim::Half, before, timed, maps: 1 }
    };
    vec![
        case("append, known member, 64 bits", one_each(), each_thrice(Op::Append)),
        case("append, new member, 64 bits", few_members(), each(Op::Append)),
        case("insert over one round, 64 bits", one_each(), each(Op::Insert)),
        case("insert, new member, 64 bits", few_members(), each(Op::Insert)),
        case("pop_front, member gone, 64 bits", one_each(), plain(Op::PopFront, 250)),
        case("pop_back, member gone, 64 bits", one_each(), plain(Op::PopBack, 250)),
        case("get, 64 bits", filled(), half_absent(Op::Get)),
    ]
}

// Of 1,024 rounds.
fn over_all() -> Vec<Case> {
    let case = |name, timed| Case { group: "The whole map", name, aim: Aim::NoSlower, before: full(), timed, maps: 1 };
    let every_second = [0, 1].repeat(512);
    let every_16th = [vec![0], vec![1; 15]].concat().repeat(64);
    let mut one = vec![1; 1024];
    one[512] = 0;
    let packing = Call::new(Op::PackTo, MAX_MEMBERS as u64, MAX_ROUNDS as u64);
    vec![
        case("retain, none of 1,024 struck", repeated(20, |_| Call::retain(vec![1; 1024]))),
        case("retain, 1 of 1,024 struck", vec![Call::retain(one)]),
        case("retain, 64 of 1,024 struck", vec![Call::retain(every_16th)]),
        case("retain, 512 of 1,024 struck", vec![Call::retain(every_second)]),
        case("pack_to, 1,024 rounds of 251 members", vec![packing]),
        Case { maps: 8, ..case("clear, 1,024 rounds of 251 members", plain(Op::Clear, 1)) },
        Case { before: vec![], ..case("clear, no round held", plain(Op::Clear, 250)) },
    ]
}
