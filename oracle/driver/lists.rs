// The lists of calls that are run: all short ones, all arrangements with all marks, the edges, and random ones; on maps with
// the highest limits, and on maps with lower ones; by all posters, and by numbers that are none.

use crate::compare::{Difference, Run, Session};
use crate::crate_map::strikes_neighbours;
use crate::model::{Call, Limits, Model, Op, HIGHEST, MAX_MEMBERS, MAX_ROUNDS, POSTERS};
use crate::port::untouched;

// A small generator of numbers (splitmix64).
pub struct Random(pub u64);

impl Random {
    pub fn next(&mut self) -> u64 {
        self.0 = self.0.wrapping_add(0x9E37_79B9_7F4A_7C15);
        let a = (self.0 ^ (self.0 >> 30)).wrapping_mul(0xBF58_476D_1CE4_E5B9);
        let b = (a ^ (a >> 27)).wrapping_mul(0x94D0_49BB_1331_11EB);
        b ^ (b >> 31)
    }

    pub fn below(&mut self, n: usize) -> usize {
        (self.next() % n as u64) as usize
    }

    fn pick<T: Copy>(&mut self, list: &[T]) -> T {
        list[self.below(list.len())]
    }
}

// FNV-1a, 64 bits.
pub fn fnv(bytes: &[u8]) -> u64 {
    let start = 14695981039346656037u64;
    bytes.iter().fold(start, |hash, &byte| (hash ^ byte as u64).wrapping_mul(1099511628211))
}

// The place of the port's index where the search for a member starts.
pub fn start_place(k: u64) -> u64 {
    fnv(&k.to_le_bytes()) % 512
}

// Members whose searches all start at the index's last place, so that their chain goes on at place 0.
pub fn colliding(count: usize) -> Vec<u64> {
    (0..).filter(|&k| start_place(k) == 511).take(count).collect()
}

// Members whose searches start at one of the last places: chains that run into each other and over the end.
fn crowded(count: usize) -> Vec<u64> {
    (0..).filter(|&k| start_place(k) >= 500).take(count).collect()
}

// Members anywhere, 0 and the largest number among them.
fn spread(count: usize, random: &mut Random) -> Vec<u64> {
    let others = std::iter::repeat_with(|| random.next());
    [0, u64::MAX].into_iter().chain(others).take(count).collect()
}

fn pools(count: usize, random: &mut Random) -> [Vec<u64>; 3] {
    [colliding(count), crowded(count), spread(count, random)]
}

const fn limits(members: u64, rounds: u64) -> Limits {
    Limits { members, rounds }
}

// Limits besides the highest: none of one or of both; so few that one of them is reached first, or both together; one as high
// as can be; and some that are too high, so that the map has none.
const OWN: [Limits; 12] = [
    limits(0, 0),
    limits(0, 5),
    limits(5, 0),
    limits(1, 2),
    limits(2, 3),
    limits(5, 5),
    limits(8, 40),
    limits(256, 40),
    limits(8, 1024),
    limits(257, 5),
    limits(5, 1025),
    limits(u64::MAX, u64::MAX),
];

// The highest limits half of the time; otherwise lower ones, or too high ones.
fn random_limits(random: &mut Random) -> Limits {
    match random.below(4) {
        0 => random.pick(&OWN),
        1 => limits(random.below(9) as u64, random.below(27) as u64),
        _ => HIGHEST,
    }
}

type Outcome = Result<(), Difference>;

// Every list of up to `depth` calls made of the shapes below, over two members that collide in the port's index, each call by
// another poster; and shorter ones on maps with other limits.
pub fn every_short_list(session: &mut Session, depth: usize) -> Outcome {
    let own = OWN.iter().filter(|own| own.members.min(own.rounds) <= 2 || own.too_high());
    let lists = own.map(|own| (*own, depth.min(4) - 1)).chain([(HIGHEST, depth)]);
    for (limits, depth) in lists {
        let run = session.begin(limits);
        extend(session, &run, &colliding(2), depth)?;
    }
    Ok(())
}

fn extend(session: &mut Session, run: &Run, members: &[u64], depth: usize) -> Outcome {
    if depth == 0 {
        return Ok(());
    }
    let at = run.list.len() as u64;
    for call in shapes(&run.model, members, 10 + at) {
        let mut longer = run.clone();
        session.call(&mut longer, call.by(at))?;
        session.end(&longer, run.list.len())?;
        extend(session, &longer, members, depth - 1)?;
    }
    Ok(())
}

// The calls with which a short list may go on.
fn shapes(model: &Model, members: &[u64], v: u64) -> Vec<Call> {
    let mut calls = Vec::new();
    for &k in members {
        let record = model.record(k).len();
        calls.push(Call::new(Op::Append, k, v));
        calls.push(Call::new(Op::Insert, k, v));
        calls.push(Call::lending(Op::InsertAll, k, v, record));
        calls.push(Call::new(Op::Remove, k, 0));
        calls.push(Call::lending(Op::RemoveAll, k, 0, record + 1));
        calls.push(Call::new(Op::OccupiedAppend, k, v));
        calls.push(Call::new(Op::OccupiedInsert, k, v));
        calls.push(Call::new(Op::OccupiedRemoveEntry, k, 0));
        calls.push(Call::new(Op::VacantInsert, k, v));
    }
    let (n, m) = (model.pairs.len(), model.members.len());
    calls.push(Call::new(Op::PopFront, 0, 0));
    calls.push(Call::new(Op::PopBack, 0, 0));
    calls.push(Call::new(Op::Clear, 0, 0));
    calls.push(Call::new(Op::PackTo, m as u64, n as u64));
    let kept: [fn(usize, usize) -> bool; 4] = [|at, _| at > 0, |at, n| at + 1 < n, |at, _| at % 2 == 1, |_, _| false];
    calls.extend(kept.map(|keep| Call::retain(marks(n, |at| keep(at, n)))));
    calls
}

fn marks(n: usize, keep: impl Fn(usize) -> bool) -> Vec<u8> {
    (0..n).map(|at| keep(at) as u8).collect()
}

// Every arrangement of up to `most` rounds over three members, with every marks; then the map is used further and popped
// empty from both ends.
pub fn every_arrangement(session: &mut Session, most: u32) -> Outcome {
    let members = colliding(3);
    for n in 0..=most {
        for number in 0..3usize.pow(n) {
            let mut run = session.begin(HIGHEST);
            for at in 0..n {
                let k = members[number / 3usize.pow(at) % 3];
                session.call(&mut run, Call::new(Op::Append, k, 10 + at as u64).by(15 - at as u64))?;
            }
            session.end(&run, 0)?;
            for bits in 0..1usize << n {
                let marks = marks(n as usize, |at| bits >> at & 1 == 1);
                strike_and_empty(session, run.clone(), marks, &members)?;
            }
        }
    }
    Ok(())
}

fn strike_and_empty(session: &mut Session, mut run: Run, marks: Vec<u8>, members: &[u64]) -> Outcome {
    let from = run.list.len();
    session.call(&mut run, Call::retain(marks))?;
    for (at, &k) in members.iter().enumerate() {
        session.call(&mut run, Call::new(Op::Append, k, 20 + at as u64))?;
    }
    while !run.model.pairs.is_empty() {
        let end = if run.list.len() % 2 == 0 { Op::PopFront } else { Op::PopBack };
        session.call(&mut run, Call::new(end, 0, 0))?;
    }
    session.end(&run, from)
}

// Maps with so many rounds and members at and beside their limits, and every call on each of them, at its own edges too.
pub fn every_edge(session: &mut Session, random: &mut Random, pool_count: usize) -> Outcome {
    let full = [1022, 1023, 1024].map(|rounds| [1, 2, 255, 256].map(|members| (rounds, members))).concat();
    let crowded = [(254, 254), (255, 255), (256, 256), (257, 256), (300, 254), (300, 255), (300, 256)];
    let sizes = [&full[..], &crowded].concat().into_iter().map(|size| (HIGHEST, size));
    // with so many rounds there is no need of more
    let own = OWN.into_iter().filter(|own| own.rounds < HIGHEST.rounds || own.too_high());
    let own = own.flat_map(|own| sizes_beside(own).into_iter().map(move |size| (own, size)));
    let all: Vec<(Limits, Size)> = sizes.chain(own).collect();
    for pool in pools(MAX_MEMBERS + 1, random).iter().take(pool_count) {
        all.iter().try_for_each(|(limits, size)| edges_of(session, *limits, *size, pool))?;
    }
    Ok(())
}

// Rounds, and members that they are of in turn.
type Size = (usize, usize);

// The sizes at and beside the limits, as far as there are such maps; of limits that are too high, some that the map has no
// room for.
fn sizes_beside(own: Limits) -> Vec<Size> {
    let [members, rounds] = [own.members, own.rounds].map(|limit| if own.too_high() { 3 } else { limit as usize });
    let of = |rounds: usize| [1, members.saturating_sub(1), members].map(|members| (rounds, members.max(1)));
    let mut sizes = [rounds.saturating_sub(1), rounds, members.min(rounds)].map(of).concat();
    sizes.sort_unstable();
    sizes.dedup();
    sizes
}

// Every call on a map of this size.
fn edges_of(session: &mut Session, limits: Limits, (rounds, members): Size, pool: &[u64]) -> Outcome {
    let mut run = session.begin(limits);
    for at in 0..rounds {
        let (member, poster) = (pool[at % members], at % POSTERS);
        session.call(&mut run, Call::new(Op::Append, member, at as u64).by(poster as u64))?;
    }
    session.end(&run, 0)?;
    for call in edge_calls(&run.model, pool[MAX_MEMBERS]) {
        edge(session, run.clone(), call, pool)?;
    }
    Ok(())
}

// A call, and some more that add and take away.
fn edge(session: &mut Session, mut run: Run, call: Call, pool: &[u64]) -> Outcome {
    let from = run.list.len();
    session.call(&mut run, call)?;
    session.call(&mut run, Call::new(Op::Append, pool[0], 1))?;
    session.call(&mut run, Call::new(Op::Append, pool[MAX_MEMBERS], 2).by(7))?;
    session.call(&mut run, Call::lending(Op::InsertAll, pool[0], 3, MAX_ROUNDS).by(15))?;
    session.call(&mut run, Call::new(Op::PopFront, 0, 0))?;
    session.call(&mut run, Call::new(Op::Append, pool[MAX_MEMBERS], 4))?;
    session.call(&mut run, Call::new(Op::PopBack, 0, 0))?;
    session.end(&run, from)
}

// The first poster and the last, and the numbers at the ends of those that are none.
const EDGE_POSTERS: [u64; 4] = [0, 15, 16, u64::MAX];

fn edge_calls(model: &Model, absent: u64) -> Vec<Call> {
    let adding = [Op::Append, Op::Insert, Op::OccupiedAppend, Op::OccupiedInsert, Op::VacantInsert];
    let others = [Op::Remove, Op::OccupiedRemoveEntry, Op::Entry, Op::Get, Op::EntryLen, Op::ContainsKey];
    let plain = [Op::PopFront, Op::PopBack, Op::Clear, Op::KeysLen, Op::ValuesLen];
    let (n, m) = (model.pairs.len(), model.members.len());
    let around = |len: usize| [len.saturating_sub(1), len, len + 3];
    let mut calls = Vec::new();
    let ends = [model.members.first(), model.members.last()].into_iter().flatten();
    for &k in ends.chain([&absent]) {
        let lengths = around(model.record(k).len());
        for poster in EDGE_POSTERS {
            calls.extend(adding.map(|op| Call::new(op, k, 7).by(poster)));
            calls.extend(lengths.map(|out| Call::lending(Op::InsertAll, k, 7, out).by(poster)));
        }
        calls.extend(others.map(|op| Call::new(op, k, 0)));
        for op in [Op::RemoveAll, Op::GetAll] {
            calls.extend(lengths.map(|out| Call::lending(op, k, 7, out)));
        }
    }
    calls.extend(plain.map(|op| Call::new(op, 0, 0)));
    calls.extend([0, 3, 15, 16, 17, 20].map(Call::taken));
    calls.extend(around(m).map(|out| Call::lending(Op::Keys, 0, 0, out)));
    calls.extend(around(n).map(|out| Call::iter(out, n)));
    calls.extend(around(n).map(|out| Call::iter(n, out)));
    let Limits { members, rounds } = model.limits;
    let (held, few) = ((m as u64, n as u64), (m.saturating_sub(1) as u64, n.saturating_sub(1) as u64));
    let below = [held, (few.0, held.1), (held.0, few.1), few, (few.0, rounds + 1), (members + 1, few.1)];
    let above = [(members, rounds), (members + 1, rounds), (members, rounds + 1), (256, 1024), (u64::MAX, u64::MAX)];
    calls.extend(below.into_iter().chain(above).map(|(members, rounds)| Call::new(Op::PackTo, members, rounds)));
    let kept: [fn(usize, usize) -> bool; 6] =
        [|_, _| true, |_, _| false, |at, _| at > 0, |at, n| at + 1 < n, |at, _| at % 2 == 0, |at, _| at == 0];
    calls.extend(kept.map(|keep| Call::retain(marks(n, |at| keep(at, n)))));
    calls.extend([n.saturating_sub(1), n + 1].map(|count| Call::retain(vec![1; count])));
    let wrong = |wrong: usize| Call::retain((0..n).map(|at| if at == wrong { 2 } else { 0 }).collect());
    calls.extend([0, n.saturating_sub(1)].map(wrong));
    calls
}

// What a random call does mostly.
#[derive(Clone, Copy)]
enum Lean {
    Fill,
    Hold,
    Empty,
}

// The calls to pick from; one that stands here several times is picked more often.
const ADDS: [Op; 6] = [Op::Append, Op::Append, Op::Append, Op::Append, Op::OccupiedAppend, Op::VacantInsert];
const OF_RECORDS: [Op; 6] =
    [Op::Insert, Op::InsertAll, Op::Remove, Op::RemoveAll, Op::OccupiedInsert, Op::OccupiedRemoveEntry];
const POPS: [Op; 2] = [Op::PopFront, Op::PopBack];
const READS_OF_ONE: [Op; 5] = [Op::Entry, Op::Get, Op::GetAll, Op::EntryLen, Op::ContainsKey];
const READS_OF_ALL: [Op; 5] = [Op::Keys, Op::KeysLen, Op::ValuesLen, Op::Iter, Op::Taken];

fn random_op(random: &mut Random, lean: Lean) -> Op {
    let groups: [&[Op]; 7] = [&ADDS, &OF_RECORDS, &POPS, &READS_OF_ONE, &READS_OF_ALL, &[Op::PackTo], &[Op::Retain]];
    // of each group so many out of 100; the rest is clear
    let shares: [usize; 7] = match lean {
        Lean::Fill => [86, 0, 3, 4, 4, 1, 2],
        Lean::Hold => [55, 8, 15, 9, 9, 2, 2],
        Lean::Empty => [12, 15, 50, 8, 7, 3, 4],
    };
    let mut left = random.below(100);
    for (share, group) in shares.into_iter().zip(groups) {
        if left < share {
            return random.pick(group);
        }
        left -= share;
    }
    Op::Clear
}

// A call by a random poster, also where it has no use for one.
fn random_call(random: &mut Random, model: &Model, pool: &[u64], lean: Lean) -> Call {
    let call = random_call_by_0(random, model, pool, lean);
    call.by(random_poster(random))
}

// Mostly one that there is; sometimes 16, the largest number, or any other above 15.
fn random_poster(random: &mut Random) -> u64 {
    match random.below(64) {
        0 => POSTERS as u64,
        1 => u64::MAX,
        2 => POSTERS as u64 + random.below(300) as u64,
        3 => random.next().max(POSTERS as u64),
        _ => random.below(POSTERS) as u64,
    }
}

fn random_call_by_0(random: &mut Random, model: &Model, pool: &[u64], lean: Lean) -> Call {
    let op = random_op(random, lean);
    let k = random.pick(pool);
    let v = if random.below(2) == 0 { random.below(4) as u64 } else { random.next() };
    let (n, m) = (model.pairs.len(), model.members.len());
    match op {
        Op::InsertAll | Op::RemoveAll | Op::GetAll => {
            Call::lending(op, k, v, random_length(random, model.record(k).len()))
        }
        Op::Keys => Call::lending(op, 0, 0, random_length(random, m)),
        Op::Iter => Call::iter(random_length(random, n), random_length(random, n)),
        Op::Taken => Call::taken(random_length(random, POSTERS)),
        Op::Retain => Call::retain(random_marks(random, n, lean)),
        Op::PackTo => {
            let Limits { members, rounds } = model.limits;
            Call::new(op, random_minimum(random, m as u64, members), random_minimum(random, n as u64, rounds))
        }
        _ => Call::new(op, k, v),
    }
}

// Mostly long enough for `len`; sometimes too short.
fn random_length(random: &mut Random, len: usize) -> usize {
    match random.below(16) {
        0 => len.saturating_sub(1),
        1 => random.below(len + 1),
        2..=9 => len,
        _ => len + random.below(4),
    }
}

fn random_minimum(random: &mut Random, held: u64, limit: u64) -> u64 {
    match random.below(16) {
        0 => held.saturating_sub(1),
        1 => limit + 1,
        2 => random.next(),
        3..=5 => limit,
        6..=9 => held + random.next() % (limit + 1 - held),
        _ => held,
    }
}

fn random_marks(random: &mut Random, n: usize, lean: Lean) -> Vec<u8> {
    let kept: usize = match lean {
        Lean::Fill => 995,
        Lean::Hold => random.pick(&[900, 990, 1000]),
        Lean::Empty => random.pick(&[0, 300, 500, 800]),
    };
    let mut marks: Vec<u8> = (0..n).map(|_| (random.below(1000) < kept) as u8).collect();
    match random.below(16) {
        0 => marks.push(1),
        1 if n > 0 => marks.truncate(n - 1),
        2 if n > 0 => marks[random.below(n)] = random.pick(&[2, 3, 128, 255]),
        _ => {}
    }
    marks
}

// A list that fills the map to `rounds`, or tries to, stays about there for some calls, empties it, and all this again, with
// reads and pack_to in between.
fn random_list(session: &mut Session, random: &mut Random, limits: Limits, pool: &[u64], rounds: usize) -> Outcome {
    let mut run = session.begin(limits);
    let most = 8 * rounds + 40;
    for _ in 0..2 {
        let until = run.list.len() + most / 2;
        while run.model.pairs.len() < rounds && run.list.len() < until {
            one_more(session, random, &mut run, pool, Lean::Fill)?;
        }
        for _ in 0..rounds / 8 + 8 {
            one_more(session, random, &mut run, pool, Lean::Hold)?;
        }
        let until = run.list.len() + most / 2;
        while run.model.pairs.len() > rounds / 8 && run.list.len() < until {
            one_more(session, random, &mut run, pool, Lean::Empty)?;
        }
    }
    session.end(&run, 0)
}

fn one_more(session: &mut Session, random: &mut Random, run: &mut Run, pool: &[u64], lean: Lean) -> Outcome {
    let call = random_call(random, &run.model, pool, lean);
    session.call(run, call)
}

// Limits, and a short list of calls within them that the crate takes as they are: none that documents 01 and 02 refuse, no
// retain on which the crate stops, and not `taken`, which it does not have. At the end P and K are read.
pub fn list_for_the_crate(random: &mut Random) -> (Limits, Vec<Call>) {
    let (count, kind) = (1 + random.below(6), random.below(3));
    let pool = pools(count, random)[kind].clone();
    let limits = random.pick(&[HIGHEST, HIGHEST, limits(2, 3), limits(4, 8), limits(8, 40)]);
    let mut model = Model::new(limits);
    let mut list = Vec::new();
    while list.len() < 30 {
        let lean = if list.len() < 12 { Lean::Fill } else { random.pick(&[Lean::Hold, Lean::Hold, Lean::Empty]) };
        let call = random_call(random, &model, &pool, lean);
        if crate_takes(&model, &call) {
            model.step(&call, &mut untouched(call.out), &mut untouched(call.out2));
            list.push(call);
        }
    }
    list.push(Call::iter(model.pairs.len(), model.pairs.len()));
    list.push(Call::lending(Op::Keys, 0, 0, model.members.len()));
    (limits, list)
}

fn crate_takes(model: &Model, call: &Call) -> bool {
    let members: Vec<u64> = model.pairs.iter().map(|pair| pair.0).collect();
    call.op != Op::Taken
        && model.refusal(call).is_none()
        && !(call.op == Op::Retain && strikes_neighbours(&members, &call.marks))
}

// Lists over few members with few rounds.
pub fn small_random_lists(session: &mut Session, random: &mut Random, calls: u64) -> Outcome {
    let until = session.tally.calls() + calls;
    while session.tally.calls() < until {
        let count = 1 + random.below(8);
        let kind = random.below(3);
        let pool = pools(count, random)[kind].clone();
        let (limits, rounds) = (random_limits(random), 1 + random.below(24));
        random_list(session, random, limits, &pool, rounds)?;
    }
    Ok(())
}

// Lists that reach the limits: as many rounds, and as many members, as a map may have, one less and some more.
pub fn random_lists_at_the_limits(session: &mut Session, random: &mut Random, again: usize) -> Outcome {
    for _ in 0..again {
        for count in [1, 3, MAX_MEMBERS - 1, MAX_MEMBERS, MAX_MEMBERS + 1, 300] {
            for pool in pools(count, random) {
                let rounds = random.pick(&[MAX_MEMBERS, 300, MAX_ROUNDS - 1, MAX_ROUNDS, MAX_ROUNDS]);
                random_list(session, random, HIGHEST, &pool, rounds)?;
            }
        }
        for own in OWN.into_iter().filter(|own| !own.too_high()) {
            for pool in pools(own.members as usize + 1, random) {
                random_list(session, random, own, &pool, own.rounds as usize)?;
            }
        }
    }
    Ok(())
}
