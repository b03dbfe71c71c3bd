// Tests of the driver itself: the model against document 01's own examples, tapes, how a run ends (endings.rs), and ports
// that are wrong on purpose, each of which the comparison has to find.

use crate::compare::{Difference, Session};
use crate::crate_map::{passes, strikes_neighbours, CrateMap};
use crate::endings;
use crate::image;
use crate::lines::{answer_chunk, Book};
use crate::lists::{self, fnv, start_place, Random};
use crate::model::{Answer, Call, Limits, Model, Op, HIGHEST, MAX_ROUNDS, NONE, OPS, POSTERS};
use crate::port::{answer_of, replay_with, words, ModelPort, OneByOne, Port, Tape, WIDTH};
use crate::shrink::shrink;
use crate::stops::note_panics;

pub fn run() -> bool {
    note_panics();
    let mut checks = vec![
        ("the marked table", marked_table()),
        ("edges", edges()),
        ("limits of a map's own", own_limits()),
        ("posters", posters()),
        ("FNV-1a by its published values", published_hashes()),
        ("tapes decode to their lists", tapes_decode()),
        ("odd tapes end where they should", odd_tapes_end()),
        ("passes of retain", passes_do_what_marks_say()),
        ("another state of the crate is seen", other_states_are_seen()),
        ("lines of document 01's example", lines_of_the_example()),
        ("images by hand", images_by_hand()),
    ];
    checks.extend(endings::checks());
    checks.extend(WRONG.map(|(name, step)| (name, is_found(&|| Box::new(WrongPort(step))))));
    checks.push(("wrong: a removal leaves a gap in the index", is_found(&|| Box::new(GapPort))));
    let unseen = |call| is_found(&|| Box::new(OneByOne { new: nothing_wrong, call }));
    checks.extend(UNSEEN.map(|(name, call)| (name, unseen(call))));
    let made = |make| is_found(&|| Box::new(OneByOne { new: make, call: rightly }));
    checks.extend(MAKINGS.map(|(name, make)| (name, made(make))));
    for (name, good) in &checks {
        println!("{:50} {}", name, if *good { "good" } else { "WRONG" });
    }
    checks.iter().all(|check| check.1)
}

fn held(pairs: &[(u64, u64)]) -> Model {
    let mut model = Model::new(HIGHEST);
    for &(k, v) in pairs {
        model.step(&Call::new(Op::Append, k, v), &mut [], &mut []);
    }
    model
}

// The marked cases of document 01: pairs, call, answer, what is written, pairs afterwards, members afterwards.
fn marked_table() -> bool {
    type Case = (&'static [(u64, u64)], Call, Answer, &'static [u64], &'static [(u64, u64)], &'static [u64]);
    let call = Call::new;
    let cases: [Case; 10] = [
        (&[], call(Op::PopFront, 0, 0), Answer::None, &[], &[], &[]),
        (&[], call(Op::Append, 7, 10), Answer::Present(false), &[], &[(7, 10)], &[7]),
        (&[(7, 10)], call(Op::Append, 7, 11), Answer::Present(true), &[], &[(7, 10), (7, 11)], &[7]),
        (
            &[(7, 10), (9, 20), (7, 11)],
            Call::lending(Op::InsertAll, 7, 12, 2),
            Answer::Count(2),
            &[10, 11],
            &[(9, 20), (7, 12)],
            &[7, 9],
        ),
        (&[(9, 20)], Call::lending(Op::RemoveAll, 5, 0, 0), Answer::Count(0), &[], &[(9, 20)], &[9]),
        (&[(9, 20), (7, 12)], call(Op::PopBack, 0, 0), Answer::Popped(7, 12, true), &[], &[(9, 20)], &[9]),
        (&[(7, 10), (7, 11)], call(Op::PopFront, 0, 0), Answer::Popped(7, 10, false), &[], &[(7, 11)], &[7]),
        (&[(7, 10), (7, 11), (7, 12)], Call::retain(vec![0, 0, 1]), Answer::Count(1), &[], &[(7, 12)], &[7]),
        (&[(7, 10), (7, 11)], Call::retain(vec![0, 0]), Answer::Count(0), &[], &[], &[]),
        (&[(7, 10), (9, 20)], call(Op::PackTo, 1, 2), Answer::Refused(4), &[], &[(7, 10), (9, 20)], &[7, 9]),
    ];
    cases.iter().all(|(before, call, answer, written, pairs, members)| {
        let mut model = held(before);
        let mut out = vec![0; call.out];
        model.step(call, &mut out, &mut []) == *answer
            && out == *written
            && model.pairs == *pairs
            && model.members == *members
    })
}

// With 1,023 rounds a known member's append passes, with 1,024 none does. With 256 members and 300 rounds a new one gets
// 2, a known one passes.
fn edges() -> bool {
    let append = |model: &mut Model, k| model.step(&Call::new(Op::Append, k, 0), &mut [], &mut []);
    let mut rounds = held(&(0..1023).map(|at| (at % 200, at)).collect::<Vec<_>>());
    let mut members = held(&(0..300).map(|at| (at % 256, at)).collect::<Vec<_>>());
    append(&mut rounds, 5) == Answer::Present(true)
        && append(&mut rounds, 5) == Answer::Refused(1)
        && append(&mut rounds, 999) == Answer::Refused(1)
        && append(&mut members, 999) == Answer::Refused(2)
        && append(&mut members, 255) == Answer::Present(true)
        && rounds.taken[0] == 1024
        && members.taken[0] == 301
}

// A map for two members and three rounds is full against these, also after clear and pack_to; limits of 0 let nothing in;
// limits that are too high are refused, and leave both 0.
fn own_limits() -> bool {
    let limits = |members, rounds| Limits { members, rounds };
    let answers = |limits, list: &[(Op, u64, u64)]| {
        let mut model = Model::new(limits);
        let answer = |&(op, k, v): &(Op, u64, u64)| model.step(&Call::new(op, k, v), &mut [], &mut []);
        list.iter().map(answer).collect::<Vec<_>>()
    };
    let (append, pack, no, yes) = (Op::Append, Op::PackTo, Answer::Present(false), Answer::Present(true));
    let filled = [(append, 1, 1), (append, 2, 2), (append, 3, 3), (append, 1, 4), (append, 1, 5), (append, 3, 6)];
    let due = [no, no, Answer::Refused(2), yes, Answer::Refused(1), Answer::Refused(1)];
    let packed = [(pack, 2, 4), (pack, 3, 3), (pack, 1, 4), (pack, 2, 3), (append, 1, 7), (Op::Clear, 0, 0)];
    let then = [6, 6, 4].map(Answer::Refused).into_iter().chain([Answer::Done, Answer::Refused(1), Answer::Done]);
    let twice = [&filled[..], &packed, &filled].concat();
    let made = |members, rounds| {
        let (answer, model) = Model::make(limits(members, rounds));
        (answer, model.limits)
    };
    answers(limits(2, 3), &twice) == due.into_iter().chain(then).chain(due).collect::<Vec<_>>()
        && answers(NONE, &[(append, 1, 1), (pack, 0, 0), (pack, 0, 1)])
            == [Answer::Refused(1), Answer::Done, Answer::Refused(6)]
        && answers(limits(0, 5), &[(append, 1, 1), (Op::Insert, 1, 1)]) == [Answer::Refused(2); 2]
        && made(256, 1024) == (Answer::Done, HIGHEST)
        && [(257, 0), (0, 1025), (u64::MAX, u64::MAX)].iter().all(|&(m, r)| made(m, r) == (Answer::Refused(15), NONE))
}

// Each poster's rounds are counted on their own, also where they go over a record, and no call takes one back. A number above
// 15 is refused by 16, whatever else there is to refuse; a call that adds nothing does not look at it. T is written as far as
// its slice goes.
fn posters() -> bool {
    let mut model = Model::new(Limits { members: 1, rounds: 2 });
    let mut answer = |call: Call| model.step(&call, &mut vec![0; call.out], &mut []);
    let add = |poster| Call::new(Op::Append, 7, 1).by(poster);
    let counted = [add(3), add(15), Call::lending(Op::InsertAll, 7, 2, 2).by(3), add(0)].map(&mut answer);
    // of the member that is there, where the map is full, and of one that is not
    let adding: Vec<Op> = OPS.iter().map(|row| row.0).filter(|op| op.posts()).collect();
    let calls = adding.iter().flat_map(|&op| [7, 8].map(|k| Call::new(op, k, 1)));
    let by_none = calls.flat_map(|call| [16, 255, u64::MAX].map(|poster| call.clone().by(poster)));
    let refused = by_none.map(&mut answer).all(|answer| answer == Answer::Refused(16));
    let others = [Op::PopFront, Op::Clear].map(|op| answer(Call::new(op, 0, 0).by(u64::MAX)));
    let mut read = |len: usize| {
        let mut out = vec![99; len];
        (model.step(&Call::taken(len), &mut out, &mut []), out)
    };
    let mut counters = [0; POSTERS];
    (counters[0], counters[3], counters[15]) = (1, 2, 1);
    counted == [Answer::Present(false), Answer::Present(true), Answer::Count(2), Answer::Present(true)]
        && adding.len() == 6
        && refused
        && others == [Answer::Popped(7, 2, false), Answer::Done]
        && [0, 3, 15, 16].iter().all(|&len| read(len) == (Answer::Count(len as u64), counters[..len].to_vec()))
        && read(18) == (Answer::Count(16), [&counters[..], &[99, 99]].concat())
}

fn published_hashes() -> bool {
    fnv(b"") == 0xcbf29ce484222325 && fnv(b"a") == 0xaf63dc4c8601ec8c && fnv(b"foobar") == 0x85944171f73967e8
}

pub fn sample() -> Vec<Call> {
    vec![
        Call::new(Op::Append, 7, 10).by(3),
        Call::new(Op::Append, 9, 20),
        Call::new(Op::Append, 7, 11),
        Call::lending(Op::InsertAll, 7, 12, 3).by(3),
        Call::iter(3, 4),
        Call::lending(Op::Keys, 0, 0, 1),
        Call::new(Op::PopBack, 0, 0),
        Call::retain(vec![0]),
        Call::taken(5),
    ]
}

fn tapes_decode() -> bool {
    let list = sample();
    let mut tape = Tape::of(HIGHEST, &list);
    let same = tape.decode() == list;
    let ran = ModelPort.replay(&mut tape);
    let due = [
        Answer::Present(false),
        Answer::Present(false),
        Answer::Present(true),
        Answer::Count(2),
        Answer::Count(2),
        Answer::Refused(3),
        Answer::Popped(7, 12, true),
        Answer::Count(0),
        Answer::Count(5),
    ];
    let untouched = Tape::of(HIGHEST, &list);
    same && ran == Ok(due.len() as u64)
        && tape.answers == due.map(words).concat()
        && due.iter().all(|&answer| answer_of(&words(answer)) == Some(answer))
        && tape.outs[..5] == [10, 11, untouched.outs[2], 9, 7]
        && tape.outs[5..7] == untouched.outs[5..7]
        && tape.outs[7..] == [2, 0, 0, 2, 0]
        && tape.outs2[..2] == [20, 12]
        && tape.outs2[2..] == untouched.outs2[2..]
}

// Tapes that break off: by a part of a call, a call that there is none of, slices or marks that are not there or that the
// call has no use for, and too few places for answers. And tapes that do not: with more than is needed, and with a poster
// where the call has no use for one.
pub fn odd_tapes() -> Vec<Tape> {
    let whole = Tape::of(HIGHEST, &sample());
    let changed = |at: usize, number: u64| {
        let mut tape = whole.clone();
        tape.calls[at] = number;
        tape
    };
    let mut part = whole.clone();
    part.calls.truncate(WIDTH * 7 + WIDTH - 1);
    let mut few_answers = whole.clone();
    few_answers.answers.truncate(4 * 7 + 3);
    let mut few_marks = whole.clone();
    few_marks.marks.clear();
    let mut few_outs = whole.clone();
    few_outs.outs.truncate(6);
    let mut few_outs2 = whole.clone();
    few_outs2.outs2.truncate(3);
    let mut longer = whole.clone();
    longer.answers.push(1);
    longer.outs.push(2);
    longer.outs2.push(3);
    longer.marks.push(4);
    vec![
        part,
        few_answers,
        few_marks,
        few_outs,
        few_outs2,
        changed(WIDTH * 6, 24),
        changed(WIDTH * 6, u64::MAX),
        changed(WIDTH * 6 + 4, 1),
        changed(WIDTH * 6 + 5, 1),
        changed(WIDTH * 6 + 6, 1),
        changed(WIDTH * 4 + 5, u64::MAX),
        longer,
        changed(WIDTH * 6 + 1, u64::MAX),
    ]
}

fn odd_tapes_end() -> bool {
    let lengths: Vec<usize> = odd_tapes().iter().map(|tape| tape.decode().len()).collect();
    lengths == [7, 7, 7, 5, 4, 6, 6, 6, 6, 6, 4, 9, 9]
}

// Over random members and marks: the passes together strike what the marks say, and none strikes neighbours.
fn passes_do_what_marks_say() -> bool {
    let mut random = Random(3);
    (0..1000).all(|_| {
        let n = random.below(20);
        let members: Vec<u64> = (0..n).map(|_| random.below(3) as u64).collect();
        let marks: Vec<u8> = (0..n).map(|_| random.below(2) as u8).collect();
        let mut left: Vec<usize> = (0..n).collect();
        let survived = passes(&members, &marks).iter().all(|pass| {
            let now: Vec<u64> = left.iter().map(|&at| members[at]).collect();
            let good = !strikes_neighbours(&now, pass);
            left = left.iter().zip(pass).filter(|pair| *pair.1 == 1).map(|pair| *pair.0).collect();
            good
        });
        survived && left == (0..n).filter(|&at| marks[at] == 1).collect::<Vec<_>>()
    })
}

// The crate's map beside the same lists, and beside lists with one thing changed.
fn other_states_are_seen() -> bool {
    let pairs = [(1, 10), (2, 20), (1, 11)];
    let mut map = CrateMap::new();
    for (k, v) in pairs {
        map.map.append(k, v);
    }
    let changes: [fn(&mut Model); 6] = [
        |model| model.pairs[2].1 = 12,
        |model| model.pairs.swap(0, 2),
        |model| model.pairs.swap(0, 1),
        |model| model.members.swap(0, 1),
        |model| model.pairs.truncate(2),
        |model| model.members.push(3),
    ];
    let seen = changes.iter().all(|change| {
        let mut model = held(&pairs);
        change(&mut model);
        map.difference(&model, 1).is_some()
    });
    seen && map.difference(&held(&pairs), 3).is_none()
}

// The input and the answers that module 8 has, in one chunk and byte by byte.
fn lines_of_the_example() -> bool {
    let input = b"a 7 10\na 9 20\na 7 11\ni 7 12\nl\nm\nb\nk 0\nl\n";
    let due = b"new\nnew\npresent\nold 2 10 11\nlist 9:20 7:12\nkeys 7 9\npop 7 12 gone\nkept 0\nlist\n";
    [input.len(), 1].iter().all(|&size| {
        let (mut book, mut held, mut out) = (Book::new(false), Vec::new(), Vec::new());
        let answered = input.chunks(size).try_for_each(|chunk| answer_chunk(&mut book, chunk, &mut held, &mut out));
        answered.is_ok() && held.is_empty() && out == due
    })
}

// An image written byte by byte, and strings that each row of the table turns away, later rows' conditions met too.
fn images_by_hand() -> bool {
    let model = held(&[(7, 10), (9, 0x0102), (7, 11)]);
    let hand: Vec<u8> =
        [[3, 0, 0, 0, 2, 0, 0, 0], [7, 0, 0, 0, 0, 0, 0, 0], [9, 0, 0, 0, 0, 0, 0, 0], [7, 0, 0, 0, 0, 0, 0, 0]]
            .into_iter()
            .chain([[10, 0, 0, 0, 0, 0, 0, 0], [2, 1, 0, 0, 0, 0, 0, 0], [11, 0, 0, 0, 0, 0, 0, 0]])
            .flatten()
            .collect();
    let three_members = [&[3, 0, 0, 0, 3, 0, 0, 0], &hand[8..]].concat();
    let (just, limits) = (Limits { members: 2, rounds: 3 }, |members, rounds| Limits { members, rounds });
    let refused: [(Limits, &[u8], u64); 12] = [
        (limits(257, 0), &[255; 7], 15),
        (limits(0, 1025), &hand, 15),
        (HIGHEST, &[255; 7], 11),
        (HIGHEST, &[1, 4, 0, 0, 0, 0, 0, 0], 12),
        (HIGHEST, &[0, 0, 0, 0, 1, 1, 0, 0], 12),
        (limits(1, 3), &hand, 12),
        (limits(2, 2), &hand[..9], 12),
        (HIGHEST, &[0, 4, 0, 0, 0, 1, 0, 0], 13),
        (just, &hand[..hand.len() - 1], 13),
        (HIGHEST, &three_members, 14),
        (just, &[1, 0, 0, 0, 0, 0, 0, 0, 7, 0, 0, 0, 0, 0, 0, 0, 1, 0, 0, 0, 0, 0, 0, 0], 14),
        (NONE, &[1, 0, 0, 0, 0, 0, 0, 0], 12),
    ];
    image::write(&model) == hand
        && image::read(HIGHEST, &hand).as_ref() == Ok(&model)
        && image::read(just, &hand) == Ok(Model { limits: just, ..model })
        && image::read(NONE, &[0; 8]) == Ok(Model::new(NONE))
        && refused.iter().all(|(limits, bytes, number)| image::read(*limits, bytes) == Err(*number))
}

pub type Step = fn(&mut Model, &Call, &mut [u64], &mut [u64]) -> Answer;

// The model with one fault each.
const WRONG: [(&str, Step); 22] = [
    ("wrong: insert_all moves its member to the back", |model, call, out, out2| {
        let answer = model.step(call, out, out2);
        if call.op == Op::InsertAll && !matches!(answer, Answer::Refused(_)) {
            model.members.retain(|&k| k != call.k);
            model.members.push(call.k);
        }
        answer
    }),
    ("wrong: K is made anew from P", |model, call, out, out2| {
        let answer = model.step(call, out, out2);
        model.members.clear();
        for pair in &model.pairs {
            if !model.members.contains(&pair.0) {
                model.members.push(pair.0);
            }
        }
        answer
    }),
    ("wrong: a refused append counts for T", |model, call, out, out2| {
        let answer = model.step(call, out, out2);
        if call.op == Op::Append && answer == Answer::Refused(1) {
            model.taken[call.poster as usize] += 1;
        }
        answer
    }),
    ("wrong: append is refused one round early", |model, call, out, out2| {
        if call.op == Op::Append && model.pairs.len() == MAX_ROUNDS - 1 {
            return Answer::Refused(1);
        }
        model.step(call, out, out2)
    }),
    ("wrong: append says present each time", |model, call, out, out2| match model.step(call, out, out2) {
        Answer::Present(_) if call.op == Op::Append => Answer::Present(true),
        answer => answer,
    }),
    ("wrong: pop_back says that its member is gone", |model, call, out, out2| match model.step(call, out, out2) {
        Answer::Popped(k, v, _) if call.op == Op::PopBack => Answer::Popped(k, v, true),
        answer => answer,
    }),
    ("wrong: get_all clears the rest of its slice", |model, call, out, out2| {
        let answer = model.step(call, out, out2);
        if let (Op::GetAll, Answer::Count(count)) = (call.op, answer) {
            out[count as usize..].fill(0);
        }
        answer
    }),
    ("wrong: a mark of 2 keeps its pair", |model, call, out, out2| {
        let marks = call.marks.iter().map(|&mark| if mark == 2 { 1 } else { mark }).collect();
        model.step(&Call { marks, ..call.clone() }, out, out2)
    }),
    ("wrong: a member without a round stays after retain", |model, call, out, out2| {
        let members = model.members.clone();
        let answer = model.step(call, out, out2);
        if call.op == Op::Retain && !matches!(answer, Answer::Refused(_)) {
            model.members = members;
        }
        answer
    }),
    ("wrong: a short slice of iter is written to", |model, call, out, out2| {
        let answer = model.step(call, out, out2);
        if call.op == Op::Iter && answer == Answer::Refused(3) && !out.is_empty() && !model.pairs.is_empty() {
            out[0] = model.pairs[0].0;
        }
        answer
    }),
    ("wrong: append is full against 1,024 alone", |model, call, out, out2| {
        let limits = Limits { rounds: HIGHEST.rounds, ..model.limits };
        within(if call.op == Op::Append { limits } else { model.limits }, model, call, out, out2)
    }),
    ("wrong: vacant insert is crowded against 256 alone", |model, call, out, out2| {
        let limits = Limits { members: HIGHEST.members, ..model.limits };
        within(if call.op == Op::VacantInsert { limits } else { model.limits }, model, call, out, out2)
    }),
    ("wrong: pack_to is held to the highest limits", |model, call, out, out2| {
        within(if call.op == Op::PackTo { HIGHEST } else { model.limits }, model, call, out, out2)
    }),
    ("wrong: all rounds are counted for poster 0", |model, call, out, out2| {
        let by_0 = call.poster < POSTERS as u64;
        model.step(&Call { poster: if by_0 { 0 } else { call.poster }, ..call.clone() }, out, out2)
    }),
    ("wrong: posters are taken modulo 16", |model, call, out, out2| {
        model.step(&call.clone().by(call.poster % POSTERS as u64), out, out2)
    }),
    ("wrong: the poster is looked at after the member", |model, call, out, out2| match model.refusal_by_lists(call) {
        Some(number @ (9 | 10)) => Answer::Refused(number),
        _ => model.step(call, out, out2),
    }),
    ("wrong: the poster is looked at after the limits", |model, call, out, out2| match model.refusal_by_lists(call) {
        Some(number @ (1 | 2)) => Answer::Refused(number),
        _ => model.step(call, out, out2),
    }),
    ("wrong: the poster is looked at after the slice", |model, call, out, out2| match model.refusal_by_lists(call) {
        Some(3) => Answer::Refused(3),
        _ => model.step(call, out, out2),
    }),
    ("wrong: a pop is refused for its poster", |model, call, out, out2| {
        let refused = call.op == Op::PopFront && call.poster >= POSTERS as u64;
        if refused {
            Answer::Refused(16)
        } else {
            model.step(call, out, out2)
        }
    }),
    ("wrong: clear sets T's counters to 0", |model, call, out, out2| {
        let answer = model.step(call, out, out2);
        if call.op == Op::Clear {
            model.taken = [0; POSTERS];
        }
        answer
    }),
    ("wrong: T is refused where its slice is short", |model, call, out, out2| {
        let refused = call.op == Op::Taken && call.out < POSTERS;
        if refused {
            Answer::Refused(3)
        } else {
            model.step(call, out, out2)
        }
    }),
    ("wrong: clear forgets the limits", |model, call, out, out2| {
        let answer = model.step(call, out, out2);
        if call.op == Op::Clear {
            model.limits = HIGHEST;
        }
        answer
    }),
];

// One call on the model as if it had these limits.
fn within(limits: Limits, model: &mut Model, call: &Call, out: &mut [u64], out2: &mut [u64]) -> Answer {
    let own = std::mem::replace(&mut model.limits, limits);
    let answer = model.step(call, out, out2);
    model.limits = own;
    answer
}

pub struct WrongPort(pub Step);

impl Port for WrongPort {
    fn replay(&self, tape: &mut Tape) -> Result<u64, String> {
        let mut model = Model::new(tape.limits);
        Ok(replay_with(tape, &mut model, |model, call, out, out2| words((self.0)(model, call, out, out2))))
    }
}

// The model with an index like the port's, from which members are taken without closing the gap; entry_len asks it.
struct GapPort;

struct Indexed {
    model: Model,
    index: Vec<Option<u64>>,
}

impl Indexed {
    // The place where the member stands, or the empty one that ends the search.
    fn search(&self, k: u64) -> usize {
        let mut at = start_place(k) as usize;
        while self.index[at].map_or(false, |other| other != k) {
            at = (at + 1) % 512;
        }
        at
    }

    fn step(&mut self, call: &Call, out: &mut [u64], out2: &mut [u64]) -> Answer {
        if call.op == Op::EntryLen && self.index[self.search(call.k)].is_none() {
            return Answer::Count(0);
        }
        let answer = self.model.step(call, out, out2);
        let members = &self.model.members;
        for place in &mut self.index {
            *place = place.filter(|k| members.contains(k));
        }
        for &k in members.iter().filter(|&&k| !self.index.contains(&Some(k))).collect::<Vec<_>>() {
            let at = self.search(k);
            self.index[at] = Some(k);
        }
        answer
    }
}

impl Port for GapPort {
    fn replay(&self, tape: &mut Tape) -> Result<u64, String> {
        let mut indexed = Indexed { model: Model::new(tape.limits), index: vec![None; 512] };
        Ok(replay_with(tape, &mut indexed, |indexed, call, out, out2| words(indexed.step(call, out, out2))))
    }
}

// The model beside a number that no call shows, which changes where nothing may.
type Unseen = (Model, u64);

type Make = fn(Limits) -> ([u64; 4], Unseen);
type UnseenCall = fn(&mut Unseen, &Call, &mut [u64], &mut [u64]) -> [u64; 4];

fn nothing_wrong(limits: Limits) -> ([u64; 4], Unseen) {
    let (answer, model) = Model::make(limits);
    (words(answer), (model, 0))
}

fn rightly((model, _): &mut Unseen, call: &Call, out: &mut [u64], out2: &mut [u64]) -> [u64; 4] {
    words(model.step(call, out, out2))
}

const MAKINGS: [(&str, Make); 2] = [
    ("wrong: a making with too high limits says done", |limits| {
        let (_, unseen) = nothing_wrong(limits);
        (words(Answer::Done), unseen)
    }),
    ("wrong: a refused making leaves the highest limits", |limits| {
        let (answer, (model, number)) = nothing_wrong(limits);
        (answer, (Model { limits: if limits.too_high() { HIGHEST } else { limits }, ..model }, number))
    }),
];

const UNSEEN: [(&str, UnseenCall); 2] = [
    ("wrong: a refused call changes what none shows", |(model, number), call, out, out2| {
        let answer = model.step(call, out, out2);
        *number += matches!(answer, Answer::Refused(_)) as u64;
        words(answer)
    }),
    ("wrong: keys changes what none shows", |(model, number), call, out, out2| {
        *number += (call.op == Op::Keys) as u64;
        words(model.step(call, out, out2))
    }),
];

// Does the comparison find a port that is wrong, and shrink the list that shows it?
fn is_found(wrong: &dyn Fn() -> Box<dyn Port>) -> bool {
    let compare = |limits, list: &[Call]| Session::new(vec![wrong()]).list(limits, list).err();
    find(Session::new(vec![wrong()])).map_or(false, |first| {
        let Difference { limits, list, .. } = shrink(first, 2, compare);
        compare(limits, &list).is_some() && (list.len() <= 4 || list.len() >= MAX_ROUNDS)
    })
}

fn find(mut session: Session) -> Option<Difference> {
    let mut random = Random(1);
    lists::every_short_list(&mut session, 3)
        .and_then(|_| lists::small_random_lists(&mut session, &mut random, 20_000))
        .and_then(|_| lists::every_edge(&mut session, &mut random, 1))
        .err()
}
