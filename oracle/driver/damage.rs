// Records damaged at random: the port's well_linked beside a check written here from document 01, module 6, and from document
// 02, No. 1 and 2, with sets and plain loops. Of T's counters it asks nothing: each may be any number of its 32 bits.

use crate::library::{Map, PortMap};
use crate::lists::{start_place, Random};
use crate::model::{Call, Limits, Op, HIGHEST, POSTERS};
use crate::stops::while_running;
use std::collections::HashSet;

// The places of a list in order, where its links and its freed places are right.
fn order(next: &[u16], previous: &[u16], [len, fresh, free]: [u16; 3]) -> Option<Vec<u16>> {
    let root = (next.len() - 1) as u16;
    if len > fresh || fresh > root {
        return None;
    }
    let mut seen = HashSet::new();
    let (mut places, mut before) = (Vec::new(), root);
    for _ in 0..len {
        let here = next[before as usize];
        if here >= fresh || !seen.insert(here) || previous[here as usize] != before {
            return None;
        }
        places.push(here);
        before = here;
    }
    if next[before as usize] != root || previous[root as usize] != before {
        return None;
    }
    let mut here = free;
    for _ in len..fresh {
        if here >= fresh || !seen.insert(here) {
            return None;
        }
        here = next[here as usize];
    }
    Some(places)
}

// Each member place stands in one index place, where the search finds it; every other place is empty.
fn indexed(m: &Map, members: &[u16]) -> bool {
    let used: Vec<u16> = m.index.iter().copied().filter(|p| *p != 65535).collect();
    let held: HashSet<u16> = used.iter().copied().collect();
    if used.len() != members.len() || held != members.iter().copied().collect() {
        return false;
    }
    members.iter().all(|place| {
        let mut at = start_place(m.keys[*place as usize]) as usize;
        for _ in 0..512 {
            if m.index[at] == 65535 {
                return false;
            }
            if m.index[at] == *place {
                return true;
            }
            at = (at + 1) % 512;
        }
        false
    })
}

// The limits are at most the highest, and no more is held than they say.
fn limited(m: &Map) -> bool {
    let Limits { members, rounds } = m.limits();
    members <= 256 && rounds <= 1024 && m.keys_len as u64 <= members && m.values_len as u64 <= rounds
}

fn well_linked(m: &Map) -> bool {
    if !limited(m) {
        return false;
    }
    let members = order(&m.next_key, &m.previous_key, [m.keys_len, m.keys_fresh, m.keys_free]);
    let rounds = order(&m.next_value, &m.previous_value, [m.values_len, m.values_fresh, m.values_free]);
    members.zip(rounds).map_or(false, |(members, rounds)| {
        let known: HashSet<u16> = members.iter().copied().collect();
        let numbers: HashSet<u64> = members.iter().map(|p| m.keys[*p as usize]).collect();
        numbers.len() == members.len()
            && rounds.iter().all(|r| known.contains(&m.key_index[*r as usize]))
            && members.iter().all(|place| chained(m, *place, &rounds))
            && indexed(m, &members)
    })
}

// The links of the member's record have its rounds in their order, from both ends, and its length counts them.
fn chained(m: &Map, place: u16, rounds: &[u16]) -> bool {
    let record: Vec<u16> = rounds.iter().copied().filter(|r| m.key_index[*r as usize] == place).collect();
    let end = 1024 + place;
    let befores = std::iter::once(&end).chain(&record);
    let afters = record.iter().chain(std::iter::once(&end));
    !record.is_empty()
        && m.length[place as usize] as usize == record.len()
        && befores.zip(afters).all(|(before, after)| {
            m.next_index[*before as usize] == *after && m.previous_index[*after as usize] == *before
        })
}

// A well-linked map made by some calls, with the highest limits or with so few that some of the calls are refused.
fn sample(random: &mut Random) -> Map {
    let few = Limits { members: random.below(13) as u64, rounds: random.below(40) as u64 };
    let (_, mut map) = PortMap::with_limits(if random.below(2) == 0 { HIGHEST } else { few });
    let (calls, members) = (random.below(40), 1 + random.below(12));
    for _ in 0..calls {
        let k = random.below(members) as u64;
        let call = match random.below(40) {
            // leaves its numbers in the places that are free
            0 => Call::new(Op::Clear, 0, 0),
            1..=4 => Call::new(Op::Remove, k, 0),
            5..=8 => Call::new(Op::PopFront, 0, 0),
            9..=12 => Call::new(Op::PopBack, 0, 0),
            _ => Call::new(Op::Append, k, random.below(100) as u64).by(random.below(POSTERS) as u64),
        };
        map.call(&call, &mut [], &mut []);
    }
    *map.map()
}

// One number of the record set to another: near what it was, a place in use, or any. Sometimes a member number too, or a
// counter of T, which may be any.
fn damage(m: &mut Map, random: &mut Random) {
    let any = |random: &mut Random, old: u16| match random.below(4) {
        0 => old.wrapping_add(1),
        1 => old.wrapping_sub(1),
        2 => random.below(16) as u16,
        _ => random.below(65536) as u16,
    };
    let near = |random: &mut Random, n: usize, end: usize| if random.below(4) == 0 { end } else { random.below(n) };
    let slot: &mut u16 = match random.below(18) {
        0 => &mut m.length[near(random, 12, 11)],
        1 => &mut m.next_key[near(random, 12, 256)],
        2 => &mut m.previous_key[near(random, 12, 256)],
        3 => &mut m.key_index[near(random, 40, 39)],
        4 => &mut m.next_value[near(random, 40, 1024)],
        5 => &mut m.previous_value[near(random, 40, 1024)],
        6 => &mut m.next_index[if random.below(2) == 0 { random.below(40) } else { 1024 + random.below(12) }],
        7 => &mut m.previous_index[if random.below(2) == 0 { random.below(40) } else { 1024 + random.below(12) }],
        8 => {
            let at = (start_place(random.below(12) as u64) as usize + random.below(3)) % 512;
            &mut m.index[at]
        }
        9 | 10 => return damage_limit(m, random),
        11 => return damage_counter(m, random),
        12..=14 => [&mut m.keys_len, &mut m.keys_fresh, &mut m.keys_free].into_iter().nth(random.below(3)).unwrap(),
        _ => [&mut m.values_len, &mut m.values_fresh, &mut m.values_free].into_iter().nth(random.below(3)).unwrap(),
    };
    let new = any(random, *slot);
    *slot = new;
    if random.below(20) == 0 {
        m.keys[random.below(12)] = random.below(12) as u64;
    }
    if random.below(20) == 0 {
        damage_counter(m, random);
    }
}

// One of T's counters set to 0, to its ceiling, or to any number.
fn damage_counter(m: &mut Map, random: &mut Random) {
    let any = random.next() as u32;
    m.taken[random.below(POSTERS)] = [0, u32::MAX, any][random.below(3)];
}

// One of the limits set to what is held, the highest limit, one beside either, or any number.
fn damage_limit(m: &mut Map, random: &mut Random) {
    let (limit, held, highest) = match random.below(2) {
        0 => (&mut m.keys_limit, m.keys_len, 256),
        _ => (&mut m.values_limit, m.values_len, 1024),
    };
    *limit = match random.below(8) {
        0 => held,
        1 => held.wrapping_sub(1),
        2 => held + 1,
        3 => highest,
        4 => highest - 1,
        5 => highest + 1,
        6 => limit.wrapping_add(1),
        _ => random.next() as u16,
    };
}

// Checks so many records, a third of them undamaged. Do both always agree?
pub fn run(seed: u64) -> bool {
    let mut random = Random(seed);
    let (mut yes, mut no, mut other) = (0u64, 0u64, 0u64);
    while yes + no < 1_200_000 {
        let good = sample(&mut random);
        for round in 0..12 {
            let mut m = good;
            for _ in 0..round % 3 {
                damage(&mut m, &mut random);
            }
            let at = yes + no + 1;
            let said =
                while_running(&format_args!("  om_well_linked of record {}, seed {}", at, seed), || m.well_linked());
            other += (said != well_linked(&m)) as u64;
            if said {
                yes += 1
            } else {
                no += 1
            }
        }
    }
    println!("well_linked: {} records, {} well-linked, {} not, disagreements {}", yes + no, yes, no, other);
    other == 0
}
