// The package's map beside the crate's, in one program: the crate's methods that document 01 does not name, on random maps.
// The crate's calls that document 01 does name are compared by oracle/run.sh.

use ordered_multimap::list_ordered_multimap as of_crate;
use prelgammo::list_ordered_multimap as of_package;

type Package = of_package::ListOrderedMultimap;
type Crate = of_crate::ListOrderedMultimap<u64, u64>;

const CALLS: u64 = 200_000;
// so few that nothing is refused, which the crate never does
const MOST_ROUNDS: usize = 60;

// A small generator of numbers (splitmix64).
struct Random(u64);

impl Random {
    fn below(&mut self, n: u64) -> u64 {
        self.0 = self.0.wrapping_add(0x9E37_79B9_7F4A_7C15);
        let a = (self.0 ^ (self.0 >> 30)).wrapping_mul(0xBF58_476D_1CE4_E5B9);
        let b = (a ^ (a >> 27)).wrapping_mul(0x94D0_49BB_1331_11EB);
        (b ^ (b >> 31)) % n
    }
}

// Makes the call on both. Do they give the same?
type Call = fn(&mut Package, &mut Crate, u64, u64) -> bool;

const OF_MAPS: [(&str, Call); 7] = [
    ("append", |ours, theirs, k, v| ours.append(k, v) == Ok(theirs.append(k, v))),
    ("remove_entry", |ours, theirs, k, _| ours.remove_entry(&k) == theirs.remove_entry(&k)),
    ("remove_entry_all", |ours, theirs, k, _| {
        let due = theirs.remove_entry_all(&k).map(|(key, values)| (key, values.collect::<Vec<_>>()));
        ours.remove_entry_all(&k).map(|(key, values)| (key, values.collect::<Vec<_>>())) == due
    }),
    ("pack_to_fit", |ours, theirs, _, _| {
        ours.pack_to_fit();
        theirs.pack_to_fit();
        true
    }),
    ("try_extend", |ours, theirs, k, v| {
        let pairs = (0..v % 9).map(|at| (k + at % 3, v + at));
        theirs.extend(pairs.clone());
        ours.try_extend(pairs) == Ok(())
    }),
    ("into_iter", |ours, theirs, _, _| ours.clone().into_iter().eq(theirs.clone())),
    ("into_iter from the back", |ours, theirs, _, _| {
        ours.clone().into_iter().rev().eq(theirs.clone().into_iter().rev())
    }),
];

type OccupiedCall = for<'map> fn(of_package::OccupiedEntry<'map>, of_crate::OccupiedEntry<'map, u64, u64>, u64) -> bool;

const OF_ENTRIES: [(&str, OccupiedCall); 6] = [
    ("OccupiedEntry::get", |ours, theirs, _| ours.get() == *theirs.get()),
    ("OccupiedEntry::iter", |ours, theirs, _| {
        ours.iter().eq(theirs.iter().copied()) && ours.iter().rev().eq(theirs.iter().rev().copied())
    }),
    ("OccupiedEntry::insert_all", |mut ours, mut theirs, v| ours.insert_all(v).eq(theirs.insert_all(v))),
    ("OccupiedEntry::remove", |ours, theirs, _| ours.remove() == theirs.remove()),
    ("OccupiedEntry::remove_all", |ours, theirs, _| ours.remove_all().eq(theirs.remove_all())),
    ("OccupiedEntry::remove_entry_all", |ours, theirs, _| {
        let ((key, values), (their_key, their_values)) = (ours.remove_entry_all(), theirs.remove_entry_all());
        key == their_key && values.eq(their_values)
    }),
];

const VACANT: &str = "VacantEntry::insert_entry";

// Fills a vacant entry and goes on with the occupied one, or makes a call of an occupied one. The call's name, and whether
// both gave the same.
fn entry_call(ours: &mut Package, theirs: &mut Crate, k: u64, v: u64, which: usize) -> (&'static str, bool) {
    match (ours.entry(k), theirs.entry(k)) {
        (of_package::Entry::Occupied(ours), of_crate::Entry::Occupied(theirs)) => {
            let (name, call) = OF_ENTRIES[which % OF_ENTRIES.len()];
            (name, call(ours, theirs, v))
        }
        (of_package::Entry::Vacant(ours), of_crate::Entry::Vacant(theirs)) => {
            let (ours, mut theirs) = (ours.insert_entry(v), theirs.insert_entry(v));
            theirs.append(v + 1);
            let same = ours.is_ok_and(|mut ours| ours.append(v + 1) == Ok(()) && ours.key() == theirs.key());
            (VACANT, same)
        }
        _ => ("entry", false),
    }
}

// Do both maps show the same by the crate's methods that only read?
fn alike(ours: &Package, theirs: &Crate) -> bool {
    let their_pairs = || theirs.pairs().map(|(key, values)| (*key, values.copied().collect::<Vec<_>>()));
    let pairs = || ours.pairs().map(|(key, values)| (key, values.collect::<Vec<_>>()));
    ours.front() == theirs.front().map(|(key, value)| (*key, *value))
        && ours.back() == theirs.back().map(|(key, value)| (*key, *value))
        && ours.is_empty() == theirs.is_empty()
        && ours.values().eq(theirs.values().copied())
        && ours.values().rev().eq(theirs.values().rev().copied())
        && ours.values().len() == theirs.values().len()
        && pairs().eq(their_pairs())
        && pairs().rev().eq(their_pairs().rev())
        && ours.pairs().len() == theirs.pairs().len()
        && ours.iter().eq(theirs.iter().map(|(key, value)| (*key, *value)))
        && ours.keys().eq(theirs.keys().copied())
}

fn main() {
    let (mut ours, mut theirs, mut random) = (Package::new(), Crate::new(), Random(1));
    let names = OF_MAPS.iter().map(|call| call.0).chain(OF_ENTRIES.iter().map(|call| call.0)).chain([VACANT]);
    let mut made: Vec<(&str, u64)> = names.map(|name| (name, 0)).collect();
    for at in 0..CALLS {
        let (k, which) = (random.below(12), random.below(16) as usize);
        let (name, same) = match OF_MAPS.get(which) {
            Some((name, call)) => (*name, call(&mut ours, &mut theirs, k, at)),
            None => entry_call(&mut ours, &mut theirs, k, at, random.below(6) as usize),
        };
        assert!(same, "{name} {k} {at} gives something else");
        assert!(alike(&ours, &theirs), "after {name} {k} {at}: {ours:?} is not {theirs:?}");
        made.iter_mut().filter(|call| call.0 == name).for_each(|call| call.1 += 1);
        while ours.values_len() > MOST_ROUNDS {
            assert_eq!(ours.pop_front().map(|popped| popped.1), theirs.pop_front().map(|popped| popped.1));
        }
    }
    for (name, count) in made {
        assert!(count > 0, "{name} was never called");
        println!("{name}: {count}");
    }
    println!("the package's methods give what the crate's do, in {CALLS} calls");
}
