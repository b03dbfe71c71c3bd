// Full maps in many threads, with the stack that the documentation names.

mod common;

use common::{same, Model};
use prelgammo::{Entry, ListOrderedMultimap};
use std::thread;

const STACK: usize = 128 * 1024;

// Every call on a full map.
fn work(start: u64) -> ListOrderedMultimap {
    let pairs: Vec<(u64, u64)> = (0..1024).map(|at| (start + at % 256, at)).collect();
    let (mut map, mut model) = (ListOrderedMultimap::from_pairs(&pairs).unwrap(), Model::default());
    for (key, value) in pairs {
        model.append(key, value).unwrap();
    }
    assert_eq!(map.retain(|_, value| value % 5 > 0), model.retain(|_, value| value % 5 > 0));
    assert_eq!(map.pop_front(), model.pop_front());
    assert_eq!(map.pop_back(), model.pop_back());
    assert_eq!(map.insert(start, 1), model.insert_all(start, 1).map(|old| old.first().copied()));
    assert_eq!(map.insert_all(start + 1, 2).map(Iterator::collect), model.insert_all(start + 1, 2));
    assert_eq!(map.remove(&(start + 2)), model.remove_all(start + 2).first().copied());
    assert_eq!(map.remove_all(&(start + 3)).collect::<Vec<_>>(), model.remove_all(start + 3));
    assert_eq!(map.pack_to(256, 1024), model.pack_to(256, 1024));
    let Entry::Occupied(mut entry) = map.entry(start) else { panic!("{start} is absent") };
    assert_eq!(entry.append(3), model.append(start, 3).map(|_| ()));
    assert_eq!(entry.insert(4), model.insert_all(start, 4).unwrap()[0]);
    assert_eq!(entry.remove_entry(), (start, model.remove_all(start)[0]));
    let Entry::Vacant(entry) = map.entry(start) else { panic!("{start} is present") };
    assert_eq!(entry.insert(5), model.append(start, 5).map(|_| ()));
    same(&map, &model);
    assert_eq!(ListOrderedMultimap::from_record(map.as_record()), Some(map.clone()));
    assert_eq!(ListOrderedMultimap::from_bytes(&map.to_bytes()), Ok(map.clone()));
    map
}

#[test]
fn many_threads_with_maps_of_their_own() {
    let start = |n: u64| thread::Builder::new().stack_size(STACK).spawn(move || work(1000 * n)).unwrap();
    let threads: Vec<_> = (0..16).map(start).collect();
    for (n, thread) in threads.into_iter().enumerate() {
        let map = thread.join().unwrap();
        assert_eq!(map.get(&(1000 * n as u64)), Some(5));
    }
}

#[test]
fn many_threads_read_one_map() {
    let map = work(0);
    let pairs: Vec<_> = map.iter().collect();
    thread::scope(|scope| {
        for _ in 0..8 {
            scope.spawn(|| {
                for key in 0..256 {
                    let record = pairs.iter().filter(|pair| pair.0 == key).map(|pair| pair.1);
                    assert!(map.get_all(&key).eq(record));
                }
            });
        }
    });
}
