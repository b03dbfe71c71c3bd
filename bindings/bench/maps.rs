// The package and the crate behind one set of calls. What a call gives is given to black_box, and iterators are run to
// their end.

use ordered_multimap::list_ordered_multimap as of_crate;
use prelgammo::Entry;
use std::hint::black_box;

pub type Package = prelgammo::ListOrderedMultimap;
pub type Crate = of_crate::ListOrderedMultimap<u64, u64>;

fn run<T>(value: T) {
    black_box(value);
}

pub trait Map: Clone {
    fn new() -> Self;
    fn append(&mut self, key: u64, value: u64);
    fn insert(&mut self, key: u64, value: u64);
    fn insert_all(&mut self, key: u64, value: u64);
    fn remove(&mut self, key: u64);
    fn remove_all(&mut self, key: u64);
    fn occupied_append(&mut self, key: u64, value: u64);
    fn occupied_insert(&mut self, key: u64, value: u64);
    fn occupied_remove_entry(&mut self, key: u64);
    fn vacant_insert(&mut self, key: u64, value: u64);
    fn pop_front(&mut self);
    fn pop_back(&mut self);
    fn retain(&mut self, keep: fn(u64, u64) -> bool);
    fn pack_to(&mut self, keys: usize, values: usize);
    fn clear(&mut self);
    fn get(&self, key: u64);
    fn get_all(&self, key: u64);
    fn entry_len(&self, key: u64);
    fn contains_key(&self, key: u64);
    fn keys(&self);
    fn keys_len(&self);
    fn values_len(&self);
    fn iter(&self);
    // The map of these pairs, in the fastest way that there is.
    fn from_pairs(pairs: &[(u64, u64)]) -> Self;
}

// What the two have in common but for what they give back.
macro_rules! calls {
    ($type:ty) => {
        fn new() -> Self {
            <$type>::new()
        }

        fn append(&mut self, key: u64, value: u64) {
            let _ = black_box(<$type>::append(self, key, value));
        }

        fn insert(&mut self, key: u64, value: u64) {
            let _ = black_box(<$type>::insert(self, key, value));
        }

        fn remove(&mut self, key: u64) {
            black_box(<$type>::remove(self, &key));
        }

        fn remove_all(&mut self, key: u64) {
            <$type>::remove_all(self, &key).for_each(run);
        }

        fn pop_front(&mut self) {
            black_box(<$type>::pop_front(self));
        }

        fn pop_back(&mut self) {
            black_box(<$type>::pop_back(self));
        }

        fn retain(&mut self, keep: fn(u64, u64) -> bool) {
            <$type>::retain(self, |key, value| keep(*key, *value));
        }

        fn pack_to(&mut self, keys: usize, values: usize) {
            let _ = black_box(<$type>::pack_to(self, keys, values));
        }

        fn clear(&mut self) {
            <$type>::clear(self);
        }

        fn get(&self, key: u64) {
            black_box(<$type>::get(self, &key));
        }

        fn get_all(&self, key: u64) {
            <$type>::get_all(self, &key).for_each(run);
        }

        fn entry_len(&self, key: u64) {
            black_box(<$type>::entry_len(self, &key));
        }

        fn contains_key(&self, key: u64) {
            black_box(<$type>::contains_key(self, &key));
        }

        fn keys(&self) {
            <$type>::keys(self).for_each(run);
        }

        fn keys_len(&self) {
            black_box(<$type>::keys_len(self));
        }

        fn values_len(&self) {
            black_box(<$type>::values_len(self));
        }

        fn iter(&self) {
            <$type>::iter(self).for_each(run);
        }
    };
}

impl Map for Package {
    calls!(Package);

    fn insert_all(&mut self, key: u64, value: u64) {
        Package::insert_all(self, key, value).unwrap().for_each(run);
    }

    fn occupied_append(&mut self, key: u64, value: u64) {
        if let Entry::Occupied(mut entry) = self.entry(key) {
            entry.append(value).unwrap();
        }
    }

    fn occupied_insert(&mut self, key: u64, value: u64) {
        if let Entry::Occupied(mut entry) = self.entry(key) {
            black_box(entry.insert(value));
        }
    }

    fn occupied_remove_entry(&mut self, key: u64) {
        if let Entry::Occupied(entry) = self.entry(key) {
            black_box(entry.remove_entry());
        }
    }

    fn vacant_insert(&mut self, key: u64, value: u64) {
        if let Entry::Vacant(entry) = self.entry(key) {
            entry.insert(value).unwrap();
        }
    }

    fn from_pairs(pairs: &[(u64, u64)]) -> Self {
        Package::from_pairs(pairs).unwrap()
    }
}

impl Map for Crate {
    calls!(Crate);

    fn insert_all(&mut self, key: u64, value: u64) {
        Crate::insert_all(self, key, value).for_each(run);
    }

    fn occupied_append(&mut self, key: u64, value: u64) {
        if let of_crate::Entry::Occupied(mut entry) = self.entry(key) {
            entry.append(value);
        }
    }

    fn occupied_insert(&mut self, key: u64, value: u64) {
        if let of_crate::Entry::Occupied(mut entry) = self.entry(key) {
            black_box(entry.insert(value));
        }
    }

    fn occupied_remove_entry(&mut self, key: u64) {
        if let of_crate::Entry::Occupied(entry) = self.entry(key) {
            black_box(entry.remove_entry());
        }
    }

    fn vacant_insert(&mut self, key: u64, value: u64) {
        if let of_crate::Entry::Vacant(entry) = self.entry(key) {
            entry.insert(value);
        }
    }

    fn from_pairs(pairs: &[(u64, u64)]) -> Self {
        pairs.iter().copied().collect()
    }
}
