// Document 01's steps over plain vectors, under the package's names, and the comparison of a map with them.
#![allow(dead_code)]

use prelgammo::{KeyWrapper, ListOrderedMultimap, Refused, MEMBERS, POSTERS, ROUNDS};

// A small generator of numbers (splitmix64).
pub struct Random(pub u64);

impl Random {
    pub fn next(&mut self) -> u64 {
        self.0 = self.0.wrapping_add(0x9E37_79B9_7F4A_7C15);
        let a = (self.0 ^ (self.0 >> 30)).wrapping_mul(0xBF58_476D_1CE4_E5B9);
        let b = (a ^ (a >> 27)).wrapping_mul(0x94D0_49BB_1331_11EB);
        b ^ (b >> 31)
    }

    pub fn below(&mut self, n: usize) -> usize {
        (self.next() % n as u64) as usize
    }
}

#[derive(Clone, Debug)]
pub struct Model {
    pub most_members: usize,
    pub most_rounds: usize,
    pub pairs: Vec<(u64, u64)>,
    pub members: Vec<u64>,
    pub taken: [u64; POSTERS],
}

impl Default for Model {
    fn default() -> Model {
        Model::with_limits(MEMBERS, ROUNDS)
    }
}

impl Model {
    pub fn with_limits(most_members: usize, most_rounds: usize) -> Model {
        Model { most_members, most_rounds, pairs: Vec::new(), members: Vec::new(), taken: [0; POSTERS] }
    }

    pub fn contains_key(&self, key: u64) -> bool {
        self.members.contains(&key)
    }

    pub fn get_all(&self, key: u64) -> Vec<u64> {
        self.pairs.iter().filter(|pair| pair.0 == key).map(|pair| pair.1).collect()
    }

    fn room(&self, key: u64) -> Result<(), Refused> {
        if self.pairs.len() == self.most_rounds {
            return Err(Refused::Full);
        }
        if !self.contains_key(key) && self.members.len() == self.most_members {
            return Err(Refused::Crowded);
        }
        Ok(())
    }

    fn add(&mut self, poster: usize, key: u64, value: u64) {
        self.pairs.push((key, value));
        if !self.contains_key(key) {
            self.members.push(key);
        }
        self.taken[poster] += 1;
    }

    // Members without a pair leave.
    fn sweep(&mut self) {
        let pairs = &self.pairs;
        self.members.retain(|member| pairs.iter().any(|pair| pair.0 == *member));
    }

    // As poster 0, as do the other calls that name none.
    pub fn append(&mut self, key: u64, value: u64) -> Result<bool, Refused> {
        self.append_as(0, key, value)
    }

    pub fn append_as(&mut self, poster: u64, key: u64, value: u64) -> Result<bool, Refused> {
        let poster = counter(poster)?;
        self.room(key)?;
        let present = self.contains_key(key);
        self.add(poster, key, value);
        Ok(present)
    }

    pub fn insert_all(&mut self, key: u64, value: u64) -> Result<Vec<u64>, Refused> {
        self.insert_all_as(0, key, value)
    }

    pub fn insert_all_as(&mut self, poster: u64, key: u64, value: u64) -> Result<Vec<u64>, Refused> {
        let poster = counter(poster)?;
        if !self.contains_key(key) {
            self.room(key)?;
        }
        let old = self.get_all(key);
        self.pairs.retain(|pair| pair.0 != key);
        self.add(poster, key, value);
        Ok(old)
    }

    pub fn remove_all(&mut self, key: u64) -> Vec<u64> {
        let old = self.get_all(key);
        self.pairs.retain(|pair| pair.0 != key);
        self.sweep();
        old
    }

    pub fn pop_front(&mut self) -> Option<(KeyWrapper, u64)> {
        (!self.pairs.is_empty()).then(|| self.pop(0))
    }

    pub fn pop_back(&mut self) -> Option<(KeyWrapper, u64)> {
        (!self.pairs.is_empty()).then(|| self.pop(self.pairs.len() - 1))
    }

    fn pop(&mut self, at: usize) -> (KeyWrapper, u64) {
        let (key, value) = self.pairs.remove(at);
        self.sweep();
        (if self.contains_key(key) { KeyWrapper::Borrowed(key) } else { KeyWrapper::Owned(key) }, value)
    }

    pub fn retain(&mut self, mut keep: impl FnMut(&u64, &u64) -> bool) -> usize {
        self.pairs.retain(|(key, value)| keep(key, value));
        self.sweep();
        self.pairs.len()
    }

    pub fn pack_to(&self, members: usize, rounds: usize) -> Result<(), Refused> {
        if members < self.members.len() {
            return Err(Refused::MembersBelow);
        }
        if rounds < self.pairs.len() {
            return Err(Refused::RoundsBelow);
        }
        if members > self.most_members || rounds > self.most_rounds {
            return Err(Refused::Above);
        }
        Ok(())
    }

    pub fn try_extend(&mut self, pairs: &[(u64, u64)]) -> Result<(), Refused> {
        self.try_extend_as(0, pairs)
    }

    pub fn try_extend_as(&mut self, poster: u64, pairs: &[(u64, u64)]) -> Result<(), Refused> {
        let mut longer = self.clone();
        for &(key, value) in pairs {
            longer.append_as(poster, key, value)?;
        }
        *self = longer;
        Ok(())
    }

    pub fn clear(&mut self) {
        self.pairs.clear();
        self.members.clear();
    }
}

// The poster's place among the counters.
fn counter(poster: u64) -> Result<usize, Refused> {
    if poster < POSTERS as u64 {
        Ok(poster as usize)
    } else {
        Err(Refused::NoPoster)
    }
}

// The lists and counts, from both ends.
pub fn same_lists(map: &ListOrderedMultimap, model: &Model) {
    assert!(map.iter().eq(model.pairs.iter().copied()), "{map:?} is not {model:?}");
    assert!(map.iter().rev().eq(model.pairs.iter().rev().copied()));
    assert!(map.keys().eq(model.members.iter().copied()), "keys {:?} are not {:?}", map.keys(), model.members);
    assert_eq!((map.values_len(), map.keys_len()), (model.pairs.len(), model.members.len()));
    assert_eq!((map.iter().len(), map.keys().len()), (model.pairs.len(), model.members.len()));
    assert_eq!(map.taken(), model.taken);
    assert_eq!((map.front(), map.back()), (model.pairs.first().copied(), model.pairs.last().copied()));
    assert_eq!(map.is_empty(), model.pairs.is_empty());
}

pub fn same_record(map: &ListOrderedMultimap, model: &Model, key: u64) {
    let record = model.get_all(key);
    assert!(map.get_all(&key).eq(record.iter().copied()), "{key}: {:?} is not {record:?}", map.get_all(&key));
    assert_eq!(map.get(&key), record.first().copied());
    assert_eq!(map.entry_len(&key), record.len());
    assert_eq!(map.contains_key(&key), !record.is_empty());
}

// All that the package shows of a map.
pub fn same(map: &ListOrderedMultimap, model: &Model) {
    same_lists(map, model);
    for &key in &model.members {
        same_record(map, model, key);
    }
    assert!(map.values().eq(model.pairs.iter().map(|pair| pair.1)));
    assert!(map.values().rev().eq(model.pairs.iter().rev().map(|pair| pair.1)));
    let pairs = || map.pairs().map(|(key, values)| (key, values.collect::<Vec<_>>()));
    assert!(pairs().eq(model.members.iter().map(|&key| (key, model.get_all(key)))));
    assert!(pairs().rev().eq(model.members.iter().rev().map(|&key| (key, model.get_all(key)))));
    assert!(map.clone().into_iter().eq(model.pairs.iter().copied()));
}
