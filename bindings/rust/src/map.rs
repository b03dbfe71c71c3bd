use crate::ffi::{Map, Record};
use crate::{Entry, KeyWrapper, OccupiedEntry, PostingAs, Refused, VacantEntry, MEMBERS, POSTERS, ROUNDS};
use std::{fmt, iter, vec};

/// The values of a key, in order.
pub type EntryValues = vec::IntoIter<u64>;

/// The values that were taken out, in order.
pub type EntryValuesDrain = vec::IntoIter<u64>;

/// The keys, in the order in which they joined the map.
pub type Keys = vec::IntoIter<u64>;

/// All values, in the order in which they were added.
pub type Values = vec::IntoIter<u64>;

/// Each key with its values, in the order in which the keys joined the map.
pub type KeyValues = vec::IntoIter<(u64, EntryValues)>;

/// All pairs, in the order in which they were added.
pub type Iter = iter::Zip<vec::IntoIter<u64>, vec::IntoIter<u64>>;

/// All pairs of a map that is no more, in the order in which they were added.
pub type IntoIter = Iter;

/// A map from a key to a list of values that keeps the order over all keys.
#[derive(Clone)]
pub struct ListOrderedMultimap {
    pub(crate) map: Map,
}

impl ListOrderedMultimap {
    /// The empty map with the highest limits, [`MEMBERS`] and [`ROUNDS`].
    ///
    /// ```
    /// use prelgammo::ListOrderedMultimap;
    ///
    /// let map = ListOrderedMultimap::new();
    /// assert_eq!(map.values_len(), 0);
    /// ```
    #[must_use]
    pub fn new() -> ListOrderedMultimap {
        ListOrderedMultimap::with_limits(MEMBERS, ROUNDS).expect("the highest limits are not too high")
    }

    /// The empty map with limits of its own: it never has more keys than `members` and more values than `rounds`, and
    /// every call keeps these limits. They may be 0. Refused by 15, where one is above [`MEMBERS`] or [`ROUNDS`].
    ///
    /// ```
    /// use prelgammo::{ListOrderedMultimap, Refused};
    ///
    /// let mut map = ListOrderedMultimap::with_limits(1, 2)?;
    /// map.append(7, 10)?;
    /// assert_eq!(map.append(9, 20), Err(Refused::Crowded));
    /// map.append(7, 11)?;
    /// assert_eq!(map.append(7, 12), Err(Refused::Full));
    /// assert_eq!(ListOrderedMultimap::with_limits(257, 2), Err(Refused::LimitsAbove));
    /// # Ok::<(), prelgammo::Refused>(())
    /// ```
    pub fn with_limits(members: usize, rounds: usize) -> Result<ListOrderedMultimap, Refused> {
        let (map, answer) = Map::new(members as u64, rounds as u64);
        answer.accepted()?.done();
        Ok(ListOrderedMultimap { map })
    }

    /// Adds a value at the back, and says whether the key was in the map before. Refused by 1 and 2.
    ///
    /// ```
    /// use prelgammo::ListOrderedMultimap;
    ///
    /// let mut map = ListOrderedMultimap::new();
    /// assert_eq!(map.append(7, 10), Ok(false));
    /// assert_eq!(map.append(7, 11), Ok(true));
    /// ```
    pub fn append(&mut self, key: u64, value: u64) -> Result<bool, Refused> {
        self.posting_as(0).append(key, value)
    }

    /// Takes all pairs out. [`taken`](ListOrderedMultimap::taken) and the limits stay.
    ///
    /// ```
    /// use prelgammo::ListOrderedMultimap;
    ///
    /// let mut map = ListOrderedMultimap::new();
    /// map.append(7, 10)?;
    /// map.clear();
    /// assert_eq!((map.values_len(), map.keys_len(), map.taken()[0]), (0, 0, 1));
    /// # Ok::<(), prelgammo::Refused>(())
    /// ```
    pub fn clear(&mut self) {
        self.map.clear().done();
    }

    /// Is the key in the map?
    ///
    /// ```
    /// use prelgammo::ListOrderedMultimap;
    ///
    /// let mut map = ListOrderedMultimap::new();
    /// map.append(7, 10)?;
    /// assert!(map.contains_key(&7));
    /// assert!(!map.contains_key(&9));
    /// # Ok::<(), prelgammo::Refused>(())
    /// ```
    #[must_use]
    pub fn contains_key(&self, key: &u64) -> bool {
        self.map.contains_key(*key).present()
    }

    /// The key's place in the map: occupied where it has values, else vacant.
    ///
    /// ```
    /// use prelgammo::{Entry, ListOrderedMultimap};
    ///
    /// let mut map = ListOrderedMultimap::new();
    /// map.append(7, 10)?;
    /// assert!(matches!(map.entry(7), Entry::Occupied(_)));
    /// assert!(matches!(map.entry(9), Entry::Vacant(_)));
    /// # Ok::<(), prelgammo::Refused>(())
    /// ```
    #[must_use]
    pub fn entry(&mut self, key: u64) -> Entry<'_> {
        if self.map.entry(key).occupied() {
            Entry::Occupied(OccupiedEntry { map: self, key })
        } else {
            Entry::Vacant(VacantEntry { map: self, key })
        }
    }

    /// The number of the key's values, 0 if it is not in the map.
    ///
    /// ```
    /// use prelgammo::ListOrderedMultimap;
    ///
    /// let mut map = ListOrderedMultimap::new();
    /// map.append(7, 10)?;
    /// map.append(7, 11)?;
    /// assert_eq!(map.entry_len(&7), 2);
    /// assert_eq!(map.entry_len(&9), 0);
    /// # Ok::<(), prelgammo::Refused>(())
    /// ```
    #[must_use]
    pub fn entry_len(&self, key: &u64) -> usize {
        self.map.entry_len(*key).count() as usize
    }

    /// The first of the key's values.
    ///
    /// ```
    /// use prelgammo::ListOrderedMultimap;
    ///
    /// let mut map = ListOrderedMultimap::new();
    /// map.append(7, 10)?;
    /// map.append(7, 11)?;
    /// assert_eq!(map.get(&7), Some(10));
    /// assert_eq!(map.get(&9), None);
    /// # Ok::<(), prelgammo::Refused>(())
    /// ```
    #[must_use]
    pub fn get(&self, key: &u64) -> Option<u64> {
        self.map.get(*key).round()
    }

    /// The key's values, in order.
    ///
    /// ```
    /// use prelgammo::ListOrderedMultimap;
    ///
    /// let mut map = ListOrderedMultimap::new();
    /// map.append(7, 10)?;
    /// map.append(7, 11)?;
    /// let mut values = map.get_all(&7);
    /// assert_eq!(values.next_back(), Some(11));
    /// assert_eq!(values.next(), Some(10));
    /// assert_eq!(values.next(), None);
    /// # Ok::<(), prelgammo::Refused>(())
    /// ```
    #[must_use]
    pub fn get_all(&self, key: &u64) -> EntryValues {
        self.map.get_all(*key).into_iter()
    }

    /// Replaces all values of the key by one, which goes to the back of the map, and gives the first of the old ones. A
    /// key that was in the map keeps its place among the keys. Refused by 1 and 2 if the key is not in the map.
    ///
    /// ```
    /// use prelgammo::ListOrderedMultimap;
    ///
    /// let mut map = ListOrderedMultimap::new();
    /// assert_eq!(map.insert(7, 10), Ok(None));
    /// map.append(7, 11)?;
    /// assert_eq!(map.insert(7, 12), Ok(Some(10)));
    /// assert!(map.iter().eq([(7, 12)]));
    /// # Ok::<(), prelgammo::Refused>(())
    /// ```
    pub fn insert(&mut self, key: u64, value: u64) -> Result<Option<u64>, Refused> {
        self.posting_as(0).insert(key, value)
    }

    /// As [`insert`](ListOrderedMultimap::insert), but gives all of the old values.
    ///
    /// ```
    /// use prelgammo::ListOrderedMultimap;
    ///
    /// let mut map = ListOrderedMultimap::new();
    /// map.append(7, 10)?;
    /// map.append(9, 20)?;
    /// map.append(7, 11)?;
    /// assert!(map.insert_all(7, 12)?.eq([10, 11]));
    /// assert!(map.iter().eq([(9, 20), (7, 12)]));
    /// assert!(map.keys().eq([7, 9]));
    /// # Ok::<(), prelgammo::Refused>(())
    /// ```
    pub fn insert_all(&mut self, key: u64, value: u64) -> Result<EntryValuesDrain, Refused> {
        self.posting_as(0).insert_all(key, value)
    }

    /// All pairs, in the order in which they were added.
    ///
    /// ```
    /// use prelgammo::ListOrderedMultimap;
    ///
    /// let mut map = ListOrderedMultimap::new();
    /// map.append(7, 10)?;
    /// map.append(9, 20)?;
    /// map.append(7, 11)?;
    /// assert!(map.iter().eq([(7, 10), (9, 20), (7, 11)]));
    /// assert_eq!(map.iter().next_back(), Some((7, 11)));
    /// # Ok::<(), prelgammo::Refused>(())
    /// ```
    pub fn iter(&self) -> Iter {
        let (keys, values) = self.map.iter();
        keys.into_iter().zip(values)
    }

    /// The keys, in the order in which they joined the map.
    ///
    /// ```
    /// use prelgammo::ListOrderedMultimap;
    ///
    /// let mut map = ListOrderedMultimap::new();
    /// map.append(7, 10)?;
    /// map.append(9, 20)?;
    /// map.insert(7, 12)?;
    /// assert!(map.keys().eq([7, 9]));
    /// # Ok::<(), prelgammo::Refused>(())
    /// ```
    #[must_use]
    pub fn keys(&self) -> Keys {
        self.map.keys().into_iter()
    }

    /// The number of keys.
    ///
    /// ```
    /// use prelgammo::ListOrderedMultimap;
    ///
    /// let mut map = ListOrderedMultimap::new();
    /// map.append(7, 10)?;
    /// map.append(7, 11)?;
    /// assert_eq!(map.keys_len(), 1);
    /// # Ok::<(), prelgammo::Refused>(())
    /// ```
    #[must_use]
    pub fn keys_len(&self) -> usize {
        self.map.keys_len().count() as usize
    }

    /// Puts the pairs and the keys into the first places of the record, in their order. Nothing that a call shows
    /// changes. Refused by 4, 5 and 6.
    ///
    /// ```
    /// use prelgammo::{ListOrderedMultimap, Refused};
    ///
    /// let mut map = ListOrderedMultimap::new();
    /// map.append(7, 10)?;
    /// map.append(9, 20)?;
    /// assert_eq!(map.pack_to(2, 2), Ok(()));
    /// assert_eq!(map.pack_to(1, 2), Err(Refused::MembersBelow));
    /// # Ok::<(), prelgammo::Refused>(())
    /// ```
    pub fn pack_to(&mut self, keys_minimum_capacity: usize, values_minimum_capacity: usize) -> Result<(), Refused> {
        let answer = self.map.pack_to(keys_minimum_capacity as u64, values_minimum_capacity as u64).accepted()?;
        answer.done();
        Ok(())
    }

    /// The map with a poster, from 0 to 15, for whom the calls that follow add and count: [`PostingAs`]. Any other
    /// number is taken here too; each of its calls is then refused by 16.
    ///
    /// ```
    /// use prelgammo::{ListOrderedMultimap, Refused};
    ///
    /// let mut map = ListOrderedMultimap::new();
    /// map.posting_as(3).append(7, 10)?;
    /// assert_eq!(map.posting_as(16).append(7, 11), Err(Refused::NoPoster));
    /// assert_eq!((map.values_len(), map.taken()[3]), (1, 1));
    /// # Ok::<(), prelgammo::Refused>(())
    /// ```
    pub fn posting_as(&mut self, poster: u64) -> PostingAs<&mut ListOrderedMultimap> {
        PostingAs { to: self, poster }
    }

    /// Takes the last pair out.
    ///
    /// ```
    /// use prelgammo::{KeyWrapper, ListOrderedMultimap};
    ///
    /// let mut map = ListOrderedMultimap::new();
    /// map.append(7, 10)?;
    /// map.append(9, 20)?;
    /// assert_eq!(map.pop_back(), Some((KeyWrapper::Owned(9), 20)));
    /// # Ok::<(), prelgammo::Refused>(())
    /// ```
    pub fn pop_back(&mut self) -> Option<(KeyWrapper, u64)> {
        self.map.pop_back().popped().map(wrapped)
    }

    /// Takes the first pair out.
    ///
    /// ```
    /// use prelgammo::{KeyWrapper, ListOrderedMultimap};
    ///
    /// let mut map = ListOrderedMultimap::new();
    /// map.append(7, 10)?;
    /// map.append(7, 11)?;
    /// assert_eq!(map.pop_front(), Some((KeyWrapper::Borrowed(7), 10)));
    /// # Ok::<(), prelgammo::Refused>(())
    /// ```
    pub fn pop_front(&mut self) -> Option<(KeyWrapper, u64)> {
        self.map.pop_front().popped().map(wrapped)
    }

    /// Takes the key and all its values out, and gives the first of them.
    ///
    /// ```
    /// use prelgammo::ListOrderedMultimap;
    ///
    /// let mut map = ListOrderedMultimap::new();
    /// map.append(7, 10)?;
    /// map.append(7, 11)?;
    /// assert_eq!(map.remove(&7), Some(10));
    /// assert_eq!(map.remove(&7), None);
    /// # Ok::<(), prelgammo::Refused>(())
    /// ```
    pub fn remove(&mut self, key: &u64) -> Option<u64> {
        self.map.remove(*key).round()
    }

    /// Takes the key and all its values out, and gives these.
    ///
    /// ```
    /// use prelgammo::ListOrderedMultimap;
    ///
    /// let mut map = ListOrderedMultimap::new();
    /// map.append(7, 10)?;
    /// map.append(7, 11)?;
    /// assert!(map.remove_all(&7).eq([10, 11]));
    /// assert!(!map.contains_key(&7));
    /// # Ok::<(), prelgammo::Refused>(())
    /// ```
    pub fn remove_all(&mut self, key: &u64) -> EntryValuesDrain {
        self.map.remove_all(*key).into_iter()
    }

    /// Keeps the pairs for which the function says true, and gives their number. The function is called for each pair
    /// once, in order, before anything is taken out: if it panics, the map is as it was.
    ///
    /// ```
    /// use prelgammo::ListOrderedMultimap;
    ///
    /// let mut map = ListOrderedMultimap::new();
    /// map.append(7, 10)?;
    /// map.append(7, 11)?;
    /// map.append(9, 20)?;
    /// assert_eq!(map.retain(|_, &value| value >= 20), 1);
    /// assert!(map.iter().eq([(9, 20)]));
    /// # Ok::<(), prelgammo::Refused>(())
    /// ```
    pub fn retain<Function>(&mut self, mut function: Function) -> usize
    where
        Function: FnMut(&u64, &u64) -> bool,
    {
        let mut marks = [0; ROUNDS];
        let marks = &mut marks[..self.values_len()];
        // Asks for each pair on the way along the list, which begins after the place ROUNDS; `iter` would take as long again.
        let (record, mut place) = (self.map.record(), ROUNDS);
        for mark in &mut *marks {
            place = record.next_value[place] as usize;
            let key = record.key_index[place] as usize;
            *mark = function(&record.keys[key], &record.values[place]) as u8;
        }
        if !marks.contains(&0) {
            return marks.len();
        }
        self.map.retain(marks).count() as usize
    }

    /// The number of values that each poster ever added, up to 4,294,967,295 of each. No call makes one smaller. The
    /// crate's calls post as 0, [`posting_as`](ListOrderedMultimap::posting_as) names another poster. A map that was read
    /// from an image has all its values from poster 0.
    ///
    /// ```
    /// use prelgammo::ListOrderedMultimap;
    ///
    /// let mut map = ListOrderedMultimap::new();
    /// map.append(7, 10)?;
    /// map.posting_as(3).append(7, 11)?;
    /// map.remove(&7);
    /// map.posting_as(3).insert(7, 12)?;
    /// assert_eq!(map.taken()[..5], [1, 0, 0, 2, 0]);
    /// assert_eq!(map.taken().iter().sum::<u64>(), 3);
    /// # Ok::<(), prelgammo::Refused>(())
    /// ```
    #[must_use]
    pub fn taken(&self) -> [u64; POSTERS] {
        self.map.taken()
    }

    /// The number of values.
    ///
    /// ```
    /// use prelgammo::ListOrderedMultimap;
    ///
    /// let mut map = ListOrderedMultimap::new();
    /// map.append(7, 10)?;
    /// map.append(7, 11)?;
    /// assert_eq!(map.values_len(), 2);
    /// # Ok::<(), prelgammo::Refused>(())
    /// ```
    #[must_use]
    pub fn values_len(&self) -> usize {
        self.map.values_len().count() as usize
    }

    /// The map of these pairs, as if each were appended to a [`new`](ListOrderedMultimap::new) one. Where one of the appends
    /// would be refused, by 1 or 2, there is no map.
    ///
    /// ```
    /// use prelgammo::{ListOrderedMultimap, Refused};
    ///
    /// let map = ListOrderedMultimap::from_pairs(&[(7, 10), (9, 20), (7, 11)])?;
    /// assert!(map.get_all(&7).eq([10, 11]));
    /// assert_eq!(ListOrderedMultimap::from_pairs(&[(7, 10); 1025]), Err(Refused::Full));
    /// # Ok::<(), prelgammo::Refused>(())
    /// ```
    pub fn from_pairs(pairs: &[(u64, u64)]) -> Result<ListOrderedMultimap, Refused> {
        let mut map = ListOrderedMultimap::new();
        map.posting_as(0).append_each(pairs.iter().copied())?;
        Ok(map)
    }

    /// The map of a record that C code gave, with the limits that stand in it, or none if the record is not well-linked.
    ///
    /// ```
    /// use prelgammo::ListOrderedMultimap;
    ///
    /// let mut map = ListOrderedMultimap::new();
    /// map.append(7, 10)?;
    /// let mut record = Box::new(*map.as_record());
    /// assert_eq!(ListOrderedMultimap::from_record(&record), Some(map));
    /// record.keys_len = 2;
    /// assert_eq!(ListOrderedMultimap::from_record(&record), None);
    /// # Ok::<(), prelgammo::Refused>(())
    /// ```
    #[must_use]
    pub fn from_record(record: &Record) -> Option<ListOrderedMultimap> {
        Map::check(record).map(|map| ListOrderedMultimap { map })
    }

    /// The record, to hand to C code.
    ///
    /// ```
    /// use prelgammo::ListOrderedMultimap;
    ///
    /// let map = ListOrderedMultimap::new();
    /// assert_eq!(map.as_record().values_len, 0);
    /// ```
    #[must_use]
    pub fn as_record(&self) -> &Record {
        self.map.record()
    }
}

fn wrapped((key, value, gone): (u64, u64, bool)) -> (KeyWrapper, u64) {
    (if gone { KeyWrapper::Owned(key) } else { KeyWrapper::Borrowed(key) }, value)
}

impl Default for ListOrderedMultimap {
    fn default() -> ListOrderedMultimap {
        ListOrderedMultimap::new()
    }
}

impl fmt::Debug for ListOrderedMultimap {
    fn fmt(&self, f: &mut fmt::Formatter<'_>) -> fmt::Result {
        f.debug_map().entries(self.iter()).finish()
    }
}

/// As in the crate: maps are equal when they have the same pairs in the same order, whatever their limits.
impl PartialEq for ListOrderedMultimap {
    fn eq(&self, other: &ListOrderedMultimap) -> bool {
        self.iter().eq(other.iter())
    }
}

impl Eq for ListOrderedMultimap {}

/// ```
/// use prelgammo::ListOrderedMultimap;
///
/// let map = ListOrderedMultimap::from_pairs(&[(7, 10), (9, 20), (7, 11)])?;
/// assert!(map.into_iter().eq([(7, 10), (9, 20), (7, 11)]));
/// # Ok::<(), prelgammo::Refused>(())
/// ```
impl IntoIterator for ListOrderedMultimap {
    type Item = (u64, u64);
    type IntoIter = IntoIter;

    fn into_iter(self) -> IntoIter {
        self.iter()
    }
}

impl IntoIterator for &ListOrderedMultimap {
    type Item = (u64, u64);
    type IntoIter = Iter;

    fn into_iter(self) -> Iter {
        self.iter()
    }
}
