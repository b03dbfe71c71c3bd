use crate::{EntryValues, EntryValuesDrain, ListOrderedMultimap, PostingAs, Refused};
use std::fmt;

/// A key's place in the map, from [`ListOrderedMultimap::entry`].
///
/// ```
/// use prelgammo::{Entry, ListOrderedMultimap};
///
/// let mut map = ListOrderedMultimap::new();
/// for value in [10, 11, 12] {
///     match map.entry(7) {
///         Entry::Occupied(mut entry) => entry.append(value)?,
///         Entry::Vacant(entry) => entry.insert(value)?,
///     }
/// }
/// assert!(map.get_all(&7).eq([10, 11, 12]));
/// # Ok::<(), prelgammo::Refused>(())
/// ```
#[derive(Debug)]
pub enum Entry<'map> {
    /// The key has values.
    Occupied(OccupiedEntry<'map>),
    /// The key is not in the map.
    Vacant(VacantEntry<'map>),
}

pub(crate) const OCCUPIED: &str = "an occupied entry has a value";
const MAKES_ROOM: &str = "a key's own values make room, and 0 is a poster";

/// A key that has values.
pub struct OccupiedEntry<'map> {
    pub(crate) map: &'map mut ListOrderedMultimap,
    pub(crate) key: u64,
}

impl<'map> OccupiedEntry<'map> {
    /// Adds a value at the back. Refused by 1.
    ///
    /// ```
    /// use prelgammo::{Entry, ListOrderedMultimap};
    ///
    /// let mut map = ListOrderedMultimap::new();
    /// map.append(7, 10)?;
    /// let Entry::Occupied(mut entry) = map.entry(7) else { unreachable!() };
    /// entry.append(11)?;
    /// assert_eq!(entry.len(), 2);
    /// # Ok::<(), prelgammo::Refused>(())
    /// ```
    pub fn append(&mut self, value: u64) -> Result<(), Refused> {
        self.posting_as(0).append(value)
    }

    /// The first of the key's values.
    ///
    /// ```
    /// use prelgammo::{Entry, ListOrderedMultimap};
    ///
    /// let mut map = ListOrderedMultimap::from_pairs(&[(7, 10), (7, 11)])?;
    /// let Entry::Occupied(entry) = map.entry(7) else { unreachable!() };
    /// assert_eq!(entry.get(), 10);
    /// # Ok::<(), prelgammo::Refused>(())
    /// ```
    #[must_use]
    pub fn get(&self) -> u64 {
        self.map.get(&self.key).expect(OCCUPIED)
    }

    /// Replaces all values of the key by one, which goes to the back of the map, and gives the first of the old ones.
    ///
    /// ```
    /// use prelgammo::{Entry, ListOrderedMultimap};
    ///
    /// let mut map = ListOrderedMultimap::new();
    /// map.append(7, 10)?;
    /// map.append(7, 11)?;
    /// let Entry::Occupied(mut entry) = map.entry(7) else { unreachable!() };
    /// assert_eq!(entry.insert(12), 10);
    /// assert!(map.get_all(&7).eq([12]));
    /// # Ok::<(), prelgammo::Refused>(())
    /// ```
    pub fn insert(&mut self, value: u64) -> u64 {
        self.posting_as(0).insert(value).expect(MAKES_ROOM)
    }

    /// As [`insert`](OccupiedEntry::insert), but gives all of the old values.
    ///
    /// ```
    /// use prelgammo::{Entry, ListOrderedMultimap};
    ///
    /// let mut map = ListOrderedMultimap::from_pairs(&[(7, 10), (9, 20), (7, 11)])?;
    /// let Entry::Occupied(mut entry) = map.entry(7) else { unreachable!() };
    /// assert!(entry.insert_all(12).eq([10, 11]));
    /// assert!(map.iter().eq([(9, 20), (7, 12)]));
    /// assert!(map.keys().eq([7, 9]));
    /// # Ok::<(), prelgammo::Refused>(())
    /// ```
    pub fn insert_all(&mut self, value: u64) -> EntryValuesDrain {
        self.posting_as(0).insert_all(value).expect(MAKES_ROOM)
    }

    /// The key's values, in order.
    ///
    /// ```
    /// use prelgammo::{Entry, ListOrderedMultimap};
    ///
    /// let mut map = ListOrderedMultimap::from_pairs(&[(7, 10), (9, 20), (7, 11)])?;
    /// let Entry::Occupied(entry) = map.entry(7) else { unreachable!() };
    /// assert!(entry.iter().eq([10, 11]));
    /// # Ok::<(), prelgammo::Refused>(())
    /// ```
    #[must_use]
    pub fn iter(&self) -> EntryValues {
        self.map.get_all(&self.key)
    }

    /// The key.
    ///
    /// ```
    /// use prelgammo::{Entry, ListOrderedMultimap};
    ///
    /// let mut map = ListOrderedMultimap::new();
    /// map.append(7, 10)?;
    /// let Entry::Occupied(entry) = map.entry(7) else { unreachable!() };
    /// assert_eq!(entry.key(), &7);
    /// # Ok::<(), prelgammo::Refused>(())
    /// ```
    #[must_use]
    pub fn key(&self) -> &u64 {
        &self.key
    }

    /// The number of the key's values, which is never 0.
    ///
    /// ```
    /// use prelgammo::{Entry, ListOrderedMultimap};
    ///
    /// let mut map = ListOrderedMultimap::new();
    /// map.append(7, 10)?;
    /// let Entry::Occupied(entry) = map.entry(7) else { unreachable!() };
    /// assert_eq!(entry.len(), 1);
    /// # Ok::<(), prelgammo::Refused>(())
    /// ```
    #[allow(clippy::len_without_is_empty)]
    #[must_use]
    pub fn len(&self) -> usize {
        self.map.entry_len(&self.key)
    }

    /// The entry with a poster, from 0 to 15, for whom the calls that follow add and count: [`PostingAs`]. With any other
    /// number each of these is refused by 16.
    ///
    /// ```
    /// use prelgammo::{Entry, ListOrderedMultimap};
    ///
    /// let mut map = ListOrderedMultimap::new();
    /// map.append(7, 10)?;
    /// let Entry::Occupied(mut entry) = map.entry(7) else { unreachable!() };
    /// entry.posting_as(3).append(11)?;
    /// assert_eq!(map.taken()[..4], [1, 0, 0, 1]);
    /// # Ok::<(), prelgammo::Refused>(())
    /// ```
    pub fn posting_as(&mut self, poster: u64) -> PostingAs<&mut OccupiedEntry<'map>> {
        PostingAs { to: self, poster }
    }

    /// Takes the key and all its values out, and gives the first of them.
    ///
    /// ```
    /// use prelgammo::{Entry, ListOrderedMultimap};
    ///
    /// let mut map = ListOrderedMultimap::from_pairs(&[(7, 10), (9, 20), (7, 11)])?;
    /// let Entry::Occupied(entry) = map.entry(7) else { unreachable!() };
    /// assert_eq!(entry.remove(), 10);
    /// assert!(map.iter().eq([(9, 20)]));
    /// # Ok::<(), prelgammo::Refused>(())
    /// ```
    pub fn remove(self) -> u64 {
        self.remove_entry().1
    }

    /// Takes the key and all its values out, and gives the values.
    ///
    /// ```
    /// use prelgammo::{Entry, ListOrderedMultimap};
    ///
    /// let mut map = ListOrderedMultimap::from_pairs(&[(7, 10), (9, 20), (7, 11)])?;
    /// let Entry::Occupied(entry) = map.entry(7) else { unreachable!() };
    /// assert!(entry.remove_all().eq([10, 11]));
    /// assert!(map.iter().eq([(9, 20)]));
    /// # Ok::<(), prelgammo::Refused>(())
    /// ```
    pub fn remove_all(self) -> EntryValuesDrain {
        self.map.remove_all(&self.key)
    }

    /// Takes the key and all its values out, and gives the key and the first value.
    ///
    /// ```
    /// use prelgammo::{Entry, ListOrderedMultimap};
    ///
    /// let mut map = ListOrderedMultimap::new();
    /// map.append(7, 10)?;
    /// map.append(7, 11)?;
    /// let Entry::Occupied(entry) = map.entry(7) else { unreachable!() };
    /// assert_eq!(entry.remove_entry(), (7, 10));
    /// assert_eq!(map.values_len(), 0);
    /// # Ok::<(), prelgammo::Refused>(())
    /// ```
    pub fn remove_entry(self) -> (u64, u64) {
        let first = self.map.map.occupied_remove_entry(self.key).round();
        (self.key, first.expect(OCCUPIED))
    }

    /// Takes the key and all its values out, and gives them.
    ///
    /// ```
    /// use prelgammo::{Entry, ListOrderedMultimap};
    ///
    /// let mut map = ListOrderedMultimap::from_pairs(&[(7, 10), (9, 20), (7, 11)])?;
    /// let Entry::Occupied(entry) = map.entry(7) else { unreachable!() };
    /// let (key, values) = entry.remove_entry_all();
    /// assert_eq!(key, 7);
    /// assert!(values.eq([10, 11]));
    /// # Ok::<(), prelgammo::Refused>(())
    /// ```
    pub fn remove_entry_all(self) -> (u64, EntryValuesDrain) {
        (self.key, self.map.remove_all(&self.key))
    }
}

impl fmt::Debug for OccupiedEntry<'_> {
    fn fmt(&self, f: &mut fmt::Formatter<'_>) -> fmt::Result {
        let values: Vec<u64> = self.map.get_all(&self.key).collect();
        f.debug_struct("OccupiedEntry").field("key", &self.key).field("values", &values).finish()
    }
}

/// A key that is not in the map.
pub struct VacantEntry<'map> {
    pub(crate) map: &'map mut ListOrderedMultimap,
    pub(crate) key: u64,
}

impl<'map> VacantEntry<'map> {
    /// Adds the key with one value at the back. Refused by 1 and 2.
    ///
    /// ```
    /// use prelgammo::{Entry, ListOrderedMultimap};
    ///
    /// let mut map = ListOrderedMultimap::new();
    /// let Entry::Vacant(entry) = map.entry(7) else { unreachable!() };
    /// entry.insert(10)?;
    /// assert_eq!(map.get(&7), Some(10));
    /// # Ok::<(), prelgammo::Refused>(())
    /// ```
    pub fn insert(self, value: u64) -> Result<(), Refused> {
        self.posting_as(0).insert(value)
    }

    /// As [`insert`](VacantEntry::insert), and gives the entry that is now occupied.
    ///
    /// ```
    /// use prelgammo::{Entry, ListOrderedMultimap};
    ///
    /// let mut map = ListOrderedMultimap::new();
    /// let Entry::Vacant(entry) = map.entry(7) else { unreachable!() };
    /// let mut entry = entry.insert_entry(10)?;
    /// assert_eq!(entry.get(), 10);
    /// entry.append(11)?;
    /// assert!(map.get_all(&7).eq([10, 11]));
    /// # Ok::<(), prelgammo::Refused>(())
    /// ```
    pub fn insert_entry(self, value: u64) -> Result<OccupiedEntry<'map>, Refused> {
        self.posting_as(0).insert_entry(value)
    }

    /// The key, with which the entry is left.
    ///
    /// ```
    /// use prelgammo::{Entry, ListOrderedMultimap};
    ///
    /// let mut map = ListOrderedMultimap::new();
    /// let Entry::Vacant(entry) = map.entry(7) else { unreachable!() };
    /// assert_eq!(entry.into_key(), 7);
    /// ```
    #[must_use]
    pub fn into_key(self) -> u64 {
        self.key
    }

    /// The key.
    ///
    /// ```
    /// use prelgammo::{Entry, ListOrderedMultimap};
    ///
    /// let mut map = ListOrderedMultimap::new();
    /// let Entry::Vacant(entry) = map.entry(7) else { unreachable!() };
    /// assert_eq!(entry.key(), &7);
    /// ```
    #[must_use]
    pub fn key(&self) -> &u64 {
        &self.key
    }

    /// The entry with a poster, as [`OccupiedEntry::posting_as`].
    ///
    /// ```
    /// use prelgammo::{Entry, ListOrderedMultimap};
    ///
    /// let mut map = ListOrderedMultimap::new();
    /// let Entry::Vacant(entry) = map.entry(7) else { unreachable!() };
    /// entry.posting_as(3).insert(10)?;
    /// assert_eq!(map.taken()[3], 1);
    /// # Ok::<(), prelgammo::Refused>(())
    /// ```
    pub fn posting_as(self, poster: u64) -> PostingAs<VacantEntry<'map>> {
        PostingAs { to: self, poster }
    }
}

impl fmt::Debug for VacantEntry<'_> {
    fn fmt(&self, f: &mut fmt::Formatter<'_>) -> fmt::Result {
        f.debug_tuple("VacantEntry").field(&self.key).finish()
    }
}
