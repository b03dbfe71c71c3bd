// The crate's methods that document 01 does not name. Each is made of calls that it names; `front` and `back` read the
// record's ends.

use crate::{EntryValuesDrain, KeyValues, ListOrderedMultimap, Refused, Values, ROUNDS};

impl ListOrderedMultimap {
    /// The last pair.
    ///
    /// ```
    /// use prelgammo::ListOrderedMultimap;
    ///
    /// let mut map = ListOrderedMultimap::new();
    /// assert_eq!(map.back(), None);
    /// map.append(7, 10)?;
    /// map.append(9, 20)?;
    /// assert_eq!(map.back(), Some((9, 20)));
    /// # Ok::<(), prelgammo::Refused>(())
    /// ```
    #[must_use]
    pub fn back(&self) -> Option<(u64, u64)> {
        self.pair_in(self.map.record().previous_value[ROUNDS] as usize)
    }

    /// The first pair.
    ///
    /// ```
    /// use prelgammo::ListOrderedMultimap;
    ///
    /// let mut map = ListOrderedMultimap::new();
    /// assert_eq!(map.front(), None);
    /// map.append(7, 10)?;
    /// map.append(9, 20)?;
    /// assert_eq!(map.front(), Some((7, 10)));
    /// # Ok::<(), prelgammo::Refused>(())
    /// ```
    #[must_use]
    pub fn front(&self) -> Option<(u64, u64)> {
        self.pair_in(self.map.record().next_value[ROUNDS] as usize)
    }

    /// Has the map no pair?
    ///
    /// ```
    /// use prelgammo::ListOrderedMultimap;
    ///
    /// let mut map = ListOrderedMultimap::new();
    /// assert!(map.is_empty());
    /// map.append(7, 10)?;
    /// assert!(!map.is_empty());
    /// map.remove(&7);
    /// assert!(map.is_empty());
    /// # Ok::<(), prelgammo::Refused>(())
    /// ```
    #[must_use]
    pub fn is_empty(&self) -> bool {
        self.keys_len() == 0
    }

    /// Puts the pairs and the keys into the first places of the record, as [`pack_to`](ListOrderedMultimap::pack_to)
    /// does. Here it frees no memory, since the record never grows or shrinks.
    ///
    /// ```
    /// use prelgammo::ListOrderedMultimap;
    ///
    /// let mut map = ListOrderedMultimap::from_pairs(&[(7, 10), (9, 20), (7, 11)])?;
    /// map.remove(&7);
    /// map.pack_to_fit();
    /// assert!(map.iter().eq([(9, 20)]));
    /// assert_eq!((map.as_record().keys[0], map.as_record().values[0]), (9, 20));
    /// # Ok::<(), prelgammo::Refused>(())
    /// ```
    pub fn pack_to_fit(&mut self) {
        self.pack_to(self.keys_len(), self.values_len()).expect("what is held is no less than what is held");
    }

    /// Each key with its values, in the order in which the keys joined the map.
    ///
    /// ```
    /// use prelgammo::ListOrderedMultimap;
    ///
    /// let map = ListOrderedMultimap::from_pairs(&[(7, 10), (9, 20), (7, 11)])?;
    /// let mut pairs = map.pairs();
    /// let (key, values) = pairs.next().unwrap();
    /// assert_eq!(key, 7);
    /// assert!(values.eq([10, 11]));
    /// let (key, values) = pairs.next().unwrap();
    /// assert_eq!(key, 9);
    /// assert!(values.eq([20]));
    /// assert!(pairs.next().is_none());
    /// # Ok::<(), prelgammo::Refused>(())
    /// ```
    #[must_use]
    pub fn pairs(&self) -> KeyValues {
        let pairs: Vec<_> = self.keys().map(|key| (key, self.get_all(&key))).collect();
        pairs.into_iter()
    }

    /// Takes the key and all its values out, and gives the key and the first of the values.
    ///
    /// ```
    /// use prelgammo::ListOrderedMultimap;
    ///
    /// let mut map = ListOrderedMultimap::from_pairs(&[(7, 10), (9, 20), (7, 11)])?;
    /// assert_eq!(map.remove_entry(&7), Some((7, 10)));
    /// assert_eq!(map.remove_entry(&7), None);
    /// assert!(map.iter().eq([(9, 20)]));
    /// # Ok::<(), prelgammo::Refused>(())
    /// ```
    pub fn remove_entry(&mut self, key: &u64) -> Option<(u64, u64)> {
        self.remove(key).map(|value| (*key, value))
    }

    /// Takes the key and all its values out, and gives them.
    ///
    /// ```
    /// use prelgammo::ListOrderedMultimap;
    ///
    /// let mut map = ListOrderedMultimap::from_pairs(&[(7, 10), (9, 20), (7, 11)])?;
    /// let (key, values) = map.remove_entry_all(&7).unwrap();
    /// assert_eq!(key, 7);
    /// assert!(values.eq([10, 11]));
    /// assert!(map.remove_entry_all(&7).is_none());
    /// # Ok::<(), prelgammo::Refused>(())
    /// ```
    pub fn remove_entry_all(&mut self, key: &u64) -> Option<(u64, EntryValuesDrain)> {
        let values = self.remove_all(key);
        (values.len() > 0).then_some((*key, values))
    }

    /// Appends all of the pairs, or none: where one of the appends is refused, by 1 or 2, the map is as it was, and so
    /// it is if the iterator panics. It works on a copy of the record, which then takes its place.
    ///
    /// ```
    /// use prelgammo::{ListOrderedMultimap, Refused};
    ///
    /// let mut map = ListOrderedMultimap::new();
    /// map.try_extend([(7, 10), (9, 20)])?;
    /// map.try_extend((11..13).map(|value| (7, value)))?;
    /// assert!(map.iter().eq([(7, 10), (9, 20), (7, 11), (7, 12)]));
    /// assert_eq!(map.try_extend([(9, 21); 1021]), Err(Refused::Full));
    /// assert_eq!((map.values_len(), map.taken()[0]), (4, 4));
    /// # Ok::<(), prelgammo::Refused>(())
    /// ```
    pub fn try_extend(&mut self, pairs: impl IntoIterator<Item = (u64, u64)>) -> Result<(), Refused> {
        self.posting_as(0).try_extend(pairs)
    }

    /// All values, in the order in which they were added.
    ///
    /// ```
    /// use prelgammo::ListOrderedMultimap;
    ///
    /// let map = ListOrderedMultimap::from_pairs(&[(7, 10), (9, 20), (7, 11)])?;
    /// assert!(map.values().eq([10, 20, 11]));
    /// assert_eq!(map.values().next_back(), Some(11));
    /// # Ok::<(), prelgammo::Refused>(())
    /// ```
    #[must_use]
    pub fn values(&self) -> Values {
        self.map.iter().1.into_iter()
    }

    // The pair in this place of the list, or none at the list's end.
    fn pair_in(&self, place: usize) -> Option<(u64, u64)> {
        let record = self.map.record();
        let key = || record.keys[record.key_index[place] as usize];
        (place != ROUNDS).then(|| (key(), record.values[place]))
    }
}
