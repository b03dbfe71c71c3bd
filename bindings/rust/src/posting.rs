use crate::entry::OCCUPIED;
use crate::{EntryValuesDrain, ListOrderedMultimap, OccupiedEntry, Refused, VacantEntry};

/// A map or an entry with a poster, for whom it adds: from [`ListOrderedMultimap::posting_as`],
/// [`OccupiedEntry::posting_as`] and [`VacantEntry::posting_as`].
///
/// Each of its calls does what the one of the same name does that names no poster, and counts for this one
/// ([`ListOrderedMultimap::taken`]). A poster above 15 is refused by 16, before anything else is looked at.
///
/// ```
/// use prelgammo::{Entry, ListOrderedMultimap, Refused};
///
/// let (shop, web) = (1, 2);
/// let mut map = ListOrderedMultimap::new();
/// map.posting_as(shop).append(7, 10)?;
/// for value in [20, 21] {
///     match map.entry(9) {
///         Entry::Occupied(mut entry) => entry.posting_as(web).append(value)?,
///         Entry::Vacant(entry) => entry.posting_as(web).insert(value)?,
///     }
/// }
/// assert_eq!(map.taken()[..4], [0, 1, 2, 0]);
/// assert_eq!(map.posting_as(16).append(7, 11), Err(Refused::NoPoster));
/// # Ok::<(), prelgammo::Refused>(())
/// ```
#[derive(Debug)]
#[must_use = "it adds nothing until one of its calls is made"]
pub struct PostingAs<To> {
    pub(crate) to: To,
    pub(crate) poster: u64,
}

impl PostingAs<&mut ListOrderedMultimap> {
    /// Adds a value at the back, and says whether the key was in the map before. Refused by 16, 1 and 2.
    ///
    /// ```
    /// use prelgammo::ListOrderedMultimap;
    ///
    /// let mut map = ListOrderedMultimap::new();
    /// assert_eq!(map.posting_as(3).append(7, 10), Ok(false));
    /// assert_eq!(map.posting_as(15).append(7, 11), Ok(true));
    /// assert_eq!((map.taken()[3], map.taken()[15]), (1, 1));
    /// ```
    pub fn append(&mut self, key: u64, value: u64) -> Result<bool, Refused> {
        let answer = self.to.map.append(self.poster, key, value).accepted()?;
        Ok(answer.present())
    }

    /// Replaces all values of the key by one, which goes to the back of the map, and gives the first of the old ones. It
    /// counts as one value, however many it replaces. Refused by 16, and by 1 and 2 if the key is not in the map.
    ///
    /// ```
    /// use prelgammo::ListOrderedMultimap;
    ///
    /// let mut map = ListOrderedMultimap::from_pairs(&[(7, 10), (7, 11)])?;
    /// assert_eq!(map.posting_as(3).insert(7, 12), Ok(Some(10)));
    /// assert_eq!(map.taken()[..4], [2, 0, 0, 1]);
    /// # Ok::<(), prelgammo::Refused>(())
    /// ```
    pub fn insert(&mut self, key: u64, value: u64) -> Result<Option<u64>, Refused> {
        let answer = self.to.map.insert(self.poster, key, value).accepted()?;
        Ok(answer.round())
    }

    /// As `insert`, but gives all of the old values.
    ///
    /// ```
    /// use prelgammo::ListOrderedMultimap;
    ///
    /// let mut map = ListOrderedMultimap::from_pairs(&[(7, 10), (7, 11)])?;
    /// assert!(map.posting_as(3).insert_all(7, 12)?.eq([10, 11]));
    /// assert_eq!(map.taken()[..4], [2, 0, 0, 1]);
    /// # Ok::<(), prelgammo::Refused>(())
    /// ```
    pub fn insert_all(&mut self, key: u64, value: u64) -> Result<EntryValuesDrain, Refused> {
        let old = self.to.map.insert_all(self.poster, key, value)?;
        Ok(old.into_iter())
    }

    /// Appends all of the pairs, or none, as [`ListOrderedMultimap::try_extend`]: refused where one of the appends is, by 16,
    /// 1 or 2.
    ///
    /// ```
    /// use prelgammo::{ListOrderedMultimap, Refused};
    ///
    /// let mut map = ListOrderedMultimap::new();
    /// map.posting_as(3).try_extend([(7, 10), (9, 20)])?;
    /// assert_eq!(map.posting_as(3).try_extend([(9, 21); 1023]), Err(Refused::Full));
    /// assert_eq!(map.posting_as(16).try_extend([(9, 21)]), Err(Refused::NoPoster));
    /// assert_eq!((map.values_len(), map.taken()[3]), (2, 2));
    /// # Ok::<(), prelgammo::Refused>(())
    /// ```
    pub fn try_extend(&mut self, pairs: impl IntoIterator<Item = (u64, u64)>) -> Result<(), Refused> {
        let mut longer = self.to.clone();
        longer.posting_as(self.poster).append_each(pairs)?;
        *self.to = longer;
        Ok(())
    }

    // Appends the pairs up to the first that is refused.
    pub(crate) fn append_each(&mut self, pairs: impl IntoIterator<Item = (u64, u64)>) -> Result<(), Refused> {
        pairs.into_iter().try_for_each(|(key, value)| self.append(key, value).map(|_| ()))
    }
}

impl PostingAs<&mut OccupiedEntry<'_>> {
    /// Adds a value at the back. Refused by 16 and 1.
    ///
    /// ```
    /// use prelgammo::{Entry, ListOrderedMultimap};
    ///
    /// let mut map = ListOrderedMultimap::from_pairs(&[(7, 10)])?;
    /// let Entry::Occupied(mut entry) = map.entry(7) else { unreachable!() };
    /// entry.posting_as(3).append(11)?;
    /// assert_eq!(entry.len(), 2);
    /// # Ok::<(), prelgammo::Refused>(())
    /// ```
    pub fn append(&mut self, value: u64) -> Result<(), Refused> {
        let answer = self.to.map.map.occupied_append(self.poster, self.to.key, value).accepted()?;
        answer.done();
        Ok(())
    }

    /// Replaces all values of the key by one, which goes to the back of the map, and gives the first of the old ones. Refused
    /// by 16.
    ///
    /// ```
    /// use prelgammo::{Entry, ListOrderedMultimap, Refused};
    ///
    /// let mut map = ListOrderedMultimap::from_pairs(&[(7, 10), (7, 11)])?;
    /// let Entry::Occupied(mut entry) = map.entry(7) else { unreachable!() };
    /// assert_eq!(entry.posting_as(3).insert(12), Ok(10));
    /// assert_eq!(entry.posting_as(16).insert(13), Err(Refused::NoPoster));
    /// # Ok::<(), prelgammo::Refused>(())
    /// ```
    pub fn insert(&mut self, value: u64) -> Result<u64, Refused> {
        let answer = self.to.map.map.occupied_insert(self.poster, self.to.key, value).accepted()?;
        Ok(answer.round().expect(OCCUPIED))
    }

    /// As `insert`, but gives all of the old values.
    ///
    /// ```
    /// use prelgammo::{Entry, ListOrderedMultimap};
    ///
    /// let mut map = ListOrderedMultimap::from_pairs(&[(7, 10), (9, 20), (7, 11)])?;
    /// let Entry::Occupied(mut entry) = map.entry(7) else { unreachable!() };
    /// assert!(entry.posting_as(3).insert_all(12)?.eq([10, 11]));
    /// # Ok::<(), prelgammo::Refused>(())
    /// ```
    pub fn insert_all(&mut self, value: u64) -> Result<EntryValuesDrain, Refused> {
        self.to.map.posting_as(self.poster).insert_all(self.to.key, value)
    }
}

impl<'map> PostingAs<VacantEntry<'map>> {
    /// Adds the key with one value at the back. Refused by 16, 1 and 2.
    ///
    /// ```
    /// use prelgammo::{Entry, ListOrderedMultimap, Refused};
    ///
    /// let mut map = ListOrderedMultimap::new();
    /// let Entry::Vacant(entry) = map.entry(7) else { unreachable!() };
    /// assert_eq!(entry.posting_as(16).insert(10), Err(Refused::NoPoster));
    /// let Entry::Vacant(entry) = map.entry(7) else { unreachable!() };
    /// assert_eq!(entry.posting_as(3).insert(10), Ok(()));
    /// ```
    pub fn insert(self, value: u64) -> Result<(), Refused> {
        self.insert_entry(value).map(|_| ())
    }

    /// As `insert`, and gives the entry that is now occupied, whose own calls post as 0.
    ///
    /// ```
    /// use prelgammo::{Entry, ListOrderedMultimap};
    ///
    /// let mut map = ListOrderedMultimap::new();
    /// let Entry::Vacant(entry) = map.entry(7) else { unreachable!() };
    /// let mut entry = entry.posting_as(3).insert_entry(10)?;
    /// entry.append(11)?;
    /// assert_eq!(map.taken()[..4], [1, 0, 0, 1]);
    /// # Ok::<(), prelgammo::Refused>(())
    /// ```
    pub fn insert_entry(self, value: u64) -> Result<OccupiedEntry<'map>, Refused> {
        let VacantEntry { map, key } = self.to;
        map.map.vacant_insert(self.poster, key, value).accepted()?.done();
        Ok(OccupiedEntry { map, key })
    }
}
