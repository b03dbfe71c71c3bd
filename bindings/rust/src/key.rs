/// The key of a popped pair, which says whether the key is still in the map.
///
/// ```
/// use prelgammo::{KeyWrapper, ListOrderedMultimap};
///
/// let mut map = ListOrderedMultimap::new();
/// map.append(7, 10)?;
/// map.append(7, 11)?;
/// assert_eq!(map.pop_front(), Some((KeyWrapper::Borrowed(7), 10)));
/// assert_eq!(map.pop_front(), Some((KeyWrapper::Owned(7), 11)));
/// # Ok::<(), prelgammo::Refused>(())
/// ```
#[derive(Clone, Copy, Debug, PartialEq, Eq, Hash)]
pub enum KeyWrapper {
    /// The key still has a value in the map.
    Borrowed(u64),
    /// The key has left the map.
    Owned(u64),
}

impl KeyWrapper {
    /// The key.
    ///
    /// ```
    /// use prelgammo::KeyWrapper;
    ///
    /// assert_eq!(KeyWrapper::Borrowed(7).into_owned(), 7);
    /// assert_eq!(KeyWrapper::Owned(7).into_owned(), 7);
    /// ```
    #[must_use]
    pub fn into_owned(self) -> u64 {
        match self {
            KeyWrapper::Borrowed(key) | KeyWrapper::Owned(key) => key,
        }
    }

    /// Is the key still in the map?
    ///
    /// ```
    /// use prelgammo::KeyWrapper;
    ///
    /// assert!(KeyWrapper::Borrowed(7).is_borrowed());
    /// assert!(!KeyWrapper::Owned(7).is_borrowed());
    /// ```
    #[must_use]
    pub fn is_borrowed(&self) -> bool {
        matches!(self, KeyWrapper::Borrowed(_))
    }

    /// Has the key left the map?
    ///
    /// ```
    /// use prelgammo::KeyWrapper;
    ///
    /// assert!(KeyWrapper::Owned(7).is_owned());
    /// assert!(!KeyWrapper::Borrowed(7).is_owned());
    /// ```
    #[must_use]
    pub fn is_owned(&self) -> bool {
        matches!(self, KeyWrapper::Owned(_))
    }
}
