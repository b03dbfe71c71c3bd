//! Rounds of members in posting order: a map from a number to a list of numbers that also keeps the order over all
//! keys.
//!
//! [`ListOrderedMultimap`] has the names and shapes of `ListOrderedMultimap<u64, u64>` of the crate ordered-multimap
//! 0.7.3. Its calls are done by a library in Rattle that is proved to do what the scope document ("document 01")
//! says, on every input. What this package adds is the way to it; the crate's methods that document 01 does not name,
//! each made of its calls; and, of its own reading, the walk along the record that shows each pair to the function of
//! [`ListOrderedMultimap::retain`], and [`front`](ListOrderedMultimap::front) and [`back`](ListOrderedMultimap::back).
//! `docs/MIGRATION.md` has a program before and after the move.
//!
//! ```
//! use prelgammo::ListOrderedMultimap;
//!
//! let mut map = ListOrderedMultimap::new();
//! map.append(7, 10)?;
//! map.append(9, 20)?;
//! map.append(7, 11)?;
//! assert!(map.get_all(&7).eq([10, 11]));
//! assert!(map.insert_all(7, 12)?.eq([10, 11]));
//! assert!(map.iter().eq([(9, 20), (7, 12)]));
//! assert!(map.keys().eq([7, 9]));
//! # Ok::<(), prelgammo::Refused>(())
//! ```
//!
//! # Limits and refusals
//!
//! A map holds at most [`MEMBERS`] keys and [`ROUNDS`] values, or fewer where it is made with limits of its own
//! ([`ListOrderedMultimap::with_limits`]). A call that cannot be done gives [`Refused`] with a number of document 01 or of
//! the requests after it ("document 02"), and leaves the map as it was. A method that is never refused here gives its
//! answer plainly.
//!
//! The crate's calls are never refused, so that its programs often make them as statements. Of those the compiler only
//! warns, unless the program denies it:
//!
//! ```compile_fail
//! #![deny(unused_must_use)]
//!
//! let mut map = prelgammo::ListOrderedMultimap::new();
//! map.append(7, 10);
//! ```
//!
//! # Posters
//!
//! Every value is added by one of sixteen posters, 0 to 15, and the map counts the values of each
//! ([`ListOrderedMultimap::taken`]). The crate's calls post as 0; `posting_as` before a call that adds, of a map or of an
//! entry, names another ([`PostingAs`]).
//!
//! ```
//! use prelgammo::ListOrderedMultimap;
//!
//! let mut map = ListOrderedMultimap::new();
//! map.append(7, 10)?;
//! map.posting_as(3).append(7, 11)?;
//! map.posting_as(3).append(9, 20)?;
//! assert_eq!(map.taken()[..4], [1, 0, 0, 2]);
//! # Ok::<(), prelgammo::Refused>(())
//! ```
//!
//! # Iterators
//!
//! The crate's iterators borrow the map. Here the library writes the values to a vector in one call, and the iterators
//! ([`EntryValues`], [`EntryValuesDrain`], [`Keys`], [`Values`], [`KeyValues`], [`Iter`], [`IntoIter`]) own it. They give
//! numbers where the crate's give references, are double-ended and know their length, as the crate's do. What
//! [`ListOrderedMultimap::insert_all`] and [`ListOrderedMultimap::remove_all`] took out is out when they return, whether
//! their iterator is used or not.
//!
//! # Cost
//!
//! The map is one record of 24,160 bytes in a box. The library is lent the record and changes it where it stands: no
//! call but [`ListOrderedMultimap::try_extend`] copies the map, and none allocates, save for the vectors that iterators
//! own. Most calls take less time than the crate's (`docs/BENCHMARKS.md`). [`ListOrderedMultimap::new`] takes more, since
//! it writes the whole record; that then never grows.
//!
//! # Threads
//!
//! A map is plain numbers: it can be sent to other threads and read from several at once. A thread has 2 MiB of stack
//! unless it is made with another size; 128 KiB are enough for every call.
//!
//! ```
//! fn shared<T: Send + Sync>() {}
//! shared::<prelgammo::ListOrderedMultimap>();
//! ```

#![deny(missing_docs)]

mod answer;
#[cfg(test)]
mod bounds;
#[cfg(test)]
mod checks;
mod declarations;
mod derived;
mod entry;
mod error;
mod ffi;
mod image;
mod key;
mod map;
mod posting;

pub use entry::{Entry, OccupiedEntry, VacantEntry};
pub use error::Refused;
pub use ffi::Record;
pub use key::KeyWrapper;
pub use map::{EntryValues, EntryValuesDrain, IntoIter, Iter, KeyValues, Keys, ListOrderedMultimap, Values};
pub use posting::PostingAs;

/// The types under the path that they have in the crate, so that a `use` line changes in its first word only.
///
/// ```
/// use prelgammo::list_ordered_multimap::{Entry, ListOrderedMultimap};
///
/// let mut map = ListOrderedMultimap::new();
/// assert!(matches!(map.entry(7), Entry::Vacant(_)));
/// ```
pub mod list_ordered_multimap {
    #[doc(no_inline)]
    pub use crate::{Entry, KeyWrapper, ListOrderedMultimap, OccupiedEntry, VacantEntry};
    #[doc(no_inline)]
    pub use crate::{EntryValues, EntryValuesDrain, IntoIter, Iter, KeyValues, Keys, Values};
}

/// The highest limit of keys, which a map has unless it is made with a lower one.
pub const MEMBERS: usize = 256;

/// The highest limit of values, likewise.
pub const ROUNDS: usize = 1024;

/// The number of posters: 0 up to one less.
pub const POSTERS: usize = 16;
