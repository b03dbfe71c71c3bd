use std::error::Error;
use std::fmt;

/// Why a call was refused. The map is then as it was before the call.
///
/// These are all refusals of document 01 and, for a map's own limits and for posters, of requests 1 and 2 in document 02,
/// with their numbers. The methods of this package give 1, 2, 4, 5, 6 and 11 to 16. The others have no occasion here: slices are always long
/// enough, `retain` makes its own marks, and an [`OccupiedEntry`](crate::OccupiedEntry) or a
/// [`VacantEntry`](crate::VacantEntry) is only there where it fits.
///
/// ```
/// use prelgammo::{ListOrderedMultimap, Refused};
///
/// let mut map = ListOrderedMultimap::new();
/// map.append(7, 10)?;
/// map.append(9, 20)?;
/// let refused = map.pack_to(1, 2).unwrap_err();
/// assert_eq!(refused, Refused::MembersBelow);
/// assert_eq!(refused.number(), 4);
/// assert_eq!(refused.to_string(), "refused 4: members' minimum below members held");
/// # Ok::<(), Refused>(())
/// ```
#[derive(Clone, Copy, Debug, PartialEq, Eq, Hash)]
#[non_exhaustive]
pub enum Refused {
    /// 1: as many rounds held as the map's limit.
    Full = 1,
    /// 2: as many members held as the map's limit.
    Crowded = 2,
    /// 3: a slice to be written is shorter than the result.
    Short = 3,
    /// 4: members' minimum below members held.
    MembersBelow = 4,
    /// 5: rounds' minimum below rounds held.
    RoundsBelow = 5,
    /// 6: members' minimum above the map's limit of members, or rounds' above that of rounds.
    Above = 6,
    /// 7: marks are not as many as the rounds held.
    MarksCount = 7,
    /// 8: a mark is neither 0 nor 1.
    MarkValue = 8,
    /// 9: member absent.
    Absent = 9,
    /// 10: member present.
    Present = 10,
    /// 11: fewer than 8 bytes.
    TooShort = 11,
    /// 12: n above the limit of rounds or m above the limit of members.
    TooMany = 12,
    /// 13: length is not 8 + 16 × n.
    WrongLength = 13,
    /// 14: m is not the number of distinct members.
    WrongMembers = 14,
    /// 15: members' limit above 256, or rounds' above 1,024.
    LimitsAbove = 15,
    /// 16: poster above 15.
    NoPoster = 16,
}

// In the order of their numbers.
const ALL: [(Refused, &str); 16] = [
    (Refused::Full, "as many rounds held as the map's limit"),
    (Refused::Crowded, "as many members held as the map's limit"),
    (Refused::Short, "a slice to be written is shorter than the result"),
    (Refused::MembersBelow, "members' minimum below members held"),
    (Refused::RoundsBelow, "rounds' minimum below rounds held"),
    (Refused::Above, "members' minimum above the map's limit of members, or rounds' above that of rounds"),
    (Refused::MarksCount, "marks are not as many as the rounds held"),
    (Refused::MarkValue, "a mark is neither 0 nor 1"),
    (Refused::Absent, "member absent"),
    (Refused::Present, "member present"),
    (Refused::TooShort, "fewer than 8 bytes"),
    (Refused::TooMany, "n above the limit of rounds or m above the limit of members"),
    (Refused::WrongLength, "length is not 8 + 16 × n"),
    (Refused::WrongMembers, "m is not the number of distinct members"),
    (Refused::LimitsAbove, "members' limit above 256, or rounds' above 1,024"),
    (Refused::NoPoster, "poster above 15"),
];

impl Refused {
    /// The number in the documents.
    pub fn number(self) -> u64 {
        self as u64
    }

    // The refusal of this number, if there is one.
    pub(crate) fn of(number: u64) -> Option<Refused> {
        ALL.iter().map(|row| row.0).find(|refused| refused.number() == number)
    }
}

impl fmt::Display for Refused {
    fn fmt(&self, f: &mut fmt::Formatter<'_>) -> fmt::Result {
        let words = ALL[*self as usize - 1].1;
        write!(f, "refused {}: {words}", self.number())
    }
}

impl Error for Refused {}
