// The four numbers of an answer: which answer it is, and up to three numbers of it.

use crate::Refused;

pub struct Answer(pub [u64; 4]);

impl Answer {
    // The refusal, where it is one.
    pub fn accepted(self) -> Result<Answer, Refused> {
        match self.0 {
            [0, number, 0, 0] => Err(Refused::of(number).unwrap_or_else(|| unexpected(self.0))),
            _ => Ok(self),
        }
    }

    pub fn round(self) -> Option<u64> {
        match self.0 {
            [1, 0, 0, 0] => None,
            [3, value, 0, 0] => Some(value),
            other => unexpected(other),
        }
    }

    pub fn done(self) {
        match self.0 {
            [2, 0, 0, 0] => {}
            other => unexpected(other),
        }
    }

    pub fn count(self) -> u64 {
        match self.0 {
            [4, count, 0, 0] => count,
            other => unexpected(other),
        }
    }

    pub fn present(self) -> bool {
        match self.0 {
            [5, present @ (0 | 1), 0, 0] => present == 1,
            other => unexpected(other),
        }
    }

    // The key, the value, and whether the key left the map.
    pub fn popped(self) -> Option<(u64, u64, bool)> {
        match self.0 {
            [1, 0, 0, 0] => None,
            [6, key, value, gone @ (0 | 1)] => Some((key, value, gone == 1)),
            other => unexpected(other),
        }
    }

    pub fn occupied(self) -> bool {
        match self.0 {
            [7, _, 0, 0] => true,
            [8, _, 0, 0] => false,
            other => unexpected(other),
        }
    }
}

// No contract allows it, so another library than the one of this repository must have been linked.
fn unexpected(numbers: [u64; 4]) -> ! {
    panic!("libprelgammo.a gave {numbers:?}, which is no answer of this call")
}
