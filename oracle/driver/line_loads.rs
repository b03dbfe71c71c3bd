// Lines for the calls program, made by a seeded generator: every form, refused and malformed ones too.

use crate::crate_map::passes;
use crate::lines::{Book, LONGEST};
use crate::lists::Random;
use std::io;

pub struct Load {
    pub name: &'static str,
    pub what: &'static str,
    pub lines: usize,
    // members to pick from; and whether numbers are near 2^64, so that they have 20 digits
    members: usize,
    long: bool,
    // may retain strike neighbours of one record, where the crate stops?
    pub strikes: bool,
    // of each form so many out of 1,000, by turns
    turns: &'static [Shares],
}

// a, i, r, f, b, k, l, m, malformed
type Shares = [usize; 9];

const STEADY: Shares = [520, 5, 5, 440, 28, 0, 1, 1, 0];
const FILL: Shares = [880, 10, 5, 20, 20, 3, 1, 1, 60];
const HOLD: Shares = [430, 60, 30, 190, 190, 5, 2, 3, 90];
const EMPTY: Shares = [250, 40, 60, 260, 260, 20, 5, 5, 100];
const PRINT: Shares = [540, 5, 2, 24, 25, 4, 300, 100, 0];

// The lines after which the next shares have their turn.
const TURN: usize = 4000;

pub const LOADS: [Load; 4] = [
    Load {
        name: "appends",
        what: "appends and pops on about 1,000 rounds of 250 members",
        lines: 1_000_000,
        members: 250,
        long: false,
        strikes: false,
        turns: &[STEADY],
    },
    Load {
        name: "mixed",
        what: "every form on 0 to 1,024 rounds of 300 members, refused and malformed lines among them",
        lines: 1_000_000,
        members: 300,
        long: false,
        strikes: false,
        turns: &[FILL, HOLD, EMPTY],
    },
    Load {
        name: "strikes",
        what: "the same where `k` strikes neighbours of one record, which the crate does in passes",
        lines: 1_000_000,
        members: 300,
        long: false,
        strikes: true,
        turns: &[FILL, HOLD, EMPTY],
    },
    Load {
        name: "long",
        what: "long answers: `l` and `m` on about 1,000 rounds, numbers of 20 digits",
        lines: 20_000,
        members: 250,
        long: true,
        strikes: false,
        turns: &[FILL, PRINT, PRINT, PRINT],
    },
];

// Lines that are none of a form, with | between.
const MALFORMED: &str = "| |  |x|A 7 10|aa 7 10|a|a |a 7|a 7 |a  7 10|a 7  10| a 7 10|a 7 10 |a 7 10 11|a7 10|a +7 10\
    |a -7 10|a 0x7 10|a 7. 10|a\t7 10|a 7 10\r|a 7 10\0|\0|a 7 1\u{b9}|a 18446744073709551616 1|a 1 18446744073709551616\
    |i 1 99999999999999999999|i|i 7|i 7 12 13|i 7 x|r|r |r 7 8|r x|f |f 1|ff|bb|k |k 2|k 0 1|k  01|k01|l |m 1|line?";

impl Load {
    // The lines. Their answers on the crate tell how many marks a retain needs.
    pub fn make(&self, seed: u64) -> Vec<u8> {
        let mut random = Random(seed);
        let mut book = Book::new(self.strikes);
        let mut all = Vec::new();
        for at in 0..self.lines {
            let shares = self.turns[at / TURN % self.turns.len()];
            let line = self.line(&mut random, shares, &book);
            book.answer(&line, &mut io::sink()).expect("a sink takes everything");
            all.extend(line);
            all.push(b'\n');
        }
        // the last line ends with the input
        all.pop();
        all
    }

    fn line(&self, random: &mut Random, shares: Shares, book: &Book) -> Vec<u8> {
        let (k, v) = (self.member(random), self.round(random));
        match form(random, shares) {
            0 => format!("a {} {}", k, v).into_bytes(),
            1 => format!("i {} {}", k, v).into_bytes(),
            2 => format!("r {}", k).into_bytes(),
            3 => b"f".to_vec(),
            4 => b"b".to_vec(),
            5 => self.retain(random, book),
            6 => b"l".to_vec(),
            7 => b"m".to_vec(),
            _ => malformed(random),
        }
    }

    // A member's number, sometimes with zeros in front.
    fn member(&self, random: &mut Random) -> String {
        let at = random.below(self.members) as u64;
        let zeros = if random.below(100) == 0 { 1 + random.below(30) } else { 0 };
        format!("{}{}", "0".repeat(zeros), if self.long { u64::MAX - at } else { at * at })
    }

    fn round(&self, random: &mut Random) -> u64 {
        if self.long {
            return u64::MAX - random.below(1000) as u64;
        }
        if random.below(20) == 0 {
            random.next()
        } else {
            random.below(300) as u64
        }
    }

    // Marks that strike some rounds; or one mark too many.
    fn retain(&self, random: &mut Random, book: &Book) -> Vec<u8> {
        let members = book.members();
        let struck = [1, 10, 300][random.below(3)];
        let mut marks: Vec<u8> = members.iter().map(|_| (random.below(1000) >= struck) as u8).collect();
        if !self.strikes {
            marks = passes(&members, &marks).swap_remove(0);
        }
        if random.below(8) == 0 {
            marks.push(1);
        }
        let space: &[u8] = if marks.is_empty() { b"" } else { b" " };
        [b"k", space, &marks.iter().map(|mark| b'0' + mark).collect::<Vec<u8>>()].concat()
    }
}

// The number of a form, by its share.
fn form(random: &mut Random, shares: Shares) -> usize {
    let mut left = random.below(1000);
    for (form, share) in shares.into_iter().enumerate() {
        if left < share {
            return form;
        }
        left -= share;
    }
    panic!("the shares {:?} are not 1,000 together", shares)
}

// One of the list, or a line that is good up to its length, which is the longest or one more.
fn malformed(random: &mut Random) -> Vec<u8> {
    match random.below(20) {
        0 => format!("r {:0>1$}", random.below(9), LONGEST - 2).into_bytes(),
        1 => format!("r {:0>1$}", random.below(9), LONGEST - 1).into_bytes(),
        _ => {
            let all: Vec<&str> = MALFORMED.split('|').collect();
            all[random.below(all.len())].as_bytes().to_vec()
        }
    }
}
