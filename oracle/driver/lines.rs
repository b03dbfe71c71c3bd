// The calls program (document 01, module 8) over the crate: reads lines, and prints for each what document 01 says.

use crate::crate_map::CrateMap;
use crate::model::{MAX_MEMBERS, MAX_ROUNDS};
use ordered_multimap::list_ordered_multimap::KeyWrapper;
use std::io::{self, BufWriter, Read, Write};

pub const LONGEST: usize = 1100;
const BUFFER: usize = 65_536;

enum Line<'bytes> {
    Append(u64, u64),
    InsertAll(u64, u64),
    RemoveAll(u64),
    PopFront,
    PopBack,
    // the characters 0 and 1
    Retain(&'bytes [u8]),
    List,
    Keys,
}

fn parse(line: &[u8]) -> Option<Line<'_>> {
    if line.len() > LONGEST {
        return None;
    }
    let mut fields = line.split(|&byte| byte == b' ');
    let letter = fields.next()?;
    let form = match (letter, fields.next(), fields.next(), fields.next()) {
        (b"a", Some(k), Some(v), None) => Line::Append(number(k)?, number(v)?),
        (b"i", Some(k), Some(v), None) => Line::InsertAll(number(k)?, number(v)?),
        (b"r", Some(k), None, None) => Line::RemoveAll(number(k)?),
        (b"f", None, None, None) => Line::PopFront,
        (b"b", None, None, None) => Line::PopBack,
        (b"k", None, None, None) => Line::Retain(b""),
        (b"k", Some(marks), None, None) => Line::Retain(some_marks(marks)?),
        (b"l", None, None, None) => Line::List,
        (b"m", None, None, None) => Line::Keys,
        _ => return None,
    };
    Some(form)
}

// One or more digits with a value below 2^64.
fn number(field: &[u8]) -> Option<u64> {
    let (first, others) = field.split_first()?;
    others.iter().try_fold(digit(*first)?, |value, &byte| value.checked_mul(10)?.checked_add(digit(byte)?))
}

fn digit(byte: u8) -> Option<u64> {
    byte.is_ascii_digit().then(|| (byte - b'0') as u64)
}

fn some_marks(field: &[u8]) -> Option<&[u8]> {
    let marks = !field.is_empty() && field.iter().all(|byte| matches!(byte, b'0' | b'1'));
    marks.then_some(field)
}

// The crate's map, and whether its retain is done in passes that it survives.
pub struct Book {
    map: CrateMap,
    passes: bool,
    // room for the rounds that a line takes out
    old: Vec<u64>,
}

impl Book {
    pub fn new(passes: bool) -> Book {
        Book { map: CrateMap::new(), passes, old: Vec::new() }
    }

    // The member of each round, in order.
    pub fn members(&self) -> Vec<u64> {
        self.map.map.iter().map(|pair| *pair.0).collect()
    }

    // Does what the line asks, and prints its answer with a line end.
    pub fn answer(&mut self, line: &[u8], out: &mut impl Write) -> io::Result<()> {
        match parse(line) {
            Some(form) => self.call(form, out)?,
            None => out.write_all(b"line?")?,
        }
        out.write_all(b"\n")
    }

    fn call(&mut self, form: Line, out: &mut impl Write) -> io::Result<()> {
        match form {
            Line::Append(k, v) => self.append(k, v, out),
            Line::InsertAll(k, v) => self.insert_all(k, v, out),
            Line::RemoveAll(k) => {
                self.old.clear();
                self.old.extend(self.map.map.remove_all(&k));
                print_old(&self.old, out)
            }
            Line::PopFront => print_popped(self.map.map.pop_front(), out),
            Line::PopBack => print_popped(self.map.map.pop_back(), out),
            Line::Retain(marks) => self.retain(marks, out),
            Line::List => {
                out.write_all(b"list")?;
                self.map.map.iter().try_for_each(|(k, v)| write!(out, " {}:{}", k, v))
            }
            Line::Keys => {
                out.write_all(b"keys")?;
                self.map.map.keys().try_for_each(|k| write!(out, " {}", k))
            }
        }
    }

    // The refusal of one round more.
    fn no_room(&self, k: u64) -> Option<u64> {
        let map = &self.map.map;
        if map.values_len() >= MAX_ROUNDS {
            return Some(1);
        }
        (map.keys_len() >= MAX_MEMBERS && !map.contains_key(&k)).then_some(2)
    }

    fn append(&mut self, k: u64, v: u64, out: &mut impl Write) -> io::Result<()> {
        if let Some(by) = self.no_room(k) {
            return write!(out, "refused {}", by);
        }
        out.write_all(if self.map.map.append(k, v) { b"present" } else { b"new" })
    }

    fn insert_all(&mut self, k: u64, v: u64, out: &mut impl Write) -> io::Result<()> {
        match self.no_room(k) {
            Some(by) if !self.map.map.contains_key(&k) => write!(out, "refused {}", by),
            _ => {
                self.old.clear();
                self.old.extend(self.map.map.insert_all(k, v));
                print_old(&self.old, out)
            }
        }
    }

    fn retain(&mut self, marks: &[u8], out: &mut impl Write) -> io::Result<()> {
        if marks.len() != self.map.map.values_len() {
            return write!(out, "refused 7");
        }
        let marks: Vec<u8> = marks.iter().map(|mark| mark - b'0').collect();
        if self.passes {
            self.map.retain_in_passes(&marks);
        } else {
            self.map.retain(&marks);
        }
        write!(out, "kept {}", self.map.map.values_len())
    }
}

fn print_old(old: &[u64], out: &mut impl Write) -> io::Result<()> {
    write!(out, "old {}", old.len())?;
    old.iter().try_for_each(|v| write!(out, " {}", v))
}

fn print_popped(pair: Option<(KeyWrapper<u64>, u64)>, out: &mut impl Write) -> io::Result<()> {
    match pair {
        Some((KeyWrapper::Borrowed(k), v)) => write!(out, "pop {} {} stays", k, v),
        Some((KeyWrapper::Owned(k), v)) => write!(out, "pop {} {} gone", k, v),
        None => write!(out, "none"),
    }
}

// Answers the lines of standard input. What was printed is written before the program waits for more.
pub fn run(passes: bool) -> bool {
    let mut out = BufWriter::with_capacity(BUFFER, io::stdout().lock());
    let done = answer_all(&mut io::stdin().lock(), &mut out, passes);
    done.map_err(|error| eprintln!("{}", error)).is_ok()
}

fn answer_all(input: &mut impl Read, out: &mut impl Write, passes: bool) -> io::Result<()> {
    let mut book = Book::new(passes);
    let mut chunk = vec![0; BUFFER];
    let mut held = Vec::new();
    loop {
        let count = input.read(&mut chunk)?;
        if count == 0 {
            break;
        }
        answer_chunk(&mut book, &chunk[..count], &mut held, out)?;
        out.flush()?;
    }
    if !held.is_empty() {
        book.answer(&held, out)?;
    }
    out.flush()
}

// Answers each line that ends in the chunk; `held` has what stands after the last line end.
pub fn answer_chunk(book: &mut Book, chunk: &[u8], held: &mut Vec<u8>, out: &mut impl Write) -> io::Result<()> {
    for part in chunk.split_inclusive(|&byte| byte == b'\n') {
        match part.strip_suffix(b"\n") {
            None => held.extend(part),
            Some(line) if held.is_empty() => book.answer(line, out)?,
            Some(rest) => {
                held.extend(rest);
                book.answer(held, out)?;
                held.clear();
            }
        }
    }
    Ok(())
}
