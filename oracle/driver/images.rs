// Byte strings read as images by the port and by `image.rs`, and the maps that they give written again.

use crate::image;
use crate::library::{Map, PortMap};
use crate::lists::Random;
use crate::model::{Answer, Call, Limits, Model, Op, Pair, RefusedBy, HIGHEST, POSTERS, REFUSALS};
use crate::port::{is_refusal, untouched, words};
use crate::stops::while_running;

const RANDOM_STRINGS: u64 = 1_000_000;

struct Reader {
    map: PortMap,
    // what the record holds before an image is read into it, in turn
    garbage: Vec<Map>,
    // how many strings were read, by the number of their refusal; 0 for none
    read: RefusedBy,
}

// Do both readings always agree?
pub fn run(seed: u64) -> bool {
    let outcome = compare(seed);
    match &outcome {
        Ok(_) => println!("disagreements: 0"),
        Err(found) => println!("disagreements: 1: {}", found),
    }
    outcome.is_ok()
}

// How often a reading was refused, by number, or where the two disagree.
pub fn compare(seed: u64) -> Result<RefusedBy, String> {
    println!("images, seed {}", seed);
    let garbage: Vec<Map> = (0..8).map(|turn| Map::any(&mut Random(turn))).collect();
    let mut reader = Reader { map: PortMap::new(), garbage, read: RefusedBy::default() };
    changed_images(&mut reader)?;
    print_tally("every byte of small images changed to every value", &reader.read);
    let changed = std::mem::take(&mut reader.read);
    random_strings(&mut reader, seed)?;
    print_tally("random", &reader.read);
    let mut refused = RefusedBy::default();
    for number in 1..=REFUSALS {
        refused[number] = changed[number] + reader.read[number];
    }
    Ok(refused)
}

fn print_tally(name: &str, read: &RefusedBy) {
    let refused: Vec<String> = (11..16).map(|number| format!("refused by {}: {}", number, read[number])).collect();
    let all: u64 = read.iter().sum();
    println!("{}: {} byte strings, done: {}, {}", name, all, read[0], refused.join(", "));
}

impl Reader {
    // Reads the bytes on both sides into these limits, for the port into a record that holds anything, and compares answer and map;
    // then writes the map again.
    fn read(&mut self, limits: Limits, bytes: &[u8]) -> Result<(), String> {
        let what = format_args!("  om_read_image with {} of {:?}", limits, bytes);
        while_running(&what, || self.compare_reading(limits, bytes))
    }

    fn compare_reading(&mut self, limits: Limits, bytes: &[u8]) -> Result<(), String> {
        let due = image::read(limits, bytes);
        let refused = due.as_ref().err().copied();
        if refused.map_or(false, |number| !is_refusal(number)) {
            return Err(format!("image.rs refuses by {:?}, which is no number of documents 01 and 02", refused));
        }
        self.read[refused.unwrap_or(0) as usize] += 1;
        let answer = words(refused.map_or(Answer::Done, Answer::Refused));
        let turn = self.read.iter().sum::<u64>() as usize % self.garbage.len();
        self.map.spoil(&self.garbage[turn]);
        let found = self.map.read_image(limits, bytes);
        if found != answer {
            let asked = format!("{:?} with {}", bytes, limits);
            return Err(format!("om_read_image answers {:?}, not {:?}, to {}", found, answer, asked));
        }
        // a refused reading leaves the new map with these limits, or with none after 15
        let model = due.unwrap_or_else(|_| Model::new(limits));
        let compared = self.compare(&model).and_then(|()| self.write(&model));
        compared.map_err(|what| format!("{}, after {:?} with {}", what, bytes, limits))
    }

    // The map beside the lists: limits, pairs, members, T, and whether it is well-linked.
    fn compare(&mut self, model: &Model) -> Result<(), String> {
        if self.map.map().limits() != model.limits {
            return Err(format!("the map has {}", self.map.map().limits()));
        }
        let (n, m) = (model.pairs.len(), model.members.len());
        let calls = [Call::iter(n + 1, n + 2), Call::lending(Op::Keys, 0, 0, m + 1), Call::taken(POSTERS + 1)];
        let mut lists = model.clone();
        for call in &calls {
            let (mut out, mut out2) = (untouched(call.out), untouched(call.out2));
            let (mut due, mut due2) = (untouched(call.out), untouched(call.out2));
            let found = self.map.call(call, &mut out, &mut out2);
            let answer = words(lists.step(call, &mut due, &mut due2));
            if (found, &out, &out2) != (answer, &due, &due2) {
                return Err(format!("{} says {:?} {:?} {:?}", call, found, out, out2));
            }
        }
        if !self.map.map().well_linked() {
            return Err("the map is not well-linked".to_string());
        }
        Ok(())
    }

    // The map's image to a slice that is longer, one that is as long and two that are too short.
    fn write(&self, model: &Model) -> Result<(), String> {
        let image = image::write(model);
        let len = image.len();
        for room in [len + 3, len, len - 1, len / 2] {
            let before: Vec<u8> = (0..room).map(|at| 1 + (at % 251) as u8).collect();
            let (mut out, mut due) = (before.clone(), before);
            let answer = if room < len { Answer::Refused(3) } else { Answer::Count(len as u64) };
            if room >= len {
                due[..len].copy_from_slice(&image);
            }
            let found = self.map.write_image(&mut out);
            if (found, &out) != (words(answer), &due) {
                return Err(format!("om_write_image to {} bytes says {:?} {:?}", room, found, out));
            }
        }
        Ok(())
    }
}

// Every arrangement of up to three rounds over three members: its image, each byte of it changed in turn to every value, its
// beginnings of every length, and one byte more, all of them for the most that a map may hold; and the image for limits that
// just hold it, and for those beside.
fn changed_images(reader: &mut Reader) -> Result<(), String> {
    let members = [0, 1, u64::MAX - 255];
    for n in 0..=3 {
        for number in 0..3usize.pow(n) {
            let pairs: Vec<Pair> =
                (0..n).map(|at| (members[number / 3usize.pow(at) % 3], 256 * at as u64 + 7)).collect();
            let members = image::by_first_appearance(&pairs);
            let whole = image::write(&Model { pairs, members, ..Model::new(HIGHEST) });
            read_beside(reader, &whole)?;
            for at in 0..whole.len() {
                let mut changed = whole.clone();
                for value in 0..=255 {
                    changed[at] = value;
                    reader.read(HIGHEST, &changed)?;
                }
                reader.read(HIGHEST, &whole[..at])?;
            }
            reader.read(HIGHEST, &[&whole[..], &[0]].concat())?;
        }
    }
    Ok(())
}

// An image, one cut off and none, for every limits up to those above its sizes, and for limits that are too high.
fn read_beside(reader: &mut Reader, whole: &[u8]) -> Result<(), String> {
    let counts = [0, 1, 2, 3, 4, 256, 257, 1024, 1025, u64::MAX];
    for (members, rounds) in counts.iter().flat_map(|&members| counts.map(|rounds| (members, rounds))) {
        for bytes in [whole, &whole[..whole.len() - 1], &[]] {
            reader.read(Limits { members, rounds }, bytes)?;
        }
    }
    Ok(())
}

fn random_strings(reader: &mut Reader, seed: u64) -> Result<(), String> {
    let mut random = Random(seed);
    for _ in 0..RANDOM_STRINGS {
        let bytes = random_string(&mut random);
        reader.read(random_limits(&mut random, &bytes), &bytes)?;
    }
    Ok(())
}

// Mostly the highest; otherwise limits beside the sizes that the bytes begin with, few of both, or any.
fn random_limits(random: &mut Random, bytes: &[u8]) -> Limits {
    let size = |at: usize| bytes.get(at..at + 4).map_or(0, |four| u32::from_le_bytes(four.try_into().unwrap()) as u64);
    let beside = |random: &mut Random, size: u64| (size + random.below(3) as u64).saturating_sub(1);
    match random.below(8) {
        0 | 1 => Limits { members: beside(random, size(4)), rounds: beside(random, size(0)) },
        2 => Limits { members: random.below(8) as u64, rounds: random.below(14) as u64 },
        3 => Limits { members: 250 + random.below(9) as u64, rounds: 1018 + random.below(9) as u64 },
        4 if random.below(4) == 0 => Limits { members: random.next(), rounds: random.next() },
        _ => HIGHEST,
    }
}

// Mostly an image with one thing of it changed, or none; sometimes any bytes.
fn random_string(random: &mut Random) -> Vec<u8> {
    if random.below(16) == 0 {
        let length = random.below(48);
        return (0..length).map(|_| random.next() as u8).collect();
    }
    let n = match random.below(64) {
        0 => 1000 + random.below(30),
        1 => random.below(1025),
        _ => random.below(13),
    };
    let pool = [1, 3, 200, 256, 257, 1025][random.below(6)];
    let far = random.below(2) as u64 * random.next();
    let pairs: Vec<Pair> = (0..n).map(|_| (far.wrapping_add(random.below(pool) as u64), random.next())).collect();
    let held = image::by_first_appearance(&pairs).len() as u32;
    // with more than 256 members, m is wrong even where it is 256
    let m = match random.below(16) {
        0 => held.wrapping_sub(1),
        1 => held + 1,
        2 => held.min(256),
        3 => 250 + random.below(10) as u32,
        4 => random.next() as u32,
        _ => held,
    };
    let mut bytes = image::lay_out([n as u32, m], &pairs);
    match random.below(16) {
        0 => bytes.truncate(random.below(bytes.len() + 1)),
        1 => bytes.extend(vec![0; 1 + random.below(16)]),
        2 => bytes[random.below(8)] = random.next() as u8,
        3 => {
            let at = random.below(bytes.len());
            bytes[at] ^= 1 << random.below(8);
        }
        _ => {}
    }
    bytes
}
