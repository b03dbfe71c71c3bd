// The image of a map (document 01, module 7, and document 02, No. 1 and 2) written and read over plain lists, from the
// documents.

use crate::model::{Limits, Model, Pair, POSTERS};

// Sizes first; then the members of all pairs, then their rounds.
pub fn write(model: &Model) -> Vec<u8> {
    let sizes = [model.pairs.len() as u32, model.members.len() as u32];
    lay_out(sizes, &model.pairs)
}

// The same with sizes that may be wrong.
pub fn lay_out(sizes: [u32; 2], pairs: &[Pair]) -> Vec<u8> {
    let members = pairs.iter().flat_map(|pair| pair.0.to_le_bytes());
    let rounds = pairs.iter().flat_map(|pair| pair.1.to_le_bytes());
    sizes.iter().flat_map(|size| size.to_le_bytes()).chain(members).chain(rounds).collect()
}

// The map of an image that is read into these limits, or the number of the first row of the table that turns it away.
pub fn read(limits: Limits, bytes: &[u8]) -> Result<Model, u64> {
    if limits.too_high() {
        return Err(15);
    }
    if bytes.len() < 8 {
        return Err(11);
    }
    let (n, m) = (number(&bytes[..4]), number(&bytes[4..8]));
    if n > limits.rounds || m > limits.members {
        return Err(12);
    }
    let n = n as usize;
    if bytes.len() != 8 + 16 * n {
        return Err(13);
    }
    let (members, rounds) = bytes[8..].split_at(8 * n);
    let pairs: Vec<Pair> = members.chunks(8).map(number).zip(rounds.chunks(8).map(number)).collect();
    let members = by_first_appearance(&pairs);
    if m != members.len() as u64 {
        return Err(14);
    }
    // all of them are poster 0's
    let mut taken = [0; POSTERS];
    taken[0] = n as u64;
    Ok(Model { limits, pairs, members, taken })
}

// The number in some bytes, lowest first.
fn number(bytes: &[u8]) -> u64 {
    bytes.iter().rev().fold(0, |number, &byte| 256 * number + byte as u64)
}

pub fn by_first_appearance(pairs: &[Pair]) -> Vec<u64> {
    let mut seen = std::collections::HashSet::new();
    pairs.iter().map(|pair| pair.0).filter(|&member| seen.insert(member)).collect()
}
