//! Saves a club's rounds, of two posters, to a file, loads them, posts one more, and meets a file that was cut off.

use prelgammo::list_ordered_multimap::ListOrderedMultimap;
use std::error::Error;
use std::{env, fs, process};

fn main() -> Result<(), Box<dyn Error>> {
    let path = env::temp_dir().join(format!("saved-club-{}", process::id()));
    let mut club = ListOrderedMultimap::new();
    club.try_extend([(7, 82), (9, 90), (7, 85), (4, 77)])?;
    club.posting_as(3).insert(7, 79)?;
    club.save(&path)?;
    println!("saved {} rounds of {} members", club.values_len(), club.keys_len());

    let mut loaded = ListOrderedMultimap::load(&path)?;
    println!("the rounds are the same: {}", loaded == club);
    // the joining order and each poster's count of rounds are not in the file: all are then of poster 0
    println!("members {:?} are now {:?}", club.keys().as_slice(), loaded.keys().as_slice());
    println!("rounds taken of posters 0 to 3: {:?} are now {:?}", &club.taken()[..4], &loaded.taken()[..4]);

    loaded.append(9, 88)?;
    loaded.save(&path)?;
    for (member, rounds) in ListOrderedMultimap::load(&path)?.pairs() {
        println!("{member}: {:?}", rounds.as_slice());
    }

    fs::write(&path, &loaded.to_bytes()[..20])?;
    match ListOrderedMultimap::load(&path) {
        Ok(map) => println!("a file that was cut off is {map:?}"),
        Err(error) => println!("a file that was cut off is {error}"),
    }
    fs::remove_file(&path)?;
    Ok(())
}
