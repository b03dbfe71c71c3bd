use prelgammo::list_ordered_multimap::{Entry, ListOrderedMultimap};
use prelgammo::Refused;

fn main() -> Result<(), Refused> {
    let mut rounds = ListOrderedMultimap::new();
    for (member, round) in [(7, 82), (9, 90), (7, 85), (4, 77), (9, 88), (7, 79)] {
        let known = rounds.append(member, round)?;
        println!("{member} posts {round}{}", if known { "" } else { " and joins" });
    }

    let old: Vec<u64> = rounds.insert_all(4, 75)?.collect();
    println!("4 starts anew after {old:?}");

    match rounds.entry(9) {
        Entry::Occupied(mut entry) => {
            entry.append(91)?;
            println!("9 has {} rounds", entry.len());
        }
        Entry::Vacant(entry) => {
            entry.insert(91)?;
        }
    }

    let record: Vec<u64> = rounds.get_all(&7).collect();
    println!("7 has {record:?}, first {:?}", rounds.get(&7));

    rounds.retain(|_, &round| round < 90);
    println!("{} rounds are below 90", rounds.values_len());

    if let Some((member, round)) = rounds.pop_front() {
        let stays = member.is_borrowed();
        println!("the oldest was {round} of {}, who {}", member.into_owned(), if stays { "stays" } else { "is gone" });
    }

    rounds.pack_to(256, 1024)?;
    for (member, round) in &rounds {
        println!("{member}: {round}");
    }
    println!("members {:?}", rounds.keys().collect::<Vec<_>>());
    println!("7 leaves with {:?}", rounds.remove_all(&7).collect::<Vec<_>>());
    Ok(())
}
