// The lines that the port's program entry_values_mixes must print (crates/entry_values_mixes/stdout, which the gate compares with what the
// port prints), made by the crate's own EntryValues.

use ordered_multimap::ListOrderedMultimap;

const SLICE: [u64; 5] = [7, 0, u64::MAX, 12, 9];
const CALLS: u32 = 7;

// A member with the first `count` rounds of the slice, or all of them. Without a round there is no member, and its reader has none to give.
fn line(count: usize, mix: u32) -> String {
    let mut map = ListOrderedMultimap::new();
    for round in SLICE.iter().take(count) {
        map.append(1u64, *round);
    }
    let mut values = map.get_all(&1);
    let mut words = vec![count.to_string()];
    for call in 0..CALLS {
        let back = mix >> call & 1 == 1;
        let given = if back { values.next_back() } else { values.next() };
        let said = given.map_or("none".to_string(), |round| round.to_string());
        words.push(format!("{}:{}", if back { "b" } else { "f" }, said));
    }
    words.join(" ")
}

// Compares every line with the stored ones. Are they alike?
pub fn run() -> bool {
    let stored = std::fs::read_to_string("crates/entry_values_mixes/stdout").expect("run it in the repository");
    let made: Vec<String> =
        (0..SLICE.len() + 2).flat_map(|count| (0..1 << CALLS).map(move |mix| line(count, mix))).collect();
    let kept: Vec<&str> = stored.lines().collect();
    let other = made.iter().zip(&kept).filter(|(a, b)| a != b).count() + made.len().abs_diff(kept.len());
    println!("EntryValues: {} mixes of the crate beside the port's stored lines, {} differ", made.len(), other);
    other == 0
}
