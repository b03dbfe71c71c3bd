// What a comparison has to meet, or it would say little: every call, every refusal, every poster and none at each adding call,
// the highest limits and lower ones, and the port in each way.

use crate::compare::Tally;
use crate::model::{Op, MAX_MEMBERS, MAX_ROUNDS, OPS, POSTERS, REFUSALS};

// The refusals of a map that is full against limits of its own.
const BY_OWN: [usize; 3] = [1, 2, 6];
// The other refusals of the calls that add a round. 16 comes before them.
pub const BEHIND: [usize; 5] = [9, 10, 1, 2, 3];

// What the run did not meet. Without the port there are no images, and so no refusals of them.
pub fn gaps(tally: &Tally, with_port: bool) -> Vec<String> {
    let mut gaps = Vec::new();
    for (op, name) in OPS {
        let on_crate = tally.on_crate[op as usize] > 0 || op == Op::Taken;
        if tally.made[op as usize] == 0 || !on_crate {
            gaps.push(format!("{} was never made and accepted", name));
        }
    }
    let of_images = |number: &usize| (11..15).contains(number);
    let unmet = (1..=REFUSALS).filter(|number| tally.refused_by[*number] == 0 && (with_port || !of_images(number)));
    gaps.extend(unmet.map(|number| format!("nothing was refused by {}", number)));
    let unmet = BY_OWN.into_iter().filter(|&number| tally.refused_by_own[number] == 0);
    gaps.extend(unmet.map(|number| format!("nothing was refused by {} for a map's own limits", number)));
    let adding = OPS.iter().filter(|(op, _)| op.posts() && tally.by_no_poster[*op as usize] == 0);
    gaps.extend(adding.map(|(_, name)| format!("{} was never refused by 16", name)));
    let behind = BEHIND.into_iter().filter(|&number| tally.behind_no_poster[number] == 0);
    gaps.extend(behind.map(|number| format!("nothing was refused by 16 that {} would have refused", number)));
    let silent = (0..POSTERS).filter(|&poster| tally.accepted[poster] == 0);
    gaps.extend(silent.map(|poster| format!("no round was accepted by poster {}", poster)));
    if tally.most_rounds != MAX_ROUNDS {
        gaps.push(format!("no map held {} rounds, but {} at most", MAX_ROUNDS, tally.most_rounds));
    }
    if tally.most_members != MAX_MEMBERS {
        gaps.push(format!("no map held {} members, but {} at most", MAX_MEMBERS, tally.most_members));
    }
    if with_port && (tally.tapes == 0 || tally.one_by_one == 0) {
        gaps.push("the port was not run in each of its ways".to_string());
    }
    gaps
}
