// Makes a failing list smaller by dropping calls, marks, places of slices and posters.

use crate::compare::Difference;
use crate::model::{Call, Limits};
use std::time::{Duration, Instant};

// The smallest failing list found in so many seconds, on a map with the limits of the first.
pub fn shrink(first: Difference, seconds: u64, fails: impl Fn(Limits, &[Call]) -> Option<Difference>) -> Difference {
    let (limits, until) = (first.limits, Instant::now() + Duration::from_secs(seconds));
    let fails = |list: &[Call]| if Instant::now() < until { fails(limits, list) } else { None };
    let mut best = first;
    while let Some(less) = without_calls(&best.list, &fails).or_else(|| with_a_narrower_call(&best.list, &fails)) {
        best = less;
    }
    best
}

// A list that still fails without some calls in a row, as many as can be.
fn without_calls(list: &[Call], fails: &impl Fn(&[Call]) -> Option<Difference>) -> Option<Difference> {
    let mut size = list.len() / 2;
    while size > 0 {
        for start in (0..list.len()).step_by(size) {
            let end = (start + size).min(list.len());
            let found = fails(&[&list[..start], &list[end..]].concat());
            if found.is_some() {
                return found;
            }
        }
        size /= 2;
    }
    None
}

// A list that still fails with one call narrower, with all the others or without one before it, since the rounds held
// become fewer by that.
fn with_a_narrower_call(list: &[Call], fails: &impl Fn(&[Call]) -> Option<Difference>) -> Option<Difference> {
    for at in 0..list.len() {
        for narrow in narrower(&list[at]) {
            let mut less = list.to_vec();
            less[at] = narrow;
            for dropped in 0..at {
                let mut fewer = less.clone();
                fewer.remove(dropped);
                let found = fails(&fewer);
                if found.is_some() {
                    return found;
                }
            }
            let found = fails(&less);
            if found.is_some() {
                return found;
            }
        }
    }
    None
}

// The call without one of its marks, with shorter slices, or by poster 0.
fn narrower(call: &Call) -> Vec<Call> {
    let mut calls = Vec::new();
    for mark in 0..call.marks.len() {
        let mut narrow = call.clone();
        narrow.marks.remove(mark);
        calls.push(narrow);
    }
    if call.out > 0 {
        let narrow = Call { out: call.out - 1, ..call.clone() };
        calls.push(Call { out2: call.out2.saturating_sub(1), ..narrow.clone() });
        calls.push(narrow);
    }
    if call.out2 > 0 {
        calls.push(Call { out2: call.out2 - 1, ..call.clone() });
    }
    if call.poster > 0 {
        calls.push(call.clone().by(0));
    }
    calls
}
