// A sample of the crate's answers: lists of calls as text, and what the port's program stored_lists must print of them, after
// those of tools/edges.py. How both are written is in crates/tapes/specs; what is printed is made by the crate alone. It has no
// limits and no posters, so the lists stay within their limits and have posters that there are. The gate compares it with what
// the port prints.

use crate::crate_map::CrateMap;
use crate::lists::{self, Random};
use crate::model::{Call, Limits, HIGHEST, OPS};
use crate::port::{replay_with, words, Tape, WIDTH};
use std::fs;

const LISTS: usize = 190;
const SEED: u64 = 7;
const INPUT: &str = "crates/stored_lists/stdin";
const OUTPUT: &str = "crates/stored_lists/stdout";
// The list that stands in front of the sample in both files. It has no call.
const FIRST: &str = "the crate's own answers";

// A list on a tape, each place of a slice with a number of its own and the answers filled with nines.
fn tape_of(limits: Limits, list: &[Call]) -> Tape {
    let mut tape = Tape::of(limits, list);
    tape.outs = (9000..).take(tape.outs.len()).collect();
    tape.outs2 = (20000..).take(tape.outs2.len()).collect();
    tape.answers = vec![9; tape.answers.len()];
    tape
}

fn rows<Number: ToString>(width: usize, numbers: &[Number]) -> String {
    let row = |row: &[Number]| row.iter().map(|number| number.to_string()).collect::<Vec<_>>().join(" ");
    numbers.chunks(width).map(|numbers| format!("\n{}", row(numbers))).collect()
}

// In front of a call's numbers stands its name, which the program passes over.
fn input(name: &str, tape: &Tape) -> String {
    let call = |call: &[u64]| format!("\n{}{}", OPS[call[0] as usize].1, rows(WIDTH, call).replace('\n', " "));
    format!(
        "{}; limits {} {};{}\n; outs{}\n; second outs{}\n; marks{}\n; answers{}\n;\n",
        name,
        tape.limits.members,
        tape.limits.rounds,
        tape.calls.chunks(WIDTH).map(call).collect::<String>(),
        rows(32, &tape.outs),
        rows(32, &tape.outs2),
        rows(32, &tape.marks),
        rows(32, &tape.answers)
    )
}

// The list run by the crate.
fn output(name: &str, mut tape: Tape) -> String {
    let ran = replay_with(&mut tape, &mut CrateMap::new(), |map, call, out, out2| {
        words(map.call(call, out, out2).expect("all calls but taken have an answer"))
    });
    let (answers, outs, outs2) = (rows(4, &tape.answers), rows(16, &tape.outs), rows(16, &tape.outs2));
    format!("{} ran {}{}\nouts{}\nouts2{}\n", name, ran, answers, outs, outs2)
}

// The text of all lists, what the crate gives for it, and how often each call is in them.
fn made() -> (String, String, [usize; OPS.len()]) {
    let mut random = Random(SEED);
    let none = tape_of(HIGHEST, &[]);
    let (mut inputs, mut outputs, mut calls) = (vec![input(FIRST, &none)], vec![output(FIRST, none)], [0; OPS.len()]);
    for number in 1..=LISTS {
        let (limits, list) = lists::list_for_the_crate(&mut random);
        list.iter().for_each(|call| calls[call.op as usize] += 1);
        let (name, tape) = (format!("list {}", number), tape_of(limits, &list));
        inputs.push(input(&name, &tape));
        outputs.push(output(&name, tape));
    }
    (inputs.concat(), outputs.join("\n"), calls)
}

// A file's part in front of the sample, and the sample.
fn parts(path: &str) -> [String; 2] {
    let stored = fs::read_to_string(path).expect("run it in the repository");
    let at = stored.find(FIRST).expect("the sample's first list is there");
    [stored[..at].to_string(), stored[at..].to_string()]
}

// Writes the stored sample anew, or compares it. Is it what the crate gives?
pub fn run(write: bool) -> bool {
    let (input, output, calls) = made();
    let ([edges_in, stored_in], [edges_out, stored_out]) = (parts(INPUT), parts(OUTPUT));
    if write {
        fs::write(INPUT, edges_in + &input).expect("run it in the repository");
        fs::write(OUTPUT, edges_out + &output).expect("run it in the repository");
        OPS.iter().for_each(|(op, name)| println!("{:24} {:>6}", name, calls[*op as usize]));
    }
    let same = write || stored_in == input && stored_out == output;
    let said = if same { "as stored" } else { "not as stored" };
    println!("sample: {} lists of {} calls, the crate's answers {}", LISTS, calls.iter().sum::<usize>(), said);
    same
}
