// Tapes of calls, and what runs them.

use crate::model::{Answer, Call, Limits, Model, Op, OPS, REFUSALS};

// How many numbers of a tape a call is.
pub const WIDTH: usize = 7;

// A tape: the limits of the new map that it is run on; seven numbers for each call (its number, its poster, k, v, the lengths
// of its out slice, its second one and its marks); all out slices, second ones and marks one after the other, each kind on its
// own; and room for four numbers of each answer.
#[derive(Clone, Debug, PartialEq, Eq)]
pub struct Tape {
    pub limits: Limits,
    pub calls: Vec<u64>,
    pub outs: Vec<u64>,
    pub outs2: Vec<u64>,
    pub marks: Vec<u8>,
    pub answers: Vec<u64>,
}

// What slices and answers hold before a run: another number at each place, and none that the lists use.
pub fn untouched(len: usize) -> Vec<u64> {
    (0..len as u64).map(|at| 0xEEEE_EEEE_0000_0000 + at).collect()
}

impl Tape {
    pub fn of(limits: Limits, list: &[Call]) -> Tape {
        let mut calls = Vec::with_capacity(WIDTH * list.len());
        let mut marks = Vec::new();
        let (mut out, mut out2) = (0, 0);
        for call in list {
            let lengths = [call.out as u64, call.out2 as u64, call.marks.len() as u64];
            calls.extend([call.op as u64, call.poster, call.k, call.v]);
            calls.extend(lengths);
            marks.extend(&call.marks);
            out += call.out;
            out2 += call.out2;
        }
        let answers = untouched(4 * list.len());
        Tape { limits, calls, outs: untouched(out), outs2: untouched(out2), marks, answers }
    }

    // The calls that a tape has: up to its end, or to the first that does not fit.
    pub fn decode(&self) -> Vec<Call> {
        let mut list: Vec<Call> = Vec::new();
        let mut room = [self.outs.len() as u64, self.outs2.len() as u64, self.marks.len() as u64];
        for call in self.calls.chunks_exact(WIDTH) {
            let (number, lengths) = (call[0], [call[4], call[5], call[6]]);
            let space = self.answers.len() - 4 * list.len();
            if space < 4 || !fits(number, lengths, room) {
                break;
            }
            let start = self.marks.len() - room[2] as usize;
            let [out, out2, marks] = lengths.map(|length| length as usize);
            let marks = self.marks[start..start + marks].to_vec();
            let op = OPS[number as usize].0;
            list.push(Call { op, poster: call[1], k: call[2], v: call[3], out, out2, marks });
            for (left, length) in room.iter_mut().zip(lengths) {
                *left -= length;
            }
        }
        list
    }
}

// Is there such a call, with slices and marks only where it has them, and does the tape hold so many?
fn fits(op: u64, lengths: [u64; 3], room: [u64; 3]) -> bool {
    if op >= OPS.len() as u64 {
        return false;
    }
    let op = OPS[op as usize].0;
    (op.lends() || lengths[0] == 0)
        && (op == Op::Iter || lengths[1] == 0)
        && (op == Op::Retain || lengths[2] == 0)
        && lengths.iter().zip(room).all(|(&length, left)| length <= left)
}

// The four numbers of an answer.
pub fn words(answer: Answer) -> [u64; 4] {
    match answer {
        Answer::Refused(number) => [0, number, 0, 0],
        Answer::None => [1, 0, 0, 0],
        Answer::Done => [2, 0, 0, 0],
        Answer::Round(v) => [3, v, 0, 0],
        Answer::Count(count) => [4, count, 0, 0],
        Answer::Present(present) => [5, present as u64, 0, 0],
        Answer::Popped(k, v, gone) => [6, k, v, gone as u64],
        Answer::Occupied(len) => [7, len, 0, 0],
        Answer::Vacant(k) => [8, k, 0, 0],
    }
}

// The answer of four numbers, if they are one's.
pub fn answer_of(words: &[u64]) -> Option<Answer> {
    let answer = match *words {
        [0, number, 0, 0] if is_refusal(number) => Answer::Refused(number),
        [1, 0, 0, 0] => Answer::None,
        [2, 0, 0, 0] => Answer::Done,
        [3, v, 0, 0] => Answer::Round(v),
        [4, count, 0, 0] => Answer::Count(count),
        [5, present @ (0 | 1), 0, 0] => Answer::Present(present == 1),
        [6, k, v, gone @ (0 | 1)] => Answer::Popped(k, v, gone == 1),
        [7, len, 0, 0] => Answer::Occupied(len),
        [8, k, 0, 0] => Answer::Vacant(k),
        _ => return None,
    };
    Some(answer)
}

// Have documents 01 and 02 a refusal of this number?
pub fn is_refusal(number: u64) -> bool {
    (1..=REFUSALS as u64).contains(&number)
}

// What runs a tape on a new map with the tape's limits: it fills the tape's slices and answers, leaves the rest as it is, and
// says how many calls it ran; or what went wrong that a tape does not show.
pub trait Port {
    fn replay(&self, tape: &mut Tape) -> Result<u64, String>;
}

// The model as a port.
pub struct ModelPort;

impl Port for ModelPort {
    fn replay(&self, tape: &mut Tape) -> Result<u64, String> {
        let mut model = Model::new(tape.limits);
        Ok(replay_with(tape, &mut model, |model, call, out, out2| words(model.step(call, out, out2))))
    }
}

// Runs a tape by a step that makes one call with its lent slices and gives the four numbers of its answer.
pub fn replay_with<State>(
    tape: &mut Tape,
    state: &mut State,
    mut step: impl FnMut(&mut State, &Call, &mut [u64], &mut [u64]) -> [u64; 4],
) -> u64 {
    let list = tape.decode();
    let (mut out, mut out2) = (0, 0);
    for (at, call) in list.iter().enumerate() {
        let lent = &mut tape.outs[out..out + call.out];
        let lent2 = &mut tape.outs2[out2..out2 + call.out2];
        let answer = step(state, call, lent, lent2);
        tape.answers[4 * at..4 * at + 4].copy_from_slice(&answer);
        out += call.out;
        out2 += call.out2;
    }
    list.len() as u64
}

// Runs a tape call by call, and looks at the whole state after each: a refused call and a read leave all of it as it was,
// also what no call shows. The answer to the making of the map is looked at too.
pub struct OneByOne<State> {
    pub new: fn(Limits) -> ([u64; 4], State),
    pub call: fn(&mut State, &Call, &mut [u64], &mut [u64]) -> [u64; 4],
}

impl<State: Clone + PartialEq> Port for OneByOne<State> {
    fn replay(&self, tape: &mut Tape) -> Result<u64, String> {
        let ((made, mut state), due) = ((self.new)(tape.limits), words(Model::make(tape.limits).0));
        let mut wrong = (made != due).then(|| format!("the making of a map with {} answers {:?}", tape.limits, made));
        let ran = replay_with(tape, &mut state, |state, call, out, out2| {
            let before = state.clone();
            let answer = (self.call)(state, call, out, out2);
            let refused = matches!(answer_of(&answer), Some(Answer::Refused(_)));
            if (refused || call.op.reads()) && *state != before {
                wrong.get_or_insert(format!("{} changes the map and answers {:?}", call, answer));
            }
            answer
        });
        wrong.map_or(Ok(ran), Err)
    }
}
