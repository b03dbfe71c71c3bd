// Times of short work.

use crate::library::RECORD;
use std::time::Instant;

// The copies that are timed together.
const COPIES: usize = 25;

// The middle one of some times.
pub fn median(mut times: Vec<f64>) -> f64 {
    times.sort_by(f64::total_cmp);
    times[times.len() / 2]
}

// The compiler has to make this value, and not to know it afterwards.
pub fn hold<Value: ?Sized>(value: &mut Value) {
    unsafe { std::arch::asm!("/* {0} */", in(reg) value as *mut Value as *mut u8, options(nostack)) }
}

// What is done, without the time that reading the clock takes.
pub fn timed(work: impl FnOnce()) -> f64 {
    let start = Instant::now();
    let clock = start.elapsed();
    let start = Instant::now();
    work();
    start.elapsed().saturating_sub(clock).as_nanos() as f64
}

// Does the work that many calls deep, which puts what it keeps on the stack at other addresses each time. Some processors
// copy slowly between addresses whose last digits are near each other; the median is then not one of these.
#[inline(never)]
pub fn deep(mut calls: usize, work: &mut dyn FnMut()) {
    match calls {
        0 => work(),
        _ => deep(calls - 1, work),
    }
    hold(&mut calls);
}

extern "C" {
    fn mallopt(parameter: i32, value: i32) -> i32;
}

// Has the allocator keep what is freed, so that a copy of a map does not wait for the kernel to clear its pages. That would
// fall to the crate, whose maps are several blocks.
pub fn keep_memory() {
    let (trim_threshold, mmap_threshold) = (-1, -3);
    for parameter in [trim_threshold, mmap_threshold] {
        let set = unsafe { mallopt(parameter, 1 << 30) };
        assert_eq!(set, 1, "mallopt fails");
    }
}

// A plain copy of so many bytes to a place that was written before, both of them near in the cache.
pub fn time_copy(bytes: usize) -> f64 {
    let (from, mut room) = (vec![1u8; bytes], vec![0u8; bytes + 4096]);
    let run = |run: usize| {
        let to = &mut room[32 * run..][..bytes];
        let copy = |_| {
            to.copy_from_slice(&from);
            hold(to);
        };
        timed(|| (0..COPIES).for_each(copy)) / COPIES as f64
    };
    median((0..128).map(run).collect())
}

// The same from each of eight places to the next, of which not all are near: as a call copies that takes a record by value,
// to its argument, to its own variables, and to its result.
pub fn time_copies(bytes: usize) -> f64 {
    let mut room = vec![1u8; 8 * (bytes + 4096)];
    let run = |run: usize| {
        let place = |at: usize| at % 8 * (bytes + 32 * run);
        let copy = |at: usize| {
            room.copy_within(place(at)..place(at) + bytes, place(at + 1));
            hold(&mut room[..]);
        };
        timed(|| (0..COPIES).for_each(copy)) / COPIES as f64
    };
    median((1..128).map(run).collect())
}

// As many bytes as the port's record.
#[derive(Clone, Copy)]
#[repr(C)]
struct Block([u64; RECORD / 8]);

// Takes a record by value and hands it back, as C passes them, and does no more.
#[inline(never)]
extern "C" fn hand_back(mut block: Block) -> Block {
    hold(&mut block);
    block
}

// What the least call by value takes: a record goes in from one place, and comes back to another.
pub fn time_handing() -> f64 {
    let (mut now, mut next) = (Box::new(Block([1; RECORD / 8])), Box::new(Block([0; RECORD / 8])));
    let mut run = |calls: usize| {
        let mut work = || {
            for _ in 0..COPIES {
                *next = hand_back(*now);
                std::mem::swap(&mut now, &mut next);
                hold(&mut *now);
            }
        };
        let mut time = 0.0;
        deep(calls, &mut || time = timed(&mut work) / COPIES as f64);
        time
    };
    median((0..128).map(&mut run).collect())
}
