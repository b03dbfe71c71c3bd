// The port: its ways to run a tape, its images, and the driver's modes that need it. Where the driver is built without the
// port (`--cfg without_port`), unlinked.rs stands in for this file.

use crate::library::{ByValue, PortMap, Tapes};
use crate::model::RefusedBy;
use crate::port::{OneByOne, Port};
use crate::{bench, damage, images};

// By its function for tapes, by one function for each call, by the one that takes a call's number, and by value.
pub fn ports() -> Vec<Box<dyn Port>> {
    vec![
        Box::new(Tapes),
        Box::new(OneByOne { new: PortMap::with_limits, call: PortMap::call }),
        Box::new(OneByOne { new: PortMap::with_limits, call: PortMap::call_by_number }),
        Box::new(OneByOne { new: ByValue::with_limits, call: ByValue::call }),
    ]
}

// Compares images. How often one was refused, or where the port differs.
pub fn compare_images(seed: u64) -> Result<RefusedBy, String> {
    images::compare(seed)
}

// Runs a mode of this name, if there is one. Did it find nothing wrong?
pub fn run(mode: &str, seed: u64) -> Option<bool> {
    match mode {
        "damage" => Some(damage::run(seed)),
        "images" => Some(images::run(seed)),
        "bench" => Some(bench::run()),
        _ => None,
    }
}
