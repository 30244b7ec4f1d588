//! What is printed: speeds beside each other, and their ratios.

use crate::clock::Best;

/// The plain copy and both decoders.
#[derive(Clone, Copy)]
pub struct Times {
    pub copy: Best,
    pub second: Best,
    pub proved: Best,
}

impl Times {
    pub fn new() -> Self {
        Times {
            copy: Best::new(),
            second: Best::new(),
            proved: Best::new(),
        }
    }
}

pub fn heading(unit: &str) {
    println!(
        "{:<24} {:>12} {:>12} {:>12} {:>17} {:>15} {:>15}",
        unit,
        "plain copy",
        "second",
        "proved",
        "proved to second",
        "second to copy",
        "proved to copy"
    );
}

/// Gigabytes per second, and ratios of speeds.
pub fn speeds(name: &str, bytes: usize, times: &Times) {
    let speed = |best: &Best| bytes as f64 / best.seconds() / 1e9;
    let (copy, second, proved) = (
        speed(&times.copy),
        speed(&times.second),
        speed(&times.proved),
    );
    println!(
        "{name:<24} {copy:>12.2} {second:>12.2} {proved:>12.2} {:>17.2} {:>15.2} {:>15.2}",
        proved / second,
        second / copy,
        proved / copy
    );
}
