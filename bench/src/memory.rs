//! In memory: each decoder from the capture to its text, and a plain copy of the capture.

use std::error::Error;
use std::hint::black_box;

use crate::decoders::{Memories, LONGEST_LINE};
use crate::table::Times;

/// The times of a capture whose text is `text`, which both decoders must write.
pub fn measure(capture: &[u8], text: &[u8], rounds: usize) -> Result<Times, Box<dyn Error>> {
    let mut times = Times::new();
    let mut memories = Memories::new();
    let mut target = vec![1; capture.len()];
    let mut ours = Vec::with_capacity(text.len() + LONGEST_LINE);
    let mut theirs = vec![1; text.len() + LONGEST_LINE];
    memories.second(capture, &mut ours);
    let len = memories.proved(capture, &mut theirs);
    if ours != text || theirs[..len] != *text {
        return Err("the decoders' texts in memory differ from the program's".into());
    }
    for _ in 0..rounds {
        times.copy.time(|| {
            target.copy_from_slice(capture);
            black_box(&mut target);
        });
        times.second.time(|| {
            memories.second(capture, &mut ours);
            black_box(&mut ours);
        });
        times.proved.time(|| {
            black_box(memories.proved(capture, &mut theirs));
        });
    }
    Ok(times)
}
