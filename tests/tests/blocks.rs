//! A capture fed in blocks of any size gives the lines that it gives as a whole.

use std::io::{self, Read};

use second::capture::{lines_of, run, write_lines, Capture};
use second::generate::catalogue;
use second::generate::prng::Prng;

fn in_blocks(capture: &[u8], mut size: impl FnMut() -> usize) -> Vec<u8> {
    let (mut reading, mut lines) = (Capture::default(), Vec::new());
    let mut rest = capture;
    while !rest.is_empty() {
        let (block, after) = rest.split_at(size().min(rest.len()));
        reading.feed(block, &mut lines);
        rest = after;
    }
    reading.finish(&mut lines);
    lines
}

#[test]
fn any_block_size() {
    let mut compared = 0;
    for number in 0..130 {
        let capture = catalogue::capture(number);
        let whole = lines_of(&capture);
        let mut rng = Prng::new(number);
        assert_eq!(in_blocks(&capture, || 1), whole);
        assert_eq!(in_blocks(&capture, || 1_181), whole);
        for most in [2, 3, 50, 5_000, 100_000] {
            assert_eq!(in_blocks(&capture, || rng.range(0, most).max(1)), whole);
            compared += 1;
        }
    }
    assert_eq!(compared, 650);
}

/// Gives as many bytes a call as it likes, and now and then is interrupted.
struct Halting<'a>(&'a [u8], Prng);

impl Read for Halting<'_> {
    fn read(&mut self, block: &mut [u8]) -> io::Result<usize> {
        if self.1.chance(1, 5) {
            return Err(io::ErrorKind::Interrupted.into());
        }
        let len = self.1.range(1, 9_000).min(self.0.len()).min(block.len());
        block[..len].copy_from_slice(&self.0[..len]);
        self.0 = &self.0[len..];
        Ok(len)
    }
}

#[test]
fn streams_give_the_same_lines() {
    for number in 130..260 {
        let capture = catalogue::capture(number);
        let (mut streamed, mut written) = (Vec::new(), Vec::new());
        run(Halting(&capture, Prng::new(number)), &mut streamed).expect("no other error");
        write_lines(&capture, &mut written).expect("a Vec takes all");
        assert_eq!(streamed, written);
        assert!(written.ends_with(b"\n"));
    }
}
