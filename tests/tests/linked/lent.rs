//! Memory that is lent to a call, with guards on both sides that no call may change.

use second::generate::prng::Prng;
use second::slots::PACKET_MEMORY;

use super::library::{self, STATE};

/// Words or bytes before and behind.
const GUARD: usize = 64;

pub trait Word: Copy + PartialEq + std::fmt::Debug {
    const GUARD: Self;
    fn any(rng: &mut Prng) -> Self;
}

impl Word for u8 {
    const GUARD: u8 = 0xA5;
    fn any(rng: &mut Prng) -> u8 {
        rng.byte()
    }
}

impl Word for u64 {
    const GUARD: u64 = 0xA5A5_5A5A_0FF0_C33C;
    fn any(rng: &mut Prng) -> u64 {
        rng.u64()
    }
}

#[derive(Clone, Debug, PartialEq)]
pub struct Lent<T> {
    all: Vec<T>,
}

impl<T: Word> Lent<T> {
    /// A copy of `words` between guards.
    pub fn new(words: &[T]) -> Self {
        let guard = [T::GUARD; GUARD];
        Lent {
            all: [&guard[..], words, &guard].concat(),
        }
    }

    /// Noise of that length between guards.
    pub fn noise(rng: &mut Prng, len: usize) -> Self {
        let words: Vec<T> = (0..len).map(|_| T::any(rng)).collect();
        Lent::new(&words)
    }

    /// What is lent.
    pub fn get(&self) -> &[T] {
        &self.all[GUARD..self.all.len() - GUARD]
    }

    /// The same, to be written.
    pub fn lend(&mut self) -> &mut [T] {
        let end = self.all.len() - GUARD;
        &mut self.all[GUARD..end]
    }

    /// Whether the guards are as they were.
    pub fn is_guarded(&self) -> bool {
        let end = self.all.len() - GUARD;
        let kept = |part: &[T]| part.iter().all(|&word| word == T::GUARD);
        kept(&self.all[..GUARD]) && kept(&self.all[end..])
    }
}

/// All that a receiver of the library is lent. Two are equal if every word and byte is, guards too.
#[derive(Clone, PartialEq)]
pub struct Station {
    pub state: Lent<u64>,
    pub packet: Lent<u8>,
    pub collecting: Lent<u8>,
}

impl Station {
    /// With these memories, and `more` words of noise than a state needs.
    pub fn new(rng: &mut Prng, more: usize, packet: &[u8], collecting: &[u8]) -> Self {
        Station {
            state: Lent::noise(rng, STATE + more),
            packet: Lent::new(packet),
            collecting: Lent::new(collecting),
        }
    }

    /// With memories of noise: packet memory just long enough, and so many collecting bytes.
    pub fn noise(rng: &mut Prng, more: usize, collecting: usize) -> Self {
        let (packet, collecting) = (rng.bytes(PACKET_MEMORY), rng.bytes(collecting));
        Station::new(rng, more, &packet, &collecting)
    }

    pub fn is_guarded(&self) -> bool {
        self.state.is_guarded() && self.packet.is_guarded() && self.collecting.is_guarded()
    }

    pub fn frame(&mut self, block: &[u8]) -> u8 {
        library::frame(self.state.lend(), block)
    }

    pub fn lost_frame(&mut self) -> u8 {
        library::lost_frame(self.state.lend())
    }

    pub fn slot(&mut self, data: &[u8]) -> u8 {
        let (packet, collecting) = (self.packet.lend(), self.collecting.lend());
        library::slot(self.state.lend(), packet, collecting, data)
    }

    pub fn lost_slot(&mut self) -> u8 {
        let (packet, collecting) = (self.packet.lend(), self.collecting.lend());
        library::lost_slot(self.state.lend(), packet, collecting)
    }

    pub fn next(&mut self, event: &mut [u64]) -> u8 {
        let (packet, collecting) = (self.packet.lend(), self.collecting.lend());
        library::next(self.state.lend(), packet, collecting, event)
    }

    pub fn events(&mut self, events: &mut [u64]) -> (u8, u64) {
        let (packet, collecting) = (self.packet.lend(), self.collecting.lend());
        library::events(self.state.lend(), packet, collecting, events)
    }

    pub fn show(&mut self, event: &[u64], output: &mut [u8]) -> (u8, u64) {
        let (packet, collecting) = (self.packet.lend(), self.collecting.lend());
        library::show(packet, collecting, event, output)
    }
}
