//! Watch lists of every length and in every order, beside many packets that only their packet_id keeps from
//! being read: a neighbour of a watched one, an end of the numbers, an id that stands behind n in C.

use super::broadcast::{assemble, capacity, Broadcast};
use super::commands::Commands;
use super::damage::with_losses;
use super::layout::full_frame_of;
use super::prng::Prng;
use super::sender::{Config, Sender};
use crate::packets::MAX_IDS;

const FRAMES: usize = 2;

/// The packet_ids of C: those that are watched, in the order given, and those behind n, 16 in all.
pub struct List {
    pub ids: Vec<u16>,
    pub behind: Vec<u16>,
}

impl List {
    pub fn random(rng: &mut Prng) -> Self {
        let any = rng.range(1, MAX_IDS);
        let n = rng.pick(&[any, any, MAX_IDS]);
        let mut ids = rising(rng, n);
        arrange(rng, &mut ids);
        List::of(rng, &ids)
    }

    /// These watched ids, and any behind n: some watched ones again, most of them not watched.
    pub fn of(rng: &mut Prng, ids: &[u16]) -> Self {
        let mut list = List {
            ids: ids.to_vec(),
            behind: Vec::new(),
        };
        while list.all().len() < MAX_IDS {
            let id = if rng.chance(1, 4) {
                rng.pick(ids)
            } else {
                list.unwatched(rng)
            };
            list.behind.push(id);
        }
        list
    }

    /// All of C's ids.
    pub fn all(&self) -> Vec<u16> {
        [&self.ids[..], &self.behind].concat()
    }

    /// An id that is not watched, though it nearly is.
    pub fn unwatched(&self, rng: &mut Prng) -> u16 {
        loop {
            let (near, any) = (rng.pick(&self.ids), rng.u16());
            let id = match rng.below(8) {
                0 | 1 => near.wrapping_sub(1),
                2 | 3 => near.wrapping_add(1),
                4 if !self.behind.is_empty() => rng.pick(&self.behind),
                5 => rng.pick(&[0, 0x7FFF, 0x8000, 0xFFFF]),
                6 => rng.pick(&[near ^ 0x8000, near ^ 0x0100, near.swap_bytes()]),
                _ => any,
            };
            if !self.ids.contains(&id) {
                return id;
            }
        }
    }
}

/// So many different ids, rising: next to each other, with gaps, or anywhere; often at the ends of the
/// numbers, and where their top bit changes.
fn rising(rng: &mut Prng, n: usize) -> Vec<u16> {
    let any = rng.u16();
    let from = rng.pick(&[0, 0x7FF9, 0u16.wrapping_sub(n as u16), any]);
    let step = rng.pick(&[1, 1, 2, 2, 0x100, 0x1000]);
    let in_steps = rng.chance(1, 2);
    let mut ids = Vec::with_capacity(n);
    while ids.len() < n {
        let any = rng.u16();
        let id = if in_steps {
            from.wrapping_add(step * ids.len() as u16)
        } else {
            rng.pick(&[0, 1, 0x7FFF, 0x8000, 0xFFFE, 0xFFFF, any, any, any, any])
        };
        if !ids.contains(&id) {
            ids.push(id);
        }
    }
    ids.sort_unstable();
    ids
}

/// Leaves rising ids as they are, turns them round, moves some or one of them, or mixes them.
fn arrange(rng: &mut Prng, ids: &mut Vec<u16>) {
    let (one, other) = (rng.below(ids.len()), rng.below(ids.len()));
    match rng.below(8) {
        0 => {}
        1 => ids.reverse(),
        2 => ids.rotate_left(one),
        3 => {
            let id = ids.remove(one);
            ids.insert(other, id);
        }
        _ => rng.shuffle(ids),
    }
}

/// A broadcast to a receiver with such a list, and the list. Nine packets in ten are not watched, or a half.
pub fn broadcast(seed: u64) -> (Broadcast, List) {
    let mut rng = Prng::new(seed);
    let list = List::random(&mut rng);
    let most = 65_536 / list.ids.len();
    let config = Config {
        stream_id: rng.u16(),
        cid: rng.u16() & 0xFFF,
        ids: list.ids.clone(),
        joined_max: rng.pick(&[most, 300, 40]).min(most) as u32,
    };
    let frame = |_| full_frame_of(&mut rng, config.stream_id, &[(0x11, 120)]);
    let plans: Vec<_> = (0..FRAMES).map(frame).collect();
    let mut sender = Sender::new(Prng::new(seed ^ 0x3A7C), config);
    let unwatched = rng.pick(&[9, 9, 1]);
    while sender.len < capacity(&plans) {
        for _ in 0..unwatched {
            sender.stranger(list.unwatched(&mut rng));
        }
        sender.speak(rng.below(list.ids.len()));
    }
    let Sender {
        config,
        items,
        units,
        ..
    } = sender;
    let sent = assemble(&mut rng, config, plans, 0, &items, units);
    (sent, list)
}

/// The commands of such a broadcast, with or without losses; the ids behind n stand in C.
pub fn commands(seed: u64) -> Commands {
    let (sent, list) = broadcast(seed);
    let mut out = with_losses(&mut Prng::new(seed ^ 0x1057), &sent);
    for (place, id) in out[0][6..].chunks_exact_mut(2).zip(list.all()) {
        place.copy_from_slice(&id.to_be_bytes());
    }
    out
}
