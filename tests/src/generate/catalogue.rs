//! The catalogue: a capture for each number, family by family in turn.

use super::boundary;
use super::broadcast::{self, Losses};
use super::commands;
use super::damage;
use super::holes;
use super::noise;
use super::prng::Prng;
use super::watching;

pub const FAMILIES: [&str; 13] = [
    "undamaged",
    "slots and frames lost",
    "packets damaged",
    "slots damaged",
    "commands damaged",
    "refusals",
    "joining noise",
    "slot noise",
    "bytes",
    "boundaries of held bytes",
    "packets cut at every byte",
    "holes of 256 pieces",
    "watch lists",
];

pub fn family(number: u64) -> &'static str {
    FAMILIES[(number % FAMILIES.len() as u64) as usize]
}

/// The capture of that number.
pub fn capture(number: u64) -> Vec<u8> {
    let mut rng = Prng::new(number ^ 0xCA7A);
    match number % FAMILIES.len() as u64 {
        0 => broadcast::undamaged(number, 2).capture(),
        1 => {
            let sent = broadcast::undamaged(number, 3);
            let losses = Losses::random(&mut rng, sent.frames.len());
            sent.commands(&losses).concat()
        }
        2 => damage::with_losses(&mut rng, &damage::packets(number, 2)).concat(),
        3 => {
            let mut sent = broadcast::undamaged(number, 2);
            damage::slots(number, &mut sent);
            damage::with_losses(&mut rng, &sent).concat()
        }
        4 => {
            let mut list = broadcast::undamaged(number, 2).commands(&Losses::none(2));
            commands::damage(&mut rng, &mut list);
            list.concat()
        }
        5 => commands::refused(&mut rng).concat(),
        6 => damage::with_losses(&mut rng, &noise::joining(number)).concat(),
        7 => noise::slots(number).concat(),
        8 => noise::bytes(number),
        9 => boundary::held(number / FAMILIES.len() as u64).concat(),
        10 => boundary::cuts(number).capture(),
        11 => {
            let (sent, losses) = holes::broadcast(number);
            sent.commands(&losses).concat()
        }
        _ => watching::commands(number).concat(),
    }
}
