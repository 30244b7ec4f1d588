//! Generators of captures: undamaged broadcasts with what they carry, damage, boundary cases, noise.

pub mod boundary;
pub mod broadcast;
pub mod catalogue;
pub mod commands;
pub mod damage;
pub mod holes;
pub mod layout;
pub mod noise;
pub mod packet;
pub mod prng;
pub mod sender;
pub mod watching;
