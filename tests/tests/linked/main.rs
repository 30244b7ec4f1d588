//! The proved library beside the second decoder: each call with its answer and both memories, refused calls,
//! copied and damaged states, many events for one call, a capture's text, watch lists, the packer, the cutter.

#[cfg(linked)]
mod calls;
#[cfg(linked)]
mod cases;
#[cfg(linked)]
#[path = "../common/mod.rs"]
mod common;
#[cfg(linked)]
mod copies;
#[cfg(linked)]
mod cutter;
#[cfg(linked)]
mod damaged;
#[cfg(linked)]
mod events;
#[cfg(linked)]
mod lent;
#[cfg(linked)]
mod library;
#[cfg(linked)]
mod memories;
#[cfg(linked)]
mod packer;
#[cfg(linked)]
mod pair;
#[cfg(linked)]
mod records;
#[cfg(linked)]
mod refused;
#[cfg(linked)]
mod shown;
#[cfg(linked)]
mod strays;
#[cfg(linked)]
mod text;
#[cfg(linked)]
mod watching;
#[cfg(linked)]
mod wild;

#[cfg(not(linked))]
#[test]
fn the_library_is_linked() {
    panic!(
        "IXOHUEMIL_LIB is not set: it is the whole path of crates/ixohuemil/out/libixohuemil.a (see .ci/run)"
    );
}
