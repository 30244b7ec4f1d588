//! The functions of C linkage, as include/ixohuemil.h declares them. A slice is a pointer and its length.

pub const STATE_WORDS: usize = 751;
pub const SETTINGS_WORDS: usize = 32;
pub const EVENT_WORDS: usize = 24;
pub const PACKET_BYTES: usize = 21_433;

pub const NOTHING_WAITS: u64 = 0;
pub const NOTE: u64 = 1;
pub const UNIT: u64 = 2;
pub const IN_PACKET_MEMORY: u64 = 0;

/// What start is told, by words.
pub type SettingsRecord = [u64; SETTINGS_WORDS];
/// An event, by words.
pub type Record = [u64; EVENT_WORDS];

extern "C" {
    pub fn ixohuemil_start(settings: *const u64, settings_words: usize, state: *mut u64, state_words: usize) -> u8;
    pub fn ixohuemil_frame(state: *mut u64, state_words: usize, block: *const u8, block_bytes: usize) -> u8;
    pub fn ixohuemil_lost_frame(state: *mut u64, state_words: usize) -> u8;
    pub fn ixohuemil_slot(
        state: *mut u64,
        state_words: usize,
        packet: *mut u8,
        packet_bytes: usize,
        collecting: *const u8,
        collecting_bytes: usize,
        data: *const u8,
        data_bytes: usize,
    ) -> u8;
    pub fn ixohuemil_lost_slot(
        state: *mut u64,
        state_words: usize,
        packet: *const u8,
        packet_bytes: usize,
        collecting: *const u8,
        collecting_bytes: usize,
    ) -> u8;
    pub fn ixohuemil_next(
        state: *mut u64,
        state_words: usize,
        packet: *const u8,
        packet_bytes: usize,
        collecting: *mut u8,
        collecting_bytes: usize,
        event: *mut u64,
        event_words: usize,
    ) -> u8;
    pub fn ixohuemil_events(
        state: *mut u64,
        state_words: usize,
        packet: *const u8,
        packet_bytes: usize,
        collecting: *mut u8,
        collecting_bytes: usize,
        events: *mut u64,
        events_words: usize,
        count: *mut u64,
    ) -> u8;
    pub fn ixohuemil_pack(
        unit: *const u64,
        unit_words: usize,
        cid: u16,
        sn: u8,
        m: usize,
        bytes: *const u8,
        bytes_length: usize,
        output: *mut u8,
        output_bytes: usize,
        length: *mut u64,
    ) -> u8;
    pub fn ixohuemil_cut(
        run: *const u8,
        run_bytes: usize,
        l: usize,
        s: usize,
        output: *mut u8,
        output_bytes: usize,
        top: *mut u16,
        last: *mut u16,
    ) -> u8;
    pub fn ixohuemil_text(
        capture: *const u8,
        capture_bytes: usize,
        packet: *mut u8,
        packet_bytes: usize,
        collecting: *mut u8,
        collecting_bytes: usize,
        text: *mut u8,
        text_bytes: usize,
    ) -> u64;
}
