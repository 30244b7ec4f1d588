//! The functions of C linkage that the proved library offers. A slice is a pointer and a length.
//!
//! Both memories are borrowed to be written even where a call only reads them: a test can then see that it
//! wrote nothing.

/// Words of a state, of settings, and of a record.
pub const STATE: usize = 751;
pub const SETTINGS: usize = 32;
pub const RECORD: usize = 24;

/// What a record is, in its word 0.
pub const NOTHING: u64 = 0;
pub const NOTE: u64 = 1;
pub const UNIT: u64 = 2;

extern "C" {
    fn ixohuemil_start(settings: *const u64, n: usize, state: *mut u64, words: usize) -> u8;

    fn ixohuemil_frame(state: *mut u64, words: usize, block: *const u8, n: usize) -> u8;

    fn ixohuemil_lost_frame(state: *mut u64, words: usize) -> u8;

    fn ixohuemil_slot(
        state: *mut u64,
        words: usize,
        packet: *mut u8,
        packet_len: usize,
        collecting: *const u8,
        collecting_len: usize,
        data: *const u8,
        data_len: usize,
    ) -> u8;

    fn ixohuemil_lost_slot(
        state: *mut u64,
        words: usize,
        packet: *const u8,
        packet_len: usize,
        collecting: *const u8,
        collecting_len: usize,
    ) -> u8;

    fn ixohuemil_next(
        state: *mut u64,
        words: usize,
        packet: *const u8,
        packet_len: usize,
        collecting: *mut u8,
        collecting_len: usize,
        event: *mut u64,
        event_words: usize,
    ) -> u8;

    fn ixohuemil_events(
        state: *mut u64,
        words: usize,
        packet: *const u8,
        packet_len: usize,
        collecting: *mut u8,
        collecting_len: usize,
        events: *mut u64,
        events_words: usize,
        count: &mut u64,
    ) -> u8;

    fn ixohuemil_show(
        packet: *const u8,
        packet_len: usize,
        collecting: *const u8,
        collecting_len: usize,
        event: *const u64,
        event_words: usize,
        output: *mut u8,
        output_len: usize,
        len: &mut u64,
    ) -> u8;

    fn ixohuemil_pack(
        unit: *const u64,
        unit_words: usize,
        cid: u16,
        sn: u8,
        m: usize,
        bytes: *const u8,
        bytes_len: usize,
        output: *mut u8,
        output_len: usize,
        len: &mut u64,
    ) -> u8;

    fn ixohuemil_cut(
        run: *const u8,
        run_len: usize,
        l: usize,
        s: usize,
        output: *mut u8,
        output_len: usize,
        top: &mut u16,
        last: &mut u16,
    ) -> u8;

    fn ixohuemil_text(
        capture: *const u8,
        capture_len: usize,
        packet: *mut u8,
        packet_len: usize,
        collecting: *mut u8,
        collecting_len: usize,
        text: *mut u8,
        text_len: usize,
    ) -> u64;
}

pub fn start(settings: &[u64], state: &mut [u64]) -> u8 {
    // SAFETY: the function has no precondition, and is lent each slice whole; no two of them overlap.
    unsafe {
        ixohuemil_start(
            settings.as_ptr(),
            settings.len(),
            state.as_mut_ptr(),
            state.len(),
        )
    }
}

pub fn frame(state: &mut [u64], block: &[u8]) -> u8 {
    // SAFETY: as above.
    unsafe { ixohuemil_frame(state.as_mut_ptr(), state.len(), block.as_ptr(), block.len()) }
}

pub fn lost_frame(state: &mut [u64]) -> u8 {
    // SAFETY: as above.
    unsafe { ixohuemil_lost_frame(state.as_mut_ptr(), state.len()) }
}

pub fn slot(state: &mut [u64], packet: &mut [u8], collecting: &mut [u8], data: &[u8]) -> u8 {
    // SAFETY: as above.
    unsafe {
        ixohuemil_slot(
            state.as_mut_ptr(),
            state.len(),
            packet.as_mut_ptr(),
            packet.len(),
            collecting.as_mut_ptr(),
            collecting.len(),
            data.as_ptr(),
            data.len(),
        )
    }
}

pub fn lost_slot(state: &mut [u64], packet: &mut [u8], collecting: &mut [u8]) -> u8 {
    // SAFETY: as above.
    unsafe {
        ixohuemil_lost_slot(
            state.as_mut_ptr(),
            state.len(),
            packet.as_mut_ptr(),
            packet.len(),
            collecting.as_mut_ptr(),
            collecting.len(),
        )
    }
}

/// The next event, as a record in `event`.
pub fn next(state: &mut [u64], packet: &mut [u8], collecting: &mut [u8], event: &mut [u64]) -> u8 {
    // SAFETY: as above.
    unsafe {
        ixohuemil_next(
            state.as_mut_ptr(),
            state.len(),
            packet.as_mut_ptr(),
            packet.len(),
            collecting.as_mut_ptr(),
            collecting.len(),
            event.as_mut_ptr(),
            event.len(),
        )
    }
}

/// Events, as records in `events`; the refusal, or 0, and what their number, `LEN` before the call, then is.
pub fn events(
    state: &mut [u64],
    packet: &mut [u8],
    collecting: &mut [u8],
    events: &mut [u64],
) -> (u8, u64) {
    let mut count = LEN;
    // SAFETY: as above.
    let refusal = unsafe {
        ixohuemil_events(
            state.as_mut_ptr(),
            state.len(),
            packet.as_mut_ptr(),
            packet.len(),
            collecting.as_mut_ptr(),
            collecting.len(),
            events.as_mut_ptr(),
            events.len(),
            &mut count,
        )
    };
    (refusal, count)
}

/// The bytes of a record's place, to `output`; the refusal, or 0, and what their number, `LEN` before the
/// call, then is.
pub fn show(
    packet: &mut [u8],
    collecting: &mut [u8],
    event: &[u64],
    output: &mut [u8],
) -> (u8, u64) {
    let mut len = LEN;
    // SAFETY: as above.
    let refusal = unsafe {
        ixohuemil_show(
            packet.as_mut_ptr(),
            packet.len(),
            collecting.as_mut_ptr(),
            collecting.len(),
            event.as_ptr(),
            event.len(),
            output.as_mut_ptr(),
            output.len(),
            &mut len,
        )
    };
    (refusal, len)
}

/// Reads a whole capture, and writes its lines to `text`; how many bytes of text there are.
pub fn text(capture: &[u8], packet: &mut [u8], collecting: &mut [u8], text: &mut [u8]) -> u64 {
    // SAFETY: as above.
    unsafe {
        ixohuemil_text(
            capture.as_ptr(),
            capture.len(),
            packet.as_mut_ptr(),
            packet.len(),
            collecting.as_mut_ptr(),
            collecting.len(),
            text.as_mut_ptr(),
            text.len(),
        )
    }
}

/// What the numbers that are lent for an answer hold before the call: no length or pointer of an
/// accepted one.
pub const LEN: u64 = 0xDEAD_BEEF_DEAD_BEEF;
pub const TOP: u16 = 0xBEEF;
pub const LAST: u16 = 0xCAFE;

/// Packs the unit of a record; the refusal, or 0, and what the length, `LEN` before the call, then is.
pub fn pack(
    unit: &[u64],
    cid: u16,
    sn: u8,
    m: usize,
    bytes: &[u8],
    output: &mut [u8],
) -> (u8, u64) {
    let mut len = LEN;
    // SAFETY: as above.
    let refusal = unsafe {
        ixohuemil_pack(
            unit.as_ptr(),
            unit.len(),
            cid,
            sn,
            m,
            bytes.as_ptr(),
            bytes.len(),
            output.as_mut_ptr(),
            output.len(),
            &mut len,
        )
    };
    (refusal, len)
}

/// Cuts slot `s`; the refusal, or 0, and what the pointers, `TOP` and `LAST` before the call, then are.
pub fn cut(run: &[u8], l: usize, s: usize, output: &mut [u8]) -> (u8, u16, u16) {
    let (mut top, mut last) = (TOP, LAST);
    // SAFETY: as above.
    let refusal = unsafe {
        ixohuemil_cut(
            run.as_ptr(),
            run.len(),
            l,
            s,
            output.as_mut_ptr(),
            output.len(),
            &mut top,
            &mut last,
        )
    };
    (refusal, top, last)
}
