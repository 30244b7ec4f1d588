//! The functions of C linkage that are measured. A slice is a pointer and a length.

/// Words of a state, of settings, and of a record.
pub const STATE: usize = 751;
pub const SETTINGS: usize = 32;
pub const RECORD: usize = 24;

extern "C" {
    fn ixohuemil_start(settings: *const u64, n: usize, state: *mut u64, words: usize) -> u8;

    fn ixohuemil_frame(state: *mut u64, words: usize, block: *const u8, n: usize) -> u8;

    fn ixohuemil_lost_frame(state: *mut u64, words: usize) -> u8;

    fn ixohuemil_slot(
        state: *mut u64,
        words: usize,
        packet: *mut u8,
        packet_len: usize,
        collecting: *const u8,
        collecting_len: usize,
        data: *const u8,
        data_len: usize,
    ) -> u8;

    fn ixohuemil_lost_slot(
        state: *mut u64,
        words: usize,
        packet: *const u8,
        packet_len: usize,
        collecting: *const u8,
        collecting_len: usize,
    ) -> u8;

    fn ixohuemil_events(
        state: *mut u64,
        words: usize,
        packet: *const u8,
        packet_len: usize,
        collecting: *mut u8,
        collecting_len: usize,
        events: *mut u64,
        events_words: usize,
        count: &mut u64,
    ) -> u8;

    fn ixohuemil_pack(
        unit: *const u64,
        unit_words: usize,
        cid: u16,
        sn: u8,
        m: usize,
        bytes: *const u8,
        bytes_len: usize,
        output: *mut u8,
        output_len: usize,
        len: &mut u64,
    ) -> u8;

    fn ixohuemil_text(
        capture: *const u8,
        capture_len: usize,
        packet: *mut u8,
        packet_len: usize,
        collecting: *mut u8,
        collecting_len: usize,
        text: *mut u8,
        text_len: usize,
    ) -> u64;
}

pub fn start(settings: &[u64], state: &mut [u64]) -> u8 {
    // SAFETY: each pointer comes with its length, nothing is kept, and no two of them overlap.
    unsafe {
        ixohuemil_start(
            settings.as_ptr(),
            settings.len(),
            state.as_mut_ptr(),
            state.len(),
        )
    }
}

pub fn frame(state: &mut [u64], block: &[u8]) -> u8 {
    // SAFETY: as above.
    unsafe { ixohuemil_frame(state.as_mut_ptr(), state.len(), block.as_ptr(), block.len()) }
}

pub fn lost_frame(state: &mut [u64]) -> u8 {
    // SAFETY: as above.
    unsafe { ixohuemil_lost_frame(state.as_mut_ptr(), state.len()) }
}

#[inline(always)]
pub fn slot(state: &mut [u64], packet: &mut [u8], collecting: &[u8], data: &[u8]) -> u8 {
    // SAFETY: as above.
    unsafe {
        ixohuemil_slot(
            state.as_mut_ptr(),
            state.len(),
            packet.as_mut_ptr(),
            packet.len(),
            collecting.as_ptr(),
            collecting.len(),
            data.as_ptr(),
            data.len(),
        )
    }
}

pub fn lost_slot(state: &mut [u64], packet: &[u8], collecting: &[u8]) -> u8 {
    // SAFETY: as above.
    unsafe {
        ixohuemil_lost_slot(
            state.as_mut_ptr(),
            state.len(),
            packet.as_ptr(),
            packet.len(),
            collecting.as_ptr(),
            collecting.len(),
        )
    }
}

/// How many records were written, or the refusal.
#[inline(always)]
pub fn events(
    state: &mut [u64],
    packet: &[u8],
    collecting: &mut [u8],
    events: &mut [u64],
) -> Result<usize, u8> {
    let mut count = 0;
    // SAFETY: as above.
    let refusal = unsafe {
        ixohuemil_events(
            state.as_mut_ptr(),
            state.len(),
            packet.as_ptr(),
            packet.len(),
            collecting.as_mut_ptr(),
            collecting.len(),
            events.as_mut_ptr(),
            events.len(),
            &mut count,
        )
    };
    match refusal {
        0 => Ok(count as usize),
        number => Err(number),
    }
}

/// How many bytes of packets the unit of a record comes to in pieces of `m`, or the refusal.
pub fn pack(
    unit: &[u64],
    cid: u16,
    sn: u8,
    m: usize,
    bytes: &[u8],
    output: &mut [u8],
) -> Result<usize, u8> {
    let mut len = 0;
    // SAFETY: as above.
    let refusal = unsafe {
        ixohuemil_pack(
            unit.as_ptr(),
            unit.len(),
            cid,
            sn,
            m,
            bytes.as_ptr(),
            bytes.len(),
            output.as_mut_ptr(),
            output.len(),
            &mut len,
        )
    };
    match refusal {
        0 => Ok(len as usize),
        number => Err(number),
    }
}

/// The proved decoder writes the capture's text to `text`; how many bytes it has.
pub fn text(capture: &[u8], packet: &mut [u8], collecting: &mut [u8], text: &mut [u8]) -> usize {
    // SAFETY: as above.
    let len = unsafe {
        ixohuemil_text(
            capture.as_ptr(),
            capture.len(),
            packet.as_mut_ptr(),
            packet.len(),
            collecting.as_mut_ptr(),
            collecting.len(),
            text.as_mut_ptr(),
            text.len(),
        )
    };
    len as usize
}
