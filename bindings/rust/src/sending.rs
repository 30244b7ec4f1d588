//! The packer and the cutter: a unit to TLV packets, and a run of packets to slots.

use crate::link::{ixohuemil_cut, ixohuemil_pack};
use crate::{Refusal, Unit};

/// Packs a unit into TLV packets, from the front of `output`; how many bytes they are. `cid` is the flow's, `sn` the sequence
/// number of the first compressed header, `m` the most bytes of a piece; a unit may have 65,535 pieces. Refused with 70 to
/// 74, `output` as it was.
///
/// ```
/// use ixohuemil::{pack, Kind, Refusal, Unit};
/// let unit = Unit { packet_id: 0x0100, kind: Kind::NonTimedMfu, item: 9, bytes: b"a caption", ..Unit::default() };
/// let mut output = [0; 100];
/// let whole = pack(&unit, 2, 0, 1400, &mut output).unwrap();
/// assert_eq!(output[..3], [0x7F, 3, 0]);
/// assert_eq!(&output[whole - 9..whole], b"a caption");
/// // Two pieces take two packets.
/// assert!(pack(&unit, 2, 0, 5, &mut output).unwrap() > whole);
/// assert_eq!(pack(&unit, 2, 0, 0, &mut output), Err(Refusal::PieceSize));
/// assert_eq!(pack(&unit, 2, 0, 1400, &mut []), Err(Refusal::PackOutput));
/// ```
pub fn pack(unit: &Unit<'_>, cid: u16, sn: u8, m: usize, output: &mut [u8]) -> Result<usize, Refusal> {
    let record = unit.record();
    let mut length = 0;
    // SAFETY: each slice is lent whole, and what is written overlaps nothing else.
    let answer = unsafe {
        ixohuemil_pack(
            record.as_ptr(),
            record.len(),
            cid,
            sn,
            m,
            unit.bytes.as_ptr(),
            unit.bytes.len(),
            output.as_mut_ptr(),
            output.len(),
            &mut length,
        )
    };
    Refusal::of_answer(answer).map(|()| length as usize)
}

/// The pointers that a control block has for a slot; 0xFFFF is none.
#[derive(Clone, Copy, Debug, PartialEq, Eq, Hash)]
pub struct Pointers {
    /// Where the first packet starts that starts in the slot.
    pub top: u16,
    /// One past the last byte of the last packet that ends in the slot.
    pub last: u16,
}

/// Copies slot `s`, from 0, of a run of TLV packets to `output`, with slots of `l` bytes, and gives its pointers. Refused with 75
/// to 78, `output` as it was.
///
/// ```
/// use ixohuemil::{cut, Refusal};
/// // One null packet of two slots' length.
/// let mut run = vec![0; 3740];
/// run[..4].copy_from_slice(&[0x7F, 0xFF, 0x0E, 0x98]);
/// let mut output = vec![1; 1870];
/// let second = cut(&run, 1870, 1, &mut output).unwrap();
/// assert_eq!((second.top, second.last), (0xFFFF, 1870));
/// assert_eq!(output, run[1870..]);
/// assert_eq!(cut(&run, 1870, 2, &mut output), Err(Refusal::CutEnd));
/// assert_eq!(cut(&run, 1871, 0, &mut output), Err(Refusal::CutLength));
/// ```
pub fn cut(run: &[u8], l: usize, s: usize, output: &mut [u8]) -> Result<Pointers, Refusal> {
    let mut pointers = Pointers { top: 0, last: 0 };
    // SAFETY: each slice is lent whole, and what is written overlaps nothing else.
    let answer = unsafe {
        ixohuemil_cut(run.as_ptr(), run.len(), l, s, output.as_mut_ptr(), output.len(), &mut pointers.top, &mut pointers.last)
    };
    Refusal::of_answer(answer).map(|()| pointers)
}
