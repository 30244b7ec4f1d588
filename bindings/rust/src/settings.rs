//! What a receiver is started with.

use crate::link::{SettingsRecord, SETTINGS_WORDS};

/// What a receiver is started with. Later versions may have more fields.
#[derive(Clone, Debug, PartialEq, Eq, Hash)]
#[non_exhaustive]
pub struct Settings {
    /// The id of the TLV stream.
    pub stream_id: u16,
    /// The context id (CID) of the compressed IP flow, at most 4,095.
    pub cid: u16,
    /// The packet_ids that are watched: 1 to 16, none twice.
    pub packet_ids: Vec<u16>,
    /// R, the most bytes of a joined unit: 1 to 1,048,576. A receiver has so many bytes of memory for each packet_id.
    pub limit: u32,
}

impl Settings {
    /// These settings. They are tested by [`Receiver::new`](crate::Receiver::new).
    ///
    /// ```
    /// use ixohuemil::{Receiver, Refusal, Settings};
    /// let settings = Settings::new(1, 2, [0x0100, 0x0101], 65_536);
    /// assert_eq!(settings.packet_ids, [0x0100, 0x0101]);
    /// assert!(Receiver::new(&settings).is_ok());
    /// let twice = Settings::new(1, 2, [5, 5], 65_536);
    /// assert_eq!(Receiver::new(&twice).err(), Some(Refusal::IdTwice));
    /// ```
    pub fn new(stream_id: u16, cid: u16, packet_ids: impl Into<Vec<u16>>, limit: u32) -> Settings {
        Settings { stream_id, cid, packet_ids: packet_ids.into(), limit }
    }

    /// The library's record. It has room for 16 packet_ids; more are told by their number, which is refused.
    pub(crate) fn record(&self) -> SettingsRecord {
        let mut record = [0; SETTINGS_WORDS];
        record[0] = self.stream_id.into();
        record[1] = self.cid.into();
        record[2] = self.packet_ids.len() as u64;
        record[3] = self.limit.into();
        for (word, &id) in record[4..20].iter_mut().zip(&self.packet_ids) {
            *word = id.into();
        }
        record
    }
}
