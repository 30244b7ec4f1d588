//! The receiver, with the memories that it owns.

use std::fmt;

use crate::link::{self, Record};
use crate::{Event, Refusal, Settings, BLOCK_BYTES};

/// Records that one call may write.
const ROOM: usize = 64;

/// A receiver. It owns its memories: 21,433 bytes of packet memory, and the limit R for each watched packet_id. A clone goes on
/// from where it was made.
#[derive(Clone)]
pub struct Receiver {
    state: Box<[u64; link::STATE_WORDS]>,
    packet: Box<[u8]>,
    collecting: Box<[u8]>,
    /// Events that the library has given: those from `given` up to `count` have not been handed on.
    records: Box<[Record]>,
    given: usize,
    count: usize,
}

impl Receiver {
    /// A fresh receiver, or refusals 1 to 4.
    ///
    /// ```
    /// use ixohuemil::{Receiver, Refusal, Settings};
    /// assert!(Receiver::new(&Settings::new(1, 2, [7], 100)).is_ok());
    /// assert_eq!(Receiver::new(&Settings::new(1, 2, [0; 17], 100)).err(), Some(Refusal::Count));
    /// assert_eq!(Receiver::new(&Settings::new(1, 4096, [7], 100)).err(), Some(Refusal::Cid));
    /// ```
    pub fn new(settings: &Settings) -> Result<Receiver, Refusal> {
        let record = settings.record();
        let mut state = Box::new([0; link::STATE_WORDS]);
        // SAFETY: both slices are lent whole, and do not overlap.
        let answer = unsafe { link::ixohuemil_start(record.as_ptr(), record.len(), state.as_mut_ptr(), state.len()) };
        Refusal::of_answer(answer)?;
        Ok(Receiver {
            state,
            packet: vec![0; link::PACKET_BYTES].into(),
            collecting: vec![0; settings.packet_ids.len() * settings.limit as usize].into(),
            records: vec![[0; link::EVENT_WORDS]; ROOM].into(),
            given: 0,
            count: 0,
        })
    }

    /// Begins a frame by its control block of 1,178 bytes; its 120 slots are then due. Refused with 10 to 14.
    pub fn frame(&mut self, block: &[u8]) -> Result<(), Refusal> {
        if block.len() == BLOCK_BYTES {
            self.handed_on().or(Err(Refusal::FrameNotRead))?;
        }
        // SAFETY: the state and the block are lent whole, and do not overlap.
        Refusal::of_answer(unsafe {
            link::ixohuemil_frame(self.state.as_mut_ptr(), self.state.len(), block.as_ptr(), block.len())
        })
    }

    /// Counts a frame as lost, with all its slots. Refused with 11.
    pub fn lost_frame(&mut self) -> Result<(), Refusal> {
        self.handed_on().or(Err(Refusal::FrameNotRead))?;
        // SAFETY: the state is lent whole.
        Refusal::of_answer(unsafe { link::ixohuemil_lost_frame(self.state.as_mut_ptr(), self.state.len()) })
    }

    /// Gives the slot that is due: dummy slots, which have no bytes, and other streams' slots too. Refused with 20, 21, 23.
    pub fn slot(&mut self, data: &[u8]) -> Result<(), Refusal> {
        self.slot_may_come()?;
        // SAFETY: each memory is lent whole; the receiver owns all but `data`, and none overlaps another.
        Refusal::of_answer(unsafe {
            link::ixohuemil_slot(
                self.state.as_mut_ptr(),
                self.state.len(),
                self.packet.as_mut_ptr(),
                self.packet.len(),
                self.collecting.as_ptr(),
                self.collecting.len(),
                data.as_ptr(),
                data.len(),
            )
        })
    }

    /// Counts the slot that is due as lost. Refused with 20, 21.
    pub fn lost_slot(&mut self) -> Result<(), Refusal> {
        self.slot_may_come()?;
        Refusal::of_answer(self.lose_slot(self.packet.len()))
    }

    /// The next event; none once nothing waits. A unit's bytes are lent until the next call on the receiver.
    ///
    /// ```
    /// # use ixohuemil::{Receiver, Refusal, Settings};
    /// # let mut receiver = Receiver::new(&Settings::new(1, 2, [7], 100))?;
    /// receiver.lost_frame()?;
    /// // Events are owed now, though there are none.
    /// assert_eq!(receiver.lost_frame(), Err(Refusal::FrameNotRead));
    /// while let Some(event) = receiver.next_event() {
    ///     println!("{event:?}");
    /// }
    /// assert_eq!(receiver.lost_frame(), Ok(()));
    /// # Ok::<(), Refusal>(())
    /// ```
    pub fn next_event(&mut self) -> Option<Event<'_>> {
        if self.given == self.count {
            self.call_next();
        }
        let record = &self.records[self.given];
        self.given += 1;
        Event::of_record(record, &self.packet, &self.collecting)
    }

    /// The next events, as many as can be lent together; none once nothing waits. The library writes up to 64 of them in one
    /// call. It ends early behind a joined unit, whose bytes a later packet may overwrite: so call it until there are none.
    /// Events that are not taken wait for the next call.
    ///
    /// ```
    /// # use ixohuemil::{Receiver, Settings};
    /// # let mut receiver = Receiver::new(&Settings::new(1, 2, [7], 100))?;
    /// receiver.lost_frame()?;
    /// loop {
    ///     let events = receiver.events();
    ///     if events.len() == 0 {
    ///         break;
    ///     }
    ///     for event in events {
    ///         println!("{event:?}");
    ///     }
    /// }
    /// assert_eq!(receiver.lost_frame(), Ok(()));
    /// # Ok::<(), ixohuemil::Refusal>(())
    /// ```
    pub fn events(&mut self) -> Events<'_> {
        if self.given == self.count {
            self.call_events();
        }
        Events {
            records: &self.records[self.given..self.count],
            given: &mut self.given,
            packet: &self.packet,
            collecting: &self.collecting,
        }
    }

    /// Reads all events until nothing waits.
    ///
    /// ```
    /// # use ixohuemil::{Receiver, Settings};
    /// # let mut receiver = Receiver::new(&Settings::new(1, 2, [7], 100))?;
    /// receiver.lost_frame()?;
    /// let mut count = 0;
    /// receiver.read_events(|_event| count += 1);
    /// assert_eq!((count, receiver.lost_frame()), (0, Ok(())));
    /// # Ok::<(), ixohuemil::Refusal>(())
    /// ```
    pub fn read_events(&mut self, mut take: impl FnMut(Event<'_>)) {
        loop {
            let events = self.events();
            if events.len() == 0 {
                return;
            }
            events.for_each(&mut take);
        }
    }
}

impl Receiver {
    /// Whether all events that the library has given were handed on. Until then the caller owes to read them.
    fn handed_on(&self) -> Result<(), Refusal> {
        if self.given == self.count {
            Ok(())
        } else {
            Err(Refusal::EventsWait)
        }
    }

    /// Tests that all events were handed on, behind 20 as the library does.
    fn slot_may_come(&mut self) -> Result<(), Refusal> {
        self.handed_on().map_err(|wait| {
            // Without packet memory a lost slot is refused in any case, with 20 before all else: so nothing changes.
            let due = Refusal::of_answer(self.lose_slot(0)) != Err(Refusal::NoSlotDue);
            if due {
                wait
            } else {
                Refusal::NoSlotDue
            }
        })
    }

    /// The call of a lost slot, lending so many bytes of packet memory.
    fn lose_slot(&mut self, packet_bytes: usize) -> u8 {
        let packet = &self.packet[..packet_bytes];
        // SAFETY: each memory is lent as long as it is or shorter, and none overlaps another.
        unsafe {
            link::ixohuemil_lost_slot(
                self.state.as_mut_ptr(),
                self.state.len(),
                packet.as_ptr(),
                packet.len(),
                self.collecting.as_ptr(),
                self.collecting.len(),
            )
        }
    }

    /// One event to the first record.
    fn call_next(&mut self) {
        // SAFETY: each memory is lent whole, and none overlaps another.
        let answer = unsafe {
            link::ixohuemil_next(
                self.state.as_mut_ptr(),
                self.state.len(),
                self.packet.as_ptr(),
                self.packet.len(),
                self.collecting.as_mut_ptr(),
                self.collecting.len(),
                self.records.as_flattened_mut().as_mut_ptr(),
                link::EVENT_WORDS,
            )
        };
        assert_eq!(answer, 0, "the memories have the lengths that they need");
        (self.given, self.count) = (0, 1);
    }

    /// Events to the records.
    fn call_events(&mut self) {
        let mut count = 0;
        let records = self.records.as_flattened_mut();
        // SAFETY: each memory is lent whole, and none overlaps another.
        let answer = unsafe {
            link::ixohuemil_events(
                self.state.as_mut_ptr(),
                self.state.len(),
                self.packet.as_ptr(),
                self.packet.len(),
                self.collecting.as_mut_ptr(),
                self.collecting.len(),
                records.as_mut_ptr(),
                records.len(),
                &mut count,
            )
        };
        assert_eq!(answer, 0, "the memories have the lengths that they need");
        (self.given, self.count) = (0, count as usize);
    }
}

impl fmt::Debug for Receiver {
    fn fmt(&self, f: &mut fmt::Formatter<'_>) -> fmt::Result {
        f.debug_struct("Receiver").finish_non_exhaustive()
    }
}

/// Events that are lent together, by [`Receiver::events`]. Those that are not taken wait for the next call.
pub struct Events<'a> {
    records: &'a [Record],
    given: &'a mut usize,
    packet: &'a [u8],
    collecting: &'a [u8],
}

impl<'a> Iterator for Events<'a> {
    type Item = Event<'a>;

    fn next(&mut self) -> Option<Event<'a>> {
        let (record, rest) = self.records.split_first()?;
        self.records = rest;
        *self.given += 1;
        Event::of_record(record, self.packet, self.collecting)
    }

    fn size_hint(&self) -> (usize, Option<usize>) {
        (self.records.len(), Some(self.records.len()))
    }
}

impl ExactSizeIterator for Events<'_> {}

impl fmt::Debug for Events<'_> {
    fn fmt(&self, f: &mut fmt::Formatter<'_>) -> fmt::Result {
        f.debug_struct("Events").field("left", &self.len()).finish_non_exhaustive()
    }
}
