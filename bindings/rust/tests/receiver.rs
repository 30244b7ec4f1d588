//! The receiver through the binding: units and their bytes, order of calls, refusals, clones.

use ixohuemil::{cut, pack, Event, Kind, Note, Pointers, Receiver, Refusal, Settings, Unit, BLOCK_BYTES, FRAME_SLOTS};

/// Bytes of a slot of BPSK 1/3.
const SLOT: usize = 1870;
const CID: u16 = 2;

/// A frame of 120 slots of BPSK 1/3, of which the first of each five is live: its control block and slots.
struct Frame {
    block: Vec<u8>,
    slots: Vec<Vec<u8>>,
}

/// A frame whose live slots hold a run of packets, padded with a null packet.
fn frame(mut run: Vec<u8>) -> Frame {
    let live = FRAME_SLOTS / 5;
    assert!(run.len() + 4 <= live * SLOT);
    while run.len() < live * SLOT {
        let left = live * SLOT - run.len();
        let null = if left > 8000 { 4000 } else { left };
        run.extend([0x7F, 0xFF, ((null - 4) >> 8) as u8, (null - 4) as u8]);
        run.extend(vec![0; null - 4]);
    }
    let mut frame = Frame { block: vec![0; BLOCK_BYTES], slots: vec![Vec::new(); FRAME_SLOTS] };
    frame.block[1..4].copy_from_slice(&[0x11, 120, 0]);
    for mode in 1..8 {
        frame.block[1 + 3 * mode] = 0xFF;
    }
    frame.block[25] = 2;
    frame.block[693..695].copy_from_slice(&1u16.to_be_bytes());
    for s in 0..live {
        let mut data = vec![0; SLOT];
        let Pointers { top, last } = cut(&run, SLOT, s, &mut data).unwrap();
        let at = 153 + 4 * 5 * s;
        frame.block[at..at + 4].copy_from_slice(&[top.to_be_bytes(), last.to_be_bytes()].concat());
        frame.slots[5 * s] = data;
    }
    frame
}

/// Units of 30 to 700 bytes, of three packet_ids in turn: psn and bytes are theirs alone.
fn contents() -> Vec<Vec<u8>> {
    (0..40usize).map(|k| (0..30 + 17 * k).map(|place| (7 * k + 3 * place) as u8).collect()).collect()
}

/// The units of these contents, each of pieces of `m` bytes, and their packets.
fn sent(contents: &[Vec<u8>], m: usize) -> (Vec<Unit<'_>>, Vec<u8>) {
    let (mut units, mut run, mut psn) = (Vec::new(), Vec::new(), [u32::MAX - 3, 5, 900]);
    for (k, bytes) in contents.iter().enumerate() {
        let kind = [Kind::Signalling, Kind::TimedMfu, Kind::NonTimedMfu][k % 3];
        let mut unit = Unit { packet_id: 256 + (k % 3) as u16, kind, psn: psn[k % 3], bytes, ..Unit::default() };
        if kind != Kind::Signalling {
            unit.mpu = 70_000 + k as u32;
        }
        if kind == Kind::TimedMfu {
            (unit.movie_fragment, unit.sample, unit.offset) = (1 + k as u32, u32::MAX - k as u32, 77);
            (unit.priority, unit.dependency) = (k as u8, 255 - k as u8);
        }
        if kind == Kind::NonTimedMfu {
            unit.item = 0xFFFF_0000 + k as u32;
        }
        let mut packets = vec![0; 200_000];
        let length = pack(&unit, CID, k as u8, m, &mut packets).unwrap();
        run.extend(&packets[..length]);
        psn[k % 3] = psn[k % 3].wrapping_add(bytes.len().div_ceil(m) as u32);
        units.push(unit);
    }
    (units, run)
}

fn receiver() -> Receiver {
    Receiver::new(&Settings::new(1, CID, [256, 257, 258], 1000)).unwrap()
}

/// What an event says, with a copy of a unit's bytes.
#[derive(Clone, Debug, PartialEq)]
enum Seen {
    Note(Note),
    Unit(String, Vec<u8>),
}

fn seen(event: Event<'_>) -> Seen {
    match event {
        Event::Note(note) => Seen::Note(note),
        Event::Unit(unit) => Seen::Unit(format!("{:?}", Unit { bytes: &[], ..unit }), unit.bytes.to_vec()),
    }
}

/// All events of a frame; `read` reads them after each slot.
fn events_of(receiver: &mut Receiver, frame: &Frame, read: fn(&mut Receiver, &mut Vec<Seen>)) -> Vec<Seen> {
    let mut all = Vec::new();
    receiver.frame(&frame.block).unwrap();
    for data in &frame.slots {
        receiver.slot(data).unwrap();
        read(receiver, &mut all);
    }
    all
}

fn by_next(receiver: &mut Receiver, all: &mut Vec<Seen>) {
    while let Some(event) = receiver.next_event() {
        all.push(seen(event));
    }
}

fn by_read_events(receiver: &mut Receiver, all: &mut Vec<Seen>) {
    receiver.read_events(|event| all.push(seen(event)));
}

/// Takes one event of each iterator, and drops it.
fn by_first_of_events(receiver: &mut Receiver, all: &mut Vec<Seen>) {
    while let Some(event) = receiver.events().next() {
        all.push(seen(event));
    }
}

/// Takes two events of an iterator, one by next_event, and so on.
fn by_turns(receiver: &mut Receiver, all: &mut Vec<Seen>) {
    loop {
        let before = all.len();
        all.extend(receiver.events().take(2).map(seen));
        all.extend(receiver.next_event().map(seen));
        if all.len() == before {
            return;
        }
    }
}

/// Keeps all events of an iterator, and reads their bytes once it has ended.
fn by_events_kept(receiver: &mut Receiver, all: &mut Vec<Seen>) {
    loop {
        let kept: Vec<Event<'_>> = receiver.events().collect();
        if kept.is_empty() {
            return;
        }
        all.extend(kept.into_iter().map(seen));
    }
}

const READERS: [fn(&mut Receiver, &mut Vec<Seen>); 5] = [by_next, by_read_events, by_first_of_events, by_turns, by_events_kept];

#[test]
fn what_is_packed_comes_back_in_every_way_of_reading() {
    let contents = contents();
    // Pieces of 1400: whole units. Of 25: several joined units come in one slot.
    for m in [1400, 400, 25] {
        let (units, run) = sent(&contents, m);
        let expected: Vec<Seen> = units.into_iter().map(|unit| seen(Event::Unit(unit))).collect();
        let frame = frame(run);
        for read in READERS {
            assert_eq!(events_of(&mut receiver(), &frame, read), expected, "m {m}");
        }
    }
}

#[test]
fn several_joined_units_come_in_one_slot() {
    let contents = contents();
    let frame = frame(sent(&contents, 25).1);
    let mut receiver = receiver();
    receiver.frame(&frame.block).unwrap();
    receiver.slot(&frame.slots[0]).unwrap();
    let mut units = Vec::new();
    loop {
        // A joined unit is the last of its events, so each comes alone here.
        let events = receiver.events();
        assert!(events.len() <= 1);
        if events.len() == 0 {
            break;
        }
        units.extend(events.map(seen));
    }
    assert!(units.len() >= 5, "{}", units.len());
    for (seen, content) in units.iter().zip(&contents) {
        assert!(matches!(seen, Seen::Unit(_, bytes) if bytes == content));
    }
}

#[test]
fn events_that_were_not_taken_hold_back_the_next_calls() {
    let contents = contents();
    let frame = frame(sent(&contents, 1400).1);
    let mut receiver = receiver();
    assert_eq!(receiver.slot(&frame.slots[0]), Err(Refusal::NoSlotDue));
    receiver.frame(&frame.block).unwrap();
    assert_eq!(receiver.frame(&frame.block), Err(Refusal::FrameNotRead));
    assert_eq!(receiver.slot(&frame.slots[0][1..]), Err(Refusal::SlotLength));
    receiver.slot(&frame.slots[0]).unwrap();
    for taken in [0, 1, 3] {
        assert_eq!(receiver.events().take(taken).count(), taken);
        assert_eq!(receiver.slot(&frame.slots[1]), Err(Refusal::EventsWait));
        assert_eq!(receiver.slot(&[1, 2, 3]), Err(Refusal::EventsWait));
        assert_eq!(receiver.lost_slot(), Err(Refusal::EventsWait));
        assert_eq!(receiver.frame(&frame.block), Err(Refusal::FrameNotRead));
        assert_eq!(receiver.frame(&frame.block[1..]), Err(Refusal::BlockLength));
        assert_eq!(receiver.lost_frame(), Err(Refusal::FrameNotRead));
    }
    let mut rest = Vec::new();
    by_next(&mut receiver, &mut rest);
    assert!(matches!(&rest[0], Seen::Unit(_, bytes) if bytes == &contents[4]));
    assert_eq!(receiver.slot(&frame.slots[1]), Ok(()));
}

#[test]
fn behind_the_last_slot_none_is_due_though_events_wait() {
    let contents = contents();
    let mut frame = frame(sent(&contents, 1400).1);
    // In 32APSK 1/3 all slots are live; the last one holds what the first one held.
    frame.block[1] = 0x51;
    frame.block.copy_within(153..157, 153 + 4 * (FRAME_SLOTS - 1));
    let mut receiver = receiver();
    receiver.frame(&frame.block).unwrap();
    for _ in 1..FRAME_SLOTS {
        receiver.lost_slot().unwrap();
        assert_eq!(receiver.next_event(), None);
    }
    receiver.slot(&frame.slots[0]).unwrap();
    let many = receiver.events().len();
    assert!(many > 3);
    for taken in 0..many {
        assert_eq!(receiver.events().len(), many - taken);
        assert_eq!(receiver.lost_slot(), Err(Refusal::NoSlotDue));
        assert_eq!(receiver.slot(&frame.slots[0]), Err(Refusal::NoSlotDue));
        assert_eq!(receiver.lost_frame(), Err(Refusal::FrameNotRead));
        assert!(receiver.next_event().is_some());
    }
    assert_eq!(receiver.events().len(), 0);
    assert_eq!(receiver.lost_slot(), Err(Refusal::NoSlotDue));
    assert_eq!(receiver.lost_frame(), Ok(()));
}

#[test]
fn a_clone_goes_on_from_where_it_was_made() {
    let contents = contents();
    let frame = frame(sent(&contents, 25).1);
    let whole = events_of(&mut receiver(), &frame, by_next);
    let mut first = receiver();
    let mut all = Vec::new();
    first.frame(&frame.block).unwrap();
    for (s, data) in frame.slots.iter().enumerate() {
        first.slot(data).unwrap();
        all.extend(first.events().take(s % 2).map(seen));
        // What is left of this slot, and the rest of the frame, is read by a clone too.
        let (mut clone, mut cloned) = (first.clone(), all.clone());
        by_turns(&mut clone, &mut cloned);
        for data in &frame.slots[s + 1..] {
            clone.slot(data).unwrap();
            by_next(&mut clone, &mut cloned);
        }
        assert_eq!(cloned, whole, "cloned at slot {s}");
        by_read_events(&mut first, &mut all);
    }
    assert_eq!(all, whole);
}

#[test]
fn a_panic_while_events_are_read_loses_only_the_event_that_was_taken() {
    let contents = contents();
    let frame = frame(sent(&contents, 1400).1);
    let mut receiver = receiver();
    receiver.frame(&frame.block).unwrap();
    receiver.slot(&frame.slots[0]).unwrap();
    let read = std::panic::AssertUnwindSafe(|| receiver.read_events(|_| std::panic::resume_unwind(Box::new(()))));
    assert!(std::panic::catch_unwind(read).is_err());
    let Some(Event::Unit(unit)) = receiver.next_event() else { panic!("a unit waits") };
    assert_eq!(unit.bytes, contents[1]);
}

#[test]
fn settings_are_refused_by_the_library() {
    let refusal = |cid, ids: &[u16], limit| Receiver::new(&Settings::new(1, cid, ids, limit)).err();
    let ids: Vec<u16> = (0..100).collect();
    assert_eq!(refusal(2, &ids[..16], 1), None);
    assert_eq!(refusal(4095, &ids[..1], 1_048_576), None);
    for many in [0, 17, 100] {
        assert_eq!(refusal(2, &ids[..many], 1), Some(Refusal::Count), "{many}");
    }
    assert_eq!(refusal(2, &[1; 70_000], 1), Some(Refusal::Count));
    assert_eq!(refusal(4096, &[3, 4, 3], 0), Some(Refusal::IdTwice));
    assert_eq!(refusal(4096, &[3], 0), Some(Refusal::Cid));
    for limit in [0, 1_048_577, u32::MAX] {
        assert_eq!(refusal(4095, &[3], limit), Some(Refusal::Limit), "{limit}");
    }
}

#[test]
fn control_blocks_are_refused_by_the_library() {
    let frame = frame(Vec::new());
    let mut receiver = receiver();
    let refusal = |receiver: &mut Receiver, place: usize, byte| {
        let mut block = frame.block.clone();
        block[place] = byte;
        receiver.frame(&block).err()
    };
    for length in [0, 1177] {
        assert_eq!(receiver.frame(&frame.block[..length]), Err(Refusal::BlockLength));
    }
    assert_eq!(refusal(&mut receiver, 2, 115), Some(Refusal::Modes));
    assert_eq!(refusal(&mut receiver, 25, 1), Some(Refusal::Stream));
    assert_eq!(receiver.frame(&frame.block), Ok(()));
    let mut elsewhere = frame.block.clone();
    elsewhere[633..693].fill(0x11);
    let mut fresh = Receiver::new(&Settings::new(1, CID, [256], 1)).unwrap();
    assert_eq!(fresh.frame(&elsewhere), Err(Refusal::NoLiveSlot));
}

#[test]
fn a_note_names_its_packet_id_from_52_on() {
    let contents = contents();
    let frame = frame(sent(&contents, 25).1);
    let mut receiver = receiver();
    receiver.frame(&frame.block).unwrap();
    let mut texts = Vec::new();
    for (s, data) in frame.slots.iter().enumerate() {
        if s == 5 {
            receiver.lost_slot().unwrap()
        } else {
            receiver.slot(data).unwrap()
        }
        receiver.read_events(|event| {
            if let Event::Note(note) = event {
                assert_eq!(note.packet_id.is_some(), note.number() >= 52);
                texts.push(note.to_string());
            }
        });
    }
    assert_eq!(texts[0], "note 40: an own slot was lost where packets had been followed");
    let missing = texts.iter().find(|text| text.starts_with("note 60, "));
    assert!(missing.is_some_and(|text| text.ends_with(": packets of this packet_id are missing")), "{texts:?}");
}

#[test]
fn receivers_read_on_several_threads_at_the_same_time() {
    let contents = contents();
    for m in [25, 400] {
        let frame = &frame(sent(&contents, m).1);
        let whole = events_of(&mut receiver(), frame, by_next);
        std::thread::scope(|scope| {
            let threads = READERS.map(|read| {
                let moved = receiver();
                scope.spawn(move || (0..20).map(|_| events_of(&mut moved.clone(), frame, read)).collect::<Vec<_>>())
            });
            for thread in threads {
                assert!(thread.join().unwrap().iter().all(|there| *there == whole));
            }
        });
    }
}
