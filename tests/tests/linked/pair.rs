//! Both receivers side by side: each call is made in both, and compared whole.

use second::calls::{show, Event, Receiver};
use second::generate::prng::Prng;

use super::lent::{Lent, Station};
use super::library::{self, RECORD, STATE};
use super::memories::Memories;
use super::records::{record, settings, start, Command, Record, Settings};

/// How often each answer came, by number; 0 counts the accepted calls.
pub type Seen = [u64; 256];

#[derive(Clone)]
pub struct Pair {
    /// The second decoder's receiver, once a start was accepted, and its memories.
    pub ours: Option<Receiver>,
    pub packet: Vec<u8>,
    pub collecting: Vec<u8>,
    /// The library's.
    pub theirs: Station,
    pub seen: Seen,
    pub units: u64,
    /// n × R of the last accepted start.
    pub need: usize,
    /// Which capture it reads, and whether next is owed.
    name: String,
    pub owed: bool,
}

impl Pair {
    /// Fresh ones, with these memories and `more` words behind a state's.
    pub fn new(name: String, rng: &mut Prng, more: usize, (packet, collecting): Memories) -> Self {
        Pair {
            ours: None,
            theirs: Station::new(rng, more, &packet, &collecting),
            packet,
            collecting,
            seen: [0; 256],
            units: 0,
            need: 0,
            name,
            owed: false,
        }
    }

    fn place(&self, what: &str) -> String {
        let calls: u64 = self.seen.iter().sum();
        format!("{}, call {calls}: {what}", self.name)
    }

    /// Compares answers, and all memory after a call; `before` is the state before it.
    pub fn compare(&mut self, what: &str, ours: Result<(), u8>, theirs: u8, before: &[u64]) {
        let due = ours.err().unwrap_or(0);
        self.seen[usize::from(theirs)] += 1;
        assert_eq!(theirs, due, "{}", self.place(what));
        let (station, place) = (&self.theirs, || self.place(what));
        let state = station.state.get();
        assert!(station.is_guarded(), "{}: a guard", place());
        assert!(
            state[STATE..] == before[STATE..],
            "{}: words behind",
            place()
        );
        assert!(theirs == 0 || state == before, "{}: state", place());
        let (packet, collecting) = (station.packet.get(), station.collecting.get());
        assert!(packet == self.packet, "{}: packet memory", place());
        assert!(collecting == self.collecting, "{}: collecting", place());
    }

    /// The call of a command; its refusal, or 0. Before an accepted start only start is called.
    pub fn call(&mut self, command: &Command) -> u8 {
        let before = self.theirs.state.get().to_vec();
        if let Command::Start(operands) = command {
            return self.start(&settings(operands), &before);
        }
        let Some(ours) = &mut self.ours else {
            return 0;
        };
        let (packet, collecting) = (&mut self.packet, &self.collecting);
        let station = &mut self.theirs;
        let (ours, theirs) = match command {
            Command::Frame(block) => (ours.frame(block), station.frame(block)),
            Command::LostFrame => (ours.lost_frame(), station.lost_frame()),
            Command::Slot(data) => (ours.slot(data, packet, collecting), station.slot(data)),
            _ => (ours.lost_slot(packet, collecting), station.lost_slot()),
        };
        self.owed |= theirs == 0 && !matches!(command, Command::Frame(_));
        self.compare(name(command), ours, theirs, &before);
        theirs
    }

    fn start(&mut self, settings: &Settings, before: &[u64]) -> u8 {
        let theirs = library::start(settings, self.theirs.state.lend());
        let ours = match start(settings) {
            Ok(fresh) => {
                self.ours = Some(fresh);
                self.need = (settings[2] * settings[3]) as usize;
                self.owed = false;
                Ok(())
            }
            Err(number) => Err(number),
        };
        self.compare("start", ours, theirs, before);
        theirs
    }

    /// A call of next, in an event memory of 24 words or a few more; its record, or the refusal.
    pub fn next(&mut self, rng: &mut Prng) -> Result<Record, u8> {
        let before = self.theirs.state.get().to_vec();
        let ours = self.ours.as_mut().expect("a start was accepted");
        let event = ours.next(&self.packet, &mut self.collecting);
        let words = RECORD + rng.below(3);
        let filling = Lent::<u64>::noise(rng, words);
        let mut memory = filling.clone();
        let theirs = self.theirs.next(memory.lend());
        self.compare("next", event.map(|_| ()), theirs, &before);
        assert!(memory.is_guarded(), "{}", self.place("guard of next"));
        let Ok(event) = event else {
            assert!(
                memory == filling,
                "{}",
                self.place("event of a refused next")
            );
            return Err(theirs);
        };
        let (words, behind) = memory.get().split_at(RECORD);
        assert_eq!(words, record(&event), "{}", self.place("record"));
        assert!(
            *behind == filling.get()[RECORD..],
            "{}",
            self.place("behind it")
        );
        self.owed = event != Event::Nothing;
        let words: Record = words.try_into().expect("24 words");
        if let Event::Unit(unit) = event {
            let bytes = show(&unit, &self.packet, &self.collecting).to_vec();
            self.shown(rng, &words, &bytes);
        }
        Ok(words)
    }

    /// Show of a unit's record, with just enough room or more, with too little, and of too few words.
    fn shown(&mut self, rng: &mut Prng, record: &Record, bytes: &[u8]) {
        self.units += 1;
        let before = self.theirs.state.get().to_vec();
        let len = bytes.len();
        let more = rng.pick(&[0, 0, 1, 9]);
        let mut due = Lent::<u8>::noise(rng, len + more);
        let mut output = due.clone();
        due.lend()[..len].copy_from_slice(bytes);
        let answer = self.theirs.show(record, output.lend());
        assert_eq!(answer, (0, len as u64), "{}", self.place("show"));
        assert!(output == due, "{}", self.place("shown bytes"));
        self.compare("show", Ok(()), answer.0, &before);
        let (memory, at) = (record[2], record[3] as usize);
        let memories = [self.theirs.packet.get(), self.theirs.collecting.get()];
        let part = &memories[memory as usize][at..at + record[4] as usize];
        assert!(part == bytes, "{}", self.place("the record's place"));
        for (words, room, due) in [(RECORD - 1, len, 92), (RECORD, len.wrapping_sub(1), 93)] {
            if room > len {
                continue;
            }
            let filling = Lent::<u8>::noise(rng, room);
            let mut output = filling.clone();
            let answer = self.theirs.show(&record[..words], output.lend());
            assert_eq!(answer, (due, library::LEN), "{}", self.place("show"));
            assert!(
                output == filling,
                "{}",
                self.place("output of a refused show")
            );
            self.compare("refused show", Err(due), answer.0, &before);
        }
    }
}

fn name(command: &Command) -> &'static str {
    match command {
        Command::Start(_) => "start",
        Command::Frame(_) => "frame",
        Command::LostFrame => "lost frame",
        Command::Slot(_) => "slot",
        Command::LostSlot => "lost slot",
    }
}
