//! Random call histories as trace files, from fixed seeds, with a count of each answer in each phase.

use crate::connection::{self, Record, Settings};
use crate::craft;
use crate::message;
use crate::random::Random;
use crate::replay::{self, Call, BEGIN, CLOSE, RECEIVE, SEND, TICK};
use crate::table;
use std::collections::{BTreeMap, VecDeque};
use std::path::Path;

/// How often a call in a phase got an answer; NO_SLOT stands for a bad slot.
pub type Counts = BTreeMap<(u8, u8, u16), usize>;
pub const NO_SLOT: u8 = 255;

/// The answers that can occur: for each call and phase those that 01 lists. A trace's out buffer
/// has 1,000 bytes and its records are made by the calls alone, so 108 and the record's 101 cannot.
#[rustfmt::skip]
pub const POSSIBLE: [(u8, u8, &[u16]); 40] = [
    (BEGIN,   NO_SLOT,                       &[101]),
    (BEGIN,   connection::CLOSED,            &[104, 0]),
    (BEGIN,   connection::INITIATOR_WAITS_2, &[103]),
    (BEGIN,   connection::INITIATOR_WAITS_4, &[103]),
    (BEGIN,   connection::RESPONDER_WAITS_1, &[103]),
    (BEGIN,   connection::RESPONDER_WAITS_3, &[103]),
    (BEGIN,   connection::RESPONDER_WAITS_5, &[103]),
    (BEGIN,   connection::OPEN,              &[103]),
    (RECEIVE, NO_SLOT,                       &[101]),
    (RECEIVE, connection::CLOSED,            &[102]),
    (RECEIVE, connection::INITIATOR_WAITS_2, &[105, 207, 201, 211, 208, 0]),
    (RECEIVE, connection::INITIATOR_WAITS_4, &[105, 207, 201, 211, 202, 203, 208, 209, 204, 0]),
    (RECEIVE, connection::RESPONDER_WAITS_1, &[105, 201, 211, 0]),
    (RECEIVE, connection::RESPONDER_WAITS_3, &[105, 207, 201, 211, 202, 203, 208, 204, 0]),
    (RECEIVE, connection::RESPONDER_WAITS_5, &[105, 207, 201, 211, 202, 203, 208, 209, 204, 0]),
    (RECEIVE, connection::OPEN,              &[105, 201, 211, 202, 203, 206, 205, 204, 0]),
    (SEND,    NO_SLOT,                       &[101]),
    (SEND,    connection::CLOSED,            &[102]),
    (SEND,    connection::INITIATOR_WAITS_2, &[105, 106]),
    (SEND,    connection::INITIATOR_WAITS_4, &[105, 106]),
    (SEND,    connection::RESPONDER_WAITS_1, &[105, 106]),
    (SEND,    connection::RESPONDER_WAITS_3, &[105, 106]),
    (SEND,    connection::RESPONDER_WAITS_5, &[105, 106]),
    (SEND,    connection::OPEN,              &[105, 107, 0]),
    (TICK,    NO_SLOT,                       &[101]),
    (TICK,    connection::CLOSED,            &[102]),
    (TICK,    connection::INITIATOR_WAITS_2, &[105, 207, 0]),
    (TICK,    connection::INITIATOR_WAITS_4, &[105, 207, 0]),
    (TICK,    connection::RESPONDER_WAITS_1, &[105, 0]),
    (TICK,    connection::RESPONDER_WAITS_3, &[105, 207, 0]),
    (TICK,    connection::RESPONDER_WAITS_5, &[105, 207, 0]),
    (TICK,    connection::OPEN,              &[105, 0]),
    (CLOSE,   NO_SLOT,                       &[101]),
    (CLOSE,   connection::CLOSED,            &[102]),
    (CLOSE,   connection::INITIATOR_WAITS_2, &[0]),
    (CLOSE,   connection::INITIATOR_WAITS_4, &[0]),
    (CLOSE,   connection::RESPONDER_WAITS_1, &[0]),
    (CLOSE,   connection::RESPONDER_WAITS_3, &[0]),
    (CLOSE,   connection::RESPONDER_WAITS_5, &[0]),
    (CLOSE,   connection::OPEN,              &[0]),
];

pub fn call_name(kind: u8) -> &'static str {
    ["", "begin", "receive", "send", "tick", "close", "read_row", "write_row"][usize::from(kind)]
}

pub fn phase_name(phase: u8) -> &'static str {
    match phase {
        connection::CLOSED => "closed",
        connection::INITIATOR_WAITS_2 => "initiator-waits-2",
        connection::INITIATOR_WAITS_4 => "initiator-waits-4",
        connection::RESPONDER_WAITS_1 => "responder-waits-1",
        connection::RESPONDER_WAITS_3 => "responder-waits-3",
        connection::RESPONDER_WAITS_5 => "responder-waits-5",
        connection::OPEN => "open",
        _ => "no-slot",
    }
}

/// The possible answers that never occurred.
pub fn missing(counts: &Counts) -> Vec<(u8, u8, u16)> {
    let mut never = Vec::new();
    for (kind, phase, answers) in POSSIBLE {
        for answer in answers {
            if !counts.contains_key(&(kind, phase, *answer)) {
                never.push((kind, phase, *answer));
            }
        }
    }
    never
}

/// Two ends of one connection, each on a slot, with messages under way between them.
struct Ends {
    slots: [u8; 2],
    /// Each end's clock is the time plus this.
    offsets: [u32; 2],
    time: u32,
    /// What is under way to each end.
    to: [VecDeque<Vec<u8>>; 2],
}

/// A trace being made: its bytes, and the table as it stands after them.
struct World<'a> {
    random: Random,
    table: Vec<Record>,
    trace: Vec<u8>,
    counts: &'a mut Counts,
}

impl World<'_> {
    fn record(&self, slot: u8) -> Record {
        self.table[usize::from(slot)]
    }

    /// Adds a call to the trace and plays it; returns the bytes written.
    fn call(&mut self, kind: u8, slot: u8, now: u32, bytes: &[u8]) -> Vec<u8> {
        let phase = self.table.get(usize::from(slot)).map_or(NO_SLOT, |record| record.phase);
        let call = Call { kind, slot, now, bytes };
        let mut out = [0_u8; replay::OUT];
        let answer = replay::play(&mut self.table, &call, &mut out);
        *self.counts.entry((kind, phase, answer.number)).or_insert(0) += 1;
        self.trace.extend(replay::bytes_of(&call));
        out[..answer.written].to_vec()
    }

    /// A crafted call on a slot.
    fn provoke(&mut self, slot: u8) {
        let record = self.table.get(usize::from(slot)).copied().unwrap_or_default();
        let mut crafted = craft::some_call(&mut self.random, &record);
        if record.phase == connection::CLOSED {
            crafted.now = self.random.pick(&[0, 1000, 4_294_967_290, crafted.now]);
        }
        self.call(crafted.kind, slot, crafted.now, &crafted.bytes);
    }

    /// Begins both ends anew, the responder first.
    fn begin_ends(&mut self, ends: &mut Ends) {
        let settings = Settings { n: 3, t_max: self.random.pick(&[40, 100]), e: 0, t_start: 200, t_off: 60, limit: self.random.pick(&[2, 3, 5]) };
        for (end, role) in [(1, 1), (0, 0)] {
            let slot = ends.slots[end];
            let now = ends.time.wrapping_add(ends.offsets[end]);
            if self.record(slot).phase != connection::CLOSED {
                self.call(CLOSE, slot, now, &[]);
            }
            let first_number = self.random.pick(&[0, 65534, 65535, 300]);
            let bytes = craft::begin_bytes(role, &settings, first_number, 50);
            let written = self.call(BEGIN, slot, now, &bytes);
            ends.to[end].clear();
            if end == 0 {
                ends.to[1].clear();
                ends.to[1].push_back(written);
            }
        }
    }

    /// One event between two ends: a message arrives, is lost, repeated, or sent; a tick; a delay.
    fn between(&mut self, ends: &mut Ends) {
        ends.time = ends.time.wrapping_add(self.random.below(6) as u32);
        if ends.slots.iter().any(|slot| self.record(*slot).phase == connection::CLOSED) {
            return self.begin_ends(ends);
        }
        let end = self.random.below(2) as usize;
        let slot = ends.slots[end];
        let now = ends.time.wrapping_add(ends.offsets[end]);
        let open = self.record(slot).phase == connection::OPEN;
        match self.random.below(40) {
            0 => ends.time = ends.time.wrapping_add(70),
            1 => drop(ends.to[end].pop_front()),
            2 => {
                if let Some(first) = ends.to[end].front().cloned() {
                    ends.to[end].push_front(first);
                }
            }
            3 | 4 => drop(self.call(TICK, slot, now, &[])),
            5..=14 if open => {
                let length = self.random.below(30) as usize;
                let data = self.random.bytes(length);
                let written = self.call(SEND, slot, now, &data);
                ends.to[1 - end].push_back(written);
            }
            _ => {
                if let Some(arrived) = ends.to[end].pop_front() {
                    let written = self.call(RECEIVE, slot, now, &arrived);
                    if !written.is_empty() {
                        ends.to[1 - end].push_back(written);
                    }
                }
            }
        }
    }

    /// A send of the longest data, or of one byte less or more, which arrives like any other.
    fn send_long(&mut self, ends: &mut Ends) {
        let end = self.random.below(2) as usize;
        let length = self.random.pick(&[message::DATA_MOST - 1, message::DATA_MOST, message::DATA_MOST, message::DATA_MOST + 1]);
        let data = self.random.bytes(length);
        let written = self.call(SEND, ends.slots[end], ends.time.wrapping_add(ends.offsets[end]), &data);
        if !written.is_empty() {
            ends.to[1 - end].push_back(written);
        }
    }

    /// A record that is `bad`, in one of the four ways of TRACE-8 to TRACE-11.
    fn spoil(&mut self) {
        let good = replay::bytes_of(&Call { kind: TICK, slot: 0, now: 5, bytes: &[1, 2, 3] });
        let mut bad = good.clone();
        match self.random.below(6) {
            0 => bad[0] = 0x53,
            1 => bad[1] = 0x33,
            2 => bad[2] = self.random.pick(&[0, 6, 255]),
            3 => {
                bad[8..10].copy_from_slice(&1001_u16.to_be_bytes());
                bad.resize(replay::HEADER + 1001, 0);
            }
            _ => {
                bad.truncate(self.random.between(1, good.len() as u64 - 1) as usize);
                self.trace.extend(bad);
                return;
            }
        }
        self.trace.extend(bad);
        self.trace.extend(good);
    }
}

fn some_ends(random: &mut Random, first_slot: u8) -> Ends {
    Ends {
        slots: [first_slot, first_slot + 1],
        offsets: [random.count(), random.count()],
        time: random.count(),
        to: [VecDeque::new(), VecDeque::new()],
    }
}

/// One history: whole set-ups and traffic between ends, and provoked calls on other slots.
pub fn history(seed: u64, counts: &mut Counts) -> Vec<u8> {
    let mut random = Random::new(seed);
    let mut ends: Vec<Ends> = (0..3).map(|at| some_ends(&mut random, 2 * at)).collect();
    let lone: Vec<u8> = (0..6).map(|_| random.between(6, 63) as u8).chain([63]).collect();
    let events = random.between(200, 1200);
    let spoiled = random.once_in(4);
    let mut world = World { random, table: table::closed(), trace: Vec::new(), counts };
    for _ in 0..events {
        match world.random.below(40) {
            0 => {
                let slot = world.random.pick(&[64, 65, 128, 255]);
                world.provoke(slot);
            }
            1..=12 => {
                let at = world.random.below(ends.len() as u64) as usize;
                world.between(&mut ends[at]);
            }
            13 => {
                let slot = world.random.below(6) as u8;
                world.provoke(slot);
            }
            _ => {
                let slot = world.random.pick(&lone);
                world.provoke(slot);
            }
        }
    }
    if spoiled {
        world.spoil();
    }
    world.trace
}

/// A short history: one pair of ends, one lone slot, slots that are none, and the longest sends; of some dozens of calls, or of none, and now and then of
/// more than one byte can count.
pub fn short_history(seed: u64) -> Vec<u8> {
    let mut random = Random::new(seed);
    let first_slot = random.pick(&[0, 2, 40, 62]);
    let mut ends = some_ends(&mut random, first_slot);
    let lone = random.pick(&[10, 39, 61]);
    let events = if random.once_in(32) { random.between(400, 600) } else { random.between(0, 70) };
    let mut counts = Counts::new();
    let mut world = World { random, table: table::closed(), trace: Vec::new(), counts: &mut counts };
    for _ in 0..events {
        match world.random.below(30) {
            0 => {
                let slot = world.random.pick(&[64, 65, 128, 255]);
                world.provoke(slot);
            }
            1 => world.provoke(first_slot),
            2 => world.send_long(&mut ends),
            3..=18 => world.between(&mut ends),
            _ => world.provoke(lone),
        }
    }
    world.trace
}

/// Writes the traces NAME.trace; the first is empty, the second one tick on slot 0.
pub fn write_traces(seed: u64, count: usize, folder: &Path) -> std::io::Result<Counts> {
    let mut counts = Counts::new();
    std::fs::create_dir_all(folder)?;
    for at in 0..count {
        let trace = match at {
            0 => Vec::new(),
            1 => replay::bytes_of(&Call { kind: TICK, slot: 0, now: 0, bytes: &[] }),
            _ => history(seed.wrapping_add(at as u64), &mut counts),
        };
        std::fs::write(folder.join(format!("{at:05}.trace")), trace)?;
    }
    Ok(counts)
}

/// The counts of so many histories, without files.
pub fn counts_of(seed: u64, count: usize) -> Counts {
    let mut counts = Counts::new();
    for at in 0..count {
        history(seed.wrapping_add(at as u64), &mut counts);
    }
    counts
}
