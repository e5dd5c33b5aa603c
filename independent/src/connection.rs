//! 01's "Setting the clocks" and "Answer numbers of the connection calls", on one record by value.

use crate::links::Role;
use crate::message::{self, After, Message};
use std::ops::Range;

/// The phases, numbered as PHASE-0 to PHASE-6; a wait is named by who waits and for which type.
pub const CLOSED: u8 = 0;
pub const INITIATOR_WAITS_2: u8 = 1;
pub const INITIATOR_WAITS_4: u8 = 2;
pub const RESPONDER_WAITS_1: u8 = 3;
pub const RESPONDER_WAITS_3: u8 = 4;
pub const RESPONDER_WAITS_5: u8 = 5;
pub const OPEN: u8 = 6;

#[derive(Clone, Copy, PartialEq, Eq, Debug, Default)]
pub struct Settings {
    pub n: u16,
    pub t_max: u32,
    pub e: u32,
    pub t_start: u32,
    pub t_off: u32,
    pub limit: u8,
}

/// N 1..1,000; T_max 1..60,000; E 0..T_max; T_start 1..60,000; T_off 0..60,000; limit 1..255.
pub fn in_range(settings: &Settings) -> bool {
    (1..=1000).contains(&settings.n)
        && (1..=60_000).contains(&settings.t_max)
        && settings.e <= settings.t_max
        && (1..=60_000).contains(&settings.t_start)
        && settings.t_off <= 60_000
        && settings.limit >= 1
}

/// A connection record; a released one is all zero.
#[derive(Clone, Copy, PartialEq, Eq, Debug, Default)]
pub struct Record {
    pub phase: u8,
    pub settings: Settings,
    pub own_next_number: u16,
    pub period: u32,
    pub last_number: u16,
    /// The stamp of the peer's last message and our count at its arrival.
    pub peer_stamp: u32,
    pub arrival: u32,
    /// The now of the send that began the running wait, which is also that message's stamp; 0
    /// while no wait with a timer runs.
    pub wait_start: u32,
    pub min: i32,
    pub max: i32,
    pub errors: u8,
    /// The last accepted now.
    pub clock: u32,
}

pub const ALL_ZERO: Record = Record {
    phase: CLOSED,
    settings: Settings { n: 0, t_max: 0, e: 0, t_start: 0, t_off: 0, limit: 0 },
    own_next_number: 0,
    period: 0,
    last_number: 0,
    peer_stamp: 0,
    arrival: 0,
    wait_start: 0,
    min: 0,
    max: 0,
    errors: 0,
    clock: 0,
};

/// What a call answers: number, released or not, bytes written, the part of the message's bytes
/// that is delivered, and the age by which the message was judged, 0 where none was (AGE-8).
#[derive(Clone, PartialEq, Eq, Debug)]
pub struct Answer {
    pub number: u16,
    pub released: bool,
    pub written: usize,
    pub delivered: Range<usize>,
    pub age: i32,
}

/// An answer that does not say released, delivers nothing and reports no age.
pub fn answer(number: u16, written: usize) -> Answer {
    Answer { number, released: false, written, delivered: 0..0, age: 0 }
}

fn released(number: u16, written: usize) -> (Record, Answer) {
    (ALL_ZERO, Answer { released: true, ..answer(number, written) })
}

/// The centred difference of two counts: mod 2^32, in -2^31 .. 2^31-1.
pub fn centred(a: u32, b: u32) -> i32 {
    a.wrapping_sub(b) as i32
}

/// The record's own 101 (RECORD-1).
pub fn record_faulty(record: &Record) -> bool {
    record.phase != CLOSED
        && (!in_range(&record.settings)
            || record.phase > OPEN
            || record.errors >= record.settings.limit)
}

pub fn clock_goes_back(record: &Record, now: u32) -> bool {
    centred(now, record.clock) < 0
}

/// The waits with a timer: all but the responder's wait for 1.
pub fn wait_has_timer(phase: u8) -> bool {
    [INITIATOR_WAITS_2, INITIATOR_WAITS_4, RESPONDER_WAITS_3, RESPONDER_WAITS_5].contains(&phase)
}

pub fn wait_expired(record: &Record, now: u32) -> bool {
    wait_has_timer(record.phase) && now.wrapping_sub(record.wait_start) >= record.settings.t_start
}

/// The message type that each phase expects.
pub fn expected(phase: u8) -> u8 {
    match phase {
        INITIATOR_WAITS_2 => message::ANSW1,
        INITIATOR_WAITS_4 => message::EST,
        RESPONDER_WAITS_1 => message::START,
        RESPONDER_WAITS_3 => message::ANSW2,
        RESPONDER_WAITS_5 => message::END,
        _ => message::APPLICATION,
    }
}

/// The first message of the peer, whose number is not judged.
pub fn first_message(phase: u8) -> bool {
    phase == INITIATOR_WAITS_2 || phase == RESPONDER_WAITS_1
}

/// ECHO-1: messages 2 to 5 echo our stamp.
pub fn echo_judged(phase: u8) -> bool {
    wait_has_timer(phase)
}

/// The message with our next number, stamped now, that names the peer's stamp and its arrival.
fn stamped<'a>(record: &Record, now: u32, after: After<'a>) -> Message<'a> {
    Message {
        number: record.own_next_number,
        stamp: now,
        last_peer_stamp: record.peer_stamp,
        own_count_at_arrival: record.arrival,
        after,
    }
}

/// Begin: 101, 103, 104, 108 (initiator, 19). No role given is a role out of range.
pub fn begin(record: Record, role: Option<Role>, settings: Settings, first_number: u16, period: u32, now: u32, out: &mut [u8]) -> (Record, Answer) {
    if record_faulty(&record) {
        return (record, answer(101, 0));
    }
    if record.phase != CLOSED {
        return (record, answer(103, 0));
    }
    let Some(role) = role.filter(|_| in_range(&settings)) else {
        return (record, answer(104, 0));
    };
    if role == Role::Initiator && out.len() < 19 {
        return (record, answer(108, 0));
    }
    let begun = Record { settings, own_next_number: first_number, period, clock: now, ..ALL_ZERO };
    match role {
        Role::Initiator => {
            let written = message::write(&stamped(&begun, now, After::Start { period }), out);
            let waits = Record { phase: INITIATOR_WAITS_2, wait_start: now, own_next_number: first_number.wrapping_add(1), ..begun };
            (waits, answer(0, written))
        }
        Role::Responder => (Record { phase: RESPONDER_WAITS_1, ..begun }, answer(0, 0)),
    }
}

/// Receive: 101, 102, 105, 108 (25); then the peer's faults in their order.
pub fn receive(record: Record, now: u32, bytes: &[u8], out: &mut [u8]) -> (Record, Answer) {
    if record_faulty(&record) {
        return (record, answer(101, 0));
    }
    if record.phase == CLOSED {
        return (record, answer(102, 0));
    }
    if clock_goes_back(&record, now) {
        return (record, answer(105, 0));
    }
    if out.len() < 25 {
        return (record, answer(108, 0));
    }
    let record = Record { clock: now, ..record };
    if wait_expired(&record, now) {
        return released(207, 0);
    }
    let Some(message) = message::parse(bytes) else {
        return unusable(record, 201);
    };
    if message::kind_of(&message.after) != expected(record.phase) {
        return unusable(record, 211);
    }
    if record.phase == OPEN {
        when_open(record, now, &message)
    } else {
        in_set_up(record, now, &message, out)
    }
}

/// 201 and 211: in set-up they release; when open they change only the remembered clock.
fn unusable(record: Record, number: u16) -> (Record, Answer) {
    if record.phase == OPEN {
        (record, answer(number, 0))
    } else {
        released(number, 0)
    }
}

/// The rows 202 and 203 over d; no row is None.
fn number_fault(record: &Record, number: u16) -> Option<u16> {
    let d = number.wrapping_sub(record.last_number);
    if d == 0 || d >= 32768 {
        Some(202)
    } else if d > record.settings.n {
        Some(203)
    } else {
        None
    }
}

/// The row 204, judged last.
fn gap(record: &Record, number: u16) -> bool {
    let d = number.wrapping_sub(record.last_number);
    2 <= d && d <= record.settings.n
}

/// A message of the expected type in set-up: 202, 203, 208, 209, 204. Each of them releases
/// (SETUP-ERR), and with none but the 209 of an initiator is a reply written (SETUP-209).
fn in_set_up(record: Record, now: u32, message: &Message, out: &mut [u8]) -> (Record, Answer) {
    let number_judged = !first_message(record.phase);
    if let Some(fault) = number_fault(&record, message.number).filter(|_| number_judged) {
        return released(fault, 0);
    }
    if echo_judged(record.phase) && message.last_peer_stamp != record.wait_start {
        return released(208, 0);
    }
    let heard = Record { last_number: message.number, peer_stamp: message.stamp, arrival: now, ..record };
    if !clock_check(&record, message) {
        let written = match record.phase {
            INITIATOR_WAITS_4 => message::write(&stamped(&heard, now, After::End { valid: false }), out),
            _ => 0,
        };
        return released(209, written);
    }
    if number_judged && gap(&record, message.number) {
        return released(204, 0);
    }
    answered(heard, now, message, out)
}

/// The initiator's acceptance of OffsetEst, and the check byte that the responder reads.
fn clock_check(record: &Record, message: &Message) -> bool {
    match message.after {
        After::Est { min: peer_min, max: peer_max } => accepts(record, peer_min, peer_max),
        After::End { valid } => valid,
        _ => true,
    }
}

/// The tests EST-1, EST-2 and EST-3, a line each; sums and differences wrap.
pub fn accepts(record: &Record, peer_min: i32, peer_max: i32) -> bool {
    record.max.wrapping_add(peer_min) == 0
        && record.max.wrapping_sub(record.min) >= 0
        && record.min.wrapping_add(peer_max).unsigned_abs() <= record.settings.t_off
}

/// What follows an errorless message of set-up: the offsets, the reply, the next phase. Offsets are
/// own minus peer: initiator min = I1-R1, max = I2-R2; responder min = R2-I2, max = R3-I3.
fn answered(heard: Record, now: u32, message: &Message, out: &mut [u8]) -> (Record, Answer) {
    let own_stamp = heard.wait_start;
    let min = centred(own_stamp, message.own_count_at_arrival);
    let max = centred(now, message.stamp);
    let period = heard.period;
    match message.after {
        After::Start { .. } => replied(Record { phase: RESPONDER_WAITS_3, ..heard }, now, After::Answ1 { period }, out),
        After::Answ1 { .. } => replied(Record { phase: INITIATOR_WAITS_4, min, max, ..heard }, now, After::Answ2, out),
        After::Answ2 => replied(Record { phase: RESPONDER_WAITS_5, min, max, ..heard }, now, After::Est { min, max }, out),
        After::Est { .. } => {
            let (sent, answered) = replied(heard, now, After::End { valid: true }, out);
            (Record { phase: OPEN, wait_start: 0, ..sent }, answered)
        }
        After::End { .. } | After::Application { .. } => (Record { phase: OPEN, wait_start: 0, ..heard }, answer(0, 0)),
    }
}

/// SETUP-STAMP: a reply of ours has this now as its stamp, and begins the next wait.
fn replied(heard: Record, now: u32, after: After, out: &mut [u8]) -> (Record, Answer) {
    let written = message::write(&stamped(&heard, now, after), out);
    let sent = Record { own_next_number: heard.own_next_number.wrapping_add(1), wait_start: now, ..heard };
    (sent, answer(0, written))
}

/// Age = centred (now - stamp + E - min).
pub fn age(now: u32, stamp: u32, e: u32, min: i32) -> i32 {
    now.wrapping_sub(stamp).wrapping_add(e).wrapping_sub(min as u32) as i32
}

/// The time check: the age, and the row 206 or 205 over it; no row is None (02, No. 10).
fn time_check(record: &Record, now: u32, stamp: u32) -> (i32, Option<u16>) {
    let age = age(now, stamp, record.settings.e, record.min);
    let fault = if age < 0 {
        Some(206)
    } else if age as u32 > record.settings.t_max {
        Some(205)
    } else {
        None
    };
    (age, fault)
}

/// A message of type 6 when open: 202, 203, 206, 205, 204, 0. The last four report the age (AGE-7),
/// also where they release.
fn when_open(record: Record, now: u32, message: &Message) -> (Record, Answer) {
    let After::Application { data } = message.after else {
        return unusable(record, 211);
    };
    let delivered = message::HEADER..message::HEADER + data.len();
    match number_fault(&record, message.number) {
        Some(203) => return released(203, 0),
        Some(number) => return counted(record, answer(number, 0)),
        None => {}
    }
    // 02, No. 4: from here on d is 1 to N, so number and stamps move whatever the age.
    let heard = Record { last_number: message.number, peer_stamp: message.stamp, arrival: now, ..record };
    let (age, fault) = time_check(&record, now, message.stamp);
    if let Some(number) = fault {
        return counted(heard, Answer { age, ..answer(number, 0) });
    }
    if gap(&record, message.number) {
        return counted(heard, Answer { delivered, age, ..answer(204, 0) });
    }
    (Record { errors: 0, ..heard }, Answer { delivered, age, ..answer(0, 0) })
}

/// 202, 204, 205 and 206 raise the counter by one; reaching the limit releases.
fn counted(record: Record, answered: Answer) -> (Record, Answer) {
    let errors = record.errors + 1;
    if errors >= record.settings.limit {
        (ALL_ZERO, Answer { released: true, ..answered })
    } else {
        (Record { errors, ..record }, answered)
    }
}

/// Send: 101, 102, 105, 106, 107, 108 (15 + data).
pub fn send(record: Record, now: u32, data: &[u8], out: &mut [u8]) -> (Record, Answer) {
    if record_faulty(&record) {
        return (record, answer(101, 0));
    }
    if record.phase == CLOSED {
        return (record, answer(102, 0));
    }
    if clock_goes_back(&record, now) {
        return (record, answer(105, 0));
    }
    if record.phase != OPEN {
        return (record, answer(106, 0));
    }
    if data.len() > message::DATA_MOST {
        return (record, answer(107, 0));
    }
    if out.len() < message::HEADER + data.len() {
        return (record, answer(108, 0));
    }
    let written = message::write(&stamped(&record, now, After::Application { data }), out);
    let sent = Record { own_next_number: record.own_next_number.wrapping_add(1), clock: now, ..record };
    (sent, answer(0, written))
}

/// Tick: 101, 102, 105; 207 also by tick.
pub fn tick(record: Record, now: u32) -> (Record, Answer) {
    if record_faulty(&record) {
        (record, answer(101, 0))
    } else if record.phase == CLOSED {
        (record, answer(102, 0))
    } else if clock_goes_back(&record, now) {
        (record, answer(105, 0))
    } else if wait_expired(&record, now) {
        released(207, 0)
    } else {
        (Record { clock: now, ..record }, answer(0, 0))
    }
}

/// Close: 101, 102; its 0 says released.
pub fn close(record: Record) -> (Record, Answer) {
    if record_faulty(&record) {
        (record, answer(101, 0))
    } else if record.phase == CLOSED {
        (record, answer(102, 0))
    } else {
        released(0, 0)
    }
}
