//! Makes a random call for a record: mostly one that goes well, and each fault, also several at once.

use crate::connection::{self, Record, Settings};
use crate::message::{self, After, Message};
use crate::random::Random;
use crate::replay::{BEGIN, BEGIN_SIZE, CLOSE, RECEIVE, SEND, TICK};

/// A call before it is put on a slot.
pub struct Crafted {
    pub kind: u8,
    pub now: u32,
    pub bytes: Vec<u8>,
}

/// Settings in range, the bounds often.
pub fn some_settings(random: &mut Random) -> Settings {
    let t_max = random.pick(&[1, 2, 40, 100, 5000, 60_000]);
    Settings {
        n: random.pick(&[1, 2, 3, 3, 10, 1000]),
        t_max,
        e: random.pick(&[0, 0, 1, t_max / 2, t_max]),
        t_start: random.pick(&[1, 2, 50, 100, 5000, 60_000]),
        t_off: random.pick(&[0, 1, 10, 60_000]),
        limit: random.pick(&[1, 2, 3, 5, 255]),
    }
}

/// Settings with one of them just or far out of range.
pub fn some_settings_out_of_range(random: &mut Random) -> Settings {
    let mut settings = some_settings(random);
    match random.below(6) {
        0 => settings.n = random.pick(&[0, 1001, 65535]),
        1 => settings.t_max = random.pick(&[0, 60_001, u32::MAX]),
        2 => settings.e = random.pick(&[settings.t_max + 1, u32::MAX]),
        3 => settings.t_start = random.pick(&[0, 60_001, u32::MAX]),
        4 => settings.t_off = random.pick(&[60_001, u32::MAX]),
        _ => settings.limit = 0,
    }
    settings
}

/// Begin's bytes.
pub fn begin_bytes(role: u8, settings: &Settings, first_number: u16, period: u32) -> Vec<u8> {
    let mut bytes = vec![role];
    bytes.extend(settings.n.to_be_bytes());
    bytes.extend(settings.t_max.to_be_bytes());
    bytes.extend(settings.e.to_be_bytes());
    bytes.extend(settings.t_start.to_be_bytes());
    bytes.extend(settings.t_off.to_be_bytes());
    bytes.push(settings.limit);
    bytes.extend(first_number.to_be_bytes());
    bytes.extend(period.to_be_bytes());
    bytes
}

/// A begin: in range, or a setting, the role or the size out of it.
fn some_begin(random: &mut Random) -> Vec<u8> {
    let fault = random.below(12);
    let settings = if fault == 0 { some_settings_out_of_range(random) } else { some_settings(random) };
    let role = if fault == 1 { random.pick(&[2, 255]) } else { random.below(2) as u8 };
    let first_number = random.pick(&[0, 7, 65534, 65535]);
    let period = random.pick(&[0, 50, u32::MAX]);
    let mut bytes = begin_bytes(role, &settings, first_number, period);
    if fault == 2 {
        bytes.resize(random.pick(&[0, 1, BEGIN_SIZE - 1, BEGIN_SIZE + 1, 1000]), 0);
    }
    bytes
}

/// A now that is accepted: not before the remembered clock, and before a running wait's end.
fn good_now(random: &mut Random, record: &Record) -> u32 {
    let mut most = random.pick(&[0, 1, 5, 30]);
    if connection::wait_has_timer(record.phase) {
        let end = record.wait_start.wrapping_add(record.settings.t_start).wrapping_sub(1);
        let left = end.wrapping_sub(record.clock);
        if random.once_in(8) && left < 60_000 {
            return end;
        }
        most = most.min(left.min(60_000));
    } else if random.once_in(100) {
        return record.clock.wrapping_add(0x7FFF_FFFF);
    }
    record.clock.wrapping_add(random.below(u64::from(most) + 1) as u32)
}

/// A now that goes back, or that ends the wait.
fn other_now(random: &mut Random, record: &Record) -> u32 {
    if random.once_in(2) {
        record.clock.wrapping_sub(random.pick(&[1, 2, 1000, 0x7FFF_FFFF, 0x8000_0000]))
    } else {
        let late = random.pick(&[0, 0, 1, 500, 100_000]);
        record.wait_start.wrapping_add(record.settings.t_start).wrapping_add(late)
    }
}

/// Any now: mostly accepted.
fn some_now(random: &mut Random, record: &Record) -> u32 {
    if random.once_in(16) { other_now(random, record) } else { good_now(random, record) }
}

/// The number of the next message: mostly d = 1, and d on both sides of each bound.
fn some_number(random: &mut Random, record: &Record) -> u16 {
    let n = record.settings.n;
    let d = if random.once_in(4) {
        random.pick(&[0, 2, 2, n, n, n.wrapping_add(1), 32767, 32768, 65535])
    } else {
        1
    };
    record.last_number.wrapping_add(d)
}

/// A stamp for an application message, by the age it shall have.
fn some_stamp(random: &mut Random, record: &Record, now: u32) -> u32 {
    let t_max = record.settings.t_max;
    let age = if random.once_in(4) {
        random.pick(&[t_max.wrapping_add(1), t_max.wrapping_add(1), 0x7FFF_FFFF, u32::MAX, u32::MAX, 0x8000_0000])
    } else {
        random.pick(&[0, 1, t_max / 2, t_max])
    };
    // age = now - stamp + E - min
    now.wrapping_add(record.settings.e).wrapping_sub(record.min as u32).wrapping_sub(age)
}

/// OffsetEst for the initiator's check: mostly accepted, and each of its three parts failing.
fn some_est(random: &mut Random, record: &Record) -> After<'static> {
    let t_off = record.settings.t_off as i32;
    let exact = record.max.wrapping_neg();
    let min = if random.once_in(8) { exact.wrapping_add(random.pick(&[1, -1, 1 << 30])) } else { exact };
    let beside = if random.once_in(5) {
        random.pick(&[t_off.wrapping_add(1), (-1_i32).wrapping_sub(t_off), i32::MIN, i32::MAX])
    } else {
        random.pick(&[0, t_off, -t_off, t_off / 2])
    };
    After::Est { min, max: record.min.wrapping_neg().wrapping_add(beside) }
}

/// Answ1's R1 and R2: mostly the peer takes no longer than the exchange lasted.
fn some_answ1_counts(random: &mut Random, record: &Record, now: u32) -> (u32, u32) {
    let arrival = random.count();
    let lasted = now.wrapping_sub(record.wait_start).min(60_000);
    let taken = random.below(u64::from(lasted) + 1) as u32 + u32::from(random.once_in(8)) * (lasted + 1);
    (arrival, arrival.wrapping_add(taken))
}

/// The message that the record waits for.
fn some_expected(random: &mut Random, record: &Record, now: u32, data: &[u8]) -> Vec<u8> {
    let kind = connection::expected(record.phase);
    let (r1, r2) = some_answ1_counts(random, record, now);
    let (stamp, own_count_at_arrival) = match kind {
        message::START => (random.count(), 0),
        message::ANSW1 => (r2, r1),
        message::APPLICATION => (some_stamp(random, record, now), random.count()),
        _ => (random.count(), random.count()),
    };
    let echo_faulty = random.once_in(10);
    let last_peer_stamp = match kind {
        message::START => 0,
        message::APPLICATION => random.count(),
        _ => record.wait_start.wrapping_add(u32::from(echo_faulty)),
    };
    let period = random.count();
    let after = match kind {
        message::START => After::Start { period },
        message::ANSW1 => After::Answ1 { period },
        message::ANSW2 => After::Answ2,
        message::EST => some_est(random, record),
        message::END => After::End { valid: !random.once_in(6) },
        _ => After::Application { data },
    };
    let number = some_number(random, record);
    message::bytes_of(&Message { number, stamp, last_peer_stamp, own_count_at_arrival, after })
}

/// Damages a message so that it is, as a rule, malformed or of another type.
fn damage(random: &mut Random, bytes: &mut Vec<u8>) {
    match random.below(10) {
        0 => bytes.clear(),
        1 => {
            bytes.pop();
        }
        2 => bytes.push(0),
        3 => bytes[0] = random.pick(&[0, 7, 128, 255]),
        4 => {
            let at = random.below(bytes.len().min(25) as u64) as usize;
            bytes[at] ^= 0xFF;
        }
        5 => bytes.truncate(14),
        6 => bytes.extend([2; 10]),
        7 | 8 => just_malformed(random, bytes),
        _ => *bytes = of_another_type(random),
    }
    bytes.truncate(1000);
}

/// Just over a bound: a check byte of 2, sign 1 with 0, sign 0 with 2^31, a later stamp of 1 in type 1; else one byte short.
fn just_malformed(random: &mut Random, bytes: &mut Vec<u8>) {
    match bytes[0] {
        message::END => bytes[15] = 2,
        message::EST => {
            let at = random.pick(&[15, 20]);
            let pair = random.pick(&[[1, 0, 0, 0, 0], [0, 0x80, 0, 0, 0]]);
            bytes[at..at + 5].copy_from_slice(&pair);
        }
        message::START => bytes[random.pick(&[7, 10, 11, 14])] = 1,
        _ => {
            bytes.pop();
        }
    }
}

/// A message of some type that can be taken apart.
fn of_another_type(random: &mut Random) -> Vec<u8> {
    let after = match random.between(1, 6) {
        1 => After::Start { period: 1 },
        2 => After::Answ1 { period: 1 },
        3 => After::Answ2,
        4 => After::Est { min: -1, max: 1 },
        5 => After::End { valid: true },
        _ => After::Application { data: &[1, 2, 3] },
    };
    let start = matches!(after, After::Start { .. });
    let later = if start { 0 } else { random.count() };
    message::bytes_of(&Message { number: random.number(), stamp: random.count(), last_peer_stamp: later, own_count_at_arrival: later, after })
}

/// Application data of any length that a record of a trace holds, the bounds often.
fn some_data(random: &mut Random, most: usize) -> Vec<u8> {
    let length = match random.below(10) {
        0 => random.pick(&[0, most, most - 1]),
        1 => random.below(most as u64 + 1) as usize,
        _ => random.below(20) as usize,
    };
    random.bytes(length)
}

fn some_received(random: &mut Random, record: &Record, now: u32) -> Vec<u8> {
    let data = some_data(random, message::DATA_MOST);
    let mut bytes = some_expected(random, record, now, &data);
    if random.once_in(9) {
        damage(random, &mut bytes);
    }
    bytes
}

/// A kind of call for a record: begin where closed, receive most often else.
fn some_kind(random: &mut Random, record: &Record) -> u8 {
    let kinds = if record.phase == connection::CLOSED {
        [BEGIN, BEGIN, BEGIN, BEGIN, BEGIN, BEGIN, BEGIN, BEGIN, BEGIN, BEGIN, BEGIN, RECEIVE, SEND, TICK, CLOSE, BEGIN]
    } else {
        [RECEIVE, RECEIVE, RECEIVE, RECEIVE, RECEIVE, RECEIVE, RECEIVE, RECEIVE, RECEIVE, RECEIVE, SEND, SEND, TICK, TICK, BEGIN, RECEIVE]
    };
    let kind = random.pick(&kinds);
    if random.once_in(60) { CLOSE } else { kind }
}

/// A random call for a record.
pub fn some_call(random: &mut Random, record: &Record) -> Crafted {
    let kind = some_kind(random, record);
    some_call_of(random, record, kind)
}

/// A random call of that kind for a record.
pub fn some_call_of(random: &mut Random, record: &Record, kind: u8) -> Crafted {
    let now = some_now(random, record);
    let bytes = match kind {
        BEGIN => some_begin(random),
        RECEIVE => some_received(random, record, now),
        SEND if random.once_in(10) => random.bytes(986),
        SEND => some_data(random, 1000),
        _ => some_data(random, 40),
    };
    Crafted { kind, now, bytes }
}
