//! Random histories of connection calls from random records on, from fixed seeds, also faulty ones and short out buffers.

use crate::connection::{self, Answer, Record, Settings};
use crate::craft;
use crate::given::Fields;
use crate::random::Random;
use crate::replay::{self, BEGIN, RECEIVE, SEND, TICK};
use crate::streams::hex;
use crate::traces::call_name;

pub const HEADER: &str = "RECORD call now bytes room = answer released written delivered_at delivered age RECORD, where RECORD is \
     phase n t_max e t_start t_off limit own_next_number period last_number peer_stamp arrival wait_start min max errors clock";

/// What the out buffer holds before each call.
pub const BEFORE: u8 = 0xA5;

pub fn record_text(record: &Record) -> String {
    let set = &record.settings;
    format!(
        "{} {} {} {} {} {} {} {} {} {} {} {} {} {} {} {} {}",
        record.phase, set.n, set.t_max, set.e, set.t_start, set.t_off, set.limit, record.own_next_number, record.period,
        record.last_number, record.peer_stamp, record.arrival, record.wait_start, record.min, record.max, record.errors, record.clock
    )
}

/// Any record: mostly a valid one in any phase, sometimes closed with leftovers, sometimes faulty.
pub fn some_record(random: &mut Random) -> Record {
    let settings = if random.once_in(40) { craft::some_settings_out_of_range(random) } else { craft::some_settings(random) };
    let phase = if random.once_in(40) { random.pick(&[7, 8, 255]) } else { random.below(7) as u8 };
    let under = random.below(u64::from(settings.limit.max(1))) as u8;
    let wait_start = random.count();
    let since = random.below(u64::from(settings.t_start.clamp(1, 60_000))) as u32;
    let any = random.count() as i32;
    let min = random.pick(&[830, -880, i32::MIN, i32::MAX, any]);
    Record {
        phase,
        settings,
        own_next_number: random.pick(&[0, 1, 65535, 77]),
        period: random.count(),
        last_number: random.pick(&[0, 10, 65535, 65534, 32768]),
        peer_stamp: random.count(),
        arrival: random.count(),
        wait_start,
        min,
        max: min.wrapping_add(random.pick(&[0, 1, 50, -1, i32::MAX])),
        errors: if random.once_in(40) { random.pick(&[settings.limit, 255]) } else { under },
        clock: wait_start.wrapping_add(since),
    }
}

/// An out buffer's length: on both sides of what each call asks.
pub fn some_room(random: &mut Random, kind: u8, bytes: &[u8]) -> usize {
    let asked = match kind {
        BEGIN => 19,
        RECEIVE => 25,
        SEND => 15 + bytes.len(),
        _ => 0,
    };
    match random.below(8) {
        0 => 0,
        1 => asked.saturating_sub(1),
        2 => asked,
        3 => asked + 1,
        _ => 1000,
    }
}

fn played(record: Record, crafted: &craft::Crafted, out: &mut [u8]) -> (Record, Answer) {
    match crafted.kind {
        BEGIN => {
            let given = replay::begin_of(&crafted.bytes);
            connection::begin(record, given.role, given.settings, given.first_number, given.period, crafted.now, out)
        }
        RECEIVE => connection::receive(record, crafted.now, &crafted.bytes, out),
        SEND => connection::send(record, crafted.now, &crafted.bytes, out),
        TICK => connection::tick(record, crafted.now),
        _ => connection::close(record),
    }
}

/// A record's bytes: its fields in the order of RECORD, big-endian, offsets in two's complement: 53 bytes.
pub fn record_bytes(record: &Record) -> Vec<u8> {
    let set = &record.settings;
    let mut bytes = vec![record.phase];
    bytes.extend(set.n.to_be_bytes());
    for setting in [set.t_max, set.e, set.t_start, set.t_off] {
        bytes.extend(setting.to_be_bytes());
    }
    bytes.push(set.limit);
    bytes.extend(record.own_next_number.to_be_bytes());
    bytes.extend(record.period.to_be_bytes());
    bytes.extend(record.last_number.to_be_bytes());
    for count in [record.peer_stamp, record.arrival, record.wait_start, record.min as u32, record.max as u32] {
        bytes.extend(count.to_be_bytes());
    }
    bytes.push(record.errors);
    bytes.extend(record.clock.to_be_bytes());
    bytes
}

/// A call's bytes for a file: the record, kind 1 as in a trace, now 4, room 2, length 2, bytes.
fn call_bytes(record: &Record, crafted: &craft::Crafted, room: usize) -> Vec<u8> {
    let mut bytes = record_bytes(record);
    bytes.push(crafted.kind);
    bytes.extend(crafted.now.to_be_bytes());
    bytes.extend((room as u16).to_be_bytes());
    bytes.extend((crafted.bytes.len() as u16).to_be_bytes());
    bytes.extend(&crafted.bytes);
    bytes
}

/// An answer's words; the out buffer past what is written must have stayed.
pub fn answer_text(answer: &Answer, out: &[u8], bytes: &[u8]) -> String {
    let (written, stayed) = out.split_at(answer.written);
    assert!(stayed.iter().all(|byte| *byte == BEFORE), "bytes past what is written changed");
    let delivered = &bytes[answer.delivered.clone()];
    // an empty part is written as one that starts at 0
    let delivered_at = if delivered.is_empty() { 0 } else { answer.delivered.start };
    format!("{} {} {} {delivered_at} {} {}", answer.number, u8::from(answer.released), hex(written), hex(delivered), answer.age)
}

/// The line of one call, and the record that it leaves.
fn line_of(record: Record, crafted: &craft::Crafted, room: usize) -> (String, Record) {
    let mut out = vec![BEFORE; room];
    let (after, answer) = played(record, crafted, &mut out);
    let line = format!(
        "{} {} {} {} {room} = {} {}",
        record_text(&record), call_name(crafted.kind), crafted.now, hex(&crafted.bytes), answer_text(&answer, &out, &crafted.bytes), record_text(&after)
    );
    (line, after)
}

/// The bytes and the line of one call, and the record that it leaves.
fn some_trial(random: &mut Random, record: Record) -> (Vec<u8>, String, Record) {
    let crafted = craft::some_call(random, &record);
    let room = some_room(random, crafted.kind, &crafted.bytes);
    let (line, after) = line_of(record, &crafted, room);
    (call_bytes(&record, &crafted, room), line, after)
}

/// The line of the call at the front of a file's rest, and the rest after it; None where no whole call is there.
pub fn given(rest: &[u8]) -> Option<(String, &[u8])> {
    let mut fields = Fields(rest);
    let record = record_of(&mut fields)?;
    let (kind, now) = (fields.byte()?, fields.count()?);
    let (room, length) = (usize::from(fields.number()?), usize::from(fields.number()?));
    let crafted = craft::Crafted { kind, now, bytes: fields.bytes(length)?.to_vec() };
    Some((line_of(record, &crafted, room).0, fields.0))
}

/// The record at the front of a file's rest.
pub fn record_of(fields: &mut Fields) -> Option<Record> {
    Some(Record {
        phase: fields.byte()?,
        settings: Settings {
            n: fields.number()?,
            t_max: fields.count()?,
            e: fields.count()?,
            t_start: fields.count()?,
            t_off: fields.count()?,
            limit: fields.byte()?,
        },
        own_next_number: fields.number()?,
        period: fields.count()?,
        last_number: fields.number()?,
        peer_stamp: fields.count()?,
        arrival: fields.count()?,
        wait_start: fields.count()?,
        min: fields.count()? as i32,
        max: fields.count()? as i32,
        errors: fields.byte()?,
        clock: fields.count()?,
    })
}

/// So many random calls, the bytes and the line of each: histories of calls, each on the record that the call before left, from a random record on.
pub fn calls(seed: u64, count: usize) -> impl Iterator<Item = (Vec<u8>, String)> {
    let mut random = Random::new(seed);
    let mut left = None;
    (0..count).map(move |_| {
        let record = match left {
            Some(record) if !random.once_in(4) => record,
            _ => some_record(&mut random),
        };
        let (bytes, line, after) = some_trial(&mut random, record);
        left = Some(after);
        (bytes, line)
    })
}
