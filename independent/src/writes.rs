//! Random messages to be written from their fields, from fixed seeds: each that 01's table allows, and each cause to write none.

use crate::calls::BEFORE;
use crate::given::Fields;
use crate::message::{self, Parts, APPLICATION, DATA_MOST, END, START};
use crate::random::Random;
use crate::streams::hex;

pub const HEADER: &str = "type number stamp last_peer_stamp own_count_at_arrival period min max check said_length room data = count written";

struct Trial {
    parts: Parts,
    room: usize,
    data: Vec<u8>,
}

impl Trial {
    /// For a file: type 1, number 2, stamp 4, last peer stamp 4, own count at its arrival 4, period 4, min 4, max 4 (in two's complement), check byte 1, said
    /// length of the data 4, room 2, length 2, data.
    fn bytes(&self) -> Vec<u8> {
        let parts = &self.parts;
        let mut bytes = vec![parts.kind];
        bytes.extend(parts.number.to_be_bytes());
        for count in [parts.stamp, parts.last_peer_stamp, parts.own_count_at_arrival, parts.period, parts.min as u32, parts.max as u32] {
            bytes.extend(count.to_be_bytes());
        }
        bytes.push(parts.check);
        bytes.extend(parts.said_length.to_be_bytes());
        bytes.extend((self.room as u16).to_be_bytes());
        bytes.extend((self.data.len() as u16).to_be_bytes());
        bytes.extend(&self.data);
        bytes
    }

    /// How many bytes are written, and the bytes; `changed` where a byte past them did not stay.
    fn printed(&self) -> String {
        let mut out = vec![BEFORE; self.room];
        let size = message::write_parts(&self.parts, &self.data, &mut out);
        let stayed = out[size..].iter().all(|byte| *byte == BEFORE);
        format!("{size} {}{}", hex(&out[..size]), if stayed { "" } else { " changed" })
    }

    fn line(&self) -> String {
        let parts = &self.parts;
        let header = format!("{} {} {} {} {}", parts.kind, parts.number, parts.stamp, parts.last_peer_stamp, parts.own_count_at_arrival);
        let after = format!("{} {} {} {} {}", parts.period, parts.min, parts.max, parts.check, parts.said_length);
        format!("{header} {after} {} {} = {}", self.room, hex(&self.data), self.printed())
    }
}

/// The message at the front of a file's rest: what is printed, and the rest after it.
pub fn given(rest: &[u8]) -> Option<(String, &[u8])> {
    let mut fields = Fields(rest);
    let parts = Parts {
        kind: fields.byte()?,
        number: fields.number()?,
        stamp: fields.count()?,
        last_peer_stamp: fields.count()?,
        own_count_at_arrival: fields.count()?,
        period: fields.count()?,
        min: fields.count()? as i32,
        max: fields.count()? as i32,
        check: fields.byte()?,
        said_length: fields.count()?,
    };
    let (room, length) = (usize::from(fields.number()?), usize::from(fields.number()?));
    let trial = Trial { parts, room, data: fields.bytes(length)?.to_vec() };
    Some((trial.printed(), fields.0))
}

fn some_offset(random: &mut Random) -> i32 {
    let any = random.count() as i32;
    random.pick(&[0, 1, -1, 830, -880, i32::MAX, i32::MIN, i32::MIN + 1, any, any])
}

/// The later stamps of type 1 are mostly 0.
fn some_later(random: &mut Random, kind: u8) -> u32 {
    let any = random.count();
    if kind == START && !random.once_in(10) { 0 } else { random.pick(&[0, 1, any, any, any]) }
}

fn some_trial(random: &mut Random) -> Trial {
    let kind = random.pick(&[1, 2, 3, 4, 5, 6, 6, 6, 6, 1, 2, 4, 5, 0, 7, 255]);
    let between = random.between(0, 1000) as usize;
    let length = match kind {
        APPLICATION => random.pick(&[0, 1, 20, between, DATA_MOST - 1, DATA_MOST, DATA_MOST + 1, 1000, 1500]),
        _ => random.pick(&[0, 0, 0, 5]),
    };
    let said = length as u32;
    let said_length = if random.once_in(5) { random.pick(&[0, said + 1, said.saturating_sub(1), u32::MAX]) } else { said };
    let check = if random.once_in(if kind == END { 5 } else { 20 }) { random.pick(&[2, 3, 255]) } else { random.below(2) as u8 };
    let parts = Parts {
        kind,
        number: random.pick(&[0, 7, 65535]),
        stamp: random.count(),
        last_peer_stamp: some_later(random, kind),
        own_count_at_arrival: some_later(random, kind),
        period: random.count(),
        min: some_offset(random),
        max: some_offset(random),
        check,
        said_length,
    };
    let total = message::total_of(kind, length).unwrap_or(15);
    let room = random.pick(&[0, total - 1, total - 1, total, total, total + 1, 1000, 2000]);
    Trial { parts, room, data: random.bytes(length) }
}

/// So many random messages, the bytes and the line of each.
pub fn writes(seed: u64, count: usize) -> impl Iterator<Item = (Vec<u8>, String)> {
    let mut random = Random::new(seed);
    (0..count).map(move |_| {
        let trial = some_trial(&mut random);
        (trial.bytes(), trial.line())
    })
}
