//! Random packets to be written, from fixed seeds: each cause of 311, 312 and 313 on both sides of its bound, for both links.

use crate::calls::BEFORE;
use crate::given::Fields;
use crate::packet::{self, Link, Packet, CLASS_AT, CLASS_D, DATA_MOST};
use crate::random::Random;
use crate::streams::hex;

pub const HEADER: &str = "link version application_type number type room data = answer written";

/// So many bytes the user data and the out buffer have at most in a file.
const SIZE_MOST: usize = u16::MAX as usize;

/// A packet to be written, and how many bytes the out buffer has.
struct Trial {
    link: Link,
    version: u8,
    application: u8,
    number: u16,
    kind: u8,
    room: usize,
    data: Vec<u8>,
}

impl Trial {
    /// For a file: link 1 (1 normal, 0 redundant), version 1, application type 1, number 2, packet type 1, room 2, length 2, user data.
    fn bytes(&self) -> Vec<u8> {
        let mut bytes = vec![self.link.flag(), self.version, self.application];
        bytes.extend(self.number.to_be_bytes());
        bytes.push(self.kind);
        bytes.extend((self.room as u16).to_be_bytes());
        bytes.extend((self.data.len() as u16).to_be_bytes());
        bytes.extend(&self.data);
        bytes
    }

    /// The answer, the bytes written; `changed` where a byte past them did not stay.
    fn printed(&self) -> String {
        let mut out = vec![BEFORE; self.room];
        let packet = Packet { version: self.version, application: self.application, number: self.number, kind: self.kind, data: &self.data };
        let (answer, size) = packet::write(self.link, &packet, &mut out);
        let stayed = out[size..].iter().all(|byte| *byte == BEFORE);
        format!("{answer} {}{}", hex(&out[..size]), if stayed { "" } else { " changed" })
    }

    fn line(&self) -> String {
        let given = format!("{} {} {} {} {} {}", self.link.name(), self.version, self.application, self.number, self.kind, self.room);
        format!("{given} {} = {}", hex(&self.data), self.printed())
    }
}

/// The packet at the front of a file's rest: what is printed, and the rest after it.
pub fn given(rest: &[u8]) -> Option<(String, &[u8])> {
    let mut fields = Fields(rest);
    let link = if fields.byte()? == Link::Normal.flag() { Link::Normal } else { Link::Redundant };
    let (version, application, number, kind) = (fields.byte()?, fields.byte()?, fields.number()?, fields.byte()?);
    let (room, length) = (usize::from(fields.number()?), usize::from(fields.number()?));
    let trial = Trial { link, version, application, number, kind, room, data: fields.bytes(length)?.to_vec() };
    Some((trial.printed(), fields.0))
}

/// Mostly in class D, the opening types often; the class A types and those beside the listed ones.
fn some_kind(random: &mut Random) -> u8 {
    let any = random.byte();
    random.pick(&[1, 1, 1, 1, 1, 2, 2, 2, 3, 3, 3, 4, 4, 0, 5, 250, 251, 252, 253, 254, 255, any])
}

/// User data of 0 to 1,026 bytes: about what an opening packet asks, about the 1,024 that were once the most, and between.
fn some_length(random: &mut Random, kind: u8) -> usize {
    let between = random.between(0, 1026) as usize;
    match kind {
        packet::AU1 if !random.once_in(4) => random.pick(&[0, 8, 8, 9, 9, 9, 9, 10, 20]),
        packet::AU2 if !random.once_in(4) => random.pick(&[0, 3, 3, 4, 4, 4, 5, 20]),
        _ => random.pick(&[0, 1, 7, 100, between, 1023, 1024, 1025, 1026]),
    }
}

/// A long packet's type, mostly in class D.
fn some_long_kind(random: &mut Random) -> u8 {
    random.pick(&[packet::AU1, packet::AU1, packet::AU2, packet::DATA, packet::DATA, packet::DATA, packet::RELEASE, 251])
}

/// Long user data: about the most, and as much as the file's field can say.
fn some_long_length(random: &mut Random) -> usize {
    let within = random.between(0, DATA_MOST as u64) as usize;
    let over = random.between(DATA_MOST as u64 + 1, SIZE_MOST as u64) as usize;
    random.pick(&[DATA_MOST - 1, DATA_MOST, DATA_MOST, DATA_MOST, DATA_MOST + 1, DATA_MOST + 2, within, over, SIZE_MOST])
}

/// An out buffer on both sides of what is asked, also of what the longest packet asks.
fn some_room(random: &mut Random, total: usize, large: bool) -> usize {
    let most = packet::HEADER + DATA_MOST;
    let room = if large {
        random.pick(&[total - 1, total - 1, total, total, total + 1, most - 1, most, SIZE_MOST])
    } else {
        random.pick(&[0, 9, 10, total - 1, total - 1, total, total, total, total + 1, 1034, 2048])
    };
    room.min(SIZE_MOST)
}

/// One in a hundred is long, and some of the others have an out buffer that is large.
fn some_trial(random: &mut Random) -> Trial {
    let long = random.once_in(100);
    let kind = if long { some_long_kind(random) } else { some_kind(random) };
    let length = if long { some_long_length(random) } else { some_length(random, kind) };
    let mut data = random.bytes(length);
    if kind == packet::AU1 && length > CLASS_AT && !random.once_in(8) {
        data[CLASS_AT] = random.pick(&[CLASS_D, CLASS_D, CLASS_D, CLASS_D, 0, 2, 4]);
    }
    let any = random.number();
    let opens = kind == packet::AU1 || kind == packet::AU2;
    let number = if opens && !random.once_in(6) { 0 } else { random.pick(&[0, 1, 65535, any]) };
    let large = long || random.once_in(30);
    let room = some_room(random, packet::HEADER + length, large);
    let link = random.pick(&[Link::Normal, Link::Redundant]);
    Trial { link, version: random.byte(), application: random.byte(), number, kind, room, data }
}

/// So many random packets, the bytes and the line of each.
pub fn packets(seed: u64, count: usize) -> impl Iterator<Item = (Vec<u8>, String)> {
    let mut random = Random::new(seed);
    (0..count).map(move |_| {
        let trial = some_trial(&mut random);
        (trial.bytes(), trial.line())
    })
}
