//! Random and edge messages from fixed seeds: each length 0 to 1,001 for each type.

use crate::message::{self, After, Message};
use crate::random::Random;
use crate::streams::hex;

pub const HEADER: &str = "message = malformed | message = type number stamp last_peer_stamp own_count_at_arrival after = written";
const LENGTH_MOST: usize = 1001;
const TYPES: [u8; 9] = [0, 1, 2, 3, 4, 5, 6, 7, 255];
/// Types with one total only, and that total.
const TOTALS: [(u8, usize); 5] = [(1, 19), (2, 19), (3, 15), (4, 25), (5, 16)];
/// More messages of each of those totals, a round.
const MORE: usize = 60;

/// Sign and magnitude on both sides of each bound.
fn shape_offset(random: &mut Random, bytes: &mut [u8]) {
    bytes[0] = random.pick(&[0, 0, 0, 1, 1, 1, 2, 255]);
    let small = u32::from(random.number());
    let magnitude = random.pick(&[0, 1, small, 0x7FFF_FFFF, 0x8000_0000, 0x8000_0001, u32::MAX]);
    bytes[1..5].copy_from_slice(&magnitude.to_be_bytes());
}

/// Makes a good part of the messages of that type and length acceptable.
fn shape(random: &mut Random, bytes: &mut [u8]) {
    match (bytes.first(), bytes.len()) {
        (Some(&message::START), 15..) if !random.once_in(4) => {
            bytes[7..15].fill(0);
            if random.once_in(4) {
                bytes[random.between(7, 14) as usize] = 1;
            }
        }
        (Some(&message::EST), 25..) => {
            shape_offset(random, &mut bytes[15..20]);
            shape_offset(random, &mut bytes[20..25]);
        }
        (Some(&message::END), 16..) => bytes[15] = random.pick(&[0, 1, 1, 2, 255]),
        _ => {}
    }
}

fn some_message(random: &mut Random, kind: u8, length: usize) -> Vec<u8> {
    let mut bytes = random.bytes(length);
    if let Some(first) = bytes.first_mut() {
        *first = kind;
    }
    shape(random, &mut bytes);
    bytes
}

fn after_text(after: &After) -> String {
    match after {
        After::Start { period } | After::Answ1 { period } => format!("{period}"),
        After::Answ2 => String::from("-"),
        After::Est { min, max } => format!("{min} {max}"),
        After::End { valid } => format!("{}", u8::from(*valid)),
        After::Application { data } => format!("{}", data.len()),
    }
}

fn fields_text(message: &Message) -> String {
    format!(
        "{} {} {} {} {} {}",
        message::kind_of(&message.after), message.number, message.stamp, message.last_peer_stamp,
        message.own_count_at_arrival, after_text(&message.after)
    )
}

/// The line of one message.
pub fn line_of(bytes: &[u8]) -> String {
    match message::parse(bytes) {
        None => format!("{} = malformed", hex(bytes)),
        Some(parsed) => format!("{} = {} = {}", hex(bytes), fields_text(&parsed), hex(&message::bytes_of(&parsed))),
    }
}

/// One round: each length for each type, then more of the types with a single total.
fn round(random: &mut Random) -> Vec<Vec<u8>> {
    let mut made = Vec::new();
    for kind in TYPES {
        for length in 0..=LENGTH_MOST {
            made.push(some_message(random, kind, length));
        }
    }
    for (kind, total) in TOTALS {
        for _ in 0..MORE {
            made.push(some_message(random, kind, total));
        }
    }
    made
}

/// So many rounds.
pub fn messages(seed: u64, count: usize) -> impl Iterator<Item = Vec<u8>> {
    let mut random = Random::new(seed);
    (0..count).flat_map(move |_| round(&mut random))
}

/// A message's bytes for a file: length 2, bytes.
pub fn file_bytes(bytes: &[u8]) -> Vec<u8> {
    [&(bytes.len() as u16).to_be_bytes(), bytes].concat()
}
