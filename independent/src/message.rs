//! 01's "Messages inside": the six types taken apart and written.

pub const START: u8 = 1;
pub const ANSW1: u8 = 2;
pub const ANSW2: u8 = 3;
pub const EST: u8 = 4;
pub const END: u8 = 5;
pub const APPLICATION: u8 = 6;

/// Type 1, number 2, sender stamp 4, last peer stamp 4, own count at its arrival 4.
pub const HEADER: usize = 15;
/// No message is longer (MSG-TOTAL).
pub const MOST: usize = 1000;
pub const DATA_MOST: usize = MOST - HEADER;

/// What stands after the header.
#[derive(Clone, Copy, PartialEq, Eq, Debug)]
pub enum After<'a> {
    Start { period: u32 },
    Answ1 { period: u32 },
    Answ2,
    Est { min: i32, max: i32 },
    End { valid: bool },
    Application { data: &'a [u8] },
}

#[derive(Clone, Copy, PartialEq, Eq, Debug)]
pub struct Message<'a> {
    pub number: u16,
    pub stamp: u32,
    pub last_peer_stamp: u32,
    pub own_count_at_arrival: u32,
    pub after: After<'a>,
}

/// The table's column "total".
fn total_listed(kind: u8, total: usize) -> bool {
    match kind {
        START => total == 19,
        ANSW1 => total == 19,
        ANSW2 => total == 15,
        EST => total == 25,
        END => total == 16,
        APPLICATION => (HEADER..=MOST).contains(&total),
        _ => false,
    }
}

fn field32(bytes: &[u8], at: usize) -> u32 {
    u32::from_be_bytes([bytes[at], bytes[at + 1], bytes[at + 2], bytes[at + 3]])
}

/// Sign 0 with 0..2^31-1, or sign 1 with 1..2^31; other pairs are malformed.
pub fn offset_read(sign: u8, magnitude: u32) -> Option<i32> {
    match (sign, magnitude) {
        (0, 0..=0x7FFF_FFFF) => Some(magnitude as i32),
        (1, 1..=0x8000_0000) => Some((magnitude as i32).wrapping_neg()),
        _ => None,
    }
}

/// An offset as sign 1 and magnitude 4.
pub fn offset_bytes(offset: i32) -> [u8; 5] {
    let [a, b, c, d] = offset.unsigned_abs().to_be_bytes();
    [u8::from(offset < 0), a, b, c, d]
}

/// Any bytes are a message with its fields, or malformed (None).
pub fn parse(bytes: &[u8]) -> Option<Message<'_>> {
    let kind = *bytes.first()?;
    if !total_listed(kind, bytes.len()) {
        return None;
    }
    let after = match kind {
        START => After::Start { period: field32(bytes, 15) },
        ANSW1 => After::Answ1 { period: field32(bytes, 15) },
        ANSW2 => After::Answ2,
        EST => After::Est {
            min: offset_read(bytes[15], field32(bytes, 16))?,
            max: offset_read(bytes[20], field32(bytes, 21))?,
        },
        END if bytes[15] > 1 => return None,
        END => After::End { valid: bytes[15] == 1 },
        _ => After::Application { data: &bytes[HEADER..] },
    };
    let message = Message {
        number: u16::from_be_bytes([bytes[1], bytes[2]]),
        stamp: field32(bytes, 3),
        last_peer_stamp: field32(bytes, 7),
        own_count_at_arrival: field32(bytes, 11),
        after,
    };
    let later_stamps_zero = message.last_peer_stamp == 0 && message.own_count_at_arrival == 0;
    if kind == START && !later_stamps_zero {
        return None;
    }
    Some(message)
}

/// The type number of a message.
pub fn kind_of(after: &After) -> u8 {
    match after {
        After::Start { .. } => START,
        After::Answ1 { .. } => ANSW1,
        After::Answ2 => ANSW2,
        After::Est { .. } => EST,
        After::End { .. } => END,
        After::Application { .. } => APPLICATION,
    }
}

/// The bytes of a message.
pub fn bytes_of(message: &Message) -> Vec<u8> {
    let mut bytes = vec![kind_of(&message.after)];
    bytes.extend(message.number.to_be_bytes());
    bytes.extend(message.stamp.to_be_bytes());
    bytes.extend(message.last_peer_stamp.to_be_bytes());
    bytes.extend(message.own_count_at_arrival.to_be_bytes());
    match message.after {
        After::Start { period } | After::Answ1 { period } => bytes.extend(period.to_be_bytes()),
        After::Answ2 => {}
        After::Est { min, max } => {
            bytes.extend(offset_bytes(min));
            bytes.extend(offset_bytes(max));
        }
        After::End { valid } => bytes.push(u8::from(valid)),
        After::Application { data } => bytes.extend(data),
    }
    bytes
}

/// Writes a message into an out buffer that holds it; bytes past what is written stay.
pub fn write(message: &Message, out: &mut [u8]) -> usize {
    let bytes = bytes_of(message);
    out[..bytes.len()].copy_from_slice(&bytes);
    bytes.len()
}

/// The fields that a message may have, each given, whatever its type.
#[derive(Clone, Copy, PartialEq, Eq, Debug)]
pub struct Parts {
    pub kind: u8,
    pub number: u16,
    pub stamp: u32,
    pub last_peer_stamp: u32,
    pub own_count_at_arrival: u32,
    pub period: u32,
    pub min: i32,
    pub max: i32,
    pub check: u8,
    pub said_length: u32,
}

/// The total of a message of that type with so many bytes of data; none where 01 lists none.
pub fn total_of(kind: u8, data: usize) -> Option<usize> {
    let total = match kind {
        START | ANSW1 => 19,
        ANSW2 => 15,
        EST => 25,
        END => 16,
        _ => HEADER + data,
    };
    Some(total).filter(|total| total_listed(kind, *total))
}

/// Writes a message from its fields, the data where its type has some; or none where it would be malformed, where the data has another length than is
/// said, or where the out buffer is too short. A check byte over 1 is refused in every type.
pub fn write_parts(parts: &Parts, data: &[u8], out: &mut [u8]) -> usize {
    let after = match parts.kind {
        START => After::Start { period: parts.period },
        ANSW1 => After::Answ1 { period: parts.period },
        ANSW2 => After::Answ2,
        EST => After::Est { min: parts.min, max: parts.max },
        END => After::End { valid: parts.check == 1 },
        APPLICATION => After::Application { data },
        _ => return 0,
    };
    let Some(total) = total_of(parts.kind, data.len()) else {
        return 0;
    };
    let later_stamps = parts.last_peer_stamp != 0 || parts.own_count_at_arrival != 0;
    let said = parts.kind != APPLICATION || parts.said_length as usize == data.len();
    if parts.kind == START && later_stamps || parts.check > 1 || !said || out.len() < total {
        return 0;
    }
    let (number, stamp) = (parts.number, parts.stamp);
    write(&Message { number, stamp, last_peer_stamp: parts.last_peer_stamp, own_count_at_arrival: parts.own_count_at_arrival, after }, out)
}
