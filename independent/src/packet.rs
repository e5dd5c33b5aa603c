//! 01's "Packets on a link": the header, its check, the constant table of packet types, and writing.

/// The links by their N/R flag: 1 on normal, 0 on redundant.
#[derive(Clone, Copy, PartialEq, Eq, Debug)]
pub enum Link {
    Normal,
    Redundant,
}

impl Link {
    pub fn flag(self) -> u8 {
        match self {
            Link::Normal => 1,
            Link::Redundant => 0,
        }
    }

    pub fn name(self) -> &'static str {
        match self {
            Link::Normal => "normal",
            Link::Redundant => "redundant",
        }
    }
}

/// Length 2, version 1, application type 1, transport number 2, N/R flag 1, packet type 1, check 2.
pub const HEADER: usize = 10;
/// The check is over the first 8 bytes, and the length counts the bytes after its own 2.
pub const CHECKED: usize = 8;
pub const LENGTH_FIELD: usize = 2;
pub const LENGTH_LEAST: usize = 8;
/// The most user data, of a packet that is read and of one that is written (02, No. 6); a length's most follows from it.
pub const DATA_MOST: usize = 65_000;
pub const LENGTH_MOST: usize = HEADER - LENGTH_FIELD + DATA_MOST;

pub const AU1: u8 = 1;
pub const AU2: u8 = 2;
pub const DATA: u8 = 3;
pub const RELEASE: u8 = 4;
/// Class D, the last of the fields that AU1's user data begins with.
pub const CLASS_D: u8 = 0x03;
pub const CLASS_AT: usize = 8;
/// The bytes of an id.
pub const ID: usize = 4;

/// What a type's user data must hold.
#[derive(Clone, Copy, PartialEq, Eq, Debug)]
pub enum Payload {
    /// Caller id 4, called id 4, class 1; numbered 0.
    CallerCalledClass,
    /// Answering id 4; numbered 0.
    Answering,
    /// Any user data, any number.
    Any,
    /// Judged in class A only, which is not in the base.
    ClassA,
}

/// One row of the constant table.
pub struct PacketType {
    pub number: u8,
    pub name: &'static str,
    pub class_a: bool,
    pub class_d: bool,
    pub links: &'static str,
    pub payload: Payload,
}

#[rustfmt::skip]
pub const TYPES: [PacketType; 8] = [
    PacketType { number: 1,   name: "AU1",     class_a: true, class_d: true,  links: "both in D, active in A", payload: Payload::CallerCalledClass },
    PacketType { number: 2,   name: "AU2",     class_a: true, class_d: true,  links: "both in D, active in A", payload: Payload::Answering },
    PacketType { number: 3,   name: "data",    class_a: true, class_d: true,  links: "both in D, active in A", payload: Payload::Any },
    PacketType { number: 4,   name: "release", class_a: true, class_d: true,  links: "both in D, active in A", payload: Payload::Any },
    PacketType { number: 251, name: "N to R",  class_a: true, class_d: false, links: "redundant",              payload: Payload::ClassA },
    PacketType { number: 253, name: "R to N",  class_a: true, class_d: false, links: "normal",                 payload: Payload::ClassA },
    PacketType { number: 254, name: "KANA",    class_a: true, class_d: false, links: "not active",             payload: Payload::ClassA },
    PacketType { number: 255, name: "KAA",     class_a: true, class_d: false, links: "active",                 payload: Payload::ClassA },
];

/// The row of a type in class D.
pub fn in_class_d(number: u8) -> Option<&'static PacketType> {
    TYPES.iter().find(|row| row.number == number && row.class_d)
}

/// The payload rule: AU1 and AU2 are numbered 0, long enough, and AU1 is of class D.
pub fn payload_kept(payload: Payload, number: u16, data: &[u8]) -> bool {
    match payload {
        Payload::CallerCalledClass => number == 0 && data.len() >= 9 && data[CLASS_AT] == CLASS_D,
        Payload::Answering => number == 0 && data.len() >= 4,
        Payload::Any => true,
        Payload::ClassA => false,
    }
}

/// Caller id and called id, with which an AU1 begins that keeps its payload rule.
pub fn ids_of(data: &[u8]) -> (u32, u32) {
    let id = |at: usize| u32::from_be_bytes([data[at], data[at + 1], data[at + 2], data[at + 3]]);
    (id(0), id(ID))
}

/// The check of 01: x^16+x^12+x^5+1, least significant bit of each byte first, the register all
/// ones at first, not inverted at the end; the highest term stands in the lowest bit.
pub fn check(bytes: &[u8]) -> u16 {
    let mut register = 0xFFFF_u16;
    for byte in bytes {
        for bit in 0..8 {
            let feedback = (register & 1) ^ u16::from(byte >> bit & 1);
            register >>= 1;
            if feedback == 1 {
                // x^0, x^5 and x^12 where x^15 is bit 0: bits 15, 10 and 3.
                register ^= 1 << 15 | 1 << 10 | 1 << 3;
            }
        }
    }
    register
}

/// The other bit order, which 004's annex table 14 follows: most significant bit first, start FFFF,
/// no reflection, no inversion. It decides nothing here.
pub fn check_other_order(bytes: &[u8]) -> u16 {
    let mut register = 0xFFFF_u16;
    for byte in bytes {
        for bit in (0..8).rev() {
            let feedback = (register >> 15) ^ u16::from(byte >> bit & 1);
            register <<= 1;
            if feedback == 1 {
                register ^= 1 << 12 | 1 << 5 | 1;
            }
        }
    }
    register
}

/// The fields of a packet (PKT-LAYOUT); of version and application type any value will do (PKT-KEPT).
#[derive(Clone, Copy, PartialEq, Eq, Debug)]
pub struct Packet<'a> {
    pub version: u8,
    pub application: u8,
    pub number: u16,
    pub kind: u8,
    pub data: &'a [u8],
}

/// A whole packet's bytes for a link, whatever they hold.
pub fn bytes_of(link: Link, packet: &Packet) -> Vec<u8> {
    let length = (HEADER - LENGTH_FIELD + packet.data.len()) as u16;
    let mut bytes = length.to_be_bytes().to_vec();
    bytes.push(packet.version);
    bytes.push(packet.application);
    bytes.extend(packet.number.to_be_bytes());
    bytes.push(link.flag());
    bytes.push(packet.kind);
    bytes.extend(check(&bytes).to_be_bytes());
    bytes.extend(packet.data);
    bytes
}

/// Writing a packet: 311, 312, 313 in this order with no byte written; else 0 and the bytes written.
pub fn write(link: Link, packet: &Packet, out: &mut [u8]) -> (u16, usize) {
    let allowed = match in_class_d(packet.kind) {
        Some(row) => payload_kept(row.payload, packet.number, packet.data),
        None => false,
    };
    let total = HEADER + packet.data.len();
    if !allowed {
        (311, 0)
    } else if packet.data.len() > DATA_MOST {
        (312, 0)
    } else if out.len() < total {
        (313, 0)
    } else {
        out[..total].copy_from_slice(&bytes_of(link, packet));
        (0, total)
    }
}
