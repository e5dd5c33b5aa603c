//! 01's "Trace replay": the records of a trace file, played on 64 slots, and what is printed.

use crate::connection::{Answer, Record, Settings};
use crate::links::Role;
use crate::table::{self, Begin};
use std::fmt::Write;

pub const MARK: [u8; 2] = [0x52, 0x32];
pub const BEGIN: u8 = 1;
pub const RECEIVE: u8 = 2;
pub const SEND: u8 = 3;
pub const TICK: u8 = 4;
pub const CLOSE: u8 = 5;
/// Mark 2, kind 1, slot 1, now 4, length 2.
pub const HEADER: usize = 10;
pub const LENGTH_MOST: usize = 1000;
pub const OUT: usize = 1000;
/// Role 1, N 2, T_max 4, E 4, T_start 4, T_off 4, limit 1, first number 2, period 4.
pub const BEGIN_SIZE: usize = 26;

#[derive(Clone, Copy, PartialEq, Eq, Debug)]
pub struct Call<'a> {
    pub kind: u8,
    pub slot: u8,
    pub now: u32,
    pub bytes: &'a [u8],
}

/// The record at the start of a trace's rest and the rest after it; None where the record is `bad`
/// (TRACE-8 to TRACE-11).
pub fn record_of(rest: &[u8]) -> Option<(Call<'_>, &[u8])> {
    let header = rest.get(..HEADER)?;
    let length = usize::from(u16::from_be_bytes([header[8], header[9]]));
    if header[..2] != MARK || !(BEGIN..=CLOSE).contains(&header[2]) || length > LENGTH_MOST {
        return None;
    }
    let bytes = rest.get(HEADER..HEADER + length)?;
    let now = u32::from_be_bytes([header[4], header[5], header[6], header[7]]);
    Some((Call { kind: header[2], slot: header[3], now, bytes }, &rest[HEADER + length..]))
}

/// A record's bytes, for the makers of traces.
pub fn bytes_of(call: &Call) -> Vec<u8> {
    let mut bytes = MARK.to_vec();
    bytes.push(call.kind);
    bytes.push(call.slot);
    bytes.extend(call.now.to_be_bytes());
    bytes.extend((call.bytes.len() as u16).to_be_bytes());
    bytes.extend(call.bytes);
    bytes
}

/// Begin's bytes; another size or role leaves no role, which gives 104 in its place.
pub fn begin_of(bytes: &[u8]) -> Begin {
    let mut whole = [0_u8; BEGIN_SIZE];
    if bytes.len() == BEGIN_SIZE {
        whole.copy_from_slice(bytes);
    } else {
        whole[0] = 0xFF;
    }
    let field16 = |at: usize| u16::from_be_bytes([whole[at], whole[at + 1]]);
    let field32 = |at: usize| u32::from_be_bytes([whole[at], whole[at + 1], whole[at + 2], whole[at + 3]]);
    Begin {
        role: match whole[0] {
            0 => Some(Role::Initiator),
            1 => Some(Role::Responder),
            _ => None,
        },
        settings: Settings { n: field16(1), t_max: field32(3), e: field32(7), t_start: field32(11), t_off: field32(15), limit: whole[19] },
        first_number: field16(20),
        period: field32(22),
    }
}

/// One call on the table. Ticks and closes pass no bytes on (TRACE-7).
pub fn play(records: &mut [Record], call: &Call, out: &mut [u8]) -> Answer {
    let slot = usize::from(call.slot);
    match call.kind {
        BEGIN => table::begin(records, slot, &begin_of(call.bytes), call.now, out),
        RECEIVE => table::receive(records, slot, call.now, call.bytes, out),
        SEND => table::send(records, slot, call.now, call.bytes, out),
        TICK => table::tick(records, slot, call.now),
        _ => table::close(records, slot),
    }
}

/// What the replay prints for a whole trace.
pub fn replay(trace: &[u8]) -> String {
    let mut records = table::closed();
    let mut out = [0_u8; OUT];
    let mut rest = trace;
    let mut count = 0;
    let mut printed = String::from("slot answer age\n");
    while !rest.is_empty() {
        let Some((call, after)) = record_of(rest) else {
            printed.push_str("bad\n");
            break;
        };
        let answer = play(&mut records, &call, &mut out);
        writeln!(printed, "{} {} {}", call.slot, answer.number, answer.age).unwrap();
        count += 1;
        rest = after;
    }
    writeln!(printed, "end {count}").unwrap();
    printed
}
