//! 01's "Taking one packet from two links" with the row 310 of 02's No. 9: one step, and the loop of the program `cut`.

use crate::packet::{self, Link, Packet};
use std::fmt::Write;

#[derive(Clone, Copy, PartialEq, Eq, Debug)]
pub enum Role {
    Initiator,
    Responder,
}

/// The state goes in and comes back by value.
#[derive(Clone, Copy, PartialEq, Eq, Debug)]
pub struct State {
    pub normal_up: bool,
    pub redundant_up: bool,
    pub role: Role,
    pub strict: bool,
    /// No packet was handed up yet.
    pub first: bool,
    /// The number last handed up.
    pub last: u16,
}

/// LINK-FRESH: what the first step starts from.
pub fn fresh(role: Role, strict: bool) -> State {
    State { normal_up: true, redundant_up: true, role, strict, first: true, last: 0 }
}

/// LINK-LIST: our own id, and the lent list of those who may call us, 4 bytes each, one behind the other.
#[derive(Clone, Copy, PartialEq, Eq, Debug)]
pub struct Known<'a> {
    pub ours: u32,
    pub callers: &'a [u8],
}

/// What a step answers: the link it names, the bytes of that link used up, the packet handed up.
#[derive(Clone, Copy, PartialEq, Eq, Debug)]
pub struct Step<'a> {
    pub answer: u16,
    pub link: Link,
    pub used: usize,
    pub packet: Option<Packet<'a>>,
}

/// A link's bytes from its place on, none where that lies behind the end (LINK-PAST).
pub fn rest(bytes: &[u8], place: usize) -> &[u8] {
    &bytes[place.min(bytes.len())..]
}

/// The length field, seen at 2 bytes.
fn length_of(bytes: &[u8]) -> Option<usize> {
    let field = bytes.get(..packet::LENGTH_FIELD)?;
    Some(usize::from(u16::from_be_bytes([field[0], field[1]])))
}

fn length_fault(length: usize) -> bool {
    length < packet::LENGTH_LEAST || length > packet::LENGTH_MOST
}

/// LINK-LOOK: something to judge.
fn judgeable(bytes: &[u8]) -> bool {
    match length_of(bytes) {
        None => false,
        Some(length) => length_fault(length) || bytes.len() >= packet::LENGTH_FIELD + length,
    }
}

/// The fields of a whole packet, its flag and its check.
fn taken_apart(bytes: &[u8]) -> (Packet<'_>, u8, u16) {
    let taken = Packet {
        version: bytes[2],
        application: bytes[3],
        number: u16::from_be_bytes([bytes[4], bytes[5]]),
        kind: bytes[7],
        data: &bytes[packet::HEADER..],
    };
    (taken, bytes[6], u16::from_be_bytes([bytes[8], bytes[9]]))
}

/// The row 309: AU1 for the responder, AU2 for the initiator, with its payload rule.
fn first_kept(role: Role, taken: &Packet) -> bool {
    let wanted = match role {
        Role::Responder => packet::AU1,
        Role::Initiator => packet::AU2,
    };
    taken.kind == wanted
        && packet::in_class_d(wanted)
            .is_some_and(|row| packet::payload_kept(row.payload, taken.number, taken.data))
}

/// The row 310, for an AU1 that 309 has let pass: its caller is on the list, and it is us who are called. A cut last entry is no entry.
fn let_in(known: &Known, taken: &Packet) -> bool {
    let (caller, called) = packet::ids_of(taken.data);
    let listed = known.callers.chunks_exact(packet::ID).any(|entry| entry == caller.to_be_bytes());
    listed && called == known.ours
}

/// The rows 305 to 307 and 0, for a packet whose check and flag are right.
fn judged(state: &State, known: &Known, taken: &Packet) -> u16 {
    let d = taken.number.wrapping_sub(state.last);
    if packet::in_class_d(taken.kind).is_none() {
        305
    } else if state.first && !first_kept(state.role, taken) {
        309
    } else if state.first && state.role == Role::Responder && !let_in(known, taken) {
        310
    } else if !state.first && (taken.kind == packet::AU1 || taken.kind == packet::AU2 || d == 0 || d >= 32768) {
        306
    } else if !state.first && state.strict && d >= 2 {
        307
    } else {
        0
    }
}

/// A link's bytes and the place in them.
pub type Reader<'a> = (&'a [u8], usize);

/// One step: the table of 01 in its order.
pub fn step<'a>(state: State, known: Known, normal: Reader<'a>, redundant: Reader<'a>) -> (State, Step<'a>) {
    let on_normal = rest(normal.0, normal.1);
    let on_redundant = rest(redundant.0, redundant.1);
    let nothing = |answer| (state, Step { answer, link: Link::Normal, used: 0, packet: None });
    if !state.normal_up && !state.redundant_up {
        nothing(308)
    } else if state.normal_up && judgeable(on_normal) {
        looked_at(state, known, Link::Normal, on_normal)
    } else if state.redundant_up && judgeable(on_redundant) {
        looked_at(state, known, Link::Redundant, on_redundant)
    } else {
        nothing(301)
    }
}

/// The rows from 302 on, for the link looked at.
fn looked_at<'a>(state: State, known: Known, link: Link, bytes: &'a [u8]) -> (State, Step<'a>) {
    let down = |answer| {
        let after = match link {
            Link::Normal => State { normal_up: false, ..state },
            Link::Redundant => State { redundant_up: false, ..state },
        };
        (after, Step { answer, link, used: 0, packet: None })
    };
    let length = length_of(bytes).unwrap_or(0);
    if length_fault(length) {
        return down(302);
    }
    let used = packet::LENGTH_FIELD + length;
    let (taken, flag, check) = taken_apart(&bytes[..used]);
    if check != packet::check(&bytes[..packet::CHECKED]) {
        return down(303);
    }
    if flag != link.flag() {
        return down(304);
    }
    match judged(&state, &known, &taken) {
        0 => {
            let after = State { first: false, last: taken.number, ..state };
            (after, Step { answer: 0, link, used, packet: Some(taken) })
        }
        answer => (state, Step { answer, link, used, packet: None }),
    }
}

/// What the program `cut` prints for two links' whole bytes.
pub fn cut(role: Role, strict: bool, known: Known, normal: &[u8], redundant: &[u8]) -> String {
    let mut state = fresh(role, strict);
    let (mut normal_place, mut redundant_place, mut handed_up) = (0, 0, 0);
    let mut printed = String::from("link answer used type number data\n");
    loop {
        let (after, answered) = step(state, known, (normal, normal_place), (redundant, redundant_place));
        state = after;
        match answered.link {
            Link::Normal => normal_place += answered.used,
            Link::Redundant => redundant_place += answered.used,
        }
        let (kind, number, data) = match answered.packet {
            Some(taken) => (taken.kind, taken.number, taken.data.len()),
            None => (0, 0, 0),
        };
        let (link, answer, used) = (answered.link.name(), answered.answer, answered.used);
        writeln!(printed, "{link} {answer} {used} {kind} {number} {data}").unwrap();
        handed_up += usize::from(answer == 0);
        if answer == 301 || answer == 308 {
            writeln!(printed, "end {handed_up}").unwrap();
            return printed;
        }
    }
}
