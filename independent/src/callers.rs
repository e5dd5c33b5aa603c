//! Random lists of those who may call us, and the ids of AU1s that are let in or turned away (02, No. 9).

use crate::packet;
use crate::random::Random;
use crate::streams::LENT_MOST;

/// Our own id, and the list as it is lent.
pub struct Allowed {
    pub ours: u32,
    pub callers: Vec<u8>,
}

/// So many entries a list has at most in the file that `single steps` reads; a cut one may stand behind them.
const ENTRIES_MOST: usize = LENT_MOST / packet::ID;

/// Any id, the edges often.
fn some_id(random: &mut Random) -> u32 {
    match random.below(5) {
        0 => random.pick(&[0, 1, 2, 0x0000_0100, 0x0100_0000, 0x7FFF_FFFF, 0x8000_0000, u32::MAX]),
        _ => random.count(),
    }
}

/// An id that is easily taken for another: one bit or one byte of it changed, its bytes in another order, one more.
fn near(random: &mut Random, id: u32) -> u32 {
    match random.below(6) {
        0 => id ^ 1 << random.below(32),
        1 => id ^ u32::from(random.byte()) << random.pick(&[0, 8, 16, 24]),
        2 => id.swap_bytes(),
        3 => id.rotate_left(8),
        4 => id.rotate_left(16),
        _ => id.wrapping_add(1),
    }
}

/// How many entries a list has: none, one, a few, and sometimes hundreds.
fn some_count(random: &mut Random) -> usize {
    match random.below(16) {
        0 | 1 => 0,
        2..=4 => 1,
        5..=12 => random.between(2, 6) as usize,
        13 | 14 => random.between(7, 40) as usize,
        _ => random.between(41, 300) as usize,
    }
}

/// Entries, some near each other, now and then one of them once more.
fn some_entries(random: &mut Random, count: usize) -> Vec<u32> {
    let mut entries = Vec::new();
    for _ in 0..count {
        let id = match entries.last() {
            Some(before) if random.once_in(3) => near(random, *before),
            _ => some_id(random),
        };
        entries.push(id);
    }
    if count > 1 && random.once_in(3) {
        let (from, to) = (random.below(count as u64) as usize, random.below(count as u64) as usize);
        entries[to] = entries[from];
    }
    entries
}

/// Our id, and a list of whole entries, as the program `cut` can be given.
pub fn some_allowed(random: &mut Random) -> Allowed {
    let count = some_count(random);
    let entries = some_entries(random, count);
    let ours = match entries.last() {
        Some(last) if random.once_in(6) => random.pick(&[*last, entries[0]]),
        _ => some_id(random),
    };
    Allowed { ours, callers: entries.into_iter().flat_map(u32::to_be_bytes).collect() }
}

/// The same, also with a last entry that is cut, and sometimes with the most bytes that a step's file can give.
pub fn some_lent(random: &mut Random) -> Allowed {
    let mut allowed = some_allowed(random);
    if random.once_in(600) {
        allowed.callers = some_entries(random, ENTRIES_MOST).into_iter().flat_map(u32::to_be_bytes).collect();
    }
    if random.once_in(3) {
        let left_over = random.pick(&[1, 2, 3]);
        let cut = some_id(random).to_be_bytes();
        allowed.callers.extend(&cut[..left_over]);
    }
    allowed
}

fn id_at(list: &[u8], at: usize) -> u32 {
    u32::from_be_bytes([list[at], list[at + 1], list[at + 2], list[at + 3]])
}

/// An entry, mostly the first or the last; any id where there is none.
fn listed(random: &mut Random, list: &[u8]) -> u32 {
    let count = list.len() / packet::ID;
    if count == 0 {
        return some_id(random);
    }
    let place = random.below(count as u64) as usize;
    id_at(list, packet::ID * random.pick(&[0, place, count - 1]))
}

/// An id that is mostly no entry: four bytes across two entries, what a cut entry may be taken for, one near an entry, or any.
fn not_listed(random: &mut Random, list: &[u8]) -> u32 {
    let left_over = list.chunks_exact(packet::ID).remainder();
    let mut bytes = [0; packet::ID];
    match random.below(6) {
        0 if list.len() > packet::ID => {
            let at = random.below((list.len() - packet::ID) as u64) as usize;
            id_at(list, if at % packet::ID == 0 { at + 1 } else { at })
        }
        1 if !left_over.is_empty() => {
            bytes[..left_over.len()].copy_from_slice(left_over);
            u32::from_be_bytes(bytes)
        }
        2 if !left_over.is_empty() => {
            bytes[packet::ID - left_over.len()..].copy_from_slice(left_over);
            u32::from_be_bytes(bytes)
        }
        3 | 4 if list.len() >= packet::ID => {
            let entry = listed(random, list);
            near(random, entry)
        }
        _ => some_id(random),
    }
}

/// Caller and called id of an AU1 that is let in, unless the list has no entry.
pub fn welcome(random: &mut Random, allowed: &Allowed) -> (u32, u32) {
    (listed(random, &allowed.callers), allowed.ours)
}

/// Caller and called id of an AU1 that is mostly turned away: for either id, for both, since they are swapped, or since we call ourselves.
pub fn unwelcome(random: &mut Random, allowed: &Allowed) -> (u32, u32) {
    let (caller, other_caller) = (listed(random, &allowed.callers), not_listed(random, &allowed.callers));
    let other_called = match random.below(6) {
        0 => listed(random, &allowed.callers),
        1 => some_id(random),
        2 => random.pick(&[0, u32::MAX]),
        _ => near(random, allowed.ours),
    };
    match random.below(8) {
        0..=3 => (other_caller, allowed.ours),
        4 | 5 => (caller, other_called),
        6 => (allowed.ours, random.pick(&[caller, allowed.ours])),
        _ => (other_caller, other_called),
    }
}
