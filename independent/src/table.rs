//! The connection table: a lent slice of 1 to 64 records; a slot is an index.

use crate::connection::{self, Answer, Record, Settings, ALL_ZERO};
use crate::links::Role;

pub const SLOTS: usize = 64;

/// The table of the replay: 64 closed slots.
pub fn closed() -> Vec<Record> {
    vec![ALL_ZERO; SLOTS]
}

/// Calls the step on one slot's record and stores it back; 101 for a bad slot or table size.
fn at_slot(table: &mut [Record], slot: usize, call: impl FnOnce(Record) -> (Record, Answer)) -> Answer {
    if table.is_empty() || table.len() > SLOTS || slot >= table.len() {
        return connection::answer(101, 0);
    }
    let (record, answer) = call(table[slot]);
    table[slot] = record;
    answer
}

/// What begin is given besides the slot, the now and the out buffer.
#[derive(Clone, Copy, PartialEq, Eq, Debug)]
pub struct Begin {
    pub role: Option<Role>,
    pub settings: Settings,
    pub first_number: u16,
    pub period: u32,
}

pub fn begin(table: &mut [Record], slot: usize, given: &Begin, now: u32, out: &mut [u8]) -> Answer {
    at_slot(table, slot, |record| connection::begin(record, given.role, given.settings, given.first_number, given.period, now, out))
}

pub fn receive(table: &mut [Record], slot: usize, now: u32, bytes: &[u8], out: &mut [u8]) -> Answer {
    at_slot(table, slot, |record| connection::receive(record, now, bytes, out))
}

pub fn send(table: &mut [Record], slot: usize, now: u32, data: &[u8], out: &mut [u8]) -> Answer {
    at_slot(table, slot, |record| connection::send(record, now, data, out))
}

pub fn tick(table: &mut [Record], slot: usize, now: u32) -> Answer {
    at_slot(table, slot, |record| connection::tick(record, now))
}

pub fn close(table: &mut [Record], slot: usize) -> Answer {
    at_slot(table, slot, connection::close)
}
