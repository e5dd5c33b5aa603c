//! 02's No. 1: a connection as a row of bytes that the host stores, the row read and written, and the calls from C over it.

use crate::calls;
use crate::connection::{self, Answer, Record, ALL_ZERO, CLOSED};
use crate::given::Fields;
use crate::table::Begin;

/// The new number, judged in 101's place: a row that is refused, and an answer row of another length.
const REFUSED: u16 = 109;
const TOO_SHORT: u16 = 108;
pub const ROW: usize = 53;
pub const ANSWER_ROW: usize = 11;
pub const FIELDS: usize = 17;
/// The bytes of each field: phase; N, T_max, E, T_start, T_off, limit; own number, period, peer's number, its stamp, arrival, wait's start, min, max;
/// errors, clock.
pub const WIDTHS: [usize; FIELDS] = [1, 2, 4, 4, 4, 4, 1, 2, 4, 2, 4, 4, 4, 4, 4, 1, 4];

/// Closed and not all zero; or not closed, with a setting, the phase or the error counter out of range.
fn not_kept(record: &Record) -> bool {
    if record.phase == CLOSED {
        *record != ALL_ZERO
    } else {
        connection::record_faulty(record)
    }
}

/// The connection that a row stands for; None where the row is refused.
pub fn connection_of(row: &[u8]) -> Option<Record> {
    if row.len() != ROW {
        return None;
    }
    calls::record_of(&mut Fields(row)).filter(|record| !not_kept(record))
}

/// What an answer has beside its number: released 1, written 2, place 2, length 2, age 4. The place of an empty part is 0.
fn answer_bytes(answer: &Answer) -> Vec<u8> {
    let length = answer.delivered.len();
    let place = if length == 0 { 0 } else { answer.delivered.start };
    let mut bytes = vec![u8::from(answer.released)];
    for size in [answer.written, place, length] {
        bytes.extend((size as u16).to_be_bytes());
    }
    bytes.extend(answer.age.to_be_bytes());
    bytes
}

/// 1xx: what is the caller's fault, and changes nothing.
fn callers_fault(number: u16) -> bool {
    number / 100 == 1
}

/// Calls the step on the connection that a row stands for, and stores the row and the answer row; 109 in 101's place.
fn on_row(row: &mut [u8], answer_row: &mut [u8], step: impl FnOnce(Record) -> (Record, Answer)) -> u16 {
    let Some(record) = connection_of(row).filter(|_| answer_row.len() == ANSWER_ROW) else {
        return REFUSED;
    };
    let (after, answer) = step(record);
    if !callers_fault(answer.number) {
        row.copy_from_slice(&calls::record_bytes(&after));
        answer_row.copy_from_slice(&answer_bytes(&answer));
    }
    answer.number
}

/// Begin: 109, 103, 104, 108.
pub fn begin(row: &mut [u8], given: &Begin, now: u32, out: &mut [u8], answer_row: &mut [u8]) -> u16 {
    on_row(row, answer_row, |record| connection::begin(record, given.role, given.settings, given.first_number, given.period, now, out))
}

/// Receive: 109, 102, 105, 108; then the peer's faults.
pub fn receive(row: &mut [u8], now: u32, message: &[u8], out: &mut [u8], answer_row: &mut [u8]) -> u16 {
    on_row(row, answer_row, |record| connection::receive(record, now, message, out))
}

/// Send: 109, 102, 105, 106, 107, 108.
pub fn send(row: &mut [u8], now: u32, data: &[u8], out: &mut [u8], answer_row: &mut [u8]) -> u16 {
    on_row(row, answer_row, |record| connection::send(record, now, data, out))
}

/// Tick: 109, 102, 105.
pub fn tick(row: &mut [u8], now: u32, answer_row: &mut [u8]) -> u16 {
    on_row(row, answer_row, |record| connection::tick(record, now))
}

/// Close: 109, 102.
pub fn close(row: &mut [u8], answer_row: &mut [u8]) -> u16 {
    on_row(row, answer_row, connection::close)
}

/// The numbers of the fields of a row of 53 bytes, in their order, whether it is refused or not; an offset's is its two's complement.
pub fn numbers_of(row: &[u8]) -> [u32; FIELDS] {
    let mut rest = row;
    WIDTHS.map(|width| {
        let (field, after) = rest.split_at(width);
        rest = after;
        field.iter().fold(0, |number, byte| number << 8 | u32::from(*byte))
    })
}

/// The row of these numbers; None where they are not as many as a row has fields, where one is too large for its field, and where the row would be refused.
fn row_of(numbers: &[u32]) -> Option<Vec<u8>> {
    if numbers.len() != FIELDS {
        return None;
    }
    let mut row = Vec::new();
    for (number, width) in numbers.iter().zip(WIDTHS) {
        let bytes = number.to_be_bytes();
        let (over, field) = bytes.split_at(bytes.len() - width);
        if over.iter().any(|byte| *byte != 0) {
            return None;
        }
        row.extend(field);
    }
    connection_of(&row).map(|_| row)
}

/// Reading a row: 109, then 108 where there is no room for its numbers; further numbers stay.
pub fn read_row(row: &[u8], numbers: &mut [u32]) -> u16 {
    if connection_of(row).is_none() {
        return REFUSED;
    }
    let Some(room) = numbers.get_mut(..FIELDS) else {
        return TOO_SHORT;
    };
    room.copy_from_slice(&numbers_of(row));
    0
}

/// Writing a row: 109, then 108 where there is no room for it; further bytes stay.
pub fn write_row(numbers: &[u32], row: &mut [u8]) -> u16 {
    let Some(written) = row_of(numbers) else {
        return REFUSED;
    };
    let Some(room) = row.get_mut(..ROW) else {
        return TOO_SHORT;
    };
    room.copy_from_slice(&written);
    0
}
