//! Random calls on tables of 0, 1, 2, 64 and 65 records, at slots within and out of range, from fixed seeds: a history on one row of records.

use crate::calls::{self, BEFORE};
use crate::connection::{Answer, Record};
use crate::craft::{self, Crafted};
use crate::given::Fields;
use crate::random::Random;
use crate::replay::{self, BEGIN, CLOSE, RECEIVE, SEND, TICK};
use crate::streams::hex;
use crate::table;
use crate::traces::call_name;

pub const HEADER: &str = "owner size slot call now bytes room RECORD .. = answer released written delivered_at delivered age RECORD .., \
     where RECORD is as in `calls`";
const SIZES: [usize; 5] = [0, 1, 2, 64, 65];
const RECORDS: usize = 65;

/// A call on the first `size` of some records.
struct Trial {
    /// By the owner of 64 records; else the first records of an array are lent.
    owner: bool,
    size: usize,
    slot: u64,
    crafted: Crafted,
    room: usize,
    records: Vec<Record>,
}

impl Trial {
    /// For a file: owner 1, records 1, size 1, kind 1 as in a trace, slot 8, now 4, room 2, length 2, the records, bytes.
    fn bytes(&self) -> Vec<u8> {
        let mut bytes = vec![u8::from(self.owner), self.records.len() as u8, self.size as u8, self.crafted.kind];
        bytes.extend(self.slot.to_be_bytes());
        bytes.extend(self.crafted.now.to_be_bytes());
        bytes.extend((self.room as u16).to_be_bytes());
        bytes.extend((self.crafted.bytes.len() as u16).to_be_bytes());
        bytes.extend(self.records.iter().flat_map(calls::record_bytes));
        bytes.extend(&self.crafted.bytes);
        bytes
    }

    /// What is printed, and the records after the call.
    fn played(&self) -> (String, Vec<Record>) {
        let mut records = self.records.clone();
        let mut out = vec![BEFORE; self.room];
        let answer = called(&mut records[..self.size], self.slot as usize, &self.crafted, &mut out);
        let mut words = vec![calls::answer_text(&answer, &out, &self.crafted.bytes)];
        words.extend(records.iter().map(calls::record_text));
        (words.join(" "), records)
    }

    fn line(&self) -> String {
        let given = format!("{} {} {} {}", u8::from(self.owner), self.size, self.slot, call_name(self.crafted.kind));
        let records: Vec<String> = self.records.iter().map(calls::record_text).collect();
        format!("{given} {} {} {} {} = {}", self.crafted.now, hex(&self.crafted.bytes), self.room, records.join(" "), self.played().0)
    }
}

fn called(records: &mut [Record], slot: usize, crafted: &Crafted, out: &mut [u8]) -> Answer {
    match crafted.kind {
        BEGIN => table::begin(records, slot, &replay::begin_of(&crafted.bytes), crafted.now, out),
        RECEIVE => table::receive(records, slot, crafted.now, &crafted.bytes, out),
        SEND => table::send(records, slot, crafted.now, &crafted.bytes, out),
        TICK => table::tick(records, slot, crafted.now),
        _ => table::close(records, slot),
    }
}

/// The call at the front of a file's rest: what is printed, and the rest after it.
pub fn given(rest: &[u8]) -> Option<(String, &[u8])> {
    let mut fields = Fields(rest);
    let (owner, count, size, kind) = (fields.byte()? == 1, usize::from(fields.byte()?), usize::from(fields.byte()?), fields.byte()?);
    let (slot, now) = (fields.long()?, fields.count()?);
    let (room, length) = (usize::from(fields.number()?), usize::from(fields.number()?));
    let records = (0..count).map(|_| calls::record_of(&mut fields)).collect::<Option<Vec<Record>>>()?;
    let crafted = Crafted { kind, now, bytes: fields.bytes(length)?.to_vec() };
    Some((Trial { owner, size, slot, crafted, room, records }.played().0, fields.0))
}

/// A slot: within, the last, one and two past it, far out, huge.
fn some_slot(random: &mut Random, size: usize) -> u64 {
    let size = size as u64;
    let within = random.below(size.max(1));
    if size > 0 && !random.once_in(4) {
        return random.pick(&[within, within, size - 1]);
    }
    random.pick(&[size, size, size + 1, 64, 65, 255, 1000, 1 << 32, 1 << 63, u64::MAX])
}

fn some_trial(random: &mut Random, row: &[Record]) -> Trial {
    let size = random.pick(&SIZES);
    let owner = size == table::SLOTS && random.once_in(2);
    let slot = some_slot(random, size);
    let meant = &row[slot as usize % RECORDS];
    let crafted = if random.once_in(3) {
        let kind = random.pick(&[BEGIN, RECEIVE, SEND, TICK, CLOSE]);
        craft::some_call_of(random, meant, kind)
    } else {
        craft::some_call(random, meant)
    };
    let room = calls::some_room(random, crafted.kind, &crafted.bytes);
    // the record behind those that are lent stands in the array too
    Trial { owner, size, slot, crafted, room, records: row[..RECORDS.min(size + 1)].to_vec() }
}

/// So many random calls, the bytes and the line of each: each on the records that the call before left, with one of them made anew.
pub fn tables(seed: u64, count: usize) -> impl Iterator<Item = (Vec<u8>, String)> {
    let mut random = Random::new(seed);
    let mut row: Vec<Record> = (0..RECORDS).map(|_| calls::some_record(&mut random)).collect();
    (0..count).map(move |_| {
        let any = random.below(RECORDS as u64) as usize;
        let anew = random.pick(&[0, 1, any, any]);
        row[anew] = calls::some_record(&mut random);
        let trial = some_trial(&mut random, &row);
        let (_, after) = trial.played();
        row[..after.len()].copy_from_slice(&after);
        (trial.bytes(), trial.line())
    })
}
