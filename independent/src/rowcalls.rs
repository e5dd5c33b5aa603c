//! Random histories of calls over rows, from fixed seeds: each on the row that the call before left, or on a new one, often damaged.

use crate::calls::{self, BEFORE};
use crate::connection::{self, Record, ALL_ZERO, CLOSED};
use crate::craft::{self, Crafted};
use crate::given::Fields;
use crate::random::Random;
use crate::replay::{self, BEGIN, BEGIN_SIZE, CLOSE, RECEIVE, SEND, TICK};
use crate::rows::{self, ANSWER_ROW, FIELDS, ROW, WIDTHS};
use crate::streams::hex;
use crate::traces::call_name;

pub const HEADER: &str = "call now row room answer_size bytes = answer row out answer_row";

/// The two calls that a trace does not have, numbered behind its five.
pub const READ: u8 = 6;
pub const WRITE: u8 = 7;

/// A call over a row: what it is given.
struct Trial {
    kind: u8,
    now: u32,
    row: Vec<u8>,
    /// The size of the out buffer; where a row is read, how many numbers there is room for.
    room: usize,
    answer_size: usize,
    bytes: Vec<u8>,
}

impl Trial {
    /// For a file: kind 1, now 4, row size 2, room 2, answer size 2, length 2, the row, bytes.
    fn bytes(&self) -> Vec<u8> {
        let mut bytes = vec![self.kind];
        bytes.extend(self.now.to_be_bytes());
        for size in [self.row.len(), self.room, self.answer_size, self.bytes.len()] {
            bytes.extend((size as u16).to_be_bytes());
        }
        bytes.extend(&self.row);
        bytes.extend(&self.bytes);
        bytes
    }

    /// Whether there is such a call: begin's bytes have one size, and the numbers to be written 4 bytes each.
    fn possible(&self) -> bool {
        match self.kind {
            BEGIN => self.bytes.len() == BEGIN_SIZE,
            WRITE => self.bytes.len() % 4 == 0,
            kind => (RECEIVE..=READ).contains(&kind),
        }
    }

    /// What is printed, and the row after the call.
    fn played(&self) -> (String, Vec<u8>) {
        let mut row = self.row.clone();
        let (answer, out, answer_row) = match self.kind {
            READ => {
                let mut numbers = vec![u32::from_be_bytes([BEFORE; 4]); self.room];
                let answer = rows::read_row(&row, &mut numbers);
                (answer, bytes_of(&numbers), Vec::new())
            }
            WRITE => (rows::write_row(&numbers_in(&self.bytes), &mut row), Vec::new(), Vec::new()),
            kind => {
                let room = if [TICK, CLOSE].contains(&kind) { 0 } else { self.room };
                let (mut out, mut answer_row) = (vec![BEFORE; room], vec![BEFORE; self.answer_size]);
                let answer = called(kind, self.now, &self.bytes, &mut row, &mut out, &mut answer_row);
                (answer, out, answer_row)
            }
        };
        (format!("{answer} {} {} {}", small_hex(&row), small_hex(&out), small_hex(&answer_row)), row)
    }

    fn line(&self) -> String {
        let given = format!("{} {} {}", call_name(self.kind), self.now, small_hex(&self.row));
        format!("{given} {} {} {} = {}", self.room, self.answer_size, small_hex(&self.bytes), self.played().0)
    }
}

fn small_hex(bytes: &[u8]) -> String {
    hex(bytes).to_lowercase()
}

fn bytes_of(numbers: &[u32]) -> Vec<u8> {
    numbers.iter().flat_map(|number| number.to_be_bytes()).collect()
}

fn numbers_in(bytes: &[u8]) -> Vec<u32> {
    bytes.chunks_exact(4).map(|field| field.iter().fold(0, |number, byte| number << 8 | u32::from(*byte))).collect()
}

/// One of the five calls.
pub fn called(kind: u8, now: u32, bytes: &[u8], row: &mut [u8], out: &mut [u8], answer_row: &mut [u8]) -> u16 {
    match kind {
        BEGIN => rows::begin(row, &replay::begin_of(bytes), now, out, answer_row),
        RECEIVE => rows::receive(row, now, bytes, out, answer_row),
        SEND => rows::send(row, now, bytes, out, answer_row),
        TICK => rows::tick(row, now, answer_row),
        _ => rows::close(row, answer_row),
    }
}

/// The call at the front of a file's rest: what is printed, and the rest after it; None where no whole call is there, or none that can be made.
pub fn given(rest: &[u8]) -> Option<(String, &[u8])> {
    let mut fields = Fields(rest);
    let (kind, now) = (fields.byte()?, fields.count()?);
    let (row_size, room) = (usize::from(fields.number()?), usize::from(fields.number()?));
    let (answer_size, length) = (usize::from(fields.number()?), usize::from(fields.number()?));
    let (row, bytes) = (fields.bytes(row_size)?.to_vec(), fields.bytes(length)?.to_vec());
    let trial = Trial { kind, now, row, room, answer_size, bytes };
    trial.possible().then(|| (trial.played().0, fields.0))
}

/// One way to damage a row. Some of them leave a row that is kept: those just inside a bound, and bytes that are free.
#[derive(Clone, Copy)]
enum Damage {
    /// A byte of a row that is not closed becomes another one.
    Byte { at: usize, how: Change },
    /// A field of a row that is not closed stands at one of its edges.
    Edge(fn(&mut Record)),
    /// A byte of a closed row is not 0.
    NotZero { at: usize },
    /// A row is cut, or has bytes behind it.
    Length(usize),
    /// So many bytes of 0.
    Zeros(usize),
}

#[derive(Clone, Copy)]
enum Change {
    Any,
    Zero,
    AllOnes,
    Next,
}

/// Each field that is judged, at each edge of its range, just inside and just outside, with the fields that are judged by it kept in their range.
const EDGES: [fn(&mut Record); 38] = [
    |record| record.settings.n = 0,
    |record| record.settings.n = 1,
    |record| record.settings.n = 1000,
    |record| record.settings.n = 1001,
    |record| record.settings.n = u16::MAX,
    |record| with_t_max(record, 0),
    |record| with_t_max(record, 1),
    |record| with_t_max(record, 60_000),
    |record| with_t_max(record, 60_001),
    |record| with_t_max(record, u32::MAX),
    |record| record.settings.e = 0,
    |record| record.settings.e = record.settings.t_max - 1,
    |record| record.settings.e = record.settings.t_max,
    |record| record.settings.e = record.settings.t_max + 1,
    |record| record.settings.e = u32::MAX,
    |record| record.settings.t_start = 0,
    |record| record.settings.t_start = 1,
    |record| record.settings.t_start = 60_000,
    |record| record.settings.t_start = 60_001,
    |record| record.settings.t_start = u32::MAX,
    |record| record.settings.t_off = 0,
    |record| record.settings.t_off = 60_000,
    |record| record.settings.t_off = 60_001,
    |record| record.settings.t_off = u32::MAX,
    |record| with_limit(record, 0),
    |record| with_limit(record, 1),
    |record| with_limit(record, 255),
    |record| record.phase = 0,
    |record| record.phase = 1,
    |record| record.phase = 6,
    |record| record.phase = 7,
    |record| record.phase = 255,
    |record| record.errors = 0,
    |record| record.errors = record.settings.limit - 1,
    |record| record.errors = record.settings.limit,
    |record| record.errors = record.settings.limit.saturating_add(1),
    |record| record.errors = 254,
    |record| record.errors = 255,
];

fn with_t_max(record: &mut Record, t_max: u32) {
    record.settings.t_max = t_max;
    record.settings.e = record.settings.e.min(t_max);
}

fn with_limit(record: &mut Record, limit: u8) {
    record.settings.limit = limit;
    record.errors = record.errors.min(limit.saturating_sub(1));
}

/// The ways that leave 53 bytes.
fn damages_within() -> Vec<Damage> {
    let mut ways: Vec<Damage> = EDGES.iter().map(|edge| Damage::Edge(*edge)).collect();
    for at in 0..ROW {
        ways.extend([Change::Any, Change::Zero, Change::AllOnes, Change::Next].map(|how| Damage::Byte { at, how }));
        ways.push(Damage::NotZero { at });
    }
    ways
}

/// Those and every length up to 120, and some up to 1,000.
fn damages() -> Vec<Damage> {
    let mut ways = damages_within();
    ways.extend((0..=120).chain([121, 255, 256, 309, 530, 999, 1000]).flat_map(|length| [Damage::Length(length), Damage::Zeros(length)]));
    ways
}

/// Ways to damage a row, in an order of the seed's, over and over, so that each occurs.
struct Walk {
    ways: Vec<Damage>,
    taken: usize,
}

impl Walk {
    fn new(random: &mut Random, mut ways: Vec<Damage>) -> Walk {
        for at in (1..ways.len()).rev() {
            ways.swap(at, random.below(at as u64 + 1) as usize);
        }
        Walk { ways, taken: 0 }
    }

    fn next(&mut self) -> Damage {
        self.taken += 1;
        self.ways[self.taken % self.ways.len()]
    }
}

/// A row, and the connection that its next call is made for: the one it stands for, or, where it is refused, stood for before.
struct Left {
    row: Vec<u8>,
    meant: Record,
}

fn of_record(record: Record) -> Left {
    Left { row: calls::record_bytes(&record), meant: record }
}

/// A connection whose row is kept, not closed.
fn some_used(random: &mut Random) -> Record {
    loop {
        let record = calls::some_record(random);
        if record.phase != CLOSED && !connection::record_faulty(&record) {
            return record;
        }
    }
}

/// A connection whose row is kept.
fn some_kept(random: &mut Random) -> Record {
    if random.once_in(6) { ALL_ZERO } else { some_used(random) }
}

fn changed(random: &mut Random, byte: u8, how: Change) -> u8 {
    match how {
        Change::Any => random.byte(),
        Change::Zero => 0,
        Change::AllOnes => 255,
        Change::Next => byte.wrapping_add(1),
    }
}

fn damaged(random: &mut Random, damage: Damage) -> Left {
    match damage {
        Damage::Byte { at, how } => {
            let mut left = of_record(some_used(random));
            left.row[at] = changed(random, left.row[at], how);
            left
        }
        Damage::Edge(edge) => {
            let meant = some_used(random);
            let mut record = meant;
            edge(&mut record);
            Left { meant, ..of_record(record) }
        }
        Damage::NotZero { at } => {
            let mut left = of_record(ALL_ZERO);
            let any = random.between(1, 255) as u8;
            left.row[at] = random.pick(&[1, 128, 255, any]);
            left
        }
        Damage::Length(length) => {
            let mut left = of_record(some_kept(random));
            let behind = if random.once_in(2) { random.bytes(length) } else { vec![0; length] };
            left.row.extend(behind);
            left.row.truncate(length);
            left
        }
        Damage::Zeros(length) => Left { row: vec![0; length], meant: some_kept(random) },
    }
}

/// A new row: any record's, the zero row, or a damaged one.
fn some_row(random: &mut Random, walk: &mut Walk) -> Left {
    match random.below(8) {
        0 => of_record(ALL_ZERO),
        1..=3 => damaged(random, walk.next()),
        _ => of_record(calls::some_record(random)),
    }
}

/// A number that is mostly too large for its field: the least such and the one before it, far more, or one whose lower bytes would do.
fn too_large(random: &mut Random, number: u32, width: usize) -> u32 {
    let least = 1 << (8 * width);
    random.pick(&[256, 65_536, u32::MAX, least, least - 1, number + least, number + 65_536, number + (1 << 24)])
}

/// The numbers of a row to be written: kept, or damaged; one of them too large for its field; too many or too few.
fn some_numbers(random: &mut Random, walk: &mut Walk) -> Vec<u32> {
    let given = if random.once_in(3) { damaged(random, walk.next()) } else { of_record(some_kept(random)) };
    let mut numbers = rows::numbers_of(&given.row).to_vec();
    match random.below(8) {
        0 => numbers.resize(random.pick(&[0, 1, 16, 18, 30]), 0),
        1 | 2 => {
            let narrow: Vec<usize> = (0..FIELDS).filter(|at| WIDTHS[*at] < 4).collect();
            let at = random.pick(&narrow);
            numbers[at] = too_large(random, numbers[at], WIDTHS[at]);
        }
        _ => {}
    }
    numbers
}

/// A row read: room for its numbers, also for too few and for more.
fn some_read(random: &mut Random, left: &Left) -> Trial {
    let room = random.pick(&[0, FIELDS - 1, FIELDS, FIELDS, FIELDS, FIELDS, FIELDS + 1, 40]);
    Trial { kind: READ, now: 0, row: left.row.clone(), room, answer_size: 0, bytes: Vec::new() }
}

/// A row written: over the row that was left, or into room on both sides of what it asks.
fn some_write(random: &mut Random, walk: &mut Walk, left: &Left) -> Trial {
    let row = if random.once_in(2) { left.row.clone() } else { vec![BEFORE; random.pick(&[0, ROW - 1, ROW, ROW + 1, 100])] };
    Trial { kind: WRITE, now: 0, row, room: 0, answer_size: 0, bytes: bytes_of(&some_numbers(random, walk)) }
}

/// One of the five calls, with an out buffer on both sides of what it asks, and mostly an answer row of its size.
fn some_of_five(random: &mut Random, left: &Left, mut crafted: Crafted) -> Trial {
    match crafted.kind {
        BEGIN => crafted.bytes.resize(BEGIN_SIZE, 0),
        TICK | CLOSE => crafted.bytes.clear(),
        _ => {}
    }
    let room = calls::some_room(random, crafted.kind, &crafted.bytes);
    let answer_size = if random.once_in(12) { random.pick(&[0, 1, ANSWER_ROW - 1, ANSWER_ROW + 1, 2 * ANSWER_ROW]) } else { ANSWER_ROW };
    Trial { kind: crafted.kind, now: crafted.now, row: left.row.clone(), room, answer_size, bytes: crafted.bytes }
}

/// A call over the row that was left: mostly one that goes on with it; over a row that is refused, each of the seven alike.
fn some_trial(random: &mut Random, walk: &mut Walk, left: &Left) -> Trial {
    let refused = rows::connection_of(&left.row).is_none();
    if !refused && !random.once_in(3) {
        let crafted = craft::some_call(random, &left.meant);
        return some_of_five(random, left, crafted);
    }
    match random.between(u64::from(BEGIN), u64::from(WRITE)) as u8 {
        READ => some_read(random, left),
        WRITE => some_write(random, walk, left),
        kind => {
            let crafted = craft::some_call_of(random, &left.meant, kind);
            some_of_five(random, left, crafted)
        }
    }
}

/// So many random calls over rows, the bytes and the line of each: histories of calls, each on the row that the call before left, from a new row on.
pub fn rows(seed: u64, count: usize) -> impl Iterator<Item = (Vec<u8>, String)> {
    let mut random = Random::new(seed);
    let mut for_calls = Walk::new(&mut random, damages());
    let mut for_writes = Walk::new(&mut random, damages_within());
    let mut left = of_record(ALL_ZERO);
    (0..count).map(move |_| {
        if random.once_in(4) {
            left = some_row(&mut random, &mut for_calls);
        }
        let trial = some_trial(&mut random, &mut for_writes, &left);
        let (_, row) = trial.played();
        left = Left { meant: rows::connection_of(&row).unwrap_or(left.meant), row };
        (trial.bytes(), trial.line())
    })
}
