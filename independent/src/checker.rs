//! 02's No. 13, the checker for recorder files: the verdict, and what is said of it to a person.

use crate::connection::{Answer, Record};
use crate::replay::{self, Call, BEGIN, HEADER, LENGTH_MOST, MARK, OUT};
use crate::table;

/// The kind of a record that holds the answer to the call before it.
pub const ANSWER: u8 = 6;
/// Answer number 2, released 1, reported age 4; the bytes written stand behind them.
pub const ANSWER_LEAST: usize = 7;
pub const ANSWER_MOST: usize = ANSWER_LEAST + OUT;

/// Why it stops, in words.
pub const CUT: &str = "cut record";
pub const WRONG_MARK: &str = "wrong mark";
pub const UNKNOWN_KIND: &str = "unknown kind";
pub const WRONG_LENGTH: &str = "wrong length";
pub const NO_CALL: &str = "no call of its slot and now directly before it";
pub const NOT_THE_ANSWER: &str = "not the answer that the rules give";

/// What comes out: the line for standard output and the lines for standard error, none where it agrees.
#[derive(Clone, PartialEq, Eq, Debug)]
pub struct Verdict {
    pub line: String,
    pub said: String,
}

/// An answer as it is recorded, where released is any byte, or as the rules give it.
#[derive(Clone, Copy, PartialEq, Eq, Debug)]
struct Told<'a> {
    number: u16,
    released: u8,
    age: i32,
    written: &'a [u8],
}

/// What ends the file: a bad record and why, or an answer that differs, and the lines that show both.
enum Stop {
    Bad(&'static str),
    Differs(String),
}

/// The table as it stands, the call directly before with its answer, and how many calls there were and were judged.
struct Checker<'a> {
    table: Vec<Record>,
    out: [u8; OUT],
    before: Option<(Call<'a>, Answer)>,
    calls: usize,
    judged: usize,
}

/// The bytes of an answer's record, taken apart; it has at least the seven (CHECKER-3).
fn recorded(bytes: &[u8]) -> Told<'_> {
    let (head, written) = bytes.split_at(ANSWER_LEAST);
    Told {
        number: u16::from_be_bytes([head[0], head[1]]),
        released: head[2],
        age: i32::from_be_bytes([head[3], head[4], head[5], head[6]]),
        written,
    }
}

fn by_the_rules<'a>(answer: &Answer, out: &'a [u8]) -> Told<'a> {
    Told { number: answer.number, released: u8::from(answer.released), age: answer.age, written: &out[..answer.written] }
}

/// CHECKER-14: an answer in words; capital hex, and a dash for no bytes.
fn in_words(told: &Told) -> String {
    let mut hex: String = told.written.iter().map(|byte| format!("{byte:02X}")).collect();
    if hex.is_empty() {
        hex.push('-');
    }
    format!("answer {} released {} age {} written {hex}", told.number, told.released, told.age)
}

/// The record at the start of the rest, of kind 1 to 6, or the first reason for which it is bad (CHECKER-13).
fn record_at(rest: &[u8]) -> Result<Call<'_>, &'static str> {
    let header = rest.get(..HEADER).ok_or(CUT)?;
    let (kind, length) = (header[2], usize::from(u16::from_be_bytes([header[8], header[9]])));
    let allowed = if kind == ANSWER { ANSWER_LEAST..=ANSWER_MOST } else { 0..=LENGTH_MOST };
    if header[..2] != MARK {
        return Err(WRONG_MARK);
    }
    if !(BEGIN..=ANSWER).contains(&kind) {
        return Err(UNKNOWN_KIND);
    }
    if !allowed.contains(&length) {
        return Err(WRONG_LENGTH);
    }
    let bytes = rest.get(HEADER..HEADER + length).ok_or(CUT)?;
    Ok(Call { kind, slot: header[3], now: u32::from_be_bytes([header[4], header[5], header[6], header[7]]), bytes })
}

impl<'a> Checker<'a> {
    /// 64 closed slots, and no call yet.
    fn new() -> Checker<'a> {
        Checker { table: table::closed(), out: [0; OUT], before: None, calls: 0, judged: 0 }
    }

    /// The next record: a call is played, an answer is judged.
    fn take(&mut self, record: Call<'a>) -> Result<(), Stop> {
        if record.kind == ANSWER {
            return self.judge(&record);
        }
        let answer = replay::play(&mut self.table, &record, &mut self.out);
        self.before = Some((record, answer));
        self.calls += 1;
        Ok(())
    }

    /// CHECKER-2, CHECKER-6: an answer stands directly behind its call, so that a second one has none, and is the right one.
    fn judge(&mut self, record: &Call) -> Result<(), Stop> {
        let own = self.before.take().filter(|(call, _)| call.slot == record.slot && call.now == record.now);
        let (_, answer) = own.ok_or(Stop::Bad(NO_CALL))?;
        let (told, right) = (recorded(record.bytes), by_the_rules(&answer, &self.out));
        if told != right {
            return Err(Stop::Differs(format!("recorded: {}\nthe rules: {}\n", in_words(&told), in_words(&right))));
        }
        self.judged += 1;
        Ok(())
    }

    /// The verdict where it stops at a record, with the record's place and offset.
    fn stopped(&self, stop: Stop, place: usize, offset: usize) -> Verdict {
        let (line, why, shown) = match stop {
            Stop::Bad(why) => (String::from("bad\n"), why, String::new()),
            Stop::Differs(shown) => (format!("differs {}\n", self.calls), NOT_THE_ANSWER, shown),
        };
        Verdict { line, said: format!("record {place}, byte offset {offset}: {why}\n{shown}") }
    }
}

/// The verdict over a whole recorder file. A difference or a bad record, whichever comes first, ends it (CHECKER-11).
pub fn check(file: &[u8]) -> Verdict {
    let mut checker = Checker::new();
    let (mut place, mut offset) = (1, 0);
    while offset < file.len() {
        let record = match record_at(&file[offset..]) {
            Ok(record) => record,
            Err(why) => return checker.stopped(Stop::Bad(why), place, offset),
        };
        if let Err(stop) = checker.take(record) {
            return checker.stopped(stop, place, offset);
        }
        (place, offset) = (place + 1, offset + HEADER + record.bytes.len());
    }
    Verdict { line: format!("agrees {}\n", checker.judged), said: String::new() }
}
