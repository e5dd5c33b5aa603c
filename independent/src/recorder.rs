//! 02's No. 13, a recorder: behind a call's record it writes the answer; and random recorder files, right ones and damaged ones.

use crate::checker::{ANSWER, ANSWER_LEAST, ANSWER_MOST};
use crate::connection::Record;
use crate::random::Random;
use crate::replay::{self, Call, CLOSE, HEADER, LENGTH_MOST, OUT, TICK};
use crate::table;
use crate::traces::{self, Counts};
use std::collections::BTreeMap;
use std::io::{self, Write};
use std::ops::Range;
use std::path::Path;

/// A recorder at work: the table as it stands, and the out buffer of the calls.
struct Recorder {
    table: Vec<Record>,
    out: [u8; OUT],
}

impl Recorder {
    fn new() -> Recorder {
        Recorder { table: table::closed(), out: [0; OUT] }
    }

    /// Plays a call; the record of its answer, which repeats the call's slot and now.
    fn answer(&mut self, call: &Call) -> Vec<u8> {
        let answer = replay::play(&mut self.table, call, &mut self.out);
        let mut bytes = answer.number.to_be_bytes().to_vec();
        bytes.push(u8::from(answer.released));
        bytes.extend(answer.age.to_be_bytes());
        bytes.extend(&self.out[..answer.written]);
        replay::bytes_of(&Call { kind: ANSWER, slot: call.slot, now: call.now, bytes: &bytes })
    }

    /// The records of a trace up to a bad one, each with the answer behind it where `kept` says so.
    fn records(&mut self, trace: &[u8], mut kept: impl FnMut() -> bool) -> Vec<Vec<u8>> {
        let mut records = Vec::new();
        for call in calls_of(trace) {
            let answer = self.answer(&call);
            records.push(replay::bytes_of(&call));
            if kept() {
                records.push(answer);
            }
        }
        records
    }
}

/// The calls of a trace up to a bad record.
fn calls_of(trace: &[u8]) -> impl Iterator<Item = Call<'_>> {
    let mut rest = trace;
    std::iter::from_fn(move || {
        let (call, after) = replay::record_of(rest)?;
        rest = after;
        Some(call)
    })
}

/// The recorder file of a trace: every call is answered, or with a seed about three in four.
pub fn recorder_file(trace: &[u8], seed: Option<u64>) -> Vec<u8> {
    let mut random = seed.map(Random::new);
    let kept = || random.as_mut().map_or(true, |random| !random.once_in(4));
    Recorder::new().records(trace, kept).concat()
}

/// One right recorder file of at least so many bytes. Each history begins with a close of every slot, so that its calls meet the table that they were made for.
pub fn write_recording(seed: u64, least: usize, file: &mut impl Write) -> io::Result<usize> {
    let closes: Vec<u8> = (0..64).flat_map(|slot| replay::bytes_of(&Call { kind: CLOSE, slot, now: 0, bytes: &[] })).collect();
    let (mut recorder, mut random, mut counts, mut size) = (Recorder::new(), Random::new(seed), Counts::new(), 0);
    while size < least {
        let thin = random.once_in(2);
        let trace = traces::history(random.next(), &mut counts);
        for part in [&closes, &trace] {
            let bytes = recorder.records(part, || !(thin && random.once_in(4))).concat();
            file.write_all(&bytes)?;
            size += bytes.len();
        }
    }
    file.flush()?;
    Ok(size)
}

// Damages. Each says which verdict must follow, since every record before the damaged one is right.

/// Where the fields of a record stand, and those of an answer behind its header.
const KIND: usize = 2;
const SLOT: usize = 3;
const NOW: usize = 4;
const LENGTH: Range<usize> = 8..10;
const NUMBER: Range<usize> = 10..12;
const RELEASED: usize = 12;
const AGE: Range<usize> = 13..17;
const WRITTEN: usize = HEADER + ANSWER_LEAST;
const BAD: &str = "bad";

/// A recorder file before it is put together: each record's bytes.
struct Draft(Vec<Vec<u8>>);

/// Damages a right file; gives the verdict that must follow, or none where the file has no place for it.
type Damage = fn(&mut Random, &mut Draft) -> Option<String>;
/// Which answers a damage is for.
type Fits = fn(&[u8]) -> bool;
/// What is done to one record.
type Spoil = fn(&mut Random, &mut Vec<u8>);

fn is_answer(record: &[u8]) -> bool {
    record[KIND] == ANSWER
}

fn number(answer: &[u8]) -> u16 {
    u16::from_be_bytes([answer[NUMBER.start], answer[NUMBER.start + 1]])
}

fn age(answer: &[u8]) -> i32 {
    i32::from_be_bytes([answer[AGE.start], answer[AGE.start + 1], answer[AGE.start + 2], answer[AGE.start + 3]])
}

fn any(_: &[u8]) -> bool {
    true
}

fn writes(answer: &[u8]) -> bool {
    answer.len() > WRITTEN
}

fn has_age(answer: &[u8]) -> bool {
    ![0, i32::MIN].contains(&age(answer))
}

/// Sorts of answers. A damage is done to one of a sort where there is one, so that the rare ones are damaged too.
const SORTS: [Fits; 9] = [
    writes,
    |answer| answer.len() > WRITTEN + 25,
    |answer| age(answer) > 0,
    |answer| age(answer) < 0,
    |answer| answer[RELEASED] == 1,
    |answer| number(answer) == 101,
    |answer| (102..200).contains(&number(answer)),
    |answer| number(answer) > 200,
    any,
];

impl Draft {
    /// Of a random short history; with all answers, or with some left out.
    fn some(random: &mut Random, thin: bool) -> Draft {
        let trace = traces::short_history(random.next());
        Draft(Recorder::new().records(&trace, || !(thin && random.once_in(4))))
    }

    /// CHECKER-8: as many calls are judged as there are answers.
    fn agrees(&self) -> Option<String> {
        Some(format!("agrees {}", self.0.iter().filter(|record| is_answer(record)).count()))
    }

    /// CHECKER-9: the place of the last call before a record, counted over all calls.
    fn differs(&self, at: usize) -> Option<String> {
        Some(format!("differs {}", self.0[..at].iter().filter(|record| !is_answer(record)).count()))
    }

    /// The places of the records that are fit.
    fn places(&self, fits: impl Fn(&[u8]) -> bool) -> Vec<usize> {
        (0..self.0.len()).filter(|at| fits(&self.0[*at])).collect()
    }

    /// The place of an answer that fits, of some sort where there is one of it.
    fn some_answer(&self, random: &mut Random, fits: Fits) -> Option<usize> {
        let sort = random.pick(&SORTS);
        let rare = self.places(|record| is_answer(record) && fits(record) && sort(record));
        one_of(random, &rare).or_else(|| one_of(random, &self.places(|record| is_answer(record) && fits(record))))
    }

    fn some_call(&self, random: &mut Random, fits: Fits) -> Option<usize> {
        one_of(random, &self.places(|record| !is_answer(record) && fits(record)))
    }

    /// Ends the file so many bytes behind the start of a record.
    fn cut(&mut self, at: usize, left: usize) -> Option<String> {
        self.0.truncate(at + 1);
        self.0[at].truncate(left);
        Some(String::from(BAD))
    }
}

fn one_of(random: &mut Random, places: &[usize]) -> Option<usize> {
    if places.is_empty() { None } else { Some(random.pick(places)) }
}

fn change(random: &mut Random, byte: &mut u8) {
    let any = random.between(1, 255) as u8;
    *byte ^= random.pick(&[1, 0x80, 0xFF, any]);
}

/// Gives a record another length and as many bytes; those that are new are all zero, or any.
fn set_length(random: &mut Random, record: &mut Vec<u8>, length: usize) {
    record.truncate(HEADER + length);
    let mut more = random.bytes(HEADER + length - record.len());
    if random.once_in(2) {
        more.fill(0);
    }
    record.extend(more);
    say_length(record, length);
}

/// The field alone.
fn say_length(record: &mut [u8], length: usize) {
    record[LENGTH].copy_from_slice(&(length as u16).to_be_bytes());
}

/// The answer of some call is spoiled, and is not the right one any more; its record is not bad.
fn wrong(random: &mut Random, draft: &mut Draft, fits: Fits, spoil: Spoil) -> Option<String> {
    let at = draft.some_answer(random, fits)?;
    spoil(random, &mut draft.0[at]);
    draft.differs(at)
}

/// The record of some answer is made bad.
fn bad(random: &mut Random, draft: &mut Draft, fits: Fits, spoil: Spoil) -> Option<String> {
    let at = draft.some_answer(random, fits)?;
    spoil(random, &mut draft.0[at]);
    Some(String::from(BAD))
}

fn other_number(random: &mut Random, answer: &mut Vec<u8>) {
    let (right, any) = (number(answer), random.number());
    let other = random.pick(&[0, 102, 105, 204, 205, 206, right ^ 1, right.wrapping_add(1), right ^ 0x100, right ^ 0x8000, any]);
    let other = if other == right { right ^ 2 } else { other };
    answer[NUMBER].copy_from_slice(&other.to_be_bytes());
}

fn other_released(_: &mut Random, answer: &mut Vec<u8>) {
    answer[RELEASED] ^= 1;
}

/// Any answer made wrong, by one of its fields.
fn some_wrong(random: &mut Random, answer: &mut Vec<u8>) {
    let at = random.between(NUMBER.start as u64, answer.len() as u64 - 1) as usize;
    match random.below(4) {
        0 => other_number(random, answer),
        1 => other_released(random, answer),
        2 => change(random, &mut answer[AGE][3]),
        _ => change(random, &mut answer[at]),
    }
}

/// A call's record made bad, whatever stands behind it.
fn bad_call(random: &mut Random, call: &mut Vec<u8>) {
    match random.below(4) {
        0 => change(random, &mut call[0]),
        1 => change(random, &mut call[1]),
        2 => call[KIND] = random.pick(&[0, 7, 255]),
        _ => long_call(random, call),
    }
}

/// The lengths that an answer may have are not those of a call.
fn long_call(random: &mut Random, call: &mut Vec<u8>) {
    let length = random.pick(&[LENGTH_MOST + 1, LENGTH_MOST + 1, LENGTH_MOST + 2, ANSWER_MOST - 1, ANSWER_MOST, ANSWER_MOST + 1, 5000, 65_535]);
    set_length(random, call, length);
}

fn of_kind(random: &mut Random, draft: &mut Draft, kind: u8) -> Option<String> {
    let at = one_of(random, &draft.places(any))?;
    draft.0[at][KIND] = kind;
    Some(String::from(BAD))
}

/// A kind between 8 and 254, often a known one with one more bit.
fn unknown_kind(random: &mut Random, draft: &mut Draft) -> Option<String> {
    let at = one_of(random, &draft.places(any))?;
    let (known, any) = (draft.0[at][KIND], random.between(8, 254) as u8);
    draft.0[at][KIND] = random.pick(&[any, known | 0x08, known | 0x10, known | 0x20, known | 0x40, known | 0x80, known | 0x80]);
    Some(String::from(BAD))
}

/// A length that is over the most, and fewer bytes than it says: the length is said, not the cut.
fn over_and_cut(random: &mut Random, draft: &mut Draft) -> Option<String> {
    let at = one_of(random, &draft.places(any))?;
    let record = &mut draft.0[at];
    let most = if is_answer(record) { ANSWER_MOST } else { LENGTH_MOST };
    say_length(record, random.pick(&[most + 1, most + 2, 65_535]));
    let left = random.between(HEADER as u64, record.len() as u64) as usize;
    draft.cut(at, left)
}

/// An answer first in the file: any of the file's, the one that then follows, or one for a slot 0, a now 0 and a closed slot.
fn first(random: &mut Random, draft: &mut Draft) -> Option<String> {
    let at = draft.some_answer(random, any)?;
    let zero = |number: u8| replay::bytes_of(&Call { kind: ANSWER, slot: 0, now: 0, bytes: &[0, number, 0, 0, 0, 0, 0] });
    let answer = match random.below(4) {
        0 => zero(0),
        1 => zero(102),
        2 => draft.0[draft.places(is_answer)[0]].clone(),
        _ => draft.0[at].clone(),
    };
    draft.0.insert(0, answer);
    Some(String::from(BAD))
}

/// A byte more, which is the one that an earlier call left at that place of the out buffer.
fn left_over(random: &mut Random, draft: &mut Draft) -> Option<String> {
    let at = draft.some_answer(random, |answer| answer.len() < WRITTEN + OUT)?;
    let end = draft.0[at].len();
    let byte = draft.0[..at].iter().rev().find(|record| is_answer(record) && record.len() > end)?[end];
    draft.0[at].push(byte);
    say_length(&mut draft.0[at], end + 1 - HEADER);
    draft.differs(at)
}

/// A length of one more, and not the byte: the next record's first one is taken for it, or there is none.
fn says_more(random: &mut Random, draft: &mut Draft) -> Option<String> {
    let at = draft.some_answer(random, |answer| answer.len() < WRITTEN + OUT)?;
    let length = draft.0[at].len() + 1 - HEADER;
    say_length(&mut draft.0[at], length);
    if at + 1 == draft.0.len() { Some(String::from(BAD)) } else { draft.differs(at) }
}

fn says_less(_: &mut Random, answer: &mut Vec<u8>) {
    let length = answer.len() - 1 - HEADER;
    say_length(answer, length);
}

/// Bad for two reasons at once, of which the first is said.
fn two_reasons(random: &mut Random, draft: &mut Draft) -> Option<String> {
    let at = draft.some_answer(random, any)?;
    let first = random.below(5);
    for reason in [first, (first + random.between(1, 4)) % 5] {
        let record = &mut draft.0[at];
        match reason {
            0 => change(random, &mut record[0]),
            1 => record[KIND] = random.pick(&[0, 7, 255]),
            2 => say_length(record, random.pick(&[0, ANSWER_LEAST - 1, ANSWER_MOST + 1, 65_535])),
            3 => change(random, &mut record[SLOT]),
            _ => {
                let left = random.between(HEADER as u64, record.len() as u64 - 1) as usize;
                draft.cut(at, left);
            }
        }
    }
    Some(String::from(BAD))
}

/// A bad call, and behind it, directly or not, a wrong answer.
fn bad_then_wrong(random: &mut Random, draft: &mut Draft) -> Option<String> {
    let at = draft.some_answer(random, any)?;
    let calls: Vec<usize> = (0..at).filter(|call| !is_answer(&draft.0[*call])).collect();
    let call = one_of(random, &calls)?;
    some_wrong(random, &mut draft.0[at]);
    bad_call(random, &mut draft.0[call]);
    Some(String::from(BAD))
}

/// A wrong answer, and behind it a bad record: a call, an answer, or what is left of one.
fn wrong_then_bad(random: &mut Random, draft: &mut Draft) -> Option<String> {
    let at = draft.some_answer(random, any)?;
    some_wrong(random, &mut draft.0[at]);
    let behind: Vec<usize> = (at + 1..draft.0.len()).collect();
    match (random.below(3), one_of(random, &behind)) {
        (0, Some(later)) => bad_call(random, &mut draft.0[later]),
        (1, _) => draft.0.insert(at + 1, draft.0[at].clone()),
        _ => draft.0.push(vec![0x52, 0x32, ANSWER]),
    }
    draft.differs(at)
}

/// Two wrong answers, of which the first counts.
fn two_wrong(random: &mut Random, draft: &mut Draft) -> Option<String> {
    let (one, other) = (draft.some_answer(random, any)?, draft.some_answer(random, any)?);
    if one == other {
        return None;
    }
    some_wrong(random, &mut draft.0[one]);
    some_wrong(random, &mut draft.0[other]);
    draft.differs(one.min(other))
}

/// A wrong answer behind a call that is not judged, so that the place is not the count of the judged.
fn unjudged_before(random: &mut Random, draft: &mut Draft) -> Option<String> {
    let at = draft.some_answer(random, any)?;
    let earlier: Vec<usize> = (0..at).filter(|place| is_answer(&draft.0[*place])).collect();
    let left_out = one_of(random, &earlier)?;
    some_wrong(random, &mut draft.0[at]);
    draft.0.remove(left_out);
    draft.differs(at - 1)
}

/// A call is made once more, or a tick or a close of the same slot and now, and answered as the first was; the first keeps its answer, or has lost it.
fn stale(random: &mut Random, draft: &mut Draft) -> Option<String> {
    let mut calls: Vec<Vec<u8>> = draft.0.iter().filter(|record| !is_answer(record)).cloned().collect();
    let at = random.below(calls.len().max(1) as u64) as usize;
    let mut again = calls.get(at)?.clone();
    again[KIND] = random.pick(&[again[KIND], again[KIND], TICK, CLOSE]);
    calls.insert(at + 1, again);
    *draft = Draft(Recorder::new().records(&calls.concat(), || true));
    let (before, behind) = (2 * at + 1, 2 * at + 3);
    if draft.0[before] == draft.0[behind] {
        return None;
    }
    draft.0[behind] = draft.0[before].clone();
    let verdict = draft.differs(behind);
    if random.once_in(2) {
        draft.0.remove(before);
    }
    verdict
}

/// Whether two records have the same slot and now.
fn alike(one: &[u8], other: &[u8]) -> bool {
    one[SLOT..LENGTH.start] == other[SLOT..LENGTH.start]
}

/// An answer behind the next call, which is of another slot or now.
fn moved_on(random: &mut Random, draft: &mut Draft) -> Option<String> {
    let at = draft.some_answer(random, any)?;
    if alike(&draft.0[at], draft.0.get(at + 1)?) {
        return None;
    }
    draft.0.swap(at, at + 1);
    Some(String::from(BAD))
}

/// An answer before its call, and not behind another call of the same slot and now.
fn before_its_call(random: &mut Random, draft: &mut Draft) -> Option<String> {
    let at = draft.some_answer(random, any)?;
    if at >= 2 && !is_answer(&draft.0[at - 2]) && alike(&draft.0[at - 2], &draft.0[at]) {
        return None;
    }
    draft.0.swap(at - 1, at);
    Some(String::from(BAD))
}

/// Bytes behind a right file that are too few for a header, whatever they are.
fn rest(random: &mut Random, draft: &mut Draft) -> Option<String> {
    let length = random.between(1, HEADER as u64 - 1) as usize;
    let any = random.bytes(length);
    let right = &replay::bytes_of(&Call { kind: random.pick(&[TICK, ANSWER]), slot: 0, now: 0, bytes: &[] })[..length];
    draft.0.push(if random.once_in(2) { any } else { right.to_vec() });
    Some(String::from(BAD))
}

/// What is done to a file, in turn.
const DAMAGES: [(&str, Damage); 64] = [
    ("right-all", |_, draft| draft.agrees()),
    ("right-some", |_, draft| draft.agrees()),
    ("right-none", |_, draft| {
        draft.0.retain(|record| !is_answer(record));
        draft.agrees()
    }),
    ("right-longest", |random, draft| draft.some_answer(random, |answer| answer.len() == HEADER + ANSWER_MOST).and_then(|_| draft.agrees())),
    ("number", |random, draft| wrong(random, draft, any, other_number)),
    ("number-high-byte", |random, draft| wrong(random, draft, any, |random, answer| change(random, &mut answer[NUMBER][0]))),
    ("number-low-byte", |random, draft| wrong(random, draft, any, |random, answer| change(random, &mut answer[NUMBER][1]))),
    ("number-of-no-slot", |random, draft| wrong(random, draft, |answer| number(answer) == 101, other_number)),
    ("released-other", |random, draft| wrong(random, draft, any, other_released)),
    ("released-over-1", |random, draft| {
        wrong(random, draft, any, |random, answer| answer[RELEASED] = random.pick(&[2, 2, 2 + answer[RELEASED], 0x80 + answer[RELEASED], 0xFF]))
    }),
    ("age-byte-1", |random, draft| wrong(random, draft, any, |random, answer| change(random, &mut answer[AGE][0]))),
    ("age-byte-2", |random, draft| wrong(random, draft, any, |random, answer| change(random, &mut answer[AGE][1]))),
    ("age-byte-3", |random, draft| wrong(random, draft, any, |random, answer| change(random, &mut answer[AGE][2]))),
    ("age-byte-4", |random, draft| wrong(random, draft, any, |random, answer| change(random, &mut answer[AGE][3]))),
    ("age-negated", |random, draft| {
        wrong(random, draft, has_age, |_, answer| {
            let negated = -age(answer);
            answer[AGE].copy_from_slice(&negated.to_be_bytes());
        })
    }),
    ("age-0", |random, draft| wrong(random, draft, has_age, |_, answer| answer[AGE].fill(0))),
    ("written-first", |random, draft| wrong(random, draft, writes, |random, answer| change(random, &mut answer[WRITTEN]))),
    ("written-middle", |random, draft| {
        wrong(random, draft, writes, |random, answer| {
            let at = random.between(WRITTEN as u64 + 1, answer.len() as u64 - 2) as usize;
            change(random, &mut answer[at]);
        })
    }),
    ("written-last", |random, draft| {
        wrong(random, draft, writes, |random, answer| {
            let at = answer.len() - 1;
            change(random, &mut answer[at]);
        })
    }),
    ("one-more", |random, draft| {
        let fits: Fits = |answer| writes(answer) && answer.len() < HEADER + ANSWER_MOST;
        wrong(random, draft, fits, |random, answer| set_length(random, answer, answer.len() + 1 - HEADER))
    }),
    ("one-more-than-nothing", |random, draft| {
        wrong(random, draft, |answer| !writes(answer), |random, answer| set_length(random, answer, ANSWER_LEAST + 1))
    }),
    ("one-more-left-over", left_over),
    ("one-less", |random, draft| wrong(random, draft, writes, |random, answer| set_length(random, answer, answer.len() - 1 - HEADER))),
    ("one-less-than-nothing", |random, draft| {
        bad(random, draft, |answer| !writes(answer), |random, answer| set_length(random, answer, ANSWER_LEAST - 1))
    }),
    ("nothing-written", |random, draft| wrong(random, draft, writes, |random, answer| set_length(random, answer, ANSWER_LEAST))),
    ("length-6", |random, draft| bad(random, draft, any, |random, answer| set_length(random, answer, ANSWER_LEAST - 1))),
    ("length-0-to-5", |random, draft| {
        bad(random, draft, any, |random, answer| {
            let length = random.below(6) as usize;
            set_length(random, answer, length);
        })
    }),
    ("length-1007", |random, draft| {
        wrong(random, draft, |answer| answer.len() < HEADER + ANSWER_MOST, |random, answer| set_length(random, answer, ANSWER_MOST))
    }),
    ("length-1008", |random, draft| bad(random, draft, any, |random, answer| set_length(random, answer, ANSWER_MOST + 1))),
    ("length-1009-and-more", |random, draft| {
        bad(random, draft, any, |random, answer| {
            let length = random.between(ANSWER_MOST as u64 + 2, 1200) as usize;
            set_length(random, answer, length);
        })
    }),
    ("length-says-more", says_more),
    ("length-says-less", |random, draft| wrong(random, draft, writes, says_less)),
    ("cut-answer-header", |random, draft| {
        let at = draft.some_answer(random, any)?;
        draft.cut(at, random.between(1, HEADER as u64 - 1) as usize)
    }),
    ("cut-answer-bytes", |random, draft| {
        let at = draft.some_answer(random, any)?;
        draft.cut(at, random.between(HEADER as u64, draft.0[at].len() as u64 - 1) as usize)
    }),
    ("cut-call-header", |random, draft| {
        let at = draft.some_call(random, any)?;
        draft.cut(at, random.between(1, HEADER as u64 - 1) as usize)
    }),
    ("cut-call-bytes", |random, draft| {
        let at = draft.some_call(random, |call| call.len() > HEADER)?;
        draft.cut(at, random.between(HEADER as u64, draft.0[at].len() as u64 - 1) as usize)
    }),
    ("rest-of-bytes", rest),
    ("slot", |random, draft| bad(random, draft, any, |random, answer| change(random, &mut answer[SLOT]))),
    ("now-byte-1", |random, draft| bad(random, draft, any, |random, answer| change(random, &mut answer[NOW]))),
    ("now-byte-2", |random, draft| bad(random, draft, any, |random, answer| change(random, &mut answer[NOW + 1]))),
    ("now-byte-3", |random, draft| bad(random, draft, any, |random, answer| change(random, &mut answer[NOW + 2]))),
    ("now-byte-4", |random, draft| bad(random, draft, any, |random, answer| change(random, &mut answer[NOW + 3]))),
    ("wrong-and-bad", |random, draft| {
        bad(random, draft, any, |random, answer| {
            some_wrong(random, answer);
            let at = random.between(SLOT as u64, LENGTH.start as u64 - 1) as usize;
            change(random, &mut answer[at]);
        })
    }),
    ("answer-first", first),
    ("answer-doubled", |random, draft| {
        let at = draft.some_answer(random, any)?;
        draft.0.insert(at + 1, draft.0[at].clone());
        Some(String::from(BAD))
    }),
    ("answer-behind-bad", |random, draft| {
        let at = draft.some_answer(random, any)?;
        bad_call(random, &mut draft.0[at - 1]);
        Some(String::from(BAD))
    }),
    ("answer-moved-on", moved_on),
    ("answer-before-its-call", before_its_call),
    ("mark-of-answer", |random, draft| {
        bad(random, draft, any, |random, answer| {
            let at = random.below(2) as usize;
            change(random, &mut answer[at]);
        })
    }),
    ("mark-of-call", |random, draft| {
        let at = draft.some_call(random, any)?;
        let byte = random.below(2) as usize;
        change(random, &mut draft.0[at][byte]);
        Some(String::from(BAD))
    }),
    ("kind-0", |random, draft| of_kind(random, draft, 0)),
    ("kind-7", |random, draft| of_kind(random, draft, 7)),
    ("kind-8-to-254", unknown_kind),
    ("kind-255", |random, draft| of_kind(random, draft, 255)),
    ("call-length-over", |random, draft| {
        let at = draft.some_call(random, any)?;
        long_call(random, &mut draft.0[at]);
        Some(String::from(BAD))
    }),
    ("call-length-1001", |random, draft| {
        let at = draft.some_call(random, any)?;
        set_length(random, &mut draft.0[at], LENGTH_MOST + 1);
        Some(String::from(BAD))
    }),
    ("length-over-and-cut", over_and_cut),
    ("two-reasons", two_reasons),
    ("bad-then-wrong", bad_then_wrong),
    ("wrong-then-bad", wrong_then_bad),
    ("two-wrong", two_wrong),
    ("unjudged-before", unjudged_before),
    ("stale", stale),
    ("longest-changed", |random, draft| {
        wrong(random, draft, |answer| answer.len() == HEADER + ANSWER_MOST, |random, answer| change(random, &mut answer[HEADER..][ANSWER_MOST - 1]))
    }),
];

/// A random recorder file: what was done to it, the verdict that must come out, and its bytes.
pub struct Recording {
    pub damage: &'static str,
    pub verdict: String,
    pub bytes: Vec<u8>,
}

impl Recording {
    /// Its line in the list.
    pub fn line(&self, name: &str) -> String {
        format!("{name} {} {}\n", self.damage, self.verdict)
    }
}

/// One file with that damage: drafts are made until one has a place for it.
fn recording(random: &mut Random, (damage, spoil): (&'static str, Damage)) -> Recording {
    loop {
        let thin = damage != "right-all" && random.once_in(2) || damage == "right-some";
        let mut draft = Draft::some(random, thin);
        if let Some(verdict) = spoil(random, &mut draft) {
            return Recording { damage, verdict, bytes: draft.0.concat() };
        }
    }
}

/// Random recorder files, each damage in turn.
pub fn recordings(seed: u64, count: usize) -> impl Iterator<Item = Recording> {
    (0..count).map(move |at| recording(&mut Random::new((seed << 32).wrapping_add(at as u64)), DAMAGES[at % DAMAGES.len()]))
}

/// Writes random recorder files and their list: name, what was done, the verdict line. Gives how often each was done.
pub fn write_recordings(seed: u64, count: usize, folder: &Path) -> io::Result<BTreeMap<&'static str, usize>> {
    let (mut counts, mut list) = (BTreeMap::new(), String::new());
    std::fs::create_dir_all(folder)?;
    for (at, made) in recordings(seed, count).enumerate() {
        let name = format!("{at:05}.record");
        list.push_str(&made.line(&name));
        std::fs::write(folder.join(name), made.bytes)?;
        *counts.entry(made.damage).or_insert(0) += 1;
    }
    std::fs::write(folder.join("list"), list)?;
    Ok(counts)
}

/// The names of all that is done.
pub fn damages() -> Vec<&'static str> {
    DAMAGES.iter().map(|(name, _)| *name).collect()
}
