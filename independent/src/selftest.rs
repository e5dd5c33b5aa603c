//! The program's own tests: 01's "Numbers worked through", its trace example, and each bound on both sides.

use crate::connection::{self, Answer, Record, Settings, ALL_ZERO};
use crate::links::{self, Known, Role, State};
use crate::message::{self, After, Message};
use crate::packet::{self, Link, Packet};
use crate::replay::{self, Call};
use crate::{annex, calls, checker, given, messages, recorder, rowcalls, rows, streams, table, traces};
use std::collections::BTreeSet;
use std::fmt::Debug;

/// Counts the cases and prints those that fail.
#[derive(Default)]
pub struct Tests {
    pub cases: usize,
    pub failed: usize,
}

impl Tests {
    fn equal<T: PartialEq + Debug>(&mut self, what: &str, got: T, wanted: T) {
        self.cases += 1;
        if got != wanted {
            self.failed += 1;
            println!("failed: {what}: {got:?}, wanted {wanted:?}");
        }
    }
}

pub fn all() -> Tests {
    let mut tests = Tests::default();
    header_check(&mut tests);
    packet_writing(&mut tests);
    long_packet_writing(&mut tests);
    packet_rows(&mut tests);
    long_packet_rows(&mut tests);
    long_packets_run(&mut tests);
    packet_first_rows(&mut tests);
    known_callers(&mut tests);
    known_caller_ids(&mut tests);
    known_callers_order(&mut tests);
    known_callers_run(&mut tests);
    ids_of_cut(&mut tests);
    two_links(&mut tests);
    message_bounds(&mut tests);
    offsets(&mut tests);
    worked_set_up(&mut tests);
    worked_ages(&mut tests);
    worked_numbers(&mut tests);
    reported_ages(&mut tests);
    no_ages(&mut tests);
    set_up_rows(&mut tests);
    waits(&mut tests);
    callers_faults(&mut tests);
    settings_bounds(&mut tests);
    error_counter(&mut tests);
    whole_set_up(&mut tests);
    table_sizes(&mut tests);
    row_fields(&mut tests);
    row_bounds(&mut tests);
    free_fields(&mut tests);
    closed_rows(&mut tests);
    row_lengths(&mut tests);
    row_refused_first(&mut tests);
    row_callers_faults(&mut tests);
    answer_rows(&mut tests);
    rows_released(&mut tests);
    set_up_over_rows(&mut tests);
    rows_read(&mut tests);
    rows_written(&mut tests);
    rows_too_large(&mut tests);
    row_files(&mut tests);
    trace_replay(&mut tests);
    trace_ages(&mut tests);
    recorded_by_hand(&mut tests);
    answers_left_out(&mut tests);
    answers_changed(&mut tests);
    answers_in_words(&mut tests);
    answers_misplaced(&mut tests);
    answer_lengths(&mut tests);
    recorder_files_cut(&mut tests);
    first_reason(&mut tests);
    first_in_the_file(&mut tests);
    answers_of_no_slot(&mut tests);
    random_recordings(&mut tests);
    kept_answers(&mut tests);
    many_calls(&mut tests);
    long_recordings(&mut tests);
    everything_occurs(&mut tests);
    everything_occurs_over_rows(&mut tests);
    tests
}

// Packets.

fn header_check(tests: &mut Tests) {
    for row in annex::ROWS {
        tests.equal("004's annex by the other bit order", packet::check_other_order(&row.header), row.annex);
    }
    tests.equal("the annex's first header by 01's rule", packet::check(&annex::ROWS[0].header), 0xBBF6);
    // The known value of this check with the end inverted (CRC-16/X-25) is 906E.
    tests.equal("the well-known nine digits", packet::check(b"123456789") ^ 0xFFFF, 0x906E);
    tests.equal("no bytes", packet::check(&[]), 0xFFFF);
}

fn plain(kind: u8, number: u16, data: &[u8]) -> Packet<'_> {
    Packet { version: 1, application: 0x1A, number, kind, data }
}

fn written_on(link: Link, kind: u8, number: u16, data: &[u8], room: usize) -> (u16, usize) {
    let mut out = vec![0xA5; room];
    let got = packet::write(link, &plain(kind, number, data), &mut out);
    assert!(out[got.1..].iter().all(|byte| *byte == 0xA5), "a byte was written behind the packet, or of one that is refused");
    got
}

fn written(kind: u8, number: u16, data: &[u8], room: usize) -> (u16, usize) {
    written_on(Link::Normal, kind, number, data, room)
}

/// 02's No. 6: both sides of the most that is written, of the room that it asks, and of the 1,024 that were once the most.
fn long_packet_writing(tests: &mut Tests) {
    let data: Vec<u8> = (0..65_535_u32).map(|at| (at % 251) as u8).collect();
    for link in [Link::Normal, Link::Redundant] {
        for (length, room, answer) in [
            (65_000, 65_010, 0), (65_000, 65_009, 313), (65_000, 65_535, 0), (64_999, 65_009, 0), (64_999, 65_008, 313), (65_001, 65_011, 312),
            (65_001, 65_535, 312), (65_002, 65_535, 312), (65_535, 65_535, 312), (1_024, 1_034, 0), (1_025, 1_035, 0), (1_025, 1_034, 313),
            (32_758, 32_768, 0), (32_758, 32_767, 313), (65_000, 10, 313), (65_001, 10, 312),
        ] {
            for kind in [3, 4] {
                let wanted = (answer, if answer == 0 { 10 + length } else { 0 });
                tests.equal("long user data", written_on(link, kind, 5, &data[..length], room), wanted);
            }
        }
        let mut out = vec![0; 65_010];
        let answer = packet::write(link, &plain(3, 5, &data[..65_000]), &mut out);
        tests.equal("the longest packet", (answer, &out[..8]), ((0, 65_010), &[0xFD, 0xF0, 1, 0x1A, 0, 5, link.flag(), 3][..]));
        tests.equal("its check", u16::from_be_bytes([out[8], out[9]]), packet::check(&out[..8]));
        tests.equal("its user data", out[10..] == data[..65_000], true);
    }
    let mut ids = vec![9; 65_001];
    ids[8] = 3;
    tests.equal("the longest AU1", written(1, 0, &ids[..65_000], 65_010), (0, 65_010));
    tests.equal("an AU1 one byte longer", written(1, 0, &ids, 65_535), (312, 0));
    tests.equal("the longest AU2", written(2, 0, &ids[..65_000], 65_010), (0, 65_010));
    tests.equal("an AU2 one byte longer", written(2, 0, &ids, 65_535), (312, 0));
}

fn packet_writing(tests: &mut Tests) {
    let data = [0_u8; 65_001];
    let au1 = |length: usize, class: u8| {
        let mut bytes = vec![9; length];
        if length > 8 {
            bytes[8] = class;
        }
        bytes
    };
    tests.equal("out 10 + n", written(3, 5, &data[..20], 30), (0, 30));
    tests.equal("out 10 + n - 1", written(3, 5, &data[..20], 29), (313, 0));
    tests.equal("312 before 313", written(4, 5, &data, 0), (312, 0));
    tests.equal("311 before 312", written(5, 5, &data, 0), (311, 0));
    for kind in [0, 5, 250, 251, 252, 253, 254, 255] {
        tests.equal("type not in class D", written(kind, 0, &data[..20], 100), (311, 0));
    }
    for kind in [3, 4] {
        tests.equal("type in class D", written(kind, 65535, &[], 10), (0, 10));
    }
    tests.equal("AU1 of 9 bytes", written(1, 0, &au1(9, 3), 19), (0, 19));
    tests.equal("AU1 of 8 bytes", written(1, 0, &au1(8, 3), 100), (311, 0));
    tests.equal("AU1 of class 0", written(1, 0, &au1(9, 0), 100), (311, 0));
    tests.equal("AU1 numbered 1", written(1, 1, &au1(9, 3), 100), (311, 0));
    tests.equal("AU2 of 4 bytes", written(2, 0, &data[..4], 14), (0, 14));
    tests.equal("AU2 of 3 bytes", written(2, 0, &data[..3], 100), (311, 0));
    tests.equal("AU2 numbered 1", written(2, 1, &data[..4], 100), (311, 0));
}

// Two links.

fn later(last: u16, strict: bool) -> State {
    State { first: false, last, ..links::fresh(Role::Responder, strict) }
}

/// Who is called 07070707 and may be called by 07070707: the ids of the AU1s below.
const SEVENS: Known = Known { ours: 0x0707_0707, callers: &[7; 4] };

fn judged(state: State, link: Link, bytes: &[u8]) -> (u16, usize) {
    let (_, step) = match link {
        Link::Normal => links::step(state, SEVENS, (bytes, 0), (&[], 0)),
        Link::Redundant => links::step(state, SEVENS, (&[], 0), (bytes, 0)),
    };
    (step.answer, step.used)
}

/// A header with a length and right check, and user data enough for any length.
fn with_length(link: Link, length: u16) -> Vec<u8> {
    let data: Vec<u8> = (0..65_535_u32).map(|at| (at % 251) as u8).collect();
    let mut bytes = packet::bytes_of(link, &plain(3, 1, &data));
    bytes[..2].copy_from_slice(&length.to_be_bytes());
    let check = packet::check(&bytes[..8]).to_be_bytes();
    bytes[8..10].copy_from_slice(&check);
    bytes
}

fn packet_rows(tests: &mut Tests) {
    for link in [Link::Normal, Link::Redundant] {
        for (length, answer, used) in [(7, 302, 0), (8, 0, 10), (0, 302, 0), (65535, 302, 0)] {
            tests.equal("length", judged(later(0, true), link, &with_length(link, length)), (answer, used));
        }
    }
    tests.equal("length fault seen at 2 bytes", judged(later(0, true), Link::Normal, &[0, 7]), (302, 0));
    tests.equal("not seen at 1 byte", judged(later(0, true), Link::Normal, &[0]), (301, 0));
    let good = packet::bytes_of(Link::Normal, &plain(3, 1, &[4; 5]));
    tests.equal("whole", judged(later(0, true), Link::Normal, &good), (0, 15));
    tests.equal("one byte short", judged(later(0, true), Link::Normal, &good[..14]), (301, 0));
    let mut damaged = good.clone();
    damaged[9] ^= 1;
    tests.equal("check wrong", judged(later(0, true), Link::Normal, &damaged), (303, 0));
    tests.equal("check before flag", judged(later(0, true), Link::Redundant, &damaged), (303, 0));
    tests.equal("flag 1 on redundant", judged(later(0, true), Link::Redundant, &good), (304, 0));
    let other = packet::bytes_of(Link::Redundant, &plain(251, 1, &[]));
    tests.equal("flag 0 on normal", judged(later(0, true), Link::Normal, &other), (304, 0));
    tests.equal("type not in class D", judged(later(0, true), Link::Redundant, &other), (305, 10));
    let numbered = |kind, number| packet::bytes_of(Link::Normal, &plain(kind, number, &[]));
    for (last, number, strict, answer) in [
        (5, 5, false, 306), (5, 6, true, 0), (5, 7, true, 307), (5, 7, false, 0), (5, 32772, false, 0), (5, 32772, true, 307),
        (5, 32773, false, 306), (5, 4, false, 306), (65535, 0, true, 0), (65535, 1, true, 307), (65535, 32766, false, 0), (65535, 32767, false, 306),
    ] {
        tests.equal("number", judged(later(last, strict), Link::Normal, &numbered(3, number)).0, answer);
    }
    for kind in [1, 2] {
        tests.equal("AU1 or AU2 later", judged(later(5, false), Link::Normal, &numbered(kind, 6)), (306, 10));
    }
    tests.equal("release", judged(later(5, true), Link::Normal, &numbered(4, 6)), (0, 10));
}

/// 02's No. 6: both sides of the greatest length, of the one that was the greatest before, and of those that set another bit of the field; with
/// all the bytes there, at two bytes, and without the last one.
fn long_packet_rows(tests: &mut Tests) {
    let state = later(0, true);
    for link in [Link::Normal, Link::Redundant] {
        for length in [255, 256, 1031, 1032, 1033, 1034, 4096, 32_767, 32_768, 32_769, 65_007, 65_008] {
            let (bytes, used) = (with_length(link, length), 2 + usize::from(length));
            tests.equal("an allowed length", judged(state, link, &bytes), (0, used));
            tests.equal("and no byte behind it", judged(state, link, &bytes[..used]), (0, used));
            tests.equal("one byte short", judged(state, link, &bytes[..used - 1]), (301, 0));
            tests.equal("two bytes are there", judged(state, link, &bytes[..2]), (301, 0));
            let (normal, redundant) = if link == Link::Normal { (&bytes[..], &[][..]) } else { (&[][..], &bytes[..]) };
            let (after, step) = links::step(state, SEVENS, (normal, 0), (redundant, 0));
            tests.equal("its user data", step.packet.map(|taken| *taken.data == bytes[10..used]), Some(true));
            tests.equal("its number", after, later(1, true));
        }
        for length in [65_009, 65_010, 65_011, 65_100, 65_534, 65_535] {
            let bytes = with_length(link, length);
            for there in [2, 3, 10, 65_010, usize::from(length) + 2] {
                tests.equal("a length over the most", judged(state, link, &bytes[..there]), (302, 0));
            }
            tests.equal("not seen at one byte", judged(state, link, &bytes[..1]), (301, 0));
        }
        for (kind, number, answer) in [(251, 1, 305), (3, 0, 306), (3, 2, 307), (1, 1, 306)] {
            let bytes = packet::bytes_of(link, &plain(kind, number, &[0; 65_000]));
            tests.equal("used and dropped", judged(state, link, &bytes), (answer, 65_010));
        }
    }
}

/// 02's No. 6 in a whole run: a long opening packet, one of the greatest length on each link, one that is cut on the normal link and whole on
/// the other, and one byte too many.
fn long_packets_run(tests: &mut Tests) {
    let mut ids = vec![7; 65_000];
    ids[8] = 3;
    let sent = |link, packets: &[(u8, u16, &[u8])]| -> Vec<u8> {
        packets.iter().flat_map(|(kind, number, data)| packet::bytes_of(link, &plain(*kind, *number, data))).collect()
    };
    let (most, over) = (vec![0; 65_000], vec![0; 65_001]);
    let normal = sent(Link::Normal, &[(1, 0, &ids), (3, 1, &most), (3, 2, &[4]), (3, 3, &most)]);
    let redundant = sent(Link::Redundant, &[(3, 2, &most), (3, 3, &most), (3, 4, &over), (3, 5, &[])]);
    let lines = [
        "link answer used type number data", "normal 0 65010 1 0 65000", "normal 0 65010 3 1 65000", "normal 0 11 3 2 1", "redundant 306 65010 0 0 0",
        "redundant 0 65010 3 3 65000", "redundant 302 0 0 0 0", "normal 301 0 0 0 0", "end 4\n",
    ];
    tests.equal("a run with long packets", links::cut(Role::Responder, true, SEVENS, &normal[..normal.len() - 1], &redundant), lines.join("\n"));
}

fn packet_first_rows(tests: &mut Tests) {
    let mut ids = [7_u8; 9];
    ids[8] = 3;
    let mut class_0 = ids;
    class_0[8] = 0;
    for (role, kind, number, data, answer) in [
        (Role::Responder, 1, 0, &ids[..9], 0), (Role::Responder, 1, 0, &ids[..8], 309), (Role::Responder, 1, 0, &class_0[..], 309),
        (Role::Responder, 1, 1, &ids[..], 309), (Role::Responder, 2, 0, &ids[..], 309), (Role::Responder, 3, 0, &ids[..], 309),
        (Role::Initiator, 2, 0, &ids[..4], 0), (Role::Initiator, 2, 0, &ids[..3], 309), (Role::Initiator, 2, 65535, &ids[..4], 309),
        (Role::Initiator, 1, 0, &ids[..], 309), (Role::Initiator, 4, 0, &ids[..], 309), (Role::Initiator, 253, 0, &ids[..], 305),
    ] {
        let bytes = packet::bytes_of(Link::Normal, &plain(kind, number, data));
        for strict in [true, false] {
            tests.equal("first packet", judged(links::fresh(role, strict), Link::Normal, &bytes), (answer, 10 + data.len()));
            let leftover = State { last: 60_000, ..links::fresh(role, strict) };
            tests.equal("first packet has no d", judged(leftover, Link::Normal, &bytes).0, answer);
        }
    }
}

/// The user data of an AU1.
fn calls_of(caller: u32, called: u32, class: u8) -> Vec<u8> {
    [&caller.to_be_bytes()[..], &called.to_be_bytes(), &[class]].concat()
}

/// What a responder's first packet gets on either link, under either setting; anything but 0 must leave the state and hand up nothing.
fn first_of(tests: &mut Tests, what: &str, known: Known, (kind, number, data): (u8, u16, &[u8]), answer: u16) {
    for link in [Link::Normal, Link::Redundant] {
        let bytes = packet::bytes_of(link, &plain(kind, number, data));
        for strict in [true, false] {
            let state = State { last: 40_000, ..links::fresh(Role::Responder, strict) };
            let (normal, redundant) = if link == Link::Normal { (&bytes[..], &[][..]) } else { (&[][..], &bytes[..]) };
            let (after, step) = links::step(state, known, (normal, 0), (redundant, 0));
            tests.equal(what, (step.answer, step.link, step.used), (answer, link, bytes.len()));
            let handed_up = (answer == 0).then_some(data);
            tests.equal(what, step.packet.map(|taken| taken.data), handed_up);
            tests.equal(what, after, if answer == 0 { State { first: false, last: 0, ..state } } else { state });
        }
    }
}

const THREE: [u8; 12] = [0, 0, 0, 7, 0, 0, 0, 8, 0x0A, 0x0B, 0x0C, 0x0D];

/// 02's No. 9, both sides of each bound: our id is 9, and 7, 8 and 0A0B0C0D may call.
fn known_callers(tests: &mut Tests) {
    let mut called = |what: &str, callers: &[u8], caller, called, answer| {
        let data = calls_of(caller, called, 3);
        first_of(tests, what, Known { ours: 9, callers }, (1, 0, &data), answer);
    };
    called("listed first", &THREE, 7, 9, 0);
    called("listed in the middle", &THREE, 8, 9, 0);
    called("listed last", &THREE, 0x0A0B_0C0D, 9, 0);
    called("not listed", &THREE, 6, 9, 310);
    for caller in [0x0100_0007, 0x0001_0007, 0x0000_0107, 0x0000_0006, 0x0700_0000, 0x0D0C_0B0A, 0x0A0B_0C0E, 0x0B0B_0C0D] {
        called("one byte off, or the other way round", &THREE, caller, 9, 310);
    }
    called("called not ours", &THREE, 7, 8, 310);
    for other in [0x0100_0009, 0x0001_0009, 0x0000_0109, 0x0000_0008, 0x0900_0000, 0, 7] {
        called("called one byte off, or the other way round", &THREE, 7, other, 310);
    }
    called("neither", &THREE, 6, 8, 310);
    called("swapped", &THREE, 9, 7, 310);
    called("nobody is let in", &[], 7, 9, 310);
    called("nor the caller 0", &[], 0, 9, 310);
    for left_over in 1..4 {
        called("only a cut entry", &THREE[..left_over], 7, 9, 310);
        called("a cut entry is none", &THREE[..8 + left_over], 0x0A0B_0C0D, 9, 310);
        called("nor does it spoil the others", &THREE[..8 + left_over], 8, 9, 0);
    }
    called("a cut entry with zeros behind", &[&THREE[..8], &[5, 6, 1]].concat(), 0x0506_0100, 9, 310);
    called("a cut entry with zeros before", &[&THREE[..8], &[5, 6]].concat(), 0x0506, 9, 310);
    called("only zeros, cut", &[0; 3], 0, 9, 310);
    called("only zeros, whole", &[0; 4], 0, 9, 0);
    for (at, caller) in [(1, 0x0000_0700), (2, 0x0007_0000), (3, 0x0700_0000), (5, 0x0000_080A), (7, 0x080A_0B0C)] {
        tests.equal("the bytes of the caller do stand there", &THREE[at..at + 4], &u32::to_be_bytes(caller)[..]);
        first_of(tests, "across two entries", Known { ours: 9, callers: &THREE }, (1, 0, &calls_of(caller, 9, 3)), 310);
    }
}

/// 02's No. 9: our own id on the list, the least and the greatest ids, an entry twice, another order, a long list.
fn known_caller_ids(tests: &mut Tests) {
    let mut judged = |what: &str, ours: u32, callers: &[u32], (caller, called): (u32, u32), answer| {
        let callers: Vec<u8> = callers.iter().flat_map(|id| id.to_be_bytes()).collect();
        first_of(tests, what, Known { ours, callers: &callers }, (1, 0, &calls_of(caller, called, 3)), answer);
    };
    judged("we call ourselves, and are listed", 9, &[9], (9, 9), 0);
    judged("we call ourselves, and are not listed", 9, &[8], (9, 9), 310);
    judged("the least ids", 0, &[0], (0, 0), 0);
    judged("the greatest ids", u32::MAX, &[u32::MAX], (u32::MAX, u32::MAX), 0);
    judged("one less", u32::MAX, &[u32::MAX - 1], (u32::MAX, u32::MAX), 310);
    judged("one more", 0, &[1], (0, 0), 310);
    judged("we are 0, another is called", 0, &[7], (7, 1), 310);
    for callers in [[7, 7, 8], [8, 7, 7], [7, 8, 7], [7, 7, 7], [8, 8, 7], [7, 8, 8], [8, 7, 8]] {
        judged("an entry twice, any order", 9, &callers, (7, 9), 0);
        judged("an entry twice, any order", 9, &callers, (6, 9), 310);
    }
    let many: Vec<u32> = (1000..6000).collect();
    for (caller, answer) in [(999, 310), (1000, 0), (3500, 0), (5999, 0), (6000, 310)] {
        judged("a long list", 9, &many, (caller, 9), answer);
    }
}

/// 02's No. 9: 309 and the rows above it come first; an initiator, and a packet that is not the first, are not judged.
fn known_callers_order(tests: &mut Tests) {
    let nobody = Known { ours: 9, callers: &[] };
    let (good, other_class, short) = (calls_of(7, 9, 3), calls_of(7, 9, 0), calls_of(7, 9, 3)[..8].to_vec());
    for (kind, number, data, answer) in [
        (1, 0, &good, 310), (1, 0, &other_class, 309), (1, 1, &good, 309), (1, 65535, &good, 309), (1, 0, &short, 309), (2, 0, &good, 309),
        (3, 0, &good, 309), (3, 1, &good, 309), (4, 0, &good, 309), (254, 0, &good, 305), (0, 0, &good, 305),
    ] {
        first_of(tests, "nobody is let in", nobody, (kind, number, data), answer);
        first_of(tests, "someone else is called", Known { ours: 8, callers: &THREE }, (kind, number, data), answer);
        first_of(tests, "the caller is let in", Known { ours: 9, callers: &THREE }, (kind, number, data), if answer == 310 { 0 } else { answer });
    }
    let au2 = packet::bytes_of(Link::Normal, &plain(2, 0, &good[..4]));
    let au1 = packet::bytes_of(Link::Normal, &plain(1, 1, &good));
    let data = packet::bytes_of(Link::Normal, &plain(3, 1, &good));
    for known in [nobody, Known { ours: 8, callers: &THREE }, Known { ours: 9, callers: &THREE }] {
        let answer = |state, bytes| links::step(state, known, (bytes, 0), (&[], 0)).1.answer;
        tests.equal("an initiator is not judged", answer(links::fresh(Role::Initiator, true), &au2), 0);
        tests.equal("a later AU1 is 306", answer(later(0, true), &au1), 306);
        tests.equal("a later packet is not judged", answer(later(0, true), &data), 0);
        tests.equal("nor an initiator's", answer(State { role: Role::Initiator, ..later(0, true) }, &data), 0);
    }
}

/// 02's No. 9 in whole runs: 310 uses the packet and leaves the first one awaited, on the other link too.
fn known_callers_run(tests: &mut Tests) {
    let (stranger, welcome) = (calls_of(6, 9, 3), calls_of(8, 9, 3));
    let sent = |link, packets: &[(u8, u16, &[u8])]| -> Vec<u8> {
        packets.iter().flat_map(|(kind, number, data)| packet::bytes_of(link, &plain(*kind, *number, data))).collect()
    };
    let normal = sent(Link::Normal, &[(1, 0, &stranger), (3, 0, &[1]), (1, 0, &welcome), (3, 1, &[2])]);
    let redundant = sent(Link::Redundant, &[(1, 0, &stranger), (3, 2, &[])]);
    let printed = |callers, normal: &[u8]| links::cut(Role::Responder, true, Known { ours: 9, callers }, normal, &redundant);
    let wanted = |lines: &[&str]| format!("link answer used type number data\n{}\n", lines.join("\n"));
    let lines = [
        "normal 310 19 0 0 0", "normal 309 11 0 0 0", "normal 0 19 1 0 9", "normal 0 11 3 1 1", "redundant 306 19 0 0 0", "redundant 0 10 3 2 0",
        "normal 301 0 0 0 0", "end 3",
    ];
    tests.equal("after 310 the first is awaited", printed(&THREE, &normal), wanted(&lines));
    let lines = ["normal 310 19 0 0 0", "normal 309 11 0 0 0", "redundant 310 19 0 0 0", "redundant 309 10 0 0 0", "normal 301 0 0 0 0", "end 0"];
    tests.equal("and on the other link too", printed(&[], &normal[..30]), wanted(&lines));
    let lines = ["redundant 310 19 0 0 0", "redundant 309 10 0 0 0", "normal 301 0 0 0 0", "end 0"];
    tests.equal("and where the normal link has nothing", printed(&THREE, &[]), wanted(&lines));
}

/// CUT-5: our own id first, then the callers, each of exactly eight hexadecimal digits.
fn ids_of_cut(tests: &mut Tests) {
    let list = vec![0x0A, 0xBC, 0xDE, 0xF0, 0xFF, 0xFF, 0xFF, 0xFF, 0, 0, 0, 0];
    tests.equal("ids of cut", crate::ids_of(&["12345678", "0abcDEF0", "FFFFffff", "00000000"]), Ok((0x1234_5678, list)));
    tests.equal("no callers", crate::ids_of(&["9ABCDEF0"]), Ok((0x9ABC_DEF0, Vec::new())));
    for word in ["", "0000009", "000000009", "0x000009", "+0000009", "-0000009", " 0000009", "0000009 ", "0000000g", "0000000G", "000000\u{E9}"] {
        for words in [vec![word], vec![word, "00000001"], vec!["00000009", word], vec!["00000009", word, "00000001"]] {
            tests.equal("no id", crate::ids_of(&words).is_err(), true);
        }
    }
}

fn two_links(tests: &mut Tests) {
    let normal = packet::bytes_of(Link::Normal, &plain(3, 1, &[1, 2]));
    let redundant = packet::bytes_of(Link::Redundant, &plain(3, 2, &[3]));
    let state = later(0, false);
    let (after, step) = links::step(state, SEVENS, (&normal, 0), (&redundant, 0));
    tests.equal("the normal link first", (step.answer, step.link, step.used, after.last), (0, Link::Normal, 12, 1));
    tests.equal("its user data", step.packet.map(|taken| taken.data), Some(&normal[10..]));
    let (after, step) = links::step(after, SEVENS, (&normal, 12), (&redundant, 0));
    tests.equal("then the redundant one", (step.answer, step.link, step.used, after.last), (0, Link::Redundant, 11, 2));
    let (after, step) = links::step(after, SEVENS, (&normal, usize::MAX), (&redundant, 12));
    tests.equal("a place past the end", (after.last, step.answer, step.link, step.used), (2, 301, Link::Normal, 0));
    let (after, step) = links::step(state, SEVENS, (&redundant, 0), (&normal, 0));
    tests.equal("goes down", (step.answer, step.link, after.normal_up, after.redundant_up), (304, Link::Normal, false, true));
    let (after, step) = links::step(after, SEVENS, (&normal, 0), (&normal, 0));
    tests.equal("a link that is down is not looked at", (step.answer, step.link, after.redundant_up), (304, Link::Redundant, false));
    let (down, step) = links::step(after, SEVENS, (&normal, 0), (&redundant, 0));
    tests.equal("both links down", (step.answer, step.link, step.used, down), (308, Link::Normal, 0, after));
    let mut ids = [7; 9];
    ids[8] = 3;
    let au1_normal = packet::bytes_of(Link::Normal, &plain(1, 0, &ids));
    let au1_redundant = packet::bytes_of(Link::Redundant, &plain(1, 0, &ids));
    tests.equal(
        "what cut prints",
        links::cut(Role::Responder, true, SEVENS, &au1_normal, &au1_redundant),
        String::from("link answer used type number data\nnormal 0 19 1 0 9\nredundant 306 19 0 0 0\nnormal 301 0 0 0 0\nend 1\n"),
    );
}

// Messages.

fn message_bounds(tests: &mut Tests) {
    let taken = |kind: u8, total: usize| {
        let mut bytes = vec![0; total];
        if total > 0 {
            bytes[0] = kind;
        }
        message::parse(&bytes).map(|parsed| message::bytes_of(&parsed) == bytes)
    };
    for (kind, total) in [(1, 19), (2, 19), (3, 15), (4, 25), (5, 16), (6, 15), (6, 1000)] {
        tests.equal("a listed total, written back", taken(kind, total), Some(true));
    }
    for (kind, total) in [
        (1, 18), (1, 20), (2, 18), (2, 20), (3, 14), (3, 16), (4, 24), (4, 26), (5, 15), (5, 17), (6, 14), (6, 1001), (0, 15), (7, 15), (6, 0),
    ] {
        tests.equal("a total not listed", taken(kind, total), None);
    }
    let start = Message { number: 7, stamp: 1000, last_peer_stamp: 0, own_count_at_arrival: 0, after: After::Start { period: 50 } };
    let bytes = vec![1, 0, 7, 0, 0, 3, 0xE8, 0, 0, 0, 0, 0, 0, 0, 0, 0, 0, 0, 0x32];
    tests.equal("OffsetStart number 7, count 1000, period 50", message::bytes_of(&start), bytes.clone());
    for at in 7..15 {
        let mut nonzero = bytes.clone();
        nonzero[at] = 1;
        tests.equal("a nonzero later stamp in type 1", message::parse(&nonzero), None);
    }
    for (byte, after) in [(0, Some(false)), (1, Some(true)), (2, None)] {
        let mut end = vec![0; 16];
        end[0] = 5;
        end[15] = byte;
        let valid = message::parse(&end).map(|parsed| parsed.after == After::End { valid: true });
        tests.equal("check byte", valid, after);
    }
}

fn offsets(tests: &mut Tests) {
    tests.equal("-880", message::offset_bytes(-880), [1, 0, 0, 3, 0x70]);
    for (sign, magnitude, offset) in [
        (0, 0, Some(0)), (0, 0x7FFF_FFFF, Some(i32::MAX)), (0, 0x8000_0000, None), (1, 0, None), (1, 1, Some(-1)),
        (1, 0x8000_0000, Some(i32::MIN)), (1, 0x8000_0001, None), (2, 1, None),
    ] {
        tests.equal("sign and magnitude", message::offset_read(sign, magnitude), offset);
        if let Some(offset) = offset {
            let [a, b, c, d] = magnitude.to_be_bytes();
            tests.equal("and back", message::offset_bytes(offset), [sign, a, b, c, d]);
        }
    }
}

// One connection.

const SET: Settings = Settings { n: 3, t_max: 40, e: 0, t_start: 500, t_off: 10, limit: 3 };

fn begun(role: Role, settings: Settings, now: u32) -> (Record, Answer, Vec<u8>) {
    let mut out = vec![0; 1000];
    let (record, answer) = connection::begin(ALL_ZERO, Some(role), settings, 7, 50, now, &mut out);
    out.truncate(answer.written);
    (record, answer, out)
}

fn received(record: Record, now: u32, message: &Message) -> (Record, Answer, Vec<u8>) {
    let mut out = vec![0; 25];
    let (after, answer) = connection::receive(record, now, &message::bytes_of(message), &mut out);
    out.truncate(answer.written);
    (after, answer, out)
}

fn msg(number: u16, stamp: u32, last_peer_stamp: u32, own_count_at_arrival: u32, after: After<'_>) -> Message<'_> {
    Message { number, stamp, last_peer_stamp, own_count_at_arrival, after }
}

/// The initiator of the worked numbers after Answ1: it waits for 4.
fn initiator_waits_4(settings: Settings) -> Record {
    let (record, _, _) = begun(Role::Initiator, settings, 1000);
    received(record, 1080, &msg(20, 200, 1000, 170, After::Answ1 { period: 5 })).0
}

fn responder_waits_3(settings: Settings) -> Record {
    let (record, _, _) = begun(Role::Responder, settings, 100);
    received(record, 200, &msg(40, 1000, 0, 0, After::Start { period: 50 })).0
}

fn responder_waits_5(settings: Settings) -> Record {
    received(responder_waits_3(settings), 260, &msg(41, 1100, 200, 1080, After::Answ2)).0
}

fn est(number: u16) -> Message<'static> {
    msg(number, 270, 1080, 260, After::Est { min: -880, max: -840 })
}

fn worked_set_up(tests: &mut Tests) {
    let initiator = initiator_waits_4(SET);
    tests.equal("initiator 830, 880", (initiator.min, initiator.max), (830, 880));
    let responder = responder_waits_5(SET);
    tests.equal("responder -880, -840", (responder.min, responder.max), (-880, -840));
    let (open, answer, out) = received(initiator, 1120, &est(21));
    tests.equal("T_off 10 accepts", (answer.number, answer.released, open.phase, out.len(), out[15]), (0, false, connection::OPEN, 16, 1));
    let strict = Settings { t_off: 9, ..SET };
    let (after, answer, out) = received(initiator_waits_4(strict), 1120, &est(21));
    tests.equal("T_off 9 gives 209", (answer.number, answer.released, after, out.len(), out[15]), (209, true, ALL_ZERO, 16, 0));
    let accepts = |min, max, peer_min, peer_max| connection::accepts(&Record { min, max, settings: SET, ..ALL_ZERO }, peer_min, peer_max);
    for (min, max, peer_min, peer_max, accepted) in [
        (830, 880, -880, -840, true), (830, 880, -880, -841, false), (830, 880, -880, -820, true), (830, 880, -880, -819, false),
        (830, 880, -881, -840, false), (830, 880, -879, -840, false), (880, 880, -880, -880, true), (881, 880, -880, -881, false),
        (i32::MIN, i32::MIN, i32::MIN, i32::MIN, true), (i32::MIN, 0, 0, 0, false), (i32::MAX, i32::MIN, i32::MIN, i32::MIN, true),
    ] {
        tests.equal("the initiator's check", accepts(min, max, peer_min, peer_max), accepted);
    }
}

fn open(settings: Settings, min: i32, last_number: u16, clock: u32) -> Record {
    Record { phase: connection::OPEN, settings, min, max: min, last_number, clock, ..ALL_ZERO }
}

fn worked_ages(tests: &mut Tests) {
    let data = [1, 2, 3];
    for (min, stamp, now, t_max, age, number) in [
        (830, 300, 1170, 40, 40, 0), (830, 300, 1170, 39, 40, 205), (830, 300, 1130, 40, 0, 0), (830, 300, 1129, 40, -1, 206),
        (-880, 1200, 365, 45, 45, 0), (-880, 1200, 365, 44, 45, 205), (830, 4294967290, 860, 36, 36, 0), (830, 4294967290, 860, 35, 36, 205),
    ] {
        tests.equal("age", connection::age(now, stamp, 0, min), age);
        let settings = Settings { t_max, ..SET };
        let (after, answer, _) = received(open(settings, min, 10, now), now, &msg(11, stamp, 0, 0, After::Application { data: &data }));
        let delivered = if number == 0 { 15..18 } else { 0..0 };
        tests.equal("judged", (answer.number, answer.delivered, answer.released, answer.age), (number, delivered, false, age));
        let kept = (after.last_number, after.peer_stamp, after.arrival, after.errors);
        tests.equal("remembered", kept, (11, stamp, now, u8::from(number != 0)));
    }
    tests.equal("E makes it older", connection::age(1130, 300, 7, 830), 7);
}

/// What a type 6 of age 0 with a number gets when open.
fn when_open(settings: Settings, last: u16, number: u16) -> (u16, bool, bool) {
    let (_, answer, _) = received(open(settings, 0, last, 500), 500, &msg(number, 500, 0, 0, After::Application { data: &[9] }));
    (answer.number, answer.released, !answer.delivered.is_empty())
}

fn worked_numbers(tests: &mut Tests) {
    tests.equal("last 65535, next 0", when_open(SET, 65535, 0), (0, false, true));
    tests.equal("N 3, last 10: 12", when_open(SET, 10, 12), (204, false, true));
    tests.equal("N 3, last 10: 13", when_open(SET, 10, 13), (204, false, true));
    tests.equal("N 3, last 10: 14", when_open(SET, 10, 14), (203, true, false));
    tests.equal("N 3, last 10: 10", when_open(SET, 10, 10), (202, false, false));
    tests.equal("last 5: 32772", when_open(SET, 5, 32772), (203, true, false));
    tests.equal("last 5: 32773", when_open(SET, 5, 32773), (202, false, false));
    let most = Settings { n: 1000, ..SET };
    tests.equal("N 1,000: d = 1,000", when_open(most, 0, 1000), (204, false, true));
    tests.equal("N 1,000: d = 1,001", when_open(most, 0, 1001), (203, true, false));
    let one = Settings { n: 1, ..SET };
    tests.equal("N 1: d = 2", when_open(one, 0, 2), (203, true, false));
    let after_gap = received(open(SET, 0, 10, 500), 500, &msg(13, 499, 0, 0, After::Application { data: &[9] })).0;
    tests.equal("after a gap that number is the last", (after_gap.last_number, after_gap.peer_stamp, after_gap.arrival), (13, 499, 500));
    let late = msg(12, 400, 0, 0, After::Application { data: &[9] });
    let (after, answer, _) = received(open(SET, 0, 10, 500), 500, &late);
    tests.equal("late and after a gap", (answer.number, answer.delivered, after.errors), (205, 0..0, 1));
    tests.equal("a late one is the last", (after.last_number, after.peer_stamp, after.arrival), (12, 400, 500));
    tests.equal("good, after a late one", received(after, 501, &msg(13, 501, 0, 0, After::Application { data: &[9] })).1.number, 0);
    let future = msg(11, 501, 0, 0, After::Application { data: &[9] });
    let (after, answer, _) = received(open(SET, 0, 10, 500), 500, &future);
    tests.equal("from the future", (answer.number, answer.delivered, after.errors), (206, 0..0, 1));
    tests.equal("one from the future is the last", (after.last_number, after.peer_stamp, after.arrival), (11, 501, 500));
    let (before, repeated) = (open(SET, 0, 10, 500), msg(10, 400, 0, 0, After::Application { data: &[9] }));
    let (after, answer, _) = received(before, 500, &repeated);
    tests.equal("number before age", answer.number, 202);
    tests.equal("what is repeated is not remembered", after, Record { errors: 1, ..before });
    let empty = msg(11, 500, 0, 0, After::Application { data: &[] });
    let (after, answer, _) = received(Record { errors: 2, ..open(SET, 0, 10, 500) }, 500, &empty);
    tests.equal("an empty type 6", (answer.number, answer.delivered.len(), after.last_number, after.errors), (0, 0, 11, 0));
}

/// AGE-7: the age with 0, 204, 205 and 206, also where they release.
fn reported_ages(tests: &mut Tests) {
    // min, max, E, T_max; stamp and now; the age, and the answer at d = 1
    for (min, max, e, t_max, stamp, now, age, number) in [
        (830, 880, 0, 40, 300, 1130, 0, 0), (830, 880, 0, 40, 300, 1170, 40, 0),
        (830, 880, 0, 40, 300, 1171, 41, 205), (830, 880, 0, 40, 300, 1129, -1, 206),
        (830, 880, 7, 40, 300, 1123, 0, 0), (830, 880, 7, 40, 300, 1163, 40, 0),
        (830, 880, 7, 40, 300, 1164, 41, 205), (830, 880, 7, 40, 300, 1122, -1, 206),
        (-880, -840, 5, 45, 1200, 315, 0, 0), (-880, -840, 5, 45, 1200, 360, 45, 0),
        (-880, -840, 5, 45, 1200, 361, 46, 205), (-880, -840, 5, 45, 1200, 314, -1, 206),
        (0, 9, 0, 60_000, 0, 0x7FFF_FFFF, i32::MAX, 205), (0, 9, 0, 60_000, 0, 0x8000_0000, i32::MIN, 206),
        (0, 9, 1, 60_000, 0, 0x7FFF_FFFF, i32::MIN, 206), (i32::MIN, 9, 0, 1, 6, 5, i32::MAX, 205),
        (i32::MIN, 9, 0, 1, 5, 5, i32::MIN, 206), (i32::MAX, 9, 0, 1, 0, 0, -i32::MAX, 206),
    ] {
        let before = Record { max, ..open(Settings { e, t_max, ..SET }, min, 10, now) };
        for (d, errors, data) in [(1, 0, &[7_u8][..]), (1, 0, &[]), (3, 0, &[7]), (1, 2, &[7]), (3, 2, &[7]), (3, 2, &[])] {
            let answered = if number == 0 && d == 3 { 204 } else { number };
            let message = msg(10 + d, stamp, 0, 0, After::Application { data });
            let (_, answer, _) = received(Record { errors, ..before }, now, &message);
            tests.equal("the age reported", (answer.number, answer.released, answer.age), (answered, answered != 0 && errors == 2, age));
        }
    }
}

/// AGE-8: age 0 with every other answer and call, also where the message or the record would give another one.
fn no_ages(tests: &mut Tests) {
    // now - stamp - min is 40 here, T_max
    let message = |number| message::bytes_of(&msg(number, 300, 0, 0, After::Application { data: &[7] }));
    let record = open(SET, 830, 10, 1170);
    let (now, mut out) = (1170, [0; 1000]);
    let mut took = |record, now, bytes: &[u8], room| {
        let answer = connection::receive(record, now, bytes, &mut out[..room]).1;
        (answer.number, answer.age)
    };
    tests.equal("with an age", took(record, now, &message(11), 25), (0, 40));
    let (cut, other) = (message(11)[..14].to_vec(), message::bytes_of(&est(11)));
    for (number, bytes) in [(202, message(10)), (202, message(9)), (203, message(14)), (201, cut), (211, other)] {
        tests.equal("open, no age", took(record, now, &bytes, 25), (number, 0));
    }
    let (faulty, closed) = (Record { errors: 3, ..record }, Record { phase: connection::CLOSED, ..record });
    let ahead = Record { clock: 1171, ..record };
    for (number, record, room) in [(101, faulty, 25), (102, closed, 25), (105, ahead, 25), (108, record, 24)] {
        tests.equal("refused, no age", took(record, now, &message(11), room), (number, 0));
    }
    let (waits_4, waits_5) = (initiator_waits_4(SET), responder_waits_5(SET));
    let end = |number, valid| message::bytes_of(&msg(number, 1130, 260, 1125, After::End { valid }));
    let offers = |number, min| message::bytes_of(&msg(number, 270, 1080, 260, After::Est { min, max: -840 }));
    for (number, record, now, bytes) in [
        (0, waits_4, 1120, offers(21, -880)), (204, waits_4, 1120, offers(23, -880)), (209, waits_4, 1120, offers(21, -881)),
        (211, waits_4, 1170, message(21)), (207, waits_4, 1580, message(21)), (0, waits_5, 300, end(42, true)),
        (204, waits_5, 300, end(44, true)), (209, waits_5, 300, end(42, false)), (202, waits_5, 300, end(41, true)),
        (203, waits_5, 300, end(45, true)),
    ] {
        tests.equal("set-up, no age", took(record, now, &bytes, 25), (number, 0));
    }
    let told = |answer: Answer| (answer.number, answer.age);
    tests.equal("send", told(connection::send(record, now, &message(11), &mut out).1), (0, 0));
    tests.equal("tick", told(connection::tick(record, now).1), (0, 0));
    tests.equal("tick at a wait's end", told(connection::tick(waits_4, 1580).1), (207, 0));
    tests.equal("close", told(connection::close(record).1), (0, 0));
    for role in [Role::Initiator, Role::Responder] {
        tests.equal("begin", told(begun(role, SET, now).1), (0, 0));
    }
    tests.equal("no such slot", told(table::receive(&mut [record], 1, now, &message(11), &mut out)), (101, 0));
    tests.equal("by the table", told(table::receive(&mut [record], 0, now, &message(11), &mut out)), (0, 40));
}

/// The answer, and what was written, for a message in set-up; anything but 0 must release.
fn in_set_up(record: Record, now: u32, message: &Message) -> (u16, usize) {
    let (after, answer, out) = received(record, now, message);
    assert_eq!(answer.released, answer.number != 0, "an error in set-up releases");
    assert_eq!(after == ALL_ZERO, answer.released, "a released slot is all zero");
    (answer.number, out.len())
}

fn set_up_rows(tests: &mut Tests) {
    let end = |number, echo, valid| msg(number, 1130, echo, 1125, After::End { valid });
    let start = begun(Role::Initiator, SET, 1000).0;
    for number in [0, 7, 65535] {
        tests.equal("the first number is not judged", in_set_up(start, 1080, &msg(number, 200, 1000, 170, After::Answ1 { period: 0 })), (0, 15));
    }
    tests.equal("Answ1 without its echo", in_set_up(start, 1080, &msg(1, 200, 1001, 170, After::Answ1 { period: 0 })), (208, 0));
    tests.equal("type not expected", in_set_up(start, 1080, &est(21)), (211, 0));
    let waits_4 = initiator_waits_4(SET);
    let failing = |number, echo| msg(number, 270, echo, 260, After::Est { min: -881, max: -840 });
    for (message, answer, written) in [
        (est(21), 0, 16), (est(20), 202, 0), (est(19), 202, 0), (est(32787), 203, 0), (est(32788), 202, 0), (est(24), 203, 0),
        (est(23), 204, 0), (est(22), 204, 0), (failing(21, 1080), 209, 16), (failing(23, 1080), 209, 16), (failing(24, 1080), 203, 0),
        (failing(21, 1079), 208, 0), (failing(23, 1081), 208, 0), (failing(20, 1079), 202, 0),
    ] {
        tests.equal("initiator waits for 4", in_set_up(waits_4, 1120, &message), (answer, written));
    }
    let answ2 = |number, echo| msg(number, 1100, echo, 1080, After::Answ2);
    for (message, answer, written) in [
        (answ2(41, 200), 0, 25), (answ2(40, 200), 202, 0), (answ2(43, 200), 204, 0), (answ2(44, 200), 203, 0), (answ2(41, 201), 208, 0),
        (answ2(43, 201), 208, 0), (end(41, 200, true), 211, 0),
    ] {
        tests.equal("responder waits for 3", in_set_up(responder_waits_3(SET), 260, &message), (answer, written));
    }
    for (message, answer, written) in [
        (end(42, 260, true), 0, 0), (end(42, 260, false), 209, 0), (end(41, 260, true), 202, 0), (end(44, 260, true), 204, 0),
        (end(44, 260, false), 209, 0), (end(45, 260, true), 203, 0), (end(42, 261, false), 208, 0), (answ2(42, 260), 211, 0),
    ] {
        tests.equal("responder waits for 5", in_set_up(responder_waits_5(SET), 300, &message), (answer, written));
    }
}

fn waits(tests: &mut Tests) {
    let start = |number| msg(number, 1, 0, 0, After::Start { period: 0 });
    let (record, _, _) = begun(Role::Responder, SET, 100);
    tests.equal("no tick ends the wait for type 1", connection::tick(record, 2_000_000_000).1.number, 0);
    tests.equal("and takes a message then", received(record, 2_000_000_000, &start(1)).1.number, 0);
    for (record, began) in [
        (begun(Role::Initiator, SET, 4_294_967_000).0, 4_294_967_000_u32), (initiator_waits_4(SET), 1080), (responder_waits_3(SET), 200), (responder_waits_5(SET), 260),
    ] {
        let (before, at) = (began.wrapping_add(499), began.wrapping_add(500));
        tests.equal("a tick before the end", connection::tick(record, before).1.number, 0);
        tests.equal("a tick at the end", connection::tick(record, at), (ALL_ZERO, Answer { released: true, ..connection::answer(207, 0) }));
        let mut out = [0; 25];
        tests.equal("malformed before the end", connection::receive(record, before, &[], &mut out).1.number, 201);
        tests.equal("expired and malformed", connection::receive(record, at, &[], &mut out).1.number, 207);
    }
}

fn callers_faults(tests: &mut Tests) {
    let record = open(SET, 0, 10, 1000);
    let mut out = [0xA5_u8; 1000];
    let unusable = [6_u8; 3];
    for (now, number) in [(1000, 0), (999, 105), (1000 + 0x7FFF_FFFF, 0), (1000_u32.wrapping_add(0x8000_0000), 105)] {
        tests.equal("tick's clock", connection::tick(record, now).1.number, number);
    }
    for (room, number) in [(25, 201), (24, 108)] {
        let (after, answer) = connection::receive(record, 1001, &unusable, &mut out[..room]);
        tests.equal("receive asks 25", (answer.number, after.clock), (number, if number == 108 { 1000 } else { 1001 }));
    }
    tests.equal("105 before 108", connection::receive(record, 999, &unusable, &mut []).1.number, 105);
    let data = [0_u8; 986];
    for (length, room, number) in [(985, 1000, 0), (986, 1000, 107), (986, 0, 107), (20, 35, 0), (20, 34, 108), (0, 15, 0), (0, 14, 108)] {
        tests.equal("send", connection::send(record, 1000, &data[..length], &mut out[..room]).1.number, number);
    }
    tests.equal("send is an accepted call", connection::send(record, 1007, &[], &mut out).0.clock, 1007);
    tests.equal("105 before 106", connection::send(initiator_waits_4(SET), 1079, &[], &mut []).1.number, 105);
    tests.equal("106 before 107", connection::send(initiator_waits_4(SET), 1080, &data, &mut []).1.number, 106);
    for (room, number) in [(19, 0), (18, 108)] {
        tests.equal("begin asks 19", connection::begin(ALL_ZERO, Some(Role::Initiator), SET, 0, 0, 5, &mut out[..room]).1.number, number);
    }
    tests.equal("a responder's begin asks none", connection::begin(ALL_ZERO, Some(Role::Responder), SET, 0, 0, 5, &mut []).1.number, 0);
    tests.equal("103 before 104", connection::begin(record, None, SET, 0, 0, 5, &mut []).1.number, 103);
    tests.equal("104 before 108", connection::begin(ALL_ZERO, None, SET, 0, 0, 5, &mut []).1.number, 104);
    let leftovers = Record { phase: connection::CLOSED, errors: 200, ..record };
    tests.equal("a closed record with leftovers is closed", connection::tick(leftovers, 0), (leftovers, connection::answer(102, 0)));
    tests.equal("and can be begun", connection::begin(leftovers, Some(Role::Responder), SET, 7, 50, 100, &mut []).0, begun(Role::Responder, SET, 100).0);
    for (faulty, number) in [
        (Record { errors: 3, ..record }, 101), (Record { errors: 2, ..record }, 0), (Record { phase: 7, ..record }, 101),
        (Record { settings: Settings { n: 0, ..SET }, ..record }, 101),
    ] {
        tests.equal("a record out of range", connection::tick(faulty, 1000).1.number, number);
        let begin = connection::begin(faulty, None, SET, 0, 0, 0, &mut []).1.number;
        tests.equal("101 before 103", begin, if number == 101 { 101 } else { 103 });
    }
    tests.equal("close", connection::close(record), (ALL_ZERO, Answer { released: true, ..connection::answer(0, 0) }));
    tests.equal("close when closed", connection::close(ALL_ZERO).1.number, 102);
}

fn settings_bounds(tests: &mut Tests) {
    let with = |n, t_max, e, t_start, t_off, limit| connection::in_range(&Settings { n, t_max, e, t_start, t_off, limit });
    for (settings, kept) in [
        (with(1, 1, 0, 1, 0, 1), true), (with(1000, 60_000, 60_000, 60_000, 60_000, 255), true), (with(0, 1, 0, 1, 0, 1), false),
        (with(1001, 1, 0, 1, 0, 1), false), (with(1, 0, 0, 1, 0, 1), false), (with(1, 60_001, 0, 1, 0, 1), false), (with(1, 5, 5, 1, 0, 1), true),
        (with(1, 5, 6, 1, 0, 1), false), (with(1, 1, 0, 0, 0, 1), false), (with(1, 1, 0, 60_001, 0, 1), false), (with(1, 1, 0, 1, 60_001, 1), false),
        (with(1, 1, 0, 1, 0, 0), false),
    ] {
        tests.equal("settings", settings, kept);
    }
}

fn error_counter(tests: &mut Tests) {
    let application = |number, stamp| msg(number, stamp, 0, 0, After::Application { data: &[5] });
    let at = |errors| Record { errors, ..open(SET, 0, 10, 500) };
    for (message, number, delivered) in [(application(10, 500), 202, 0), (application(12, 500), 204, 1), (application(11, 400), 205, 0), (application(11, 501), 206, 0)] {
        let (after, answer, _) = received(at(1), 500, &message);
        tests.equal("raised by one", (answer.number, answer.released, after.errors), (number, false, 2));
        let (after, answer, _) = received(at(2), 500, &message);
        tests.equal("reaching the limit", (answer.number, answer.released, after, answer.delivered.len()), (number, true, ALL_ZERO, delivered));
    }
    tests.equal("an errorless delivery", received(at(2), 500, &application(11, 500)).0.errors, 0);
    let mut out = [0; 25];
    let (after, answer) = connection::receive(at(2), 600, &[1], &mut out);
    tests.equal("201 when open", (answer.number, answer.released, after), (201, false, Record { clock: 600, ..at(2) }));
    let (after, answer, _) = received(at(2), 600, &est(11));
    tests.equal("211 when open", (answer.number, answer.released, after), (211, false, Record { clock: 600, ..at(2) }));
}

/// Two of our own ends, the responder's clock 850 behind, each message 10 under way.
fn whole_set_up(tests: &mut Tests) {
    let (initiator, _, start) = begun(Role::Initiator, SET, 1000);
    let (responder, _, _) = begun(Role::Responder, SET, 0);
    let mut out = [0; 25];
    let mut took = |record, now, bytes: &[u8]| {
        let (after, answer) = connection::receive(record, now, bytes, &mut out);
        (after, answer.number, out[..answer.written].to_vec())
    };
    let (responder, first, answ1) = took(responder, 160, &start);
    let (initiator, second, answ2) = took(initiator, 1020, &answ1);
    let (responder, third, est) = took(responder, 180, &answ2);
    let (initiator, fourth, end) = took(initiator, 1040, &est);
    let (responder, fifth, nothing) = took(responder, 200, &end);
    tests.equal("five messages", [first, second, third, fourth, fifth], [0; 5]);
    tests.equal("both open", (initiator.phase, responder.phase, nothing.len()), (connection::OPEN, connection::OPEN, 0));
    tests.equal("offsets", (initiator.min, initiator.max, responder.min, responder.max), (840, 860, -860, -840));
    tests.equal("numbers", (initiator.own_next_number, initiator.last_number, responder.own_next_number, responder.last_number), (10, 8, 9, 9));
    let mut wide = [0; 1000];
    let (_, sent) = connection::send(responder, 210, b"data", &mut wide);
    let (_, number, _) = took(initiator, 1070, &wide[..sent.written]);
    tests.equal("then data", (sent.number, sent.written, number), (0, 19, 0));
}

fn table_sizes(tests: &mut Tests) {
    for (size, slot, number) in [(0, 0, 101), (1, 0, 102), (1, 1, 101), (64, 63, 102), (64, 64, 101), (65, 0, 101)] {
        let mut records = vec![ALL_ZERO; size];
        tests.equal("table size and slot", table::tick(&mut records, slot, 0).number, number);
        tests.equal("for close too", table::close(&mut records, slot).number, number);
    }
}

// Rows.

/// A connection no two fields of which are alike, its row, and the numbers of its fields.
const TOLD: Record = Record {
    phase: 6,
    settings: Settings { n: 0x0102, t_max: 0xA3A4, e: 0x5152, t_start: 0x6162, t_off: 0x7172, limit: 0x93 },
    own_next_number: 0xB1B2,
    period: 0xC1C2_C3C4,
    last_number: 0xD1D2,
    peer_stamp: 0xE1E2_E3E4,
    arrival: 0xF1F2_F3F4,
    wait_start: 0x2122_2324,
    min: 0x3132_3334,
    max: -0x7E7D_7C7C,
    errors: 0x41,
    clock: 0x1112_1314,
};
#[rustfmt::skip]
const TOLD_ROW: [u8; 53] = [
    6, 0x01, 0x02, 0, 0, 0xA3, 0xA4, 0, 0, 0x51, 0x52, 0, 0, 0x61, 0x62, 0, 0, 0x71, 0x72, 0x93, 0xB1, 0xB2, 0xC1, 0xC2, 0xC3, 0xC4, 0xD1, 0xD2,
    0xE1, 0xE2, 0xE3, 0xE4, 0xF1, 0xF2, 0xF3, 0xF4, 0x21, 0x22, 0x23, 0x24, 0x31, 0x32, 0x33, 0x34, 0x81, 0x82, 0x83, 0x84, 0x41, 0x11, 0x12, 0x13, 0x14,
];
const TOLD_NUMBERS: [u32; 17] = [
    6, 0x0102, 0xA3A4, 0x5152, 0x6162, 0x7172, 0x93, 0xB1B2, 0xC1C2_C3C4, 0xD1D2, 0xE1E2_E3E4, 0xF1F2_F3F4, 0x2122_2324, 0x3132_3334, 0x8182_8384, 0x41,
    0x1112_1314,
];
const ZERO_ROW: [u8; 53] = [0; 53];

/// What the host lends to one call.
#[derive(Clone, PartialEq, Eq, Debug)]
struct Host {
    row: Vec<u8>,
    out: Vec<u8>,
    answer_row: Vec<u8>,
}

fn host(row: &[u8], room: usize, answer_size: usize) -> Host {
    Host { row: row.to_vec(), out: vec![0xA5; room], answer_row: vec![0xA5; answer_size] }
}

/// One of the five calls; a 1xx must leave every byte, and another answer the bytes of out past what is written.
fn over(before: &Host, kind: u8, now: u32, bytes: &[u8]) -> (u16, Host) {
    let mut after = before.clone();
    let number = rowcalls::called(kind, now, bytes, &mut after.row, &mut after.out, &mut after.answer_row);
    if (100..200).contains(&number) {
        assert_eq!(&after, before, "a 1xx leaves everything");
    } else {
        let written = usize::from(u16::from_be_bytes([after.answer_row[1], after.answer_row[2]]));
        assert!(after.out[written..].iter().all(|byte| *byte == 0xA5), "the rest of out stays");
    }
    (number, after)
}

fn begin_given() -> Vec<u8> {
    crate::craft::begin_bytes(0, &SET, 7, 50)
}

/// Whether a row is refused: by all five calls and when it is read, or by none.
fn refused(row: &[u8]) -> bool {
    let mut numbers = [0xA5A5_A5A5; 17];
    let mut answers = vec![rows::read_row(row, &mut numbers)];
    assert_eq!(numbers == [0xA5A5_A5A5; 17], answers[0] != 0, "a row that is refused is not read");
    for kind in replay::BEGIN..=replay::CLOSE {
        let bytes = if kind == replay::BEGIN { begin_given() } else { Vec::new() };
        answers.push(over(&host(row, 1000, 11), kind, 0, &bytes).0);
    }
    let is = rows::connection_of(row).is_none();
    assert!(answers.iter().all(|number| (*number == 109) == is), "all refuse it or none: {answers:?}");
    is
}

/// Whether a record's row is refused; so is the writing of its numbers then, and a row that is written reads as the same record.
fn record_refused(record: &Record) -> bool {
    let row = calls::record_bytes(record);
    let is = refused(&row);
    let mut written = [0xA5; 53];
    let number = rows::write_row(&rows::numbers_of(&row), &mut written);
    assert_eq!((number, &written[..]), if is { (109, &[0xA5; 53][..]) } else { (0, &row[..]) }, "written where it is kept");
    assert_eq!(rows::connection_of(&written), (!is).then_some(*record), "read again");
    is
}

fn row_fields(tests: &mut Tests) {
    tests.equal("a row's connection", rows::connection_of(&TOLD_ROW), Some(TOLD));
    let mut numbers = [0; 17];
    tests.equal("a row is read", (rows::read_row(&TOLD_ROW, &mut numbers), numbers), (0, TOLD_NUMBERS));
    let mut row = [0; 53];
    tests.equal("a row is written", (rows::write_row(&TOLD_NUMBERS, &mut row), row), (0, TOLD_ROW));
    let (number, after) = over(&host(&TOLD_ROW, 0, 11), replay::TICK, 0x1112_1314, &[]);
    tests.equal("a tick at the same now", (number, &after.row[..]), (0, &TOLD_ROW[..]));
    let (_, after) = over(&host(&TOLD_ROW, 0, 11), replay::TICK, 0x1112_1415, &[]);
    tests.equal("a tick moves the clock", (&after.row[..49], &after.row[49..]), (&TOLD_ROW[..49], &[0x11, 0x12, 0x14, 0x15][..]));
    let (_, after) = over(&host(&TOLD_ROW, 17, 11), replay::SEND, 0x1112_1314, &[8, 9]);
    tests.equal("a send moves our number", &after.row[20..22], &[0xB1, 0xB3][..]);
    let sent = [6, 0xB1, 0xB2, 0x11, 0x12, 0x13, 0x14, 0xE1, 0xE2, 0xE3, 0xE4, 0xF1, 0xF2, 0xF3, 0xF4, 8, 9];
    tests.equal("and echoes the peer's stamp", &after.out[..], &sent[..]);
    let message = msg(0xD1D3, 0x4142_4344, 0, 0, After::Application { data: &[5] });
    let (number, after) = over(&host(&TOLD_ROW, 25, 11), replay::RECEIVE, 0x1112_1314, &message::bytes_of(&message));
    // 11121314 - 41424344 + 5152 - 31323334 = 9E9DEDEE, negative
    tests.equal("min is the one of the age", (number, &after.answer_row[7..]), (206, &[0x9E, 0x9D, 0xED, 0xEE][..]));
    tests.equal("the number heard", &after.row[26..28], &[0xD1, 0xD3][..]);
    tests.equal("its stamp and arrival", &after.row[28..36], &[0x41, 0x42, 0x43, 0x44, 0x11, 0x12, 0x13, 0x14][..]);
    tests.equal("the counter", after.row[48], 0x42);
}

/// Both sides of each bound of each field that is judged, in every phase that is not closed.
fn row_bounds(tests: &mut Tests) {
    let told = |n, t_max, e, t_start, t_off, limit, errors| Record { settings: Settings { n, t_max, e, t_start, t_off, limit }, errors, ..TOLD };
    for (record, is) in [
        (told(1, 1, 0, 1, 0, 1, 0), false), (told(1000, 60_000, 60_000, 60_000, 60_000, 255, 254), false), (told(0, 9, 9, 9, 9, 9, 0), true),
        (told(1001, 9, 9, 9, 9, 9, 0), true), (told(65_535, 9, 9, 9, 9, 9, 0), true), (told(9, 0, 0, 9, 9, 9, 0), true),
        (told(9, 60_001, 9, 9, 9, 9, 0), true), (told(9, 1 << 24, 9, 9, 9, 9, 0), true), (told(9, u32::MAX, 9, 9, 9, 9, 0), true),
        (told(9, 9, 9, 9, 9, 9, 0), false), (told(9, 9, 10, 9, 9, 9, 0), true), (told(9, 9, 0, 9, 9, 9, 0), false),
        (told(9, 60_000, 60_001, 9, 9, 9, 0), true), (told(9, 9, u32::MAX, 9, 9, 9, 0), true), (told(9, 9, 9, 0, 9, 9, 0), true),
        (told(9, 9, 9, 1, 9, 9, 0), false), (told(9, 9, 9, 60_000, 9, 9, 0), false), (told(9, 9, 9, 60_001, 9, 9, 0), true),
        (told(9, 9, 9, u32::MAX, 9, 9, 0), true), (told(9, 9, 9, 9, 0, 9, 0), false), (told(9, 9, 9, 9, 60_000, 9, 0), false),
        (told(9, 9, 9, 9, 60_001, 9, 0), true), (told(9, 9, 9, 9, u32::MAX, 9, 0), true), (told(9, 9, 9, 9, 9, 0, 0), true),
        (told(9, 9, 9, 9, 9, 1, 0), false), (told(9, 9, 9, 9, 9, 1, 1), true), (told(9, 9, 9, 9, 9, 9, 8), false),
        (told(9, 9, 9, 9, 9, 9, 9), true), (told(9, 9, 9, 9, 9, 9, 10), true), (told(9, 9, 9, 9, 9, 9, 255), true),
        (told(9, 9, 9, 9, 9, 255, 254), false), (told(9, 9, 9, 9, 9, 255, 255), true),
    ] {
        for phase in 1..=6 {
            tests.equal("a bound of a row", record_refused(&Record { phase, ..record }), is);
        }
    }
    for phase in 0..=255 {
        tests.equal("a phase", record_refused(&Record { phase, ..TOLD }), !(1..=6).contains(&phase));
    }
}

/// What is not judged may be anything.
fn free_fields(tests: &mut Tests) {
    for at in (20..48).chain(49..53) {
        for byte in [0, 1, 127, 128, 255] {
            let mut row = TOLD_ROW;
            row[at] = byte;
            tests.equal("a free byte", refused(&row), false);
        }
    }
}

/// Closed is all zero: with any byte that is not, a row is refused.
fn closed_rows(tests: &mut Tests) {
    tests.equal("the closed row", record_refused(&ALL_ZERO), false);
    tests.equal("is the closed connection's", rows::connection_of(&ZERO_ROW), Some(ALL_ZERO));
    for at in 0..53 {
        for byte in [1, 128, 255] {
            let mut row = ZERO_ROW;
            row[at] = byte;
            tests.equal("closed and not all zero", refused(&row), true);
            let numbers = rows::numbers_of(&row);
            tests.equal("nor is it written", rows::write_row(&numbers, &mut [0; 53]), 109);
        }
    }
    tests.equal("closed with leftovers", record_refused(&Record { phase: 0, ..TOLD }), true);
}

fn row_lengths(tests: &mut Tests) {
    for length in (0..=120).chain([530, 1000, 65_535]) {
        for row in [&TOLD_ROW, &ZERO_ROW] {
            for filled in [0, 7] {
                let mut other = row.to_vec();
                other.resize(length, filled);
                tests.equal("a length", refused(&other), length != 53);
            }
        }
    }
}

/// 109 stands before every other number, for a row and for an answer row of another length.
fn row_refused_first(tests: &mut Tests) {
    let (sound, waits) = (calls::record_bytes(&open(SET, 0, 10, 500)), calls::record_bytes(&initiator_waits_4(SET)));
    let (begin, begin_104) = (begin_given(), crate::craft::begin_bytes(2, &SET, 7, 50));
    let data = [5; 986];
    for (row, kind, now, bytes, room, number) in [
        (&ZERO_ROW[..], replay::RECEIVE, 0, &data[..], 0, 102), (&ZERO_ROW, replay::SEND, 0, &data, 0, 102), (&ZERO_ROW, replay::TICK, 0, &[], 0, 102),
        (&ZERO_ROW, replay::CLOSE, 0, &[], 0, 102), (&sound, replay::BEGIN, 0, &begin_104, 0, 103), (&waits, replay::BEGIN, 0, &begin, 0, 103),
        (&ZERO_ROW, replay::BEGIN, 0, &begin_104, 0, 104), (&ZERO_ROW, replay::BEGIN, 0, &begin, 18, 108), (&sound, replay::RECEIVE, 499, &data, 0, 105),
        (&sound, replay::SEND, 499, &data, 0, 105), (&sound, replay::TICK, 499, &[], 0, 105), (&waits, replay::SEND, 1079, &data, 0, 105),
        (&waits, replay::SEND, 1080, &data, 0, 106), (&sound, replay::SEND, 500, &data, 0, 107), (&sound, replay::SEND, 500, &data[..985], 999, 108),
        (&sound, replay::RECEIVE, 500, &data, 24, 108), (&sound, replay::RECEIVE, 500, &data, 25, 201), (&sound, replay::CLOSE, 0, &[], 0, 0),
        (&ZERO_ROW, replay::BEGIN, 0, &begin, 19, 0), (&sound, replay::SEND, 500, &data[..985], 1000, 0),
    ] {
        tests.equal("its own number", over(&host(row, room, 11), kind, now, bytes).0, number);
        for answer_size in [0, 1, 10, 12, 22] {
            tests.equal("109 by the answer row", over(&host(row, room, answer_size), kind, now, bytes).0, 109);
        }
        let mut longer = row.to_vec();
        longer.push(0);
        let spoiled = [&[row[0] | 128][..], &row[1..]].concat();
        let last = [&row[..52], &[1][..]].concat();
        for refused in [&row[..52], &longer[..], &spoiled[..], &[]] {
            tests.equal("109 by the row", over(&host(refused, room, 11), kind, now, bytes).0, 109);
        }
        if row == ZERO_ROW {
            tests.equal("109 by what is closed and not all zero", over(&host(&last, room, 11), kind, now, bytes).0, 109);
        }
    }
}

/// 01's order goes on behind 109, on the connection that the row stands for.
fn row_callers_faults(tests: &mut Tests) {
    let row = calls::record_bytes(&open(SET, 0, 10, 500));
    for (kind, now, length, room, number) in [
        (replay::SEND, 500, 20, 35, 0), (replay::SEND, 500, 20, 34, 108), (replay::SEND, 500, 0, 15, 0), (replay::SEND, 500, 0, 14, 108),
        (replay::SEND, 500 + 0x7FFF_FFFF, 0, 15, 0), (replay::SEND, 500 + 0x8000_0000, 0, 15, 105), (replay::TICK, 500 + 0x7FFF_FFFF, 0, 0, 0),
        (replay::TICK, 500 + 0x8000_0000, 0, 0, 105), (replay::RECEIVE, 500, 3, 25, 201), (replay::RECEIVE, 500, 3, 24, 108),
    ] {
        tests.equal("a caller's fault", over(&host(&row, room, 11), kind, now, &vec![5; length]).0, number);
    }
    let settings = |n, t_max, e, t_start, t_off, limit| Settings { n, t_max, e, t_start, t_off, limit };
    for (role, settings, number) in [
        (0, settings(1, 1, 0, 1, 0, 1), 0), (1, settings(1000, 60_000, 60_000, 60_000, 60_000, 255), 0), (2, SET, 104), (255, SET, 104),
        (0, settings(0, 1, 0, 1, 0, 1), 104), (0, settings(1001, 1, 0, 1, 0, 1), 104), (1, settings(1, 0, 0, 1, 0, 1), 104),
        (0, settings(1, 60_001, 0, 1, 0, 1), 104), (1, settings(1, 5, 6, 1, 0, 1), 104), (0, settings(1, 1, 0, 0, 0, 1), 104),
        (1, settings(1, 1, 0, 60_001, 0, 1), 104), (0, settings(1, 1, 0, 1, 60_001, 1), 104), (1, settings(1, 1, 0, 1, 0, 0), 104),
    ] {
        let bytes = crate::craft::begin_bytes(role, &settings, 65_535, 9);
        let (answer, after) = over(&host(&ZERO_ROW, 19, 11), replay::BEGIN, 77, &bytes);
        tests.equal("begin", answer, number);
        let phase = [connection::INITIATOR_WAITS_2, connection::RESPONDER_WAITS_1].get(usize::from(role)).filter(|_| number == 0);
        tests.equal("the phase that it begins", after.row[0], *phase.unwrap_or(&connection::CLOSED));
    }
}

/// An answer row: released 1, written 2, place 2, length 2, age 4.
fn answer_rows(tests: &mut Tests) {
    let application = |number, stamp, data| message::bytes_of(&msg(number, stamp, 0, 0, After::Application { data }));
    let row = calls::record_bytes(&open(SET, 830, 10, 1170));
    let near = calls::record_bytes(&Record { errors: 2, ..open(SET, 830, 10, 1170) });
    let far = calls::record_bytes(&Record { settings: Settings { t_max: 60_000, ..SET }, ..open(SET, 830, 10, 1170) });
    let (waits_4, waits_5) = (calls::record_bytes(&initiator_waits_4(SET)), calls::record_bytes(&responder_waits_5(SET)));
    let failing = message::bytes_of(&msg(21, 270, 1080, 260, After::Est { min: -881, max: -840 }));
    let end = message::bytes_of(&msg(42, 1130, 260, 1125, After::End { valid: true }));
    let (one, three, most) = (&[7][..], &[7; 3][..], &[7; 985][..]);
    for (row, kind, now, bytes, number, answer_row) in [
        (&row, replay::RECEIVE, 1170, application(11, 300, one), 0, [0, 0, 0, 0, 15, 0, 1, 0, 0, 0, 40]),
        (&row, replay::RECEIVE, 1170, application(11, 300, &[]), 0, [0, 0, 0, 0, 0, 0, 0, 0, 0, 0, 40]),
        (&row, replay::RECEIVE, 1170, application(11, 340, most), 0, [0, 0, 0, 0, 15, 3, 0xD9, 0, 0, 0, 0]),
        (&far, replay::RECEIVE, 6170, application(11, 4000, three), 0, [0, 0, 0, 0, 15, 0, 3, 0, 0, 5, 0x3C]),
        (&row, replay::RECEIVE, 1170, application(13, 300, three), 204, [0, 0, 0, 0, 15, 0, 3, 0, 0, 0, 40]),
        (&near, replay::RECEIVE, 1170, application(13, 300, three), 204, [1, 0, 0, 0, 15, 0, 3, 0, 0, 0, 40]),
        (&near, replay::RECEIVE, 1170, application(13, 300, &[]), 204, [1, 0, 0, 0, 0, 0, 0, 0, 0, 0, 40]),
        (&row, replay::RECEIVE, 1170, application(11, 299, three), 205, [0, 0, 0, 0, 0, 0, 0, 0, 0, 0, 41]),
        (&row, replay::RECEIVE, 1170, application(11, 341, three), 206, [0, 0, 0, 0, 0, 0, 0, 255, 255, 255, 255]),
        (&near, replay::RECEIVE, 1170, application(11, 0x8000_0154, three), 206, [1, 0, 0, 0, 0, 0, 0, 0x80, 0, 0, 0]),
        (&row, replay::RECEIVE, 1170, application(10, 300, three), 202, [0; 11]),
        (&near, replay::RECEIVE, 1170, application(10, 300, three), 202, [1, 0, 0, 0, 0, 0, 0, 0, 0, 0, 0]),
        (&row, replay::RECEIVE, 1170, application(14, 300, three), 203, [1, 0, 0, 0, 0, 0, 0, 0, 0, 0, 0]),
        (&row, replay::RECEIVE, 1170, vec![6], 201, [0; 11]),
        (&row, replay::RECEIVE, 1170, message::bytes_of(&est(11)), 211, [0; 11]),
        (&waits_4, replay::RECEIVE, 1120, message::bytes_of(&est(21)), 0, [0, 0, 16, 0, 0, 0, 0, 0, 0, 0, 0]),
        (&waits_4, replay::RECEIVE, 1120, failing, 209, [1, 0, 16, 0, 0, 0, 0, 0, 0, 0, 0]),
        (&waits_4, replay::RECEIVE, 1120, message::bytes_of(&est(22)), 204, [1, 0, 0, 0, 0, 0, 0, 0, 0, 0, 0]),
        (&waits_5, replay::RECEIVE, 300, end, 0, [0; 11]),
        (&row, replay::SEND, 1170, vec![7; 985], 0, [0, 3, 0xE8, 0, 0, 0, 0, 0, 0, 0, 0]),
        (&row, replay::SEND, 1170, vec![], 0, [0, 0, 15, 0, 0, 0, 0, 0, 0, 0, 0]),
        (&row, replay::TICK, 1170, vec![], 0, [0; 11]),
        (&waits_4, replay::TICK, 1580, vec![], 207, [1, 0, 0, 0, 0, 0, 0, 0, 0, 0, 0]),
        (&row, replay::CLOSE, 0, vec![], 0, [1, 0, 0, 0, 0, 0, 0, 0, 0, 0, 0]),
        (&ZERO_ROW.to_vec(), replay::BEGIN, 0, begin_given(), 0, [0, 0, 19, 0, 0, 0, 0, 0, 0, 0, 0]),
        (&ZERO_ROW.to_vec(), replay::BEGIN, 0, crate::craft::begin_bytes(1, &SET, 7, 50), 0, [0; 11]),
    ] {
        let (answer, after) = over(&host(row, 1000, 11), kind, now, &bytes);
        tests.equal("an answer row", (answer, &after.answer_row[..]), (number, &answer_row[..]));
        tests.equal("released is all zero", after.row == ZERO_ROW, answer_row[0] == 1);
    }
}

/// What is released in set-up, when open and by close is a row that can be begun again.
fn rows_released(tests: &mut Tests) {
    let (waits_2, waits_1) = (begun(Role::Initiator, SET, 5).0, begun(Role::Responder, SET, 5).0);
    for record in [waits_2, waits_1, initiator_waits_4(SET), responder_waits_3(SET), responder_waits_5(SET), open(SET, 0, 1, 5), TOLD] {
        let row = calls::record_bytes(&record);
        let (number, closed) = over(&host(&row, 0, 11), replay::CLOSE, 0, &[]);
        tests.equal("close", (number, closed.answer_row[0], &closed.row[..]), (0, 1, &ZERO_ROW[..]));
        tests.equal("close again", over(&host(&closed.row, 0, 11), replay::CLOSE, 0, &[]).0, 102);
        let (number, again) = over(&host(&closed.row, 19, 11), replay::BEGIN, 1000, &begin_given());
        tests.equal("begin again", (number, again.row), (0, calls::record_bytes(&begun(Role::Initiator, SET, 1000).0)));
    }
}

/// Two ends of a host, each of them a row, as in the set-up by value above.
fn set_up_over_rows(tests: &mut Tests) {
    let mut ends = [ZERO_ROW.to_vec(), ZERO_ROW.to_vec()];
    let mut under_way = Vec::new();
    for (end, kind, now, role) in [
        (1, replay::BEGIN, 0, 1), (0, replay::BEGIN, 1000, 0), (1, replay::RECEIVE, 160, 0), (0, replay::RECEIVE, 1020, 0), (1, replay::RECEIVE, 180, 0),
        (0, replay::RECEIVE, 1040, 0), (1, replay::RECEIVE, 200, 0),
    ] {
        let bytes = if kind == replay::BEGIN { crate::craft::begin_bytes(role, &SET, 7, 50) } else { under_way };
        let before: &Vec<u8> = &ends[end];
        let (number, after) = over(&host(before, 25, 11), kind, now, &bytes);
        tests.equal("a step of set-up over rows", (number, after.answer_row[0]), (0, 0));
        under_way = after.out[..usize::from(after.answer_row[2])].to_vec();
        ends[end] = after.row;
    }
    let fields = |row: &[u8]| {
        let record = rows::connection_of(row).unwrap_or_default();
        (record.phase, record.min, record.max, record.own_next_number, record.last_number, record.wait_start)
    };
    tests.equal("the initiator's row", fields(&ends[0]), (connection::OPEN, 840, 860, 10, 8, 0));
    tests.equal("the responder's row", fields(&ends[1]), (connection::OPEN, -860, -840, 9, 9, 0));
    let (_, sent) = over(&host(&ends[1], 19, 11), replay::SEND, 210, b"data");
    let (number, after) = over(&host(&ends[0], 25, 11), replay::RECEIVE, 1070, &sent.out);
    tests.equal("then data over rows", (number, &after.answer_row[..]), (0, &[0, 0, 0, 0, 15, 0, 4, 0, 0, 0, 20][..]));
}

fn rows_read(tests: &mut Tests) {
    let spoiled = [&TOLD_ROW[..19], &[0][..], &TOLD_ROW[20..]].concat();
    for (row, count, number) in [
        (&TOLD_ROW[..], 17, 0), (&TOLD_ROW, 18, 0), (&TOLD_ROW, 40, 0), (&TOLD_ROW, 16, 108), (&TOLD_ROW, 1, 108), (&TOLD_ROW, 0, 108),
        (&TOLD_ROW[..52], 17, 109), (&TOLD_ROW[..52], 16, 109), (&spoiled, 17, 109), (&spoiled, 0, 109), (&[], 0, 109), (&[], 17, 109),
    ] {
        let mut numbers = vec![0xA5A5_A5A5; count];
        let answer = rows::read_row(row, &mut numbers);
        let mut wanted = if answer == 0 { TOLD_NUMBERS.to_vec() } else { Vec::new() };
        wanted.resize(count, 0xA5A5_A5A5);
        tests.equal("a row read", (answer, numbers), (number, wanted));
    }
    let mut numbers = [9; 18];
    tests.equal("the closed row read", (rows::read_row(&ZERO_ROW, &mut numbers), &numbers[..17], numbers[17]), (0, &[0; 17][..], 9));
    for (min, max) in [(-1, 1), (i32::MIN, i32::MAX), (830, -880)] {
        rows::read_row(&calls::record_bytes(&Record { min, max, ..TOLD }), &mut numbers);
        tests.equal("offsets as two's complement", (numbers[13], numbers[14]), (min as u32, max as u32));
    }
}

fn rows_written(tests: &mut Tests) {
    let (mut zero, mut faulty) = (TOLD_NUMBERS, TOLD_NUMBERS);
    zero[0] = 0;
    faulty[15] = 0x93;
    let longer = [&TOLD_NUMBERS[..], &[0; 13][..]].concat();
    for (numbers, size, number) in [
        (&TOLD_NUMBERS[..], 53, 0), (&TOLD_NUMBERS, 54, 0), (&TOLD_NUMBERS, 100, 0), (&TOLD_NUMBERS, 52, 108), (&TOLD_NUMBERS, 0, 108),
        (&TOLD_NUMBERS[..16], 53, 109), (&TOLD_NUMBERS[..1], 53, 109), (&[], 53, 109), (&longer[..18], 53, 109), (&longer, 53, 109), (&longer, 100, 109),
        (&TOLD_NUMBERS[..16], 52, 109), (&longer[..18], 0, 109), (&zero, 53, 109), (&zero, 52, 109), (&faulty, 53, 109), (&faulty, 0, 109),
    ] {
        let mut row = vec![0xA5; size];
        let answer = rows::write_row(numbers, &mut row);
        let mut wanted = if answer == 0 { TOLD_ROW.to_vec() } else { Vec::new() };
        wanted.resize(size, 0xA5);
        tests.equal("a row written", (answer, row), (number, wanted));
    }
    let mut row = [9; 54];
    tests.equal("the closed row written", (rows::write_row(&[0; 17], &mut row), &row[..53], row[53]), (0, &ZERO_ROW[..], 9));
}

/// A number too large for its field, also one whose lower bytes would do; the largest that a free field has room for.
fn rows_too_large(tests: &mut Tests) {
    for numbers in [TOLD_NUMBERS, [0; 17]] {
        for (at, width) in [(0, 1), (1, 2), (6, 1), (7, 2), (9, 2), (15, 1)] {
            let least = 1 << (8 * width);
            for number in [least, least + numbers[at], least + 1, 65_536, 1 << 24, u32::MAX, u32::MAX - 255 + (numbers[at] & 255)] {
                let mut other = numbers;
                other[at] = number;
                for size in [53, 52] {
                    tests.equal("a number too large", rows::write_row(&other, &mut vec![0; size]), 109);
                }
            }
        }
    }
    for at in [7, 8, 9, 10, 11, 12, 13, 14, 16] {
        let (mut numbers, mut row) = (TOLD_NUMBERS, [0; 53]);
        numbers[at] = if [7, 9].contains(&at) { 65_535 } else { u32::MAX };
        tests.equal("the largest", (rows::write_row(&numbers, &mut row), rows::numbers_of(&row)), (0, numbers));
    }
}

/// An input of a file of row calls: kind 1, now 4, row size 2, room 2, answer size 2, length 2, the row, bytes.
fn row_input(kind: u8, now: u32, row: &[u8], room: u16, answer_size: u16, bytes: &[u8]) -> Vec<u8> {
    let mut input = vec![kind];
    input.extend(now.to_be_bytes());
    for size in [row.len() as u16, room, answer_size, bytes.len() as u16] {
        input.extend(size.to_be_bytes());
    }
    [&input[..], row, bytes].concat()
}

fn row_files(tests: &mut Tests) {
    let zeros = "00".repeat(53);
    let told: String = TOLD_ROW.iter().map(|byte| format!("{byte:02x}")).collect();
    let numbers: Vec<u8> = TOLD_NUMBERS.iter().flat_map(|number| number.to_be_bytes()).collect();
    let numbers_text: String = TOLD_NUMBERS.iter().map(|number| format!("{number:08x}")).collect();
    let unread = "a5".repeat(16 * 4);
    let begun_text = [
        "01", "0003", "00000028", "00000000", "000001f4", "0000000a", "03", "0008", "00000032", "0000", "00000000", "00000000", "000003e8", "00000000",
        "00000000", "00", "000003e8",
    ]
    .concat();
    let inputs = [
        (row_input(1, 1000, &ZERO_ROW, 20, 11, &begin_given()), format!("0 {begun_text} 010007000003e8000000000000000000000032a5 0000130000000000000000")),
        (row_input(2, 0, &ZERO_ROW, 3, 11, &[1]), format!("102 {zeros} a5a5a5 {}", "a5".repeat(11))),
        (row_input(3, 0, &[], 0, 0, &[]), String::from("109 - - -")),
        (row_input(4, 0x1112_1314, &TOLD_ROW, 9, 11, &[3]), format!("0 {told} - {}", "00".repeat(11))),
        (row_input(4, 0x1112_1314, &TOLD_ROW, 9, 10, &[]), format!("109 {told} - {}", "a5".repeat(10))),
        (row_input(5, 0, &TOLD_ROW, 2, 11, &[]), format!("0 {zeros} - 01{}", "00".repeat(10))),
        (row_input(6, 0, &TOLD_ROW, 18, 11, &[1, 2, 3]), format!("0 {told} {numbers_text}a5a5a5a5 -")),
        (row_input(6, 0, &TOLD_ROW, 16, 0, &[]), format!("108 {told} {unread} -")),
        (row_input(6, 0, &[7], 0, 0, &[]), String::from("109 07 - -")),
        (row_input(7, 0, &[0xFA; 54], 4, 11, &numbers), format!("0 {told}fa - -")),
        (row_input(7, 0, &[0xFA], 0, 0, &numbers), String::from("108 fa - -")),
        (row_input(7, 0, &[], 0, 0, &numbers[4..]), String::from("109 - - -")),
    ];
    for (input, line) in &inputs {
        tests.equal("a row call of a file", given::lines("rows", input), Ok(vec![line.clone()]));
        for cut in 1..input.len() {
            tests.equal("a row call that is cut", given::lines("rows", &input[..cut]).is_err(), true);
        }
    }
    let file: Vec<u8> = inputs.iter().flat_map(|(input, _)| input.clone()).collect();
    tests.equal("a file of row calls", given::lines("rows", &file), Ok(inputs.iter().map(|(_, line)| line.clone()).collect()));
    for none in [
        row_input(0, 0, &ZERO_ROW, 0, 11, &[]), row_input(8, 0, &ZERO_ROW, 0, 11, &[]), row_input(1, 0, &ZERO_ROW, 0, 11, &begin_given()[..25]),
        row_input(1, 0, &ZERO_ROW, 0, 11, &[0; 27]), row_input(7, 0, &ZERO_ROW, 0, 0, &numbers[1..]),
    ] {
        tests.equal("no row call", given::lines("rows", &none).is_err(), true);
    }
    let made: Vec<(Vec<u8>, String)> = rowcalls::rows(1, 2000).collect();
    let file: Vec<u8> = made.iter().flat_map(|(bytes, _)| bytes.clone()).collect();
    tests.equal("random row calls read again", given::lines("rows", &file), Ok(made.iter().map(|(_, line)| given::came_out(line)).collect()));
}

// Replay.

fn trace_replay(tests: &mut Tests) {
    let tick = replay::bytes_of(&Call { kind: replay::TICK, slot: 0, now: 0, bytes: &[] });
    let printed = |trace: &[u8]| replay::replay(trace);
    tests.equal("one tick on slot 0", printed(&tick), String::from("slot answer age\n0 102 0\nend 1\n"));
    tests.equal("an empty file", printed(&[]), String::from("slot answer age\nend 0\n"));
    let bad = String::from("slot answer age\n0 102 0\nbad\nend 1\n");
    for length in 1..10 {
        let mut cut = tick.clone();
        cut.extend(&tick[..length]);
        tests.equal("a cut record", printed(&cut), bad.clone());
    }
    for (at, byte) in [(0, 0x53), (1, 0x33), (2, 0), (2, 6), (9, 1)] {
        let mut spoiled = [tick.clone(), tick.clone()].concat();
        spoiled[10 + at] = byte;
        tests.equal("a bad record", printed(&spoiled), bad.clone());
    }
    for (length, answer) in [(1000_u16, "0 102 0\n"), (1001, "bad\n")] {
        let mut trace = tick.clone();
        trace[8..10].copy_from_slice(&length.to_be_bytes());
        trace.resize(10 + usize::from(length), 0);
        let count = usize::from(length == 1000);
        tests.equal("length 1,000", printed(&trace), format!("slot answer age\n{answer}end {count}\n"));
    }
    let begin = crate::craft::begin_bytes(0, &SET, 1, 2);
    for (bytes, answer) in [(&begin[..], 0), (&begin[..25], 104), (&[&begin[..], &[0]].concat(), 104), (&crate::craft::begin_bytes(2, &SET, 1, 2), 104)] {
        let trace = replay::bytes_of(&Call { kind: replay::BEGIN, slot: 63, now: 9, bytes });
        tests.equal("begin", printed(&trace), format!("slot answer age\n63 {answer} 0\nend 1\n"));
        let trace = replay::bytes_of(&Call { kind: replay::BEGIN, slot: 64, now: 9, bytes });
        tests.equal("begin on a bad slot", printed(&trace), String::from("slot answer age\n64 101 0\nend 1\n"));
    }
}

/// TRACE-13: the age as a third column, 0 for what is no receive. The initiator of the worked numbers, with T_max 40 and limit 3.
fn trace_ages(tests: &mut Tests) {
    let application = |number, stamp| message::bytes_of(&msg(number, stamp, 0, 0, After::Application { data: &[5] }));
    let mut trace = Vec::new();
    for (kind, now, bytes) in [
        (replay::BEGIN, 1000, crate::craft::begin_bytes(0, &SET, 7, 50)),
        (replay::RECEIVE, 1080, message::bytes_of(&msg(20, 200, 1000, 170, After::Answ1 { period: 5 }))),
        (replay::RECEIVE, 1120, message::bytes_of(&est(21))),
        (replay::RECEIVE, 1130, application(22, 300)),
        (replay::RECEIVE, 1170, application(23, 300)),
        (replay::RECEIVE, 1171, application(24, 300)),
        (replay::RECEIVE, 1172, application(24, 300)),
        (replay::RECEIVE, 1173, application(25, 320)),
        (replay::SEND, 1174, vec![1, 2]),
        (replay::TICK, 1175, Vec::new()),
        (replay::RECEIVE, 1176, application(26, 347)),
        (replay::RECEIVE, 1177, application(28, 340)),
        (replay::RECEIVE, 1178, application(29, 5)),
        (replay::TICK, 1179, Vec::new()),
    ] {
        trace.extend(replay::bytes_of(&Call { kind, slot: 5, now, bytes: &bytes }));
    }
    let lines = ["0 0", "0 0", "0 0", "0 0", "0 40", "205 41", "202 0", "0 23", "0 0", "0 0", "206 -1", "204 7", "205 343", "102 0"];
    let wanted: String = lines.iter().map(|line| format!("5 {line}\n")).collect();
    tests.equal("the ages of a trace", replay::replay(&trace), format!("slot answer age\n{wanted}end 14\n"));
}

// Recorder files.

/// A recorder file by hand, a call and its answer: on slot 5 the initiator of the worked numbers, which is opened, takes a message of age 40, one of
/// age -1, and one that it had; a send, the close, a tick on the closed slot, and one on a slot that is none.
const BY_HAND: [(&str, &str); 10] = [
    (
        "5232 01 05 000003E8 001A 00 0003 00000028 00000000 000001F4 0000000A 03 0007 00000032",
        "5232 06 05 000003E8 001A 0000 00 00000000 01 0007 000003E8 00000000 00000000 00000032",
    ),
    ("5232 02 05 00000438 0013 02 0014 000000C8 000003E8 000000AA 00000005", "5232 06 05 00000438 0016 0000 00 00000000 03 0008 00000438 000000C8 00000438"),
    (
        "5232 02 05 00000460 0019 04 0015 0000010E 00000438 00000104 01 00000370 01 00000348",
        "5232 06 05 00000460 0017 0000 00 00000000 05 0009 00000460 0000010E 00000460 01",
    ),
    ("5232 02 05 00000492 0010 06 0016 0000012C 00000000 00000000 05", "5232 06 05 00000492 0007 0000 00 00000028"),
    ("5232 02 05 00000492 0010 06 0017 00000155 00000000 00000000 05", "5232 06 05 00000492 0007 00CE 00 FFFFFFFF"),
    ("5232 02 05 00000492 0010 06 0017 00000155 00000000 00000000 05", "5232 06 05 00000492 0007 00CA 00 00000000"),
    ("5232 03 05 00000493 0002 AB0D", "5232 06 05 00000493 0018 0000 00 00000000 06 000A 00000493 00000155 00000492 AB0D"),
    ("5232 05 05 00000000 0000", "5232 06 05 00000000 0007 0000 01 00000000"),
    ("5232 04 05 00000000 0001 FF", "5232 06 05 00000000 0007 0066 00 00000000"),
    ("5232 04 40 00000007 0000", "5232 06 40 00000007 0007 0065 00 00000000"),
];

/// Its records: the call numbered N stands at 2N - 2, and its answer behind it.
fn by_hand() -> Vec<Vec<u8>> {
    BY_HAND.iter().flat_map(|(call, answer)| [call, answer]).map(|text| bytes_in(&text.replace(' ', ""))).collect()
}

/// What is printed, and the first line that is said.
fn judged_as(records: &[Vec<u8>]) -> (String, String) {
    let verdict = checker::check(&records.concat());
    (verdict.line, verdict.said.lines().next().unwrap_or("").to_string())
}

/// What must be said where it stops at the record at that place.
fn stops_at(records: &[Vec<u8>], line: &str, at: usize, why: &str) -> (String, String) {
    let offset = records[..at].concat().len();
    (format!("{line}\n"), format!("record {}, byte offset {offset}: {why}", at + 1))
}

/// Bad at that place, and for that reason; and nothing more is said.
fn is_bad(tests: &mut Tests, what: &str, records: &[Vec<u8>], at: usize, why: &str) {
    tests.equal(what, judged_as(records), stops_at(records, "bad", at, why));
    tests.equal(what, checker::check(&records.concat()).said.lines().count(), 1);
}

/// The answer at that place differs; three lines are said.
fn does_differ(tests: &mut Tests, what: &str, records: &[Vec<u8>], at: usize, call: usize) {
    tests.equal(what, judged_as(records), stops_at(records, &format!("differs {call}"), at, checker::NOT_THE_ANSWER));
    tests.equal(what, checker::check(&records.concat()).said.lines().count(), 3);
}

fn does_agree(tests: &mut Tests, what: &str, records: &[Vec<u8>], judged: usize) {
    tests.equal(what, judged_as(records), (format!("agrees {judged}\n"), String::new()));
}

fn with_bytes(record: &[u8], length: usize) -> Vec<u8> {
    let mut longer = record.to_vec();
    longer.resize(10 + length, 0);
    longer[8..10].copy_from_slice(&(length as u16).to_be_bytes());
    longer
}

/// The file by hand agrees, and is what the recorder makes of its calls, up to a bad record; to `replay` an answer is a record of unknown kind.
fn recorded_by_hand(tests: &mut Tests) {
    let records = by_hand();
    let trace: Vec<u8> = records.iter().step_by(2).flatten().copied().collect();
    does_agree(tests, "the file by hand", &records, 10);
    does_agree(tests, "no file", &[], 0);
    tests.equal("the recorder's file", recorder::recorder_file(&trace, None), records.concat());
    for bad in [&[0x52_u8][..], &[0; 30], &records[1], &with_bytes(&records[0], 1001)] {
        tests.equal("the recorder at a bad record", recorder::recorder_file(&[&trace[..], bad, &records[0]].concat(), None), records.concat());
    }
    tests.equal("the recorder of no trace", recorder::recorder_file(&[], Some(1)), Vec::new());
    let lines = ["5 0 0", "5 0 0", "5 0 0", "5 0 40", "5 206 -1", "5 202 0", "5 0 0", "5 0 0", "5 102 0", "64 101 0"];
    for calls in 1..=10 {
        let kept: Vec<Vec<u8>> = records.iter().step_by(2).take(calls).cloned().chain([records[2 * calls - 1].clone(), records[0].clone()]).collect();
        let wanted = format!("slot answer age\n{}\nbad\nend {calls}\n", lines[..calls].join("\n"));
        tests.equal("replay at an answer", replay::replay(&kept.concat()), wanted);
    }
}

/// CHECKER-7: whichever answers are left out, the others are judged as before; a wrong one is told by its place among all calls.
fn answers_left_out(tests: &mut Tests) {
    let records = by_hand();
    for left in 0..1024_usize {
        let kept: Vec<Vec<u8>> = (0..20).filter(|at| at % 2 == 0 || left >> (at / 2) & 1 == 1).map(|at| records[at].clone()).collect();
        does_agree(tests, "answers left out", &kept, left.count_ones() as usize);
    }
    for call in 1..=10 {
        let mut kept: Vec<Vec<u8>> = records.iter().step_by(2).cloned().collect();
        kept.insert(call, records[2 * call - 1].clone());
        does_agree(tests, "one answer alone", &kept, 1);
        kept[call][11] ^= 1;
        does_differ(tests, "one wrong answer alone", &kept, call, call);
    }
    let trace: Vec<u8> = records.iter().step_by(2).flatten().copied().collect();
    let sizes: BTreeSet<usize> = (0..200).map(|seed| recorder::recorder_file(&trace, Some(seed)).len()).collect();
    tests.equal("the recorder leaves some out", sizes.len() > 5, true);
    let judged = |seed| checker::check(&recorder::recorder_file(&trace.repeat(20), Some(seed))).line;
    let counts: Vec<usize> = (0..20).filter_map(|seed| judged(seed).strip_prefix("agrees ")?.trim_end().parse().ok()).collect();
    tests.equal("three in four are kept", (counts.len(), counts.iter().all(|count| (120..=180).contains(count))), (20, true));
}

/// CHECKER-6: every byte of every answer counts, and each byte more or less; in a header every byte that is not its own is bad.
fn answers_changed(tests: &mut Tests) {
    let records = by_hand();
    for at in (1..20).step_by(2) {
        let (call, length) = (at / 2 + 1, records[at].len() - 10);
        for byte in 0..records[at].len() {
            for change in [1, 2, 0x80, 0xFF] {
                let mut other = records.clone();
                other[at][byte] ^= change;
                match byte {
                    0 | 1 => is_bad(tests, "a mark", &other, at, checker::WRONG_MARK),
                    3..=7 => is_bad(tests, "a slot or a now", &other, at, checker::NO_CALL),
                    10.. => does_differ(tests, "a byte of an answer", &other, at, call),
                    _ => {}
                }
            }
        }
        let mut other = records.clone();
        other[at] = with_bytes(&records[at], length + 1);
        does_differ(tests, "a byte more", &other, at, call);
        other[at] = with_bytes(&records[at], length - 1);
        if length > 7 {
            does_differ(tests, "a byte less", &other, at, call);
        } else {
            is_bad(tests, "a byte less than seven", &other, at, checker::WRONG_LENGTH);
        }
        for kind in (0..=0).chain(7..=255) {
            other[at] = records[at].clone();
            other[at][2] = kind;
            is_bad(tests, "a kind for an answer's", &other, at, checker::UNKNOWN_KIND);
        }
    }
}

/// CHECKER-14: both answers in words, as they stand on standard error, and the bytes that an earlier call left are not among them.
fn answers_in_words(tests: &mut Tests) {
    let start = "010007000003E8000000000000000000000032";
    for (at, changed, line, said) in [
        (1, "5232 06 05 000003E8 0007 0000 02 80000000", "differs 1", format!("record 2, byte offset 36: not the answer that the rules give
recorded: answer 0 released 2 age -2147483648 written -
the rules: answer 0 released 0 age 0 written {start}
")),
        (1, "5232 06 05 000003E8 0008 FFFF FF 7FFFFFFF 0A", "differs 1", format!("record 2, byte offset 36: not the answer that the rules give
recorded: answer 65535 released 255 age 2147483647 written 0A
the rules: answer 0 released 0 age 0 written {start}
")),
        (7, "5232 06 05 00000492 0008 0000 00 00000028 06", "differs 4", String::from("record 8, byte offset 227: not the answer that the rules give
recorded: answer 0 released 0 age 40 written 06
the rules: answer 0 released 0 age 40 written -
")),
        (7, "5232 06 05 00000492 0009 0000 00 00000028 0000", "differs 4", String::from("record 8, byte offset 227: not the answer that the rules give
recorded: answer 0 released 0 age 40 written 0000
the rules: answer 0 released 0 age 40 written -
")),
        (9, "5232 06 05 00000492 0007 00CD 01 00000001", "differs 5", String::from("record 10, byte offset 270: not the answer that the rules give
recorded: answer 205 released 1 age 1 written -
the rules: answer 206 released 0 age -1 written -
")),
        (13, "5232 06 05 00000493 0009 0000 00 00000000 ab0d", "differs 7", String::from("record 14, byte offset 342: not the answer that the rules give
recorded: answer 0 released 0 age 0 written AB0D
the rules: answer 0 released 0 age 0 written 06000A000004930000015500000492AB0D
")),
        (15, "5232 06 05 00000000 0007 0000 00 00000000", "differs 8", String::from("record 16, byte offset 386: not the answer that the rules give
recorded: answer 0 released 0 age 0 written -
the rules: answer 0 released 1 age 0 written -
")),
        (19, "5232 06 40 00000007 0006 0000 00 000000", "bad", String::from("record 20, byte offset 441: wrong length\n")),
    ] {
        let mut records = by_hand();
        records[at] = bytes_in(&changed.replace(' ', ""));
        let verdict = checker::check(&records.concat());
        tests.equal("the verdict", verdict.line, format!("{line}\n"));
        tests.equal("the words", verdict.said, said);
    }
}

/// CHECKER-2, CHECKER-4: an answer that does not stand directly behind its call.
fn answers_misplaced(tests: &mut Tests) {
    let records = by_hand();
    for at in (1..20).step_by(2) {
        let mut doubled = records.clone();
        doubled.insert(at + 1, records[at].clone());
        is_bad(tests, "an answer doubled", &doubled, at + 1, checker::NO_CALL);
        doubled[at + 1][11] ^= 1;
        is_bad(tests, "a second answer, a wrong one", &doubled, at + 1, checker::NO_CALL);
        let first = [&[records[at].clone()], &records[..]].concat();
        is_bad(tests, "an answer first in the file", &first, 0, checker::NO_CALL);
        is_bad(tests, "an answer alone", &records[at..=at], 0, checker::NO_CALL);
    }
    for zero in ["5232060000000000000700000000000000", "5232060000000000000700660000000000"] {
        is_bad(tests, "an answer of slot 0 and now 0, first", &[bytes_in(zero), records[0].clone()], 0, checker::NO_CALL);
    }
    // calls 4, 5 and 6 have the same slot and now, and 5 and 6 are the same; so call 4's answer is judged behind them, and is not theirs
    for (kept, at, call) in [(&[0, 2, 4, 6, 8, 7][..], 5, 5), (&[0, 2, 4, 6, 8, 10, 9], 6, 6), (&[0, 2, 4, 6, 8, 10, 7], 6, 6), (&[0, 2, 4, 6, 9], 4, 4)] {
        let moved: Vec<Vec<u8>> = kept.iter().map(|at| records[*at].clone()).collect();
        does_differ(tests, "the answer to another call of that slot and now", &moved, at, call);
    }
    for (kept, at) in [(&[0, 2, 1][..], 2), (&[0, 2, 3, 1], 3), (&[0, 2, 4, 3, 5], 3), (&[0, 1, 3, 2], 2), (&[1, 0], 0), (&[0, 18, 1], 2)] {
        let moved: Vec<Vec<u8>> = kept.iter().map(|at| records[*at].clone()).collect();
        is_bad(tests, "an answer behind another call", &moved, at, checker::NO_CALL);
    }
}

/// CHECKER-3, CHECKER-5: 7 to 1,007 for an answer, 0 to 1,000 for a call; the longest answer is that of a send of 985 bytes.
fn answer_lengths(tests: &mut Tests) {
    let records = by_hand();
    for at in (1..20).step_by(2) {
        for length in (0..7).chain([1008, 1009, 2007, 65_535]) {
            let mut other = records.clone();
            other[at] = with_bytes(&records[at], length);
            is_bad(tests, "an answer's length", &other, at, checker::WRONG_LENGTH);
        }
        for length in [100, 1000, 1001, 1006, 1007] {
            let mut other = records.clone();
            other[at] = with_bytes(&records[at], length);
            does_differ(tests, "an allowed length that is not the right one", &other, at, at / 2 + 1);
        }
        for length in [1001, 1002, 1007, 1008, 65_535] {
            let mut other = records.clone();
            other[at - 1] = with_bytes(&records[at - 1], length);
            is_bad(tests, "a call's length", &other, at - 1, checker::WRONG_LENGTH);
        }
    }
    let tick = with_bytes(&records[16], 1000);
    does_agree(tests, "a tick of 1,000 bytes", &[&records[..16], &[tick], &records[17..]].concat(), 10);
    let trace = [&records.iter().step_by(2).take(6).flatten().copied().collect::<Vec<u8>>()[..], &with_bytes(&records[12], 985)].concat();
    let file = recorder::recorder_file(&trace, None);
    tests.equal("the longest answer", &file[file.len() - 1017..file.len() - 1007], &bytes_in("523206050000049303EF")[..]);
    tests.equal("the longest answer agrees", checker::check(&file).line, String::from("agrees 7\n"));
    let mut other = file.clone();
    other[file.len() - 1] ^= 1;
    tests.equal("its last byte", checker::check(&other).line, String::from("differs 7\n"));
    tests.equal("without its last byte", checker::check(&file[..file.len() - 1]).line, String::from("bad\n"));
}

/// CHECKER-4, CHECKER-5: every first part of the file by hand; it is bad but where a record ends.
fn recorder_files_cut(tests: &mut Tests) {
    let records = by_hand();
    for at in 0..20 {
        does_agree(tests, "whole records", &records[..at], at / 2);
        for left in 1..records[at].len() {
            let cut = [&records[..at], &[records[at][..left].to_vec()]].concat();
            is_bad(tests, "a cut record", &cut, at, checker::CUT);
        }
    }
    for rest in [vec![0; 9], vec![0x52, 0x32, 9, 0, 0, 0, 0, 0, 255], vec![1]] {
        is_bad(tests, "a rest that is no header", &[&records[..], &[rest]].concat(), 20, checker::CUT);
    }
}

/// CHECKER-13: the first of the reasons that hold is said.
fn first_reason(tests: &mut Tests) {
    for (header, left, why) in [
        ("5332 07 05 00000001 FFFF", 10, checker::WRONG_MARK), ("5233 06 05 00000000 0006", 16, checker::WRONG_MARK),
        ("5232 07 05 00000001 FFFF", 10, checker::UNKNOWN_KIND), ("5232 00 05 00000000 0007", 12, checker::UNKNOWN_KIND),
        ("5232 06 06 00000001 0006", 10, checker::WRONG_LENGTH), ("5232 06 05 00000000 03F0", 20, checker::WRONG_LENGTH),
        ("5232 06 06 00000001 0000", 10, checker::WRONG_LENGTH), ("5232 04 05 00000000 03E9", 10, checker::WRONG_LENGTH),
        ("5232 06 06 00000001 0007", 16, checker::CUT), ("5232 06 05 00000000 03EF", 1016, checker::CUT),
        ("5232 04 05 00000000 03E8", 1009, checker::CUT), ("5232 06 06 00000000 0007", 17, checker::NO_CALL),
        ("5232 06 05 00000001 03EF", 1017, checker::NO_CALL), ("5332 06 05 00000000 0007", 9, checker::CUT),
    ] {
        let mut record = bytes_in(&header.replace(' ', ""));
        record.resize(left.max(10), 0);
        record.truncate(left);
        // directly behind the tick of slot 5 at 0, which is call 9
        let file = [&by_hand()[..17], &[record]].concat();
        is_bad(tests, header, &file, 17, why);
    }
}

/// CHECKER-11: a wrong answer, a bad record, whichever is first; and of two wrong answers the first.
fn first_in_the_file(tests: &mut Tests) {
    let spoiled = |wrong: &[usize], bad: &[usize]| {
        let mut records = by_hand();
        wrong.iter().for_each(|at| records[*at][11] ^= 4);
        bad.iter().for_each(|at| records[*at][1] ^= 1);
        records
    };
    for at in (1..20).step_by(2) {
        let call = at / 2 + 1;
        is_bad(tests, "an answer wrong and bad", &spoiled(&[at], &[at]), at, checker::WRONG_MARK);
        is_bad(tests, "a wrong answer behind its bad call", &spoiled(&[at], &[at - 1]), at - 1, checker::WRONG_MARK);
        does_differ(tests, "all answers wrong from there on", &spoiled(&(at..20).step_by(2).collect::<Vec<usize>>(), &[]), at, call);
        for later in at + 1..20 {
            does_differ(tests, "a bad record behind a wrong answer", &spoiled(&[at], &[later]), at, call);
            is_bad(tests, "a wrong answer behind a bad one", &spoiled(&[later - later % 2 + 1], &[at]), at, checker::WRONG_MARK);
        }
        let mut other = by_hand();
        other[at][11] ^= 4;
        other[at][3] ^= 1;
        is_bad(tests, "a wrong answer of another slot", &other, at, checker::NO_CALL);
    }
}

/// CHECKER-2: a slot that is none is answered 101, whatever the call and its now, and that answer is judged like any other.
fn answers_of_no_slot(tests: &mut Tests) {
    for slot in 64..=255 {
        for (kind, now) in (1..=5).flat_map(|kind| [0, 9, u32::MAX].map(|now| (kind, now))) {
            let call = replay::bytes_of(&Call { kind, slot, now, bytes: &[1, 2, 3] });
            let answer = |slot, number| replay::bytes_of(&Call { kind: 6, slot, now, bytes: &[0, number, 0, 0, 0, 0, 0] });
            does_agree(tests, "a slot that is none", &[call.clone(), answer(slot, 101), call.clone()], 1);
            does_differ(tests, "a slot that is none, another answer", &[call.clone(), answer(slot, 102)], 1, 1);
            is_bad(tests, "a slot that is none, another slot", &[call, answer(slot ^ 64, 101)], 1, checker::NO_CALL);
        }
    }
}

/// The makers: each damage has the verdict that it must have, and each reason occurs with it.
fn random_recordings(tests: &mut Tests) {
    let (mut damages, mut reasons, mut answers) = (BTreeSet::new(), BTreeSet::new(), BTreeSet::new());
    let (mut negative, mut released) = (0, 0);
    for made in recorder::recordings(1, 3000) {
        let verdict = checker::check(&made.bytes);
        let mut lines = verdict.said.lines();
        tests.equal(made.damage, verdict.line, format!("{}\n", made.verdict));
        tests.equal("right or damaged", made.damage.starts_with("right-"), made.verdict.starts_with("agrees"));
        damages.insert(made.damage);
        reasons.extend(lines.next().and_then(|line| line.split(": ").nth(1)).map(String::from));
        let right = lines.nth(1).unwrap_or("");
        answers.extend(right.split(' ').nth(3).map(String::from));
        negative += usize::from(right.contains(" age -"));
        released += usize::from(right.contains(" released 1 "));
    }
    tests.equal("the rare ones are spoiled too", (negative > 15, released > 130), (true, true));
    tests.equal("damages", damages, recorder::damages().into_iter().collect());
    let wanted = [
        "cut record", "wrong mark", "unknown kind", "wrong length", "no call of its slot and now directly before it", "not the answer that the rules give",
    ];
    tests.equal("reasons", reasons, BTreeSet::from(wanted.map(String::from)));
    let wanted = ["0", "101", "102", "103", "104", "105", "106", "107", "201", "202", "203", "204", "205", "206", "207", "208", "209", "211"];
    tests.equal("answers that are spoiled", answers, BTreeSet::from(wanted.map(String::from)));
}

/// How many calls a right recorder file has, how many answers, and how many closes of slot 63 at 0 without bytes.
fn counted(file: &[u8]) -> (usize, usize, usize) {
    let (mut at, mut counts) = (0, (0, 0, 0));
    while at < file.len() {
        counts.0 += usize::from(file[at + 2] < 6);
        counts.1 += usize::from(file[at + 2] == 6);
        counts.2 += usize::from(file[at + 2..at + 10] == [5, 63, 0, 0, 0, 0, 0, 0]);
        at += 10 + usize::from(u16::from_be_bytes([file[at + 8], file[at + 9]]));
    }
    counts
}

/// All answers, some and none; another file from another seed; and the line in the list.
fn kept_answers(tests: &mut Tests) {
    let of = |seed: u64, damage: &str| -> Vec<Vec<u8>> {
        recorder::recordings(seed, 640).filter(|made| made.damage == damage).map(|made| made.bytes).collect()
    };
    let all = of(1, "right-all");
    tests.equal("right files", all.len(), 10);
    tests.equal("all answers", all.iter().all(|file| counted(file).0 == counted(file).1), true);
    tests.equal("no answers", of(1, "right-none").iter().all(|file| counted(file).1 == 0), true);
    let (calls, answers) = of(1, "right-some").iter().map(|file| counted(file)).fold((0, 0), |sum, (calls, answers, _)| (sum.0 + calls, sum.1 + answers));
    tests.equal("about three answers in four", (answers * 100 > calls * 65, answers * 100 < calls * 85), (true, true));
    tests.equal("the same seed", of(1, "right-all") == all, true);
    tests.equal("another seed", of(2, "right-all").iter().zip(&all).any(|(one, other)| one == other && !one.is_empty()), false);
    let made = recorder::Recording { damage: "slot", verdict: String::from("bad"), bytes: Vec::new() };
    tests.equal("a line of the list", made.line("00037.record"), String::from("00037.record slot bad\n"));
}

/// Counts and offsets that two bytes do not hold: 70,000 ticks on a slot that is none, with the last answer right, wrong, and cut.
fn many_calls(tests: &mut Tests) {
    let tick = replay::bytes_of(&Call { kind: 4, slot: 64, now: 0, bytes: &[] });
    let right = recorder::recorder_file(&tick.repeat(70_000), None);
    let (mut wrong, mut cut) = (right.clone(), right.clone());
    wrong[1_889_994] = 102;
    cut.pop();
    let place = "record 140000, byte offset 1889983: ";
    let differs = format!("{place}not the answer that the rules give
recorded: answer 102 released 0 age 0 written -
the rules: answer 101 released 0 age 0 written -
");
    for (file, line, said) in [(right, "agrees 70000", String::new()), (wrong, "differs 70000", differs), (cut, "bad", format!("{place}cut record\n"))] {
        tests.equal("many calls", checker::check(&file), checker::Verdict { line: format!("{line}\n"), said });
    }
}

/// A long file is right; each of its histories begins with closes, and every second one, about, has about three answers in four.
fn long_recordings(tests: &mut Tests) {
    let (mut calls, mut answers) = (0, 0);
    for seed in 1..4 {
        let mut file = Vec::new();
        let size = recorder::write_recording(seed, 1_000_000, &mut file).unwrap_or(0);
        let verdict = checker::check(&file);
        let counts = counted(&file);
        (calls, answers) = (calls + counts.0, answers + counts.1);
        tests.equal("a long recording", (size == file.len(), size >= 1_000_000, size < 2_000_000, verdict.said), (true, true, true, String::new()));
        tests.equal("its verdict", verdict.line, format!("agrees {}\n", counts.1));
        tests.equal("its closes", (&file[..10], counts.2 > 5), (&[0x52, 0x32, 5, 0, 0, 0, 0, 0, 0, 0][..], true));
    }
    tests.equal("seven answers in eight", (answers * 100 > calls * 80, answers * 100 < calls * 95), (true, true));
}

// The makers of random input reach every answer, and each edge of the age.

fn everything_occurs(tests: &mut Tests) {
    tests.equal("answers that no trace shows", traces::missing(&traces::counts_of(1, 200)), Vec::new());
    let answers: BTreeSet<String> = streams::steps(1, 4000).filter_map(|trial| trial.line().split(" = ").nth(1).map(first_word)).collect();
    let wanted = ["0", "301", "302", "303", "304", "305", "306", "307", "308", "309", "310"].map(String::from);
    tests.equal("answers of steps", answers, BTreeSet::from(wanted));
    let answers: BTreeSet<String> = calls::calls(1, 40_000).filter_map(|(_, line)| line.split(" = ").nth(1).map(first_word)).collect();
    let wanted = [
        "0", "101", "102", "103", "104", "105", "106", "107", "108", "201", "202", "203", "204", "205", "206", "207", "208", "209", "211",
    ];
    tests.equal("answers of calls", answers, BTreeSet::from(wanted.map(String::from)));
    let ages: BTreeSet<String> = calls::calls(1, 40_000).filter_map(|(_, line)| edge_of(&line)).collect();
    let wanted = ["0 at 0", "0 at T_max", "204 at 0", "204 at T_max", "205 at T_max + 1", "205 at most", "206 at -1", "206 at least"];
    tests.equal("edges of the age", ages, BTreeSet::from(wanted.map(String::from)));
    for bytes in messages::messages(1, 1) {
        if let Some(parsed) = message::parse(&bytes) {
            tests.equal("accepted writes back as the same bytes", message::bytes_of(&parsed) == bytes, true);
        }
    }
}

/// What calls over random rows must show: each answer of a call on a row with a phase, and the rows that were refused.
#[derive(Default)]
struct Seen {
    answers: BTreeSet<(String, u8, String)>,
    /// The lengths of refused rows, and where one that is closed but for one byte has that byte.
    lengths: BTreeSet<usize>,
    left_over: BTreeSet<usize>,
}

impl Seen {
    /// Notes a line of `rows`.
    fn note(&mut self, line: &str) {
        let (given, out) = line.split_once(" = ").unwrap_or_default();
        let given: Vec<&str> = given.split(' ').collect();
        let (call, row, answer) = (given[0], bytes_in(given[2]), first_word(out));
        if answer == "109" && given[4] == "11" {
            self.lengths.insert(row.len());
            let not_zero: Vec<usize> = (0..row.len()).filter(|at| row[*at] != 0).collect();
            if let ([at], 53) = (&not_zero[..], row.len()) {
                self.left_over.insert(*at);
            }
        }
        if call == "write_row" || row.len() == 53 {
            self.answers.insert((call.to_string(), *row.first().unwrap_or(&0), answer));
        }
    }

    fn occurs(&self, call: &str, phase: u8, answer: u16) -> bool {
        self.answers.contains(&(call.to_string(), phase, answer.to_string()))
    }

    fn answers_of(&self, call: &str) -> BTreeSet<String> {
        self.answers.iter().filter(|(of, _, _)| of == call).map(|(_, _, answer)| answer.clone()).collect()
    }
}

fn bytes_in(hex: &str) -> Vec<u8> {
    (0..hex.len() / 2).filter_map(|at| u8::from_str_radix(&hex[2 * at..2 * at + 2], 16).ok()).collect()
}

fn everything_occurs_over_rows(tests: &mut Tests) {
    let mut seen = Seen::default();
    rowcalls::rows(1, 50_000).for_each(|(_, line)| seen.note(&line));
    for (kind, phase, answers) in traces::POSSIBLE {
        let call = traces::call_name(kind);
        for answer in answers.iter().filter(|_| phase != traces::NO_SLOT) {
            tests.equal(&format!("{call} in phase {phase} answers {answer}"), seen.occurs(call, phase, *answer), true);
        }
    }
    for (call, phase) in [("begin", 0), ("receive", 1), ("receive", 2), ("receive", 3), ("receive", 4), ("receive", 5), ("receive", 6), ("send", 6)] {
        tests.equal(&format!("{call} in phase {phase} answers 108"), seen.occurs(call, phase, 108), true);
    }
    for call in ["begin", "receive", "send", "tick", "close", "read_row"] {
        for phase in (0..=7).chain([255]) {
            tests.equal(&format!("{call} refuses a row of phase {phase}"), seen.occurs(call, phase, 109), true);
        }
        tests.equal(&format!("{call} does not answer 101"), seen.answers_of(call).contains("101"), false);
    }
    for call in ["read_row", "write_row"] {
        tests.equal(call, seen.answers_of(call), BTreeSet::from(["0", "108", "109"].map(String::from)));
    }
    for length in (0..=120).chain([1000]) {
        tests.equal(&format!("a refused row of {length} bytes"), seen.lengths.contains(&length), true);
    }
    tests.equal("each byte left over alone", seen.left_over, (0..53).collect());
}

/// The edge at which the line of a call on an open connection has its age.
fn edge_of(line: &str) -> Option<String> {
    let words: Vec<&str> = line.split(' ').collect();
    let (t_max, call) = (words[2].parse::<i32>().ok()?, words[17]);
    let (answer, age) = (words[22], words[27].parse::<i32>().ok()?);
    if call != "receive" || words[0] != "6" || !["0", "204", "205", "206"].contains(&answer) {
        return None;
    }
    let edges = [("0", 0), ("T_max", t_max), ("T_max + 1", t_max + 1), ("most", i32::MAX), ("-1", -1), ("least", i32::MIN)];
    edges.iter().find(|(_, edge)| *edge == age).map(|(name, _)| format!("{answer} at {name}"))
}

fn first_word(text: &str) -> String {
    text.split(' ').next().unwrap_or("").to_string()
}
