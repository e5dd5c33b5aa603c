//! Random pairs of link bytes, and random single steps, from fixed seeds.

use crate::callers::{self, Allowed};
use crate::given::Fields;
use crate::links::{self, Known, Role, State};
use crate::packet::{self, Link, Packet};
use crate::random::Random;
use std::collections::BTreeMap;
use std::path::Path;

/// So many bytes a link or a list has at most in the file that `single steps` reads.
pub const LENT_MOST: usize = u16::MAX as usize;

/// A packet as the peer means to send it.
#[derive(Clone)]
struct Meant {
    kind: u8,
    number: u16,
    data: Vec<u8>,
}

/// How often each kind of fault is put in: once in so many packets, 0 never.
#[derive(Clone, Copy)]
struct Faults {
    /// Length, check and flag: the link goes down.
    link: u64,
    /// Type, number, first packet: used and dropped.
    dropped: u64,
    /// A responder's first packet that the list or our id turns away, before the one that is let in.
    unwelcome: u64,
    /// Lost on one link.
    lost: u64,
    /// Repeated on one link.
    repeated: u64,
}

const NO_FAULTS: Faults = Faults { link: 0, dropped: 0, unwelcome: 0, lost: 0, repeated: 0 };

fn happens(random: &mut Random, rate: u64) -> bool {
    rate > 0 && random.once_in(rate)
}

fn some_role(random: &mut Random) -> Role {
    random.pick(&[Role::Initiator, Role::Responder])
}

/// Up to how much user data the packets of a conversation mostly have: 40 bytes, the 1,024 that were once the most, or the most.
#[derive(Clone, Copy)]
enum Lengths {
    Short,
    Middle,
    Long,
}

/// What most conversations have.
fn not_long(random: &mut Random) -> Lengths {
    if random.once_in(4) { Lengths::Middle } else { Lengths::Short }
}

/// Any user data length, the bounds often, and those with which a length or a whole packet is about 32,768.
fn some_length(random: &mut Random, lengths: Lengths) -> usize {
    let most = packet::DATA_MOST;
    match (random.below(8), lengths) {
        (0, _) => random.pick(&[0, 1, 1023, 1024, 1025]),
        (1 | 2, Lengths::Long) => random.pick(&[most - 1, most, most]),
        (3, Lengths::Long) => random.pick(&[32_757, 32_758, 32_759, 32_760]),
        (_, Lengths::Long) => random.between(0, most as u64) as usize,
        (1, _) | (_, Lengths::Middle) => random.between(0, 1024) as usize,
        _ => random.between(0, 40) as usize,
    }
}

/// An AU1 with these ids and perhaps more behind its class.
fn au1(random: &mut Random, (caller, called): (u32, u32)) -> Meant {
    let tail = random.pick(&[0, 0, 1, 20]);
    let ids = [caller.to_be_bytes(), called.to_be_bytes()].concat();
    Meant { kind: packet::AU1, number: 0, data: [ids, vec![packet::CLASS_D], random.bytes(tail)].concat() }
}

/// The first packet that the role waits for, with what it must hold, of a caller that is let in.
fn first_meant(random: &mut Random, role: Role, allowed: &Allowed) -> Meant {
    match role {
        Role::Responder => {
            let ids = callers::welcome(random, allowed);
            au1(random, ids)
        }
        Role::Initiator => {
            let tail = random.pick(&[0, 0, 1, 20]);
            Meant { kind: packet::AU2, number: 0, data: random.bytes(packet::ID + tail) }
        }
    }
}

/// An AU1 that is mostly turned away.
fn first_unwelcome(random: &mut Random, allowed: &Allowed) -> Meant {
    let ids = callers::unwelcome(random, allowed);
    au1(random, ids)
}

/// The first packet with one thing wrong: type, number, class, or one byte short; its caller may be one that is let in or not.
fn first_faulty(random: &mut Random, role: Role, allowed: &Allowed) -> Meant {
    let mut meant = match role {
        Role::Responder if random.once_in(2) => first_unwelcome(random, allowed),
        _ => first_meant(random, role, allowed),
    };
    match random.below(5) {
        0 => meant.kind = random.pick(&[packet::AU1, packet::AU2, packet::DATA, packet::RELEASE]),
        1 => meant.number = random.pick(&[1, 2, 256, 32767, 32768, 65535]),
        2 if role == Role::Responder => meant.data[packet::CLASS_AT] = random.pick(&[0, 1, 2, 4, 255]),
        3 => meant.data.truncate(if role == Role::Responder { 8 } else { 3 }),
        _ => meant.data.clear(),
    }
    meant
}

/// The next number: mostly the one after, and jumps on both sides of each bound.
fn next_number(random: &mut Random, last: u16, faults: Faults) -> u16 {
    let d = if happens(random, faults.dropped) {
        random.pick(&[0, 2, 3, 100, 32766, 32767, 32768, 32769, 65535])
    } else {
        1
    };
    last.wrapping_add(d)
}

/// What comes before the first packet that is handed up, and that packet.
fn opening(random: &mut Random, role: Role, allowed: &Allowed, faults: Faults) -> Vec<Meant> {
    let mut sent = Vec::new();
    loop {
        if happens(random, faults.dropped) {
            sent.push(first_faulty(random, role, allowed));
        } else if role == Role::Responder && happens(random, faults.unwelcome) {
            sent.push(first_unwelcome(random, allowed));
        } else {
            sent.push(first_meant(random, role, allowed));
            return sent;
        }
    }
}

/// What the peer means to send over both links.
fn conversation(random: &mut Random, role: Role, allowed: &Allowed, (count, lengths): (usize, Lengths), faults: Faults) -> Vec<Meant> {
    let mut sent = opening(random, role, allowed, faults);
    let mut last = 0;
    for _ in 0..count {
        let number = next_number(random, last, faults);
        if number.wrapping_sub(last) < 32768 {
            last = number;
        }
        let mut kind = if random.once_in(12) { packet::RELEASE } else { packet::DATA };
        if happens(random, faults.dropped) {
            kind = random.pick(&[1, 2, 0, 5, 127, 250, 251, 252, 253, 254, 255]);
        }
        // an AU1 that comes later may have ids too, which are not judged
        let data = if kind == packet::AU1 && random.once_in(2) {
            first_unwelcome(random, allowed).data
        } else {
            let length = some_length(random, lengths);
            random.bytes(length)
        };
        sent.push(Meant { kind, number, data });
    }
    sent
}

/// A length that is not the packet's: too small, too great, or within the bounds, mostly beside one of them.
fn other_length(random: &mut Random) -> u16 {
    let most = packet::LENGTH_MOST as u16;
    match random.below(3) {
        0 => random.pick(&[0, 1, 7, 7]),
        1 => random.pick(&[most + 1, most + 1, most + 2, 65534, 65535]),
        _ => random.pick(&[8, 9, 1032, 1033, 1034, 4096, 32768, most - 1, most]),
    }
}

/// A meant packet's bytes on a link, perhaps with a fault in length, flag or check, or in several.
fn on_link(random: &mut Random, link: Link, meant: &Meant, faults: Faults) -> Vec<u8> {
    let packet = Packet { version: random.byte(), application: random.byte(), number: meant.number, kind: meant.kind, data: &meant.data };
    let mut bytes = packet::bytes_of(link, &packet);
    if !happens(random, faults.link) {
        return bytes;
    }
    // 1 the length, 2 the flag, 4 the check.
    let which = random.pick(&[1, 2, 2, 2, 4, 4, 4, 3, 5, 6, 7]);
    if which & 1 != 0 && meant.data.len() > 1025 && random.once_in(2) {
        // A long packet: one byte more than the most, all there.
        let data = random.bytes(packet::DATA_MOST + 1);
        bytes = packet::bytes_of(link, &Packet { data: &data, ..packet });
    } else if which & 1 != 0 {
        bytes[..2].copy_from_slice(&other_length(random).to_be_bytes());
    }
    if which & 2 != 0 {
        bytes[6] = random.pick(&[1 - link.flag(), 2, 255, bytes[6] ^ 0x80]);
    }
    let check = packet::check(&bytes[..packet::CHECKED]).to_be_bytes();
    bytes[8..10].copy_from_slice(&check);
    if which & 4 != 0 {
        // One bit of the header or its check, the length left alone.
        let bit = random.between(16, 79) as usize;
        bytes[bit / 8] ^= 1 << (bit % 8);
    }
    bytes
}

/// What a link brings of what is sent.
fn brought(random: &mut Random, link: Link, sent: &[Meant], faults: Faults) -> Vec<u8> {
    let mut bytes = Vec::new();
    for meant in sent {
        if happens(random, faults.lost) {
            continue;
        }
        bytes.extend(on_link(random, link, meant, faults));
        while happens(random, faults.repeated) {
            bytes.extend(on_link(random, link, meant, faults));
        }
    }
    bytes
}

/// One link's whole bytes, perhaps cut anywhere or with some behind them.
fn link_bytes(random: &mut Random, link: Link, sent: &[Meant], faults: Faults) -> Vec<u8> {
    let mut bytes = brought(random, link, sent, faults);
    if random.once_in(3) {
        bytes.truncate(random.below(bytes.len() as u64 + 1) as usize);
    }
    if random.once_in(8) {
        let tail = random.pick(&[1, 2, 9, 10, 30]);
        bytes.extend(random.bytes(tail));
    }
    bytes
}

pub struct Pair {
    pub role: Role,
    pub strict: bool,
    /// What a responder is given.
    pub allowed: Allowed,
    pub normal: Vec<u8>,
    pub redundant: Vec<u8>,
}

/// One of the pairs: valid, damaged, lossy, lagging, or all at once.
fn pair(random: &mut Random, long: bool) -> Pair {
    let faults = Faults {
        link: random.pick(&[0, 100, 30, 8, 4]),
        dropped: random.pick(&[0, 30, 8, 3]),
        unwelcome: random.pick(&[0, 2, 2, 2]),
        lost: random.pick(&[0, 0, 20, 4]),
        repeated: random.pick(&[0, 0, 20, 4]),
    };
    let (role, strict) = (some_role(random), random.once_in(2));
    let allowed = callers::some_allowed(random);
    let count = if long { random.pick(&[1, 3, 10, 20, 40]) } else { random.pick(&[0, 1, 3, 10, 40, 150, 400]) };
    let lengths = if long { Lengths::Long } else { not_long(random) };
    let sent = conversation(random, role, &allowed, (count, lengths), faults);
    // A lagging link misses the end of what was sent, or all of it.
    let lag = |random: &mut Random| match random.below(4) {
        0 => random.below(sent.len() as u64 + 1) as usize,
        _ => sent.len(),
    };
    let (normal_seen, redundant_seen) = (lag(random), lag(random));
    Pair {
        role,
        strict,
        allowed,
        normal: link_bytes(random, Link::Normal, &sent[..normal_seen], faults),
        redundant: link_bytes(random, Link::Redundant, &sent[..redundant_seen], faults),
    }
}

/// A pair whose numbers pass 65535 one by one, the redundant link a few packets ahead.
fn wrapping_pair(random: &mut Random, strict: bool) -> Pair {
    let role = some_role(random);
    let ours = random.count();
    let allowed = Allowed { ours, callers: random.bytes(3 * packet::ID) };
    let mut sent = vec![first_meant(random, role, &allowed)];
    for number in 1..65_600_u32 {
        let length = random.pick(&[0, 0, 0, 1, 5]);
        sent.push(Meant { kind: packet::DATA, number: number as u16, data: random.bytes(length) });
    }
    let normal = brought(random, Link::Normal, &sent[..65_590], NO_FAULTS);
    let redundant = brought(random, Link::Redundant, &sent, NO_FAULTS);
    Pair { role, strict, allowed, normal, redundant }
}

/// A pair of some megabytes on each link that is read to its end, so that packets lie across the places where a program fills its buffers
/// again: packets of any length, the opening one long too, some lost or repeated on one link, or short ones that all come. One link lacks the
/// last tenth, the normal one where the setting is strict.
fn large_pair(random: &mut Random, strict: bool, long: bool) -> Pair {
    let role = some_role(random);
    let ours = random.count();
    let allowed = Allowed { ours, callers: random.bytes(3 * packet::ID) };
    let mut sent = vec![first_meant(random, role, &allowed)];
    let faults = if long { Faults { lost: 40, repeated: 20, ..NO_FAULTS } } else { NO_FAULTS };
    if long {
        sent[0].data.extend(random.bytes(60_000));
    }
    let (mut size, total) = (0, if long { 3_000_000 } else { 2_500_000 });
    while size < total {
        let length = if long { some_length(random, Lengths::Long) } else { random.between(0, 60) as usize };
        size += packet::HEADER + length;
        sent.push(Meant { kind: packet::DATA, number: sent.len() as u16, data: random.bytes(length) });
    }
    let behind = sent.len() - sent.len() / 10;
    let (normal_seen, redundant_seen) = if strict { (behind, sent.len()) } else { (sent.len(), behind) };
    let normal = brought(random, Link::Normal, &sent[..normal_seen], faults);
    let redundant = brought(random, Link::Redundant, &sent[..redundant_seen], faults);
    Pair { role, strict, allowed, normal, redundant }
}

fn role_name(role: Role) -> &'static str {
    match role {
        Role::Initiator => "initiator",
        Role::Responder => "responder",
    }
}

fn strict_name(strict: bool) -> &'static str {
    if strict { "strict" } else { "loose" }
}

/// The words of `cut` for a pair, but for its files: role, setting, and for a responder our own id and the callers.
fn words_of(pair: &Pair) -> String {
    let mut words = format!("{} {}", role_name(pair.role), strict_name(pair.strict));
    if pair.role == Role::Responder {
        words.push_str(&format!(" {:08X}", pair.allowed.ours));
        for entry in pair.allowed.callers.chunks_exact(packet::ID) {
            words.push_str(&format!(" {}", hex(entry)));
        }
    }
    words
}

/// Writes the pairs NAME.normal and NAME.redundant and the file `list` with lines NAME role strict [OURS CALLER ..];
/// returns how often each answer occurred. The first five pairs are the large ones; of the others one in sixteen has long packets.
pub fn write_streams(seed: u64, count: usize, folder: &Path) -> std::io::Result<BTreeMap<String, usize>> {
    let mut random = Random::new(seed);
    let mut answers = BTreeMap::new();
    let mut list = String::new();
    std::fs::create_dir_all(folder)?;
    for at in 0..count {
        let made = match at {
            0 => wrapping_pair(&mut random, true),
            1 => wrapping_pair(&mut random, false),
            2 => large_pair(&mut random, true, true),
            3 => large_pair(&mut random, false, true),
            4 => large_pair(&mut random, true, false),
            _ => pair(&mut random, at % 16 == 5),
        };
        let name = format!("{at:05}");
        std::fs::write(folder.join(format!("{name}.normal")), &made.normal)?;
        std::fs::write(folder.join(format!("{name}.redundant")), &made.redundant)?;
        list.push_str(&format!("{name} {}\n", words_of(&made)));
        let known = Known { ours: made.allowed.ours, callers: &made.allowed.callers };
        for line in links::cut(made.role, made.strict, known, &made.normal, &made.redundant).lines().skip(1) {
            if let Some(answer) = line.split(' ').nth(1).filter(|_| !line.starts_with("end")) {
                *answers.entry(answer.to_string()).or_insert(0) += 1;
            }
        }
    }
    std::fs::write(folder.join("list"), list)?;
    Ok(answers)
}

/// Bytes in hex; none at all is `-`.
pub fn hex(bytes: &[u8]) -> String {
    if bytes.is_empty() {
        return String::from("-");
    }
    let digit = |value: u8| char::from(b"0123456789ABCDEF"[usize::from(value)]);
    bytes.iter().flat_map(|byte| [digit(byte >> 4), digit(byte & 15)]).collect()
}

pub const STEPS_HEADER: &str = "normal_up redundant_up role strict first last normal_place normal redundant_place redundant ours callers = \
     answer link used version application type number data normal_up redundant_up first last";

/// A place: mostly where the packets begin, sometimes elsewhere or past the end.
fn some_place(random: &mut Random, begins: usize, length: usize) -> usize {
    match random.below(12) {
        0 => length,
        1 => length + random.pick(&[1, 2, 1000, 1 << 31]),
        2 => random.below(length as u64 + 1) as usize,
        _ => begins,
    }
}

/// A link's short bytes with junk before the place where the packets begin, as far as a step's file has room.
fn short_link(random: &mut Random, link: Link, sent: &[Meant], faults: Faults) -> (Vec<u8>, usize) {
    let junk = random.pick(&[0, 0, 1, 7, 300]);
    let mut bytes = random.bytes(junk);
    bytes.extend(link_bytes(random, link, sent, faults));
    bytes.truncate(LENT_MOST);
    let place = some_place(random, junk, bytes.len());
    (bytes, place)
}

/// A long packet on a link with junk before its place: whole, cut by one byte, or with bytes behind it, as far as a step's file has room.
fn long_link(random: &mut Random, link: Link, meant: &Meant, faults: Faults) -> (Vec<u8>, usize) {
    let packet = on_link(random, link, meant, faults);
    let room = LENT_MOST - packet.len();
    let junk = random.pick(&[0, 0, 1, 7, 300, room]).min(room);
    let mut bytes = [random.bytes(junk), packet].concat();
    match random.below(5) {
        0 => bytes.truncate(bytes.len() - 1),
        1 | 2 => {
            let behind = random.pick(&[1, 30, 300, room]).min(room - junk);
            bytes.extend(random.bytes(behind));
        }
        _ => (),
    }
    let place = if random.once_in(8) { some_place(random, junk, bytes.len()) } else { junk };
    (bytes, place)
}

/// A long packet, mostly data: about the most, one byte more, about the 1,024 that were once the most, or any length.
fn long_meant(random: &mut Random, role: Role, allowed: &Allowed) -> Meant {
    let most = packet::DATA_MOST;
    let any = random.between(0, most as u64) as usize;
    let length = random.pick(&[most - 1, most, most, most, most + 1, most + 1, 1024, 1025, 32_759, 32_760, any]);
    let mut meant = match random.below(7) {
        0 => first_meant(random, role, allowed),
        1 => first_unwelcome(random, allowed),
        2 => Meant { kind: random.pick(&[packet::RELEASE, 251]), number: random.number(), data: Vec::new() },
        _ => Meant { kind: packet::DATA, number: random.number(), data: Vec::new() },
    };
    let more = length.saturating_sub(meant.data.len());
    meant.data.extend(random.bytes(more));
    meant
}

/// A state near the packet that stands first: every d on both sides of each bound, and mostly awaited where it is one that opens.
fn some_state(random: &mut Random, role: Role, meant: &Meant) -> State {
    let d = random.pick(&[0, 1, 1, 1, 2, 3, 32766, 32767, 32768, 32769, 65535]);
    let opens = meant.kind == packet::AU1 || meant.kind == packet::AU2;
    State {
        normal_up: !random.once_in(4),
        redundant_up: !random.once_in(4),
        role,
        strict: random.once_in(2),
        first: if opens { !random.once_in(4) } else { random.once_in(4) },
        last: if random.once_in(10) { random.number() } else { meant.number.wrapping_sub(d) },
    }
}

/// A single step at any state and places.
pub struct Trial {
    state: State,
    normal: Vec<u8>,
    normal_place: usize,
    redundant: Vec<u8>,
    redundant_place: usize,
    allowed: Allowed,
}

impl Trial {
    fn step(&self) -> (State, links::Step<'_>) {
        let known = Known { ours: self.allowed.ours, callers: &self.allowed.callers };
        links::step(self.state, known, (&self.normal, self.normal_place), (&self.redundant, self.redundant_place))
    }

    /// What goes in, `=`, what comes back, for a person.
    pub fn line(&self) -> String {
        let (after, step) = self.step();
        let (state, taken) = (self.state, taken_of(&step));
        let given = format!(
            "{} {} {} {} {} {} {} {} {} {} {:08X} {}",
            u8::from(state.normal_up), u8::from(state.redundant_up), role_name(state.role), strict_name(state.strict), u8::from(state.first),
            state.last, self.normal_place, hex(&self.normal), self.redundant_place, hex(&self.redundant),
            self.allowed.ours, hex(&self.allowed.callers)
        );
        format!(
            "{given} = {} {} {} {} {} {} {} {} {}",
            step.answer, step.link.name(), step.used, taken.version, taken.application, taken.kind, taken.number, hex(taken.data), state_text(&after)
        )
    }

    /// The step in the file that the Rattle program `single steps` reads: flags 1 (1 normal link up, 2 redundant link up, 4 responder, 8 strict,
    /// 16 first packet), last number 2, normal place 4, redundant place 4, our own id 4, normal size 2, redundant size 2, size of the list 2,
    /// the bytes of both links, those of the list.
    pub fn bytes(&self) -> Vec<u8> {
        let state = self.state;
        let flags = [state.normal_up, state.redundant_up, state.role == Role::Responder, state.strict, state.first];
        let mut bytes = vec![flags.iter().enumerate().map(|(bit, set)| u8::from(*set) << bit).sum()];
        bytes.extend(state.last.to_be_bytes());
        bytes.extend((self.normal_place as u32).to_be_bytes());
        bytes.extend((self.redundant_place as u32).to_be_bytes());
        bytes.extend(self.allowed.ours.to_be_bytes());
        let lent = [&self.normal, &self.redundant, &self.allowed.callers];
        bytes.extend(lent.iter().flat_map(|part| (part.len() as u16).to_be_bytes()));
        bytes.extend(lent.into_iter().flatten());
        bytes
    }

    /// The two lines that `single steps` prints: that of `cut`, then the state after the step, version, application type and where the data begins.
    pub fn printed(&self) -> String {
        let (after, step) = self.step();
        let taken = taken_of(&step);
        let place = match step.link {
            Link::Normal => self.normal_place,
            Link::Redundant => self.redundant_place,
        };
        let start = if step.answer == 0 { place + packet::HEADER } else { 0 };
        let first = format!("{} {} {} {} {} {}", step.link.name(), step.answer, step.used, taken.kind, taken.number, taken.data.len());
        let second = format!("state {} {} {} {start}", state_text(&after), taken.version, taken.application);
        let lines = format!("{first}\n{second}\ndata {}", hex(taken.data));
        // as the links are lent, and by readers
        format!("{lines}\n{lines}")
    }
}

/// The step at the front of a file's rest, and the rest after it; None where no whole step is there.
pub fn given(rest: &[u8]) -> Option<(Trial, &[u8])> {
    let mut fields = Fields(rest);
    let (flags, last) = (fields.byte()?, fields.number()?);
    let (normal_place, redundant_place) = (fields.count()? as usize, fields.count()? as usize);
    let ours = fields.count()?;
    let (normal, redundant, callers) = (usize::from(fields.number()?), usize::from(fields.number()?), usize::from(fields.number()?));
    let set = |bit: u8| flags >> bit & 1 == 1;
    let role = if set(2) { Role::Responder } else { Role::Initiator };
    let state = State { normal_up: set(0), redundant_up: set(1), role, strict: set(3), first: set(4), last };
    let (normal, redundant) = (fields.bytes(normal)?.to_vec(), fields.bytes(redundant)?.to_vec());
    let allowed = Allowed { ours, callers: fields.bytes(callers)?.to_vec() };
    Some((Trial { state, normal, normal_place, redundant, redundant_place, allowed }, fields.0))
}

fn taken_of<'a>(step: &links::Step<'a>) -> Packet<'a> {
    step.packet.unwrap_or(Packet { version: 0, application: 0, number: 0, kind: 0, data: &[] })
}

fn state_text(state: &State) -> String {
    format!("{} {} {} {}", u8::from(state.normal_up), u8::from(state.redundant_up), u8::from(state.first), state.last)
}

fn some_trial(random: &mut Random) -> Trial {
    let faults = Faults { link: random.pick(&[0, 6]), dropped: random.pick(&[0, 3]), unwelcome: random.pick(&[0, 2]), lost: 0, repeated: 0 };
    let role = some_role(random);
    let allowed = callers::some_lent(random);
    let lengths = not_long(random);
    let mut sent = conversation(random, role, &allowed, (2, lengths), faults);
    let begins = if random.once_in(3) { 0 } else { random.below(sent.len() as u64) as usize };
    sent.drain(..begins);
    let state = some_state(random, role, &sent[0]);
    let (normal, normal_place) = short_link(random, Link::Normal, &sent, faults);
    let (redundant, redundant_place) = short_link(random, Link::Redundant, &sent, faults);
    Trial { state, normal, normal_place, redundant, redundant_place, allowed }
}

/// A step with a long packet on one link or on both. The other link is as good as empty, or has a short packet of that number.
fn long_trial(random: &mut Random) -> Trial {
    let faults = Faults { link: random.pick(&[0, 0, 6]), ..NO_FAULTS };
    let role = some_role(random);
    let allowed = callers::some_lent(random);
    let meant = long_meant(random, role, &allowed);
    let opens = meant.kind == packet::AU1 || meant.kind == packet::AU2;
    let last = meant.number.wrapping_sub(random.pick(&[0, 1, 1, 1, 1, 1, 2, 32767]));
    let state = State { first: opens, last, ..some_state(random, role, &meant) };
    let other = if random.once_in(2) { vec![Meant { data: random.bytes(20), ..meant.clone() }] } else { Vec::new() };
    // 1 the normal link, 2 the redundant one
    let which = random.pick(&[1, 2, 3]);
    let mut lent = |link: Link, bit: u8| match which & bit {
        0 => short_link(random, link, &other, faults),
        _ => long_link(random, link, &meant, faults),
    };
    let (normal, normal_place) = lent(Link::Normal, 1);
    let (redundant, redundant_place) = lent(Link::Redundant, 2);
    Trial { state, normal, normal_place, redundant, redundant_place, allowed }
}

/// So many random steps, the last of each 150 with a long packet.
pub fn steps(seed: u64, count: usize) -> impl Iterator<Item = Trial> {
    let mut random = Random::new(seed);
    (0..count).map(move |at| if at % 150 == 149 { long_trial(&mut random) } else { some_trial(&mut random) })
}
