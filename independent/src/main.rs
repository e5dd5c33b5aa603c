//! The independent program: ordinary Rust, written from 01 and not from the Rattle code, to compare with.

mod annex;
mod callers;
mod calls;
mod checker;
mod connection;
mod craft;
mod given;
mod links;
mod message;
mod messages;
mod packet;
mod packets;
mod random;
mod recorder;
mod replay;
mod rowcalls;
mod rows;
mod selftest;
mod streams;
mod table;
mod tables;
mod traces;
mod writes;

use links::{Known, Role};
use std::fs::File;
use std::io::{self, BufWriter, Read, Write};
use std::path::Path;
use std::process::ExitCode;

const USAGE: &str = "independent cut initiator strict|loose NORMAL REDUNDANT
independent cut responder strict|loose NORMAL REDUNDANT OURS [CALLER ...]   our own id and those who may call, each of eight hex digits
independent replay [FILE]
independent checker [FILE]            the verdict over a recorder file; what a person is told of it stands on standard error
independent recorder FILE OUT [SEED]  the recorder file of a trace; with a seed some calls are left without an answer
independent check                     004's annex table 14 beside 01's check
independent types                     the constant table of packet types
independent streams SEED COUNT DIR    random pairs of link bytes
independent steps SEED COUNT [FILE]   random single steps; with FILE, what goes in is written there and only what comes out is printed
independent messages SEED COUNT [FILE]  rounds of random messages, likewise
independent packets SEED COUNT [FILE]   random packets to be written, likewise
independent writes SEED COUNT [FILE]    random messages to be written, likewise
independent calls SEED COUNT [FILE]   random single connection calls, likewise
independent tables SEED COUNT [FILE]    random calls on tables of 0, 1, 2, 64 and 65 records, likewise
independent rows SEED COUNT [FILE]    random calls from C over rows of bytes, likewise
independent traces SEED COUNT DIR     random traces
independent recordings SEED COUNT DIR  random recorder files, and the verdict that each must get
independent recording SEED BYTES FILE  one right recorder file of at least so many bytes
independent given steps|messages|calls|packets|writes|tables|rows FILE  what comes out for the inputs of a file
independent selftest                  the program's own tests";

fn main() -> ExitCode {
    let given: Vec<String> = std::env::args().skip(1).collect();
    let words: Vec<&str> = given.iter().map(String::as_str).collect();
    match run(&words) {
        Ok(true) => ExitCode::SUCCESS,
        Ok(false) => ExitCode::FAILURE,
        Err(said) => {
            eprintln!("independent: {said}");
            ExitCode::FAILURE
        }
    }
}

fn run(words: &[&str]) -> Result<bool, String> {
    match words {
        ["cut", role, strict, normal, redundant, ids @ ..] => cut(role, strict, normal, redundant, ids),
        ["replay"] => print_all([replay::replay(&standard_input()?)]),
        ["replay", name] => print_all([replay::replay(&file(name)?)]),
        ["checker"] => print_verdict(&standard_input()?),
        ["checker", name] => print_verdict(&file(name)?),
        ["recorder", name, out] => write_file(out, &recorder::recorder_file(&file(name)?, None)),
        ["recorder", name, out, seed] => write_file(out, &recorder::recorder_file(&file(name)?, Some(number(seed)?))),
        ["check"] => print_all([annex::table()]),
        ["types"] => print_all(packet::TYPES.iter().map(type_line)),
        ["streams", seed, count, folder] => streams_to(number(seed)?, number(count)? as usize, Path::new(folder)),
        ["steps", seed, count] => print_lines(streams::STEPS_HEADER, steps(seed, count)?.map(|trial| trial.line())),
        ["steps", seed, count, name] => both(name, steps(seed, count)?.map(|trial| (trial.bytes(), trial.printed()))),
        ["messages", seed, count] => print_lines(messages::HEADER, messages(seed, count)?.map(|bytes| messages::line_of(&bytes))),
        ["messages", seed, count, name] => both(name, messages(seed, count)?.map(|bytes| (messages::file_bytes(&bytes), given::came_out(&messages::line_of(&bytes))))),
        ["calls", seed, count] => print_lines(calls::HEADER, calls(seed, count)?.map(|(_, line)| line)),
        ["calls", seed, count, name] => both(name, calls(seed, count)?.map(|(bytes, line)| (bytes, given::came_out(&line)))),
        ["packets", seed, count] => print_lines(packets::HEADER, packets(seed, count)?.map(|(_, line)| line)),
        ["packets", seed, count, name] => both(name, packets(seed, count)?.map(|(bytes, line)| (bytes, given::came_out(&line)))),
        ["writes", seed, count] => print_lines(writes::HEADER, writes(seed, count)?.map(|(_, line)| line)),
        ["writes", seed, count, name] => both(name, writes(seed, count)?.map(|(bytes, line)| (bytes, given::came_out(&line)))),
        ["tables", seed, count] => print_lines(tables::HEADER, tables(seed, count)?.map(|(_, line)| line)),
        ["tables", seed, count, name] => both(name, tables(seed, count)?.map(|(bytes, line)| (bytes, given::came_out(&line)))),
        ["rows", seed, count] => print_lines(rowcalls::HEADER, rows(seed, count)?.map(|(_, line)| line)),
        ["rows", seed, count, name] => both(name, rows(seed, count)?.map(|(bytes, line)| (bytes, given::came_out(&line)))),
        ["traces", seed, count, folder] => traces_to(number(seed)?, number(count)? as usize, Path::new(folder)),
        ["recordings", seed, count, folder] => recordings_to(number(seed)?, number(count)? as usize, Path::new(folder)),
        ["recording", seed, bytes, name] => recording_to(number(seed)?, number(bytes)? as usize, name),
        ["given", kind, name] => print_all(given::lines(kind, &file(name)?)?.into_iter().map(|line| line + "\n")),
        ["selftest"] => {
            let tests = selftest::all();
            println!("{} cases, {} failed", tests.cases, tests.failed);
            Ok(tests.failed == 0)
        }
        _ => Err(format!("wrong arguments; it is one of\n{USAGE}")),
    }
}

/// What `cut` prints; a responder is given its own id and the callers, an initiator is not.
fn cut(role: &str, strict: &str, normal: &str, redundant: &str, ids: &[&str]) -> Result<bool, String> {
    let role = match (role, ids) {
        ("initiator", []) => Role::Initiator,
        ("responder", [_, ..]) => Role::Responder,
        _ => return Err(format!("{role} with {} ids: not initiator with none, or responder with our own and then any number of callers", ids.len())),
    };
    let strict = match strict {
        "strict" => true,
        "loose" => false,
        other => return Err(format!("{other}: not strict or loose")),
    };
    let (ours, callers) = ids_of(ids)?;
    print_all([links::cut(role, strict, Known { ours, callers: &callers }, &file(normal)?, &file(redundant)?)])
}

/// Our own id and the list, from the words of `cut`. An initiator, who is not called, has no words, and any id will do.
fn ids_of(words: &[&str]) -> Result<(u32, Vec<u8>), String> {
    let mut ids = words.iter().map(|word| id(word)).collect::<Result<Vec<u32>, String>>()?.into_iter();
    Ok((ids.next().unwrap_or(0), ids.flat_map(u32::to_be_bytes).collect()))
}

/// CUT-5: an id is exactly eight hexadecimal digits.
fn id(word: &str) -> Result<u32, String> {
    let digits = word.len() == 8 && word.bytes().all(|byte| byte.is_ascii_hexdigit());
    u32::from_str_radix(word, 16).ok().filter(|_| digits).ok_or(format!("{word}: not eight hexadecimal digits"))
}

fn number(text: &str) -> Result<u64, String> {
    text.parse().map_err(|_| format!("{text}: not a number"))
}

fn steps(seed: &str, count: &str) -> Result<impl Iterator<Item = streams::Trial>, String> {
    Ok(streams::steps(number(seed)?, number(count)? as usize))
}

fn messages(seed: &str, count: &str) -> Result<impl Iterator<Item = Vec<u8>>, String> {
    Ok(messages::messages(number(seed)?, number(count)? as usize))
}

fn calls(seed: &str, count: &str) -> Result<impl Iterator<Item = (Vec<u8>, String)>, String> {
    Ok(calls::calls(number(seed)?, number(count)? as usize))
}

fn packets(seed: &str, count: &str) -> Result<impl Iterator<Item = (Vec<u8>, String)>, String> {
    Ok(packets::packets(number(seed)?, number(count)? as usize))
}

fn writes(seed: &str, count: &str) -> Result<impl Iterator<Item = (Vec<u8>, String)>, String> {
    Ok(writes::writes(number(seed)?, number(count)? as usize))
}

fn tables(seed: &str, count: &str) -> Result<impl Iterator<Item = (Vec<u8>, String)>, String> {
    Ok(tables::tables(number(seed)?, number(count)? as usize))
}

fn rows(seed: &str, count: &str) -> Result<impl Iterator<Item = (Vec<u8>, String)>, String> {
    Ok(rowcalls::rows(number(seed)?, number(count)? as usize))
}

fn file(name: &str) -> Result<Vec<u8>, String> {
    std::fs::read(name).map_err(|fault| format!("{name}: {fault}"))
}

fn standard_input() -> Result<Vec<u8>, String> {
    let mut bytes = Vec::new();
    io::stdin().read_to_end(&mut bytes).map_err(|fault| fault.to_string())?;
    Ok(bytes)
}

fn print_all(texts: impl IntoIterator<Item = String>) -> Result<bool, String> {
    let mut out = BufWriter::new(io::stdout().lock());
    for text in texts {
        out.write_all(text.as_bytes()).map_err(|fault| fault.to_string())?;
    }
    out.flush().map_err(|fault| fault.to_string())?;
    Ok(true)
}

fn print_lines(header: &str, lines: impl Iterator<Item = String>) -> Result<bool, String> {
    print_all(std::iter::once(header.to_string()).chain(lines).map(|line| line + "\n"))
}

/// Writes what goes in to a file, one after the other, and prints what is to come out.
fn both(name: &str, made: impl Iterator<Item = (Vec<u8>, String)>) -> Result<bool, String> {
    let mut given = Vec::new();
    let mut wanted = Vec::new();
    for (bytes, line) in made {
        given.extend(bytes);
        wanted.push(line + "\n");
    }
    write_file(name, &given)?;
    print_all(wanted)
}

fn write_file(name: &str, bytes: &[u8]) -> Result<bool, String> {
    std::fs::write(name, bytes).map_err(|fault| format!("{name}: {fault}"))?;
    Ok(true)
}

/// The verdict over a recorder file on standard output, and what is said of it on standard error.
fn print_verdict(recorded: &[u8]) -> Result<bool, String> {
    let verdict = checker::check(recorded);
    eprint!("{}", verdict.said);
    print_all([verdict.line])
}

fn type_line(row: &packet::PacketType) -> String {
    let classes = if row.class_a && row.class_d { "A and D" } else { "A only" };
    format!("{} {}, {classes}, links: {}, payload: {:?}\n", row.number, row.name, row.links, row.payload)
}

/// Writes the pairs and prints how often each answer occurred.
fn streams_to(seed: u64, count: usize, folder: &Path) -> Result<bool, String> {
    let answers = streams::write_streams(seed, count, folder).map_err(|fault| fault.to_string())?;
    print_lines("answer count", answers.into_iter().map(|(answer, times)| format!("{answer} {times}")))
}

/// Writes the recorder files and prints how often each damage was done.
fn recordings_to(seed: u64, count: usize, folder: &Path) -> Result<bool, String> {
    let counts = recorder::write_recordings(seed, count, folder).map_err(|fault| fault.to_string())?;
    print_lines("damage count", counts.into_iter().map(|(damage, times)| format!("{damage} {times}")))
}

/// Writes one long recorder file and prints how many bytes it has.
fn recording_to(seed: u64, least: usize, name: &str) -> Result<bool, String> {
    let written = File::create(name).and_then(|file| recorder::write_recording(seed, least, &mut BufWriter::new(file)));
    let size = written.map_err(|fault| format!("{name}: {fault}"))?;
    print_all([format!("{size} bytes\n")])
}

/// Writes the traces and prints how often each call got each answer in each phase.
fn traces_to(seed: u64, count: usize, folder: &Path) -> Result<bool, String> {
    let counts = traces::write_traces(seed, count, folder).map_err(|fault| fault.to_string())?;
    let lines = counts.iter().map(|((kind, phase, answer), times)| {
        format!("{} {} {answer} {times}", traces::call_name(*kind), traces::phase_name(*phase))
    });
    print_lines("call phase answer count", lines)?;
    for (kind, phase, answer) in traces::missing(&counts) {
        println!("never: {} {} {answer}", traces::call_name(kind), traces::phase_name(phase));
    }
    Ok(true)
}
