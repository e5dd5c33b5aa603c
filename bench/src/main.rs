//! Times the library against ordinary Rust, in turns within one run: `bench [ROUNDS]` prints medians and their ratios. `bench compare` times nothing: it
//! ends with status 1 where two ways to the same answer give different ones.
mod check;
#[allow(dead_code)]
#[path = "../../independent/src/packet.rs"]
mod packet;

use std::hint::black_box;
use std::time::Instant;

const HEADER: usize = packet::HEADER;
/// Few enough for the nearest cache, so that no time is spent on memory.
const HEADERS: usize = 2_000;
/// A round goes over all of them so many times.
const TIMES: usize = 50;
const ROUNDS: usize = 101;

extern "C" {
    /// crates/bench_loops: the slice as pointer and length.
    fn digest_of_checks(bytes: *const u8, length: usize, by_bits: bool) -> u64;
}

/// The checks of as many headers as the bytes hold, folded into one number.
type Digest = fn(&[u8]) -> u64;

fn folded(digest: u64, check: u64) -> u64 {
    digest.wrapping_mul(3).wrapping_add(check)
}

fn by_bits(bytes: &[u8]) -> u64 {
    unsafe { digest_of_checks(bytes.as_ptr(), bytes.len(), true) }
}

fn by_bytes(bytes: &[u8]) -> u64 {
    unsafe { digest_of_checks(bytes.as_ptr(), bytes.len(), false) }
}

#[inline(never)]
fn by_rust_table(bytes: &[u8]) -> u64 {
    bytes.chunks_exact(HEADER).map(|header| check::by_table(&header[..packet::CHECKED]) as u64).fold(0, folded)
}

fn by_independent_program(bytes: &[u8]) -> u64 {
    bytes.chunks_exact(HEADER).map(|header| packet::check(&header[..packet::CHECKED]) as u64).fold(0, folded)
}

const WAYS: [(&str, Digest); 3] = [("bit by bit", by_bits), ("a byte at a time", by_bytes), ("Rust, table of 256", by_rust_table)];

/// Numbers from a fixed seed (xorshift64).
struct Random(u64);

impl Random {
    fn next(&mut self) -> u64 {
        self.0 ^= self.0 << 13;
        self.0 ^= self.0 >> 7;
        self.0 ^= self.0 << 17;
        self.0
    }

    fn bytes(&mut self, count: usize) -> Vec<u8> {
        (0..count).map(|_| (self.next() >> 32) as u8).collect()
    }
}

/// Every way gives the same for these bytes.
fn agree(bytes: &[u8]) {
    let right = by_independent_program(bytes);
    for (name, digest) in WAYS {
        let given = digest(bytes);
        if given != right {
            eprintln!("bench: {name} gives {given:x} and the independent program {right:x} for {bytes:02x?}");
            std::process::exit(1);
        }
    }
}

/// Single headers, each bit of one alone among them, and any bytes of every length up to ten headers and a half.
fn compare() {
    const ALONE: usize = 200_000;
    let mut random = Random(0x5EED_0003);
    for bit in 0..HEADER * 8 {
        let mut header = [0; HEADER];
        header[bit / 8] = 1 << (bit % 8);
        agree(&header);
    }
    for _ in 0..ALONE {
        agree(&random.bytes(HEADER));
    }
    let lengths = 10 * HEADER + HEADER / 2;
    for length in 0..=lengths {
        agree(&random.bytes(length));
    }
    println!("the check of {} single headers and of bytes of {} lengths: every way as the independent program", ALONE + HEADER * 8, lengths + 1);
}

fn median(mut times: Vec<f64>) -> f64 {
    times.sort_by(f64::total_cmp);
    times[times.len() / 2]
}

/// The ways in turns, round after round: the median of each, in nanoseconds a header.
fn medians(bytes: &[u8], rounds: usize) -> Vec<f64> {
    let mut times = vec![Vec::with_capacity(rounds); WAYS.len()];
    for _ in 0..rounds {
        for (way, (_, digest)) in WAYS.iter().enumerate() {
            let start = Instant::now();
            for _ in 0..TIMES {
                black_box(digest(black_box(bytes)));
            }
            times[way].push(start.elapsed().as_secs_f64() * 1e9 / (TIMES * HEADERS) as f64);
        }
    }
    times.into_iter().map(median).collect()
}

fn time(rounds: usize) {
    let bytes = Random(0x5EED_0003).bytes(HEADERS * HEADER);
    agree(&bytes);
    let found = medians(&bytes, rounds);
    println!("the header check: {HEADERS} headers that differ, {TIMES} times a round, {rounds} rounds in turns; medians, nanoseconds a header");
    for ((name, _), took) in WAYS.iter().zip(&found) {
        println!("  {name:<20} {took:7.2}");
    }
    println!("  bit by bit / a byte at a time           {:5.2}", found[0] / found[1]);
    println!("  a byte at a time / Rust, table of 256   {:5.2}", found[1] / found[2]);
}

fn main() {
    let arguments: Vec<String> = std::env::args().skip(1).collect();
    let words: Vec<&str> = arguments.iter().map(String::as_str).collect();
    match words[..] {
        [] => time(ROUNDS),
        ["compare"] => compare(),
        [rounds] if rounds.parse::<usize>().is_ok_and(|count| count > 0) => time(rounds.parse().unwrap()),
        _ => {
            eprintln!("usage: bench [ROUNDS | compare]");
            std::process::exit(2);
        }
    }
}
