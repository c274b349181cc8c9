//! The digit test: its answers against a judge of our own, and how many instructions it takes, counted one by one.

use std::process::ExitCode;
use std::sync::atomic::{AtomicU64, Ordering};

use crate::random::Random;

#[cfg(all(feature = "port", not(feature = "slips")))]
extern "C" {
    fn morkhetta_test_digits(characters: *const u8, characters_len: usize) -> usize;
}

#[cfg(all(feature = "port", not(feature = "slips")))]
fn port_test(line: &[u8]) -> usize {
    // Safety: pointer and length come from one slice.
    unsafe { morkhetta_test_digits(line.as_ptr(), line.len()) }
}

#[cfg(any(not(feature = "port"), feature = "slips"))]
use judged as port_test;

/// Without the port the judge stands on both sides.
const OF_PORT: bool = cfg!(all(feature = "port", not(feature = "slips")));
/// How often each length is taken.
const ROUNDS: usize = 520;
/// The most that a line may take whose first character is wrong, however long it is. Measured: 22.
const MOST_AT_FIRST: u64 = 60;
/// The most that each digit before the wrong one may add. Measured: 13.
const MOST_A_DIGIT: u64 = 30;

/// "answer its place, counted from 0, or none": none is the length.
fn judged(line: &[u8]) -> usize {
    line.iter().position(|c| !b"0123456789ABCDEF".contains(c)).unwrap_or(line.len())
}

fn same(line: &[u8]) -> Result<usize, String> {
    let (judge, port) = (judged(line), port_test(line));
    if judge == port {
        return Ok(judge);
    }
    let text = String::from_utf8_lossy(line);
    Err(format!("{text:?}: {judge} by the judge, {port} by the port"))
}

/// So many digits.
fn digits(random: &mut Random, n: usize) -> Vec<u8> {
    (0..n).map(|_| random.pick(b"0123456789ABCDEF")).collect()
}

/// Each character at each place of 64 digits, lines of every length to 130 with some wrong ones, and what the walk takes; in words.
pub fn compare(seed: u64, rounds: usize) -> Result<String, String> {
    let mut random = Random::of_case(seed ^ 0x4447, 0);
    let (mut lines, mut wrong) = (0, 0);
    for place in 0..64 {
        for character in 0..=255 {
            let mut line = digits(&mut random, 64);
            line[place] = character;
            wrong += usize::from(same(&line)? < 64);
            lines += 1;
        }
    }
    for _ in 0..rounds {
        for length in 0..=130 {
            let mut line = digits(&mut random, length);
            for _ in 0..random.whole(0, 3).min(length as u32) {
                let at = random.whole(0, length as u32 - 1) as usize;
                line[at] = random.pick(b"/:@G`af\n\0\xFF 9A");
            }
            wrong += usize::from(same(&line)? < length);
            lines += 1;
        }
    }
    println!("    {}", walk()?);
    Ok(format!("{lines} lines, {wrong} with a wrong digit, 0 differences"))
}

/// Prints what lines of some lengths take, and compares as `compare` does.
pub fn run() -> ExitCode {
    println!("instructions of the digit test");
    for length in [1, 26, 64, 4_096] {
        println!("{length:5} characters, the first wrong: {:6}", steps(&wrong_at(0, length)));
        println!(
            "{length:5} characters, the last wrong:  {:6}",
            steps(&wrong_at(length - 1, length))
        );
        println!("{length:5} characters, none wrong:      {:6}", steps(&vec![b'A'; length]));
    }
    match compare(1, ROUNDS) {
        Ok(words) => {
            println!("{words}");
            ExitCode::SUCCESS
        }
        Err(words) => {
            println!("{words}");
            ExitCode::FAILURE
        }
    }
}

/// Digits, and one character that is none.
fn wrong_at(place: usize, length: usize) -> Vec<u8> {
    let mut line = vec![b'A'; length];
    line[place] = b'?';
    line
}

/// The test ends at the first wrong digit: what it takes does not depend on what is behind, and grows by a constant with each digit before.
fn walk() -> Result<String, String> {
    if !OF_PORT {
        return Ok("instructions are those of the judge".into());
    }
    let first = steps(&wrong_at(0, 64));
    let all = steps(&[b'A'; 64]);
    if first == 0 {
        return Ok("instructions can't be counted on this machine".into());
    }
    for place in 0..64 {
        let short = steps(&wrong_at(place, place + 1));
        for length in [64, 65, 1_000, 65_536] {
            let long = steps(&wrong_at(place, length));
            if short != long {
                return Err(format!(
                    "wrong at {place}: {short} instructions, but {long} of {length} characters"
                ));
            }
        }
        if short > MOST_AT_FIRST + MOST_A_DIGIT * place as u64 {
            return Err(format!("wrong at {place}: {short} instructions"));
        }
    }
    Ok(format!("the first of 64 wrong: {first} instructions; 64 digits: {all}; nothing behind the first wrong digit is walked"))
}

// ---- instructions, counted
/// The processor's trap flag: after each instruction it calls on the kernel, which sends SIGTRAP.
static STEPS: AtomicU64 = AtomicU64::new(0);

const SIGTRAP: i32 = 5;

extern "C" {
    fn signal(number: i32, handler: usize) -> usize;
}

extern "C" fn stepped(_: i32) {
    STEPS.fetch_add(1, Ordering::Relaxed);
}

/// The instructions of a call of the test, with those that call it; 0 where they can't be counted.
#[cfg(target_arch = "x86_64")]
#[inline(never)]
fn steps(line: &[u8]) -> u64 {
    use std::arch::asm;
    let handler: extern "C" fn(i32) = stepped;
    STEPS.store(0, Ordering::Relaxed);
    // Safety: the handler adds to a number and calls nothing; the flag is put back before anything else is done.
    let before = unsafe { signal(SIGTRAP, handler as usize) };
    unsafe { asm!("pushfq", "or qword ptr [rsp], 0x100", "popfq") };
    let place = port_test(line);
    unsafe { asm!("pushfq", "and qword ptr [rsp], -0x101", "popfq") };
    unsafe { signal(SIGTRAP, before) };
    std::hint::black_box(place);
    STEPS.load(Ordering::Relaxed)
}

#[cfg(not(target_arch = "x86_64"))]
fn steps(_: &[u8]) -> u64 {
    0
}
