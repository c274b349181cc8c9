//! Stores of settings: a judge of them, written from the request alone, and the port's two functions, on random stores with good, damaged,
//! unknown and torn lines, in buffers of every length from 0 to 300 and some longer ones.

// Without the port there is nothing to compare.
#![cfg_attr(any(not(feature = "port"), feature = "slips"), allow(dead_code))]

use crate::random::Random;

const UNTOUCHED: u64 = 777_777;

#[cfg(all(feature = "port", not(feature = "slips")))]
extern "C" {
    fn morkhetta_settings_read(
        buffer: *const u8,
        buffer_len: usize,
        settings: *mut u64,
        settings_len: usize,
    ) -> u32;

    fn morkhetta_settings_write(
        buffer: *mut u8,
        buffer_len: usize,
        rate: u32,
        station: u16,
        role: u32,
    ) -> u32;
}

/// What a line says. "Damaged ones are passed over".
#[derive(Clone, Copy, PartialEq, Debug)]
enum Line {
    Good([u64; 3]),
    Unknown,
    Damaged,
}

/// The bytes that a line says, where it is whole: pairs of 0-9, A-F.
fn bytes_of(line: &[u8]) -> Option<Vec<u8>> {
    if line.len() % 2 == 1 {
        return None;
    }
    let text = std::str::from_utf8(line).ok()?;
    if !text.chars().all(|c| "0123456789ABCDEF".contains(c)) {
        return None;
    }
    let pairs = (0..text.len()).step_by(2);
    Some(pairs.map(|i| u8::from_str_radix(&text[i..i + 2], 16).expect("two digits")).collect())
}

fn judge(line: &[u8]) -> Line {
    let Some(bytes) = bytes_of(line) else {
        return Line::Damaged;
    };
    let sum: u32 = bytes.iter().map(|&b| u32::from(b)).sum();
    match bytes[..] {
        [] => Line::Damaged,
        _ if sum % 256 != 0 => Line::Damaged,
        [1, r, q, s, p, role @ 0..=1, _] => {
            let (rate, station) = (u16::from_be_bytes([r, q]), u16::from_be_bytes([s, p]));
            if (8_000..=48_000).contains(&rate) && station != 0 {
                Line::Good([u64::from(rate), u64::from(station), u64::from(role)])
            } else {
                Line::Damaged
            }
        }
        [1, ..] => Line::Damaged,
        _ => Line::Unknown,
    }
}

/// The number, and what is left in the four places.
pub fn judged_read(buffer: &[u8], places: usize) -> (u32, Vec<u64>) {
    let store = &buffer[..buffer.len().min(256)];
    let mut lines: Vec<&[u8]> = store.split(|&b| b == 10).collect();
    lines.pop();
    let kinds: Vec<Line> = lines.into_iter().map(judge).collect();
    let unknown = kinds.iter().filter(|&&k| k == Line::Unknown).count() as u64;
    let good = kinds.iter().rev().find_map(|k| match k {
        Line::Good(settings) => Some(*settings),
        _ => None,
    });
    let mut told = vec![UNTOUCHED; places];
    match good {
        None => (40, told),
        Some([rate, station, role]) => {
            if places >= 4 {
                told[..4].copy_from_slice(&[rate, station, role, unknown]);
            }
            (0, told)
        }
    }
}

/// The number, and the buffer after it.
pub fn judged_write(buffer: &[u8], rate: u32, station: u16, role: u32) -> (u32, Vec<u8>) {
    let mut after = buffer.to_vec();
    let store = &buffer[..buffer.len().min(256)];
    let at = store.iter().rposition(|&b| b == 10).map_or(0, |i| i + 1);
    if !(8_000..=48_000).contains(&rate) {
        return (1, after);
    }
    if station == 0 {
        return (2, after);
    }
    if store.len() - at < 15 {
        return (41, after);
    }
    after[at..at + 15].copy_from_slice(&good_line(rate as u16, station, role.min(1) as u8));
    (0, after)
}

/// A line's bytes with what makes the sum divisible, as characters, and 0A.
fn line_of(mut bytes: Vec<u8>) -> Vec<u8> {
    let sum = bytes.iter().fold(0u8, |sum, &b| sum.wrapping_add(b));
    bytes.push(sum.wrapping_neg());
    let mut text: String = bytes.iter().map(|b| format!("{b:02X}")).collect();
    text.push('\n');
    text.into_bytes()
}

fn good_line(rate: u16, station: u16, role: u8) -> Vec<u8> {
    let ([r, q], [s, p]) = (rate.to_be_bytes(), station.to_be_bytes());
    line_of(vec![1, r, q, s, p, role])
}

/// A line of some kind: good, or short of it by a little, or of another version, or anything.
fn some_line(random: &mut Random) -> Vec<u8> {
    let rate = random.pick(&[7_999, 8_000, 8_001, 44_100, 47_999, 48_000, 48_001, 65_535, 0]);
    let station = random.pick(&[0, 1, 7, 255, 256, 65_535]);
    let role = random.pick(&[0, 0, 0, 1, 1, 1, 2, 16, 255]);
    let sound = good_line(
        random.pick(&[8_000, 11_025, 48_000]),
        random.pick(&[1, 7, 65_535]),
        random.pick(&[0, 1]),
    );
    match random.whole(0, 9) {
        0..=2 => sound,
        3 | 4 => good_line(rate, station, role),
        5 => {
            // Another version: any bytes, appended or fewer.
            let mut bytes = few_bytes(random);
            if let Some(first) = bytes.first_mut() {
                *first = random.pick(&[0, 1, 2, 3, 255]);
            }
            line_of(bytes)
        }
        6 => {
            // One character changed.
            let mut line = sound;
            let at = random.whole(0, line.len() as u32 - 1) as usize;
            line[at] = random.pick(b"0123456789ABCDEFabcdefG/:@ \n\r\xFF\x00");
            line
        }
        7 => {
            // Torn: only the first bytes, then what an erased page has.
            let kept = random.whole(0, 14) as usize;
            let mut line = sound[..kept].to_vec();
            line.resize(15, 0xFF);
            line
        }
        8 => {
            // A digit more or fewer.
            let mut line = sound;
            let at = random.whole(0, line.len() as u32 - 1) as usize;
            if random.once_in(2) {
                line.insert(at, b'0');
            } else {
                line.remove(at);
            }
            line
        }
        _ => few_bytes(random),
    }
}

fn few_bytes(random: &mut Random) -> Vec<u8> {
    let n = random.whole(0, 9) as usize;
    random.bytes(n)
}

/// A buffer of so many bytes: lines, and behind them what an erased page has, or anything.
fn some_buffer(random: &mut Random, length: usize) -> Vec<u8> {
    let mut buffer = vec![];
    for _ in 0..random.whole(0, 22) {
        buffer.extend(some_line(random));
    }
    if random.once_in(3) {
        // Exactly 14, 15 or 16 bytes unused.
        let store = length.min(256);
        let unused = random.whole(14, 16) as usize;
        if store > unused {
            buffer.resize(store - unused - 1, 0xFF);
            buffer.push(b'\n');
        }
    }
    let fill = random.pick(&[0xFF, 0xFF, 0xFF, 0, b'0']);
    let kept = buffer.len();
    buffer.resize(length, fill);
    if length > 256 && random.once_in(2) {
        let behind = random.bytes(length - 256);
        buffer[256..].copy_from_slice(&behind);
    }
    if random.once_in(8) && kept < length {
        let at = random.whole(kept as u32, length as u32 - 1) as usize;
        buffer[at] = b'\n';
    }
    buffer
}

#[cfg(all(feature = "port", not(feature = "slips")))]
fn port_read(buffer: &[u8], places: usize) -> (u32, Vec<u64>) {
    let mut told = vec![UNTOUCHED; places];
    // Safety: each pointer and length come from one slice, and no slice overlaps another.
    let number = unsafe {
        morkhetta_settings_read(buffer.as_ptr(), buffer.len(), told.as_mut_ptr(), told.len())
    };
    (number, told)
}

#[cfg(all(feature = "port", not(feature = "slips")))]
fn port_write(buffer: &[u8], rate: u32, station: u16, role: u32) -> (u32, Vec<u8>) {
    let mut after = buffer.to_vec();
    // Safety: pointer and length come from one slice, lent to nobody else meanwhile.
    let number =
        unsafe { morkhetta_settings_write(after.as_mut_ptr(), after.len(), rate, station, role) };
    (number, after)
}

#[cfg(any(not(feature = "port"), feature = "slips"))]
use {judged_read as port_read, judged_write as port_write};

/// How often each answer was given: reads 0 and 40, writes 0, 1, 2 and 41; and unknown lines passed over.
#[derive(Default)]
struct Seen {
    reads: [usize; 2],
    writes: [usize; 4],
    unknown: u64,
    torn: usize,
}

fn same<T: PartialEq + std::fmt::Debug>(
    what: &str,
    buffer: &[u8],
    judge: T,
    port: T,
) -> Result<T, String> {
    if judge == port {
        return Ok(judge);
    }
    let text = String::from_utf8_lossy(buffer);
    Err(format!(
        "{what} of {} bytes {text:?}: {judge:?} by the judge, {port:?} by the port",
        buffer.len()
    ))
}

fn read_both(buffer: &[u8], places: usize, seen: &mut Seen) -> Result<(u32, Vec<u64>), String> {
    let told = same("read", buffer, judged_read(buffer, places), port_read(buffer, places))?;
    seen.reads[usize::from(told.0 == 40)] += 1;
    if told.0 == 0 && places >= 4 {
        seen.unknown += told.1[3];
    }
    Ok(told)
}

/// One buffer: read, written until it is full or refused, and read after each write and after each part of the last line.
fn one_buffer(random: &mut Random, length: usize, seen: &mut Seen) -> Result<(), String> {
    let mut buffer = some_buffer(random, length);
    let places = random.pick(&[4, 4, 4, 5, 3, 0]);
    read_both(&buffer, places, seen)?;
    for _ in 0..random.whole(1, 20) {
        let rate =
            random.pick(&[7_999, 8_000, 44_100, 48_000, 48_000, 48_001, 65_536 + 8_000, u32::MAX]);
        let station = random.pick(&[0, 1, 7, 7, 258, 65_535]);
        let role = random.pick(&[0, 1, 2, u32::MAX]);
        let write = same(
            &format!("write of {rate} {station} {role}"),
            &buffer,
            judged_write(&buffer, rate, station, role),
            port_write(&buffer, rate, station, role),
        )?;
        let place = [0, 1, 2, 41].iter().position(|&n| n == write.0).expect("one of the four");
        seen.writes[place] += 1;
        let before = read_both(&buffer, 4, seen)?;
        if let Some(at) =
            buffer.iter().zip(&write.1).position(|(a, b)| a != b).filter(|_| write.0 == 0)
        {
            // Power that fails in the middle: the first bytes alone.
            for end in at..write.1[..].iter().skip(at).position(|&b| b == 10).map_or(at, |i| at + i)
            {
                let mut torn = buffer.clone();
                torn[at..=end].copy_from_slice(&write.1[at..=end]);
                same("torn read", &torn, before.clone(), port_read(&torn, 4))?;
                seen.torn += 1;
            }
        }
        buffer = write.1;
        read_both(&buffer, places, seen)?;
    }
    Ok(())
}

/// The whole comparison, `rounds` times every length; what was seen, in words.
pub fn compare(seed: u64, rounds: usize) -> Result<String, String> {
    let mut seen = Seen::default();
    let mut buffers = 0;
    for round in 0..rounds {
        for length in (0..=300).chain([511, 512, 1_000, 4_096]) {
            let index = (round * 5_000 + length) as u64;
            let mut random = Random::of_case(seed ^ 0x5345, index);
            one_buffer(&mut random, length, &mut seen)
                .map_err(|words| format!("case {index} of seed {seed}: {words}"))?;
            buffers += 1;
        }
    }
    println!(
        "    reads answered 0, 40: {:?}; writes answered 0, 1, 2, 41: {:?}; {} torn; {} unknown lines",
        seen.reads, seen.writes, seen.torn, seen.unknown
    );
    Ok(format!("{buffers} buffers, 0 differences"))
}
