//! Tide lines of every kind, whole and damaged.

use crate::random::Random;

/// A frame as the text of its line, without the end.
pub fn text_of(frame: &[u8]) -> Vec<u8> {
    const DIGITS: &[u8; 16] = b"0123456789ABCDEF";
    frame.iter().flat_map(|b| [b >> 4, b & 15].map(|d| DIGITS[usize::from(d)])).collect()
}

/// The byte that makes the sum divisible by 256.
fn sum_byte(frame: &[u8]) -> u8 {
    frame.iter().fold(0u8, |sum, b| sum.wrapping_add(*b)).wrapping_neg()
}

/// A good line of version 1 with its end, five minutes old.
pub fn good_line(station: u16, stamp: u32, level: i16) -> Vec<u8> {
    let mut frame = vec![1, 1, 13];
    frame.extend(station.to_be_bytes());
    frame.extend(stamp.to_be_bytes());
    frame.push(5);
    frame.extend(level.to_be_bytes());
    frame.push(sum_byte(&frame));
    let mut text = text_of(&frame);
    text.push(b'\n');
    text
}

/// A line's bytes with its end: most are good, the others fail a check each.
/// The stamps are near the newest, and once in `far` the least or greatest.
pub fn line(random: &mut Random, station: u16, newest: &mut u32, far: u32) -> Vec<u8> {
    *newest = match random.whole(0, 3) {
        0 => *newest,
        1 => newest.saturating_sub(random.whole(0, 40)),
        _ => newest.saturating_add(random.whole(0, 40)),
    };
    let later = if random.once_in(2) { 0 } else { random.whole(0, 19) as usize };
    let version = if later == 0 && random.once_in(2) { 1 } else { random.whole(2, 255) as u8 };
    let reader = if random.once_in(6) { random.whole(1, u32::from(version)) as u8 } else { 1 };
    let station = if random.once_in(10) { station ^ 1 } else { station };
    let age = random.pick(&[0, 1, 5, 5, 30, 30, 254, 255]);
    let level = random.pick(&[-32_768, -1, -1, 0, 1, 412, 412, 412, -250, 32_767, -32_767]) as i16;
    let stamp = if random.once_in(far) { random.pick(&[0, u32::MAX]) } else { *newest };
    let mut frame = vec![version, reader, 13 + later as u8];
    frame.extend(station.to_be_bytes());
    frame.extend(stamp.to_be_bytes());
    frame.push(age);
    frame.extend(level.to_be_bytes());
    frame.extend(random.bytes(later));
    frame.push(sum_byte(&frame));
    match random.whole(0, 14) {
        // The wrong length, sum, version or reader, the sum made right again.
        0 => frame[2] ^= 1,
        1 => frame[12] = frame[12].wrapping_add(1),
        2 => {
            let last = frame.len() - 1;
            frame[last] = frame[last].wrapping_add(frame[1]);
            frame[1] = 0;
        }
        _ => {}
    }
    let mut text = text_of(&frame);
    match random.whole(0, 14) {
        0 => text.make_ascii_lowercase(),
        1 => text.truncate(random.whole(0, text.len() as u32) as usize),
        2 => text.extend(random.bytes(40).iter().map(|b| if *b == b'\n' { b'0' } else { *b })),
        3 => text.push(b'\r'),
        _ => {}
    }
    text.push(b'\n');
    text
}

/// A line as a bad connection leaves it: characters changed, lost, doubled or
/// swapped, bits turned over, the end lost; or any bytes at all. It may have
/// more ends than one, or none.
pub fn damaged_line(random: &mut Random, station: u16, newest: &mut u32, far: u32) -> Vec<u8> {
    let mut text = line(random, station, newest, far);
    for _ in 0..random.whole(1, 3) {
        if text.is_empty() {
            break;
        }
        let at = random.whole(0, text.len() as u32 - 1) as usize;
        match random.whole(0, 8) {
            0 => text[at] = random.byte(),
            1 => text[at] = random.pick(b"0123456789ABCDEF"),
            2 => text[at] ^= 1 << random.whole(0, 7),
            3 => drop(text.remove(at)),
            4 => text.insert(at, text[at]),
            5 => text.swap(at, at / 2),
            6 => text.truncate(at),
            7 => text.insert(at, random.pick(b"\n\r /:@G`g\0")),
            _ => {
                let n = random.whole(0, 70) as usize;
                text = random.bytes(n);
                text.push(b'\n');
            }
        }
    }
    text
}
