//! The time of both sides on the same calls, as a ratio of medians.
//!
//! Each run is a whole list of calls from a fresh state, as the C functions
//! have it, so making the filter is in it (some 30 microseconds of many
//! milliseconds). The original runs bare, without document 01's refusals, which
//! the port does test. Buffers are made beforehand. Runs of the two sides take
//! turns, and turns at going first, so that what slows the machine down slows
//! both.

use std::process::ExitCode;

use original::resample::Resampler;
use original::rx::Rx;
use original::tx::Tx;

use crate::cases::bits_of;
use crate::clock;
use crate::judge::Judge;
use crate::layout::*;
use crate::oracle::config;
use crate::port;
use crate::random::Random;
use crate::side::PORT;
use crate::signal::{Modulation, Tape, Tones, Wave};
use crate::table;

/// An odd number, for the median.
const RUNS: usize = 31;
/// Seconds of line in one list of calls.
const LINE: u32 = 1;
/// A run repeats its list of calls until it takes about this long.
const LONG_ENOUGH: f64 = 0.02;

/// Those of the rows that begin with this word, all where it is empty.
pub fn run(part: &str) -> ExitCode {
    println!("median of {RUNS} runs in turns, nanoseconds a sample; port = {}", PORT.name);
    println!("{:42} {:>9} {:>9} {:>7} {:>9}", "", "original", "port", "ratio", "(fastest)");
    let wanted = |name: &str| name.starts_with(part);
    if wanted("resampler") {
        for (src, dst) in [(48_000, 8_000), (8_000, 48_000), (44_100, 8_000), (8_000, 44_100)] {
            resampler(src, dst, 1_024);
        }
    }
    if wanted("receiver") {
        for rate in [8_000, 44_100, 48_000] {
            for block in [1_024, 64] {
                receiver(rate, block);
            }
        }
    }
    if wanted("sender") {
        for rate in [8_000, 8_001, 11_025, 22_050, 44_100, 48_000] {
            for block in [1_024, 441, 64] {
                sender(rate, block);
            }
        }
    }
    if wanted("table sender") {
        for block in [1_024, 64] {
            table_sender(block);
        }
    }
    if wanted("board") {
        for rate in [8_000, 44_100, 48_000] {
            for block in [1_024, 64] {
                board(rate, block);
            }
        }
    }
    ExitCode::SUCCESS
}

/// The sender in blocks of 64 at each rate that is so many above another, from
/// the lowest to the highest, and the largest ratio of medians among them.
pub fn rates(apart: usize) -> ExitCode {
    println!("median of {RUNS} runs in turns, nanoseconds a sample; port = {}", PORT.name);
    let (mut slowest, mut at) = (0.0, 0);
    for rate in (8_000..=48_000).step_by(apart) {
        let ratio = sender(rate, 64);
        if slowest < ratio {
            (slowest, at) = (ratio, rate);
        }
    }
    println!("the largest ratio: {slowest:.3}, at {at}");
    ExitCode::SUCCESS
}

/// Such a text again and again for so many seconds, on a line that is heard well.
fn line(rate: u32, text: &[u8], seconds: u32) -> Vec<f32> {
    let tones = Tones::heard_by(ORIGINATE);
    let how = Modulation {
        mark: tones.mark,
        space: tones.space,
        level: 0.3,
        offset: 0.0,
        wave: Wave::Sine,
    };
    let mut tape = Tape::new(rate);
    tape.preamble(how);
    while tape.seconds() < f64::from(seconds) {
        tape.bytes(how, text);
    }
    tape.finish()
}

fn resampler(src: u32, dst: u32, block: u32) {
    let mut random = Random::new(1);
    let input: Vec<f64> = (0..src * LINE).map(|_| random.between(-1.0, 1.0)).collect();
    let lengths = vec![block; input.len().div_ceil(block as usize)];
    let mut output = vec![0.0; (dst * LINE) as usize + 2 * lengths.len()];
    let mut answers = vec![0; TOLD * lengths.len()];
    let mut original_output = output.clone();
    measure(
        &format!("resampler {src} to {dst}, blocks of {block}"),
        input.len(),
        &mut || {
            let mut resampler = Resampler::new(f64::from(src), f64::from(dst));
            let mut at = 0;
            for block in input.chunks(block as usize) {
                at += resampler.process(block, &mut original_output[at..]);
            }
        },
        &mut || {
            port::resample(src, dst, &input, &lengths, &mut output, &mut answers);
        },
    );
}

fn receiver(rate: u32, block: u32) {
    let samples = line(rate, b"TIDE", LINE);
    let script = [block, 600, 100].repeat(samples.len().div_ceil(block as usize));
    let (mut bytes, mut events) = (vec![0; 1_000], vec![0; 100]);
    let mut answers = vec![0; script.len() / CALL * HEARD];
    let mut original_bytes = vec![0; 600];
    let mut seen = 0;
    measure(
        &format!("receiver at {rate}, blocks of {block}"),
        samples.len(),
        &mut || {
            let mut rx = Rx::new(config(rate, ORIGINATE));
            for block in samples.chunks(block as usize) {
                rx.write(block);
                seen += rx.read(&mut original_bytes);
                while rx.events().is_some() {
                    seen += 1;
                }
                seen += usize::from(rx.carrier_detected()) + rx.framing_errors();
            }
        },
        &mut || {
            port::receive(
                rate,
                ORIGINATE,
                &samples,
                &script,
                &mut bytes,
                &mut events,
                &mut answers,
            );
        },
    );
    // The original's answers count as used.
    std::hint::black_box(seen);
}

fn sender(rate: u32, block: usize) -> f64 {
    let mut samples = vec![0.0; (rate * LINE) as usize];
    let mut script = vec![AMPLITUDE, bits_of(0.5), WRITE, 60];
    script.extend([READ, block as u64].repeat(samples.len().div_ceil(block)));
    let mut answers = vec![0; script.len() / STEP * SENT];
    let mut original_samples = samples.clone();
    let data = [0x35; 60];
    let mut waits = 0;
    let ratio = measure(
        &format!("sender at {rate}, blocks of {block}"),
        samples.len(),
        &mut || {
            let mut tx = Tx::new(config(rate, ORIGINATE));
            tx.set_amplitude(0.5);
            tx.write(&data);
            for block in original_samples.chunks_mut(block) {
                tx.read(block);
                waits += usize::from(tx.pending());
            }
        },
        &mut || {
            port::send(rate, ORIGINATE, &data, &script, &mut samples, &mut answers);
        },
    );
    std::hint::black_box(waits);
    ratio
}

/// The sender that has no floats against the original's at 8,000.
fn table_sender(block: usize) {
    let count = (8_000 * LINE) as usize;
    let (mut samples, mut original_samples) = (vec![0; count], vec![0.0; count]);
    let mut script = vec![WRITE, 60];
    script.extend([READ, block as u64].repeat(count.div_ceil(block)));
    let mut answers = vec![0; script.len() / STEP * SENT];
    let data = [0x35; 60];
    let mut waits = 0;
    measure(
        &format!("table sender, blocks of {block}"),
        count,
        &mut || {
            let mut tx = Tx::new(config(8_000, ORIGINATE));
            tx.write(&data);
            for block in original_samples.chunks_mut(block) {
                tx.read(block);
                waits += usize::from(tx.pending());
            }
        },
        &mut || {
            table::port_send(ORIGINATE, &data, &script, &mut samples, &mut answers);
        },
    );
    std::hint::black_box(waits);
}

/// The board against the original's receiver with the judge of `judge.rs`
/// behind it, which is not the Rust's but ours.
fn board(rate: u32, block: u32) {
    // Two whole lines at least.
    let samples = line(rate, b"01010D000700C0000005019C88\n", 3 * LINE);
    let lengths = vec![block; samples.len().div_ceil(block as usize)];
    let mut answers = vec![0; JUDGED * lengths.len()];
    let mut shown = [0; SHOWN];
    let mut bytes = [0; 600];
    let mut judged = 0;
    measure(
        &format!("board at {rate}, blocks of {block}"),
        samples.len(),
        &mut || {
            let mut rx = Rx::new(config(rate, ORIGINATE));
            let mut judge = Judge::new(7);
            for block in samples.chunks(block as usize) {
                rx.write(block);
                let heard = rx.read(&mut bytes);
                for &byte in &bytes[..heard] {
                    judged += judge.byte(byte).unwrap_or(0);
                }
            }
        },
        &mut || {
            port::listen(rate, 7, ORIGINATE, &samples, &lengths, &mut answers, &mut shown);
        },
    );
    assert_eq!(shown[0], 1, "the board heard its line");
    std::hint::black_box(judged);
}

/// Runs both in turns, prints a line and gives the ratio of the medians.
fn measure(name: &str, samples: usize, original: &mut dyn FnMut(), port: &mut dyn FnMut()) -> f64 {
    // The first ones touch the memory and tell how long a list takes.
    seconds(port, 1);
    seconds(original, 1);
    let lists = (LONG_ENOUGH / seconds(original, 1)).ceil() as usize;
    let (mut of_original, mut of_port) = (Vec::new(), Vec::new());
    for turn in 0..RUNS {
        if turn % 2 == 0 {
            of_original.push(seconds(original, lists));
            of_port.push(seconds(port, lists));
        } else {
            of_port.push(seconds(port, lists));
            of_original.push(seconds(original, lists));
        }
    }
    let nanoseconds = |seconds: f64| seconds / samples as f64 * 1e9;
    let ratio = median(&of_port) / median(&of_original);
    println!(
        "{name:42} {:>9.1} {:>9.1} {ratio:>7.3} {:>9.3}",
        nanoseconds(median(&of_original)),
        nanoseconds(median(&of_port)),
        fastest(&of_port) / fastest(&of_original)
    );
    ratio
}

/// The time of one list of calls, as the mean of several.
fn seconds(list: &mut dyn FnMut(), lists: usize) -> f64 {
    let begun = clock::now();
    for _ in 0..lists {
        list();
    }
    (clock::now() - begun) / lists as f64
}

fn median(list: &[f64]) -> f64 {
    let mut list = list.to_vec();
    list.sort_by(f64::total_cmp);
    list[list.len() / 2]
}

fn fastest(list: &[f64]) -> f64 {
    list.iter().copied().fold(f64::INFINITY, f64::min)
}
