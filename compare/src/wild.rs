//! K8: the bare resampler refuses a sample that is not finite or beyond 1, wherever
//! it stands; and what is proved of accepted ones asks for taps that are finite and
//! within 1, which is seen here of every rate.

use crate::cases::{TurnsCase, WILD};
use crate::difference::of_turned;
use crate::layout::*;
use crate::side::{ORIGINAL, PORT};
use crate::workers;

/// Every tap between 8,000 and each other rate, either way: the same bits on both
/// sides, finite, and within 1. The largest, and the largest sum of sizes.
pub fn taps() -> Result<String, String> {
    let seen = workers::all(0..2 * 40_000, |index| {
        let rate = 8_001 + index as u32 / 2;
        let (src, dst) = if index % 2 == 0 { (rate, 8_000) } else { (8_000, rate) };
        let case = TurnsCase { src, dst, input: vec![], script: vec![], room: 0, answers: 0 };
        let port = case.run(&PORT);
        if let Some(words) = of_turned(&case.run(&ORIGINAL), &port) {
            return Err(format!("{src} to {dst}: {words}"));
        }
        match port.state[..TAPS].iter().position(|tap| !(-1.0..=1.0).contains(tap)) {
            Some(i) => Err(format!("{src} to {dst}: tap {i} is {:e}", port.state[i])),
            None => Ok(sizes(&port.state[..TAPS])),
        }
    })?;
    let largest = seen.iter().map(|(tap, _)| *tap).fold(0.0, f64::max);
    let sum = seen.iter().map(|(_, sum)| *sum).fold(0.0, f64::max);
    Ok(format!(
        "{} pairs of rates, all finite, the largest {largest:.3}, their sizes sum to {sum:.3} at most, 0 differences",
        seen.len()
    ))
}

/// The largest size, and the sum of all.
fn sizes(taps: &[f64]) -> (f64, f64) {
    taps.iter().fold((0.0, 0.0), |(largest, sum), tap| (tap.abs().max(largest), sum + tap.abs()))
}

const PAIRS: [(u32, u32); 6] = [
    (8_000, 8_000),
    (48_000, 8_000),
    (11_025, 8_000),
    (8_000, 8_001),
    (8_000, 44_100),
    (8_000, 48_000),
];

/// Blocks with one wild sample at each place: of each kind where they are short, and
/// of one kind after the other at 2,048 samples, which is the most. Alone it gets
/// 43; 43 too where the output is too short besides; and with more samples 3.
pub fn samples() -> Result<String, String> {
    let lengths = [1, 2, 3, 7, 64, 2_048, 2_049];
    let all = workers::all(0..PAIRS.len() * lengths.len(), |index| {
        let ((src, dst), n) = (PAIRS[index / lengths.len()], lengths[index % lengths.len()]);
        let (behind, fresh) = (Calls::behind_one(src, dst), Calls::fresh(src, dst));
        let one_less = longest(src, dst, n.min(2_048)) - 1;
        let kinds = if n > 64 { 1 } else { WILD.len() };
        let number = if n > 2_048 { 3 } else { 43 };
        for i in 0..n * kinds {
            let (place, wild) = (i / kinds, WILD[i % WILD.len()]);
            let mut block = vec![0.5; n];
            block[place] = wild;
            let at = format!("{src} to {dst}, {n} samples, {wild:e} at place {place}");
            behind.check(&block, ROOM, number).map_err(|words| format!("{at}: {words}"))?;
            fresh
                .check(&block, one_less, number)
                .map_err(|words| format!("{at}, 5 too: {words}"))?;
        }
        // Without it they are taken, or get 5.
        if n <= 2_048 {
            behind.check(&vec![-1.0; n], ROOM, 0)?;
            fresh.check(&vec![1.0; n], one_less, 5)?;
        }
        Ok::<usize, String>(2 * n * kinds)
    })?;
    Ok(format!("{} calls, 0 differences", all.iter().sum::<usize>()))
}

/// `max_output_len`, as the original has it.
fn longest(src: u32, dst: u32, n: usize) -> usize {
    let mut answers = [0; TOLD];
    (ORIGINAL.max_output_len)(src, dst, &[n as u32], &mut answers);
    answers[1] as usize
}

/// A list of accepted calls, and what is left behind it.
struct Calls {
    accepted: TurnsCase,
    state: Vec<u64>,
    output: Vec<u64>,
}

/// Places for all that any of the calls writes.
const ROOM: usize = 13_000;

impl Calls {
    fn fresh(src: u32, dst: u32) -> Calls {
        Calls::of(TurnsCase { src, dst, input: vec![], script: vec![], room: ROOM, answers: 0 })
    }

    fn behind_one(src: u32, dst: u32) -> Calls {
        let mut accepted = Calls::fresh(src, dst).accepted;
        accepted.push(&[0.25, -1.0, 1.0, 0.5, -0.125]);
        Calls::of(accepted)
    }

    fn of(accepted: TurnsCase) -> Calls {
        let turned = accepted.run(&PORT);
        let (state, output) = (bits(&turned.state), bits(&turned.resampled.output));
        Calls { accepted, state, output }
    }

    /// One call more with this block, where the output has so many places, gets this
    /// number on both sides; where it is refused, nothing changes.
    fn check(&self, block: &[f64], room: usize, number: u64) -> Result<(), String> {
        let mut case = self.accepted.clone();
        case.push(block);
        case.room = room;
        let port = case.run(&PORT);
        if let Some(words) = of_turned(&case.run(&ORIGINAL), &port) {
            return Err(words);
        }
        let answers: Vec<&[u64]> = port.resampled.answers.chunks_exact(TOLD).collect();
        if answers.last().is_none_or(|answer| answer[0] != number) {
            return Err(format!("answers {answers:?}"));
        }
        let (state, output) = (bits(&port.state), bits(&port.resampled.output));
        if number != 0 && (state != self.state || output != self.output[..room]) {
            return Err(format!("refused with {number}, it changes something"));
        }
        Ok(())
    }
}

fn bits(numbers: &[f64]) -> Vec<u64> {
    numbers.iter().map(|x| x.to_bits()).collect()
}
