//! How loud the sender gets. What it reads between two samples of the 8,000 a
//! second overshoots them, so at full amplitude samples can pass ±1, and a
//! receiver refuses those.
//!
//! Two figures: the largest sample of random bytes, and a bound for all bytes.
//! A sample is a weighted sum of some 66 values of a sine whose phase runs on;
//! where in them the bits end (80 ways, as 80 values are three bits) and which
//! bits they are (16 ways) fixes the phases up to the first one, and the sum is
//! largest over that one where it is the absolute value of the same sum over
//! points on the circle. The weights change with the place between two values.
//! The first samples, which have fewer values, are sent with all bits that they
//! can have.

use std::f64::consts::TAU;
use std::process::ExitCode;

use libm::{cos, sin};
use original::resample::Resampler;

use crate::cases::{bits_of, RATES};
use crate::layout::*;
use crate::oracle;
use crate::random::Random;
use crate::signal::Tones;
use crate::workers;

/// Random bytes that are sent at the fixed rates in each role.
const BYTES: usize = 400;
/// The most places between two values that are looked at.
const PLACES: u64 = 100;
/// No fewer than a sample's values.
const VALUES: usize = 68;

/// Both figures at the fixed rates, the bound at every `step`th of some, and
/// the largest amplitude with which no sample passes 1.
pub fn run(from: u32, to: u32, step: u32) -> ExitCode {
    println!("{:>6}  largest of {BYTES} bytes, and bound: dialling, picking up", "rate");
    let paths = [ORIGINATE, ANSWER].map(paths);
    for rate in RATES {
        let [a, b] = [ORIGINATE, ANSWER].map(|role| peak(rate, role));
        let [c, d] = [ORIGINATE, ANSWER].map(|role| bound(rate, role, &paths[role as usize]));
        println!("{rate:>6}  {a:.6} {c:.6}, {b:.6} {d:.6}");
    }
    let (from, to) = (from.max(8_000), to.min(48_000));
    let rates: Vec<u32> = (from..=to).step_by(step.max(1) as usize).collect();
    let bounds = workers::all(0..rates.len(), |i| {
        Ok::<_, ()>([ORIGINATE, ANSWER].map(|role| bound(rates[i], role, &paths[role as usize])))
    });
    let mut loudest = (0.0, 0);
    for (bounds, &rate) in bounds.iter().flatten().zip(&rates) {
        let both = bounds[0].max(bounds[1]);
        if both > loudest.0 {
            loudest = (both, rate);
        }
    }
    let (bound, rate) = loudest;
    println!(
        "the largest bound at {} rates from {from} to {to}: {bound:.6}, at {rate}",
        rates.len()
    );
    let there = peak(rate, ORIGINATE).max(peak(rate, ANSWER));
    println!("the largest of {BYTES} bytes there: {there:.6}");
    println!("an amplitude to {:.4} stays within 1", (10_000.0 / bound).floor() / 10_000.0);
    ExitCode::SUCCESS
}

fn peak(rate: u32, role: u32) -> f64 {
    let mut random = Random::of_case(u64::from(rate), u64::from(role));
    peak_of(rate, role, &random.bytes(BYTES), 0, BYTES * 10 * rate as usize / 300)
}

/// The largest of so many samples, behind some idle mark and these bytes.
fn peak_of(rate: u32, role: u32, data: &[u8], marks: u64, samples: usize) -> f64 {
    let reads = samples.div_ceil(1_000);
    let mut script = vec![AMPLITUDE, bits_of(1.0), IDLE_MARK, marks, WRITE, data.len() as u64];
    script.extend([READ, 1_000].repeat(reads));
    let mut samples = vec![0.0; samples];
    let mut answers = vec![0; script.len() / STEP * SENT];
    oracle::send(rate, role, data, &script, &mut samples, &mut answers);
    samples.iter().fold(0.0, |most, s| f64::from(s.abs()).max(most))
}

/// The largest of the first samples: those that four bits take, of which the
/// first is idle mark, and the others are any three.
fn first_peak(rate: u32, role: u32) -> f64 {
    let starts = [(0, 0x00), (0, 0x01), (0, 0x02), (0, 0x03), (1, 0x00), (1, 0x01), (2, 0), (3, 0)];
    let samples = 4 * rate as usize / 300;
    starts
        .iter()
        .map(|&(marks, byte)| peak_of(rate, role, &[byte], marks, samples))
        .fold(0.0, f64::max)
}

/// Points on the circle, value by value.
type Path = Vec<(f64, f64)>;

/// Every course that the phase takes over the values, from phase 0.
fn paths(role: u32) -> Vec<Path> {
    let tones = Tones::heard_by(role);
    let mut paths = Vec::new();
    for start in 0..80 {
        for bits in 0..16 {
            let mut phase = 0.0;
            paths.push(
                (0..VALUES)
                    .map(|i| {
                        let point = (cos(phase), sin(phase));
                        // The bit that the value is of, and so its tone.
                        let bit = (start + i) * 3 / 80 - start * 3 / 80;
                        let mark = bits >> bit & 1 == 1;
                        let freq = if mark { tones.own_mark } else { tones.own_space };
                        phase = (phase + TAU * freq / 8_000.0) % TAU;
                        point
                    })
                    .collect(),
            );
        }
    }
    paths
}

/// The largest sample that there can be at this rate.
fn bound(rate: u32, role: u32, paths: &[Path]) -> f64 {
    if rate == 8_000 {
        return 1.0;
    }
    let taps = &Resampler::new(8_000.0, f64::from(rate)).taps;
    let period = u64::from(rate) / greatest_divisor(u64::from(rate), 8_000);
    // All parts of a step occur that the period can be divided into.
    let places = period.min(PLACES);
    let mut largest: f64 = 0.0;
    for place in 0..places {
        let weights = weights(taps, rate, place as f64 / places as f64);
        for path in paths {
            let (mut x, mut y) = (0.0, 0.0);
            for (w, point) in weights.iter().zip(path) {
                x += w * point.0;
                y += w * point.1;
            }
            largest = largest.max(x * x + y * y);
        }
    }
    largest.sqrt().max(first_peak(rate, role))
}

fn greatest_divisor(a: u64, b: u64) -> u64 {
    if b == 0 {
        a
    } else {
        greatest_divisor(b, a % b)
    }
}

/// With which weights the values make the sample at this place.
fn weights(taps: &[f64], rate: u32, place: f64) -> [f64; VALUES] {
    let step = 8_000.0 / f64::from(rate);
    let first = (place - (taps.len() - 1) as f64 * step).floor() - 1.0;
    let mut weights = [0.0; VALUES];
    for (i, tap) in taps.iter().enumerate() {
        let at = place - i as f64 * step;
        let t = at - at.floor();
        let from = (at.floor() - 1.0 - first) as usize;
        // The original's cubic, value by value.
        weights[from] += tap * (((-0.5 * t + 1.0) * t - 0.5) * t);
        weights[from + 1] += tap * ((1.5 * t - 2.5) * t * t + 1.0);
        weights[from + 2] += tap * (((-1.5 * t + 2.0) * t + 0.5) * t);
        weights[from + 3] += tap * ((0.5 * t - 0.5) * t * t);
    }
    weights
}
