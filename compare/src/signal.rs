//! What may come down a line, one piece after the other.

use libm::sin;
use std::f64::consts::TAU;

use crate::layout::ORIGINATE;
use crate::random::Random;

/// Bits a second of Bell 103.
const BAUD: f64 = 300.0;

/// The tones that a receiver of this role listens to, and those of its own
/// sender, each as mark and space. Written down here once more, so that a
/// mistake in either side's table is seen.
pub struct Tones {
    pub mark: f64,
    pub space: f64,
    pub own_mark: f64,
    pub own_space: f64,
}

impl Tones {
    pub fn heard_by(role: u32) -> Tones {
        if role == ORIGINATE {
            Tones { mark: 2225.0, space: 2025.0, own_mark: 1270.0, own_space: 1070.0 }
        } else {
            Tones { mark: 1270.0, space: 1070.0, own_mark: 2225.0, own_space: 2025.0 }
        }
    }
}

/// A recording that is being made: pieces are laid behind one another.
#[derive(Clone)]
pub struct Tape {
    rate: f64,
    samples: Vec<f64>,
    /// The oscillator's, so that a tone goes on without a jump.
    phase: f64,
}

/// The shape of a wave over its phase from 0 to TAU.
#[derive(Clone, Copy)]
pub enum Wave {
    Sine,
    Square,
}

/// How a sender modulates. Its clock runs `1 + offset` times as fast as the
/// receiver's, so tones and bits are off by the same share.
#[derive(Clone, Copy)]
pub struct Modulation {
    pub mark: f64,
    pub space: f64,
    pub level: f64,
    pub offset: f64,
    pub wave: Wave,
}

impl Tape {
    pub fn new(rate: u32) -> Tape {
        Tape { rate: f64::from(rate), samples: Vec::new(), phase: 0.0 }
    }

    pub fn seconds(&self) -> f64 {
        self.samples.len() as f64 / self.rate
    }

    pub fn len(&self) -> usize {
        self.samples.len()
    }

    /// Forgets all but the first so many samples.
    pub fn truncate(&mut self, len: usize) {
        self.samples.truncate(len);
    }

    fn count(&self, seconds: f64) -> usize {
        (seconds * self.rate) as usize
    }

    pub fn silence(&mut self, seconds: f64) {
        self.hold(0.0, seconds);
    }

    /// One value, held.
    pub fn hold(&mut self, value: f64, seconds: f64) {
        let n = self.count(seconds);
        self.samples.extend(std::iter::repeat_n(value, n));
    }

    pub fn sample(&mut self, value: f64) {
        self.samples.push(value);
    }

    fn next_of_wave(&mut self, wave: Wave, freq: f64) -> f64 {
        let value = match wave {
            Wave::Sine => sin(self.phase),
            Wave::Square => {
                if self.phase < TAU / 2.0 {
                    1.0
                } else {
                    -1.0
                }
            }
        };
        self.phase += TAU * freq / self.rate;
        while self.phase >= TAU {
            self.phase -= TAU;
        }
        value
    }

    pub fn tone(&mut self, wave: Wave, freq: f64, level: f64, seconds: f64) {
        for _ in 0..self.count(seconds) {
            let value = level * self.next_of_wave(wave, freq);
            self.samples.push(value);
        }
    }

    /// Bits at 300 a second, in one unbroken phase. Keeps the part of a sample
    /// by which a bit ends late, as 8,000 / 300 is not whole.
    pub fn bits(&mut self, how: Modulation, bits: &[bool]) {
        let bit_len = self.rate / BAUD / (1.0 + how.offset);
        let mut end = self.samples.len() as f64;
        for &mark in bits {
            end += bit_len;
            let freq = if mark { how.mark } else { how.space } * (1.0 + how.offset);
            while (self.samples.len() as f64) < end {
                let value = how.level * self.next_of_wave(how.wave, freq);
                self.samples.push(value);
            }
        }
    }

    pub fn idle(&mut self, how: Modulation, bits: usize) {
        self.bits(how, &vec![true; bits]);
    }

    pub fn bytes(&mut self, how: Modulation, bytes: &[u8]) {
        for &b in bytes {
            self.bits(how, &ten_bits(b));
        }
    }

    /// A training character and idle mark, which a receiver needs to find the
    /// bits and the first byte.
    pub fn preamble(&mut self, how: Modulation) {
        self.idle(how, 30);
        self.bytes(how, &[0x55, 0x55]);
        self.idle(how, 12);
    }

    /// A short wide burst that dies away, as a telephone's hook makes.
    pub fn click(&mut self, random: &mut Random, level: f64, seconds: f64) {
        let n = self.count(seconds);
        for i in 0..n {
            let left = 1.0 - i as f64 / n as f64;
            self.samples.push(random.between(-level, level) * left * left);
        }
    }

    pub fn noise(&mut self, random: &mut Random, level: f64, seconds: f64) {
        for _ in 0..self.count(seconds) {
            self.samples.push(random.between(-level, level));
        }
    }

    /// Noise of two values: as wide as any, and short to write down.
    pub fn signs(&mut self, random: &mut Random, level: f64, seconds: f64) {
        for _ in 0..self.count(seconds) {
            self.samples.push(random.pick(&[-level, level]));
        }
    }

    /// Adds noise to all that was recorded from `from` seconds on.
    pub fn add_noise(&mut self, random: &mut Random, level: f64, from: f64) {
        let from = self.count(from).min(self.samples.len());
        for s in &mut self.samples[from..] {
            *s += random.between(-level, level);
        }
    }

    /// Adds a tone to all that was recorded from `from` seconds on.
    pub fn add_tone(&mut self, freq: f64, level: f64, from: f64) {
        let from = self.count(from).min(self.samples.len());
        let mut phase = 0.0;
        for s in &mut self.samples[from..] {
            *s += level * sin(phase);
            phase += TAU * freq / self.rate;
            while phase >= TAU {
                phase -= TAU;
            }
        }
    }

    /// Silences the line for a while.
    pub fn cut(&mut self, from: f64, seconds: f64) {
        let len = self.samples.len();
        let (from, to) = (self.count(from), self.count(from + seconds));
        self.samples[from.min(len)..to.min(len)].fill(0.0);
    }

    pub fn append(&mut self, samples: &[f32]) {
        self.samples.extend(samples.iter().map(|&s| f64::from(s)));
    }

    /// The recording as samples that a receiver accepts.
    pub fn finish(self) -> Vec<f32> {
        self.samples.iter().map(|s| s.clamp(-1.0, 1.0) as f32).collect()
    }
}

/// Start space, eight data bits lowest first, stop mark.
pub fn ten_bits(byte: u8) -> [bool; 10] {
    let mut bits = [true; 10];
    bits[0] = false;
    for i in 0..8 {
        bits[i + 1] = byte >> i & 1 == 1;
    }
    bits
}
