//! Lists of calls, drawn at random, and what either side answers to them.
//!
//! The slices that a side writes are filled beforehand with values that no
//! call writes, and are compared whole: so a place that ought to be left alone
//! is seen too.

use crate::layout::*;
use crate::random::Random;
use crate::scenes::{Kind, Manners};
use crate::side::Side;

/// What lent memory holds beforehand.
const UNTOUCHED_BYTE: u8 = 0xA5;
const UNTOUCHED: f64 = 1234.5;
const UNTOUCHED_ANSWER: u64 = 777_777;

pub const RATES: [u32; 10] =
    [8_000, 8_001, 9_999, 11_025, 16_000, 22_050, 32_000, 44_100, 47_999, 48_000];
const BLOCKS: [u32; 5] = [1, 7, 64, 441, 1_024];

/// The rate of case `index`: each of the fixed ones in turn, then random ones.
pub fn rate_of(index: usize, random: &mut Random) -> u32 {
    match RATES.get(index % (RATES.len() + 3)) {
        Some(&rate) => rate,
        None => random.whole(8_000, 48_000),
    }
}

/// How a recording is cut into calls.
#[derive(Clone, Copy)]
pub enum Cut {
    Even(u32),
    Random,
    /// With empty calls, and once in a while one that is too long.
    Rough,
}

impl Cut {
    /// The cut of case `index`: each of the even ones in turn, then the others.
    pub fn of(index: usize) -> Cut {
        match index % (BLOCKS.len() + 2) {
            5 => Cut::Random,
            6 => Cut::Rough,
            i => Cut::Even(BLOCKS[i]),
        }
    }

    /// The next call's length, where `limit` is the most that is accepted.
    fn next(self, random: &mut Random, limit: u32) -> u32 {
        match self {
            Cut::Even(n) => n,
            Cut::Random => random.whole(1, limit),
            Cut::Rough => match random.whole(0, 30) {
                0..=5 => 0,
                6 => random.whole(limit + 1, limit + 100),
                7..=8 => limit,
                _ => random.whole(1, limit / 3),
            },
        }
    }

    pub fn lengths(self, random: &mut Random, total: usize, limit: u32) -> Vec<u32> {
        let mut lengths = Vec::new();
        let mut left = total;
        while left > 0 {
            let n = self.next(random, limit).min(left as u32);
            lengths.push(n);
            left -= n as usize;
        }
        lengths
    }
}

#[derive(Clone)]
pub struct ReceiverCase {
    pub rate: u32,
    pub role: u32,
    pub samples: Vec<f32>,
    pub script: Vec<u32>,
}

/// What a receiver answered, call by call, and its state at the end.
pub struct Heard {
    pub calls: usize,
    pub bytes: Vec<u8>,
    pub events: Vec<u8>,
    pub answers: Vec<u64>,
    pub state: Vec<f64>,
}

impl ReceiverCase {
    pub fn random(index: usize, kind: &Kind, random: &mut Random) -> ReceiverCase {
        let rate = rate_of(index, random);
        let role = random.whole(ORIGINATE, ANSWER);
        let scene = kind.scene(random, rate, role);
        let manners = scene.manners.unwrap_or_else(|| {
            random.pick(&[Manners::All, Manners::All, Manners::Few, Manners::Nothing])
        });
        let lengths = Cut::of(index).lengths(random, scene.samples.len(), 1_024);
        ReceiverCase {
            rate,
            role,
            samples: scene.samples,
            script: script(&lengths, manners, random),
        }
    }

    pub fn run(&self, side: &Side) -> Heard {
        let mut heard = Heard {
            calls: 0,
            bytes: vec![UNTOUCHED_BYTE; self.samples.len() / 10 + 700],
            events: vec![UNTOUCHED_BYTE; self.samples.len() / 1_000 + 130],
            answers: vec![UNTOUCHED_ANSWER; self.script.len() / CALL * HEARD],
            state: vec![UNTOUCHED; STATE_LEN + 1],
        };
        heard.calls = (side.receive)(
            self.rate,
            self.role,
            &self.samples,
            &self.script,
            &mut heard.bytes,
            &mut heard.events,
            &mut heard.answers,
        );
        (side.receiver_state)(self.rate, self.role, &self.samples, &self.script, &mut heard.state);
        heard
    }
}

/// The calls of a script; a last one reads and drains what is left.
fn script(lengths: &[u32], manners: Manners, random: &mut Random) -> Vec<u32> {
    let mut script = Vec::with_capacity(lengths.len() * CALL + CALL);
    for (i, &n) in lengths.iter().enumerate() {
        let late = i * 20 > lengths.len() * 19;
        let (bytes, events) = match manners {
            Manners::All => (600, 100),
            Manners::Few if random.once_in(20) => (random.whole(0, 4), random.whole(0, 2)),
            Manners::Late if late && random.once_in(3) => (random.whole(0, 9), 1),
            _ => (0, 0),
        };
        script.extend([n, bytes, events]);
    }
    script.extend([0, 600, 100]);
    script
}

#[derive(Clone)]
pub struct ResamplerCase {
    pub src: u32,
    pub dst: u32,
    pub input: Vec<f64>,
    pub lengths: Vec<u32>,
    /// Places of the output.
    pub room: usize,
    /// Places of the answers.
    pub answers: usize,
}

pub struct Resampled {
    pub calls: usize,
    pub output: Vec<f64>,
    pub answers: Vec<u64>,
}

impl ResamplerCase {
    pub fn random(index: usize, random: &mut Random) -> ResamplerCase {
        let rate = rate_of(index, random);
        let (src, dst) = if random.once_in(2) { (rate, 8_000) } else { (8_000, rate) };
        let total = random.whole(0, 6_000) as usize;
        let input = samples_and_wild_ones(total, random);
        // The limit is twice a receiver's, so even blocks are doubled as well.
        let lengths = match Cut::of(index) {
            Cut::Even(n) if random.once_in(2) => Cut::Even(2 * n),
            cut => cut,
        }
        .lengths(random, total, 2_048);
        let enough = total * dst as usize / src as usize + 2 * lengths.len() + 4;
        // Too short now and then: some call is then refused with 5.
        let room = if random.once_in(6) { enough * 2 / 3 } else { enough };
        // One or two too few now and then: the last call is then not run; or one too many.
        let answers = match random.whole(0, 7) {
            0 => (TOLD * lengths.len()).saturating_sub(1),
            1 => (TOLD * lengths.len()).saturating_sub(2),
            2 => TOLD * lengths.len() + 1,
            _ => TOLD * lengths.len(),
        };
        ResamplerCase { src, dst, input, lengths, room, answers }
    }

    pub fn run(&self, side: &Side) -> Resampled {
        let mut resampled = Resampled {
            calls: 0,
            output: vec![UNTOUCHED; self.room],
            answers: vec![UNTOUCHED_ANSWER; self.answers],
        };
        resampled.calls = (side.resample)(
            self.src,
            self.dst,
            &self.input,
            &self.lengths,
            &mut resampled.output,
            &mut resampled.answers,
        );
        resampled
    }
}

/// A resampler's calls and resets between them, and its state behind them.
#[derive(Clone)]
pub struct TurnsCase {
    pub src: u32,
    pub dst: u32,
    pub input: Vec<f64>,
    pub script: Vec<u32>,
    /// Places of the output and of the answers.
    pub room: usize,
    pub answers: usize,
}

pub struct Turned {
    pub resampled: Resampled,
    pub state: Vec<f64>,
}

impl TurnsCase {
    /// The calls of a case with a reset behind some of them, and none behind
    /// some place.
    pub fn random(case: &ResamplerCase, random: &mut Random) -> TurnsCase {
        let mut script = Vec::new();
        let share = random.pick(&[2, 10, 1_000]);
        for &len in &case.lengths {
            script.extend([PROCESS, len]);
            if random.once_in(share) {
                script.extend([random.pick(&[1, 2, u32::MAX]), random.pick(&[0, 1, 5_000])]);
            }
        }
        script.truncate(random.whole(0, script.len() as u32) as usize);
        let answers = script.len() / TURN * TOLD;
        let (src, dst, input, room) = (case.src, case.dst, case.input.clone(), case.room);
        TurnsCase { src, dst, input, script, room, answers }
    }

    pub fn run(&self, side: &Side) -> Turned {
        let mut output = vec![UNTOUCHED; self.room];
        let mut answers = vec![UNTOUCHED_ANSWER; self.answers];
        let mut state = vec![UNTOUCHED; RESAMPLER_LEN + 1];
        let calls = (side.resampler_state)(
            self.src,
            self.dst,
            &self.input,
            &self.script,
            &mut output,
            &mut answers,
            &mut state,
        );
        Turned { resampled: Resampled { calls, output, answers }, state }
    }
}

/// Samples that the bare resampler refuses, just beyond 1 and far beyond it,
/// infinities and NaN of several bits.
pub const WILD: [f64; 12] = [
    f64::NAN,
    f64::from_bits(0xFFF8_0000_0000_0000),
    f64::from_bits(0x7FF0_0000_0000_0001),
    f64::from_bits(0xFFFF_FFFF_FFFF_FFFF),
    f64::INFINITY,
    f64::NEG_INFINITY,
    1.0 + f64::EPSILON,
    -1.0 - f64::EPSILON,
    1.5,
    -2.0,
    f64::MAX,
    f64::MIN,
];

/// Samples that it takes at the edges of what it takes.
const EDGES: [f64; 9] =
    [0.0, -0.0, 1.0, -1.0, 5e-324, -5e-324, 1.0 - f64::EPSILON / 2.0, 1e-308, -1e-300];

/// Samples for the bare resampler, in some cases with wild ones among them.
fn samples_and_wild_ones(total: usize, random: &mut Random) -> Vec<f64> {
    let share = random.pick(&[0, 0, 2_000, 300, 10]);
    let edges = random.pick(&[1_000, 30, 2]);
    let level = random.level(1e-6, 1.0);
    let mut held = 0.0;
    (0..total)
        .map(|_| {
            if share > 0 && random.once_in(share) {
                random.pick(&WILD)
            } else if random.once_in(edges) {
                random.pick(&EDGES)
            } else if random.once_in(5) {
                held
            } else {
                held = random.between(-level, level);
                held
            }
        })
        .collect()
}

#[derive(Clone)]
pub struct SenderCase {
    pub rate: u32,
    pub role: u32,
    pub data: Vec<u8>,
    pub script: Vec<u64>,
    /// Places of the samples.
    pub room: usize,
    /// Places of the answers.
    pub answers: usize,
}

pub struct Sent {
    pub steps: usize,
    pub samples: Vec<f32>,
    pub answers: Vec<u64>,
}

/// A sender's steps, and its state behind them.
pub struct Stopped {
    pub sent: Sent,
    pub state: Vec<f64>,
}

impl SenderCase {
    /// With room for every answer.
    pub fn whole(rate: u32, role: u32, data: Vec<u8>, script: Vec<u64>, room: usize) -> SenderCase {
        let answers = script.len() / STEP * SENT;
        SenderCase { rate, role, data, script, room, answers }
    }

    pub fn random(index: usize, random: &mut Random) -> SenderCase {
        let rate = rate_of(index, random);
        let role = random.whole(ORIGINATE, ANSWER);
        let cut = Cut::of(index);
        let mut script = vec![AMPLITUDE, bits_of(first_amplitude(random))];
        let (mut bytes, mut samples) = (0, 0);
        // Seldom or little enough that the queue runs empty at times, and full at others.
        let most_bytes = random.pick(&[1, 3, 20]);
        let steps_a_write = match cut {
            Cut::Even(1) => 1_500,
            Cut::Even(7) => 300,
            _ => 40,
        };
        while samples < u64::from(rate) / 2 {
            let [kind, n] = match random.whole(0, steps_a_write) {
                0..=1 => [WRITE, number(random, 0, most_bytes)],
                2 => [IDLE_MARK, number(random, 0, 3 * most_bytes)],
                3 => refusable_step(random),
                4 => [random.pick(&[SAMPLES_FOR_BITS, 5, 1 << 32, u64::MAX]), 3],
                5 => [SAMPLES_FOR_BITS, number(random, 0, 3_000)],
                _ => [READ, u64::from(cut.next(random, 1_024))],
            };
            bytes += if kind == WRITE { n } else { 0 };
            samples += if kind == READ { n } else { 0 };
            script.extend([kind, n]);
        }
        // Steps that take all that is left, and half a step.
        let (data, room) = (random.bytes(bytes as usize + 30), samples as usize + 30);
        if random.once_in(3) {
            script.extend([READ, u64::MAX, WRITE, u64::MAX, READ, 1]);
        }
        if random.once_in(4) {
            script.push(READ);
        }
        // Too few bytes, places or answers now and then.
        let data = if random.once_in(8) { data[..data.len() / 2].to_vec() } else { data };
        let room = if random.once_in(8) { room * 2 / 3 } else { room };
        let case = SenderCase::whole(rate, role, data, script, room);
        let answers = match random.whole(0, 9) {
            0 => case.answers.saturating_sub(1),
            1 => case.answers / 2,
            2 => case.answers + 2,
            _ => case.answers,
        };
        SenderCase { answers, ..case }
    }

    pub fn run(&self, side: &Side) -> Sent {
        let mut sent = Sent {
            steps: 0,
            samples: vec![UNTOUCHED as f32; self.room],
            answers: vec![UNTOUCHED_ANSWER; self.answers],
        };
        sent.steps = (side.send)(
            self.rate,
            self.role,
            &self.data,
            &self.script,
            &mut sent.samples,
            &mut sent.answers,
        );
        sent
    }

    /// The same steps, through the function that shows the state too.
    pub fn stop(&self, side: &Side) -> Stopped {
        let mut samples = vec![UNTOUCHED as f32; self.room];
        let mut answers = vec![UNTOUCHED_ANSWER; self.answers];
        let mut state = vec![UNTOUCHED; SENDER_LEN + 1];
        let steps = (side.sender_state)(
            self.rate,
            self.role,
            &self.data,
            &self.script,
            &mut samples,
            &mut answers,
            &mut state,
        );
        Stopped { sent: Sent { steps, samples, answers }, state }
    }

    /// The first steps alone, so that the state is seen with bits waiting too.
    pub fn cut_short(&self, random: &mut Random) -> SenderCase {
        let steps = random.whole(0, (self.script.len() / STEP) as u32) as usize;
        SenderCase { script: self.script[..steps * STEP].to_vec(), ..self.clone() }
    }
}

fn number(random: &mut Random, low: u32, high: u32) -> u64 {
    u64::from(random.whole(low, high))
}

/// An amplitude as the number of a step.
pub fn bits_of(amplitude: f32) -> u64 {
    u64::from(amplitude.to_bits())
}

fn first_amplitude(random: &mut Random) -> f32 {
    let any = random.between(0.0, 1.0) as f32;
    random.pick(&[0.0, 1.0, 0.02, any])
}

/// A step at or past one of the sender's limits.
fn refusable_step(random: &mut Random) -> [u64; STEP] {
    let amplitude = |a: f32| [AMPLITUDE, bits_of(a)];
    match random.whole(0, 13) {
        0 => amplitude(1.0000001),
        1 => amplitude(f32::NAN),
        2 => amplitude(-1e-9),
        3 => amplitude(-0.0),
        4 => amplitude(random.between(0.0, 1.0) as f32),
        5 => amplitude(random.pick(&[f32::INFINITY, f32::NEG_INFINITY, 1e-45, 1.0])),
        // Only the lowest 32 bits count.
        6 => [AMPLITUDE, bits_of(0.25) + (7 << 32)],
        7 => [SAMPLES_FOR_BITS, 1_048_576 + number(random, 0, 1)],
        8 => [SAMPLES_FOR_BITS, u64::MAX],
        9 => [IDLE_MARK, number(random, 4_000, 4_200)],
        10 => [IDLE_MARK, random.pick(&[u64::MAX, 1 << 32, u64::MAX - 4_000])],
        11..=12 => [WRITE, number(random, 350, 430)],
        _ => [READ, number(random, 1_020, 1_030)],
    }
}
