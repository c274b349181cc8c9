//! The sender that has no floats: a model of it, written from document 02 alone, and the port's function, on random scripts of calls; and what
//! it sends, heard by both receivers and by the board.

// Without the port there is nothing to compare.
#![cfg_attr(any(not(feature = "port"), feature = "slips"), allow(dead_code))]

use std::collections::VecDeque;

use crate::boards::BoardCase;
use crate::cases::{Cut, ReceiverCase};
use crate::compare::{check_receiver, TRAINING};
use crate::layout::*;
use crate::lines::good_line;
use crate::random::Random;
use crate::side::PORT;
use crate::workers;

#[cfg(all(feature = "port", not(feature = "slips")))]
extern "C" {
    fn morkhetta_table_send(
        role: u32,
        data: *const u8,
        data_len: usize,
        script: *const u64,
        script_len: usize,
        samples: *mut i32,
        samples_len: usize,
        answers: *mut u64,
        answers_len: usize,
    ) -> usize;
}

#[cfg(all(feature = "port", not(feature = "slips")))]
pub fn port_send(
    role: u32,
    data: &[u8],
    script: &[u64],
    samples: &mut [i32],
    answers: &mut [u64],
) -> usize {
    // Safety: each pointer and length come from one slice, and a slice that is written is lent to nobody else meanwhile.
    unsafe {
        morkhetta_table_send(
            role,
            data.as_ptr(),
            data.len(),
            script.as_ptr(),
            script.len(),
            samples.as_mut_ptr(),
            samples.len(),
            answers.as_mut_ptr(),
            answers.len(),
        )
    }
}

#[cfg(any(not(feature = "port"), feature = "slips"))]
pub use modelled_send as port_send;

// The kinds 0 and 1 are those of the port's other sender (`WRITE`, `IDLE_MARK`); any other reads.
const TABLE_READ: u64 = 2;
const MOST_SAMPLES: usize = 1_024;
const RATE: u32 = 8_000;
const UNTOUCHED: i32 = 1_234_567;
const UNTOUCHED_ANSWER: u64 = 777_777;

/// The sender as document 02 has it. Nothing is kept modulo anything.
struct Model {
    /// "1,600 signed numbers, the nearest to 32,767 times the sine of each place".
    table: Vec<i32>,
    /// Mark and space in hertz.
    tones: [u64; 2],
    waiting: VecDeque<bool>,
    in_force: bool,
    symbols: u64,
    samples: u64,
    /// The places moved on since sample 0.
    moved: u64,
}

impl Model {
    fn new(role: u32) -> Model {
        let turn = std::f64::consts::TAU;
        let place = |k: u32| (32_767.0 * (turn * f64::from(k) / 1_600.0).sin()).round() as i32;
        Model {
            table: (0..1_600).map(place).collect(),
            tones: if role == 0 { [1_270, 1_070] } else { [2_225, 2_025] },
            waiting: VecDeque::new(),
            in_force: true,
            symbols: 0,
            samples: 0,
            moved: 0,
        }
    }

    /// Bits to the queue, or 33.
    fn queue(&mut self, count: u128, bits: impl Iterator<Item = bool>) -> u64 {
        if self.waiting.len() as u128 + count > WAITING_BITS as u128 {
            return 33;
        }
        self.waiting.extend(bits);
        0
    }

    fn write(&mut self, bytes: &[u8]) -> u64 {
        let frame = |byte: &u8| {
            let byte = *byte;
            let data = (0..8).map(move |i| byte >> i & 1 == 1);
            std::iter::once(false).chain(data).chain(std::iter::once(true))
        };
        self.queue(10 * bytes.len() as u128, bytes.iter().flat_map(frame))
    }

    fn idle_mark(&mut self, n: u64) -> u64 {
        self.queue(u128::from(n), (0..n).map(|_| true))
    }

    fn read(&mut self, out: &mut [i32]) -> u64 {
        if out.len() > MOST_SAMPLES {
            return 3;
        }
        out.iter_mut().for_each(|place| *place = self.sample());
        0
    }

    fn sample(&mut self) -> i32 {
        // The first sample s with 3 s at least 80 m is 80 m / 3, rounded up.
        if self.samples == (80 * self.symbols).div_ceil(3) {
            self.in_force = self.waiting.pop_front().unwrap_or(true);
            self.symbols += 1;
        }
        let shown = self.table[(self.moved % 1_600) as usize];
        self.moved += self.tones[usize::from(!self.in_force)] / 5;
        self.samples += 1;
        shown
    }
}

/// The model behind a script, as the port's function has it.
pub fn modelled_send(
    role: u32,
    data: &[u8],
    script: &[u64],
    samples: &mut [i32],
    answers: &mut [u64],
) -> usize {
    let mut model = Model::new(role);
    let (mut read, mut written, mut calls) = (0, 0, 0);
    for (call, answer) in script.chunks_exact(STEP).zip(answers.chunks_exact_mut(SENT)) {
        let [kind, n] = [call[0], call[1]];
        let up_to = |from: usize, len: usize| from + (len - from).min(n as usize);
        let (number, value) = match kind {
            WRITE => {
                let end = up_to(read, data.len());
                let number = model.write(&data[read..end]);
                read = end;
                (number, 0)
            }
            IDLE_MARK => (model.idle_mark(n), 0),
            _ => {
                let end = up_to(written, samples.len());
                let number = model.read(&mut samples[written..end]);
                let filled = if number == 0 { end - written } else { 0 };
                written = end;
                (number, filled)
            }
        };
        answer.copy_from_slice(&[number, value as u64, u64::from(!model.waiting.is_empty())]);
        calls += 1;
    }
    calls
}

struct Case {
    role: u32,
    data: Vec<u8>,
    script: Vec<u64>,
    room: usize,
    answers: usize,
}

#[derive(PartialEq, Debug)]
struct Outcome {
    calls: usize,
    samples: Vec<i32>,
    answers: Vec<u64>,
}

impl Case {
    /// With room for everything.
    fn whole(role: u32, data: Vec<u8>, script: Vec<u64>) -> Case {
        let reads = script.chunks_exact(STEP).filter(|call| call[0] > IDLE_MARK);
        let room = reads.map(|call| call[1] as usize).sum();
        let answers = script.len() / STEP * SENT;
        Case { role, data, script, room, answers }
    }

    fn random(index: usize, random: &mut Random) -> Case {
        let cut = Cut::of(index);
        let mut script = Vec::new();
        let (mut bytes, mut places) = (0, 0);
        for _ in 0..random.whole(1, 40) {
            match random.whole(0, 9) {
                0..=2 => {
                    let n = random.pick(&[0, 1, 3, 20, 60, 150, 409, 410]);
                    script.extend([WRITE, n]);
                    bytes += n as usize;
                }
                3 => {
                    let any = u64::from(random.whole(0, 4_200));
                    let n = random.pick(&[0, 1, 7, 4_086, 4_095, 4_096, 4_097, any, u64::MAX]);
                    script.extend([IDLE_MARK, n]);
                }
                4 => {
                    let n = random.pick(&[0, 1, 1_023, 1_024, 1_025, 5_000]);
                    script.extend([random.pick(&[TABLE_READ, 3, 4, 257, u64::MAX]), n]);
                    places += n as usize;
                }
                _ => {
                    let total = random.whole(1, 9_000) as usize;
                    for n in cut.lengths(random, total, MOST_SAMPLES as u32) {
                        script.extend([TABLE_READ, u64::from(n)]);
                    }
                    places += total;
                }
            }
        }
        if random.once_in(8) {
            // A read of more than there is: what is left, 3 where that is too much.
            script.extend([TABLE_READ, u64::MAX]);
            places += random.pick(&[0, 1, 1_024, 1_025]);
        }
        if random.once_in(6) {
            script.push(random.pick(&[WRITE, TABLE_READ]));
        }
        let calls = script.len() / STEP;
        // Less than is asked for now and then.
        let bytes = random.pick(&[bytes, bytes, bytes, bytes / 2, bytes + 3]);
        let data = random.bytes(bytes);
        let room = random.pick(&[places, places, places, places / 2, places + 5]);
        let answers =
            random.pick(&[SENT * calls, SENT * calls, SENT * calls + 2, SENT * calls / 2]);
        Case { role: random.pick(&[0, 1, 1, 0, 2, u32::MAX]), data, script, room, answers }
    }

    fn run(&self, send: fn(u32, &[u8], &[u64], &mut [i32], &mut [u64]) -> usize) -> Outcome {
        let mut samples = vec![UNTOUCHED; self.room];
        let mut answers = vec![UNTOUCHED_ANSWER; self.answers];
        let calls = send(self.role, &self.data, &self.script, &mut samples, &mut answers);
        Outcome { calls, samples, answers }
    }

    /// What both gave.
    fn same(&self, name: &str) -> Result<Outcome, String> {
        let (model, port) = (self.run(modelled_send), self.run(port_send));
        if model == port {
            return Ok(model);
        }
        let sample = model.samples.iter().zip(&port.samples).position(|(a, b)| a != b);
        let answer = model.answers.iter().zip(&port.answers).position(|(a, b)| a != b);
        Err(format!(
            "{name}role {}: calls {} by the model, {} by the port; first other sample {:?}, answer {:?}",
            self.role,
            model.calls,
            port.calls,
            sample.map(|i| (i, model.samples[i], port.samples[i])),
            answer.map(|i| (i, model.answers[i], port.answers[i]))
        ))
    }
}

/// What random scripts brought about.
#[derive(Default)]
struct Seen {
    calls: usize,
    samples: u64,
    accepted: [usize; 3],
    refused_3: usize,
    refused_33: usize,
}

impl Seen {
    fn add(&mut self, case: &Case, outcome: &Outcome) {
        let calls = case.script.chunks_exact(STEP).zip(outcome.answers.chunks_exact(SENT));
        for (call, answer) in calls.take(outcome.calls) {
            self.calls += 1;
            self.samples += answer[1];
            match answer[0] {
                0 => self.accepted[call[0].min(TABLE_READ) as usize] += 1,
                3 => self.refused_3 += 1,
                _ => self.refused_33 += 1,
            }
        }
    }
}

/// One script with lent memory of each length, from none to more than it needs.
fn every_room() -> Result<usize, String> {
    let script = vec![IDLE_MARK, 2, WRITE, 2, TABLE_READ, 9, WRITE, 1, TABLE_READ, 40, 7, 3];
    let whole = Case::whole(ANSWER, vec![0x41, 0xC3, 0x0A], script);
    let mut runs = 0;
    for (data, calls) in (0..=4).flat_map(|data| (0..=12).map(move |calls| (data, calls))) {
        for (room, answers) in (0..=55).flat_map(|room| (0..=20).map(move |n| (room, n))) {
            let mut data_lent = whole.data.clone();
            data_lent.resize(data, 0x55);
            let case = Case {
                role: ANSWER,
                data: data_lent,
                script: whole.script[..calls].to_vec(),
                room,
                answers,
            };
            case.same(&format!("{data} bytes, {calls} numbers, room {room} and {answers}: "))?;
            runs += 1;
        }
    }
    Ok(runs)
}

/// A script that a host would make: it queues as room comes, and reads.
struct Host {
    data: Vec<u8>,
    script: Vec<u64>,
    /// Bits queued so far, and samples read.
    queued: u64,
    samples: u64,
    block: u64,
}

impl Host {
    fn new(block: u64) -> Host {
        Host { data: vec![], script: vec![], queued: 0, samples: 0, block }
    }

    /// The symbols that began: those whose first sample was read.
    fn begun(&self) -> u64 {
        (3 * self.samples + 77) / 80
    }

    /// Reads until no more than so many of the queued bits wait.
    fn read_down_to(&mut self, bits: u64) {
        while self.queued > self.begun() + bits {
            self.script.extend([TABLE_READ, self.block]);
            self.samples += self.block;
        }
    }

    /// Room for these bits; the symbols that were idle count as queued too.
    fn queue(&mut self, bits: u64) {
        self.read_down_to(WAITING_BITS as u64 - bits);
        self.queued = self.queued.max(self.begun()) + bits;
    }

    fn idle(&mut self, bits: u64) {
        self.queue(bits);
        self.script.extend([IDLE_MARK, bits]);
    }

    fn bytes(&mut self, bytes: &[u8]) {
        self.queue(10 * bytes.len() as u64);
        self.script.extend([WRITE, bytes.len() as u64]);
        self.data.extend(bytes);
    }

    /// Nothing is queued for so many samples or a few more.
    fn silent(&mut self, samples: u64) {
        self.read_down_to(0);
        let end = self.samples + samples;
        while self.samples < end {
            self.script.extend([TABLE_READ, self.block]);
            self.samples += self.block;
        }
    }

    fn call(block: u64) -> Host {
        let mut host = Host::new(block);
        host.idle(40);
        host.bytes(&TRAINING);
        host.idle(12);
        host
    }

    /// What the port sends, / 32,768 as f32.
    fn sent(mut self, role: u32, name: &str) -> Result<Vec<f32>, String> {
        self.idle(48);
        self.read_down_to(0);
        let outcome = Case::whole(role, self.data, self.script).same(name)?;
        if let Some(call) = outcome.answers.chunks_exact(SENT).position(|answer| answer[0] != 0) {
            return Err(format!("{name}call {call} is refused"));
        }
        Ok(outcome.samples.iter().map(|&sample| sample as f32 / 32_768.0).collect())
    }
}

const BLOCKS: [u64; 4] = [1_024, 441, 64, 7];

/// A long text with idle between, heard by both receivers: how many bytes, and in how many samples.
fn heard(index: usize, random: &mut Random) -> Result<[usize; 2], String> {
    let role = index as u32 % 2;
    let name = format!("text {index}, role {role}: ");
    let mut host = Host::call(BLOCKS[index / 2 % BLOCKS.len()]);
    let text = random.bytes(2_000);
    let mut rest = &text[..];
    while !rest.is_empty() {
        let n = random.pick(&[1, 2, 30, 409, 200]).min(rest.len());
        host.bytes(&rest[..n]);
        rest = &rest[n..];
        match random.whole(0, 3) {
            0 => host.idle(u64::from(random.whole(1, 700))),
            1 => host.silent(u64::from(random.whole(1, 9_000))),
            _ => {}
        }
    }
    let samples = host.sent(role, &name)?;
    let count = samples.len();
    let script = [1_000, 600, 100].repeat(count.div_ceil(1_000));
    let case = ReceiverCase { rate: RATE, role: 1 - role, samples, script };
    let heard = check_receiver(&case, &name).map_err(|found| found.words)?;
    let bytes: u64 = heard.answers.chunks_exact(HEARD).map(|call| call[1]).sum();
    let heard = &heard.bytes[..bytes as usize];
    if !heard.ends_with(&text) || heard.len() > TRAINING.len() + text.len() {
        return Err(format!("{name}{} bytes sent, {} heard, or others", text.len(), heard.len()));
    }
    Ok([text.len(), count])
}

/// Tide lines with idle between, heard by the board: each is shown in its turn, and the last at the end.
fn shown(index: usize, random: &mut Random) -> Result<usize, String> {
    const LINES: u32 = 24;
    let role = index as u32 % 2;
    let name = format!("lines {index}, role {role}: ");
    let mut host = Host::call(BLOCKS[index / 2 % BLOCKS.len()]);
    host.bytes(b"\n");
    let first = random.whole(1_000, 13_000_000);
    let level = |i: u32| (i as i16 - 12) * 37;
    for i in 0..LINES {
        host.bytes(&good_line(7, first + i, level(i)));
        if random.once_in(2) {
            host.silent(u64::from(random.whole(1, 9_000)));
        }
    }
    let samples = host.sent(role, &name)?;
    let lengths = vec![1_000; samples.len().div_ceil(1_000)];
    let mut answers = vec![0; JUDGED * lengths.len()];
    let mut shown = [0; SHOWN];
    (PORT.listen)(RATE, 7, 1 - role, &samples, &lengths, &mut answers, &mut shown);
    let last = [1, u64::from(first + LINES - 1 - 5), u64::from(level(LINES - 1) as u16)];
    // The training and the first 0A are one line of answer 12.
    let mut counts = [0; COUNTS];
    (counts[0], counts[2]) = (u64::from(LINES), 1);
    if shown[..3] != last || shown[3..] != counts {
        return Err(format!("{name}shown {shown:?}, not {last:?} and {counts:?}"));
    }
    BoardCase::whole(RATE, 7, 1 - role, samples, lengths)
        .seen()
        .map_err(|words| format!("{name}{words}"))?;
    Ok(LINES as usize)
}

/// The whole comparison, on so many random scripts; what was seen, in words.
pub fn compare(seed: u64, cases: usize) -> Result<String, String> {
    let random = |salt: u64, index: usize| Random::of_case(seed ^ salt, index as u64);
    let outcomes = workers::all(0..cases, |index| {
        let case = Case::random(index, &mut random(0x5442, index));
        let outcome = case.same(&format!("case {index} of seed {seed}: "))?;
        let mut seen = Seen::default();
        seen.add(&case, &outcome);
        Ok::<_, String>(seen)
    })?;
    let sum = |of: fn(&Seen) -> usize| outcomes.iter().map(of).sum::<usize>();
    let [threes, full] = [sum(|seen| seen.refused_3), sum(|seen| seen.refused_33)];
    println!(
        "    {} calls, {} samples; writes, idle marks, reads accepted: {:?}; refused 3, 33: {:?}",
        sum(|seen| seen.calls),
        sum(|seen| seen.samples as usize),
        [sum(|seen| seen.accepted[0]), sum(|seen| seen.accepted[1]), sum(|seen| seen.accepted[2])],
        [threes, full]
    );
    if cases >= 100 && (threes == 0 || full == 0) {
        return Err("no refusal 3, or no 33".into());
    }
    let rooms = every_room()?;
    let texts = workers::all(0..16, |index| heard(index, &mut random(0x5448, index)))?;
    let lines = workers::all(0..8, |index| shown(index, &mut random(0x544C, index)))?;
    let [bytes, samples] = [0, 1].map(|i| texts.iter().map(|text| text[i]).sum::<usize>());
    println!(
        "    {} texts, {bytes} bytes in {samples} samples, all heard by both receivers; {} tide lines, all shown",
        texts.len(),
        lines.iter().sum::<usize>()
    );
    Ok(format!("{cases} scripts, {rooms} with memory of each length, 0 differences"))
}
