//! The original, driven through whole lists of calls, each from a fresh state.
//!
//! Slices in and slices out, with the same parameters as the port's C
//! functions (`port.rs`). The original neither refuses nor bounds its queues;
//! the refusals here are document 01's, in ascending order, and K8's, and a
//! refused call never reaches the original. The crate `again` compiles this file over its
//! own copy of the original.

use original::carrier::Event;
use original::frame::{frame_byte, Deframer};
use original::nco::Goertzel;
use original::resample::Resampler;
use original::rx::Rx;
use original::tx::Tx;
use original::{Config, Duplex, Role};

use crate::layout::*;

/// Document 01's limits.
const SLOWEST: u32 = 8_000;
const FASTEST: u32 = 48_000;
const MOST_RESAMPLED: usize = 2_048;
const MOST_SAMPLES: usize = 1_024;
const MOST_ACCEPTED: u64 = 4_294_967_296;
const MOST_WAITING_BYTES: usize = 409;
const MOST_BYTES: u32 = 512;
const MOST_EVENTS: u32 = 64;
const MOST_WAITING_BITS: u64 = WAITING_BITS as u64;
const MOST_BITS_ASKED: u64 = 1_048_576;

pub fn rate_fits(rate: u32) -> bool {
    (SLOWEST..=FASTEST).contains(&rate)
}

fn rates_fit(src: u32, dst: u32) -> bool {
    rate_fits(src) && rate_fits(dst) && (src == SLOWEST || dst == SLOWEST)
}

/// The `len` elements from `at` on, or those that are left.
pub fn part<T>(all: &[T], at: usize, len: u32) -> &[T] {
    let rest = &all[at.min(all.len())..];
    &rest[..rest.len().min(len as usize)]
}

/// What a call gives, or the number of its refusal.
type Answer = Result<u64, u64>;

/// An answer as `layout::TOLD` numbers.
fn tell(answer: Answer, told: &mut [u64]) {
    let (number, count) = match answer {
        Ok(count) => (0, count),
        Err(number) => (number, 0),
    };
    told.copy_from_slice(&[number, count]);
}

/// The frame of each byte, as long as there is room for ten bits. Returns the
/// number of frames.
pub fn frame_bytes(bytes: &[u8], bits: &mut [u8]) -> usize {
    let mut frames = 0;
    for (&byte, ten) in bytes.iter().zip(bits.chunks_exact_mut(FRAME)) {
        ten.copy_from_slice(&frame_byte(byte).map(u8::from));
        frames += 1;
    }
    frames
}

/// A deframer in any state, and one `push_bit` for each bit (0 is space), as
/// long as there is room for an answer (`layout::PUSHED`). Returns the number of
/// bits pushed.
pub fn deframe(
    in_frame: u32,
    bit_count: u32,
    acc: u32,
    errors: u32,
    bits: &[u8],
    answers: &mut [u64],
) -> usize {
    let mut deframer = Deframer {
        in_frame: in_frame != 0,
        bit_count: bit_count as u8,
        acc: acc as u8,
        errors: errors as usize,
    };
    let mut pushed = 0;
    for (&bit, answer) in bits.iter().zip(answers.chunks_exact_mut(PUSHED)) {
        let before = deframer.errors;
        let byte = deframer.push_bit(bit != 0);
        // The Rust says no byte for both; its error count tells them apart.
        let kind = match byte {
            Some(_) => BYTE,
            None if deframer.errors > before => BAD_STOP,
            None => WAITING,
        };
        // "The error count holds at 4,294,967,295."
        deframer.errors = deframer.errors.min(u32::MAX as usize);
        answer.copy_from_slice(&[
            kind,
            u64::from(byte.unwrap_or(0)),
            u64::from(deframer.in_frame),
            u64::from(deframer.bit_count),
            u64::from(deframer.acc),
            deframer.errors as u64,
        ]);
        pushed += 1;
    }
    pushed
}

/// One `process` call for each length, as long as there is room for an answer
/// (`layout::TOLD`). A call takes the next samples of the input, or what is
/// left of it, and its output stands behind the earlier ones. Returns the
/// number of calls run; where the rates are refused that is 0 and nothing is
/// written.
pub fn resample(
    src: u32,
    dst: u32,
    input: &[f64],
    lengths: &[u32],
    output: &mut [f64],
    answers: &mut [u64],
) -> usize {
    if !rates_fit(src, dst) {
        return 0;
    }
    let mut resampler = Resampler::new(f64::from(src), f64::from(dst));
    let (mut read, mut written, mut calls) = (0, 0, 0);
    for (&len, told) in lengths.iter().zip(answers.chunks_exact_mut(TOLD)) {
        let block = part(input, read, len);
        let answer = process(&mut resampler, block, &mut output[written..]);
        written += answer.unwrap_or(0) as usize;
        tell(answer, told);
        read += block.len();
        calls += 1;
    }
    calls
}

fn process(resampler: &mut Resampler, block: &[f64], room: &mut [f64]) -> Answer {
    if block.len() > MOST_RESAMPLED {
        Err(3)
    } else if block.iter().any(|x| !(-1.0..=1.0).contains(x)) {
        Err(43)
    } else if room.len() < resampler.max_output_len(block.len()) {
        Err(5)
    } else {
        Ok(resampler.process(block, room) as u64)
    }
}

/// Likewise for a script of `process` and `reset` (`layout::TURN`). Afterwards
/// `state` holds the resampler's numbers, if it has room for them.
pub fn resampler_state(
    src: u32,
    dst: u32,
    input: &[f64],
    script: &[u32],
    output: &mut [f64],
    answers: &mut [u64],
    state: &mut [f64],
) -> usize {
    if !rates_fit(src, dst) {
        return 0;
    }
    let mut resampler = Resampler::new(f64::from(src), f64::from(dst));
    let (mut read, mut written, mut calls) = (0, 0, 0);
    for (turn, told) in script.chunks_exact(TURN).zip(answers.chunks_exact_mut(TOLD)) {
        let answer = if turn[0] == PROCESS {
            let block = part(input, read, turn[1]);
            read += block.len();
            process(&mut resampler, block, &mut output[written..])
        } else {
            resampler.reset();
            Ok(0)
        };
        written += answer.unwrap_or(0) as usize;
        tell(answer, told);
        calls += 1;
    }
    if state.len() >= RESAMPLER_LEN {
        let mut places = state.iter_mut();
        let place = &mut |value| *places.next().expect("there are enough") = value;
        each_of_resampler(&resampler, place);
    }
    calls
}

/// `max_output_len` for each length, as `resample` answers.
pub fn max_output_len(src: u32, dst: u32, lengths: &[u32], answers: &mut [u64]) -> usize {
    if !rates_fit(src, dst) {
        return 0;
    }
    let resampler = Resampler::new(f64::from(src), f64::from(dst));
    let mut calls = 0;
    for (&len, told) in lengths.iter().zip(answers.chunks_exact_mut(TOLD)) {
        let len = len as usize;
        let fits = len <= MOST_RESAMPLED;
        tell(if fits { Ok(resampler.max_output_len(len) as u64) } else { Err(3) }, told);
        calls += 1;
    }
    calls
}

pub fn config(rate: u32, role: u32) -> Config {
    Config {
        sample_rate: rate,
        role: if role == ORIGINATE { Role::Originate } else { Role::Answer },
        duplex: Duplex::Full,
    }
}

/// A receiver of the original with document 01's refusals before it.
pub struct Receiver {
    pub rx: Rx,
    pub accepted: u64,
}

impl Receiver {
    pub fn new(rate: u32, role: u32) -> Receiver {
        Receiver { rx: Rx::new(config(rate, role)), accepted: 0 }
    }

    /// 0, or the number with which a write of these samples is refused.
    pub fn refusal(&self, samples: &[f32]) -> u64 {
        if samples.len() > MOST_SAMPLES {
            return 3;
        }
        if !samples.iter().all(|s| (-1.0..=1.0).contains(s)) {
            return 4;
        }
        if self.accepted + samples.len() as u64 > MOST_ACCEPTED {
            return 31;
        }
        if self.rx.out.len() > MOST_WAITING_BYTES {
            return 32;
        }
        0
    }

    /// 0, or the number of the refusal.
    pub fn write(&mut self, samples: &[f32]) -> u64 {
        let number = self.refusal(samples);
        if number == 0 {
            self.rx.write(samples);
            self.accepted += samples.len() as u64;
        }
        number
    }

    /// Drains events into the slice, as many as both have.
    fn drain(&mut self, events: &mut [u8]) -> usize {
        let mut drained = 0;
        while drained < events.len() {
            let Some(event) = self.rx.events() else {
                break;
            };
            events[drained] = u8::from(event == Event::CarrierUp);
            drained += 1;
        }
        drained
    }

    /// Hands out the receiver's state in the order of `layout::STATE`.
    pub fn each_place(&self, place: &mut dyn FnMut(f64)) {
        let rx = &self.rx;
        each_of_resampler(&rx.resampler, place);

        place(rx.pos as f64);
        place(truth(rx.filled));
        for ring in [&rx.mark_i, &rx.mark_q, &rx.space_i, &rx.space_q] {
            ring.iter().for_each(|&v| place(v));
        }
        for value in [rx.phase_m, rx.phase_s, rx.inc_m, rx.inc_s] {
            place(value);
        }
        for value in [rx.sym_phase, rx.sym_inc, rx.last_sym, rx.mid_sym] {
            place(value);
        }
        place(truth(rx.have_mid));

        place(truth(rx.deframer.in_frame));
        place(f64::from(rx.deframer.bit_count));
        place(f64::from(rx.deframer.acc));
        place(rx.deframer.errors as f64);

        place(rx.energy_carrier.level);
        place(rx.energy_carrier.floor);
        place(truth(rx.energy_carrier.detected));
        place(f64::from(rx.energy_carrier.holdoff));

        rx.dominance.mark.iter().for_each(|g| each_of_probe(g, place));
        rx.dominance.own.iter().for_each(|g| each_of_probe(g, place));
        place(rx.dominance.wideband);
        place(rx.dominance.count as f64);

        place(truth(rx.gate_open));
        place(truth(rx.qualified));
        place(truth(rx.qualified_ever));
        place(rx.out.len() as f64);
        place(rx.events.len() as f64);
        place(self.accepted as f64);
    }
}

/// Runs a receiver's script (`layout::CALL`), as long as there is room for the
/// answers (`layout::HEARD`): a write of consecutive samples, a read of bytes
/// behind the earlier ones, a drain of events likewise (1 is up, 0 is down).
/// Returns the number of calls run; where the rate is refused that is 0 and
/// nothing is written.
pub fn receive(
    rate: u32,
    role: u32,
    samples: &[f32],
    script: &[u32],
    bytes: &mut [u8],
    events: &mut [u8],
    answers: &mut [u64],
) -> usize {
    if !rate_fits(rate) {
        return 0;
    }
    let mut receiver = Receiver::new(rate, role);
    let (mut written, mut byte_at, mut event_at, mut calls) = (0, 0, 0, 0);
    for (call, answer) in script.chunks_exact(CALL).zip(answers.chunks_exact_mut(HEARD)) {
        let block = part(samples, written, call[0]);
        written += block.len();
        let before = receiver.rx.framing_errors();
        answer[0] = receiver.write(block);
        let stops = receiver.rx.framing_errors() - before;

        let room = (bytes.len() - byte_at).min(call[1] as usize);
        let read = receiver.rx.read(&mut bytes[byte_at..byte_at + room]);
        byte_at += read;
        answer[1] = read as u64;

        let room = (events.len() - event_at).min(call[2] as usize);
        let drained = receiver.drain(&mut events[event_at..event_at + room]);
        event_at += drained;
        answer[2] = drained as u64;

        answer[3] = u64::from(receiver.rx.carrier_detected());
        answer[4] = receiver.rx.framing_errors() as u64;
        answer[5] = stops as u64;
        calls += 1;
    }
    calls
}

/// Runs all calls of a receiver's script, with room for all bytes and events,
/// and puts its state (`layout::STATE`) into `state`. Returns 1; or 0, with
/// nothing written, where the rate is refused or `state` has too few places.
pub fn receiver_state(
    rate: u32,
    role: u32,
    samples: &[f32],
    script: &[u32],
    state: &mut [f64],
) -> u32 {
    if !rate_fits(rate) || state.len() < STATE_LEN {
        return 0;
    }
    let mut receiver = Receiver::new(rate, role);
    let mut written = 0;
    for call in script.chunks_exact(CALL) {
        let block = part(samples, written, call[0]);
        written += block.len();
        receiver.write(block);
        // No more wait than the queues hold.
        receiver.rx.read(&mut vec![0; call[1].min(MOST_BYTES) as usize]);
        receiver.drain(&mut vec![0; call[2].min(MOST_EVENTS) as usize]);
    }
    let mut places = state.iter_mut();
    receiver.each_place(&mut |value| *places.next().expect("there are enough") = value);
    1
}

fn each_of_resampler(filter: &Resampler, place: &mut dyn FnMut(f64)) {
    let n = filter.taps.len();
    for i in 0..TAPS {
        place(if i < n { filter.taps[i] } else { 0.0 });
    }
    for i in 0..TAPS {
        // The newest sample stands just before fir_pos.
        place(if i < n { filter.fir_hist[(filter.fir_pos + n - 1 - i) % n] } else { 0.0 });
    }
    filter.herm_hist.iter().for_each(|&v| place(v));
    for value in [filter.frac_pos, filter.n_pushed, filter.step] {
        place(value);
    }
}

fn each_of_probe(probe: &Goertzel, place: &mut dyn FnMut(f64)) {
    place(probe.coeff);
    place(probe.s1);
    place(probe.s2);
}

fn truth(b: bool) -> f64 {
    f64::from(u8::from(b))
}

/// A sender of the original with document 01's refusals before it.
struct Sender {
    tx: Tx,
    given: u64,
}

impl Sender {
    fn new(rate: u32, role: u32) -> Sender {
        Sender { tx: Tx::new(config(rate, role)), given: 0 }
    }

    /// "waiting + new bits exceed 4,096".
    fn room_for(&self, bits: u64) -> bool {
        (self.tx.bits.len() as u64).saturating_add(bits) <= MOST_WAITING_BITS
    }

    fn write(&mut self, data: &[u8]) -> Answer {
        if !self.room_for(10 * data.len() as u64) {
            return Err(33);
        }
        self.tx.write(data);
        Ok(0)
    }

    fn write_idle_mark(&mut self, n: u64) -> Answer {
        if !self.room_for(n) {
            return Err(33);
        }
        self.tx.write_idle_mark(n as usize);
        Ok(0)
    }

    fn read(&mut self, out: &mut [f32]) -> Answer {
        if out.len() > MOST_SAMPLES {
            return Err(3);
        }
        if self.given + out.len() as u64 > MOST_ACCEPTED {
            return Err(31);
        }
        self.tx.read(out);
        self.given += out.len() as u64;
        Ok(out.len() as u64)
    }

    fn set_amplitude(&mut self, amplitude: f32) -> Answer {
        if !(0.0..=1.0).contains(&amplitude) {
            return Err(6);
        }
        self.tx.set_amplitude(amplitude);
        Ok(0)
    }

    fn samples_for_bits(&self, n: u64) -> Answer {
        if n > MOST_BITS_ASKED {
            return Err(7);
        }
        Ok(self.tx.samples_for_bits(n as usize) as u64)
    }

    /// The number of steps run.
    fn run(
        &mut self,
        data: &[u8],
        script: &[u64],
        samples: &mut [f32],
        answers: &mut [u64],
    ) -> usize {
        let (mut taken, mut filled, mut steps) = (0, 0, 0);
        for (step, sent) in script.chunks_exact(STEP).zip(answers.chunks_exact_mut(SENT)) {
            let n = step[1];
            let answer = match step[0] {
                WRITE => {
                    let start = taken;
                    taken = end_of(start, n, data.len());
                    self.write(&data[start..taken])
                }
                IDLE_MARK => self.write_idle_mark(n),
                AMPLITUDE => self.set_amplitude(f32::from_bits(n as u32)),
                READ => {
                    let start = filled;
                    filled = end_of(start, n, samples.len());
                    self.read(&mut samples[start..filled])
                }
                _ => self.samples_for_bits(n),
            };
            tell(answer, &mut sent[..TOLD]);
            sent[TOLD] = u64::from(self.tx.pending());
            steps += 1;
        }
        steps
    }

    /// Hands out the sender's state: its resampler, then `layout::SENDER`.
    fn each_place(&self, place: &mut dyn FnMut(f64)) {
        let tx = &self.tx;
        each_of_resampler(&tx.resampler, place);
        for value in [tx.nco.phase, tx.nco.inc, tx.sym_pos, truth(tx.current)] {
            place(value);
        }
        place(f64::from(tx.amplitude));
        place(self.given as f64);
        place(tx.bits.len() as f64);
        place(tx.pending.len() as f64);
        for i in 0..WAITING_BITS {
            place(tx.bits.get(i).map_or(0.0, |&bit| truth(bit)));
        }
        for i in 0..WAITING_SAMPLES {
            place(tx.pending.get(i).map_or(0.0, |&sample| f64::from(sample)));
        }
    }
}

/// Where `n` places from `from` on end, in a list of `len`.
pub fn end_of(from: usize, n: u64, len: usize) -> usize {
    (from as u64).saturating_add(n).min(len as u64) as usize
}

/// Runs a sender's script (`layout::STEP`), as long as there is room for an
/// answer (`layout::SENT`). Returns the number of steps run, 0 where the rate
/// is refused. Bytes and places of a refused step are passed over, and the
/// places are left as they were.
pub fn send(
    rate: u32,
    role: u32,
    data: &[u8],
    script: &[u64],
    samples: &mut [f32],
    answers: &mut [u64],
) -> usize {
    if !rate_fits(rate) {
        return 0;
    }
    Sender::new(rate, role).run(data, script, samples, answers)
}

/// Likewise. Afterwards `state` holds the sender's numbers, if it has room for
/// them.
pub fn sender_state(
    rate: u32,
    role: u32,
    data: &[u8],
    script: &[u64],
    samples: &mut [f32],
    answers: &mut [u64],
    state: &mut [f64],
) -> usize {
    if !rate_fits(rate) {
        return 0;
    }
    let mut sender = Sender::new(rate, role);
    let steps = sender.run(data, script, samples, answers);
    if state.len() >= SENDER_LEN {
        let mut places = state.iter_mut();
        sender.each_place(&mut |value| *places.next().expect("there are enough") = value);
    }
    steps
}
