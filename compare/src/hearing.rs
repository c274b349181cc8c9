//! What a board hears, in order, written from documents 01 and 02 alone: the
//! original's own receiver, taken one step at a time, and what a board's does
//! otherwise at a step.

use original::frame::Deframer;

use crate::oracle::Receiver;

/// What a step of the receiver brings.
#[derive(Clone, Copy, PartialEq, Debug)]
pub enum Heard {
    /// The detector went down, with a byte half read or not.
    Lost {
        half_byte: bool,
    },
    Byte(u8),
    BadStop,
}

/// What a receiver does otherwise than the original.
#[derive(Clone, Copy)]
pub struct Manner {
    /// "At the step where the detector goes down, the board's receiver drops the
    /// half byte (deframer idle, error count kept)".
    drops_half_byte: bool,
    /// "Boards limit the error to -1 through 1 before the gain."
    limits_error: bool,
}

/// Nothing: "the bare receiver keeps Rust's half byte", "the bare receiver remains
/// unlimited".
pub const BARE: Manner = Manner { drops_half_byte: false, limits_error: false };
pub const BOARD: Manner = Manner { drops_half_byte: true, limits_error: true };

/// The timing loop's gain in rx.rs.
const GAIN: f64 = 0.15;

/// How the symbol boundaries of a receiver came about.
#[derive(Clone, Copy, Default)]
pub struct Timing {
    pub boundaries: u64,
    /// Those whose error lay beyond -1 or 1.
    pub beyond: u64,
    /// The largest error, whichever way.
    pub largest: f64,
    /// The step of the first boundary, that in which the ring fills being 1.
    pub first: u64,
    /// The fewest and the most steps from one boundary to the next.
    pub fewest: Option<u64>,
    pub most: Option<u64>,
    /// Steps since the last boundary, or since the ring filled.
    since: u64,
}

impl Timing {
    /// A boundary in this step.
    fn boundary(&mut self) {
        if self.boundaries == 0 {
            self.first = self.since;
        } else {
            self.fewest = Some(self.fewest.unwrap_or(self.since).min(self.since));
            self.most = Some(self.most.unwrap_or(self.since).max(self.since));
        }
        self.boundaries += 1;
        self.since = 0;
    }

    fn error(&mut self, error: f64) {
        self.beyond += u64::from(error.abs() > 1.0);
        self.largest = self.largest.max(error.abs());
    }
}

/// The timing loop's numbers before a step.
struct Before {
    phase: f64,
    last: f64,
    mid: f64,
    have_mid: bool,
}

/// A receiver that tells what it hears at once, so that nothing waits in it.
pub struct Ears {
    pub receiver: Receiver,
    manner: Manner,
    pub timing: Timing,
}

impl Ears {
    pub fn new(rate: u32, role: u32, manner: Manner) -> Ears {
        Ears { receiver: Receiver::new(rate, role), manner, timing: Timing::default() }
    }

    /// What is heard in the samples, or the number of the refusal.
    pub fn write(&mut self, samples: &[f32]) -> Result<Vec<Heard>, u64> {
        match self.receiver.refusal(samples) {
            0 => {}
            number => return Err(number),
        }
        self.receiver.accepted += samples.len() as u64;
        let resampler = &mut self.receiver.rx.resampler;
        let input: Vec<f64> = samples.iter().map(|&s| f64::from(s)).collect();
        let mut output = vec![0.0; resampler.max_output_len(input.len())];
        let steps = resampler.process(&input, &mut output);
        let mut heard = Vec::new();
        output[..steps].iter().for_each(|&s| self.step(s, &mut heard));
        Ok(heard)
    }

    fn step(&mut self, sample: f64, heard: &mut Vec<Heard>) {
        let rx = &mut self.receiver.rx;
        let (detected, errors) = (rx.energy_carrier.detected, rx.deframer.errors);
        let (phase, have_mid) = (rx.sym_phase, rx.have_mid);
        let before = Before { phase, last: rx.last_sym, mid: rx.mid_sym, have_mid };
        rx.push_sample(sample);
        // Nothing is sliced in a step in which the detector is down.
        if detected && !rx.energy_carrier.detected {
            heard.push(Heard::Lost { half_byte: rx.deframer.in_frame });
            if self.manner.drops_half_byte {
                rx.deframer = Deframer { errors: rx.deframer.errors, ..Deframer::new() };
            }
        }
        if rx.deframer.errors > errors {
            heard.push(Heard::BadStop);
        }
        heard.extend(rx.out.drain(..).map(Heard::Byte));
        if rx.filled {
            self.time(&before);
        }
    }

    /// Behind a step at a boundary, the phase as the limited error leaves it.
    fn time(&mut self, before: &Before) {
        let rx = &mut self.receiver.rx;
        let phase = before.phase + rx.sym_inc;
        self.timing.since += 1;
        if phase < 1.0 {
            return;
        }
        self.timing.boundary();
        if !before.have_mid {
            return;
        }
        // The original's error. What it sliced at this boundary is now its last.
        let mag = rx.last_sym.abs() + before.last.abs() + 1e-9;
        let error = (rx.last_sym - before.last) * before.mid / (mag * mag);
        let residue = phase - 1.0;
        assert_eq!(rx.sym_phase.to_bits(), (residue + GAIN * error).to_bits());
        self.timing.error(error);
        if self.manner.limits_error {
            rx.sym_phase = residue + GAIN * error.clamp(-1.0, 1.0);
        }
    }
}

#[cfg(test)]
mod tests {
    use super::*;
    use crate::cases::{ReceiverCase, RATES};
    use crate::layout::{ANSWER, CALL};
    use crate::random::Random;
    use crate::scenes::KINDS;
    use crate::signal::{Modulation, Tape, Tones, Wave};

    fn state(receiver: &Receiver) -> Vec<u64> {
        let mut state = Vec::new();
        receiver.each_place(&mut |value| state.push(value.to_bits()));
        state
    }

    fn bytes(heard: &[Heard]) -> Vec<u8> {
        let byte = |h: &Heard| if let Heard::Byte(b) = h { Some(*b) } else { None };
        heard.iter().filter_map(byte).collect()
    }

    /// Step by step, and with nothing done otherwise, it is the original: each
    /// write's answer, bytes and bad stops, and the whole state at the end.
    #[test]
    fn a_bare_receiver_is_the_original() {
        for index in 0..2 * RATES.len() * KINDS.len() / 5 {
            let mut random = Random::of_case(7, index as u64);
            let kind = &KINDS[index % KINDS.len()];
            let case = ReceiverCase::random(index, kind, &mut random);
            let mut receiver = Receiver::new(case.rate, case.role);
            let mut ears = Ears::new(case.rate, case.role, BARE);
            let mut rest = &case.samples[..];
            for call in case.script.chunks_exact(CALL) {
                let (block, behind) = rest.split_at(rest.len().min(call[0] as usize));
                rest = behind;
                let errors = receiver.rx.framing_errors();
                let number = receiver.write(block);
                let mut read = vec![0; 600];
                let count = receiver.rx.read(&mut read);
                let heard = ears.write(block);
                assert_eq!(heard.as_ref().err().copied().unwrap_or(0), number);
                let heard = heard.unwrap_or_default();
                assert_eq!(bytes(&heard), read[..count], "case {index}");
                let stops = heard.iter().filter(|h| **h == Heard::BadStop).count();
                assert_eq!(stops, receiver.rx.framing_errors() - errors, "case {index}");
            }
            assert_eq!(state(&ears.receiver), state(&receiver), "case {index}");
        }
    }

    /// Spaces too faint for the carrier keep the deframer in a byte until the
    /// carrier is lost. A bare receiver ends that byte with the next call's idle
    /// mark and hears FF, F8 or the like; a board hears what was sent.
    #[test]
    fn a_board_drops_the_half_byte() {
        let tones = Tones::heard_by(ANSWER);
        let (mark, space) = (tones.mark, tones.space);
        let how = Modulation { mark, space, level: 0.4, offset: 0.0, wave: Wave::Sine };
        let mut tape = Tape::new(8_000);
        tape.preamble(how);
        tape.bytes(how, b"A");
        tape.bits(how, &[false; 5]);
        tape.tone(Wave::Sine, space, 0.001, 0.62);
        tape.idle(how, 14);
        tape.bytes(how, b"B");
        tape.idle(how, 12);
        let samples = tape.finish();
        let hear = |manner| {
            let mut ears = Ears::new(8_000, ANSWER, manner);
            let heard: Vec<Heard> =
                samples.chunks(100).flat_map(|block| ears.write(block).expect("taken")).collect();
            let stops = heard.iter().filter(|h| **h == Heard::BadStop).count();
            assert_eq!(stops, ears.receiver.rx.framing_errors(), "the count is kept");
            assert!(heard.contains(&Heard::Lost { half_byte: true }));
            (bytes(&heard), stops)
        };
        let ((bare, bare_stops), (board, stops)) = (hear(BARE), hear(BOARD));
        assert_eq!(board, b"UUAB");
        assert_eq!((bare.len(), bare[3] & 0x80, bare[4]), (5, 0x80, b'B'));
        assert_eq!(stops, bare_stops);
    }
}
