//! Clicks and steps that throw a bare receiver's timing off, and calls behind
//! them. A timing error is large where two symbols in a row are near a tie and the
//! place between them is not, as when a crane's motor clicks twice on a quiet
//! line. Such inputs, all within ±1, are looked for among random ones.

use crate::boards::BoardCase;
use crate::cases::Cut;
use crate::hearing::{Ears, Heard, BARE};
use crate::judge::Judge;
use crate::lines::good_line;
use crate::random::Random;
use crate::signal::{Modulation, Tape, Tones, Wave};

const STATION: u16 = 7;
const STAMP: u32 = 12_582_912;

/// A recording from a fresh receiver on, and what it does to a bare one.
pub struct Clicks {
    samples: Vec<f32>,
    /// The largest timing error in it, whichever way.
    pub error: f64,
    /// The symbols for which nothing is sliced behind it.
    pub deaf: f64,
}

impl Clicks {
    fn random(rate: u32, role: u32, random: &mut Random) -> Clicks {
        let mut tape = Tape::new(rate);
        let (lead, faint) = (random.between(0.004, 0.03), random.level(1e-10, 1e-6));
        tape.silence(lead);
        for _ in 0..random.whole(2, 4) {
            let value = random.pick(&[-1.0, -0.5, 0.5, 1.0]);
            if random.once_in(4) {
                let seconds = random.between(0.0, 0.003);
                tape.hold(value, seconds);
            } else {
                tape.sample(value);
            }
            let seconds = random.between(0.0, 0.003);
            tape.noise(random, faint, seconds);
        }
        tape.noise(random, faint, 0.008);
        let samples = tape.finish();
        let mut ears = Ears::new(rate, role, BARE);
        bytes_heard(&mut ears, &samples);
        let deaf = -ears.receiver.rx.sym_phase;
        Clicks { samples, error: ears.timing.largest, deaf }
    }

    /// The one of so many behind which a bare receiver is deaf longest.
    pub fn worst(rate: u32, role: u32, tries: usize, random: &mut Random) -> Clicks {
        let mut worst = Clicks::random(rate, role, random);
        for _ in 1..tries {
            let other = Clicks::random(rate, role, random);
            if other.deaf > worst.deaf {
                worst = other;
            }
        }
        worst
    }
}

/// The bytes that are heard in these samples.
fn bytes_heard(ears: &mut Ears, samples: &[f32]) -> Vec<u8> {
    let heard = samples.chunks(1_024).flat_map(|b| ears.write(b).expect("samples within 1"));
    let byte = |happening| if let Heard::Byte(byte) = happening { Some(byte) } else { None };
    heard.filter_map(byte).collect()
}

/// Clicks, and behind them a call with one good line.
pub struct Behind {
    pub case: BoardCase,
    /// Whether a bare receiver hears that line.
    pub bare_hears: bool,
    /// The largest timing error of the bare receiver, and the symbols for which it
    /// is deaf, where the clicks were looked for.
    pub error: f64,
    pub deaf: f64,
}

/// What the line says: water minute and level.
const READING: (u64, i64) = (STAMP as u64 - 5, 412);

impl Behind {
    /// The worst clicks of so many, on a fresh board.
    pub fn fresh(index: usize, rate: u32, role: u32, tries: usize, random: &mut Random) -> Behind {
        let clicks = Clicks::worst(rate, role, tries, random);
        let mut tape = Tape::new(rate);
        tape.append(&clicks.samples);
        let behind = Behind::of(index, rate, role, tape);
        Behind { error: clicks.error, deaf: clicks.deaf, ..behind }
    }

    /// A motor that clicks again and again on the quiet line between two calls.
    pub fn between_calls(index: usize, rate: u32, role: u32, random: &mut Random) -> Behind {
        let mut tape = Tape::new(rate);
        call(&mut tape, role, STAMP - 10, -1);
        tape.silence(0.65);
        for _ in 0..30 {
            tape.append(&Clicks::random(rate, role, random).samples);
        }
        Behind::of(index, rate, role, tape)
    }

    fn of(index: usize, rate: u32, role: u32, mut tape: Tape) -> Behind {
        call(&mut tape, role, STAMP, 412);
        let samples = tape.finish();
        let mut judge = Judge::new(u64::from(STATION));
        for byte in bytes_heard(&mut Ears::new(rate, role, BARE), &samples) {
            judge.byte(byte);
        }
        let mut random = Random::new(index as u64);
        // No cut with writes that are refused, whose samples would be missing.
        let lengths = Cut::of(index % 6).lengths(&mut random, samples.len(), 1_024);
        let case = BoardCase::whole(rate, STATION, role, samples, lengths);
        let bare_hears = judge.reading == Some(READING);
        Behind { case, bare_hears, error: 0.0, deaf: 0.0 }
    }

    /// Whether the independent board shows the line behind the clicks.
    pub fn is_shown(&self) -> bool {
        self.case.model().shown()[..3] == [1, READING.0, READING.1 as u64]
    }
}

/// A call with a good line.
fn call(tape: &mut Tape, role: u32, stamp: u32, level: i16) {
    let tones = Tones::heard_by(role);
    let (mark, space) = (tones.mark, tones.space);
    let how = Modulation { mark, space, level: 0.4, offset: 0.0, wave: Wave::Sine };
    let text = [b"\n", &good_line(STATION, stamp, level)[..]].concat();
    tape.preamble(how);
    tape.bytes(how, &text);
    tape.idle(how, 12);
}

#[cfg(test)]
mod tests {
    use super::*;
    use crate::hearing::BOARD;
    use crate::layout::{ANSWER, ORIGINATE};

    /// At 8,000 nothing smears a click: where one is alone in the ring, mark and
    /// space tie to the last digits, and where two are they do not. A bare receiver
    /// is deaf behind such a pair; a board, whose phase an error moves by 0.15 at
    /// most, hears the call.
    #[test]
    fn a_bare_receiver_is_deaf_where_a_board_hears() {
        for role in [ORIGINATE, ANSWER] {
            let clicks = Clicks::worst(8_000, role, 300, &mut Random::new(1));
            assert!(clicks.error > 1e6 && clicks.deaf > 0.1 * clicks.error);
            let behind = Behind::fresh(3, 8_000, role, 300, &mut Random::new(1));
            assert!(!behind.bare_hears && behind.is_shown());
            let mut ears = Ears::new(8_000, role, BOARD);
            bytes_heard(&mut ears, &clicks.samples);
            assert!(ears.receiver.rx.sym_phase > -0.2);
            assert!(ears.timing.most <= Some(33) && ears.timing.fewest >= Some(21));
        }
    }

    /// "-1 through 1": the error of a step moves the phase by the gain at most, and
    /// one within is taken as it is.
    #[test]
    fn an_error_within_the_limit_is_the_original_s() {
        let mut tape = Tape::new(11_025);
        call(&mut tape, ANSWER, STAMP, 412);
        let samples = tape.finish();
        let [mut bare, mut board] = [BARE, BOARD].map(|m| Ears::new(11_025, ANSWER, m));
        assert_eq!(bytes_heard(&mut bare, &samples), bytes_heard(&mut board, &samples));
        assert_eq!((bare.timing.beyond, board.timing.beyond), (0, 0));
        let phases = [&bare, &board].map(|ears| ears.receiver.rx.sym_phase.to_bits());
        assert_eq!(phases[0], phases[1]);
    }
}
