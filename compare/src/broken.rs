//! Calls to a board that break off: where they do, and what stands between one
//! and the next. Each line has a water minute and a level of its own, so that
//! what is shown tells which lines were judged.

use crate::boards::BoardCase;
use crate::cases::{rate_of, Cut};
use crate::hearing::{Ears, Heard, BOARD};
use crate::layout::{ANSWER, ORIGINATE};
use crate::lines::good_line;
use crate::random::Random;
use crate::signal::{ten_bits, Modulation, Tape, Tones, Wave};

const STATION: u16 = 7;

/// Where a call breaks off.
#[derive(Clone, Copy)]
enum Break {
    MidByte,
    MidLine,
    BehindAnEnd,
    BeforeAnEnd,
    MidEnd,
    /// In the first idle mark, so that nothing of it is heard.
    AtOnce,
}

const BREAKS: [Break; 6] = [
    Break::MidByte,
    Break::MidLine,
    Break::BehindAnEnd,
    Break::BeforeAnEnd,
    Break::MidEnd,
    Break::AtOnce,
];

/// What comes before the next call.
#[derive(Clone, Copy)]
enum Gap {
    Silence,
    /// Too faint for the carrier: the deframer stays in a byte.
    FaintSpace,
    FaintNoise,
    /// Silence, loud noise, silence: the detector goes up and down once more.
    LoudNoise,
    /// Too short for the carrier to be lost.
    Short,
    /// Silence to the sample at which the carrier is lost, and not longer.
    UntilLost,
}

const GAPS: [Gap; 6] =
    [Gap::Silence, Gap::FaintSpace, Gap::FaintNoise, Gap::LoudNoise, Gap::Short, Gap::UntilLost];

/// A recording of several calls in the making.
struct Calls<'a> {
    random: &'a mut Random,
    rate: u32,
    role: u32,
    how: Modulation,
    tape: Tape,
    newest: u32,
}

impl Calls<'_> {
    fn line(&mut self) -> Vec<u8> {
        self.newest += self.random.whole(1, 40);
        let level = self.random.whole(0, 2_000) as i16 - 1_000;
        good_line(STATION, self.newest, level)
    }

    /// "Calls open with a bare 0A": most of them do.
    fn open(&mut self) {
        self.tape.preamble(self.how);
        if !self.random.once_in(4) {
            self.tape.bytes(self.how, b"\n");
        }
    }

    /// A call with a whole line at times, that breaks off there.
    fn broken_off(&mut self, place: Break) {
        if let Break::AtOnce = place {
            self.tape.idle(self.how, 20);
            return;
        }
        self.open();
        if self.random.once_in(3) {
            let line = self.line();
            self.tape.bytes(self.how, &line);
        }
        let line = self.line();
        let end = line.len() - 1;
        let some = self.random.whole(1, end as u32 - 1) as usize;
        let bits = self.random.whole(1, 9) as usize;
        let (whole, half) = match place {
            Break::MidByte => (some, bits),
            Break::MidLine => (some, 0),
            Break::BeforeAnEnd => (end, 0),
            Break::MidEnd => (end, bits),
            _ => (end + 1, 0),
        };
        self.tape.bytes(self.how, &line[..whole]);
        if half > 0 {
            self.tape.bits(self.how, &ten_bits(line[whole])[..half]);
        }
    }

    fn gap(&mut self, gap: Gap) {
        let seconds = self.random.between(0.62, 0.75);
        let faint = self.random.between(0.0005, 0.002);
        match gap {
            Gap::Silence => self.tape.silence(seconds),
            Gap::FaintSpace => self.tape.tone(Wave::Sine, self.how.space, faint, seconds),
            Gap::FaintNoise => self.tape.noise(self.random, faint, seconds),
            Gap::LoudNoise => {
                self.tape.silence(seconds);
                let level = self.random.level(0.1, 0.9);
                self.tape.noise(self.random, level, seconds / 3.0);
                self.tape.silence(seconds);
            }
            Gap::Short => self.tape.silence(seconds / 2.0),
            Gap::UntilLost => silence_until_lost(&mut self.tape, self.rate, self.role),
        }
    }

    /// A call that is whole.
    fn whole(&mut self) {
        self.open();
        for _ in 0..2 {
            let line = self.line();
            self.tape.bytes(self.how, &line);
        }
        self.tape.idle(self.how, 12);
    }
}

fn clear(role: u32, level: f64) -> Modulation {
    let tones = Tones::heard_by(role);
    let (mark, space) = (tones.mark, tones.space);
    Modulation { mark, space, level, offset: 0.0, wave: Wave::Sine }
}

/// Silence up to and with the sample at which a board loses the carrier.
fn silence_until_lost(tape: &mut Tape, rate: u32, role: u32) {
    tape.silence(0.9);
    let mut ears = Ears::new(rate, role, BOARD);
    let mut end = 0;
    for (i, sample) in tape.clone().finish().iter().enumerate() {
        let heard = ears.write(&[*sample]).expect("a sample within 1");
        if heard.iter().any(|h| matches!(h, Heard::Lost { .. })) {
            end = i + 1;
        }
    }
    tape.truncate(end);
}

/// Case `index`: each pair of a place and a gap in turn, then random ones, at the
/// rates and in the blocks of all cases.
pub fn random(index: usize, random: &mut Random) -> BoardCase {
    let (rate, role) = (rate_of(index, random), random.whole(ORIGINATE, ANSWER));
    let how = clear(role, random.level(0.05, 0.6));
    let (tape, newest) = (Tape::new(rate), random.whole(1_000, 20_000_000));
    let mut calls = Calls { random, rate, role, how, tape, newest };
    if calls.random.once_in(4) {
        // The detector goes up and down before any carrier is reported.
        calls.tape.noise(calls.random, 0.5, 0.3);
        calls.tape.silence(0.65);
    }
    let mut place = BREAKS[index % BREAKS.len()];
    let mut gap = GAPS[index / BREAKS.len() % GAPS.len()];
    for _ in 0..calls.random.whole(1, 2) {
        calls.broken_off(place);
        calls.gap(gap);
        place = calls.random.pick(&BREAKS);
        gap = calls.random.pick(&GAPS);
    }
    calls.whole();
    let samples = calls.tape.finish();
    let lengths = Cut::of(index).lengths(random, samples.len(), 1_024);
    BoardCase::whole(rate, STATION, role, samples, lengths)
}

/// A call that breaks off in mid line, and the next one's 0A in the write in which
/// the carrier is lost, behind that.
pub fn found_again(rate: u32, role: u32) -> BoardCase {
    let how = clear(role, 0.4);
    let mut tape = Tape::new(rate);
    tape.preamble(how);
    tape.bytes(how, b"\n01010D000700");
    silence_until_lost(&mut tape, rate, role);
    let lost = tape.len();
    tape.idle(how, 6);
    tape.bytes(how, b"\n01010D000700C0000005019C88\n");
    tape.idle(how, 12);
    let samples = tape.finish();
    let mut lengths = vec![100; lost / 100];
    lengths.resize(lengths.len() + samples.len().div_ceil(1_024), 1_024);
    BoardCase::whole(rate, STATION, role, samples, lengths)
}

/// The rates at which one write has room for a loss and a 0A behind it.
pub const SLOW_RATES: [u32; 4] = [8_000, 8_001, 9_999, 11_025];

#[cfg(test)]
mod tests {
    use super::*;

    #[test]
    fn the_next_call_is_found_in_the_write_that_loses_the_carrier() {
        for rate in SLOW_RATES {
            for role in [ORIGINATE, ANSWER] {
                let board = found_again(rate, role).model();
                let (losses, shown) = (board.losses, board.shown());
                assert_eq!((losses.all, losses.in_a_line, losses.before_an_end), (1, 1, 1));
                // UU before the first 0A is a line, and the stump is none.
                assert_eq!(shown[..3], [1, 12_582_907, 412]);
                assert_eq!(shown[3..], [1, 0, 1, 0, 0, 0, 0, 0, 0, 0, 0, 0]);
            }
        }
    }
}
