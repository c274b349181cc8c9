//! The kinds of call that a receiver is put through. Each one is there for a
//! part of the receiver, which its comment names.

use crate::cases::bits_of;
use crate::layout::{AMPLITUDE, ANSWER, IDLE_MARK, ORIGINATE, READ, SENT, STEP, WRITE};
use crate::oracle;
use crate::random::Random;
use crate::signal::{Modulation, Tape, Tones, Wave};

/// How the host takes what was heard.
#[derive(Clone, Copy, PartialEq)]
pub enum Manners {
    /// All bytes and events after each write.
    All,
    /// Now and then a few.
    Few,
    /// Nothing before the end.
    Nothing,
    /// Nothing until nearly the end, then some bytes now and then.
    Late,
}

pub struct Scene {
    pub samples: Vec<f32>,
    /// Only where the scene is about it.
    pub manners: Option<Manners>,
}

pub struct Kind {
    pub name: &'static str,
    make: fn(&mut Stage) -> Scene,
}

impl Kind {
    pub fn scene(&self, random: &mut Random, rate: u32, role: u32) -> Scene {
        (self.make)(&mut Stage { random, rate, role, tones: Tones::heard_by(role) })
    }
}

/// What a kind makes its scene from.
struct Stage<'a> {
    random: &'a mut Random,
    rate: u32,
    role: u32,
    tones: Tones,
}

pub const KINDS: [Kind; 20] = [
    Kind { name: "line", make: line },
    Kind { name: "line of the original's sender", make: sent_line },
    Kind { name: "line in noise", make: line_in_noise },
    Kind { name: "idle mark", make: idle_mark },
    Kind { name: "both tones", make: both_tones },
    Kind { name: "clicks", make: clicks },
    Kind { name: "faint noise", make: faint_noise },
    Kind { name: "loud noise", make: loud_noise },
    Kind { name: "long silence", make: silence },
    Kind { name: "square waves", make: square_waves },
    Kind { name: "square line", make: square_line },
    Kind { name: "drops in mid byte", make: drops },
    Kind { name: "gaps around the hold-off", make: gaps },
    Kind { name: "tones beside the mark", make: beside_the_mark },
    Kind { name: "own voice", make: own_voice },
    Kind { name: "space held", make: space_held },
    Kind { name: "any samples", make: any_samples },
    Kind { name: "refused samples", make: refused_samples },
    Kind { name: "many events", make: many_events },
    Kind { name: "bytes left unread", make: unread },
];

/// Levels from full scale to below what a fresh receiver hears.
const LEVELS: [f64; 9] = [1.0, 0.5, 0.1, 0.03, 0.012, 0.008, 0.005, 0.002, 0.0007];
/// Clock offsets up to what the timing loop can hold, and past it.
const OFFSETS: [f64; 9] = [0.0, 0.0, 0.005, -0.005, 0.01, -0.02, 0.02, 0.03, -0.035];

impl Stage<'_> {
    fn tape(&self) -> Tape {
        Tape::new(self.rate)
    }

    fn modulation(&mut self) -> Modulation {
        Modulation {
            mark: self.tones.mark,
            space: self.tones.space,
            level: self.random.pick(&LEVELS),
            offset: self.random.pick(&OFFSETS),
            wave: Wave::Sine,
        }
    }

    /// A modulation that a receiver hears without trouble.
    fn clear(&mut self) -> Modulation {
        Modulation { level: self.random.level(0.05, 0.9), offset: 0.0, ..self.modulation() }
    }

    /// Mostly letters, as on a real line; else any bytes.
    fn text(&mut self, n: usize) -> Vec<u8> {
        let any = self.random.once_in(3);
        let letter = |r: &mut Random| r.pick(b"0123456789ABCDEF\n");
        (0..n).map(|_| if any { self.random.byte() } else { letter(self.random) }).collect()
    }
}

fn plain(tape: Tape) -> Scene {
    Scene { samples: tape.finish(), manners: None }
}

/// The whole chain, at several levels and clock offsets.
fn line(stage: &mut Stage) -> Scene {
    let how = stage.modulation();
    let text = stage.text(40);
    let mut tape = stage.tape();
    let lead = stage.random.between(0.0, 0.05);
    tape.silence(lead);
    if stage.random.once_in(4) {
        // Without training the loop has to pull in on the data.
        tape.idle(how, 20);
    } else {
        tape.preamble(how);
    }
    tape.bytes(how, &text);
    tape.idle(how, 15);
    plain(tape)
}

/// The same from the original's own sender, through its resampler.
fn sent_line(stage: &mut Stage) -> Scene {
    let text = stage.text(30);
    let amplitude = stage.random.pick(&[0.9f32, 0.5, 0.02]);
    let data = [&[0x55, 0x55][..], &text].concat();
    let reads = (stage.rate * 13 / 10 / 1000) as usize;
    let mut script = vec![AMPLITUDE, bits_of(amplitude), IDLE_MARK, 40];
    script.extend([WRITE, 2, IDLE_MARK, 12, WRITE, text.len() as u64]);
    script.extend([READ, 1000].repeat(reads));
    let mut samples = vec![0.0; 1000 * reads];
    let mut answers = vec![0; script.len() / STEP * SENT];
    // What this receiver hears is the other role's voice.
    let role = if stage.role == ORIGINATE { ANSWER } else { ORIGINATE };
    oracle::send(stage.rate, role, &data, &script, &mut samples, &mut answers);
    let mut tape = stage.tape();
    tape.append(&samples);
    plain(tape)
}

/// Bit errors, framing errors, and bytes that were never sent.
fn line_in_noise(stage: &mut Stage) -> Scene {
    let how = stage.clear();
    let text = stage.text(35);
    let mut tape = stage.tape();
    tape.preamble(how);
    let clean = tape.seconds();
    tape.bytes(how, &text);
    let noise = how.level * stage.random.level(0.3, 5.0);
    tape.add_noise(stage.random, noise, clean);
    plain(tape)
}

/// No transition for the timing loop, at any level, then a byte or two.
fn idle_mark(stage: &mut Stage) -> Scene {
    let how = stage.modulation();
    let text = stage.text(2);
    let mut tape = stage.tape();
    tape.idle(how, 150);
    tape.bytes(how, &text);
    tape.idle(how, 30);
    plain(tape)
}

/// Mark and space at once: high energy, and a soft decision near the tie.
fn both_tones(stage: &mut Stage) -> Scene {
    let how = stage.clear();
    let text = stage.text(4);
    let share = stage.random.pick(&[1.0, 1.0, 0.98, 1.05]);
    let mut tape = stage.tape();
    if stage.random.once_in(2) {
        tape.preamble(how);
    }
    let from = tape.seconds();
    tape.tone(Wave::Sine, how.mark, how.level / 2.0, 0.6);
    tape.add_tone(how.space, share * how.level / 2.0, from);
    tape.bytes(how, &text);
    plain(tape)
}

/// Loud without being a tone: the detector rises, the latch must not.
fn clicks(stage: &mut Stage) -> Scene {
    let how = stage.clear();
    let text = stage.text(3);
    let mut tape = stage.tape();
    for _ in 0..stage.random.whole(1, 4) {
        let level = stage.random.level(0.01, 1.0);
        let seconds = stage.random.between(0.002, 0.06);
        tape.click(stage.random, level, seconds);
        let pause = stage.random.between(0.01, 0.4);
        tape.silence(pause);
    }
    tape.preamble(how);
    tape.click(stage.random, 1.0, 0.005);
    tape.bytes(how, &text);
    plain(tape)
}

/// Around the detector's thresholds, cold and after the floor came down.
fn faint_noise(stage: &mut Stage) -> Scene {
    let mut tape = stage.tape();
    if stage.random.once_in(2) {
        let idle = stage.random.between(0.3, 3.0);
        tape.silence(idle);
    }
    for _ in 0..3 {
        let level = stage.random.level(0.0005, 0.03);
        tape.noise(stage.random, level, 0.7);
    }
    plain(tape)
}

/// The detector is up with no tone: the slicer runs on noise.
fn loud_noise(stage: &mut Stage) -> Scene {
    let mut tape = stage.tape();
    let level = stage.random.level(0.03, 1.0);
    tape.noise(stage.random, level, 1.5);
    tape.silence(0.7);
    tape.noise(stage.random, level / 3.0, 0.5);
    plain(tape)
}

/// Nothing at all, until the floor is at its minimum or nearly; then hardly
/// anything; then what only a lowered floor lets through.
fn silence(stage: &mut Stage) -> Scene {
    let how = stage.clear();
    let faint = Modulation { level: stage.random.level(0.0005, 0.004), ..how };
    let text = stage.text(5);
    let mut tape = stage.tape();
    let long = stage.random.between(2.5, 4.5);
    tape.silence(long);
    tape.hold(-0.0, 0.05);
    tape.hold(1e-40, 0.05);
    tape.noise(stage.random, 1e-6, 0.1);
    tape.preamble(faint);
    tape.bytes(faint, &text);
    plain(tape)
}

/// The largest samples there are, at tones of the line and elsewhere.
fn square_waves(stage: &mut Stage) -> Scene {
    let mut tape = stage.tape();
    for _ in 0..4 {
        let other = stage.random.between(20.0, 3990.0);
        let freqs = [stage.tones.mark, stage.tones.space, stage.tones.mark / 3.0, other];
        let freq = stage.random.pick(&freqs);
        let seconds = stage.random.between(0.05, 0.5);
        tape.tone(Wave::Square, freq, 1.0, seconds);
    }
    plain(tape)
}

/// A line whose sender has no filter.
fn square_line(stage: &mut Stage) -> Scene {
    let how = Modulation { level: 1.0, wave: Wave::Square, ..stage.modulation() };
    let text = stage.text(25);
    let mut tape = stage.tape();
    tape.preamble(how);
    tape.bytes(how, &text);
    plain(tape)
}

/// The line goes silent inside a byte, for less or more than the hold-off,
/// and comes back: the half byte stays.
fn drops(stage: &mut Stage) -> Scene {
    let how = stage.clear();
    let text = stage.text(70);
    let mut tape = stage.tape();
    tape.preamble(how);
    tape.bytes(how, &text);
    let mut from = stage.random.between(0.3, 0.6);
    while from < tape.seconds() {
        let seconds = stage.random.pick(&[0.01, 0.05, 0.3, 0.62, 0.8]);
        tape.cut(from, seconds);
        from += seconds + stage.random.between(0.1, 0.7);
    }
    plain(tape)
}

/// Gaps about as long as the hold-off and the decay before it, some with a
/// short sound in the middle, which clears the count.
fn gaps(stage: &mut Stage) -> Scene {
    let how = Modulation { level: stage.random.level(0.02, 0.2), ..stage.clear() };
    let mut tape = stage.tape();
    tape.idle(how, 40);
    for _ in 0..3 {
        let gap = stage.random.between(0.48, 0.6);
        let before = stage.random.between(0.1, gap);
        tape.silence(before);
        if stage.random.once_in(2) {
            tape.tone(Wave::Sine, how.mark, how.level, 0.02);
        }
        tape.silence(gap - before);
        tape.idle(how, 12);
    }
    plain(tape)
}

/// Tones near the mark, so that the best probe is near its threshold.
fn beside_the_mark(stage: &mut Stage) -> Scene {
    let mut tape = stage.tape();
    for _ in 0..6 {
        let off = stage.random.between(-0.045, 0.045);
        let level = stage.random.level(0.004, 1.0);
        let freq = stage.tones.mark * (1.0 + off);
        let from = tape.seconds();
        tape.tone(Wave::Sine, freq, level, 0.12);
        // Noise of about the strength that makes the ratio 40.
        let noise = level * stage.random.between(0.0, 2.5);
        tape.add_noise(stage.random, noise, from);
        tape.silence(0.05);
    }
    plain(tape)
}

/// This end's own sender is louder than the line, or is all there is.
fn own_voice(stage: &mut Stage) -> Scene {
    let how = Modulation { level: stage.random.level(0.01, 0.1), ..stage.clear() };
    let text = stage.text(4);
    let own = stage.random.pick(&[0.02, 0.3, 0.8]);
    let freq = stage.random.pick(&[stage.tones.own_mark, stage.tones.own_space]);
    let mut tape = stage.tape();
    tape.tone(Wave::Sine, freq, own, 0.3);
    let from = tape.seconds();
    tape.idle(how, 60);
    tape.bytes(how, &text);
    tape.add_tone(freq, own, from);
    plain(tape)
}

/// One framing error every ten bits.
fn space_held(stage: &mut Stage) -> Scene {
    let how = stage.clear();
    let mut tape = stage.tape();
    tape.preamble(how);
    tape.bits(how, &vec![false; stage.random.whole(5, 120) as usize]);
    tape.idle(how, 12);
    let text = stage.text(5);
    tape.bytes(how, &text);
    plain(tape)
}

/// Samples of any size, held for a while or changing at once.
fn any_samples(stage: &mut Stage) -> Scene {
    let mut tape = stage.tape();
    while tape.seconds() < 1.0 {
        match stage.random.whole(0, 4) {
            0 => {
                let value = stage.random.pick(&[1.0, -1.0, 0.25, -0.0, 1e-44]);
                let seconds = stage.random.between(0.0, 0.05);
                tape.hold(value, seconds);
            }
            1 => {
                let level = stage.random.level(1e-9, 1.0);
                tape.noise(stage.random, level, 0.02);
            }
            _ => {
                for _ in 0..50 {
                    // Any exponent: from full scale to the smallest f32.
                    let bits = stage.random.next() as u32;
                    let value = f32::from_bits(bits & 0xBFFF_FFFF);
                    tape.sample(f64::from(value).clamp(-1.0, 1.0));
                }
            }
        }
    }
    plain(tape)
}

/// A line with samples that are refused, and their whole write with them.
fn refused_samples(stage: &mut Stage) -> Scene {
    let mut samples = line(stage).samples;
    let bad = [f32::NAN, f32::INFINITY, f32::NEG_INFINITY, 1.0000001, -1.0000001, 3.0e38];
    for _ in 0..stage.random.whole(1, 8) {
        let at = stage.random.whole(0, samples.len() as u32 - 1) as usize;
        samples[at] = stage.random.pick(&bad);
    }
    Scene { samples, manners: None }
}

/// More than 64 events: a pulse and a pause longer than the hold-off, often
/// enough. Most of the time nobody drains them.
fn many_events(stage: &mut Stage) -> Scene {
    let how = Modulation { level: 0.04, ..stage.clear() };
    let mut tape = stage.tape();
    tape.idle(how, 40);
    for _ in 0..stage.random.whole(33, 37) {
        tape.silence(0.57);
        tape.tone(Wave::Sine, how.mark, how.level, 0.03);
    }
    let manners = if stage.random.once_in(4) { Manners::Few } else { Manners::Nothing };
    Scene { samples: tape.finish(), manners: Some(manners) }
}

/// More than 409 bytes wait: further writes are refused until some are read.
fn unread(stage: &mut Stage) -> Scene {
    let how = stage.clear();
    let text = stage.text(450);
    let mut tape = stage.tape();
    tape.preamble(how);
    tape.bytes(how, &text);
    Scene { samples: tape.finish(), manners: Some(Manners::Late) }
}
