//! Calls to a board: tide lines of every kind, whole and damaged, well and
//! badly modulated, and noise; what both sides answer to each write; and what
//! they show after it.

use crate::cases::{rate_of, Cut};
use crate::hearing::Timing;
use crate::judge::{board_refusal, Board, Losses};
use crate::layout::*;
use crate::lines::line;
use crate::random::Random;
use crate::side::{Side, ORIGINAL, PORT};
use crate::signal::{Modulation, Tape, Tones, Wave};

const UNTOUCHED: u64 = 777_777;

/// Where samples times writes are fewer, the board is compared after every
/// write, each time from a fresh one; else after each write that ends a line.
const EVERY_WRITE: usize = 4_000_000;

pub struct BoardCase {
    rate: u32,
    station: u16,
    role: u32,
    samples: Vec<f32>,
    lengths: Vec<u32>,
    /// Places of the answers and of what is shown.
    answers: usize,
    shown: usize,
}

/// What one side answered.
#[derive(PartialEq, Debug)]
struct Listened {
    writes: usize,
    answers: Vec<u64>,
    shown: Vec<u64>,
}

/// What the cases brought about: one place for each line answer, then writes,
/// bytes, bad stops, and lists of writes.
#[derive(Default)]
pub struct Seen {
    pub answers: [u64; COUNTS],
    pub writes: usize,
    pub refused: usize,
    pub bytes: u64,
    pub bad_stops: u64,
    pub lists: usize,
    /// Cases that were compared after every write.
    pub every: usize,
    pub losses: Losses,
    pub pace: Pace,
}

/// How often the limit acted, and how far apart boundaries lay.
#[derive(Default)]
pub struct Pace {
    pub boundaries: u64,
    pub limited: u64,
    pub fewest: Option<u64>,
    pub most: Option<u64>,
}

impl Pace {
    /// "Neighbouring boundaries then lie 21 to 33 steps apart, and the first comes
    /// within 32 steps of the ring filling."
    fn add(&mut self, timing: Timing) -> Result<(), String> {
        self.boundaries += timing.boundaries;
        self.limited += timing.beyond;
        self.join(timing.fewest, timing.most);
        if self.fewest < Some(21) && self.fewest.is_some()
            || self.most > Some(33)
            || timing.first > 32
        {
            return Err(format!(
                "boundaries {:?} to {:?} steps apart, the first at {}",
                timing.fewest, timing.most, timing.first
            ));
        }
        Ok(())
    }

    fn join(&mut self, fewest: Option<u64>, most: Option<u64>) {
        self.fewest = [self.fewest, fewest].into_iter().flatten().min();
        self.most = self.most.max(most);
    }
}

impl BoardCase {
    pub fn random(index: usize, random: &mut Random) -> BoardCase {
        let rate = if random.once_in(16) {
            random.pick(&[0, 7_999, 48_001])
        } else {
            rate_of(index, random)
        };
        let role = random.whole(ORIGINATE, ANSWER);
        let station = if random.once_in(16) { 0 } else { random.pick(&[7, 258, 65_535]) };
        let mut samples = recording(rate.max(8_000), role, station, random);
        if random.once_in(3) && !samples.is_empty() {
            // A write with it gets 4.
            let at = random.whole(0, samples.len() as u32 - 1) as usize;
            samples[at] = random.pick(&[1.5, f32::NAN, f32::NEG_INFINITY, -1.0000001]);
        }
        let mut lengths = Cut::of(index).lengths(random, samples.len(), 1_024);
        if random.once_in(4) {
            lengths.extend([5, 0, u32::MAX]);
        }
        // Too few answers now and then: the last writes are then not run.
        let answers = match random.whole(0, 9) {
            0 => (JUDGED * lengths.len()).saturating_sub(1),
            1 => JUDGED * lengths.len() / 2,
            2 => JUDGED * lengths.len() + 3,
            _ => JUDGED * lengths.len(),
        };
        let shown = random.pick(&[SHOWN, SHOWN, SHOWN, SHOWN + 2, SHOWN - 1, 0]);
        BoardCase { rate, station, role, samples, lengths, answers, shown }
    }

    /// A line for each of the answers 0, 11 to 20 and 34, in writes of 1,000.
    pub fn with_every_answer() -> BoardCase {
        let lines: [&[u8]; COUNTS] = [
            b"01010D000700C0000005019C88",
            &[b'0'; 65],
            b"01",
            b"01010d000700c0000005019c88",
            b"01010E000700C0000005019C87",
            b"01010D000700C0000005019C89",
            b"01000D000700C0000005019C89",
            b"03020E000700C0000005019C5A2A",
            b"01010D000800C0000005019C87",
            b"01010D000700C00000FF019C8E",
            b"01010D000700C00000058000A5",
            b"01010D000700C0001015019C68",
        ];
        let tones = Tones::heard_by(ANSWER);
        let (mark, space) = (tones.mark, tones.space);
        let how = Modulation { mark, space, level: 0.4, offset: 0.0, wave: Wave::Sine };
        let mut tape = Tape::new(8_000);
        tape.preamble(how);
        tape.bytes(how, b"\n");
        for line in lines {
            tape.bytes(how, &[line, b"\n"].concat());
        }
        tape.idle(how, 12);
        let samples = tape.finish();
        let lengths = vec![1_000; samples.len().div_ceil(1_000)];
        BoardCase::whole(8_000, 7, ANSWER, samples, lengths)
    }

    /// With room for every answer and for what is shown.
    pub fn whole(
        rate: u32,
        station: u16,
        role: u32,
        samples: Vec<f32>,
        lengths: Vec<u32>,
    ) -> BoardCase {
        let answers = JUDGED * lengths.len();
        BoardCase { rate, station, role, samples, lengths, answers, shown: SHOWN }
    }

    /// The independent board behind the whole list.
    pub fn model(&self) -> Board {
        let mut board = Board::new(self.rate, self.station, self.role);
        let mut rest = &self.samples[..];
        for &length in &self.lengths {
            let (block, behind) = rest.split_at(rest.len().min(length as usize));
            board.write(block);
            rest = behind;
        }
        board
    }

    fn run(&self, side: &Side, writes: usize) -> Listened {
        let mut answers = vec![UNTOUCHED; self.answers];
        let mut shown = vec![UNTOUCHED; self.shown];
        let lengths = &self.lengths[..writes];
        let writes = (side.listen)(
            self.rate,
            self.station,
            self.role,
            &self.samples,
            lengths,
            &mut answers,
            &mut shown,
        );
        Listened { writes, answers, shown }
    }

    /// Runs both sides on the whole list, and on the list up to every write, or
    /// up to each that ended a line (`EVERY_WRITE`), so that what is shown after
    /// it is compared too.
    pub fn seen(&self) -> Result<Seen, String> {
        let mut seen = Seen::default();
        let whole = self.run(&ORIGINAL, self.lengths.len());
        let told = whole.answers.chunks_exact(JUDGED).take(whole.writes);
        let every = self.samples.len() * whole.writes < EVERY_WRITE;
        let ends = told.clone().enumerate().filter(|(_, a)| every || a[2] > 0);
        let mut lists: Vec<usize> = ends.map(|(i, _)| i + 1).collect();
        lists.extend([0, 1.min(self.lengths.len()), self.lengths.len()]);
        seen.every += usize::from(every);
        for writes in lists {
            let (a, b) = (self.run(&ORIGINAL, writes), self.run(&PORT, writes));
            seen.lists += 1;
            if a != b {
                return Err(format!(
                    "rate {}, station {}, role {}, {writes} writes: {}",
                    self.rate,
                    self.station,
                    self.role,
                    words(&a, &b)
                ));
            }
        }
        seen.writes += whole.writes;
        seen.refused += told.clone().filter(|a| a[0] != 0).count();
        seen.bytes += told.clone().map(|a| a[1]).sum::<u64>();
        seen.bad_stops += told.map(|a| a[4]).sum::<u64>();
        if whole.writes > 0 && self.shown >= SHOWN {
            seen.answers.copy_from_slice(&whole.shown[3..SHOWN]);
        }
        if board_refusal(self.rate, self.station) == 0 {
            let board = self.model();
            seen.losses = board.losses;
            seen.pace.add(board.timing())?;
        }
        Ok(seen)
    }
}

impl Seen {
    pub fn sum(cases: &[Seen]) -> Seen {
        let mut all = Seen::default();
        for case in cases {
            all.answers.iter_mut().zip(&case.answers).for_each(|(sum, n)| *sum += n);
            all.writes += case.writes;
            all.refused += case.refused;
            all.bytes += case.bytes;
            all.bad_stops += case.bad_stops;
            all.lists += case.lists;
            all.every += case.every;
            all.losses.join(&case.losses);
            all.pace.boundaries += case.pace.boundaries;
            all.pace.limited += case.pace.limited;
            all.pace.join(case.pace.fewest, case.pace.most);
        }
        all
    }
}

/// The first write that is answered otherwise, or what is shown behind the last.
fn words(a: &Listened, b: &Listened) -> String {
    let answers = a.answers.chunks(JUDGED).zip(b.answers.chunks(JUDGED)).enumerate();
    let (what, a, b) = match answers.into_iter().find(|(_, (a, b))| a != b) {
        _ if a.writes != b.writes => ("run".into(), vec![a.writes as u64], vec![b.writes as u64]),
        Some((i, (a, b))) => (format!("write {i}"), a.to_vec(), b.to_vec()),
        None => ("shown".into(), a.shown.clone(), b.shown.clone()),
    };
    format!("{what}: {a:?} from the original, {b:?} from the port")
}

/// A call: lines with pauses, at times with noise, a lost carrier or a clock
/// that is off; or noise alone.
fn recording(rate: u32, role: u32, station: u16, random: &mut Random) -> Vec<f32> {
    let mut tape = Tape::new(rate.min(48_000));
    if random.once_in(10) {
        let level = random.level(1e-4, 0.9);
        tape.noise(random, level, 1.5);
        return tape.finish();
    }
    let tones = Tones::heard_by(role);
    let how = Modulation {
        mark: tones.mark,
        space: tones.space,
        level: random.level(0.05, 0.6),
        offset: random.pick(&[0.0, 0.0, 0.0, 0.01, -0.01]),
        wave: random.pick(&[Wave::Sine, Wave::Sine, Wave::Square]),
    };
    tape.preamble(how);
    tape.bytes(how, b"\n");
    let mut newest = random.whole(0, 20_000_000);
    for _ in 0..random.whole(2, 6) {
        let line = line(random, station, &mut newest, 12);
        tape.bytes(how, &line);
        tape.idle(how, random.whole(0, 20) as usize);
    }
    tape.idle(how, 12);
    let seconds = tape.seconds();
    if random.once_in(6) {
        tape.add_noise(random, how.level * 0.5, 0.0);
    }
    if random.once_in(6) {
        tape.cut(random.between(0.0, seconds), random.between(0.01, 0.8));
    }
    tape.finish()
}
