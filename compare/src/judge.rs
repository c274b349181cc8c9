//! The board, written from documents 01 and 02 alone: what it hears
//! (`hearing.rs`), and a judge of tide lines that shares nothing with the port's.

use crate::hearing::{Ears, Heard, Timing, BOARD};
use crate::layout::*;
use crate::oracle::{part, rate_fits};

/// The answers that a line can get, in the order in which their counts stand.
const ANSWERS: [u64; COUNTS] = [0, 11, 12, 13, 14, 15, 16, 17, 18, 19, 20, 34];

pub struct Judge {
    station: u64,
    line: Vec<u8>,
    /// Since the carrier was lost, and no 0A came yet.
    skipping: bool,
    /// Water minute and level.
    pub reading: Option<(u64, i64)>,
    pub counts: [u64; COUNTS],
}

impl Judge {
    pub fn new(station: u64) -> Judge {
        let (line, skipping) = (Vec::new(), false);
        Judge { station, line, skipping, reading: None, counts: [0; COUNTS] }
    }

    /// "Drops .. the unended line, and skips all bytes up to and including the
    /// next 0A."
    fn lose(&mut self) {
        self.line.clear();
        self.skipping = true;
    }

    /// Takes a byte; the line's answer where the byte ends one. "Skipped text is no
    /// line".
    pub fn byte(&mut self, byte: u8) -> Option<u64> {
        if self.skipping {
            self.skipping = byte != b'\n';
            return None;
        }
        if byte != b'\n' {
            self.line.push(byte);
            return None;
        }
        let line = std::mem::take(&mut self.line);
        let answer = match good(&line, self.station) {
            Err(number) => number,
            Ok((water, level)) => match self.reading {
                Some((shown, _)) if water <= shown => 34,
                _ => {
                    self.reading = Some((water, level));
                    0
                }
            },
        };
        let place = ANSWERS.iter().position(|&a| a == answer).expect("an answer of a line");
        self.counts[place] += 1;
        Some(answer)
    }
}

/// Water minute and level of a good line, or the first of 11 to 20 that applies.
fn good(line: &[u8], station: u64) -> Result<(u64, i64), u64> {
    if line.len() > 64 {
        return Err(11);
    }
    if line.len() < 26 || line.len() % 2 == 1 {
        return Err(12);
    }
    let mut digits = Vec::new();
    for c in line {
        match b"0123456789ABCDEF".iter().position(|d| d == c) {
            Some(value) => digits.push(value as u64),
            None => return Err(13),
        }
    }
    let bytes: Vec<u64> = digits.chunks_exact(2).map(|d| d[0] * 16 + d[1]).collect();
    let field = |from: usize, to: usize| bytes[from..=to].iter().fold(0, |f, b| f << 8 | b);
    if bytes[2] != bytes.len() as u64 {
        return Err(14);
    }
    if bytes.iter().sum::<u64>() % 256 != 0 {
        return Err(15);
    }
    let (version, reader) = (bytes[0], bytes[1]);
    if version == 0 || reader == 0 || reader > version || (version == 1 && bytes.len() != 13) {
        return Err(16);
    }
    if reader > 1 {
        return Err(17);
    }
    if field(3, 4) != station {
        return Err(18);
    }
    let (stamp, age) = (field(5, 8), bytes[9]);
    if age == 255 || age > stamp {
        return Err(19);
    }
    let level = i64::from(field(10, 11) as u16 as i16);
    if level == -32_768 {
        return Err(20);
    }
    Ok((stamp - age, level))
}

/// "1 rate outside 8,000 to 48,000. 2 station 0": the first that applies, or 0.
pub fn board_refusal(rate: u32, station: u16) -> u32 {
    if !rate_fits(rate) {
        1
    } else if station == 0 {
        2
    } else {
        0
    }
}

/// How often the carrier was lost, and where.
#[derive(Clone, Copy, Default)]
pub struct Losses {
    pub all: u64,
    /// With a byte half read.
    pub in_a_byte: u64,
    /// With a line unended.
    pub in_a_line: u64,
    /// With no character behind the last 0A.
    pub behind_an_end: u64,
    /// Before a 0A ended the text that an earlier one had skipped.
    pub while_skipping: u64,
    /// In a write that then hears a 0A.
    pub before_an_end: u64,
    /// Bytes that were skipped, the 0A too.
    pub skipped: u64,
}

impl Losses {
    /// A loss that is about to reach this judge.
    fn add(&mut self, judge: &Judge, half_byte: bool) {
        let (skipping, unended) = (judge.skipping, !judge.line.is_empty());
        self.all += 1;
        self.in_a_byte += u64::from(half_byte);
        self.in_a_line += u64::from(unended);
        self.behind_an_end += u64::from(!unended && !skipping);
        self.while_skipping += u64::from(skipping);
    }

    pub fn join(&mut self, other: &Losses) {
        self.all += other.all;
        self.in_a_byte += other.in_a_byte;
        self.in_a_line += other.in_a_line;
        self.behind_an_end += other.behind_an_end;
        self.while_skipping += other.while_skipping;
        self.before_an_end += other.before_an_end;
        self.skipped += other.skipped;
    }
}

pub struct Board {
    ears: Ears,
    judge: Judge,
    pub losses: Losses,
}

impl Board {
    pub fn new(rate: u32, station: u16, role: u32) -> Board {
        let judge = Judge::new(u64::from(station));
        Board { ears: Ears::new(rate, role, BOARD), judge, losses: Losses::default() }
    }

    /// The write's answer (`layout::JUDGED`).
    pub fn write(&mut self, samples: &[f32]) -> [u64; JUDGED] {
        let heard = match self.ears.write(samples) {
            Ok(heard) => heard,
            Err(number) => return [number, 0, 0, 0, 0],
        };
        let (mut answer, mut lost) = ([0; JUDGED], false);
        for happening in heard {
            match happening {
                Heard::Lost { half_byte } => {
                    self.losses.add(&self.judge, half_byte);
                    self.judge.lose();
                    lost = true;
                }
                Heard::BadStop => answer[4] += 1,
                Heard::Byte(byte) => {
                    answer[1] += 1;
                    self.losses.skipped += u64::from(self.judge.skipping);
                    self.losses.before_an_end += u64::from(lost && byte == b'\n');
                    if let Some(number) = self.judge.byte(byte) {
                        answer[2] += 1;
                        answer[3] = number;
                    }
                }
            }
        }
        answer
    }

    pub fn timing(&self) -> Timing {
        self.ears.timing
    }

    /// What is shown, and the counts (`layout::SHOWN`).
    pub fn shown(&self) -> [u64; SHOWN] {
        let mut shown = [0; SHOWN];
        if let Some((water, level)) = self.judge.reading {
            shown[..3].copy_from_slice(&[1, water, level as u64 & 0xFFFF]);
        }
        shown[3..].copy_from_slice(&self.judge.counts);
        shown
    }
}

/// A fresh board, and one write for each length, as long as there is room for
/// the answers (`layout::JUDGED`). A write takes the next samples, or what is
/// left of them. Afterwards `shown` holds what the board shows and its counts
/// (`layout::SHOWN`), if it has room for them. Returns the number of writes;
/// where `new` is refused that is 0 and nothing is written.
pub fn listen(
    rate: u32,
    station: u16,
    role: u32,
    samples: &[f32],
    lengths: &[u32],
    answers: &mut [u64],
    shown: &mut [u64],
) -> usize {
    if board_refusal(rate, station) != 0 {
        return 0;
    }
    let mut board = Board::new(rate, station, role);
    let (mut read, mut writes) = (0, 0);
    for (&length, answer) in lengths.iter().zip(answers.chunks_exact_mut(JUDGED)) {
        let block = part(samples, read, length);
        read += block.len();
        answer.copy_from_slice(&board.write(block));
        writes += 1;
    }
    if shown.len() >= SHOWN {
        shown[..SHOWN].copy_from_slice(&board.shown());
    }
    writes
}

#[cfg(test)]
mod tests {
    use super::*;
    use crate::signal::{Modulation, Tape, Tones, Wave};

    fn clear(role: u32) -> Modulation {
        let tones = Tones::heard_by(role);
        let (mark, space) = (tones.mark, tones.space);
        Modulation { mark, space, level: 0.4, offset: 0.0, wave: Wave::Sine }
    }

    /// Each write's answer, and what is shown, of a board for station 7.
    fn heard(samples: &[f32], block: u32) -> (Vec<Vec<u64>>, Vec<u64>) {
        let lengths = vec![block; samples.len().div_ceil(block as usize)];
        let (mut answers, mut shown) = (vec![9; JUDGED * lengths.len()], vec![9; SHOWN]);
        let writes = listen(8_000, 7, ANSWER, samples, &lengths, &mut answers, &mut shown);
        assert_eq!(writes, lengths.len());
        (answers.chunks_exact(JUDGED).map(<[u64]>::to_vec).collect(), shown)
    }

    fn sum(answers: &[Vec<u64>], number: usize) -> u64 {
        answers.iter().map(|answer| answer[number]).sum()
    }

    /// 45 spaces are four times a start, eight data bits and a bad stop, and then
    /// the first five bits of a byte that idle mark ends: F0. No write of less
    /// than ten bits has two of them, and each is told once.
    #[test]
    fn bad_stops_are_those_of_the_write() {
        let mut tape = Tape::new(8_000);
        tape.preamble(clear(ANSWER));
        tape.bits(clear(ANSWER), &[false; 45]);
        tape.idle(clear(ANSWER), 12);
        tape.bytes(clear(ANSWER), b"A");
        tape.idle(clear(ANSWER), 12);
        let samples = tape.finish();
        for block in [1, 64, 250] {
            let (answers, _) = heard(&samples, block);
            assert_eq!((sum(&answers, 1), sum(&answers, 4)), (4, 4), "UU, F0 and A");
            assert!(answers.iter().all(|answer| answer[4] <= 1));
        }
        let (answers, _) = heard(&samples, 1_024);
        assert_eq!(sum(&answers, 4), 4);
        assert!(answers.iter().any(|answer| answer[4] > 1));
    }

    const GOOD: &[u8] = b"01010D000700C0000005019C88\n";
    const LATER: &[u8] = b"01010D000700C0001015019C68\n";

    /// Calls with silence between them, in which the carrier is lost.
    fn calls(texts: &[&[u8]]) -> Vec<f32> {
        let mut tape = Tape::new(8_000);
        for text in texts {
            tape.preamble(clear(ANSWER));
            tape.bytes(clear(ANSWER), text);
            tape.idle(clear(ANSWER), 12);
            tape.silence(0.65);
        }
        tape.finish()
    }

    /// The answers of all lines judged, in order, and the bytes heard, in blocks of
    /// several lengths. In blocks of a few bits no write ends two lines.
    fn judged(texts: &[&[u8]]) -> (Vec<u64>, u64) {
        let samples = calls(texts);
        let (answers, shown) = heard(&samples, 7);
        let ended = answers.iter().filter(|a| a[2] > 0).map(|a| a[3]).collect();
        for block in [1, 64, 441, 1_024] {
            let (others, others_shown) = heard(&samples, block);
            assert_eq!(others_shown, shown);
            for number in [1, 2, 4] {
                assert_eq!(sum(&others, number), sum(&answers, number));
            }
        }
        (ended, sum(&answers, 1))
    }

    /// UU and the 0A of the first call are a line of two characters: 12.
    #[test]
    fn a_stump_is_no_line_and_not_sewn_onto_the_next() {
        let texts: [&[u8]; 2] = [b"\n01010D0007", &[b"\n", GOOD].concat()];
        assert_eq!(judged(&texts), (vec![12, 0], 13 + 3 + 27));
    }

    #[test]
    fn a_line_without_its_end_is_no_line() {
        let texts: [&[u8]; 2] = [&[b"\n", &GOOD[..26]].concat(), &[b"\n", LATER].concat()];
        assert_eq!(judged(&texts).0, [12, 0]);
    }

    /// Behind a 0A too all is skipped up to the next one: a call that does not open
    /// with a bare 0A loses its first line.
    #[test]
    fn a_loss_behind_an_end_skips_to_the_next_end() {
        let texts: [&[u8]; 2] = [&[b"\n", LATER].concat(), &[GOOD, GOOD].concat()];
        assert_eq!(judged(&texts).0, [12, 0, 34]);
    }

    /// The second call has no 0A: what was skipped goes on behind the second loss.
    #[test]
    fn a_loss_while_skipping_skips_on() {
        let texts: [&[u8]; 3] = [b"\n01010D", b"0101", &[GOOD, LATER].concat()];
        assert_eq!(judged(&texts), (vec![12, 0], 9 + 6 + 2 + 54));
    }

    /// The 0A that ends the skipped text is no empty line, and one behind it is.
    #[test]
    fn the_end_of_what_is_skipped_is_eaten() {
        let texts: [&[u8]; 2] = [b"\n01", &[b"\n\n", GOOD].concat()];
        assert_eq!(judged(&texts).0, [12, 12, 0]);
    }

    /// Silence too short for the carrier to be lost: the line runs on.
    #[test]
    fn without_a_loss_the_line_runs_on() {
        let mut tape = Tape::new(8_000);
        tape.preamble(clear(ANSWER));
        tape.bytes(clear(ANSWER), &[b"\n", &GOOD[..10]].concat());
        tape.idle(clear(ANSWER), 12);
        tape.silence(0.3);
        tape.idle(clear(ANSWER), 12);
        tape.bytes(clear(ANSWER), &GOOD[10..]);
        tape.idle(clear(ANSWER), 12);
        let (answers, shown) = heard(&tape.finish(), 7);
        let ended: Vec<u64> = answers.iter().filter(|a| a[2] > 0).map(|a| a[3]).collect();
        assert_eq!(ended, [12, 0]);
        assert_eq!(shown[..3], [1, 12_582_907, 412]);
    }

    #[test]
    fn a_refused_write_has_no_bad_stop() {
        let mut tape = Tape::new(8_000);
        tape.preamble(clear(ANSWER));
        tape.bits(clear(ANSWER), &[false; 45]);
        let mut samples = tape.finish();
        let at = samples.len() - 400;
        samples[at] = 1.5;
        let (answers, _) = heard(&samples, 250);
        assert_eq!(answers[at / 250], [4, 0, 0, 0, 0]);
        assert!(sum(&answers, 4) > 0);
    }
}
