//! Refusals, and that a refused call changes nothing. Into lists of calls that
//! are accepted, refused ones are put, with samples of their own. Then both
//! sides must answer alike; the other calls must be answered as they are
//! without them; the state at the end must be the same; and at two of the refused
//! calls the state before is the state behind.

use crate::cases::{rate_of, Heard, ReceiverCase, Turned, TurnsCase, WILD};
use crate::difference::{of_heard, of_turned};
use crate::layout::*;
use crate::random::Random;
use crate::side::{Side, ORIGINAL, PORT};
use crate::signal::{Modulation, Tape, Tones, Wave};

const UNTOUCHED: u64 = 777_777;

/// Refusals 1 and 2 of a fresh board: each rate to 65,535 and some beyond, with
/// station 0 and others; each station, at rates that are admitted and not. A
/// refused board runs no write and writes nothing.
pub fn of_new_boards() -> Result<String, String> {
    let mut counts = [0; 3];
    let mut one = |rate: u32, station: u16, listens: bool| {
        let refusals =
            [(ORIGINAL.board_refusal)(rate, station), (PORT.board_refusal)(rate, station)];
        if refusals[0] != refusals[1] {
            return Err(format!("rate {rate}, station {station}: refusals {refusals:?}"));
        }
        counts[refusals[0] as usize] += 1;
        if listens && heard(&ORIGINAL, rate, station) != heard(&PORT, rate, station) {
            return Err(format!("rate {rate}, station {station}: a write is answered otherwise"));
        }
        Ok(())
    };
    let edges = [0, 1, 7_999, 8_000, 8_001, 47_999, 48_000, 48_001, 96_000, u32::MAX];
    let stations = [0, 1, 7, 255, 256, 65_535];
    for rate in (0..=65_535).chain(edges) {
        for station in stations {
            one(rate, station, edges.contains(&rate))?;
        }
    }
    for station in 0..=u16::MAX {
        for rate in edges {
            one(rate, station, false)?;
        }
    }
    Ok(format!("{} pairs taken, {} refused with 1, {} with 2", counts[0], counts[1], counts[2]))
}

/// All that a list of two writes leaves.
fn heard(side: &Side, rate: u32, station: u16) -> (usize, Vec<u64>, Vec<u64>) {
    let (mut answers, mut shown) = (vec![UNTOUCHED; 2 * JUDGED + 1], vec![UNTOUCHED; SHOWN + 1]);
    let samples = [0.25; 30];
    let writes =
        (side.listen)(rate, station, ANSWER, &samples, &[20, 10], &mut answers, &mut shown);
    (writes, answers, shown)
}

/// A list of writes, the samples end to end, and which of them are refused.
struct Writes {
    samples: Vec<f32>,
    lengths: Vec<u32>,
    refused: Vec<usize>,
}

impl Writes {
    fn accepted(samples: &[f32], random: &mut Random) -> Writes {
        let mut lengths = Vec::new();
        let mut left = samples.len() as u32;
        while left > 0 {
            let n = random.whole(1, 1_024).min(left);
            lengths.push(n);
            left -= n;
        }
        Writes { samples: samples.to_vec(), lengths, refused: Vec::new() }
    }

    /// The same with refused ones between, about as many.
    fn with_refused(&self, random: &mut Random) -> Writes {
        let mut writes = Writes { samples: vec![], lengths: vec![], refused: vec![] };
        let mut at = 0;
        for &n in &self.lengths {
            while random.once_in(2) {
                let samples = refused_samples(random);
                writes.refused.push(writes.lengths.len());
                writes.lengths.push(samples.len() as u32);
                writes.samples.extend(samples);
            }
            writes.lengths.push(n);
            writes.samples.extend(&self.samples[at..at + n as usize]);
            at += n as usize;
        }
        writes
    }
}

/// A write that gets 3 or 4, or both apply.
fn refused_samples(random: &mut Random) -> Vec<f32> {
    let bad = [f32::NAN, f32::INFINITY, f32::NEG_INFINITY, 1.0000001, -1.0000001, f32::MAX];
    let many = random.once_in(2);
    let n = if many { random.whole(1_025, 1_300) } else { random.whole(1, 1_024) };
    let mut samples: Vec<f32> = (0..n).map(|_| random.between(-1.0, 1.0) as f32).collect();
    if !many || random.once_in(3) {
        samples[random.whole(0, n - 1) as usize] = random.pick(&bad);
    }
    samples
}

/// A line and its end, as a board or receiver of this role hears it.
fn line(rate: u32, role: u32) -> Vec<f32> {
    let tones = Tones::heard_by(role);
    let (mark, space) = (tones.mark, tones.space);
    let how = Modulation { mark, space, level: 0.4, offset: 0.0, wave: Wave::Sine };
    let mut tape = Tape::new(rate);
    tape.preamble(how);
    tape.bytes(how, b"\n01010D000700C0000005019C88\n");
    tape.idle(how, 12);
    tape.finish()
}

/// What a board's list of writes, the first so many of them, leaves: the answers
/// and what is shown.
fn listened(side: &Side, rate: u32, role: u32, writes: &Writes, count: usize) -> [Vec<u64>; 2] {
    let mut answers = vec![UNTOUCHED; JUDGED * count];
    let mut shown = vec![UNTOUCHED; SHOWN];
    let lengths = &writes.lengths[..count];
    (side.listen)(rate, 7, role, &writes.samples, lengths, &mut answers, &mut shown);
    [answers, shown]
}

/// The refused writes of a board, 3 and 4, at one rate in one role.
pub fn of_a_board(index: usize, random: &mut Random) -> Result<usize, String> {
    let (rate, role) = (rate_of(index, random), index as u32 % 2);
    let plain = Writes::accepted(&line(rate, role), random);
    let writes = plain.with_refused(random);
    let name = format!("rate {rate}, role {role}");
    let all = writes.lengths.len();
    let [answers, shown] = same(&name, |side| listened(side, rate, role, &writes, all))?;
    let [answers_without, shown_without] =
        same(&name, |side| listened(side, rate, role, &plain, plain.lengths.len()))?;
    let kept = writes.without_refused(&answers, JUDGED, &|answer| {
        [[3, 0, 0, 0, 0], [4, 0, 0, 0, 0]].iter().any(|refusal| answer == refusal)
    });
    if kept.as_ref() != Some(&answers_without) || shown != shown_without || shown[0] != 1 {
        return Err(format!("{name}: a refused write changes what comes after it"));
    }
    for write in writes.some_refused(random) {
        let before = same(&name, |side| listened(side, rate, role, &writes, write))?;
        let behind = same(&name, |side| listened(side, rate, role, &writes, write + 1))?;
        if before[1] != behind[1] {
            return Err(format!("{name}: refused write {write} changes what is shown"));
        }
    }
    Ok(writes.refused.len())
}

impl Writes {
    /// Two of the refused writes, to be looked at before and behind: each look
    /// is a run from fresh.
    fn some_refused(&self, random: &mut Random) -> Vec<usize> {
        (0..2).filter(|_| !self.refused.is_empty()).map(|_| random.pick(&self.refused)).collect()
    }

    /// The answers, of so many numbers each, without those of the refused
    /// writes; None where one of these is no refusal.
    fn without_refused(
        &self,
        answers: &[u64],
        numbers: usize,
        refused: &dyn Fn(&[u64]) -> bool,
    ) -> Option<Vec<u64>> {
        let mut kept = Vec::new();
        for (write, answer) in answers.chunks_exact(numbers).enumerate() {
            if !self.refused.contains(&write) {
                kept.extend(answer);
            } else if !refused(answer) {
                return None;
            }
        }
        Some(kept)
    }

    /// As a receiver's case, the first so many of them; everything is taken
    /// behind an accepted write, nothing behind a refused one.
    fn heard_by(&self, rate: u32, role: u32, count: usize) -> ReceiverCase {
        let call = |write: usize| {
            let taken = if self.refused.contains(&write) { [0, 0] } else { [600, 100] };
            [self.lengths[write], taken[0], taken[1]]
        };
        let script = (0..count).flat_map(call).collect();
        ReceiverCase { rate, role, samples: self.samples.clone(), script }
    }
}

/// What both sides say, if it is the same.
fn same<T: PartialEq>(name: &str, run: impl Fn(&Side) -> T) -> Result<T, String> {
    let (a, b) = (run(&ORIGINAL), run(&PORT));
    if a == b {
        Ok(b)
    } else {
        Err(format!("{name}: the two answer a list with refused writes otherwise"))
    }
}

/// What both receivers heard, if it is the same.
fn same_heard(case: &ReceiverCase) -> Result<Heard, String> {
    let port = case.run(&PORT);
    match of_heard(&case.run(&ORIGINAL), &port) {
        None => Ok(port),
        Some(words) => Err(format!("rate {}, role {}: {words}", case.rate, case.role)),
    }
}

fn bits(state: &[f64]) -> Vec<u64> {
    state.iter().map(|x| x.to_bits()).collect()
}

/// The refused writes of a receiver, 3 and 4, likewise; of it the whole state
/// is compared before and behind each.
pub fn of_a_receiver(index: usize, random: &mut Random) -> Result<usize, String> {
    let (rate, role) = (rate_of(index, random), index as u32 % 2);
    let plain = Writes::accepted(&line(rate, role), random);
    let writes = plain.with_refused(random);
    let with = same_heard(&writes.heard_by(rate, role, writes.lengths.len()))?;
    let without = same_heard(&plain.heard_by(rate, role, plain.lengths.len()))?;
    let name = format!("rate {rate}, role {role}");
    let kept = writes.without_refused(&with.answers, HEARD, &|answer| {
        [3, 4].contains(&answer[0]) && answer[1..3] == [0, 0] && answer[5] == 0
    });
    if kept.as_ref() != Some(&without.answers) || bits(&with.state) != bits(&without.state) {
        return Err(format!("{name}: a refused write changes what comes after it"));
    }
    for write in writes.some_refused(random) {
        let before = same_heard(&writes.heard_by(rate, role, write))?;
        let behind = same_heard(&writes.heard_by(rate, role, write + 1))?;
        if bits(&before.state) != bits(&behind.state) {
            return Err(format!("{name}: refused write {write} changes the state"));
        }
    }
    Ok(writes.refused.len())
}

/// A receiver whose bytes nobody reads, until a write gets 32; and the state
/// before and behind that.
pub fn of_a_full_receiver(rate: u32, role: u32) -> Result<(), String> {
    let tones = Tones::heard_by(role);
    let (mark, space) = (tones.mark, tones.space);
    let how = Modulation { mark, space, level: 0.4, offset: 0.0, wave: Wave::Sine };
    let mut tape = Tape::new(rate);
    tape.preamble(how);
    tape.bytes(how, &[b'U'; 430]);
    let samples = tape.finish();
    let script = [1_000, 0, 0].repeat(samples.len() / 1_000);
    let case = ReceiverCase { rate, role, samples, script };
    let heard = same_heard(&case)?;
    let Some(first) = heard.answers.chunks_exact(HEARD).position(|answer| answer[0] == 32) else {
        return Err(format!("rate {rate}, role {role}: no write gets 32"));
    };
    let upto = |calls: usize| {
        let script = case.script[..CALL * calls].to_vec();
        same_heard(&ReceiverCase { script, ..case.clone() })
    };
    if bits(&upto(first)?.state) != bits(&upto(first + 1)?.state) {
        return Err(format!("rate {rate}, role {role}: a write that gets 32 changes the state"));
    }
    Ok(())
}

/// A list of calls of the resampler that are accepted, and the same with refused
/// ones between, and the number that each of these gets.
struct Turns {
    plain: TurnsCase,
    with: TurnsCase,
    refused: Vec<(usize, u64)>,
}

/// Samples that get 3, 43, or 5 since more come than all of the output holds; or
/// several apply.
fn refused_block(random: &mut Random) -> (Vec<f64>, u64) {
    let (n, number) = random.pick(&[(2_049, 3), (2_100, 3), (2_048, 5), (2_048, 43), (40, 43)]);
    let mut block: Vec<f64> = (0..n).map(|_| random.between(-1.0, 1.0)).collect();
    if number == 43 || number == 3 && random.once_in(2) {
        block[random.whole(0, n - 1) as usize] = random.pick(&WILD);
    }
    (block, number)
}

impl Turns {
    fn random(src: u32, dst: u32, random: &mut Random) -> Turns {
        let case = TurnsCase { src, dst, input: vec![], script: vec![], room: 0, answers: 0 };
        let mut turns = Turns { plain: case.clone(), with: case, refused: vec![] };
        for _ in 0..random.whole(10, 20) {
            let n = random.whole(0, 40);
            let block: Vec<f64> = (0..n).map(|_| random.between(-1.0, 1.0)).collect();
            turns.plain.push(&block);
            turns.with.push(&block);
            turns.plain.room += (n * dst).div_ceil(src) as usize + 2;
            while random.once_in(2) {
                let (block, number) = refused_block(random);
                turns.refused.push((turns.with.script.len() / TURN, number));
                turns.with.push(&block);
            }
        }
        turns.with.room = turns.plain.room;
        turns
    }
}

impl TurnsCase {
    /// One call more, with these samples.
    pub fn push(&mut self, block: &[f64]) {
        self.input.extend(block);
        self.script.extend([PROCESS, block.len() as u32]);
        self.answers += TOLD;
    }

    /// What both sides leave behind the first so many calls, if it is the same.
    fn behind(&self, calls: usize) -> Result<Turned, String> {
        let script = self.script[..TURN * calls].to_vec();
        let case = TurnsCase { script, answers: TOLD * calls, ..self.clone() };
        let port = case.run(&PORT);
        match of_turned(&case.run(&ORIGINAL), &port) {
            None => Ok(port),
            Some(words) => Err(format!("{} to {}: {words}", self.src, self.dst)),
        }
    }
}

/// The refused calls of a resampler, 3, 43 and 5, likewise.
pub fn of_a_resampler(index: usize, random: &mut Random) -> Result<usize, String> {
    let rate = rate_of(index, random);
    let (src, dst) = if index % 2 == 0 { (rate, 8_000) } else { (8_000, rate) };
    let turns = Turns::random(src, dst, random);
    let with = turns.with.behind(turns.with.script.len() / TURN)?;
    let without = turns.plain.behind(turns.plain.script.len() / TURN)?;
    let mut kept: Vec<u64> = Vec::new();
    for (call, answer) in with.resampled.answers.chunks_exact(TOLD).enumerate() {
        match turns.refused.iter().find(|(refused, _)| *refused == call) {
            None => kept.extend(answer),
            Some(&(_, number)) if answer == [number, 0] => {}
            _ => return Err(format!("{src} to {dst}: call {call} is answered by {answer:?}")),
        }
    }
    let alike = bits(&with.resampled.output) == bits(&without.resampled.output);
    if kept != without.resampled.answers || !alike || bits(&with.state) != bits(&without.state) {
        return Err(format!("{src} to {dst}: a refused call changes what comes after it"));
    }
    for &(call, _) in turns.refused.iter().take(2) {
        let (before, behind) = (turns.with.behind(call)?, turns.with.behind(call + 1)?);
        if bits(&before.state) != bits(&behind.state) {
            return Err(format!("{src} to {dst}: refused call {call} changes the state"));
        }
    }
    Ok(turns.refused.len())
}
