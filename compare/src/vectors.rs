//! The original's answers to a fixed set of calls, as text that a program of
//! the repository replays without Rust at hand. `text.rs` says how to read it.
//!
//! Most lines here are square waves: their samples have two values, so four of
//! them take one digit. One line of sines is there as well.

use std::path::Path;
use std::process::ExitCode;

use crate::cases::{bits_of, ReceiverCase, ResamplerCase, SenderCase};
use crate::layout::*;
use crate::random::Random;
use crate::side::ORIGINAL;
use crate::signal::{Modulation, Tape, Tones, Wave};
use crate::text::{Remark, Text};

/// The most that both files together may take, and the sender's part of them.
const LIMIT: usize = 200_000;
const LIMIT_OF_SENDER: usize = 60_000;

/// Writes `stdin`, the calls, and `stdout`, the original's answers, into the
/// folder of the program that replays them.
pub fn run(folder: &str) -> ExitCode {
    let mut text = Text::new();
    receiver(&mut text);
    resampler(&mut text);
    let before = text.len();
    sender(&mut text);
    println!("the sender's part: {} bytes", text.len() - before);
    let limit = LIMIT.min(before) + LIMIT_OF_SENDER;
    for (name, text) in [("stdin", &text.calls), ("stdout", &text.answers)] {
        let path = Path::new(folder).join(name);
        if let Err(e) = std::fs::write(&path, text) {
            eprintln!("{}: {e}", path.display());
            return ExitCode::FAILURE;
        }
        println!("{}: {} lines, {} bytes", path.display(), text.lines().count(), text.len());
    }
    if text.len() > limit {
        eprintln!("{} bytes are more than {limit}", text.len());
        return ExitCode::FAILURE;
    }
    ExitCode::SUCCESS
}

/// Takes everything after each call.
fn all(n: u32) -> [u32; CALL] {
    [n, 600, 64]
}

fn square(role: u32) -> Modulation {
    let tones = Tones::heard_by(role);
    Modulation {
        mark: tones.mark,
        space: tones.space,
        level: 0.25,
        offset: 0.0,
        wave: Wave::Square,
    }
}

/// Full calls over the samples, everything taken after each.
fn in_full_calls(rate: u32, role: u32, tape: Tape) -> ReceiverCase {
    let samples = tape.finish();
    let script = all(1_024).repeat(samples.len().div_ceil(1_024));
    ReceiverCase { rate, role, samples, script }
}

/// Calls that end just before and just behind each sample that brings
/// something new, so that its place shows; everything taken after each.
fn around_news(rate: u32, role: u32, tape: Tape) -> ReceiverCase {
    let samples = tape.finish();
    let script = all(1).repeat(samples.len());
    let mut case = ReceiverCase { rate, role, samples, script };
    let heard = case.run(&ORIGINAL);
    let mut reports = [0; 2];
    let mut ends = Vec::new();
    for (i, answer) in heard.answers.chunks_exact(HEARD).enumerate() {
        if answer[1] + answer[2] > 0 || answer[3..5] != reports {
            ends.extend([i, i + 1]);
        }
        reports.copy_from_slice(&answer[3..5]);
    }
    ends.push(case.samples.len());
    case.script.clear();
    let mut start = 0;
    for end in ends {
        while start < end {
            let n = (end - start).min(1_024);
            case.script.extend(all(n as u32));
            start += n;
        }
    }
    case
}

pub fn receiver(text: &mut Text) {
    text.remark("The receiver: each write, and the original's answer.");
    rates(text);
    lines(text);
    sines(text);
    interruptions(text);
    noise(text);
    many_events(text);
    unread(text);
    refused(text);
}

fn add(text: &mut Text, words: &str, case: &ReceiverCase) {
    text.remark(words);
    add_with(text, case, &[]);
}

fn add_with(text: &mut Text, case: &ReceiverCase, remarks: &[Remark]) {
    text.receiver(case, &case.run(&ORIGINAL), remarks);
}

/// The rates at the ends of the range, and those just outside.
fn rates(text: &mut Text) {
    text.remark("rates outside 8000 to 48000 get 1");
    for (rate, role) in [
        (8_000, ORIGINATE),
        (48_000, ANSWER),
        (7_999, ORIGINATE),
        (48_001, ANSWER),
        (0, ANSWER),
        (u32::MAX, ORIGINATE),
    ] {
        let case = ReceiverCase { rate, role, samples: vec![], script: all(0).into() };
        add_with(text, &case, &[]);
    }
}

/// The whole chain, at rates with and without a filter.
fn lines(text: &mut Text) {
    for (rate, role) in [
        (8_000, ORIGINATE),
        (8_001, ANSWER),
        (9_999, ORIGINATE),
        (16_000, ANSWER),
        (22_050, ORIGINATE),
        (44_100, ANSWER),
        (48_000, ORIGINATE),
    ] {
        let mut tape = Tape::new(rate);
        tape.preamble(square(role));
        tape.bytes(square(role), b"41\n");
        tape.idle(square(role), 6);
        add(text, "a line of three bytes behind two of training", &around_news(rate, role, tape));
    }
    // The same in short calls of changing length, and little taken at a time.
    let mut random = Random::new(11_025);
    let mut tape = Tape::new(11_025);
    let fast = Modulation { offset: 0.02, ..square(ORIGINATE) };
    tape.preamble(fast);
    tape.bytes(fast, b"TIDE\n");
    let samples = tape.finish();
    let mut script = Vec::new();
    let mut left = samples.len() as u32;
    while left > 0 {
        let n = random.whole(0, 200).min(left);
        script.extend([n, random.whole(0, 1), random.whole(0, 1)]);
        left -= n;
    }
    let case = ReceiverCase { rate: 11_025, role: ORIGINATE, samples, script };
    add(text, "a clock that is 2 in 100 too fast, in short calls, little taken at a time", &case);
}

fn sines(text: &mut Text) {
    let how = Modulation { wave: Wave::Sine, ..square(ANSWER) };
    let mut tape = Tape::new(8_000);
    tape.idle(how, 20);
    tape.bytes(how, &[0x55]);
    tape.idle(how, 11);
    tape.bytes(how, b"7");
    add(text, "sines", &in_full_calls(8_000, ANSWER, tape));

    let tones = Tones::heard_by(ORIGINATE);
    let mut tape = Tape::new(8_000);
    tape.tone(Wave::Sine, tones.mark, 0.1, 0.1);
    tape.add_tone(tones.own_mark, 0.6, 0.0);
    add(text, "the mark below this end's own voice", &in_full_calls(8_000, ORIGINATE, tape));

    let mut tape = Tape::new(8_000);
    tape.tone(Wave::Sine, tones.own_mark, 0.6, 0.07);
    add(text, "this end's own voice alone", &in_full_calls(8_000, ORIGINATE, tape));
}

/// A carrier that is lost in mid byte and comes back, and a space that stays.
fn interruptions(text: &mut Text) {
    let how = square(ORIGINATE);
    let mut tape = Tape::new(8_000);
    tape.preamble(how);
    tape.bytes(how, b"A");
    tape.bits(how, &[false, true, true, false, false]);
    tape.silence(0.62);
    tape.bits(how, &[false, true, false, true, true]);
    tape.idle(how, 12);
    tape.bytes(how, b"B");
    let case = around_news(8_000, ORIGINATE, tape);
    add(text, "silence in mid byte: bits are sliced until the carrier is down", &case);

    // Spaces too faint for the carrier: when it is down, a byte is half read.
    let mut tape = Tape::new(8_000);
    tape.preamble(how);
    tape.bytes(how, b"A");
    tape.bits(how, &[false; 5]);
    tape.tone(Wave::Square, how.space, 0.001, 0.62);
    tape.idle(how, 14);
    tape.bytes(how, b"B");
    let case = around_news(8_000, ORIGINATE, tape);
    add(text, "the carrier is lost in mid byte: the half byte stays", &case);

    let mut tape = Tape::new(8_000);
    tape.preamble(how);
    for _ in 0..3 {
        tape.silence(0.3);
        tape.idle(how, 12);
    }
    tape.bytes(how, b"D");
    let case = around_news(8_000, ORIGINATE, tape);
    add(text, "three silences, none long enough for the carrier to go down", &case);

    let mut tape = Tape::new(8_000);
    tape.silence(6.0);
    tape.tone(Wave::Square, how.mark, 0.0004, 0.2);
    tape.idle(how, 12);
    let case = around_news(8_000, ORIGINATE, tape);
    add(text, "a long silence, a mark that is too faint, and one that is not", &case);

    let mut tape = Tape::new(8_000);
    tape.preamble(how);
    tape.bits(how, &[false; 45]);
    tape.idle(how, 12);
    tape.bytes(how, b"C");
    add(text, "a space that stays", &around_news(8_000, ORIGINATE, tape));
}

/// The detector comes up on noise and silence follows: bytes and errors, ties,
/// and no carrier reported.
fn noise(text: &mut Text) {
    let mut random = Random::new(7);
    let mut tape = Tape::new(8_000);
    tape.signs(&mut random, 0.02, 0.5);
    tape.signs(&mut random, 0.5, 0.3);
    tape.silence(0.7);
    tape.signs(&mut random, 0.003, 0.2);
    add(text, "noise, silence, and fainter noise", &around_news(8_000, ANSWER, tape));
}

/// One more than 64 events drops the oldest.
fn many_events(text: &mut Text) {
    let how = Modulation { level: 0.03125, ..square(ORIGINATE) };
    let mut tape = Tape::new(8_000);
    tape.idle(how, 24);
    for _ in 0..33 {
        tape.silence(0.56);
        tape.tone(Wave::Square, how.mark, how.level, 0.03);
    }
    let samples = tape.finish();
    let mut script = [1_024, 0, 0].repeat(samples.len().div_ceil(1_024));
    script.extend([0, 600, 100]);
    let case = ReceiverCase { rate: 8_000, role: ORIGINATE, samples, script };
    add(text, "67 events, drained at the end: 64 are there, and the oldest three are not", &case);
}

/// How many bytes wait behind the case's calls: those that a last one reads.
fn waiting(case: &ReceiverCase) -> u64 {
    let mut case = case.clone();
    case.script.extend(all(0));
    let heard = case.run(&ORIGINAL);
    heard.answers[heard.answers.len() - HEARD + 1]
}

/// Adds calls of so many samples until so many bytes wait.
fn write_until(case: &mut ReceiverCase, n: u32, bytes: u64) {
    while waiting(case) < bytes {
        case.script.extend([n, 0, 0]);
    }
    assert!(n > 64 || waiting(case) == bytes);
}

/// With 409 bytes waiting a write passes, with 410 it is refused.
fn unread(text: &mut Text) {
    text.remark("more than 409 bytes wait: 32");
    let how = square(ANSWER);
    let mut tape = Tape::new(8_000);
    tape.preamble(how);
    tape.bytes(how, &[0x0F; 414]);
    let samples = tape.finish();
    let mut case = ReceiverCase { rate: 8_000, role: ANSWER, samples, script: vec![] };
    let mut remarks = Vec::new();
    let mut remark = |case: &ReceiverCase, words: &str| {
        remarks.push((case.script.len() / CALL, words.to_string()));
    };
    write_until(&mut case, 1_024, 400);
    write_until(&mut case, 64, 409);
    remark(&case, "409 bytes wait: writes pass, until one more waits");
    write_until(&mut case, 64, 410);
    remark(&case, "410 bytes wait: 32");
    case.script.extend([64, 0, 0]);
    remark(&case, "410 bytes wait, and 1025 samples: 3");
    case.script.extend([1_025, 0, 0]);
    remark(&case, "410 bytes wait, and a sample of 2: 4");
    let next: u32 = case.script.chunks_exact(CALL).map(|call| call[0]).sum();
    case.samples.insert(next as usize, 2.0);
    case.script.extend([1, 0, 0]);
    remark(&case, "410 bytes wait, and no samples: 32; then one byte is read");
    case.script.extend([0, 1, 0]);
    remark(&case, "409 bytes wait: it passes");
    case.script.extend([64, 0, 0]);
    remark(&case, "all are read");
    case.script.extend(all(0));
    add_with(text, &case, &remarks);
}

/// Refused writes leave the state alone.
fn refused(text: &mut Text) {
    let just_above = f32::from_bits(1.0f32.to_bits() + 1);
    let mut samples = vec![0.5; 1_024];
    samples.extend([0.5; 1_025]);
    samples.extend([1.0, -1.0, just_above, 0.0, -just_above, 0.0, f32::NAN]);
    samples.extend([f32::INFINITY, f32::NEG_INFINITY]);
    samples.extend([f32::NAN; 1_025]);
    let lengths = [1_024, 1_025, 2, 2, 2, 1, 1, 1, 1_025, 0];
    let script: Vec<u32> = lengths.into_iter().flat_map(all).collect();
    let case = ReceiverCase { rate: 48_000, role: ANSWER, samples, script };
    let words = [
        "1024 samples pass",
        "1025 get 3",
        "1 and -1 pass",
        "just above 1 gets 4",
        "just below -1 gets 4",
        "NaN gets 4",
        "infinity gets 4",
        "minus infinity gets 4",
        "1025 NaN get 3, which comes before 4",
        "none pass",
    ];
    let remarks: Vec<Remark> = words.iter().map(|w| w.to_string()).enumerate().collect();
    add_with(text, &case, &remarks);
}

pub fn resampler(text: &mut Text) {
    text.remark("The resampler: each call, the original's answer, and the bits of its samples.");
    let mut random = Random::new(48_000);
    for (src, dst, total) in [
        (48_000, 8_000, 400),
        (8_000, 48_000, 60),
        (44_100, 8_000, 360),
        (8_000, 44_100, 40),
        (8_001, 8_000, 90),
        (8_000, 8_001, 90),
        (9_999, 8_000, 90),
        (8_000, 8_000, 30),
    ] {
        let mut input: Vec<f64> = (0..total).map(|_| random.between(-1.0, 1.0)).collect();
        // Also an impulse, zeros of both signs and the smallest number.
        input[10..20].fill(0.0);
        input[15] = -0.0;
        input[16] = 5e-324;
        let lengths = vec![1, 0, 7, total / 2, total];
        let room = (total * dst / src) as usize + 20;
        let answers = TOLD * lengths.len();
        let case = ResamplerCase { src, dst, input, lengths, room, answers };
        text.resampler(&case, &case.run(&ORIGINAL));
    }
    wild_samples(text);
    refused_resampler(text);
    output_lengths(text, &mut random);
}

/// Wild samples are refused, each call, and the next call goes on from before.
fn wild_samples(text: &mut Text) {
    text.remark("samples beyond 1, infinities and NaN get 43; from -1 to 1 they are taken");
    for (src, dst) in [(12_000, 8_000), (8_000, 12_000), (8_000, 8_000)] {
        let mut input = vec![3.0, -1e300, 1e308, 1e308, 0.5, f64::INFINITY, 0.25, 2.0];
        input.extend([f64::NEG_INFINITY, 1.0, f64::NAN, 0.125, -0.0, 0.0]);
        input.extend([1.0, -1.0, 0.5, -0.25, 1.0, 0.0, -0.0, 0.75]);
        let lengths = vec![4, 6, 4, 8];
        let answers = TOLD * lengths.len();
        let case = ResamplerCase { src, dst, input, lengths, room: 30, answers };
        text.resampler(&case, &case.run(&ORIGINAL));
    }
}

fn refused_resampler(text: &mut Text) {
    text.remark("rates outside 8000 to 48000, and pairs without 8000, get 1");
    for (src, dst) in [(7_999, 8_000), (8_000, 48_001), (44_100, 48_000), (8_000, 0), (0, 0)] {
        let (lengths, answers) = (vec![0], TOLD);
        let case = ResamplerCase { src, dst, input: vec![], lengths, room: 2, answers };
        text.resampler(&case, &case.run(&ORIGINAL));
    }
    text.remark("2048 samples pass, 2049 get 3, an output that is one place too short gets 5");
    let input = [vec![0.25; 2_048], vec![0.5; 2_049], vec![0.125; 100]].concat();
    let (lengths, room) = (vec![2_048, 2_049, 100], 343 + 16);
    let answers = TOLD * lengths.len();
    let case = ResamplerCase { src: 48_000, dst: 8_000, input, lengths, room, answers };
    text.resampler(&case, &case.run(&ORIGINAL));
}

fn output_lengths(text: &mut Text, random: &mut Random) {
    text.remark("max_output_len: the original's answers");
    let mut asked = vec![
        (8_000, 8_000, 0),
        (8_000, 8_000, 2_048),
        (8_000, 8_000, 2_049),
        (48_000, 8_000, 0),
        (48_000, 8_000, 1_024),
        (8_000, 48_000, 2_048),
        (8_000, 48_000, 2_049),
        (44_100, 8_000, 441),
        (16_000, 8_000, 1),
        (16_000, 8_000, 3),
    ];
    for _ in 0..100 {
        let rate = random.whole(8_000, 48_000);
        let len = random.whole(0, 2_048);
        asked.push(if random.once_in(2) { (rate, 8_000, len) } else { (8_000, rate, len) });
    }
    for (src, dst, len) in asked {
        let mut told = [0; TOLD];
        (ORIGINAL.max_output_len)(src, dst, &[len], &mut told);
        text.longest(src, dst, len, &told);
    }
}

pub fn sender(text: &mut Text) {
    text.remark(
        "The sender: each step, and the original's answer; the bits of its samples, or their sum.",
    );
    text.remark("rates outside 8000 to 48000 get 1");
    for (rate, role) in [(7_999, ORIGINATE), (48_001, ANSWER), (0, ANSWER), (u32::MAX, ORIGINATE)] {
        add_sender(text, rate, role, &[[READ, 0]]);
    }
    text.remark("bytes, marks and settings between reads");
    for (rate, role, amplitude) in [
        (8_000, ORIGINATE, 1.0f32),
        (8_001, ANSWER, 0.9),
        (11_025, ORIGINATE, 0.7),
        (22_050, ANSWER, 0.5),
        (44_100, ANSWER, 0.3),
        (47_999, ORIGINATE, 1.0),
        (48_000, ORIGINATE, 0.02),
    ] {
        add_sender(text, rate, role, &sent_bytes(amplitude));
    }
    text.remark("single samples, so that the place of each bit's end shows");
    add_sender(text, 8_000, ANSWER, &one_by_one(100));
    add_sender(text, 9_999, ORIGINATE, &one_by_one(60));
    text.remark("blocks of one length until all bits are sent, and idle mark behind them");
    let mut random = Random::new(5_458);
    for block in [7, 64, 65, 441, 1_024, 1_023] {
        for rate in [random.whole(8_001, 16_000), random.whole(16_001, 48_000)] {
            add_sender(text, rate, random.whole(ORIGINATE, ANSWER), &in_blocks(rate, block));
        }
    }
    text.remark("each limit, reached and passed");
    add_sender(text, 16_000, ANSWER, &refused_steps());
    text.remark("how many samples bits take");
    for rate in [8_000, 8_001, 11_025, 44_100, 48_000] {
        let asked = [0, 1, 2, 3, 10, 299, 300, 4_096, 1_048_575, 1_048_576, 1_048_577, 1 << 40];
        add_sender(text, rate, ORIGINATE, &asked.map(|n| [SAMPLES_FOR_BITS, n]));
    }
}

/// Runs the steps with enough bytes and places for all of them.
fn add_sender(text: &mut Text, rate: u32, role: u32, steps: &[[u64; STEP]]) {
    let total = |kind| steps.iter().filter(|step| step[0] == kind).map(|step| step[1]).sum::<u64>();
    let data = [0x41, 0xFF, 0x00, 0x55, 0x0A].into_iter().cycle();
    let data = data.take(total(WRITE) as usize).collect();
    let case = SenderCase::whole(rate, role, data, steps.concat(), total(READ) as usize);
    text.sender(&case, &case.run(&ORIGINAL));
}

fn sent_bytes(amplitude: f32) -> Vec<[u64; STEP]> {
    let mut steps = vec![
        [AMPLITUDE, bits_of(amplitude)],
        [READ, 1],
        [WRITE, 2],
        [IDLE_MARK, 3],
        [READ, 7],
        [READ, 0],
        [READ, 64],
        [READ, 441],
        [WRITE, 3],
        [AMPLITUDE, bits_of(0.5)],
        [READ, 30],
        [READ, 1_024],
        [WRITE, 1],
        [READ, 65],
        [IDLE_MARK, 1],
        [WRITE, 4],
    ];
    steps.extend([[READ, 1_024]; 9]);
    steps.push([READ, 16]);
    steps
}

fn one_by_one(samples: usize) -> Vec<[u64; STEP]> {
    let mut steps = vec![[WRITE, 1]];
    steps.extend(vec![[READ, 1]; samples]);
    steps
}

/// Twelve bits of every kind and some idle mark, in blocks.
fn in_blocks(rate: u32, block: u64) -> Vec<[u64; STEP]> {
    let blocks = u64::from(rate) * 16 / 300 / block + 1;
    let mut steps = vec![[IDLE_MARK, 2], [WRITE, 1]];
    steps.extend(vec![[READ, block]; blocks.min(40) as usize]);
    steps.push([READ, 4]);
    steps
}

/// Each limit, reached and passed; what is refused leaves all as it was.
fn refused_steps() -> Vec<[u64; STEP]> {
    vec![
        [WRITE, 410],
        [IDLE_MARK, 4_097],
        [READ, 3],
        [IDLE_MARK, 4_086],
        [WRITE, 1],
        [WRITE, 1],
        [WRITE, 0],
        [IDLE_MARK, 1],
        [IDLE_MARK, 0],
        [IDLE_MARK, u64::from(u32::MAX)],
        [IDLE_MARK, 1 << 40],
        [READ, 1_025],
        [AMPLITUDE, bits_of(f32::NAN)],
        [AMPLITUDE, bits_of(1.0) + 1],
        [AMPLITUDE, bits_of(-0.25)],
        [AMPLITUDE, bits_of(f32::INFINITY)],
        [READ, 2],
        [AMPLITUDE, bits_of(1.0)],
        [AMPLITUDE, bits_of(0.0)],
        [READ, 2],
        [AMPLITUDE, bits_of(-0.0)],
        [READ, 2],
        [AMPLITUDE, bits_of(0.5)],
        [READ, 1_024],
        [WRITE, 2],
        [WRITE, 1],
        [IDLE_MARK, 9],
        [IDLE_MARK, 8],
        [READ, 30],
    ]
}
