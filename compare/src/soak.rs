//! Long runs against the original and the independent judge, for now and then:
//! as many samples and tide lines as are asked for.
//!
//! Samples: calls of every kind, half of them damaged, through both receivers;
//! the answers after each write and the state at the end are compared. For each
//! 100,000 samples a script for both senders, and at another rate what the
//! port's sender sends, heard by both receivers. Lines: whole and damaged ones,
//! through the program `tideline`, whose output is compared with the judge's.

use std::io::{Read, Write};
use std::process::{Command, ExitCode, Stdio};
use std::time::Instant;

use crate::cases::{ReceiverCase, SenderCase};
use crate::compare::{check_receiver, check_sender, loop_at, LOUD, TRAINING};
use crate::judge::Judge;
use crate::lines::{damaged_line, line};
use crate::random::Random;
use crate::scenes::KINDS;
use crate::side::PORT;
use crate::tally::{SentTally, Tally};
use crate::workers;

pub struct Options {
    samples: usize,
    lines: usize,
    seed: u64,
    /// What judges the lines, for station 7.
    program: String,
    /// One part alone.
    only: Option<&'static str>,
}

type Part = fn(&Options) -> Result<String, String>;

const PARTS: [(&str, Part); 4] =
    [("receiver", receiver), ("sender", sender), ("loops", loops), ("lines", lines)];

const STATION: u16 = 7;

/// Calls between two looks at how many samples there were: all pairs of 20
/// kinds and 13 rates.
const ROUND: usize = 260;

/// Lines for one run of the program, which begins without a reading. Seldom
/// does one of them have the greatest stamp, behind which none is shown.
const LINES_A_RUN: usize = 10_000;
const FAR: u32 = 20_000;

impl Options {
    pub fn from(words: &[&str]) -> Option<Options> {
        let [samples, lines, rest @ ..] = words else {
            return None;
        };
        let mut options = Options {
            samples: samples.parse().ok()?,
            lines: lines.parse().ok()?,
            seed: 1,
            program: "../target/bin/tideline".into(),
            only: None,
        };
        let mut words = rest.iter();
        while let Some(&name) = words.next() {
            match name {
                "--seed" => options.seed = words.next()?.parse().ok()?,
                "--program" => options.program = words.next()?.to_string(),
                "--only" => {
                    let only = words.next()?;
                    options.only = Some(PARTS.iter().find(|(name, _)| name == only)?.0);
                }
                _ => return None,
            }
        }
        Some(options)
    }
}

pub fn run(options: &Options) -> ExitCode {
    println!("original against {}, seed {}", PORT.name, options.seed);
    for (name, part) in PARTS {
        if options.only.is_some_and(|only| only != name) {
            continue;
        }
        let begun = Instant::now();
        match part(options) {
            Ok(words) => println!("{words}, {:.0} s", begun.elapsed().as_secs_f64()),
            Err(words) => {
                println!("DIFFERENCE: {words}");
                return ExitCode::FAILURE;
            }
        }
    }
    ExitCode::SUCCESS
}

fn receiver(options: &Options) -> Result<String, String> {
    let (mut ran, mut all, mut index) = (0, Tally::default(), 0);
    while ran < options.samples {
        for (len, tally) in workers::all(index..index + ROUND, |index| one_call(options, index))? {
            ran += len;
            all.join(&tally);
        }
        index += ROUND;
    }
    Tally::heading();
    all.print("all");
    Ok(format!("receiver: {ran} samples in {index} calls, 0 differences"))
}

/// Its samples, and what they brought about.
fn one_call(options: &Options, index: usize) -> Result<(usize, Tally), String> {
    // Not the cases of `compare`.
    let mut random = Random::of_case(options.seed ^ 0x534F_414B, index as u64);
    let kind = &KINDS[index % KINDS.len()];
    let mut case = ReceiverCase::random(index, kind, &mut random);
    if random.once_in(2) {
        damage(&mut case, &mut random);
    }
    let name = format!("call {index} of seed {} ({}): ", options.seed, kind.name);
    let heard = check_receiver(&case, &name).map_err(|found| found.words)?;
    let mut tally = Tally::default();
    tally.add(&case, &heard);
    Ok((case.samples.len(), tally))
}

/// What goes wrong on a line or in a host's buffers.
fn damage(case: &mut ReceiverCase, random: &mut Random) {
    for _ in 0..random.whole(1, 12) {
        let len = case.samples.len() as u32;
        if len == 0 {
            return;
        }
        let from = random.whole(0, len - 1);
        let to = len.min(from + random.whole(1, 4_000));
        let some = &mut case.samples[from as usize..to as usize];
        let level = random.level(0.001, 1.0) as f32;
        match random.whole(0, 7) {
            0 => some.fill(0.0),
            1 => some.iter_mut().for_each(|s| *s *= level),
            2 => some.iter_mut().for_each(|s| *s = -*s),
            3 => some.iter_mut().for_each(|s| *s = s.clamp(-level, level)),
            4 => some.reverse(),
            5 => some.iter_mut().for_each(|s| {
                *s = (*s + random.between(-1.0, 1.0) as f32 * level).clamp(-1.0, 1.0)
            }),
            // Samples lost: what is left moves up, and the last calls get none.
            6 => drop(case.samples.drain(from as usize..to as usize)),
            // One bit turned over; the sample may then be one that is refused.
            _ => some[0] = f32::from_bits(some[0].to_bits() ^ 1 << random.whole(0, 31)),
        }
    }
}

/// Scripts for the senders, and loops.
const SAMPLES_A_SCRIPT: usize = 100_000;

fn sender(options: &Options) -> Result<String, String> {
    let scripts = options.samples / SAMPLES_A_SCRIPT;
    let tallies = workers::all(0..scripts, |index| {
        let mut random = Random::of_case(options.seed ^ 0x5445_5854, index as u64);
        let case = SenderCase::random(index, &mut random);
        let name = format!("script {index} of seed {}: ", options.seed);
        let sent = check_sender(&case, &name).map_err(|found| found.words)?;
        Ok::<_, String>(SentTally::of(&case, &sent))
    })?;
    let mut all = SentTally::default();
    tallies.iter().for_each(|tally| all.join(tally));
    println!("{}", all.words());
    Ok(format!("sender: {scripts} scripts, 0 differences"))
}

/// At rates from 8,000 to 48,000, equally far apart, in both roles by turns.
fn loops(options: &Options) -> Result<String, String> {
    let runs = options.samples / SAMPLES_A_SCRIPT;
    workers::all(0..runs, |index| {
        let mut random = Random::of_case(options.seed ^ 0x4C4F_4F50, index as u64);
        let rate = 8_000 + (index * 40_000 / (runs - 1).max(1)) as u32;
        let amplitude = random.pick(&[0.02, 0.5, LOUD]);
        loop_at(rate, index as u32 % 2, amplitude, &random.bytes(30), TRAINING.len())
            .map_err(|found| found.words)
    })?;
    Ok(format!("from sender to receiver: {runs} rates, 30 bytes at each, all heard by both"))
}

/// From sender to receiver at each STEPth rate, so many bytes at each, in both
/// roles by turns.
pub fn loops_at(step: usize, bytes: usize) -> ExitCode {
    let begun = Instant::now();
    let runs = 40_000 / step + 1;
    let heard = workers::all(0..runs, |index| {
        let mut random = Random::of_case(0x4C4F_4F50, index as u64);
        let rate = 8_000 + (index * step) as u32;
        let amplitude = random.pick(&[0.02, 0.5, LOUD]);
        let text = random.bytes(bytes);
        // At 11,184 for one a byte more is heard as the carrier rises, by the
        // original too.
        loop_at(rate, index as u32 % 2, amplitude, &text, TRAINING.len() + 1).map_err(|f| f.words)
    });
    match heard {
        Ok(heard) => {
            let bytes: usize = heard.iter().sum();
            let seconds = begun.elapsed().as_secs_f64();
            println!("{runs} rates, {bytes} bytes, all heard by both, {seconds:.0} s");
            ExitCode::SUCCESS
        }
        Err(words) => {
            println!("DIFFERENCE: {words}");
            ExitCode::FAILURE
        }
    }
}

fn lines(options: &Options) -> Result<String, String> {
    let (mut ended, mut run, mut counts) = (0, 0, [0; 12]);
    while ended < options.lines {
        let seed = options.seed ^ 0x4C49_4E45;
        let mut random = Random::of_case(seed, run);
        let some = Lines::random(LINES_A_RUN.min(options.lines - ended), &mut random);
        let printed = judged_by(&options.program, &some.input)?;
        if let Some(words) = some.differs(&printed) {
            return Err(format!("run {run} of seed {}: {words}", options.seed));
        }
        ended += some.ended;
        counts.iter_mut().zip(&some.counts).for_each(|(sum, n)| *sum += n);
        run += 1;
    }
    println!("lines answered 0, 11 to 20, 34: {counts:?}");
    Ok(format!("lines: {ended} in {run} runs of {}, 0 differences", options.program))
}

/// Text for the program, and what it must print.
struct Lines {
    input: Vec<u8>,
    output: Vec<u8>,
    ended: usize,
    counts: [u64; 12],
}

impl Lines {
    /// With so many ends of lines, or a few more.
    fn random(lines: usize, random: &mut Random) -> Lines {
        let mut judge = Judge::new(u64::from(STATION));
        let (mut input, mut output, mut ended) = (Vec::new(), Vec::new(), 0);
        let any = random.whole(0, u32::MAX);
        let mut newest = random.pick(&[0, 13_000_000, u32::MAX - 20_000, any]);
        while ended < lines {
            let text = if random.once_in(2) {
                line(random, STATION, &mut newest, FAR)
            } else {
                damaged_line(random, STATION, &mut newest, FAR)
            };
            for &byte in &text {
                if let Some(answer) = judge.byte(byte) {
                    ended += 1;
                    output.extend(format!("{ended} {answer}\n").into_bytes());
                }
            }
            input.extend(text);
        }
        output.extend(match judge.reading {
            Some((water, level)) => format!("R {STATION} {water} {level}\n").into_bytes(),
            None => b"R\n".to_vec(),
        });
        Lines { input, output, ended, counts: judge.counts }
    }

    fn differs(&self, printed: &[u8]) -> Option<String> {
        if printed == self.output {
            return None;
        }
        let lines = |text: &[u8]| -> Vec<String> {
            text.split(|&b| b == b'\n').map(|l| String::from_utf8_lossy(l).into()).collect()
        };
        let (wanted, printed) = (lines(&self.output), lines(printed));
        let same = wanted.iter().zip(&printed).take_while(|(a, b)| a == b).count();
        let of_input = self.input.split(|&b| b == b'\n').nth(same).unwrap_or(b"");
        Some(format!(
            "line {:?}: {:?} from the judge, {:?} from the program",
            String::from_utf8_lossy(of_input),
            wanted.get(same),
            printed.get(same)
        ))
    }
}

/// What the program prints when it reads this.
fn judged_by(program: &str, input: &[u8]) -> Result<Vec<u8>, String> {
    let failed = |e: std::io::Error| format!("{program}: {e}");
    let mut child = Command::new(program)
        .stdin(Stdio::piped())
        .stdout(Stdio::piped())
        .spawn()
        .map_err(failed)?;
    let mut to = child.stdin.take().expect("it is piped");
    let mut from = child.stdout.take().expect("it is piped");
    let mut printed = Vec::new();
    std::thread::scope(|scope| {
        scope.spawn(move || to.write_all(input));
        from.read_to_end(&mut printed)
    })
    .map_err(failed)?;
    let ended = child.wait().map_err(failed)?;
    if ended.success() {
        Ok(printed)
    } else {
        Err(format!("{program}: {ended}"))
    }
}
