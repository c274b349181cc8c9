//! The comparison: the same calls to both sides, until something differs.

use std::collections::BTreeMap;
use std::process::ExitCode;
use std::time::Instant;

use crate::boards::{BoardCase, Seen};
use crate::cases::{
    bits_of, Heard, ReceiverCase, Resampled, ResamplerCase, SenderCase, Sent, TurnsCase, RATES,
};
use crate::clicks::Behind;
use crate::difference::{of_heard, of_resampled, of_turned};
use crate::frames::{frame_bytes, State};
use crate::layout::*;
use crate::pool;
use crate::random::Random;
use crate::scenes::KINDS;
use crate::settings;
use crate::shrink::{shrink, Case};
use crate::side::{ORIGINAL, PORT};
use crate::tally::{SentTally, Tally};
use crate::text::Text;
use crate::{broken, charges, digits, durations, refused, rooms, table, wild, workers};

/// All pairs of 20 kinds and 13 rates, twice.
const ALL_CASES: usize = 520;

pub struct Options {
    /// Receiver cases; twice as many of the resampler, half of the sender.
    cases: usize,
    seed: u64,
    /// One receiver case alone.
    only: Option<usize>,
    /// The parts whose names begin so; all where it is empty.
    part: String,
    /// No search for a smaller case.
    quick: bool,
}

impl Options {
    pub fn from(words: &[&str]) -> Option<Options> {
        let mut options =
            Options { cases: ALL_CASES, seed: 1, only: None, part: String::new(), quick: false };
        let mut words = words.iter();
        while let Some(&name) = words.next() {
            match name {
                "--quick" => options.quick = true,
                "--cases" => options.cases = words.next()?.parse().ok()?,
                "--seed" => options.seed = words.next()?.parse().ok()?,
                "--only" => options.only = Some(words.next()?.parse().ok()?),
                "--part" => options.part = words.next()?.to_string(),
                _ => return None,
            }
        }
        Some(options)
    }
}

/// A difference, and a way to a smaller case that shows one; or something that
/// the cases left out. The comparison ends with the first.
pub struct Found {
    what: &'static str,
    pub words: String,
    smaller: Option<Box<dyn FnOnce() -> String + Send>>,
}

type Part = fn(&Options) -> Result<String, Found>;

pub fn run(options: &Options) -> ExitCode {
    println!("original against {}, seed {}, {} cases", PORT.name, options.seed, options.cases);
    println!("changed in the copy of the original (command `changes`):");
    for (reason, lines) in changes_by_reason() {
        println!("    {reason}: {lines} lines");
    }
    let start = Instant::now();
    let parts: [(&str, Part); 23] = [
        ("refused rates", refused_rates),
        ("refused boards", refused_boards),
        ("frames", frames),
        ("memory lent at every length", rooms),
        ("receiver", receiver_cases),
        ("refused calls", refused_calls),
        ("fresh receivers at every rate", fresh_receivers),
        ("fresh senders at every rate", fresh_senders),
        ("max_output_len at every rate", output_lengths),
        ("taps at every rate", |_| wild::taps().map_err(plain)),
        ("resampler", resampler_cases),
        ("wild samples at every place", |_| wild::samples().map_err(plain)),
        ("sender", sender_cases),
        ("from sender to receiver", loops),
        ("board", board_cases),
        ("board, calls that break off", broken_calls),
        ("board, clicks before calls", clicked_calls),
        ("table sender", |o| table::compare(o.seed, o.cases).map_err(plain)),
        ("digits", |o| digits::compare(o.seed, o.cases).map_err(plain)),
        ("durations", |o| durations::compare(o.seed, o.cases).map_err(plain)),
        ("settings", |o| settings::compare(o.seed, o.cases.div_ceil(26)).map_err(plain)),
        ("charges", |o| charges::compare(o.seed, o.cases).map_err(plain)),
        ("pool", |o| pool::compare(o.seed, o.cases.saturating_mul(200)).map_err(plain)),
    ];
    for (name, part) in parts {
        if options.only.is_some() && name != "receiver" || !name.starts_with(&options.part) {
            continue;
        }
        let begun = Instant::now();
        match part(options) {
            Ok(words) => {
                let seconds = begun.elapsed().as_secs_f64();
                println!("{name}: {words}, {seconds:.1} s");
            }
            Err(found) => {
                println!("{name}: {}: {}", found.what, found.words);
                if let (Some(smaller), false) = (found.smaller, options.quick) {
                    println!("looking for a smaller case ..\n{}", smaller());
                }
                return ExitCode::FAILURE;
            }
        }
    }
    println!("0 differences, {:.0} s", start.elapsed().as_secs_f64());
    if options.only.is_some() || !options.part.is_empty() || options.cases < ALL_CASES {
        println!("this is not the whole comparison");
        return ExitCode::from(3);
    }
    ExitCode::SUCCESS
}

/// Why lines of the original were changed, and how many for each reason. A
/// line of the list reads `FILE:LINE: REASON: WHAT STOOD THERE`.
fn changes_by_reason() -> BTreeMap<&'static str, usize> {
    let mut counts = BTreeMap::new();
    for line in original::CHANGES.lines() {
        let reason = line.split(": ").nth(1).unwrap_or(line);
        *counts.entry(reason).or_default() += 1;
    }
    counts
}

/// Refusal 1, everywhere a rate is given.
fn refused_rates(_: &Options) -> Result<String, Found> {
    let rates = [0, 1, 7_999, 8_000, 8_001, 48_000, 48_001, 96_000, u32::MAX];
    for src in rates {
        for dst in rates {
            let (input, lengths) = (vec![0.5; 20], vec![10, 10]);
            let (room, answers) = (400, 2 * TOLD);
            check_resampler(&ResamplerCase { src, dst, input, lengths, room, answers }, "")?;
            check_lengths(src, dst, &[10])?;
        }
        for role in [ORIGINATE, ANSWER] {
            let (samples, script) = (vec![0.5; 20], vec![10, 1, 1, 10, 1, 1]);
            check_receiver(&ReceiverCase { rate: src, role, samples, script }, "")?;
            let script = vec![WRITE, 1, READ, 10, SAMPLES_FOR_BITS, 3];
            check_sender(&SenderCase::whole(src, role, vec![65], script, 10), "")?;
        }
    }
    Ok(format!("{} rates, alone and in pairs, 0 differences", rates.len()))
}

fn refused_boards(_: &Options) -> Result<String, Found> {
    Ok(refused::of_new_boards().map_err(plain)? + ", 0 differences")
}

/// Every frame; and the deframer, idle and in as many random states as there
/// are receiver cases, over every list of ten bits and a long one.
fn frames(options: &Options) -> Result<String, Found> {
    frame_bytes().map_err(plain)?;
    workers::all(0..options.cases, |index| {
        let mut random = Random::of_case(options.seed ^ 0x4652, index as u64);
        let state = if index == 0 { State::IDLE } else { State::random(&mut random) };
        state.check_lists().and_then(|()| state.check_long(&mut random)).map_err(plain)
    })?;
    Ok(format!("256 bytes; 1024 lists of ten bits from {} states, 0 differences", options.cases))
}

/// Refused calls among accepted ones, which change nothing.
fn refused_calls(options: &Options) -> Result<String, Found> {
    let lists = options.cases / 20;
    let count = |salt: u64, of_one: fn(usize, &mut Random) -> Result<usize, String>| {
        let refused = workers::all(0..lists, |index| {
            let mut random = Random::of_case(options.seed ^ salt, index as u64);
            of_one(index, &mut random)
                .map_err(|words| plain(format!("list {index} of seed {}: {words}", options.seed)))
        })?;
        Ok(refused.iter().sum::<usize>())
    };
    let boards = count(0x5242, refused::of_a_board)?;
    let receivers = count(0x5252, refused::of_a_receiver)?;
    let resamplers = count(0x525A, refused::of_a_resampler)?;
    for (rate, role) in [(8_000, ORIGINATE), (11_025, ANSWER)] {
        refused::of_a_full_receiver(rate, role).map_err(plain)?;
    }
    Ok(format!(
        "{lists} lists each: {boards} of a board, {receivers} of a receiver, {resamplers} of a resampler; 2 full receivers, 0 differences"
    ))
}

fn rooms(_: &Options) -> Result<String, Found> {
    Ok(format!("{} lists of calls, 0 differences", rooms::compare().map_err(plain)?))
}

/// Every coefficient of every filter, and all else that a fresh receiver holds.
fn fresh_receivers(_: &Options) -> Result<String, Found> {
    for rate in 8_000..=48_000 {
        let role = if rate % 2 == 0 { ORIGINATE } else { ANSWER };
        let case = ReceiverCase { rate, role, samples: vec![], script: vec![] };
        check_receiver(&case, "")?;
    }
    Ok("40001 rates, 0 differences".into())
}

fn fresh_senders(_: &Options) -> Result<String, Found> {
    for rate in 8_000..=48_000 {
        let role = if rate % 2 == 0 { ORIGINATE } else { ANSWER };
        check_sender(&SenderCase::whole(rate, role, vec![], vec![], 0), "")?;
    }
    Ok("40001 rates, 0 differences".into())
}

/// Both directions, every length, and two that are refused.
fn output_lengths(_: &Options) -> Result<String, Found> {
    let lengths: Vec<u32> = (0..=2_050).collect();
    for rate in 8_000..=48_000 {
        check_lengths(rate, 8_000, &lengths)?;
        check_lengths(8_000, rate, &lengths)?;
    }
    Ok(format!("80002 pairs of rates, {} lengths, 0 differences", lengths.len()))
}

fn check_lengths(src: u32, dst: u32, lengths: &[u32]) -> Result<(), Found> {
    let mut answers = [vec![777; TOLD * lengths.len()], vec![777; TOLD * lengths.len()]];
    let calls = [
        (ORIGINAL.max_output_len)(src, dst, lengths, &mut answers[0]),
        (PORT.max_output_len)(src, dst, lengths, &mut answers[1]),
    ];
    let [a, b] = &answers;
    if calls[0] != calls[1] {
        return Err(plain(format!("{src} to {dst}: calls run {calls:?}")));
    }
    match a.iter().zip(b).position(|(a, b)| a != b) {
        Some(i) => Err(plain(format!(
            "{src} to {dst}, length {}, {}: {} from the original, {} from the port",
            lengths[i / TOLD],
            ["refusal", "count"][i % TOLD],
            a[i],
            b[i]
        ))),
        None => Ok(()),
    }
}

fn resampler_cases(options: &Options) -> Result<String, Found> {
    let cases = options.cases * 2;
    let told = workers::all(0..cases, |index| {
        let mut random = Random::of_case(options.seed ^ 0x5253, index as u64);
        let case = ResamplerCase::random(index, &mut random);
        let name = format!("case {index} of seed {}: ", options.seed);
        let turns = TurnsCase::random(&case, &mut random);
        match of_turned(&turns.run(&ORIGINAL), &turns.run(&PORT)) {
            None => check_resampler(&case, &name),
            Some(words) => Err(plain(format!("{name}with resets: {words}"))),
        }
    })?;
    let seen = |number| told.iter().any(|r| r.answers.chunks_exact(TOLD).any(|a| a[0] == number));
    reached(options, &[("refusal 3", seen(3)), ("43", seen(43)), ("refusal 5", seen(5))])?;
    Ok(format!("{cases} cases, 0 differences"))
}

fn sender_cases(options: &Options) -> Result<String, Found> {
    let cases = options.cases / 2;
    let tallies = workers::all(0..cases, |index| {
        let mut random = Random::of_case(options.seed ^ 0x5458, index as u64);
        let case = SenderCase::random(index, &mut random);
        let name = format!("case {index} of seed {}: ", options.seed);
        let sent = check_sender(&case, &name)?;
        let short = case.cut_short(&mut random);
        check_sender(&short, &format!("{name}cut short: "))?;
        let state = short.stop(&ORIGINAL).state;
        let waiting = [state[BITS_COUNTED] > 0.0, state[SAMPLES_COUNTED] > 0.0];
        Ok((SentTally::of(&case, &sent), waiting))
    })?;
    let mut all = SentTally::default();
    tallies.iter().for_each(|(tally, _)| all.join(tally));
    let [bits, samples] = [0, 1].map(|i| tallies.iter().filter(|(_, w)| w[i]).count());
    println!("    {}", all.words());
    println!("    cut short, bits wait in {bits} states, samples in {samples}");
    reached(options, &all.reached())?;
    reached(options, &[("waiting bits", bits > 0), ("waiting samples", samples > 0)])?;
    Ok(format!("{cases} cases, 0 differences"))
}

/// What the port sends, the port and the original hear, byte for byte: at the
/// fixed rates and some random ones, in both roles. Two bytes of training go
/// before, which a receiver may hear amiss while it finds the bits.
fn loops(options: &Options) -> Result<String, Found> {
    let rates = RATES.len() + options.cases / 13;
    let bytes = workers::all(0..2 * rates, |index| {
        let mut random = Random::of_case(options.seed ^ 0x4C4F, index as u64);
        let any = random.whole(8_000, 48_000);
        let rate = RATES.get(index / 2).copied().unwrap_or(any);
        let role = if index % 2 == 0 { ORIGINATE } else { ANSWER };
        let amplitude = random.pick(&[0.02, 0.5, LOUD]);
        loop_at(rate, role, amplitude, &random.bytes(30), TRAINING.len())
    })?;
    let bytes: usize = bytes.iter().sum();
    Ok(format!("{} runs in both roles, {bytes} bytes, all heard by both", 2 * rates))
}

/// The number of bytes that were sent and heard. So many at most may be heard
/// before them.
pub fn loop_at(
    rate: u32,
    role: u32,
    amplitude: f32,
    text: &[u8],
    before: usize,
) -> Result<usize, Found> {
    let samples = sent_by_the_port(rate, role, amplitude, text);
    let script = [1_000, 600, 100].repeat(samples.len().div_ceil(1_000));
    let case = ReceiverCase { rate, role: 1 - role, samples, script };
    let name = format!("rate {rate}, role {role}, amplitude {amplitude}: ");
    let heard = check_receiver(&case, &name)?;
    let count: u64 = heard.answers.chunks_exact(HEARD).map(|call| call[1]).sum();
    let heard = &heard.bytes[..count as usize];
    if !heard.ends_with(text) || heard.len() > before + text.len() {
        return Err(plain(format!("{name}sent {text:02X?}, heard {heard:02X?}")));
    }
    Ok(text.len())
}

pub const TRAINING: [u8; 2] = [0x55, 0x55];

/// An amplitude with which no sample passes 1 (command `loudest`).
pub const LOUD: f32 = 0.9;

/// Idle mark, the training, idle mark, the text, idle mark.
fn sent_by_the_port(rate: u32, role: u32, amplitude: f32, text: &[u8]) -> Vec<f32> {
    // 48 bits behind the text, so that its last byte is heard in full.
    let bits = 40 + 10 * TRAINING.len() + 12 + 10 * text.len() + 48;
    let reads = (rate as usize * bits / 300).div_ceil(1_000);
    let mut script = vec![AMPLITUDE, bits_of(amplitude), IDLE_MARK, 40];
    script.extend([WRITE, TRAINING.len() as u64, IDLE_MARK, 12, WRITE, text.len() as u64]);
    script.extend([READ, 1_000].repeat(reads));
    let data = [&TRAINING, text].concat();
    let case = SenderCase::whole(rate, role, data, script, 1_000 * reads);
    case.run(&PORT).samples
}

fn receiver_cases(options: &Options) -> Result<String, Found> {
    let indexes = match options.only {
        Some(index) => index..index + 1,
        None => 0..options.cases,
    };
    let cases = indexes.len();
    let heard = workers::all(indexes, |index| {
        let kind = index % KINDS.len();
        let mut random = Random::of_case(options.seed, index as u64);
        let case = ReceiverCase::random(index, &KINDS[kind], &mut random);
        let name = format!("case {index} of seed {} ({}): ", options.seed, KINDS[kind].name);
        let heard = check_receiver(&case, &name)?;
        let mut tally = Tally::default();
        tally.add(&case, &heard);
        Ok((kind, tally))
    })?;
    let mut tallies: Vec<Tally> = KINDS.iter().map(|_| Tally::default()).collect();
    heard.iter().for_each(|(kind, tally)| tallies[*kind].join(tally));
    Tally::heading();
    let mut all = Tally::default();
    for (kind, tally) in KINDS.iter().zip(&tallies) {
        tally.print(kind.name);
        all.join(tally);
    }
    all.print("all");
    let kinds: Vec<_> = KINDS.iter().zip(&tallies).map(|(k, t)| (k.name, t.any())).collect();
    reached(options, &kinds)?;
    reached(options, &all.reached())?;
    Ok(format!("{cases} cases, 0 differences"))
}

/// The board against the independent one: lines and noise.
fn board_cases(options: &Options) -> Result<String, Found> {
    let cases = options.cases / 8;
    let seen = boards(options, 0x424F, cases + 1, |index, random| match index {
        _ if index == cases => BoardCase::with_every_answer(),
        _ => BoardCase::random(index, random),
    })?;
    let every_answer = seen.answers.iter().all(|&n| n > 0);
    reached(options, &[("a refused write", seen.refused > 0), ("an answer", every_answer)])?;
    reached(options, &[("a board's bad stop", seen.bad_stops > 0)])?;
    Ok(listed(cases + 1, &seen))
}

/// Likewise: calls that break off, and what comes behind them.
fn broken_calls(options: &Options) -> Result<String, Found> {
    let found = 2 * broken::SLOW_RATES.len();
    let cases = options.cases / 8 + found;
    let seen = boards(options, 0x4C4F_5353, cases, |index, random| {
        let (rate, role) = (broken::SLOW_RATES.get(index / 2), index as u32 % 2);
        rate.map_or_else(
            || broken::random(index - found, random),
            |&rate| broken::found_again(rate, role),
        )
    })?;
    let losses = &seen.losses;
    println!(
        "    {} losses: {} in mid byte; {} in mid line, {} behind an end, {} while skipping; {} in a write that then hears a 0A; {} bytes skipped",
        losses.all,
        losses.in_a_byte,
        losses.in_a_line,
        losses.behind_an_end,
        losses.while_skipping,
        losses.before_an_end,
        losses.skipped
    );
    reached(
        options,
        &[
            ("a loss in mid byte", losses.in_a_byte > 0),
            ("a loss in mid line", losses.in_a_line > 0),
            ("a loss behind a line's end", losses.behind_an_end > 0),
            ("a loss while skipping", losses.while_skipping > 0),
            ("a loss and then a 0A in one write", losses.before_an_end > 0),
        ],
    )?;
    Ok(listed(cases, &seen))
}

/// The random clicks among which the worst is looked for.
const CLICKS: usize = 1_000;

/// Likewise: clicks and steps that throw a bare receiver's timing off, on a fresh
/// board and between two calls. The line behind them must be shown.
fn clicked_calls(options: &Options) -> Result<String, Found> {
    let cases = 4 * RATES.len();
    let (behind, seen): (Vec<Behind>, Vec<Seen>) = workers::all(0..cases, |index| {
        let mut random = Random::of_case(options.seed ^ 0x434C, index as u64);
        let (rate, role) = (RATES[index / 4], index as u32 / 2 % 2);
        let behind = match index % 2 {
            0 => Behind::fresh(index / 2, rate, role, CLICKS, &mut random),
            _ => Behind::between_calls(index / 2, rate, role, &mut random),
        };
        let name = format!("case {index} of seed {}: ", options.seed);
        let seen = behind.case.seen().map_err(|words| plain(format!("{name}{words}")))?;
        if !behind.is_shown() {
            return Err(plain(format!("{name}the line behind the clicks is not shown")));
        }
        Ok((behind, seen))
    })?
    .into_iter()
    .unzip();
    // A filter smears a click, but not at 8,000, the first of the rates.
    for (rates, some) in [("8000", &behind[..4]), ("the other rates", &behind[4..])] {
        let error = some.iter().map(|behind| behind.error).fold(0.0, f64::max);
        let deaf = some.iter().map(|behind| behind.deaf / 300.0).fold(0.0, f64::max);
        println!("    at {rates} errors to {error:.0}, a bare receiver deaf for {deaf:.1} s");
    }
    let unheard = behind.iter().filter(|behind| !behind.bare_hears).count();
    println!(
        "    a bare receiver does not hear the line in {unheard} cases, the board shows it in all"
    );
    let thrown = behind.iter().any(|behind| behind.error > 1e6);
    let seen = told(&seen);
    let far = thrown && unheard > 0 && seen.pace.limited > 0;
    reached(options, &[("clicks that throw the timing far off", far)])?;
    Ok(listed(cases, &seen))
}

/// What so many cases brought about, where nothing differs.
fn boards(
    options: &Options,
    salt: u64,
    cases: usize,
    case_of: impl Fn(usize, &mut Random) -> BoardCase + Sync,
) -> Result<Seen, Found> {
    let seen = workers::all(0..cases, |index| {
        let case = case_of(index, &mut Random::of_case(options.seed ^ salt, index as u64));
        let name = format!("case {index} of seed {}: ", options.seed);
        case.seen().map_err(|words| plain(format!("{name}{words}")))
    })?;
    Ok(told(&seen))
}

/// Their sum, printed.
fn told(seen: &[Seen]) -> Seen {
    let seen = Seen::sum(seen);
    println!(
        "    {} writes, {} refused; {} bytes, {} bad stops; lines answered 0, 11 to 20, 34: {:?}",
        seen.writes, seen.refused, seen.bytes, seen.bad_stops, seen.answers
    );
    println!(
        "    the limit acted at {} of {} boundaries, which lay {} to {} steps apart",
        seen.pace.limited,
        seen.pace.boundaries,
        seen.pace.fewest.unwrap_or(0),
        seen.pace.most.unwrap_or(0)
    );
    seen
}

fn listed(cases: usize, seen: &Seen) -> String {
    format!(
        "{cases} cases, {} of them after every write, {} lists of writes, 0 differences",
        seen.every, seen.lists
    )
}

pub fn check_receiver(case: &ReceiverCase, name: &str) -> Result<Heard, Found> {
    let heard = case.run(&ORIGINAL);
    match of_heard(&heard, &case.run(&PORT)) {
        None => Ok(heard),
        Some(words) => Err(found(case, name, words, |case, text| {
            text.receiver(case, &case.run(&ORIGINAL), &[]);
        })),
    }
}

/// What the original answered.
fn check_resampler(case: &ResamplerCase, name: &str) -> Result<Resampled, Found> {
    let resampled = case.run(&ORIGINAL);
    match of_resampled(&resampled, &case.run(&PORT)) {
        None => Ok(resampled),
        Some(words) => Err(found(case, name, words, |case, text| {
            text.resampler(case, &case.run(&ORIGINAL));
        })),
    }
}

/// What the original sent.
pub fn check_sender(case: &SenderCase, name: &str) -> Result<Sent, Found> {
    match case.difference() {
        None => Ok(case.run(&ORIGINAL)),
        Some(words) => Err(found(case, name, words, |case, text| {
            text.sender(case, &case.run(&ORIGINAL));
        })),
    }
}

fn plain(words: String) -> Found {
    Found { what: "DIFFERENCE", words, smaller: None }
}

/// In a whole comparison all of this must have come about.
fn reached(options: &Options, all: &[(&str, bool)]) -> Result<(), Found> {
    let left_out = all.iter().find(|(_, seen)| !seen);
    match left_out {
        Some((name, _)) if options.only.is_none() && options.cases >= ALL_CASES => {
            Err(Found { what: "LEFT OUT", words: name.to_string(), smaller: None })
        }
        _ => Ok(()),
    }
}

fn found<C>(case: &C, name: &str, words: String, write: fn(&C, &mut Text)) -> Found
where
    C: Case + Send + 'static,
{
    let case = case.clone();
    Found {
        what: "DIFFERENCE",
        words: format!("{name}{words}"),
        smaller: Some(Box::new(move || smallest(&case, words, write))),
    }
}

/// The smallest case that shows a difference, with the original's answers.
fn smallest<C: Case>(case: &C, words: String, write: fn(&C, &mut Text)) -> String {
    let (small, words) = shrink(case, words);
    let mut text = Text::new();
    write(&small, &mut text);
    let (calls, answers) = (shown(&text.calls), shown(&text.answers));
    format!("the smallest one found: {words}\n{calls}\nthe original's answers:\n{answers}")
}

/// The first lines of a text.
fn shown(text: &str) -> String {
    let lines: Vec<&str> = text.lines().collect();
    let shown = lines.len().min(60);
    let mut told = lines[..shown].join("\n");
    if shown < lines.len() {
        told += &format!("\n.. and {} lines more", lines.len() - shown);
    }
    told
}
