//! Reads the calls of `text.rs` back and runs them again on both sides, to show
//! that they hold all that is needed, and which slips their answers show. The
//! repository's own program (`crates/replay`) replays them on the port.

use std::process::ExitCode;

use crate::cases::{bits_of, ReceiverCase, ResamplerCase, SenderCase};
use crate::layout::*;
use crate::side::{Side, ORIGINAL, PORT};
use crate::text::Text;
use crate::vectors;

/// The calls from one fresh state to the next, with the letters that begin
/// one; comments and calls that need no state (M) left out.
fn parts(calls: &str) -> Vec<Vec<&str>> {
    let mut parts: Vec<Vec<&str>> = Vec::new();
    for line in calls.lines().filter(|line| !line.starts_with(['#', 'M'])) {
        if line.starts_with(['R', 'Z', 'T']) {
            parts.push(Vec::new());
        }
        parts.last_mut().expect("a state comes first").push(line);
    }
    parts
}

/// The answers likewise.
fn answers(text: &str) -> String {
    let kept = text.lines().filter(|line| !line.starts_with(['#', 'l']));
    kept.map(|line| format!("{line}\n")).collect()
}

fn fields(line: &str) -> Vec<&str> {
    line.split(' ').skip(1).collect()
}

fn number(word: &str) -> u32 {
    word.parse().expect("a decimal number")
}

fn f32_of(word: &str) -> f32 {
    f32::from_bits(u32::from_str_radix(word, 16).expect("eight digits"))
}

fn f64_of(word: &str) -> f64 {
    f64::from_bits(u64::from_str_radix(word, 16).expect("sixteen digits"))
}

fn byte_of(word: &str) -> u8 {
    u8::from_str_radix(word, 16).expect("two digits")
}

fn receiver_again(part: &[&str], side: &Side, text: &mut Text) {
    let head = fields(part[0]);
    let (mut samples, mut script) = (Vec::new(), Vec::new());
    let mut written = 0;
    for line in &part[1..] {
        let fields = fields(line);
        match &line[..1] {
            "S" => samples.extend(fields.iter().map(|x| f32_of(x))),
            "N" => samples.extend(vec![f32_of(fields[0]); number(fields[1]) as usize]),
            "B" => samples.extend(fields[1].chars().flat_map(|digit| {
                let digit = digit.to_digit(16).expect("a digit");
                let x = f32_of(fields[0]);
                [8, 4, 2, 1].map(|bit| if digit & bit > 0 { x } else { -x })
            })),
            _ => {
                assert!(line.starts_with('W'), "{line}");
                let n = (samples.len() - written) as u32;
                script.extend([n, number(fields[0]), number(fields[1])]);
                written = samples.len();
            }
        }
    }
    // A refused rate has no call: one that would run shows it.
    if script.is_empty() {
        script.extend([0, 0, 0]);
    }
    let case = ReceiverCase { rate: number(head[0]), role: number(head[1]), samples, script };
    text.receiver(&case, &case.run(side), &[]);
}

fn resampler_again(part: &[&str], side: &Side, text: &mut Text) {
    let head = fields(part[0]);
    let (mut input, mut lengths, mut room) = (Vec::new(), Vec::new(), None);
    let mut processed = 0;
    for line in &part[1..] {
        let fields = fields(line);
        match &line[..1] {
            "S" => input.extend(fields.iter().map(|x| f64_of(x))),
            "N" => input.extend(vec![f64_of(fields[0]); number(fields[1]) as usize]),
            _ => {
                assert!(line.starts_with('P'), "{line}");
                lengths.push((input.len() - processed) as u32);
                processed = input.len();
                room = room.or(Some(number(fields[0]) as usize));
            }
        }
    }
    if lengths.is_empty() {
        lengths.push(0);
    }
    let (src, dst) = (number(head[0]), number(head[1]));
    let (room, answers) = (room.unwrap_or(0), TOLD * lengths.len());
    let case = ResamplerCase { src, dst, input, lengths, room, answers };
    text.resampler(&case, &case.run(side));
}

fn sender_again(part: &[&str], side: &Side, text: &mut Text) {
    let head = fields(part[0]);
    let (mut script, mut data, mut room) = (Vec::new(), Vec::new(), 0);
    let mut written = 0;
    for line in &part[1..] {
        let fields = fields(line);
        let first = fields.first().copied().unwrap_or("");
        let wide = || first.parse::<u64>().expect("a decimal number");
        match &line[..1] {
            "A" => script.extend([AMPLITUDE, bits_of(f32_of(first))]),
            "S" => data.extend(fields.iter().map(|b| byte_of(b))),
            "N" => data.extend(vec![byte_of(first); number(fields[1]) as usize]),
            "K" => {
                script.extend([WRITE, (data.len() - written) as u64]);
                written = data.len();
            }
            "I" => script.extend([IDLE_MARK, wide()]),
            "G" | "H" => {
                script.extend([READ, wide()]);
                room += wide() as usize;
            }
            _ => {
                assert!(line.starts_with('L'), "{line}");
                script.extend([SAMPLES_FOR_BITS, wide()]);
            }
        }
    }
    // A refused rate has no step: one that would run shows it.
    if script.is_empty() {
        script.extend([READ, 0]);
    }
    let case = SenderCase::whole(number(head[0]), number(head[1]), data, script, room);
    text.sender(&case, &case.run(side));
}

/// The calls of one recording on both sides: how many lines were answered.
fn check(record: fn(&mut Text), again: fn(&[&str], &Side, &mut Text)) -> Result<usize, String> {
    let mut recorded = Text::new();
    record(&mut recorded);
    let parts = parts(&recorded.calls);
    for side in [&ORIGINAL, &PORT] {
        let mut text = Text::new();
        for part in &parts {
            again(part, side, &mut text);
        }
        let lines: String = parts.concat().iter().map(|line| format!("{line}\n")).collect();
        assert_eq!(lines, text.calls, "the calls read back");
        same_lines(&answers(&recorded.answers), &text.answers, side)?;
    }
    Ok(answers(&recorded.answers).lines().count())
}

/// Names the first line that differs, and how many do.
fn same_lines(recorded: &str, again: &str, side: &Side) -> Result<(), String> {
    let pairs: Vec<(&str, &str)> = recorded.lines().zip(again.lines()).collect();
    let differing: Vec<_> = pairs.iter().filter(|(a, b)| a != b).collect();
    let lines = [recorded.lines().count(), again.lines().count()];
    if let Some(first) = differing.first() {
        return Err(format!("{}: {} lines differ, first {first:?}", side.name, differing.len()));
    }
    if lines[0] != lines[1] {
        return Err(format!("{}: numbers of lines {lines:?}", side.name));
    }
    Ok(())
}

/// The lines that both sides answered to the recorded calls.
fn on_both_sides() -> Result<usize, String> {
    Ok(check(vectors::receiver, receiver_again)?
        + check(vectors::resampler, resampler_again)?
        + check(vectors::sender, sender_again)?)
}

pub fn run() -> ExitCode {
    match on_both_sides() {
        Ok(lines) => {
            println!("recorded calls on both sides: {lines} lines, 0 differences");
            ExitCode::SUCCESS
        }
        Err(words) => {
            println!("recorded calls: DIFFERENCE: {words}");
            ExitCode::FAILURE
        }
    }
}

#[test]
fn recorded_vectors_replay_on_both_sides() {
    assert_eq!(on_both_sides().err(), None);
}

#[test]
fn no_line_is_longer_than_the_format_says() {
    for record in [vectors::receiver, vectors::resampler, vectors::sender] {
        let mut text = Text::new();
        record(&mut text);
        assert!(text.calls.lines().all(|line| line.len() <= 320));
    }
}
