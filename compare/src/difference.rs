//! Where two answers to the same calls differ, in words.

use crate::cases::{Heard, Resampled, Sent, Stopped, Turned};
use crate::layout::{HEARD, RESAMPLER_PARTS, SENDER, SENT, STATE, TOLD};

/// The first difference between what the original and the port answered.
pub type Difference = Option<String>;

fn differ<T: PartialEq + std::fmt::Debug>(what: &str, a: &T, b: &T) -> Difference {
    (a != b).then(|| format!("{what}: {a:?} from the original, {b:?} from the port"))
}

fn in_list<T: PartialEq + std::fmt::Debug>(what: &str, a: &[T], b: &[T]) -> Difference {
    let at = a.iter().zip(b).position(|(a, b)| a != b)?;
    differ(&format!("{what} {at}"), &a[at], &b[at])
}

/// In answers of several numbers each, which have these names.
fn in_answers(what: &str, names: &[&str], a: &[u64], b: &[u64]) -> Difference {
    let at = a.iter().zip(b).position(|(a, b)| a != b)?;
    let (call, name) = (at / names.len(), names[at % names.len()]);
    differ(&format!("{what} {call}, {name}"), &a[at], &b[at])
}

fn in_floats(a: &[f64], b: &[f64], name: &dyn Fn(usize) -> String) -> Difference {
    let at = a.iter().zip(b).position(|(a, b)| a.to_bits() != b.to_bits())?;
    Some(format!(
        "{}: {:016X} ({:e}) from the original, {:016X} ({:e}) from the port",
        name(at),
        a[at].to_bits(),
        a[at],
        b[at].to_bits(),
        b[at]
    ))
}

/// What number `at` of a state of these parts is called.
fn place_name(parts: &[(&str, usize)], at: usize) -> String {
    let mut first = 0;
    for (name, len) in parts {
        if at < first + len {
            return format!("state at the end, {name} [{}]", at - first);
        }
        first += len;
    }
    "state behind its end".into()
}

pub fn of_heard(a: &Heard, b: &Heard) -> Difference {
    let names: [&str; HEARD] =
        ["answer", "bytes read", "events drained", "carrier", "framing errors", "bad stops"];
    differ("calls run", &a.calls, &b.calls)
        .or_else(|| in_answers("call", &names, &a.answers, &b.answers))
        .or_else(|| in_list("byte", &a.bytes, &b.bytes))
        .or_else(|| in_list("event", &a.events, &b.events))
        .or_else(|| in_floats(&a.state, &b.state, &|at| place_name(&STATE, at)))
}

pub fn of_resampled(a: &Resampled, b: &Resampled) -> Difference {
    let names: [&str; TOLD] = ["refusal", "count"];
    differ("calls run", &a.calls, &b.calls)
        .or_else(|| in_answers("answer to call", &names, &a.answers, &b.answers))
        .or_else(|| in_floats(&a.output, &b.output, &|at| format!("output sample {at}")))
}

pub fn of_turned(a: &Turned, b: &Turned) -> Difference {
    let parts = &STATE[..RESAMPLER_PARTS];
    of_resampled(&a.resampled, &b.resampled)
        .or_else(|| in_floats(&a.state, &b.state, &|at| place_name(parts, at)))
}

pub fn of_sent(a: &Sent, b: &Sent) -> Difference {
    let names: [&str; SENT] = ["refusal", "count", "whether bits wait"];
    let bits = |s: &[f32]| -> Vec<u32> { s.iter().map(|x| x.to_bits()).collect() };
    differ("steps run", &a.steps, &b.steps)
        .or_else(|| in_answers("answer to step", &names, &a.answers, &b.answers))
        .or_else(|| {
            let (a, b) = (bits(&a.samples), bits(&b.samples));
            let at = a.iter().zip(&b).position(|(a, b)| a != b)?;
            Some(format!(
                "sample {at}: {:08X} from the original, {:08X} from the port",
                a[at], b[at]
            ))
        })
}

pub fn of_stopped(a: &Stopped, b: &Stopped) -> Difference {
    let parts = [&STATE[..RESAMPLER_PARTS], &SENDER[..]].concat();
    of_sent(&a.sent, &b.sent)
        .or_else(|| in_floats(&a.state, &b.state, &|at| place_name(&parts, at)))
}
