//! Framing: every byte's frame; and the deframer alone, from any state, over
//! every list of ten bits and over long ones.

use crate::layout::*;
use crate::random::Random;
use crate::side::{Side, ORIGINAL, PORT};
use crate::signal::ten_bits;

const UNTOUCHED: u64 = 777_777;

/// The lists of ten bits.
const LISTS: u32 = 1 << FRAME;

/// All 256 frames, against the original's and those that document 01 spells.
pub fn frame_bytes() -> Result<(), String> {
    let bytes: Vec<u8> = (0..=255).collect();
    let run = |side: &Side| {
        let mut bits = vec![0xA5; FRAME * bytes.len() + 1];
        (side.frame_bytes)(&bytes, &mut bits);
        bits
    };
    let (a, b) = (run(&ORIGINAL), run(&PORT));
    for &byte in &bytes {
        let frame = usize::from(byte) * FRAME..(usize::from(byte) + 1) * FRAME;
        let (a, b) = (&a[frame.clone()], &b[frame]);
        if a != b || b != ten_bits(byte).map(u8::from) {
            return Err(format!("byte {byte:02X}: {a:?} from the original, {b:?} from the port"));
        }
    }
    if a == b {
        Ok(())
    } else {
        Err("a bit behind the last frame is written".into())
    }
}

/// In a frame (0 or else), bits so far, byte so far, errors.
#[derive(Clone, Copy, Debug)]
pub struct State([u32; 4]);

impl State {
    pub const IDLE: State = State([0, 0, 0, 0]);

    /// Any numbers at all, half of them such as a receiver has.
    pub fn random(random: &mut Random) -> State {
        let mut any = || random.whole(0, u32::MAX);
        let state = State([any(), any(), any(), any()]);
        let errors = random.pick(&[0, 1, u32::MAX - 1, u32::MAX, state.0[3]]);
        if random.once_in(2) {
            State([random.whole(0, 1), random.whole(0, 9), random.whole(0, 255), errors])
        } else {
            State([state.0[0], state.0[1], state.0[2], errors])
        }
    }

    fn run(self, side: &Side, bits: &[u8]) -> (usize, Vec<u64>) {
        let [in_frame, bit_count, acc, errors] = self.0;
        let mut answers = vec![UNTOUCHED; PUSHED * bits.len() + 1];
        let pushed = (side.deframe)(in_frame, bit_count, acc, errors, bits, &mut answers);
        (pushed, answers)
    }

    fn check(self, bits: &[u8]) -> Result<(), String> {
        let (a, b) = (self.run(&ORIGINAL, bits), self.run(&PORT, bits));
        if a == b {
            return Ok(());
        }
        let at = a.1.iter().zip(&b.1).position(|(a, b)| a != b).unwrap_or(0) / PUSHED;
        let told = |list: &[u64]| list.chunks(PUSHED).nth(at).map(<[u64]>::to_vec);
        Err(format!(
            "state {:?}, bits {bits:?}, bit {at}: {:?} from the original, {:?} from the port",
            self.0,
            told(&a.1),
            told(&b.1)
        ))
    }

    /// Every list of ten bits.
    pub fn check_lists(self) -> Result<(), String> {
        (0..LISTS).try_for_each(|list| {
            let bits: Vec<u8> = (0..FRAME).map(|i| (list >> i & 1) as u8).collect();
            self.check(&bits)
        })
    }

    /// A long list; what stands for mark is any number but 0.
    pub fn check_long(self, random: &mut Random) -> Result<(), String> {
        let bits: Vec<u8> = (0..1_000)
            .map(|_| if random.once_in(2) { 0 } else { random.whole(1, 255) as u8 })
            .collect();
        self.check(&bits)
    }
}

#[cfg(test)]
mod tests {
    use super::*;

    /// The kind, the byte, whether in a frame, and the errors behind each bit.
    fn pushed(state: State, bits: &[u8]) -> Vec<[u64; 4]> {
        let (_, answers) = state.run(&ORIGINAL, bits);
        answers.chunks_exact(PUSHED).map(|a| [a[0], a[1], a[2], a[5]]).collect()
    }

    /// "Nine spaces then a space: one error, idle." The step before it waits, and
    /// the bad stop starts nothing: a space behind it does.
    #[test]
    fn a_bad_stop_is_told_from_waiting() {
        let answers = pushed(State::IDLE, &[0; 11]);
        assert!(answers[..9].iter().all(|a| *a == [WAITING, 0, 1, 0]));
        assert_eq!(answers[9], [BAD_STOP, 0, 0, 1]);
        assert_eq!(answers[10], [WAITING, 0, 1, 1]);
    }

    #[test]
    fn a_byte_is_told_where_the_stop_is_a_mark() {
        let answers = pushed(State::IDLE, &ten_bits(0x41).map(u8::from));
        assert!(answers[..9].iter().all(|a| a[0] == WAITING));
        assert_eq!(answers[9], [BYTE, 0x41, 0, 0]);
    }

    /// "The error count holds at 4,294,967,295": the stop is bad all the same.
    #[test]
    fn a_bad_stop_is_told_where_the_count_holds() {
        let full = State([1, 8, 0x41, u32::MAX]);
        assert_eq!(pushed(full, &[0]), [[BAD_STOP, 0, 0, u64::from(u32::MAX)]]);
        assert_eq!(pushed(full, &[1]), [[BYTE, 0x41, 0, u64::from(u32::MAX)]]);
    }
}
