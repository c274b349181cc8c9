//! The port, through the C functions of its static library.
//!
//! Nothing checks these declarations against the library, so they stand in
//! this one place. A slice passes as a pointer and then a length. Each C
//! function runs a whole list of calls from a fresh state; `layout.rs` says
//! how lists and answers lie in the slices, and `oracle.rs` has the same
//! functions over the original.

#[cfg(not(feature = "port"))]
use again as _;

extern "C" {
    fn morkhetta_resample(
        src: u32,
        dst: u32,
        input: *const f64,
        input_len: usize,
        lengths: *const u32,
        lengths_len: usize,
        output: *mut f64,
        output_len: usize,
        answers: *mut u64,
        answers_len: usize,
    ) -> usize;

    fn morkhetta_resampler_state(
        src: u32,
        dst: u32,
        input: *const f64,
        input_len: usize,
        script: *const u32,
        script_len: usize,
        output: *mut f64,
        output_len: usize,
        answers: *mut u64,
        answers_len: usize,
        state: *mut f64,
        state_len: usize,
    ) -> usize;

    fn morkhetta_max_output_len(
        src: u32,
        dst: u32,
        lengths: *const u32,
        lengths_len: usize,
        answers: *mut u64,
        answers_len: usize,
    ) -> usize;

    fn morkhetta_receive(
        rate: u32,
        role: u32,
        samples: *const f32,
        samples_len: usize,
        script: *const u32,
        script_len: usize,
        bytes: *mut u8,
        bytes_len: usize,
        events: *mut u8,
        events_len: usize,
        answers: *mut u64,
        answers_len: usize,
    ) -> usize;

    fn morkhetta_receiver_state(
        rate: u32,
        role: u32,
        samples: *const f32,
        samples_len: usize,
        script: *const u32,
        script_len: usize,
        state: *mut f64,
        state_len: usize,
    ) -> u32;

    fn morkhetta_frame_bytes(
        bytes: *const u8,
        bytes_len: usize,
        bits: *mut u8,
        bits_len: usize,
    ) -> usize;

    fn morkhetta_deframe(
        in_frame: u32,
        bit_count: u32,
        acc: u32,
        errors: u32,
        bits: *const u8,
        bits_len: usize,
        answers: *mut u64,
        answers_len: usize,
    ) -> usize;

    fn morkhetta_board_refusal(rate: u32, station: u16) -> u32;

    fn morkhetta_listen(
        rate: u32,
        station: u16,
        role: u32,
        samples: *const f32,
        samples_len: usize,
        lengths: *const u32,
        lengths_len: usize,
        answers: *mut u64,
        answers_len: usize,
        shown: *mut u64,
        shown_len: usize,
    ) -> usize;

    fn morkhetta_send(
        rate: u32,
        role: u32,
        data: *const u8,
        data_len: usize,
        script: *const u64,
        script_len: usize,
        samples: *mut f32,
        samples_len: usize,
        answers: *mut u64,
        answers_len: usize,
    ) -> usize;

    fn morkhetta_sender_state(
        rate: u32,
        role: u32,
        data: *const u8,
        data_len: usize,
        script: *const u64,
        script_len: usize,
        samples: *mut f32,
        samples_len: usize,
        answers: *mut u64,
        answers_len: usize,
        state: *mut f64,
        state_len: usize,
    ) -> usize;
}

// Safety, for all of them: each pointer and length come from one slice, and a
// slice that is written is lent to nobody else meanwhile.

pub fn resample(
    src: u32,
    dst: u32,
    input: &[f64],
    lengths: &[u32],
    output: &mut [f64],
    answers: &mut [u64],
) -> usize {
    unsafe {
        morkhetta_resample(
            src,
            dst,
            input.as_ptr(),
            input.len(),
            lengths.as_ptr(),
            lengths.len(),
            output.as_mut_ptr(),
            output.len(),
            answers.as_mut_ptr(),
            answers.len(),
        )
    }
}

pub fn resampler_state(
    src: u32,
    dst: u32,
    input: &[f64],
    script: &[u32],
    output: &mut [f64],
    answers: &mut [u64],
    state: &mut [f64],
) -> usize {
    unsafe {
        morkhetta_resampler_state(
            src,
            dst,
            input.as_ptr(),
            input.len(),
            script.as_ptr(),
            script.len(),
            output.as_mut_ptr(),
            output.len(),
            answers.as_mut_ptr(),
            answers.len(),
            state.as_mut_ptr(),
            state.len(),
        )
    }
}

pub fn max_output_len(src: u32, dst: u32, lengths: &[u32], answers: &mut [u64]) -> usize {
    unsafe {
        morkhetta_max_output_len(
            src,
            dst,
            lengths.as_ptr(),
            lengths.len(),
            answers.as_mut_ptr(),
            answers.len(),
        )
    }
}

pub fn receive(
    rate: u32,
    role: u32,
    samples: &[f32],
    script: &[u32],
    bytes: &mut [u8],
    events: &mut [u8],
    answers: &mut [u64],
) -> usize {
    unsafe {
        morkhetta_receive(
            rate,
            role,
            samples.as_ptr(),
            samples.len(),
            script.as_ptr(),
            script.len(),
            bytes.as_mut_ptr(),
            bytes.len(),
            events.as_mut_ptr(),
            events.len(),
            answers.as_mut_ptr(),
            answers.len(),
        )
    }
}

pub fn receiver_state(
    rate: u32,
    role: u32,
    samples: &[f32],
    script: &[u32],
    state: &mut [f64],
) -> u32 {
    unsafe {
        morkhetta_receiver_state(
            rate,
            role,
            samples.as_ptr(),
            samples.len(),
            script.as_ptr(),
            script.len(),
            state.as_mut_ptr(),
            state.len(),
        )
    }
}

pub fn send(
    rate: u32,
    role: u32,
    data: &[u8],
    script: &[u64],
    samples: &mut [f32],
    answers: &mut [u64],
) -> usize {
    unsafe {
        morkhetta_send(
            rate,
            role,
            data.as_ptr(),
            data.len(),
            script.as_ptr(),
            script.len(),
            samples.as_mut_ptr(),
            samples.len(),
            answers.as_mut_ptr(),
            answers.len(),
        )
    }
}

pub fn sender_state(
    rate: u32,
    role: u32,
    data: &[u8],
    script: &[u64],
    samples: &mut [f32],
    answers: &mut [u64],
    state: &mut [f64],
) -> usize {
    unsafe {
        morkhetta_sender_state(
            rate,
            role,
            data.as_ptr(),
            data.len(),
            script.as_ptr(),
            script.len(),
            samples.as_mut_ptr(),
            samples.len(),
            answers.as_mut_ptr(),
            answers.len(),
            state.as_mut_ptr(),
            state.len(),
        )
    }
}

pub fn frame_bytes(bytes: &[u8], bits: &mut [u8]) -> usize {
    unsafe { morkhetta_frame_bytes(bytes.as_ptr(), bytes.len(), bits.as_mut_ptr(), bits.len()) }
}

pub fn deframe(
    in_frame: u32,
    bit_count: u32,
    acc: u32,
    errors: u32,
    bits: &[u8],
    answers: &mut [u64],
) -> usize {
    unsafe {
        morkhetta_deframe(
            in_frame,
            bit_count,
            acc,
            errors,
            bits.as_ptr(),
            bits.len(),
            answers.as_mut_ptr(),
            answers.len(),
        )
    }
}

pub fn board_refusal(rate: u32, station: u16) -> u32 {
    unsafe { morkhetta_board_refusal(rate, station) }
}

pub fn listen(
    rate: u32,
    station: u16,
    role: u32,
    samples: &[f32],
    lengths: &[u32],
    answers: &mut [u64],
    shown: &mut [u64],
) -> usize {
    unsafe {
        morkhetta_listen(
            rate,
            station,
            role,
            samples.as_ptr(),
            samples.len(),
            lengths.as_ptr(),
            lengths.len(),
            answers.as_mut_ptr(),
            answers.len(),
            shown.as_mut_ptr(),
            shown.len(),
        )
    }
}
