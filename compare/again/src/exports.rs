// The C interface that `port.rs` of the comparison declares.

use core::slice::{from_raw_parts, from_raw_parts_mut};

use crate::judge;
use crate::oracle;
use crate::settings;

#[no_mangle]
unsafe extern "C" fn morkhetta_resample(
    src: u32,
    dst: u32,
    input: *const f64,
    input_len: usize,
    lengths: *const u32,
    lengths_len: usize,
    output: *mut f64,
    output_len: usize,
    answers: *mut u64,
    answers_len: usize,
) -> usize {
    oracle::resample(
        src,
        dst,
        from_raw_parts(input, input_len),
        from_raw_parts(lengths, lengths_len),
        from_raw_parts_mut(output, output_len),
        from_raw_parts_mut(answers, answers_len),
    )
}

#[no_mangle]
unsafe extern "C" fn morkhetta_resampler_state(
    src: u32,
    dst: u32,
    input: *const f64,
    input_len: usize,
    script: *const u32,
    script_len: usize,
    output: *mut f64,
    output_len: usize,
    answers: *mut u64,
    answers_len: usize,
    state: *mut f64,
    state_len: usize,
) -> usize {
    oracle::resampler_state(
        src,
        dst,
        from_raw_parts(input, input_len),
        from_raw_parts(script, script_len),
        from_raw_parts_mut(output, output_len),
        from_raw_parts_mut(answers, answers_len),
        from_raw_parts_mut(state, state_len),
    )
}

#[no_mangle]
unsafe extern "C" fn morkhetta_max_output_len(
    src: u32,
    dst: u32,
    lengths: *const u32,
    lengths_len: usize,
    answers: *mut u64,
    answers_len: usize,
) -> usize {
    oracle::max_output_len(
        src,
        dst,
        from_raw_parts(lengths, lengths_len),
        from_raw_parts_mut(answers, answers_len),
    )
}

#[no_mangle]
unsafe extern "C" fn morkhetta_receive(
    rate: u32,
    role: u32,
    samples: *const f32,
    samples_len: usize,
    script: *const u32,
    script_len: usize,
    bytes: *mut u8,
    bytes_len: usize,
    events: *mut u8,
    events_len: usize,
    answers: *mut u64,
    answers_len: usize,
) -> usize {
    oracle::receive(
        rate,
        role,
        from_raw_parts(samples, samples_len),
        from_raw_parts(script, script_len),
        from_raw_parts_mut(bytes, bytes_len),
        from_raw_parts_mut(events, events_len),
        from_raw_parts_mut(answers, answers_len),
    )
}

#[no_mangle]
unsafe extern "C" fn morkhetta_receiver_state(
    rate: u32,
    role: u32,
    samples: *const f32,
    samples_len: usize,
    script: *const u32,
    script_len: usize,
    state: *mut f64,
    state_len: usize,
) -> u32 {
    oracle::receiver_state(
        rate,
        role,
        from_raw_parts(samples, samples_len),
        from_raw_parts(script, script_len),
        from_raw_parts_mut(state, state_len),
    )
}

#[no_mangle]
unsafe extern "C" fn morkhetta_send(
    rate: u32,
    role: u32,
    data: *const u8,
    data_len: usize,
    script: *const u64,
    script_len: usize,
    samples: *mut f32,
    samples_len: usize,
    answers: *mut u64,
    answers_len: usize,
) -> usize {
    oracle::send(
        rate,
        role,
        from_raw_parts(data, data_len),
        from_raw_parts(script, script_len),
        from_raw_parts_mut(samples, samples_len),
        from_raw_parts_mut(answers, answers_len),
    )
}

#[no_mangle]
unsafe extern "C" fn morkhetta_sender_state(
    rate: u32,
    role: u32,
    data: *const u8,
    data_len: usize,
    script: *const u64,
    script_len: usize,
    samples: *mut f32,
    samples_len: usize,
    answers: *mut u64,
    answers_len: usize,
    state: *mut f64,
    state_len: usize,
) -> usize {
    oracle::sender_state(
        rate,
        role,
        from_raw_parts(data, data_len),
        from_raw_parts(script, script_len),
        from_raw_parts_mut(samples, samples_len),
        from_raw_parts_mut(answers, answers_len),
        from_raw_parts_mut(state, state_len),
    )
}

#[no_mangle]
unsafe extern "C" fn morkhetta_frame_bytes(
    bytes: *const u8,
    bytes_len: usize,
    bits: *mut u8,
    bits_len: usize,
) -> usize {
    oracle::frame_bytes(from_raw_parts(bytes, bytes_len), from_raw_parts_mut(bits, bits_len))
}

#[no_mangle]
unsafe extern "C" fn morkhetta_deframe(
    in_frame: u32,
    bit_count: u32,
    acc: u32,
    errors: u32,
    bits: *const u8,
    bits_len: usize,
    answers: *mut u64,
    answers_len: usize,
) -> usize {
    oracle::deframe(
        in_frame,
        bit_count,
        acc,
        errors,
        from_raw_parts(bits, bits_len),
        from_raw_parts_mut(answers, answers_len),
    )
}

#[no_mangle]
extern "C" fn morkhetta_board_refusal(rate: u32, station: u16) -> u32 {
    judge::board_refusal(rate, station)
}

#[no_mangle]
unsafe extern "C" fn morkhetta_listen(
    rate: u32,
    station: u16,
    role: u32,
    samples: *const f32,
    samples_len: usize,
    lengths: *const u32,
    lengths_len: usize,
    answers: *mut u64,
    answers_len: usize,
    shown: *mut u64,
    shown_len: usize,
) -> usize {
    judge::listen(
        rate,
        station,
        role,
        from_raw_parts(samples, samples_len),
        from_raw_parts(lengths, lengths_len),
        from_raw_parts_mut(answers, answers_len),
        from_raw_parts_mut(shown, shown_len),
    )
}

#[no_mangle]
unsafe extern "C" fn morkhetta_settings_read(
    buffer: *const u8,
    buffer_len: usize,
    settings: *mut u64,
    settings_len: usize,
) -> u32 {
    let (number, told) = settings::judged_read(from_raw_parts(buffer, buffer_len), settings_len);
    from_raw_parts_mut(settings, settings_len).copy_from_slice(&told);
    number
}

#[no_mangle]
unsafe extern "C" fn morkhetta_settings_write(
    buffer: *mut u8,
    buffer_len: usize,
    rate: u32,
    station: u16,
    role: u32,
) -> u32 {
    let buffer = from_raw_parts_mut(buffer, buffer_len);
    let (number, after) = settings::judged_write(buffer, rate, station, role);
    buffer.copy_from_slice(&after);
    number
}
