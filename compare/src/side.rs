//! The two sides of every comparison, with the same functions over slices.

use crate::{judge, oracle, port};

type Resample = fn(u32, u32, &[f64], &[u32], &mut [f64], &mut [u64]) -> usize;
type ResamplerState = fn(u32, u32, &[f64], &[u32], &mut [f64], &mut [u64], &mut [f64]) -> usize;
type MaxOutputLen = fn(u32, u32, &[u32], &mut [u64]) -> usize;
type Receive = fn(u32, u32, &[f32], &[u32], &mut [u8], &mut [u8], &mut [u64]) -> usize;
type ReceiverState = fn(u32, u32, &[f32], &[u32], &mut [f64]) -> u32;
type Send = fn(u32, u32, &[u8], &[u64], &mut [f32], &mut [u64]) -> usize;
type SenderState = fn(u32, u32, &[u8], &[u64], &mut [f32], &mut [u64], &mut [f64]) -> usize;
type FrameBytes = fn(&[u8], &mut [u8]) -> usize;
type Deframe = fn(u32, u32, u32, u32, &[u8], &mut [u64]) -> usize;
type BoardRefusal = fn(u32, u16) -> u32;
type Listen = fn(u32, u16, u32, &[f32], &[u32], &mut [u64], &mut [u64]) -> usize;

pub struct Side {
    pub name: &'static str,
    pub resample: Resample,
    pub resampler_state: ResamplerState,
    pub max_output_len: MaxOutputLen,
    pub receive: Receive,
    pub receiver_state: ReceiverState,
    pub send: Send,
    pub sender_state: SenderState,
    pub frame_bytes: FrameBytes,
    pub deframe: Deframe,
    pub board_refusal: BoardRefusal,
    pub listen: Listen,
}

pub const ORIGINAL: Side = Side {
    name: "original",
    resample: oracle::resample,
    resampler_state: oracle::resampler_state,
    max_output_len: oracle::max_output_len,
    receive: oracle::receive,
    receiver_state: oracle::receiver_state,
    send: oracle::send,
    sender_state: oracle::sender_state,
    frame_bytes: oracle::frame_bytes,
    deframe: oracle::deframe,
    board_refusal: judge::board_refusal,
    listen: judge::listen,
};

pub const PORT: Side = Side {
    name: if cfg!(feature = "port") { "port" } else { "original again" },
    resample: port::resample,
    resampler_state: port::resampler_state,
    max_output_len: port::max_output_len,
    receive: port::receive,
    receiver_state: port::receiver_state,
    send: port::send,
    sender_state: port::sender_state,
    frame_bytes: port::frame_bytes,
    deframe: port::deframe,
    board_refusal: port::board_refusal,
    listen: port::listen,
};
