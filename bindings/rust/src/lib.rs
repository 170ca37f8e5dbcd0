#![doc = include_str!("../README.md")]
#![no_std]

pub mod capi;
pub mod eea3;
pub mod eia3;
pub mod frame;
pub mod zuc128;
pub mod zuc256;

mod ffi;
mod generator;
mod guard;
mod refusal;
mod tag;

pub use ffi::{Link, WORDS_PER_START};
pub use guard::Guard;
pub use refusal::Refusal;
