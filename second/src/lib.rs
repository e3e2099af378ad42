//! A second interpreter of Arm vector loads, written from the documents alone, so that it can be
//! compared with a proved bench. No `unsafe`, no dependency, and no input makes it panic.

#![forbid(unsafe_code)]

pub mod answer;
pub mod assembly;
pub mod broken;
pub mod cases;
pub mod compare;
pub mod coverage;
pub mod decode;
pub mod describe;
pub mod edges;
pub mod floats;
pub mod generate;
pub mod holding;
pub mod loads;
pub mod machine;
pub mod plain;
pub mod progress;
pub mod questions;
pub mod reading;
pub mod recorded;
pub mod rng;
pub mod rules;
pub mod sample;
pub mod sharp;
pub mod stack;
pub mod tally;
pub mod telling;
pub mod together;
pub mod touched;
pub mod windows;
pub mod words;
pub mod wrong;
