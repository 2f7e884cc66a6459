//! An independent program for the script language of `limbozafe`: the kernel is compared with it.
//! It shares nothing with the kernel. It is written for clearness: exact numbers, sorted maps, one rule after the other.

pub mod census;
pub mod deck_reader;
pub mod deck_writer;
pub mod differentiate;
pub mod divide;
pub mod format;
pub mod generator;
pub mod kind;
pub mod multiply;
pub mod numbers;
pub mod polynomial;
pub mod refusal;
pub mod script;
pub mod session;
pub mod setting;
pub mod sheet;
pub mod substitute;
pub mod truncate;
