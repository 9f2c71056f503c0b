//! A second program for the rules of documents 01 and 02, to be compared with the library call by call.

pub mod aes;
pub mod cases;
pub mod hex;
pub mod issuer;
pub mod replay;
pub mod sample;
pub mod sheet;
pub mod stream;
pub mod subsample;
pub mod track;
pub mod vectors;
pub mod volume;
