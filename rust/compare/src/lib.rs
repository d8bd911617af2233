//! Compares the compiled libraries with the reference: results, every table word and every byte, those
//! that must keep their content included.

pub mod buffers;
pub mod calls;
pub mod counts;
pub mod desk;
pub mod forecasts;
pub mod price;
pub mod random_calls;
pub mod tally;
