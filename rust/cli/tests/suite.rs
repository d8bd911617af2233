//! The notation and the commands of `otq`, one file for each topic.

mod checking;
mod coding;
mod delivering;
mod errors;
mod explaining;
mod forecasting;
mod hostile_files;
mod huge_files;
mod known_runs;
mod listing;
mod locating;
mod making;
mod outputs;
mod playing;
mod pricing;
mod round_trips;
mod showing;
mod support;
mod tabling;
mod tracing;
mod transcripts;
mod usage;
