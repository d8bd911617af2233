//! The compiled libraries, the queue's header, the printing program and the generator of node starts
//! against the reference, one file for each topic.

mod block_numbers;
mod c3_words;
mod desk;
mod desk_lent;
mod forecasts;
mod guarded;
mod header;
mod helps;
mod known_runs;
mod lengths;
mod logs;
mod node_starts;
mod numbers;
mod pages;
mod price;
mod printing;
mod random;
mod records;
mod support;
mod types;
mod usage;
mod whole_lists;
