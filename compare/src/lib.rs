//! Holds the proved queue against Rust's VecDeque and a plain model of document 01.

#![feature(deque_extend_front, vec_deque_truncate_front, vec_deque_iter_as_slices, iter_is_partitioned)]

pub mod boundary;
pub mod bundle;
pub mod calls;
pub mod carried_on;
pub mod differences;
pub mod exhaustive;
pub mod gate;
pub mod journal;
pub mod journals;
pub mod judge;
pub mod known;
pub mod model;
pub mod model_replay;
pub mod numbers;
pub mod oracle;
pub mod random;
pub mod rng;
pub mod run;
pub mod rust;
pub mod script;
pub mod stream;
pub mod tally;
pub mod words;
pub mod world;
