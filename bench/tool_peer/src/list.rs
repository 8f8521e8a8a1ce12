//! A list of at most N values in place. bench/latency_peer, which has no dependencies, has its own.

pub use arrayvec::ArrayVec as List;
