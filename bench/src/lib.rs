//! A relay between a hub and a seat, in plain Rust.
//!
//! A second implementation of what `docs/` describes, written from these pages alone. It is for comparison: of answers,
//! by rehearsals, and of speed.

pub mod account;
pub mod fault;
pub mod frame;
pub mod histories;
pub mod hub;
pub mod line;
pub mod log;
pub mod packet;
pub mod pair;
#[cfg(feature = "proved")]
pub mod proved;
pub mod rehearsal;
pub mod seat;
pub mod twins;

pub use histories::script;
pub use rehearsal::rehearse;
