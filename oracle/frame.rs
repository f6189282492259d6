//! Stand-in for the root of the published crate `renew_frame`, of which the
//! text holds `digest.rs` alone. That file is used as it is; it names
//! `schedule::FramePlan` in `absorb_plan`, which no session code calls.

mod digest;
mod schedule;

pub use digest::StateHash;
