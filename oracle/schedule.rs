//! Stand-in for the published module `schedule`, which the text does not
//! hold: only the names that `digest.rs` uses. Both types are empty, so no
//! value of them exists and `absorb_plan` can never run. Nothing that the
//! oracle prints can depend on this file.

use core::num::NonZeroU64;

pub enum FramePlan {}

pub enum Timestep {}

impl FramePlan {
    pub const fn first_tick(&self) -> u64 {
        match *self {}
    }

    pub const fn step_count(&self) -> u32 {
        match *self {}
    }

    pub const fn dropped(&self) -> u64 {
        match *self {}
    }

    pub const fn remainder(&self) -> NonZeroU64 {
        match *self {}
    }

    pub const fn dt(&self) -> Timestep {
        match *self {}
    }
}

impl Timestep {
    pub const fn nanos(&self) -> NonZeroU64 {
        match *self {}
    }
}
