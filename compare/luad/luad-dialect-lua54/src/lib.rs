//! Ours, not luad's: it declares the two modules carried in unchanged.

pub mod lifter;
pub mod opcodes;
