//! Constants of Maybenot's constants.rs that a machine's author uses.

/// A pseudo-state: the machine stops for good.
pub const STATE_END: usize = u32::MAX as usize;
/// A pseudo-state: a Signal event for all other machines.
pub const STATE_SIGNAL: usize = STATE_END - 1;
/// At most so many states in a machine.
pub const STATE_MAX: usize = 100_000;
/// At most so many machines in a framework.
pub const MACHINES_MAX: usize = crate::sys::MAX_MACHINES;
