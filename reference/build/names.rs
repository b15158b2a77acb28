// Included by the lib.rs of `maybenot` and `probed`: the stand-ins by the names of the crates that the sources use, the
// sources, and the names that their own lib.rs gives out.

extern crate standins as base64;
extern crate standins as bincode;
extern crate standins as enum_map;
extern crate standins as flate2;
extern crate standins as rand;
extern crate standins as rand_core;
extern crate standins as rand_distr;
extern crate standins as serde;
extern crate standins as sha256;

include!(concat!(env!("OUT_DIR"), "/modules.rs"));

pub use action::{Timer, TriggerAction};
pub use error::Error;
pub use event::TriggerEvent;
pub use framework::{Framework, MachineId};
pub use machine::Machine;
