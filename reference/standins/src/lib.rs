//! Stand-ins for the crates that the Rust sources use: rand, rand_core and rand_distr hand out
//! recorded draws, enum_map is what `State` needs of it, serde and the serializing crates are names only.

mod draws;
mod map;
mod serial;

pub use draws::*;
pub use map::*;
pub use serial::*;
pub use standins_derive::{Deserialize, Enum, Serialize};
