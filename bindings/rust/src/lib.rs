//! The Maybenot framework as a proved library, for a sender written in Rust.
//!
//! The names are those of the crate `maybenot`: build [`Machine`]s of [`State`](state::State)s, turn
//! them into [`Tables`], open a [`Framework`], hand it each [`TriggerEvent`] and do what each
//! [`TriggerAction`] says, in the order of machines or as they fall due ([`DueOrder`]). What differs:
//!
//! - times, timeouts and durations are `u64` microseconds;
//! - random numbers are the sender's, which has three ways to lend them (below);
//! - a call that does not fit is refused with a number and changes nothing ([`Refused`]).
//!
//! # The smallest machine that pads
//!
//! One state, which pads 10 microseconds after each normal packet, with tapes of the sender's own:
//!
//! ```
//! use maybenot_link::action::Action;
//! use maybenot_link::dist::Dist;
//! use maybenot_link::event::Event;
//! use maybenot_link::state::{State, Trans};
//! use maybenot_link::{Framework, Machine, MachineId, Tables, TriggerAction, TriggerEvent, Used};
//!
//! let state = State::new([(Event::NormalSent, vec![Trans(0, 1.0)])]).with_action(
//!     Action::SendPadding {
//!         bypass: false,
//!         replace: false,
//!         timeout: Dist::constant(10.0),
//!         limit: None,
//!     },
//! );
//! let machine = Machine::new(0, 0.0, 0, 0.0, vec![state])?;
//! let tables = Tables::new(&[machine])?;
//!
//! let (mut framework, _) = Framework::open_with(tables, 0.0, 0.0, 0, &[])?;
//! let mut actions = Vec::new();
//! let used = framework.batch(5, &[TriggerEvent::NormalSent], &[0.25], &[], &mut actions)?;
//!
//! let machine = MachineId::from_raw(0);
//! let padding =
//!     TriggerAction::SendPadding { timeout: 10, bypass: false, replace: false, machine };
//! assert_eq!(actions, [padding]);
//! assert_eq!(used, Used { chances: 1, values: 0 });
//! # Ok::<(), Box<dyn std::error::Error>>(())
//! ```
//!
//! # Draws
//!
//! | the tables have | the sender lends | calls |
//! |---|---|---|
//! | Uniforms alone | random words, by a function `FnMut() -> u64`: the first choice | [`Framework::open_words`], [`trigger_events_words`](Framework::trigger_events_words); as a source, [`RawWords`], the calls of the next line |
//! | other distributions too | a source of draws, [`Draws`] | [`Framework::open`], [`trigger_events`](Framework::trigger_events) |
//! | any, and the sender knows which draws come | tapes of its own | [`Framework::open_with`], [`batch`](Framework::batch); of words [`open_with_words`](Framework::open_with_words), [`batch_words`](Framework::batch_words) |
//!
//! [`Tables::draws_outside`] tells whether there are others than Uniforms. With words the library works
//! the draws out, and a batch is one call of it:
//!
//! ```
//! # use maybenot_link::action::Action;
//! # use maybenot_link::dist::Dist;
//! # use maybenot_link::event::Event;
//! # use maybenot_link::state::{State, Trans};
//! # use maybenot_link::{Framework, Machine, Tables, TriggerEvent};
//! # use std::hash::{BuildHasher, BuildHasherDefault, DefaultHasher};
//! // pads after 10 to 20 microseconds
//! let state = State::new([(Event::NormalSent, vec![Trans(0, 1.0)])]).with_action(
//!     Action::SendPadding {
//!         bypass: false,
//!         replace: false,
//!         timeout: Dist::uniform(10.0, 20.0),
//!         limit: None,
//!     },
//! );
//! let tables = Tables::new(&[Machine::new(0, 0.0, 0, 0.0, vec![state])?])?;
//!
//! # let mut count = 0_u64;
//! # let mut next_word = || {
//! #     count += 1;
//! #     BuildHasherDefault::<DefaultHasher>::default().hash_one(count)
//! # };
//! let mut words = || next_word(); // of the terminal's own source
//! let mut framework = Framework::open_words(&tables, 0.0, 0.0, 0, &mut words)?;
//! let actions = framework.trigger_events_words(&[TriggerEvent::NormalSent], 5, &mut words)?;
//! assert_eq!(actions.len(), 1);
//! # Ok::<(), Box<dyn std::error::Error>>(())
//! ```
//!
//! Other distributions are drawn by a source, here a small generator; a sender puts its own behind the
//! same function. [`Draws`] says how draws are worked out from its words, and how a sender with
//! rand_distr takes its own.
//!
//! ```
//! use maybenot_link::action::Action;
//! use maybenot_link::dist::{Dist, DistType};
//! use maybenot_link::event::Event;
//! use maybenot_link::state::{State, Trans};
//! use maybenot_link::{Draws, Framework, Machine, Tables, TriggerEvent};
//!
//! struct Xorshift(u64);
//!
//! impl Draws for Xorshift {
//!     fn word(&mut self) -> u64 {
//!         self.0 ^= self.0 >> 12;
//!         self.0 ^= self.0 << 25;
//!         self.0 ^= self.0 >> 27;
//!         self.0.wrapping_mul(0x2545_f491_4f6c_dd1d)
//!     }
//! }
//!
//! // blocks for 50 to 100 after a timeout of 1000 on average
//! let state = State::new([(Event::NormalSent, vec![Trans(0, 1.0)])]).with_action(
//!     Action::BlockOutgoing {
//!         bypass: false,
//!         replace: true,
//!         timeout: Dist::new(DistType::Gamma { scale: 500.0, shape: 2.0 }, 0.0, 9000.0),
//!         duration: Dist::uniform(50.0, 100.0),
//!         limit: None,
//!     },
//! );
//! let tables = Tables::new(&[Machine::new(0, 0.0, 0, 0.0, vec![state])?])?;
//!
//! let mut source = Xorshift(7);
//! let mut framework = Framework::open(&tables, 0.0, 0.0, 0, &mut source)?;
//! for action in framework.trigger_events(&[TriggerEvent::NormalSent], 5, &mut source)? {
//!     println!("{action}"); // BlockOutgoing in 1298 us for 68 us, replace, machine 0
//! #   assert_eq!(action.to_string(), "BlockOutgoing in 1298 us for 68 us, replace, machine 0");
//! }
//! # Ok::<(), Box<dyn std::error::Error>>(())
//! ```
//!
//! # After a refusal
//!
//! A call that was refused has changed nothing, so its events have not happened for the framework: the
//! sender keeps them. Where the draws were refused ([`Refused::is_for_draws`]) it makes the same call
//! again with fresh draws. Any other refusal comes again however often the call is made: it says what
//! is wrong with the tables, the framework or the program.

#![warn(missing_debug_implementations)]
#![deny(missing_docs)]

mod asking;
mod draws;
mod due_order;
mod framework;
mod refusal;
mod rows;
mod sampling;
mod sheet;
mod tables;

pub mod action;
pub mod constants;
pub mod counter;
pub mod dist;
pub mod event;
pub mod machine;
pub mod state;
pub mod sys;
pub mod time;

pub use action::{Timer, TriggerAction};
pub use draws::{Draws, RawWords};
pub use due_order::{due_list, DueOrder, InDueOrder};
pub use event::TriggerEvent;
pub use framework::{Framework, MachineId, Used};
pub use machine::{Invalid, Machine};
pub use refusal::{BadDraw, Refusal, Refused};
pub use tables::Tables;
pub use time::Clock;
