//! The paper read a second time, in plain Rust, and what compares that reading with the engine.

#![allow(clippy::manual_is_multiple_of, clippy::needless_range_loop)]

pub mod calls;
pub mod comparison;
pub mod dayline;
pub mod generate;
pub mod mutation;
pub mod place;
pub mod played;
pub mod reached;
pub mod reference;
pub mod script;
pub mod sweeps;
pub mod ties;
pub mod transcript;

#[cfg(feature = "engine")]
pub mod fence;
#[cfg(feature = "library")]
pub mod library;
#[cfg(feature = "mock")]
pub mod mock;

/// The engine as it is compared (`Engine`), and its bare calls (`Arrays`).
#[cfg(feature = "library")]
pub use library::{Arrays, Engine};
#[cfg(feature = "mock")]
pub use mock::{Mock as Arrays, Mock as Engine};

/// What stands behind the calls of `Engine`.
#[cfg(feature = "engine")]
pub const ENGINE: &str = if cfg!(feature = "mock") { "mock" } else { "libesfenruk.a" };

#[cfg(all(feature = "library", feature = "mock"))]
compile_error!("choose one engine: the feature `library` or the feature `mock`");
#[cfg(all(feature = "engine", not(feature = "library"), not(feature = "mock")))]
compile_error!("the feature `engine` needs the feature `library` or the feature `mock`");
