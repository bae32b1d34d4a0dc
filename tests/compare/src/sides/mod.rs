//! The implementations that are compared.

pub mod fast;
#[cfg(feature = "panel")]
pub mod library;
pub mod sentences;

pub use fast::FAST;
#[cfg(feature = "panel")]
pub use library::LIBRARY;
pub use sentences::{BY_LAST, SENTENCES};
