//! The library and two independent implementations of documents 01 and 02, compared call by call. See
//! README.md.

pub mod calls;
pub mod damage;
pub mod feed;
pub mod gen;
pub mod harness;
pub mod rooms;
pub mod sides;
