//! The calls, structs and numbers of the C library. `tools/dev/bindings` writes them to declared.rs.
mod declared;
pub use declared::*;
