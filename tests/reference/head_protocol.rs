//! Harness: the head of protocol/mod.rs. The module holds only what records and sessions need;
//! the build appends the reference's own text, from `ProtocolError` to the end of its file.
#![allow(dead_code, unused_imports)]

use std::fmt;

pub mod nvxs;
mod outer;

pub use outer::*;

