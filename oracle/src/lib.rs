//! The Rust as oracle: Meshem's own code asked the questions of document 01, its answers in 01's layout.

pub mod calls;
pub mod cases;
pub mod compare;
pub mod crews;
pub mod entries;
pub mod faults;
pub mod grounds;
#[cfg(feature = "library")]
pub mod library;
pub mod orders;
pub mod room;
pub mod rows;
pub mod rust;
pub mod timing;
