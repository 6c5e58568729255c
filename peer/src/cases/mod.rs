//! The cases of each program.

pub mod capture;
pub mod echo;
pub mod elements;
pub mod feeds;
pub mod messages;
pub mod sessions;
pub mod texts;
