//! The papers' rules in plain Rust, by reference, written from documents 01 and 02: the yardstick that the proved book and the proved factory are compared with.
pub mod factory;
pub mod machine;
pub mod generate;
pub mod orders;
pub mod passes;
pub mod proved;
pub mod session;
