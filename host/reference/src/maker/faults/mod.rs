//! Faults near each refusal of document 01.
pub mod leaves;
pub mod offsets;
pub mod tables;
pub mod tree;
