//! The movie, from document 01: the atom tree, the refusals of a file, the sample tables, the questions and the features; from document 02 the
//! highest rate over a second, strict reading, the entries looked at, the averages with edits, the moov lent alone, stepping, the judging of a
//! stored profile, the quay film profile and the compaction of tables.
//!
//! Nothing here is quick or clever. The tree is built whole, each refusal is a function of its own, and the tables
//! are written out sample by sample before a question is asked. Sums are taken in 64 and 128 bits, where nothing wraps.
pub mod atoms;
pub mod claims;
pub mod compaction;
pub mod explain;
pub mod fault;
pub mod features;
pub mod fragments;
pub mod lent;
pub mod peaks;
pub mod quay;
pub mod questions;
pub mod refusals;
pub mod steps;
pub mod tables;

pub use claims::profile_fault;
pub use compaction::{compact, compact_film};
pub use explain::{explain, explain_strictly};
pub use fragments::fragments;
pub use lent::{Film, MoovAlone};
pub use quay::quay_fault;
pub use questions::{
    feature, listing, media_time, peak, sample, sample_at, sample_bytes, stored_profile, stretch, track_list,
    write_slip, MediaTime,
};
pub use refusals::{refusal, strict_refusal};
pub use steps::{start_at, step, Position, Step};
pub use tables::Sample;
