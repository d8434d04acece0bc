//! The paper's definitions a second time, written from documents 01 and 02 alone and in the most literal way.
//!
//! The feature `films`, which is on by default, has the films of the tests and the maker of films; the command line goes without.
#[cfg(feature = "films")]
pub mod film;
pub mod film_return;
#[cfg(feature = "films")]
pub mod hoses;
#[cfg(feature = "films")]
pub mod made;
#[cfg(feature = "films")]
pub mod maker;
pub mod movie;
pub mod slip;
