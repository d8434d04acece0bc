//! A verified reader of QuickTime movie tables.
//!
//! It tells which tracks a movie holds, which bytes of the file show which time of a track, and it writes and reads
//! *slips*, the receipts that file which bytes of film belong to which stretch of time. The reader itself is the proved
//! library `libchaldoref.a`, written in Rattle; this crate gives it Rust's types and judges nothing on its own. The
//! rules are those of the project's documents 01 and 02, and the words of each [`Refusal`] are document 01's;
//! `docs/RULES.md` in the project's repository has each rule in full.
//!
//! ```
//! use chaldoref::{MediaTime, Movie, Refusal, Slip, TrackId};
//!
//! # std::env::set_current_dir("../..")?;
//! let file = std::fs::read("films/w.mov")?;
//! let movie = Movie::open(&file)?;
//! let track = movie.tracks()[0];
//! assert_eq!((track.id, track.subtype.to_string().as_str()), (TrackId(1), "vide"));
//!
//! // The sample shown at media time 24, and its own bytes, which are not copied.
//! let n = movie.sample_at(track.id, MediaTime(24))?.sample;
//! assert_eq!((n, movie.sample_bytes(track.id, n)?.map(<[u8]>::len)), (2, Some(50)));
//!
//! // The bytes of a stretch of film time, one range for each chunk that it touches.
//! let stretch = movie.stretch(track.id, MediaTime(24)..MediaTime(73))?;
//! assert_eq!((stretch.pairs.len(), stretch.bytes), (2, 120));
//!
//! // The slip that files them, read back without the movie.
//! let slip = Slip::read(&movie.write_slip(track.id, MediaTime(24)..MediaTime(73))?)?;
//! assert_eq!((slip.film_time(), slip.pairs), (49, stretch.pairs));
//!
//! // Whatever cannot be answered is refused by number.
//! assert_eq!(movie.sample_at(track.id, track.total), Err(Refusal::Outside));
//! assert_eq!(Refusal::Outside.number(), 15);
//! # Ok::<(), Box<dyn std::error::Error>>(())
//! ```
//!
//! # What a question costs
//!
//! The library keeps no state and allocates nothing. To judge a film takes time that grows with the movie's tables (the
//! `moov` atom) and not with the film's own bytes: for a million samples half a millisecond to some hundredths of a
//! second. [`Movie::open`] judges the film. A [`Movie`] keeps where a track's tables are: the first question about the
//! samples, times or stretches of a track judges the film once more, and those after it do not, nor does the start of
//! [`Movie::samples`]; the samples themselves take some nanoseconds each. A lookup grows with the entries of the tables
//! before the sample, which [`Opened::indexed`] takes from it, and a stretch with those up to its end.
//! [`Movie::header`], [`Movie::edits`], [`Movie::fragments`], [`Movie::profile`], [`Movie::check_profile`],
//! [`Movie::check_quay`], [`Movie::feature`], [`Movie::peak`], [`Movie::write_slip`] and [`Movie::compact`] judge the film
//! each time.
//!
//! # Memory
//!
//! A [`Movie`] borrows the file and copies none of it. [`Movie::stretch`], [`Movie::write_slip`], [`Opened::indexed`],
//! [`Movie::profile`] and [`Slip::read`] allocate their answers; [`Movie::stretch_into`] and [`Movie::write_slip_into`] fill lent room
//! instead. Without memory for it the answer of the first three is [`Refusal::NoRoom`], and [`Slip::try_read`] tells of the
//! lack. A file that is mapped into memory must not change while it is borrowed, as for every `&[u8]`.
//!
//! # Building
//!
//! The build links `libchaldoref.a` from the folder that the environment variable `CHALDOREF_LIB_DIR` names; without
//! it, from where `host/build-library` puts it; then from `dist/x86_64-linux` of the repository; then from where
//! `pkg-config` says that it is installed.
#![deny(missing_docs)]
#![deny(unsafe_code, clippy::undocumented_unsafe_blocks)]
#![warn(clippy::pedantic)]
#![allow(clippy::doc_markdown, reason = "QuickTime is a name and no code")]

mod answers;
mod feature;
#[allow(unsafe_code)]
mod ffi;
mod film;
mod film_return;
mod leave_out;
mod moov;
mod movie;
mod opened;
mod quay;
#[allow(missing_docs)]
pub mod raw;
mod refusal;
mod room;
mod samples;
mod slip;
mod units;

pub use answers::{
    Edit, Fragments, Header, Peak, ProfileRecord, Sample, SampleAt, Shown, Stretch, StretchSize, Track, UNIVERSAL_PART,
};
pub use feature::{Feature, UnknownFeature};
pub use film::Film;
pub use film_return::{FilmReturn, MAX_SCALES};
pub use leave_out::{LeaveOut, ParseLeaveOutError};
pub use moov::{Moov, ReadError};
pub use movie::{strict_refusal, Movie, MAX_FILE_BYTES, MAX_LENGTH};
pub use opened::{Indexed, Opened, TableEntries};
pub use quay::{QuayFault, QuayRule};
pub use refusal::{Refusal, UnknownRefusal};
pub use samples::Samples;
pub use slip::{AnySlip, MalformedSlip, Slip};
pub use units::{ByteRange, FourCC, MediaTime, MovieTime, ParseFourCCError, TrackId};
