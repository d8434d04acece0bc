//! The quay film profile: the subset of films that camera contracts name, by document 02.
use crate::units::TrackId;
use std::fmt;

/// A rule of the quay film profile, whose words [`Display`](fmt::Display) gives.
#[non_exhaustive]
#[derive(Clone, Copy, Debug, PartialEq, Eq, PartialOrd, Ord, Hash)]
pub enum QuayRule {
    /// 1: one or two video tracks and no others.
    Tracks = 1,
    /// 2: at most one edit a track.
    Edits = 2,
    /// 3: one description a track.
    Descriptions = 3,
    /// 4: no composition offsets, not even an empty table of them.
    CompositionOffsets = 4,
    /// 5: the first sample is a sync sample, and from each sync sample up to the next, or to the end, are at most 250 samples. A track
    /// without samples breaks it.
    SyncSamples = 5,
    /// 6: no sample without bytes.
    Sizes = 6,
    /// 7: no sample without duration.
    Durations = 7,
    /// 8: chunks rise in the file, and none overlaps the one before.
    Chunks = 8,
    /// 9: the highest frame rate is at most 30. One that cannot be computed breaks it.
    FrameRate = 9,
}

impl QuayRule {
    /// Every rule, in the order of their numbers.
    pub const ALL: &'static [QuayRule] = &[
        QuayRule::Tracks,
        QuayRule::Edits,
        QuayRule::Descriptions,
        QuayRule::CompositionOffsets,
        QuayRule::SyncSamples,
        QuayRule::Sizes,
        QuayRule::Durations,
        QuayRule::Chunks,
        QuayRule::FrameRate,
    ];

    /// The rule's place in document 02, from 1.
    #[must_use]
    pub const fn number(self) -> u32 {
        self as u32
    }

    /// The rule with that number, if there is one.
    #[must_use]
    pub fn from_number(number: u32) -> Option<QuayRule> {
        QuayRule::ALL.iter().copied().find(|rule| rule.number() == number)
    }
}

impl fmt::Display for QuayRule {
    /// The rule in document 02's words.
    fn fmt(&self, f: &mut fmt::Formatter<'_>) -> fmt::Result {
        f.pad(match self {
            QuayRule::Tracks => "one or two vide tracks and no others",
            QuayRule::Edits => "at most one edit entry a track",
            QuayRule::Descriptions => "one description a track",
            QuayRule::CompositionOffsets => "no ctts",
            QuayRule::SyncSamples => {
                "sample 1 sync, and a sync sample and those after it before the next sync one, or to the end, at most 250 samples"
            }
            QuayRule::Sizes => "no zero sizes",
            QuayRule::Durations => "no zero durations",
            QuayRule::Chunks => "chunks in rising order of offset with none overlapping the one before",
            QuayRule::FrameRate => "vfps at most 30.0",
        })
    }
}

/// What keeps a movie from the quay film profile.
#[non_exhaustive]
#[derive(Clone, Copy, Debug, PartialEq, Eq, Hash)]
pub struct QuayFault {
    /// The lowest rule that any track breaks.
    pub rule: QuayRule,
    /// The first track in file order that breaks it; none for the first rule, which is the movie's.
    pub track: Option<TrackId>,
}

impl QuayFault {
    /// A rule, and the track that breaks it.
    #[must_use]
    pub fn new(rule: QuayRule, track: Option<TrackId>) -> QuayFault {
        QuayFault { rule, track }
    }
}
