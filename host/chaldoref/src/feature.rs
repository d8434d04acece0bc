//! The features that can be computed.
use crate::units::FourCC;
use std::error::Error;
use std::fmt;

/// The features that can be computed.
///
/// ```
/// use chaldoref::{Feature, FourCC};
///
/// assert_eq!("avvb".parse::<FourCC>()?.try_into(), Ok(Feature::AverageVideoBitRate));
/// assert!(Feature::try_from(FourCC::from(*b"vfmt")).is_err());
/// # Ok::<(), chaldoref::ParseFourCCError>(())
/// ```
#[non_exhaustive]
#[derive(Clone, Copy, Debug, PartialEq, Eq, Hash)]
pub enum Feature {
    /// `avvb`, of video: bits a second over the samples that the track's edits show, or without an edit list over the
    /// whole media; rounded up.
    AverageVideoBitRate,
    /// `avab`, of sound: the same.
    AverageAudioBitRate,
    /// `tvsz`, of video: the greatest width × 65536 + the greatest height.
    GreatestPicture,
    /// `vfps`, of video: frames a second × 65536, rounded up, for the shortest sample.
    HighestFrameRate,
    /// `mvbr`, of video: bits a second, rounded up, in the second that has most.
    /// [`Movie::peak`](crate::Movie::peak) tells which one.
    HighestVideoBitRate,
    /// `mabr`, of sound: bits a second, rounded up, in the second that has most.
    /// [`Movie::peak`](crate::Movie::peak) tells which one.
    HighestAudioBitRate,
}

impl Feature {
    /// Every feature that can be computed.
    pub const ALL: &'static [Feature] = &[
        Feature::AverageVideoBitRate,
        Feature::AverageAudioBitRate,
        Feature::GreatestPicture,
        Feature::HighestFrameRate,
        Feature::HighestVideoBitRate,
        Feature::HighestAudioBitRate,
    ];

    /// Its four-character code.
    #[must_use]
    pub const fn code(self) -> FourCC {
        match self {
            Feature::AverageVideoBitRate => FourCC::from_bytes(*b"avvb"),
            Feature::AverageAudioBitRate => FourCC::from_bytes(*b"avab"),
            Feature::GreatestPicture => FourCC::from_bytes(*b"tvsz"),
            Feature::HighestFrameRate => FourCC::from_bytes(*b"vfps"),
            Feature::HighestVideoBitRate => FourCC::from_bytes(*b"mvbr"),
            Feature::HighestAudioBitRate => FourCC::from_bytes(*b"mabr"),
        }
    }

    /// The feature with that code, if there is one.
    #[must_use]
    pub fn from_code(code: FourCC) -> Option<Feature> {
        Feature::ALL.iter().copied().find(|feature| feature.code() == code)
    }

    /// The subtype of the tracks that have it, `vide` or `soun`. Of any other track it is refused 18.
    #[must_use]
    pub const fn subtype(self) -> FourCC {
        match self {
            Feature::AverageAudioBitRate | Feature::HighestAudioBitRate => FourCC::from_bytes(*b"soun"),
            _ => FourCC::from_bytes(*b"vide"),
        }
    }
}

impl fmt::Display for Feature {
    /// Its name in plain words.
    fn fmt(&self, f: &mut fmt::Formatter<'_>) -> fmt::Result {
        f.pad(match self {
            Feature::AverageVideoBitRate => "average video bit rate",
            Feature::AverageAudioBitRate => "average audio bit rate",
            Feature::GreatestPicture => "greatest picture",
            Feature::HighestFrameRate => "highest frame rate",
            Feature::HighestVideoBitRate => "highest video bit rate over one second",
            Feature::HighestAudioBitRate => "highest audio bit rate over one second",
        })
    }
}

impl From<Feature> for FourCC {
    fn from(feature: Feature) -> FourCC {
        feature.code()
    }
}

impl TryFrom<FourCC> for Feature {
    type Error = UnknownFeature;

    fn try_from(code: FourCC) -> Result<Feature, UnknownFeature> {
        Feature::from_code(code).ok_or(UnknownFeature { code })
    }
}

/// The error that no feature which can be computed has a code.
#[non_exhaustive]
#[derive(Clone, Copy, Debug, PartialEq, Eq, Hash)]
pub struct UnknownFeature {
    /// The code.
    pub code: FourCC,
}

impl fmt::Display for UnknownFeature {
    fn fmt(&self, f: &mut fmt::Formatter<'_>) -> fmt::Result {
        write!(f, "no feature that can be computed has the code {}", self.code)
    }
}

impl Error for UnknownFeature {}
