//! The two ways in: a whole file, and document 02's moov atom alone. No question looks at which it is.
use std::fmt::Debug;

/// Which of the two.
#[derive(Clone, Copy, Debug, PartialEq)]
pub enum Way {
    WholeFile,
    MoovAlone,
}

/// The lent bytes, and the length of the file that they are or come from.
#[derive(Clone, Copy, Debug)]
pub struct Lent<'f> {
    pub bytes: &'f [u8],
    pub length: u64,
    pub way: Way,
}

/// A film as it is lent.
pub trait Film {
    /// A number of a stretch's pairs: "Lists go to lent 32-bit numbers"; document 02: "Sample offsets and pairs are 64-bit there".
    type Number: TryFrom<u64, Error: Debug>;

    fn lent(&self) -> Lent<'_>;
}

/// "Input is a whole movie file in a lent slice."
impl<T: AsRef<[u8]> + ?Sized> Film for T {
    type Number = u32;

    fn lent(&self) -> Lent<'_> {
        let bytes = self.as_ref();
        Lent { bytes, length: u64::try_from(bytes.len()).unwrap(), way: Way::WholeFile }
    }
}

/// "A second way in takes the moov atom alone in lent bytes ... with the file's length as a number".
#[derive(Clone, Copy, Debug, PartialEq)]
pub struct MoovAlone<B> {
    pub moov: B,
    pub length: u64,
}

impl<B: AsRef<[u8]>> Film for MoovAlone<B> {
    type Number = u64;

    fn lent(&self) -> Lent<'_> {
        Lent { bytes: self.moov.as_ref(), length: self.length, way: Way::MoovAlone }
    }
}
