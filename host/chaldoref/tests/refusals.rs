//! The refusals: their numbers and words, and a question for each of them.
use chaldoref::{Feature, FourCC, MediaTime, Movie, MovieTime, Refusal, Slip, TrackId, MAX_FILE_BYTES};
use reference::film::{self, w, w_movie, w_track};
use reference::made::spoiled;

/// The two tables of document 01, with document 02's additions to 6 and its 19 to 21.
const PAPER: [&str; 21] = [
    "the file is longer than 2,147,483,647 bytes",
    "an atom's size is wrong, passes its parent's end, or 1 to 7 bytes (under 16 for a 64-bit size) remain",
    "an atom is absent or occurs too often",
    "a read leaf has a body whose first byte is not 0",
    "a read leaf or profile hasn't its size",
    "over 16 tracks, or in one track over 1,048,576 samples or chunks, 256 edits, 64 descriptions or 64 references; in one profile over 64 records",
    "a track ID is 0 or occurs twice",
    "a movie or media time scale is 0",
    "sample tables contradict each other",
    "the sample durations, or a track's edit durations, total over 4,294,967,295",
    "the mdhd duration is not the total of the sample durations",
    "a chunk's offset plus the sizes of its samples passes the file's end",
    "an edit list is wrong",
    "no track has that ID",
    "the sample number is not in 1 to N, or the time or stretch lies outside",
    "the lent room is shorter than the answer",
    "a slip is malformed",
    "the feature cannot be computed",
    "a description names data elsewhere, or no such data reference",
    "a thirty-third time scale would be met",
    "a total would reach 2^64",
];

#[test]
fn numbers_and_words() {
    for (number, words) in (1..).zip(PAPER) {
        let refusal = Refusal::from_number(number).unwrap();
        assert_eq!((refusal.number(), refusal.to_string().as_str()), (number, words));
        assert_eq!(Refusal::ALL[number as usize - 1], refusal);
        assert_eq!((Refusal::try_from(number), u32::from(refusal)), (Ok(refusal), number));
    }
    assert_eq!(Refusal::ALL.len(), PAPER.len());
    for number in [0, 22, u32::MAX] {
        assert_eq!(Refusal::from_number(number), None);
        let error = Refusal::try_from(number).unwrap_err();
        assert_eq!((error.number, error.to_string()), (number, format!("no refusal has the number {number}")));
    }
}

#[test]
fn names_are_those_of_the_header() {
    let header = include_str!("../../../include/chaldoref.h");
    let source = include_str!("../src/refusal.rs");
    for refusal in Refusal::ALL {
        // FileTooLong is CHALDOREF_FILE_TOO_LONG.
        let value = format!(" = {},", refusal.number());
        let variant = source.lines().find_map(|line| line.strip_suffix(&value)).unwrap().trim();
        let mut name = String::from("CHALDOREF");
        for c in variant.chars() {
            if c.is_uppercase() {
                name.push('_');
            }
            name.push(c.to_ascii_uppercase());
        }
        // The number ends there, so that 1 is not found in 11.
        let said = [",", " "].map(|end| format!("    {name} = {}{end}", refusal.number()));
        assert!(said.iter().any(|line| header.contains(line)), "{name}");
    }
}

#[test]
fn files_too_long() {
    // Zeros that no one looks at: the length alone is refused, and the system lends no memory for them.
    let mut file = vec![0; MAX_FILE_BYTES as usize + 1];
    assert_eq!(Movie::open(&file).err(), Some(Refusal::FileTooLong));
    file.truncate(8);
    assert_eq!(Movie::open(&file).err(), Some(Refusal::AtomCount));
}

#[test]
fn files() {
    let film_of = |track| film::Movie { tracks: vec![track], ..w_movie() }.file_of(4096);
    for (number, name, film) in spoiled(&w_track(), film_of) {
        assert_eq!(Movie::open(&film.bytes()).err().map(Refusal::number), Some(number), "{name}");
    }
}

#[test]
fn ids_that_no_track_has() {
    let file = w().bytes();
    let movie = Movie::open(&file).unwrap();
    for id in [TrackId(0), TrackId(2), TrackId(u32::MAX)] {
        let time = MediaTime(0)..MediaTime(1);
        assert_eq!(movie.sample(id, 1), Err(Refusal::NoTrack));
        assert_eq!(movie.sample_bytes(id, 1), Err(Refusal::NoTrack));
        assert_eq!(movie.sample_at(id, MediaTime(0)), Err(Refusal::NoTrack));
        assert_eq!(movie.media_time(id, MovieTime(0)), Err(Refusal::NoTrack));
        assert_eq!(movie.stretch(id, time.clone()), Err(Refusal::NoTrack));
        assert_eq!(movie.write_slip(id, time), Err(Refusal::NoTrack));
        assert_eq!(movie.feature(id, Feature::GreatestPicture), Err(Refusal::NoTrack));
        assert_eq!(movie.feature(id, FourCC(0)), Err(Refusal::NoTrack));
        assert_eq!(movie.peak(id, Feature::HighestVideoBitRate), Err(Refusal::NoTrack));
        assert_eq!(movie.peak(id, FourCC(0)), Err(Refusal::NoTrack));
    }
    assert_eq!(movie.profile(TrackId(2)), Err(Refusal::NoTrack));
}

#[test]
fn slips() {
    for (bytes, place) in [(&[][..], 0), (&[0], 0), (&[1, 0, 1, 0, 1, 1, 0, 0], 1), (&[0xff; 64], 0), (&[1, 0xff], 2)] {
        assert_eq!(Slip::read(bytes).map_err(|malformed| malformed.place), Err(place));
    }
}
