//! The commands: what each takes, and what it asks.
use crate::args::{Ask, Words};
use crate::failure::Failure;

/// An option of a command, with its value's name if it takes one.
pub struct Opt {
    pub flag: &'static str,
    pub value: Option<&'static str>,
    pub about: &'static str,
}

/// A command. Operands in brackets may be left out, all of one pair together or, each with a bracket of its own, the last ones; one with dots may be
/// given several times.
pub struct Command {
    pub name: &'static str,
    pub operands: &'static [&'static str],
    pub options: &'static [&'static Opt],
    pub about: &'static str,
    /// What is written after the program's name in an example.
    pub example: &'static str,
    pub ask: fn(&Words) -> Result<Ask, Failure>,
}

pub const JSON: Opt = Opt { flag: "--json", value: None, about: "print one JSON document" };
pub const JSON_LINES: Opt =
    Opt { flag: "--json", value: None, about: "print a JSON document for each sample, a line each" };
pub const JSON_ALL: Opt = Opt { flag: "--json", value: None, about: "print one JSON document of all films" };
pub const CSV: Opt = Opt { flag: "--csv", value: None, about: "print lines of comma-separated numbers" };
pub const BYTES: Opt = Opt { flag: "--bytes", value: None, about: "write the film's own bytes instead" };
pub const HEX: Opt = Opt { flag: "--hex", value: None, about: "read hex text, whatever it begins with" };
pub const LEAVE_OUT: Opt =
    Opt { flag: "--leave-out", value: Some("PART"), about: "read the film without its edits, or without track=ID" };
pub const ALL: Opt = Opt { flag: "--all", value: None, about: "print every rule that is broken, and by which track" };
pub const ALL_NUMBERS: Opt = Opt { flag: "--all", value: None, about: "print the refusals that no film has too" };
pub const CSV_FILMS: Opt =
    Opt { flag: "--csv", value: None, about: "print a line of comma-separated values for each film" };
pub const FILES_FROM: Opt = Opt {
    flag: "--files-from",
    value: Some("LIST"),
    about: "read names of films from LIST too, a line each; - is standard input",
};
pub const NUL: Opt = Opt { flag: "-0", value: None, about: "the names in LIST end with NUL, as find -print0 has them" };
pub const JOBS: Opt =
    Opt { flag: "--jobs", value: Some("N"), about: "read N films at once; without it as many as there are processors" };
pub const JOIN: Opt =
    Opt { flag: "--join", value: None, about: "each FILE is a return that --json wrote: print the return of all" };
pub const SHA256: Opt =
    Opt { flag: "--sha256", value: None, about: "keep the sha256 of the film's bytes in OUT.sha256" };
pub const OUT: Opt = Opt { flag: "-o", value: Some("OUT"), about: "write raw bytes to OUT; - is standard output" };

pub const FILM_OUT: Opt = Opt { flag: "-o", value: Some("OUT"), about: "the file to write, which is not the film" };

pub const SLIPS: Opt = Opt { flag: "--slips", value: Some("SLIP..."), about: "the slips to compare with the films" };
pub const PAGE_OUT: Opt = Opt { flag: "-o", value: Some("OUT"), about: "the page to write, which is no film or slip" };

/// What stands in the place of a command and asks no film.
pub const HELPERS: [&str; 3] = ["completion", "help", "version"];

/// The shells that there is a completion for.
pub const SHELLS: [&str; 3] = ["bash", "zsh", "fish"];

pub static COMMANDS: [Command; 18] = [
    Command {
        name: "tracks",
        operands: &["FILE..."],
        options: &[&JSON, &LEAVE_OUT],
        about: "the tracks of each movie, in file order",
        example: "tracks films/two-hoses.mov",
        ask: |_| Ok(Ask::Tracks),
    },
    Command {
        name: "sample",
        operands: &["FILE", "TRACK", "N"],
        options: &[&BYTES, &JSON, &LEAVE_OUT],
        about: "sample N of a track, numbered from 1",
        example: "sample films/two-hoses.mov 2 3 --bytes",
        ask: |words| Ok(Ask::Sample { track: words.track(1)?, n: words.number(2)?, bytes: words.has(&BYTES) }),
    },
    Command {
        name: "samples",
        operands: &["FILE", "TRACK", "[FROM", "[TO]]"],
        options: &[&JSON_LINES, &CSV, &LEAVE_OUT],
        about: "the samples of a track, in order, from sample FROM to sample TO",
        example: "samples films/two-hoses.mov 2 1 100 --csv",
        ask: |words| {
            let (from, to) = (words.if_given(2, Words::number)?, words.if_given(3, Words::number)?);
            Ok(Ask::Samples { track: words.track(1)?, from, to, csv: words.has(&CSV) })
        },
    },
    Command {
        name: "at",
        operands: &["FILE", "TRACK", "MEDIA-TIME"],
        options: &[&JSON, &LEAVE_OUT],
        about: "the sample at a media time",
        example: "at films/two-hoses.mov 2 0.1s",
        ask: |words| Ok(Ask::At { track: words.track(1)?, time: words.media_time(2)? }),
    },
    Command {
        name: "map",
        operands: &["FILE", "TRACK", "MOVIE-TIME"],
        options: &[&JSON, &LEAVE_OUT],
        about: "the media time that a track shows at a movie time",
        example: "map films/w-edits.mov 1 0.15s",
        ask: |words| Ok(Ask::Map { track: words.track(1)?, time: words.movie_time(2)? }),
    },
    Command {
        name: "edits",
        operands: &["FILE", "TRACK"],
        options: &[&JSON, &LEAVE_OUT],
        about: "the edit list of a track, in movie time and in media time",
        example: "edits films/w-edits.mov 1",
        ask: |words| Ok(Ask::Edits { track: words.track(1)? }),
    },
    Command {
        name: "stretch",
        operands: &["FILE", "TRACK", "[A", "B]"],
        options: &[&BYTES, &JSON, &LEAVE_OUT],
        about: "the byte ranges of a track, from media time A up to B",
        example: "stretch films/two-hoses.mov 2 start 0.12s",
        ask: |words| Ok(Ask::Stretch { track: words.track(1)?, time: words.stretch(2)?, bytes: words.has(&BYTES) }),
    },
    Command {
        name: "slip",
        operands: &["FILE", "TRACK", "[A", "B]"],
        options: &[&OUT, &SHA256, &JSON, &LEAVE_OUT],
        about: "the slip of a track, from media time A up to B, in hex",
        example: "slip films/two-hoses.mov 2 0.04s end -o 2.slip --sha256",
        ask: |words| {
            let (track, time) = (words.track(1)?, words.stretch(2)?);
            Ok(Ask::Slip { track, time, out: words.value(&OUT), hashed: words.has(&SHA256) })
        },
    },
    Command {
        name: "read-slip",
        operands: &["FILE..."],
        options: &[&HEX, &JSON],
        about: "what slips say, or where they go wrong",
        example: "read-slip 2.slip",
        ask: |words| Ok(Ask::ReadSlip { hex: words.has(&HEX) }),
    },
    Command {
        name: "check",
        operands: &["FILE", "[SLIP...]"],
        options: &[&JSON, &LEAVE_OUT],
        about: "whether slips are the film's, and the film time that they file adds up",
        example: "check films/two-hoses.mov 1.slip 2.slip",
        ask: |words| Ok(Ask::Check { slips: words.files(1)? }),
    },
    Command {
        name: "features",
        operands: &["FILE...", "[TRACK", "[CODE]]"],
        options: &[&JSON, &LEAVE_OUT],
        about: "the features avvb, avab, tvsz, vfps, mvbr and mabr of each track, or of one, or that of one code",
        example: "features films/two-hoses.mov 2 vfps",
        ask: |words| words.feature(1),
    },
    Command {
        name: "profile",
        operands: &["FILE", "[TRACK]"],
        options: &[&JSON, &LEAVE_OUT],
        about: "the stored profiles of a movie and its tracks, or that of one track",
        example: "profile films/two-hoses.mov 2",
        ask: |words| Ok(Ask::Profile { track: words.if_given(1, Words::track)? }),
    },
    Command {
        name: "check-profile",
        operands: &["FILE...", "[TRACK]"],
        options: &[&JSON, &LEAVE_OUT],
        about: "whether the stored profile of each track is true, or of one, record by record",
        example: "check-profile films/*.mov",
        ask: |words| Ok(Ask::CheckProfile { track: words.if_given(1, Words::track)? }),
    },
    Command {
        name: "check-quay",
        operands: &["FILE..."],
        options: &[&ALL, &JSON, &LEAVE_OUT],
        about: "whether each film keeps the quay film profile, or the rule that it breaks",
        example: "check-quay films/*.mov",
        ask: |words| Ok(Ask::CheckQuay { all: words.has(&ALL) }),
    },
    Command {
        name: "film-return",
        operands: &["FILE..."],
        options: &[&FILES_FROM, &NUL, &JOBS, &JOIN, &ALL_NUMBERS, &CSV_FILMS, &JSON_ALL],
        about:
            "the totals of all films: how many, their tracks, samples, bytes and film time; a folder is the films in it",
        example: "film-return films/ --jobs 4 --json > quarter.json",
        ask: |words| Ok(Ask::FilmReturn(words.return_options()?)),
    },
    Command {
        name: "compact",
        operands: &["FILE"],
        options: &[&FILM_OUT, &JSON],
        about: "the film with compact tables, written to OUT: every answer and every slip stays as it is",
        example: "compact films/two-hoses.mov -o compact.mov",
        ask: |words| Ok(Ask::Compact { out: words.film_out()? }),
    },
    Command {
        name: "rates",
        operands: &["FILE", "TRACK"],
        options: &[&CSV, &LEAVE_OUT],
        about: "the bit rate over one second from each sample of a track",
        example: "rates films/two-hoses.mov 2 --csv",
        ask: |words| Ok(Ask::Rates { track: words.track(1)?, csv: words.has(&CSV) }),
    },
    Command {
        name: "report",
        operands: &["FILE..."],
        options: &[&SLIPS, &PAGE_OUT, &LEAVE_OUT],
        about: "one page about all films, written to OUT: tracks, what is filed, bit rates and bytes, with pictures",
        example: "report films/two-hoses.mov --slips 1.slip 2.slip -o report.html",
        ask: |words| Ok(Ask::Report { slips: words.slips()?, out: words.page_out()? }),
    },
];

impl Command {
    pub fn named(name: &str) -> Option<&'static Command> {
        COMMANDS.iter().find(|command| command.name == name)
    }

    /// Whether several files may be asked, each of which is answered alone.
    pub fn takes_files(&self) -> bool {
        is_several(self.operands[0])
    }

    /// Whether -o names a whole film, so that standard output has the report.
    pub fn writes_film(&self) -> bool {
        self.options.iter().any(|option| option.about == FILM_OUT.about)
    }

    /// The place of the next operand that must stand after so many.
    pub fn missing(&self, given: usize) -> Option<usize> {
        let next = self.operands.get(given)?;
        (!next.starts_with('[')).then_some(given)
    }

    /// Whether one of its operands may be given several times.
    pub fn takes_several(&self) -> bool {
        self.operands.iter().any(|name| is_several(name))
    }
}

/// Whether an operand may be given several times.
pub fn is_several(name: &str) -> bool {
    name.trim_end_matches(']').ends_with("...")
}
