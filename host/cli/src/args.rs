//! The arguments: which command, which film, and the numbers asked.
use crate::commands::ReturnOptions;
use crate::completion;
use crate::failure::Failure;
use crate::films::List;
use crate::help;
use crate::input;
use crate::suggest;
use crate::syntax::{is_several, Command, Opt, BYTES, COMMANDS, CSV, HELPERS, JSON, LEAVE_OUT, OUT, SHA256};
use crate::syntax::{ALL, FILES_FROM, JOBS, JOIN, NUL, SLIPS};
use crate::time::{Span, Time};
use chaldoref::{Feature, FourCC, LeaveOut, TrackId};
use std::ffi::{OsStr, OsString};

/// More films at once help no one.
const MOST_JOBS: u32 = 1024;

/// What the arguments ask for: a text such as the help, or an answer.
pub enum Parsed {
    Text(String),
    Run(Request),
}

/// A question to a film, or slips to read.
pub struct Request {
    /// One or several, each of which is answered alone.
    pub files: Vec<OsString>,
    pub ask: Ask,
    /// The parts of each film that are left out.
    pub leave_out: Vec<LeaveOut>,
    pub json: bool,
}

pub enum Ask {
    Tracks,
    Sample { track: TrackId, n: u32, bytes: bool },
    Samples { track: TrackId, from: Option<u32>, to: Option<u32>, csv: bool },
    At { track: TrackId, time: Time },
    Map { track: TrackId, time: Time },
    Edits { track: TrackId },
    Stretch { track: TrackId, time: Span, bytes: bool },
    Slip { track: TrackId, time: Span, out: Option<OsString>, hashed: bool },
    ReadSlip { hex: bool },
    Check { slips: Vec<OsString> },
    Compact { out: OsString },
    Rates { track: TrackId, csv: bool },
    Report { slips: Vec<OsString>, out: OsString },
    Features { track: Option<TrackId>, code: Option<FourCC> },
    Profile { track: Option<TrackId> },
    CheckProfile { track: Option<TrackId> },
    CheckQuay { all: bool },
    FilmReturn(ReturnOptions),
}

pub fn parse(words: impl IntoIterator<Item = OsString>) -> Result<Parsed, Failure> {
    let mut words = words.into_iter();
    let first = words.next().ok_or_else(|| Failure::Usage("no command is named".into(), help::usage()))?;
    match first.to_str() {
        Some("-h" | "--help" | "help") => help_on(words),
        Some("completion") => completion(words),
        Some("-V" | "--version" | "version") => alone(help::version(), words),
        _ => Words::sort(command(&first)?, words),
    }
}

/// Whether documents are asked for, also where the words are no good request.
pub fn has_json(words: &[OsString]) -> bool {
    words.iter().take_while(|word| *word != "--").any(|word| word == JSON.flag)
}

/// The help on the command named, or on all.
fn help_on(mut words: impl Iterator<Item = OsString>) -> Result<Parsed, Failure> {
    let text = match words.next() {
        Some(name) if name == "completion" => help::completion(),
        Some(name) if name == "version" => help::version_help(),
        Some(name) if !["help", "-h", "--help"].iter().any(|all| name == *all) => command(&name)?.help(),
        _ => help::help(),
    };
    alone(text, words)
}

/// The script for the shell named.
fn completion(mut words: impl Iterator<Item = OsString>) -> Result<Parsed, Failure> {
    let wrong = |message: String| Err(Failure::Usage(message, help::completion_usage()));
    match words.next() {
        Some(shell) if shell == "bash" => alone(completion::bash(), words),
        Some(shell) if shell == "zsh" => alone(completion::zsh(), words),
        Some(shell) if shell == "fish" => alone(completion::fish(), words),
        Some(flag) if flag == "-h" || flag == "--help" => Ok(Parsed::Text(help::completion())),
        Some(other) => wrong(format!("there is no completion for {}", quoted(&other))),
        None => wrong("the shell is missing".into()),
    }
}

/// A text after whose words no other may stand.
fn alone(text: String, mut words: impl Iterator<Item = OsString>) -> Result<Parsed, Failure> {
    match words.next() {
        Some(surplus) => Err(Failure::Usage(too_many(&surplus), help::usage())),
        None => Ok(Parsed::Text(text)),
    }
}

fn too_many(surplus: &OsStr) -> String {
    format!("{} is one argument too many", quoted(surplus))
}

fn command(name: &OsStr) -> Result<&'static Command, Failure> {
    let found = name.to_str().and_then(Command::named);
    let names = COMMANDS.iter().map(|command| command.name).chain(HELPERS);
    found.ok_or_else(|| {
        Failure::Usage(format!("there is no command {}{}", quoted(name), meant(name, names)), help::usage())
    })
}

/// A question for whoever mistyped the name of a command or an option.
fn meant<'n>(name: &OsStr, names: impl IntoIterator<Item = &'n str>) -> String {
    let near = name.to_str().and_then(|typed| suggest::nearest(typed, names));
    near.map_or(String::new(), |near| format!("; did you mean {near}?"))
}

/// An argument as messages quote it.
fn quoted(word: &OsStr) -> String {
    format!("'{}'", input::shown(word))
}

/// The words after a command, sorted into operands and options.
pub struct Words {
    command: &'static Command,
    /// Those after the files. Where several files are named, the first has the place of all.
    operands: Vec<OsString>,
    files: Vec<OsString>,
    flags: Vec<&'static str>,
    /// The options that have a value, each with it.
    values: Vec<(&'static str, OsString)>,
    /// The option that takes the words up to the next option.
    taking: Option<&'static Opt>,
}

impl Words {
    fn sort(command: &'static Command, mut rest: impl Iterator<Item = OsString>) -> Result<Parsed, Failure> {
        let mut words = Words {
            command,
            operands: Vec::new(),
            files: Vec::new(),
            flags: Vec::new(),
            values: Vec::new(),
            taking: None,
        };
        while let Some(word) = rest.next() {
            match word.to_str() {
                Some("-h" | "--help") => return Ok(Parsed::Text(command.help())),
                Some("--") => words.operands.extend(rest.by_ref()),
                // A dash alone is standard input or output.
                Some("-") => words.put(word),
                _ if words.wants_number() && is_negative(&word) => words.operands.push(word),
                _ if word.as_encoded_bytes().starts_with(b"-") => words.option(&word, &mut rest)?,
                _ => words.put(word),
            }
        }
        words.request().map(Parsed::Run)
    }

    /// A word that is no option: an operand, or one more value of an option that takes several.
    fn put(&mut self, word: OsString) {
        match self.taking {
            Some(option) => self.values.push((option.flag, word)),
            None => self.operands.push(word),
        }
    }

    fn option(&mut self, word: &OsStr, rest: &mut impl Iterator<Item = OsString>) -> Result<(), Failure> {
        let Some(option) = self.command.options.iter().find(|option| word == option.flag) else {
            let flags = self.command.options.iter().map(|option| option.flag);
            return Err(self.wrong(format!(
                "{} has no option {}{}",
                self.command.name,
                quoted(word),
                meant(word, flags)
            )));
        };
        self.taking = None;
        match option.value {
            Some(value) if is_several(value) => {
                let name = value.trim_end_matches('.');
                let first = rest.next().filter(|word| !word.as_encoded_bytes().starts_with(b"-"));
                let first = first.ok_or_else(|| self.wrong(format!("{} needs {name}", option.flag)))?;
                self.values.push((option.flag, first));
                self.taking = Some(option);
            }
            None => self.flags.push(option.flag),
            Some(value) => {
                let given = rest.next().ok_or_else(|| self.wrong(format!("{} needs {value}", option.flag)))?;
                self.values.push((option.flag, given));
            }
        }
        Ok(())
    }

    fn request(mut self) -> Result<Request, Failure> {
        self.part_files()?;
        let most = self.command.operands.len();
        if let Some(surplus) = self.operands.get(most).filter(|_| !self.command.takes_several()) {
            return Err(self.wrong(too_many(surplus)));
        }
        // A list of films stands for them.
        let missing = self.command.missing(self.operands.len()).filter(|_| self.value(&FILES_FROM).is_none());
        if let Some(missing) = missing {
            return Err(self.wrong(format!("{} is missing", self.name(missing))));
        }
        let json = self.has(&JSON);
        if json && (self.has(&BYTES) || self.value(&OUT).is_some() && !self.command.writes_film()) {
            return Err(self.wrong("--json goes with neither --bytes nor -o".into()));
        }
        if json && self.has(&CSV) {
            return Err(self.wrong("--json does not go with --csv".into()));
        }
        if self.has(&SHA256) && !json && self.value(&OUT).is_none_or(|out| out == input::STANDARD) {
            return Err(self.wrong("--sha256 goes with -o OUT, beside which it is kept, or with --json".into()));
        }
        let (ask, leave_out) = ((self.command.ask)(&self)?, self.leave_out()?);
        Ok(Request { files: self.files, ask, leave_out, json })
    }

    /// The parts that are left out, each once.
    fn leave_out(&self) -> Result<Vec<LeaveOut>, Failure> {
        let mut parts = Vec::new();
        for (_, word) in self.values.iter().filter(|(flag, _)| *flag == LEAVE_OUT.flag) {
            let part = left_out(word).ok_or_else(|| {
                self.wrong(format!("--leave-out takes edits, or track=ID as in track=2, and not {}", quoted(word)))
            })?;
            if !parts.contains(&part) {
                parts.push(part);
            }
        }
        Ok(parts)
    }

    /// The value of an option, the last one if it is given twice.
    pub fn value(&self, option: &Opt) -> Option<OsString> {
        self.values.iter().rev().find(|(flag, _)| *flag == option.flag).map(|(_, value)| value.clone())
    }

    /// Parts the files that are asked from the operands after them.
    fn part_files(&mut self) -> Result<(), Failure> {
        let given = self.operands.len();
        let count = if self.command.takes_files() { given.saturating_sub(self.after_files()) } else { 1.min(given) };
        self.files = self.operands[..count].to_vec();
        self.one_standard_input(&self.files)?;
        self.operands.drain(1.min(count)..count);
        Ok(())
    }

    /// How many operands stand after several files: TRACK where the last is a number, and CODE too where the one before the last is one; or CODE alone
    /// where the last is that of a feature.
    fn after_files(&self) -> usize {
        let given = self.operands.len();
        let is_number = |before: usize| {
            let word = given.checked_sub(before).filter(|place| *place > 0).map(|place| &self.operands[place]);
            word.is_some_and(|word| number(word).is_some() || is_negative(word))
        };
        match self.command.operands.len() {
            1 => 0,
            3 if is_number(2) => 2,
            3 if given > 1 && self.operands.last().is_some_and(|word| feature(word).is_some()) => 1,
            _ => usize::from(is_number(1)),
        }
    }

    /// Standard input has the bytes of one file only.
    fn one_standard_input(&self, names: &[OsString]) -> Result<(), Failure> {
        if names.iter().filter(|name| *name == input::STANDARD).count() > 1 {
            return Err(self.wrong("standard input can be one file only".into()));
        }
        Ok(())
    }

    /// Whether the next operand, or the last one if there is no other, is no file. One that may be given several times is.
    fn wants_number(&self) -> bool {
        let name = self.command.operands.get(self.operands.len()).or(self.command.operands.last());
        name.is_some_and(|name| *name != "FILE" && !is_several(name))
    }

    /// The file that a film is written to. Standard output is none: a film may be large.
    pub fn film_out(&self) -> Result<OsString, Failure> {
        match self.value(&OUT) {
            Some(name) if name == input::STANDARD => Err(self.wrong("a film is not written to standard output".into())),
            Some(name) => Ok(name),
            None => Err(self.wrong("-o OUT is missing".into())),
        }
    }

    /// How a return is made and printed. Its films are named as arguments, in a list, or both.
    pub fn return_options(&self) -> Result<ReturnOptions, Failure> {
        let (list, nul) = (self.value(&FILES_FROM), self.has(&NUL));
        if list.is_none() && nul {
            return Err(self.wrong("-0 goes with --files-from".into()));
        }
        self.one_standard_input(&[&self.files[..], list.as_slice()].concat())?;
        let (join, jobs) = (self.has(&JOIN), self.jobs()?);
        if join && (list.is_some() || self.has(&CSV) || jobs.is_some()) {
            return Err(self.wrong("--join takes returns, and goes with none of --files-from, --csv and --jobs".into()));
        }
        let list = list.map(|name| List { name, nul });
        let processors = || std::thread::available_parallelism().map_or(1, usize::from);
        let jobs = jobs.unwrap_or_else(processors);
        Ok(ReturnOptions { list, csv: self.has(&CSV), all: self.has(&ALL), jobs, join })
    }

    /// How many films are read at once, if it is said.
    fn jobs(&self) -> Result<Option<usize>, Failure> {
        let Some(word) = self.value(&JOBS) else { return Ok(None) };
        let jobs =
            number(&word).filter(|jobs| (1..=MOST_JOBS).contains(jobs)).and_then(|jobs| usize::try_from(jobs).ok());
        let wrong = || self.wrong(format!("--jobs takes a number from 1 to {MOST_JOBS}, and not {}", quoted(&word)));
        jobs.ok_or_else(wrong).map(Some)
    }

    /// The file that a page is written to, which is written whole or not at all.
    pub fn page_out(&self) -> Result<OsString, Failure> {
        match self.value(&OUT) {
            Some(name) if name == input::STANDARD => Err(self.wrong("a page is not written to standard output".into())),
            Some(name) => Ok(name),
            None => Err(self.wrong("-o OUT is missing".into())),
        }
    }

    /// The slips that are given by an option, each of which is a file.
    pub fn slips(&self) -> Result<Vec<OsString>, Failure> {
        let slips: Vec<OsString> =
            self.values.iter().filter(|(flag, _)| *flag == SLIPS.flag).map(|(_, name)| name.clone()).collect();
        if slips.iter().any(|name| name == input::STANDARD) {
            return Err(self.wrong("a slip of a report is a file, and not standard input".into()));
        }
        Ok(slips)
    }

    pub fn has(&self, option: &Opt) -> bool {
        self.flags.contains(&option.flag)
    }

    pub fn number(&self, place: usize) -> Result<u32, Failure> {
        let word = &self.operands[place];
        number(word).ok_or_else(|| self.misfit(place, "a number from 0 to 4294967295"))
    }

    pub fn track(&self, place: usize) -> Result<TrackId, Failure> {
        self.number(place).map(TrackId)
    }

    pub fn media_time(&self, place: usize) -> Result<Time, Failure> {
        let wanted = "a number of units from 0 to 4294967295, or as 12.5s, 1:02, 00:01:02.250, start or end";
        self.time(place).ok_or_else(|| self.misfit(place, wanted))
    }

    /// The same of the movie, whose end is not told.
    pub fn movie_time(&self, place: usize) -> Result<Time, Failure> {
        let wanted = "a number of units from 0 to 4294967295, or as 12.5s, 1:02, 00:01:02.250 or start";
        self.time(place).filter(|time| *time != Time::End).ok_or_else(|| self.misfit(place, wanted))
    }

    fn time(&self, place: usize) -> Option<Time> {
        let word = &self.operands[place];
        number(word).map(Time::Units).or_else(|| Time::parse(word.to_str()?))
    }

    /// The track and the code of a feature, either of which may be left out.
    pub fn feature(&self, place: usize) -> Result<Ask, Failure> {
        if let Some(code) = self.operands.get(place).and_then(|word| feature(word)) {
            return Ok(Ask::Features { track: None, code: Some(code) });
        }
        Ok(Ask::Features { track: self.if_given(place, Words::track)?, code: self.if_given(place + 1, Words::code)? })
    }

    /// Two media times, one after the other, or none for the whole track.
    pub fn stretch(&self, place: usize) -> Result<Span, Failure> {
        if place == self.operands.len() {
            return Ok(Span::Whole);
        }
        Ok(Span::Between(self.media_time(place)?, self.media_time(place + 1)?))
    }

    pub fn code(&self, place: usize) -> Result<FourCC, Failure> {
        code(&self.operands[place]).ok_or_else(|| self.misfit(place, "four characters, or a number after 0x"))
    }

    /// The names of files from a place on, beside those before it.
    pub fn files(&self, place: usize) -> Result<Vec<OsString>, Failure> {
        self.one_standard_input(&self.operands)?;
        Ok(self.operands[place..].to_vec())
    }

    /// An operand that may be left out.
    pub fn if_given<T>(
        &self,
        place: usize,
        read: impl Fn(&Words, usize) -> Result<T, Failure>,
    ) -> Result<Option<T>, Failure> {
        (place < self.operands.len()).then(|| read(self, place)).transpose()
    }

    /// An operand's name alone.
    fn name(&self, place: usize) -> &'static str {
        self.command.operands[place].trim_matches(['[', ']', '.'])
    }

    fn misfit(&self, place: usize, wanted: &str) -> Failure {
        let name = self.name(place);
        self.wrong(format!("{name} is {wanted}, and not {}", quoted(&self.operands[place])))
    }

    fn wrong(&self, message: String) -> Failure {
        Failure::Usage(message, self.command.usage())
    }
}

/// Whether a word that begins with a dash is meant as a number.
fn is_negative(word: &OsStr) -> bool {
    matches!(word.as_encoded_bytes(), [b'-', digit, ..] if digit.is_ascii_digit())
}

/// A part of a film that is left out, by its ID in hex too.
fn left_out(word: &OsStr) -> Option<LeaveOut> {
    match word.to_str()?.strip_prefix("track=") {
        Some(id) => number(OsStr::new(id)).map(|id| LeaveOut::Track(TrackId(id))),
        None => word.to_str()?.parse().ok(),
    }
}

/// A number below 2^32: decimal digits, or hex digits after 0x.
fn number(word: &OsStr) -> Option<u32> {
    let text = word.to_str()?;
    let (digits, radix) = text.strip_prefix("0x").map_or((text, 10), |hex| (hex, 16));
    // from_str_radix would take a sign as well.
    let plain = digits.chars().all(|c| c.is_digit(radix));
    u32::from_str_radix(digits, radix).ok().filter(|_| plain)
}

/// The code of a feature, as its characters.
fn feature(word: &OsStr) -> Option<FourCC> {
    let code = FourCC::from_bytes(word.as_encoded_bytes().try_into().ok()?);
    Feature::from_code(code).map(|_| code)
}

/// A four-character code: its characters, or its number after 0x.
fn code(word: &OsStr) -> Option<FourCC> {
    if let Ok(characters) = word.as_encoded_bytes().try_into() {
        return Some(FourCC::from_bytes(characters));
    }
    number(word).filter(|_| word.as_encoded_bytes().starts_with(b"0x")).map(FourCC)
}

#[cfg(test)]
mod tests {
    use super::*;

    #[test]
    fn numbers() {
        for (text, n) in [("0", 0), ("007", 7), ("4294967295", u32::MAX), ("0xFFffFFff", u32::MAX), ("0x0", 0)] {
            assert_eq!(number(OsStr::new(text)), Some(n), "{text}");
        }
        for text in ["", "0x", "-1", "+1", "0x+1", " 1", "1 ", "1.0", "4294967296", "0x100000000", "0X1", "a", "１"] {
            assert_eq!(number(OsStr::new(text)), None, "{text}");
        }
    }

    #[test]
    fn codes() {
        assert_eq!(code(OsStr::new("avvb")), Some(FourCC::from_bytes(*b"avvb")));
        assert_eq!(code(OsStr::new("0x61767662")), Some(FourCC::from_bytes(*b"avvb")));
        assert_eq!(code(OsStr::new("0x01")), Some(FourCC::from_bytes(*b"0x01")));
        for text in ["", "avv", "avvbb", "12345", "0x100000000"] {
            assert_eq!(code(OsStr::new(text)), None, "{text}");
        }
    }
}
