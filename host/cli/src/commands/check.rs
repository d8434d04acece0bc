//! The regulator's third question: whether the film time that slips file adds up.
use super::ranges::time_fields;
use super::{unproved_words, Answer, CLOCK};
use crate::checked::Checked;
use crate::failure::{worse, Failure};
use crate::filed::Filed;
use crate::film::{Film, Fragments};
use crate::input;
use crate::json::Object;
use crate::table::{self, number, text};
use crate::time::{clock, clock_of, stretch_in_words};
use crate::warnings;
use chaldoref::{AnySlip, LeaveOut, MediaTime, Movie, Track, TrackId};
use std::ffi::OsString;
use std::io::{self, Write};
use std::ops::Range;

/// What the good slips file of a track.
pub(super) struct Account<'m> {
    pub track: &'m Track,
    pub filed: Filed,
    /// The film's fragments, in which more of the track may be.
    pub fragments: Option<Fragments>,
}

impl Account<'_> {
    pub fn adds_up(&self) -> bool {
        self.filed.adds_up() && self.fragments.is_none()
    }

    pub fn verdict(&self) -> &'static str {
        if self.adds_up() && self.track.total == MediaTime(0) {
            "nothing to file"
        } else if self.adds_up() {
            "adds up"
        } else {
            "does not add up"
        }
    }
}

pub(super) struct Report<'a> {
    pub slips: Vec<Checked<'a>>,
    pub accounts: Vec<Account<'a>>,
    /// What was left out of the film, in words.
    left_out: Option<String>,
    /// The video tracks that were left out, whose film may be unfiled.
    left_out_videos: Vec<TrackId>,
    /// The film in fragments, which is not read.
    pub fragments: Option<Fragments>,
    pub warnings: Vec<String>,
}

/// Compares each slip with the film, and adds up what the good ones file of each track.
pub fn check(film: &Film, movie: &Movie, names: &[OsString], to: Answer) -> Result<(), Failure> {
    let slips = names.iter().map(|name| Checked::of(film, movie, name)).collect::<Result<Vec<Checked>, Failure>>()?;
    let report = Report::of(film, movie, slips, to.left_out, to.fragments);
    to.tell(&report.warnings);
    let printed = if to.json { report.document(to) } else { report.print(to.out).map_err(Failure::from) };
    worse(report.outcome(), printed)
}

fn account<'m>(track: &'m Track, slips: &[Checked], fragments: Option<Fragments>) -> Account<'m> {
    let own = slips.iter().filter_map(Checked::good).filter(|slip| is_of(slip, track));
    // A good slip has times of the track.
    Account { track, filed: Filed::of(own.filter_map(AnySlip::time).collect(), track.total), fragments }
}

pub(super) fn is_of(slip: &AnySlip, track: &Track) -> bool {
    slip.id == u64::from(track.id.0)
}

impl<'a> Report<'a> {
    /// What some slips file of a film, which is read without some parts.
    pub fn of(
        film: &Film,
        movie: &'a Movie,
        slips: Vec<Checked<'a>>,
        left_out: &[LeaveOut],
        fragments: Option<Fragments>,
    ) -> Report<'a> {
        let accounts = movie.tracks().iter().map(|track| account(track, &slips, fragments)).collect();
        let is_filed = |track: &&Track| slips.iter().filter_map(Checked::good).any(|slip| is_of(slip, track));
        let filed = movie.tracks().iter().filter(is_filed);
        let mut warnings = warnings::of_fragments(fragments);
        warnings.extend(filed.flat_map(|track| warnings::of_ctts(movie, track.id, "its slips are of decode time")));
        let left_out_videos = film.left_out_videos().to_vec();
        Report { slips, accounts, left_out: warnings::left_out(left_out), left_out_videos, fragments, warnings }
    }

    fn bad_slips(&self) -> usize {
        self.slips.iter().filter(|slip| slip.wrong.is_some()).count()
    }

    pub fn open_accounts(&self) -> usize {
        self.accounts.iter().filter(|account| !account.adds_up()).count()
    }

    fn is_all_good(&self) -> bool {
        self.bad_slips() == 0
            && self.open_accounts() == 0
            && self.fragments.is_none()
            && self.left_out_videos.is_empty()
    }

    fn outcome(&self) -> Result<(), Failure> {
        if self.is_all_good() {
            return Ok(());
        }
        Err(Failure::NotAllGood { unread: self.slips.iter().any(Checked::is_unread) })
    }

    fn print(&self, out: &mut dyn Write) -> io::Result<()> {
        if !self.slips.is_empty() {
            print_slips(&self.slips, out)?;
            for slip in &self.slips {
                if let Some(words) = &slip.retyped {
                    writeln!(out, "{}: not proved: {words}", input::called(slip.name))?;
                }
            }
            writeln!(out)?;
        }
        print_accounts(&self.accounts, out)?;
        for Account { track, filed, .. } in &self.accounts {
            for time in &filed.gaps {
                writeln!(out, "{}", part("gap", track, time))?;
            }
            for time in &filed.overlaps {
                let names = self.filed_by(track, time).join(", ");
                writeln!(out, "{}, filed by {names}", part("overlap", track, time))?;
            }
        }
        if let Some(parts) = &self.left_out {
            writeln!(out, "the film was read without {parts}")?;
        }
        writeln!(out, "{}", self.bytes_in_words())?;
        writeln!(out, "{}, and {}", self.slips_in_words(), self.tracks_in_words())
    }

    /// The names of the good slips that file some of that time of a track.
    pub fn filed_by(&self, track: &Track, time: &Range<MediaTime>) -> Vec<String> {
        let (a, b) = (u64::from(time.start.0), u64::from(time.end.0));
        let files = |slip: &AnySlip| is_of(slip, track) && slip.a < b && a < slip.b;
        let some = self.slips.iter().filter(|checked| checked.good().is_some_and(files));
        some.map(|checked| input::called(checked.name)).collect()
    }

    /// What the good slips say of the pictures themselves.
    pub fn bytes_in_words(&self) -> &'static str {
        let mut good = self.slips.iter().filter(|slip| slip.good().is_some()).peekable();
        if good.peek().is_some() && good.all(|slip| slip.hashed) {
            "the pictures' bytes have the sha256 that is kept beside each good slip"
        } else {
            "slips say where the film lies and do not vouch for the pictures' bytes; slip --sha256 keeps their hash"
        }
    }

    pub fn slips_in_words(&self) -> String {
        match self.bad_slips() {
            _ if self.slips.is_empty() => "no slip is given".into(),
            0 => "every slip is good".into(),
            1 => "1 slip is not good".into(),
            n => format!("{n} slips are not good"),
        }
    }

    /// Why the film does not add up whatever its slips file, if some of it was not read.
    pub fn not_whole(&self) -> Option<String> {
        (self.fragments.is_some() || !self.left_out_videos.is_empty()).then(|| self.tracks_in_words())
    }

    pub fn tracks_in_words(&self) -> String {
        if let Some(fragments) = self.fragments {
            return format!("the film does not add up: {}", fragments.unread_in_words());
        }
        if let Some(track) = self.left_out_videos.first() {
            return format!("the film does not add up: track {track} was left out");
        }
        match self.open_accounts() {
            0 if self.left_out.is_some() => "every track that was read adds up".into(),
            0 => "every track adds up".into(),
            1 => "1 track does not add up".into(),
            n => format!("{n} tracks do not add up"),
        }
    }

    fn document(&self, to: Answer) -> Result<(), Failure> {
        to.document(|o| {
            o.list("slips", &self.slips, slip_fields)?.list("tracks", &self.accounts, account_fields)?;
            if let Some(Fragments { bytes, .. }) = self.fragments {
                o.put("unread_bytes", bytes)?;
            }
            o.put("all_good", self.is_all_good())?.texts("warnings", &self.warnings).map(drop)
        })
    }
}

/// Whether a slip is good, in words.
pub(super) fn slip_verdict(checked: &Checked) -> String {
    let good = if checked.hashed { "good, and so is its sha256" } else { "good" };
    checked.wrong.as_ref().map_or(good.into(), |wrong| format!("not good: {}", wrong.reason))
}

fn print_slips(slips: &[Checked], out: &mut dyn Write) -> io::Result<()> {
    let columns = [
        text("slip"),
        number("track"),
        number("scale"),
        number("a"),
        number("b"),
        number("film time"),
        CLOCK,
        text("verdict"),
    ];
    let row = |checked: &Checked| {
        let [track, scale, a, b, time, length] = match &checked.slip {
            Some(slip) => {
                let numbers = [slip.id, slip.scale, slip.a, slip.b, slip.film_time()].map(|n| n.to_string());
                let [track, scale, a, b, time] = numbers;
                [track, scale, a, b, time, clock_of(slip.film_time(), slip.scale)]
            }
            None => ["-"; 6].map(String::from),
        };
        [input::called(checked.name), track, scale, a, b, time, length, slip_verdict(checked)]
    };
    table::write(out, columns, slips, row)
}

fn print_accounts(accounts: &[Account], out: &mut dyn Write) -> io::Result<()> {
    let columns =
        [number("track"), number("scale"), number("filed"), CLOCK, number("movie has"), CLOCK, text("verdict")];
    let row = |account: &Account| {
        let Account { track, filed, .. } = account;
        let [id, scale, units, total] = [track.id.0, track.scale, filed.units, track.total.0].map(|n| n.to_string());
        let [filed_time, whole_time] = [MediaTime(filed.units), track.total].map(|time| clock(time, track.scale));
        [id, scale, units, filed_time, total, whole_time, account.verdict().into()]
    };
    table::write(out, columns, accounts, row)
}

/// A part of a track that is filed by no slip, or by more than one.
pub(super) fn part(what: &str, track: &Track, time: &Range<MediaTime>) -> String {
    format!("track {}: {what} from {}", track.id, stretch_in_words(time, track.scale))
}

fn slip_fields(o: &mut Object, checked: &Checked) -> io::Result<()> {
    let (slip, wrong) = (checked.slip.as_ref(), checked.wrong.as_ref());
    o.name("file", checked.name)?.put("track", slip.map(|slip| slip.id))?.put("scale", slip.map(|slip| slip.scale))?;
    match slip {
        Some(slip) => o.time("a", slip.a, slip.scale)?.time("b", slip.b, slip.scale).map(drop)?,
        None => o.no_time("a")?.no_time("b").map(drop)?,
    }
    o.put("good", wrong.is_none())?.put("fault", wrong.map(|wrong| wrong.kind.name().to_string()))?;
    let place = wrong.and_then(|wrong| wrong.place).and_then(|place| u64::try_from(place).ok());
    o.put("place", place)?.put("reason", wrong.map(|wrong| wrong.reason.clone()))?.put("sha256", checked.hashed)?;
    unproved_words(o, "retyped", checked.retyped.as_deref())
}

fn account_fields(o: &mut Object, account: &Account) -> io::Result<()> {
    let Account { track, filed, .. } = account;
    let scale = track.scale;
    let times = |o: &mut Object, time: &Range<MediaTime>| time_fields(o, time, scale);
    o.put("id", track.id.0)?.put("scale", scale)?;
    o.time("filed", filed.units, scale)?.time("total", track.total.0, scale)?;
    o.list("gaps", &filed.gaps, times)?.list("overlaps", &filed.overlaps, times)?;
    o.put("adds_up", account.adds_up()).map(drop)
}
