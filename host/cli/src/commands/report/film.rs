//! What a page says of one film.
use super::super::check::{part, slip_verdict, Account, Report};
use super::super::edits::{header_in_words, placed};
use super::super::features::peak_in_words;
use super::super::{check_profile, check_quay};
use super::pictures::{self, rate_in_words, NAME};
use super::{Told, SUMMARY};
use crate::checked::Checked;
use crate::failure::Failure;
use crate::film::Film;
use crate::html::{self, escaped, number, table, text, Cell, Mark};
use crate::input;
use crate::quay;
use crate::rates::Runs;
use crate::svg::{grouped, Axis, COLUMNS};
use crate::time::clock;
use crate::unproved;
use crate::warnings;
use chaldoref::{Feature, LeaveOut, MediaTime, Movie, Peak, ProfileRecord, QuayFault, Refusal, Track, TrackId};
use std::ffi::OsStr;

/// At most as many rows a long table has, and about as many bytes; below it stands the command that prints all.
const MOST_ROWS: usize = 200;
const MOST_BYTES: usize = 32_000;

/// As many parts are drawn with their names in the timelines of a film, and as many again in its edit lists; as many gaps and overlaps are listed. The tracks
/// share them.
const MOST_PARTS: usize = 128;

/// Of more tracks the summary does not name each.
const NAMED_TRACKS: usize = 4;

const NO_CLAIM: &str = "the camera claims no bit rate";

/// As many slips are named that file the same time.
const NAMED_SLIPS: usize = 3;

/// What was asked of a film.
pub struct Asked<'a> {
    pub file: &'a OsStr,
    /// Its number on the page.
    pub number: usize,
    pub left_out: &'a [LeaveOut],
    /// Whether slips were given, of whichever film.
    pub slips_given: bool,
}

/// The bit rates of a track. The peak is the library's answer.
pub struct Rates<'m> {
    pub track: &'m Track,
    pub average: Option<u32>,
    pub highest: Result<u32, Refusal>,
    pub peak: Option<Peak>,
    /// The greatest in each column.
    pub columns: Vec<Option<u64>>,
    pub profile: check_profile::Checked<'m>,
}

impl<'m> Rates<'m> {
    fn of(movie: &Movie, track: &'m Track) -> Result<Rates<'m>, Failure> {
        let of = |features: [Feature; 2]| features.into_iter().find(|feature| feature.subtype() == track.subtype);
        let average = of([Feature::AverageVideoBitRate, Feature::AverageAudioBitRate]);
        let highest = of([Feature::HighestVideoBitRate, Feature::HighestAudioBitRate]);
        let mut columns = vec![None; COLUMNS];
        let axis = Axis::Time(track.total.0.into(), track.scale.into());
        for run in Runs::of(movie, track.id)? {
            let column: &mut Option<u64> = &mut columns[axis.column(run.start.0.into())];
            *column = Some(column.map_or(run.rate, |rate| rate.max(run.rate)));
        }
        Ok(Rates {
            track,
            average: average.and_then(|feature| movie.feature(track.id, feature).ok()),
            highest: highest.map_or(Err(Refusal::NotComputed), |feature| movie.feature(track.id, feature)),
            peak: highest.and_then(|feature| movie.peak(track.id, feature).ok()),
            columns,
            profile: check_profile::checked(movie, track)?,
        })
    }

    /// The records of the profile that are judged, each with whether it is true.
    fn verdicts(&self) -> impl Iterator<Item = (&ProfileRecord, bool)> {
        self.profile.records.iter().filter_map(|judged| Some((&judged.record, judged.verdict.as_ref()?.0)))
    }

    /// Those that are claims on bit rates.
    pub fn claims(&self) -> impl Iterator<Item = (&ProfileRecord, bool)> {
        self.verdicts().filter(|(record, _)| is_rate(record))
    }

    /// What the profile says of other things and is not true.
    fn untrue_beside(&self) -> Option<String> {
        let untrue = self.verdicts().filter(|(record, is_true)| !*is_true && !is_rate(record));
        let codes: Vec<String> = untrue.map(|(record, _)| record.code.to_string()).collect();
        (!codes.is_empty()).then(|| format!("its {} in the profile: not true", codes.join(", ")))
    }

    /// The peak, and whether what the camera claims is true.
    fn in_words(&self) -> (Option<Mark>, String) {
        let id = self.track.id;
        let (Ok(rate), Some(peak)) = (self.highest, &self.peak) else {
            return (None, format!("track {id}: no peak can be computed"));
        };
        let at = clock(peak.time.start, self.track.scale);
        let peak = format!("track {id}: {} at {at}", rate_in_words(rate.into()));
        let claims: Vec<(&ProfileRecord, bool)> = self.claims().collect();
        let said = |(record, is_true): &(&ProfileRecord, bool)| {
            let verdict = if *is_true { "true" } else { "not true" };
            format!("the camera claims at most {} ({}): {verdict}", rate_in_words(record.value.into()), record.code)
        };
        let mut words: Vec<String> = claims.iter().map(said).collect();
        if claims.is_empty() {
            words.push(NO_CLAIM.to_string());
        }
        words.extend(self.untrue_beside());
        let mark = if self.verdicts().any(|(_, is_true)| !is_true) {
            Some(Mark::Bad)
        } else {
            (!claims.is_empty()).then_some(Mark::Good)
        };
        (mark, format!("{peak}; {}", words.join("; ")))
    }
}

/// Whether a record claims a bit rate.
fn is_rate(record: &ProfileRecord) -> bool {
    let feature = Feature::from_code(record.code);
    !matches!(feature, None | Some(Feature::GreatestPicture | Feature::HighestFrameRate))
}

/// The row and the section of a film that is accepted.
pub fn accepted(film: &Film, movie: &Movie, slips: Vec<Checked>, asked: &Asked) -> Result<Told, Failure> {
    let fragments = film.fragments(movie);
    let report = Report::of(film, movie, slips, asked.left_out, fragments);
    let rates = movie.tracks().iter().map(|track| Rates::of(movie, track)).collect::<Result<Vec<Rates>, Failure>>()?;
    let quay = quay_in_words(movie.check_quay(), check_quay::in_part(asked.left_out, fragments));
    let parts = [
        heading(asked, movie),
        in_short(&report, &rates, &quay, asked),
        tracks(movie),
        filed(movie, &report, asked)?,
        bit_rates(&rates, asked),
        bytes(film, movie, &report, asked)?,
        not_proved(film, movie, &report, asked)?,
    ];
    let row = row(movie, &report, &rates, &quay, asked);
    Ok(Told {
        row,
        section: format!("<section id=\"film-{}\">{}</section>\n", asked.number, parts.concat()),
        is_read: true,
    })
}

/// The row and the section of a film that is refused or cannot be read: the words of the commands.
pub fn refused(file: &OsStr, number: usize, failure: &Failure) -> Told {
    let called = input::called(file);
    let message = failure.message(&called);
    let plain = |line: &str| {
        let line = line.strip_prefix("chaldoref: ").unwrap_or(line);
        line.strip_prefix(&format!("{called}: ")).unwrap_or(line).to_string()
    };
    let lines: Vec<String> = message.lines().map(plain).collect();
    let (first, rest) = lines.split_first().map_or((String::new(), &lines[..]), |(first, rest)| (first.clone(), rest));
    let more: String = rest.iter().map(|line| format!("<div class=\"soft\">{}</div>", escaped(line))).collect();
    let verdict = format!("<div>{}</div>{more}", Mark::Bad.says(&first));
    let name = format!("<a href=\"#film-{number}\">{}</a>", html::name(&called));
    let row = vec![html::html(name), html::wide(SUMMARY.len() - 1, verdict.clone())];
    let section = format!("<section id=\"film-{number}\"><h2>{}</h2>{verdict}</section>\n", html::name(&called));
    Told { row, section, is_read: false }
}

fn heading(asked: &Asked, movie: &Movie) -> String {
    let (count, length) = (movie.tracks().len(), grouped(movie.film().length()));
    let s = if count == 1 { "" } else { "s" };
    let name = html::name(&input::called(asked.file));
    format!("<h2>{name}</h2><p class=\"soft\">{length} bytes, {count} track{s}</p>\n")
}

/// What is said of an account in one line.
fn account_in_words(account: &Account) -> (Mark, String) {
    let Account { track, filed, .. } = account;
    let time = |units: u32| clock(MediaTime(units), track.scale);
    let twice: u32 = filed.overlaps.iter().map(|part| part.end.0 - part.start.0).sum();
    match track.total.0 - filed.units {
        0 if account.adds_up() && track.total.0 == 0 => (Mark::Good, "nothing to file".into()),
        0 if account.adds_up() => (Mark::Good, "everything is filed".into()),
        0 if twice == 0 => {
            let why = account.fragments.map_or(String::new(), |fragments| match fragments.count {
                0 => ", but the film announces fragments, and none is in this file".into(),
                _ => ", but film in fragments is not read".into(),
            });
            (Mark::Bad, format!("what was read is filed{why}"))
        }
        0 => (Mark::Look, format!("{} is filed more than once", time(twice))),
        missing => (Mark::Bad, format!("{} of film is not filed", time(missing))),
    }
}

/// Where the first gap is, and how much is filed more than once beside it.
fn where_in_words(account: &Account) -> String {
    let Account { track, filed, .. } = account;
    let time = |at: MediaTime| clock(at, track.scale);
    let mut words = match &filed.gaps[..] {
        [] => return String::new(),
        [gap] => format!(", from {} to {}", time(gap.start), time(gap.end)),
        [gap, ..] => {
            format!(", in {} gaps, the first from {} to {}", filed.gaps.len(), time(gap.start), time(gap.end))
        }
    };
    if let Some(overlap) = filed.overlaps.first() {
        words +=
            &format!("; some is filed more than once, first from {} to {}", time(overlap.start), time(overlap.end));
    }
    words
}

/// The verdict on the profile. By what was read alone a film does not keep it.
fn quay_in_words(fault: Option<QuayFault>, in_part: Option<String>) -> (Mark, String) {
    match (fault, in_part) {
        (None, None) => (Mark::Good, "kept".into()),
        (None, Some(words)) => (Mark::Look, format!("what was read keeps it; the film was not judged whole: {words}")),
        (Some(fault), _) => {
            let by = fault.track.map_or("the movie".into(), |track| format!("track {track}"));
            (Mark::Bad, format!("rule {} ({}): broken by {by}", fault.rule.number(), quay::in_words(fault.rule)))
        }
    }
}

/// Lines in one cell, each with its mark if it has one.
fn lines(all: impl IntoIterator<Item = (Option<Mark>, String)>) -> Cell {
    let line = |(mark, words): (Option<Mark>, String)| {
        format!("<div>{}</div>", mark.map_or_else(|| escaped(&words), |mark| mark.says(&words)))
    };
    html::html(all.into_iter().map(line).collect())
}

/// What is said of each track, those of which the same is said together.
fn by_track(all: impl IntoIterator<Item = (TrackId, Option<Mark>, String)>) -> Vec<(Option<Mark>, String)> {
    let mut groups: Vec<(Vec<TrackId>, Option<Mark>, String)> = Vec::new();
    for (id, mark, words) in all {
        match groups.iter_mut().find(|group| (group.1, &group.2) == (mark, &words)) {
            Some(group) => group.0.push(id),
            None => groups.push((vec![id], mark, words)),
        }
    }
    groups.into_iter().map(|(ids, mark, words)| (mark, format!("{}: {words}", tracks_in_words(&ids)))).collect()
}

/// The tracks of these IDs.
fn tracks_in_words(ids: &[TrackId]) -> String {
    let is_run = ids.windows(2).all(|two| two[0].0.checked_add(1) == Some(two[1].0));
    match ids {
        [one] => format!("track {one}"),
        [one, two] => format!("tracks {one} and {two}"),
        [first, .., last] if is_run => format!("tracks {first} to {last}"),
        _ => format!("tracks {}", ids.iter().map(TrackId::to_string).collect::<Vec<_>>().join(", ")),
    }
}

/// The peaks of a film, in its one line: of many tracks only the highest, and those whose camera claims what is not true.
fn peaks_in_words(rates: &[Rates]) -> Vec<(Option<Mark>, String)> {
    let in_words = |one: &Rates| {
        let (mark, words) = one.in_words();
        (mark, words.replace(NO_CLAIM, "no rate claimed"))
    };
    if rates.len() <= NAMED_TRACKS {
        return rates.iter().map(in_words).collect();
    }
    let highest = rates.iter().filter_map(|one| Some((one.highest.ok()?, one.track.id)));
    let highest = highest.max_by_key(|(rate, _)| *rate).map(|(_, id)| id);
    let said: Vec<(TrackId, (Option<Mark>, String))> = rates.iter().map(|one| (one.track.id, in_words(one))).collect();
    let is_named =
        |(id, (mark, _)): &&(TrackId, (Option<Mark>, String))| *mark == Some(Mark::Bad) || highest == Some(*id);
    let named: Vec<(Option<Mark>, String)> = said.iter().filter(is_named).map(|(_, words)| words.clone()).collect();
    let rest: Vec<&(Option<Mark>, String)> = said.iter().filter(|one| !is_named(one)).map(|(_, words)| words).collect();
    let claims = rest.iter().filter(|(mark, _)| mark.is_some()).count();
    let none = rest.len() - claims;
    let counted = |count: usize, words: &str, mark| {
        let s = if count == 1 { "" } else { "s" };
        (count > 0).then(|| (mark, format!("{count} other track{s}: lower, and {words}")))
    };
    let others = [counted(claims, "what the camera claims is true", Some(Mark::Good)), counted(none, NO_CLAIM, None)];
    named.into_iter().chain(others.into_iter().flatten()).collect()
}

/// Whether a film is accepted, and whether all of it was read.
fn accepted_in_words(report: &Report, asked: &Asked) -> String {
    let announced = report.fragments.is_some_and(|fragments| fragments.count == 0);
    if asked.left_out.is_empty() && announced {
        return Mark::Look.says("accepted; it announces fragments, and none is in this file");
    }
    if report.not_whole().is_none() && asked.left_out.is_empty() {
        return Mark::Good.says("accepted");
    }
    Mark::Look.says("accepted, and read in part")
}

fn row(movie: &Movie, report: &Report, rates: &[Rates], quay: &(Mark, String), asked: &Asked) -> Vec<Cell> {
    let name = format!("<a href=\"#film-{}\">{}</a>", asked.number, html::name(&input::called(asked.file)));
    let totals = movie.tracks().iter().map(|track| (track.id, None, clock(track.total, track.scale)));
    let accounts = || report.accounts.iter();
    let filed =
        accounts().map(|Account { track, filed, .. }| (track.id, None, clock(MediaTime(filed.units), track.scale)));
    let missing = accounts().map(|account| {
        let Account { track, filed, .. } = account;
        let units = track.total.0 - filed.units;
        let mark = if account.adds_up() { Mark::Good } else { worst(account_in_words(account).0, asked) };
        let words = if units == 0 { "nothing".into() } else { clock(MediaTime(units), track.scale) };
        (track.id, Some(mark), words)
    });
    let missing =
        if asked.slips_given { by_track(missing) } else { vec![(Some(Mark::Look), "no slip is given".into())] };
    let (quay, words) = quay;
    let whole = report.not_whole().map(|words| (Some(Mark::Bad), words));
    vec![
        html::html(name),
        html::html(accepted_in_words(report, asked)),
        number(movie.tracks().len()),
        lines(by_track(totals)),
        lines(by_track(filed)),
        lines(missing.into_iter().chain(whole)),
        lines(peaks_in_words(rates)),
        html::html(quay.says(words)),
    ]
}

/// Where no slip was given, nothing is said to be missing.
fn worst(mark: Mark, asked: &Asked) -> Mark {
    if asked.slips_given {
        mark
    } else {
        Mark::Look
    }
}

/// The answers, before the pictures.
fn in_short(report: &Report, rates: &[Rates], quay: &(Mark, String), asked: &Asked) -> String {
    let mut all: Vec<(Option<Mark>, String)> =
        report.not_whole().map(|words| (Some(Mark::Bad), words)).into_iter().collect();
    for account in &report.accounts {
        let (mark, words) = account_in_words(account);
        all.push((Some(worst(mark, asked)), format!("track {}: {words}{}", account.track.id, where_in_words(account))));
    }
    all.extend(rates.iter().map(|rates| {
        let (mark, words) = rates.in_words();
        (mark, format!("peak bit rate of {words}"))
    }));
    let (mark, words) = quay;
    all.push((Some(*mark), format!("quay film profile: {words}")));
    let item = |(mark, words): &(Option<Mark>, String)| {
        format!("<li>{}</li>", mark.map_or_else(|| escaped(words), |mark| mark.says(words)))
    };
    format!("<ul class=\"short\">{}</ul>\n", all.iter().map(item).collect::<String>())
}

fn tracks(movie: &Movie) -> String {
    let headings = ["id", "subtype", "scale", "total", "hh:mm:ss.mmm", "samples", "chunks", "edits", "stored"];
    let rows = movie.tracks().iter().map(|t| {
        let mut row = vec![number(t.id), text(&t.subtype.to_string())];
        row.extend([t.scale, t.total.0].map(number));
        row.push(number(clock(t.total, t.scale)));
        row.extend([t.samples, t.chunks, t.edits, t.stored.0].map(number));
        row
    });
    let movie_words = escaped(&header_in_words(&movie.header()));
    format!(
        "<h3>Which tracks it holds</h3>\n<p class=\"soft lead\">Each hose is filmed by one video track (vide).</p>\n{}<p class=\"soft\">{movie_words}</p>\n",
        table("flow", &headings, rows)
    )
}

/// What the bands of a timeline mean.
const FILED: &str =
    "<h3>What is filed</h3>\n<p class=\"soft lead\">Filled bars are filed, with the name of the slip; hatched parts are \
                     gaps, which no slip files; dotted parts are filed more than once.</p>\n";

/// A timeline for each track, with its edits; then the slips, and what adds up.
fn filed(movie: &Movie, report: &Report, asked: &Asked) -> Result<String, Failure> {
    let mut out = String::from(FILED);
    let most = share(MOST_PARTS, report.accounts.len());
    for account in &report.accounts {
        let (mark, words) = account_in_words(account);
        let id = account.track.id;
        out += &format!("<h4>Track {id}: {}</h4>\n", worst(mark, asked).says(&words));
        out += &pictures::filed(account, &report.slips, most);
        out += &parts(report, account, most, asked);
        out += &pictures::edits(movie, account.track, &placed(&movie.edits(id)?), most);
    }
    let row = |account: &Account| {
        let Account { track, filed, .. } = account;
        let mark = if account.adds_up() { Mark::Good } else { worst(Mark::Bad, asked) };
        let times = [MediaTime(filed.units), track.total].map(|time| number(clock(time, track.scale)));
        let [filed, total] = times;
        vec![number(track.id), filed, total, html::html(mark.says(account.verdict()))]
    };
    out += &table("flow", &["track", "filed", "movie has", "verdict"], report.accounts.iter().map(row));
    if !report.slips.is_empty() {
        out += &slips(&report.slips, asked);
    }
    let given = if report.slips.is_empty() && asked.slips_given {
        "no slip is good of this film".into()
    } else {
        report.slips_in_words()
    };
    out += &format!("<p>{}, and {}.</p>\n", escaped(&given), escaped(&report.tracks_in_words()));
    Ok(out)
}

/// The part of each track, which is not too small.
fn share(all: usize, tracks: usize) -> usize {
    all / tracks.max(1)
}

/// The gaps and overlaps of a track, in the words of `check`.
fn parts(report: &Report, account: &Account, most: usize, asked: &Asked) -> String {
    let Account { track, filed, .. } = account;
    let gaps = filed.gaps.iter().map(|time| part("gap", track, time));
    let overlaps = filed.overlaps.iter().map(|time| {
        let names = report.filed_by(track, time);
        let rest = names.len().saturating_sub(NAMED_SLIPS);
        let some: Vec<String> = names.iter().take(NAMED_SLIPS).map(|name| html::shortened(name, NAME)).collect();
        let rest = if rest == 0 { String::new() } else { format!(" and {rest} more") };
        format!("{}, filed by {}{rest}", part("overlap", track, time), some.join(", "))
    });
    let count = filed.gaps.len() + filed.overlaps.len();
    if count == 0 {
        return String::new();
    }
    let items: String = gaps.chain(overlaps).take(most).map(|words| format!("<li>{}</li>", escaped(&words))).collect();
    let command = format!("chaldoref check {} SLIP..", input::called(asked.file));
    format!("<ul>{items}</ul>{}\n", more(count, most, &command))
}

/// The first rows of a long table, and how many they are.
fn first_rows(rows: impl Iterator<Item = Vec<Cell>>) -> Vec<Vec<Cell>> {
    let mut bytes = 0;
    let fits = |row: &Vec<Cell>| {
        bytes += html::weight(row);
        bytes <= MOST_BYTES
    };
    rows.take(MOST_ROWS).take_while(fits).collect()
}

/// What is said below a table or list that has so many of all rows.
fn more(all: usize, shown: usize, command: &str) -> String {
    match all.saturating_sub(shown) {
        0 => String::new(),
        more => format!("<p class=\"soft\">and {more} more: <code>{}</code> prints all</p>", escaped(command)),
    }
}

/// The slips and whether they are good. Of very many those that are not good come first.
fn slips(slips: &[Checked], asked: &Asked) -> String {
    let row = |checked: &&Checked| {
        let name = html::html(html::name(&input::called(checked.name)));
        let mark = if checked.wrong.is_none() { Mark::Good } else { Mark::Bad };
        let mut words = mark.says(&slip_verdict(checked));
        if let Some(retyped) = &checked.retyped {
            words += &format!("<div>{}</div>", escaped(&format!("not proved: {retyped}")));
        }
        let verdict = html::html(words);
        match &checked.slip {
            Some(slip) => {
                let time = |units: u64| number(crate::time::clock_of(units, slip.scale));
                vec![name, number(slip.id), time(slip.a), time(slip.b), time(slip.film_time()), verdict]
            }
            None => vec![name, number("-"), number("-"), number("-"), number("-"), verdict],
        }
    };
    let mut all: Vec<&Checked> = slips.iter().collect();
    if all.len() > MOST_ROWS {
        all.sort_by_key(|checked| checked.wrong.is_none());
    }
    let rows = first_rows(all.iter().map(row));
    let command = format!("chaldoref check {} SLIP..", input::called(asked.file));
    let rest = more(all.len(), rows.len(), &command);
    table("flow", &["slip", "track", "from", "to", "film time", "verdict"], rows) + &rest
}

/// The picture of each track's rates, and below it the peak and the camera's claims.
fn bit_rates(all: &[Rates], asked: &Asked) -> String {
    let mut out = String::from(
        "<h3>Bit rate over time</h3>\n<p class=\"soft lead\">At each time the rate of the run of one second that begins there; the \
         second with the highest rate is marked.</p>\n",
    );
    for rates in all {
        let (mark, words) = rates.in_words();
        let words = words.split_once(": ").map_or(words.clone(), |(_, words)| words.to_string());
        let words = mark.map_or_else(|| escaped(&words), |mark| mark.says(&words));
        out += &format!("<h4>Track {}: {words}</h4>\n{}", rates.track.id, pictures::rates(rates));
        if let (Ok(rate), Some(peak)) = (rates.highest, &rates.peak) {
            let peak = escaped(&peak_in_words(rates.track, peak));
            out += &format!("<p>Peak: {} bits a second in {peak}.</p>\n", grouped(rate.into()));
        }
        if !rates.profile.records.is_empty() {
            out += &profile(&rates.profile, share(MOST_PARTS, all.len()), asked);
        }
    }
    out
}

fn profile(profile: &check_profile::Checked, most: usize, asked: &Asked) -> String {
    let row = |judged: &check_profile::Judged| {
        let words = judged.in_words();
        let verdict = match &judged.verdict {
            Some((true, _)) => html::html(Mark::Good.says(&words)),
            Some((false, _)) => html::html(Mark::Bad.says(&words)),
            None => text(&words),
        };
        let record = &judged.record;
        let part = super::super::part_in_words(record.part);
        vec![number(judged.place), text(&part), text(&record.code.to_string()), number(record.value), verdict]
    };
    let sentence = escaped(&check_profile::sentence(profile));
    let rows = profile.records.iter().take(most).map(row);
    let command = format!("chaldoref check-profile {}", input::called(asked.file));
    let rest = more(profile.records.len(), most, &command);
    format!("{}{rest}<p>{sentence}.</p>\n", table("flow", &["record", "part", "code", "value", "verdict"], rows))
}

/// The map of the file, its atoms, and the ranges of what is filed.
fn bytes(film: &Film, movie: &Movie, report: &Report, asked: &Asked) -> Result<String, Failure> {
    let atoms = film.top_level();
    let mut out = format!("<h3>Which bytes</h3>\n{}", pictures::map(movie, &atoms)?);
    let row = |(kind, range): &(chaldoref::FourCC, std::ops::Range<u64>)| {
        vec![text(&kind.to_string()), number(grouped(range.start)), number(grouped(range.end - range.start))]
    };
    let table_of_atoms = table("", &["atom", "offset", "length"], atoms.iter().take(MOST_ROWS).map(row));
    let rest = match atoms.len().saturating_sub(MOST_ROWS) {
        0 => String::new(),
        rest => format!("<p class=\"soft\">and {rest} more</p>"),
    };
    let s = if atoms.len() == 1 { "" } else { "s" };
    out += &format!(
        "<details><summary>The {} atom{s} at top level</summary>{table_of_atoms}{rest}</details>\n",
        atoms.len()
    );
    out += &ranges(movie, report, asked)?;
    Ok(out)
}

fn ranges(movie: &Movie, report: &Report, asked: &Asked) -> Result<String, Failure> {
    let (mut rows, mut all) = (Vec::new(), 0);
    for checked in report.slips.iter() {
        let Some((slip, time)) = checked.good().and_then(|slip| Some((slip, slip.time()?))) else { continue };
        let Ok(id) = u32::try_from(slip.id) else { continue };
        let stretch = movie.stretch(chaldoref::TrackId(id), time)?;
        all += stretch.pairs.len();
        for pair in stretch.pairs.iter().take(MOST_ROWS - rows.len()) {
            let name = html::html(html::name(&input::called(checked.name)));
            rows.push(vec![name, number(id), number(grouped(pair.offset)), number(grouped(pair.length))]);
        }
    }
    if all == 0 {
        return Ok("<p>No byte is filed.</p>\n".into());
    }
    let command = format!("chaldoref stretch {} TRACK A B", input::called(asked.file));
    let rows = first_rows(rows.into_iter());
    let rest = more(all, rows.len(), &command);
    let table = table("", &["slip", "track", "offset", "length"], rows);
    let s = if all == 1 { "" } else { "s" };
    Ok(format!("<details><summary>The {all} byte range{s} of what is filed</summary>{table}{rest}</details>\n"))
}

/// What the answers do not say.
fn not_proved(film: &Film, movie: &Movie, report: &Report, asked: &Asked) -> Result<String, Failure> {
    let mut all = warnings::of_tracks(movie, film.fragments(movie));
    all.extend(report.warnings.iter().filter(|words| !all.contains(words)).cloned().collect::<Vec<_>>());
    if let Some(parts) = warnings::left_out(asked.left_out) {
        all.push(format!("the film was read without {parts}"));
    }
    all.push(report.bytes_in_words().into());
    if let Some(broken) = quay::breaks(movie, movie.check_quay()).first() {
        let fault = QuayFault::new(broken.rule, broken.track);
        all.push(format!("not proved: {}", check_quay::sentence(fault, &broken.place.in_words())));
    }
    let mut seen = Vec::new();
    unproved::print(movie, &mut seen)?;
    all.extend(String::from_utf8_lossy(&seen).lines().map(String::from));
    let items: String = all.iter().map(|words| format!("<li>{}</li>", escaped(words))).collect();
    let moov = film.moov_range().unwrap_or_default();
    let hash = film.hash(&[moov])?;
    Ok(format!(
        "<h3>What was not proved, left out or not read</h3>\n<ul>{items}</ul>\n<p class=\"soft\">File of {} bytes; its moov has {} bytes at \
         byte {}, sha256 <code>{hash}</code></p>\n",
        grouped(movie.film().length()),
        grouped(moov.length),
        grouped(moov.offset)
    ))
}
