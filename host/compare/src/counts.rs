//! How often each refusal was met, by which question.
use crate::faults::FAULTS;
use crate::question::{Way, KINDS};
use std::fmt::Write;

/// Refusals are numbered from 1 to 21; 0 is an answer.
const NUMBERS: usize = 22;

/// The two ways in, in the order of `way_of`.
const WAYS: [&str; 2] = ["whole files", "moovs alone"];

fn way_of(way: Way) -> usize {
    usize::from(way != Way::Whole)
}

pub struct Counts {
    questions: [[u64; NUMBERS]; KINDS.len()],
    /// Films of each way by the number with which they are refused by default.
    films: [[u64; NUMBERS]; WAYS.len()],
    /// Those of them that are refused 11 where strict reading is asked for.
    strict: [[u64; NUMBERS]; WAYS.len()],
    /// Of these, the questions that were answered.
    accepted: [u64; KINDS.len()],
    /// Slips that begin with form 2, and others.
    slips: [u64; 2],
    /// Malformed slips of the two kinds by what is at fault.
    faults: [[u64; FAULTS.len()]; 2],
    /// Profiles that were found true, and those with a record at fault.
    profiles: [u64; 2],
    /// Films by the rule of the quay film profile that they break, 0 for none.
    quay: [u64; QUAY_RULES + 1],
    /// Films that were asked everything again with compact tables, by which of their tables were wasteful.
    compacted: [u64; WASTEFUL.len()],
    /// Films by their fragments.
    fragments: [u64; FRAGMENTS.len()],
}

/// The rules of the quay film profile.
const QUAY_RULES: usize = 9;

/// Which atoms of fragments a film has.
const FRAGMENTS: [&str; 4] = ["none", "mvex", "moof", "both"];

/// Which tables of a film have more entries than they need.
const WASTEFUL: [&str; 4] = ["none", "stts", "stsc", "both"];

impl Default for Counts {
    fn default() -> Counts {
        Counts {
            questions: [[0; NUMBERS]; KINDS.len()],
            films: [[0; NUMBERS]; WAYS.len()],
            strict: [[0; NUMBERS]; WAYS.len()],
            accepted: [0; KINDS.len()],
            slips: [0; 2],
            faults: [[0; FAULTS.len()]; 2],
            profiles: [0; 2],
            quay: [0; QUAY_RULES + 1],
            compacted: [0; WASTEFUL.len()],
            fragments: [0; FRAGMENTS.len()],
        }
    }
}

/// Whether a file can be refused with that number by default; 0 is accepted.
fn is_of_film(number: usize) -> bool {
    number <= 13 && number != 11 || number == 19
}

/// Whether a question is never answered of a film that is refused 11 strictly: it reads or writes a slip, or asks of no film.
fn is_unasked_strictly(kind: &str) -> bool {
    kind.ends_with("slip") || kind == "join_returns"
}

/// The questions that ask for no number in a track.
const WITHOUT_15: [&str; 11] = [
    "track_list",
    "movie",
    "edits",
    "profile",
    "check_profile",
    "check_quay",
    "feature",
    "peak",
    "open",
    "compact",
    "fragments",
];

/// Whether include/chaldoref.h names that number for that question.
fn can_meet(number: usize, kind: &str) -> bool {
    let kind = kind.strip_prefix("moov_").unwrap_or(kind);
    let reads = ["read_slip", "read_any_slip"].contains(&kind);
    if ["step", "steps", "index"].contains(&kind) {
        return [0, 16].contains(&number);
    }
    if ["film_return", "join_returns"].contains(&kind) {
        return [0, 16, 20, 21].contains(&number);
    }
    if kind.starts_with("opened_") || kind.starts_with("indexed_") {
        return [0, 15, 16].contains(&number);
    }
    match number {
        0 | 16 => true,
        17 => reads,
        _ if reads => false,
        11 => kind == "write_slip",
        14 => !["track_list", "movie", "check_quay", "compact", "fragments"].contains(&kind),
        15 => !WITHOUT_15.contains(&kind),
        18 => ["feature", "peak"].contains(&kind),
        20 | 21 => false,
        _ => true,
    }
}

/// What films that are refused 11 only strictly are refused by default: nothing, or for what is judged after it.
const AFTER_11: [usize; 4] = [0, 19, 12, 13];

impl Counts {
    /// A film, by the numbers with which it is refused by default and strictly.
    pub fn film(&mut self, way: Way, number: u32, strict: u32) {
        let (way, number) = (way_of(way), usize::try_from(number).unwrap());
        self.films[way][number] += 1;
        self.strict[way][number] += u64::from(strict == 11);
    }

    /// A question of a film that only strict reading refuses, or refuses with another number.
    pub fn strict(&mut self, kind: usize, number: u32) {
        self.accepted[kind] += u64::from(number == 0);
    }

    /// A slip, and the kind of its first fault if it is malformed.
    pub fn slip(&mut self, slip: &[u8], fault: Option<usize>) {
        let form = usize::from(slip.first() == Some(&2));
        self.slips[form] += 1;
        if let Some(kind) = fault {
            self.faults[form][kind] += 1;
        }
    }

    /// The verdict on a profile.
    pub fn profile(&mut self, is_true: bool) {
        self.profiles[usize::from(!is_true)] += 1;
    }

    /// The rule of the quay film profile that a film breaks, 0 for none.
    pub fn quay(&mut self, rule: u64) {
        self.quay[usize::try_from(rule).unwrap()] += 1;
    }

    /// A film that was asked everything again with compact tables: whether its stts, and its stsc, had more entries than they need.
    pub fn compacted(&mut self, stts: bool, stsc: bool) {
        self.compacted[usize::from(stts) + 2 * usize::from(stsc)] += 1;
    }

    /// A film by its fragments: whether its moov has an mvex, and the file a moof.
    pub fn fragments(&mut self, [mvex, moof]: [bool; 2]) {
        self.fragments[usize::from(mvex) + 2 * usize::from(moof)] += 1;
    }

    pub fn question(&mut self, kind: usize, number: u32) {
        self.questions[kind][usize::try_from(number).unwrap()] += 1;
    }

    pub fn films(&self) -> u64 {
        self.films.iter().flatten().sum()
    }

    pub fn questions(&self) -> u64 {
        self.questions.iter().flatten().sum()
    }

    /// A line of counts under a name; a dash where a number is never given.
    fn line(name: &str, row: &[u64; NUMBERS], is_given: impl Fn(usize) -> bool) -> String {
        let mut text = format!("{name:<18} {:>10}", row.iter().sum::<u64>());
        for (number, count) in row.iter().enumerate() {
            let shown = if is_given(number) { count.to_string() } else { "-".to_string() };
            write!(text, " {shown:>8}").unwrap();
        }
        text + "\n"
    }

    /// A line for each way's films and for each function, a column for each number.
    pub fn table(&self) -> String {
        let mut text = format!("{:<18} {:>10}", "", "all");
        for number in 0..NUMBERS {
            write!(text, " {number:>8}").unwrap();
        }
        text += "\n";
        for (way, row) in WAYS.iter().zip(&self.films) {
            text += &Counts::line(way, row, is_of_film);
        }
        for (kind, row) in KINDS.iter().zip(&self.questions) {
            text += &Counts::line(kind, row, |number| can_meet(number, kind));
        }
        text
    }

    /// How many films are refused 11 strictly, by what they are refused by default.
    pub fn strict_line(&self) -> String {
        let line = |(way, strict): (&&str, &[u64; NUMBERS])| {
            let [accepted, elsewhere, past_end, edits] = AFTER_11.map(|number| strict[number]);
            format!(
                "{way} refused 11 strictly: by default accepted {accepted}, refused 19 {elsewhere}, refused 12 {past_end}, refused 13 {edits}"
            )
        };
        WAYS.iter().zip(&self.strict).map(line).collect::<Vec<_>>().join("\n")
    }

    /// The verdicts on profiles, and on films by the quay film profile, and how many films were asked again with compact tables.
    pub fn verdict_lines(&self) -> String {
        let [good, bad] = self.profiles;
        let quay: Vec<String> = self.quay.iter().map(u64::to_string).collect();
        format!(
            "profiles that are true: {good}, with a record at fault: {bad}\n\
             films that keep the quay film profile, and that break rule 1 to 9 of it: {}\n\
             films asked again with compact tables, by which were wasteful: {}",
            quay.join(", "),
            WASTEFUL
                .iter()
                .zip(self.compacted)
                .map(|(name, count)| format!("{name} {count}"))
                .collect::<Vec<_>>()
                .join(", ")
        )
    }

    /// How many slips were read, and how many of them were malformed where.
    pub fn slip_lines(&self) -> String {
        let line = |form: usize| {
            let faults: Vec<String> =
                FAULTS.iter().zip(self.faults[form]).map(|(name, count)| format!("{name} {count}")).collect();
            let of = ["slips read that do not begin with form 2", "slips read that do"][form];
            format!("{of}: {}; malformed at: {}", self.slips[form], faults.join(", "))
        };
        [line(0), line(1)].join("\n")
    }

    /// A sentence for each number that a question can give and was never met, so that it was not compared; and for each given that can't be.
    pub fn complaints(&self) -> Vec<String> {
        let mut all = Vec::new();
        for (kind, row) in KINDS.iter().zip(&self.questions) {
            for (number, count) in row.iter().enumerate() {
                match (can_meet(number, kind), *count) {
                    (true, 0) => all.push(format!("{kind} never met {number}")),
                    (false, 1..) => all.push(format!("{kind} met {number}, which it never gives")),
                    _ => (),
                }
            }
        }
        for (way, name) in WAYS.iter().enumerate() {
            let never = (0..NUMBERS).filter(|number| is_of_film(*number) && self.films[way][*number] == 0);
            all.extend(never.map(|number| format!("of {name} none was refused {number}")));
            let never = AFTER_11.iter().filter(|number| self.strict[way][**number] == 0);
            all.extend(never.map(|number| format!("of {name} none was refused 11 strictly and {number} by default")));
        }
        let unasked = KINDS.iter().zip(self.accepted).filter(|(kind, count)| *count == 0 && !is_unasked_strictly(kind));
        all.extend(unasked.map(|(kind, _)| format!("{kind} was never answered of a film that is refused 11 strictly")));
        let never = ["true", "at fault"].into_iter().zip(self.profiles).filter(|(_, count)| *count == 0);
        all.extend(never.map(|(verdict, _)| format!("no profile was {verdict}")));
        let never = self.quay.iter().enumerate().filter(|(_, count)| **count == 0);
        all.extend(never.map(|(rule, _)| format!("no film met rule {rule} of the quay film profile")));
        let never = FRAGMENTS.iter().zip(self.fragments).filter(|(_, count)| *count == 0);
        all.extend(never.map(|(name, _)| format!("no film had these atoms of fragments: {name}")));
        let never = WASTEFUL.iter().zip(self.compacted).filter(|(_, count)| *count == 0);
        all.extend(never.map(|(name, _)| format!("no film with wasteful tables ({name}) was asked again")));
        for (form, faults) in self.faults.iter().enumerate() {
            let of = ["slip of form 1", "slip of form 2"][form];
            let never = FAULTS.iter().zip(faults).filter(|(_, count)| **count == 0);
            all.extend(never.map(|(name, _)| format!("no {of} was malformed at: {name}")));
        }
        all
    }
}

#[cfg(test)]
mod tests {
    use super::*;

    /// Everything that can be met, once.
    fn full() -> Counts {
        let mut counts = Counts::default();
        for number in 0..NUMBERS {
            for (kind, name) in KINDS.iter().enumerate() {
                if can_meet(number, name) {
                    counts.question(kind, number.try_into().unwrap());
                }
            }
        }
        for way in [Way::Whole, Way::Moov(0)] {
            (0..NUMBERS).filter(|number| is_of_film(*number)).for_each(|number| {
                let number = number.try_into().unwrap();
                counts.film(way, number, number);
            });
            AFTER_11.into_iter().for_each(|number| counts.film(way, number.try_into().unwrap(), 11));
        }
        (0..KINDS.len()).for_each(|kind| counts.strict(kind, 0));
        [true, false].into_iter().for_each(|verdict| counts.profile(verdict));
        (0..=9).for_each(|rule| counts.quay(rule));
        for (stts, stsc) in [(false, false), (false, true), (true, false), (true, true)] {
            counts.compacted(stts, stsc);
            counts.fragments([stts, stsc]);
        }
        for slip in [[1], [2]] {
            (0..FAULTS.len()).for_each(|kind| counts.slip(&slip, Some(kind)));
        }
        counts
    }

    #[test]
    fn a_full_table_has_no_complaint() {
        assert_eq!(full().complaints(), Vec::<String>::new());
    }

    #[test]
    fn what_was_never_met_is_complained_of() {
        let mut counts = full();
        counts.questions[1][15] = 0;
        counts.films[0][7] = 0;
        counts.films[1][1] = 0;
        counts.strict[0][12] = 0;
        counts.accepted[5] = 0;
        counts.faults[1][4] = 0;
        counts.profiles[0] = 0;
        counts.quay[8] = 0;
        counts.compacted[2] = 0;
        counts.fragments[1] = 0;
        let expected = [
            "sample never met 15",
            "of whole files none was refused 7",
            "of whole files none was refused 11 strictly and 12 by default",
            "of moovs alone none was refused 1",
            "stretch was never answered of a film that is refused 11 strictly",
            "no profile was true",
            "no film met rule 8 of the quay film profile",
            "no film had these atoms of fragments: mvex",
            "no film with wasteful tables (stsc) was asked again",
            "no slip of form 2 was malformed at: b",
        ];
        assert_eq!(counts.complaints(), expected);
        assert!(counts.table().lines().any(|line| line.starts_with("sample ") && line.contains(" 0 ")));
    }

    #[test]
    fn what_cannot_be_met_is_complained_of() {
        let mut counts = full();
        counts.question(0, 14);
        counts.question(1, 11);
        let expected = ["track_list met 14, which it never gives", "sample met 11, which it never gives"];
        assert_eq!(counts.complaints(), expected);
    }
}
