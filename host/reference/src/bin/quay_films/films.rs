//! Films that keep the quay film profile, that just break a rule of it, and that are refused.
use reference::film::*;
use reference::hoses::two_hoses;
use reference::made::*;
use reference::movie::MoovAlone;

const STCO: &str = "moov trak mdia minf stbl stco";

/// The longest file.
const LONGEST: u64 = (1 << 63) - 1;

#[derive(Debug, PartialEq)]
pub enum Answer {
    Yes,
    /// The rule, and the track's ID.
    Breaks(u64, u64),
    Refused(u32),
}

impl Answer {
    /// What a film's name begins with.
    pub fn name(&self) -> String {
        match self {
            Answer::Yes => "yes".to_string(),
            Answer::Breaks(rule, _) => format!("rule-{rule}"),
            Answer::Refused(number) => number.to_string(),
        }
    }

    pub fn line(&self) -> String {
        match self {
            Answer::Yes => "yes".to_string(),
            Answer::Breaks(rule, id) => format!("breaks {rule}, track {id}"),
            Answer::Refused(number) => format!("refused {number}"),
        }
    }
}

/// The answer where a single track breaks that rule, 0 for none.
fn of_rule(rule: u64) -> Answer {
    match rule {
        0 => Answer::Yes,
        1 => Answer::Breaks(1, 0),
        _ => Answer::Breaks(rule, 1),
    }
}

pub enum Lent {
    Whole(Vec<u8>),
    Alone(MoovAlone<Vec<u8>>),
}

impl Lent {
    pub fn bytes(&self) -> Vec<u8> {
        let (length, bytes) = match self {
            Lent::Whole(film) => (0, film),
            Lent::Alone(film) => (film.length, &film.moov),
        };
        [&length.to_be_bytes(), &bytes[..]].concat()
    }
}

pub struct Films {
    pub list: Vec<(Answer, String, Lent)>,
}

impl Films {
    pub fn new() -> Films {
        Films { list: Vec::new() }
    }

    fn lent(&mut self, answer: Answer, name: &str, lent: Lent) {
        assert!(!self.list.iter().any(|film| film.0.name() == answer.name() && film.1 == name), "{name} twice");
        self.list.push((answer, name.to_string(), lent));
    }

    fn node(&mut self, answer: Answer, name: &str, film: &Node) {
        self.lent(answer, name, Lent::Whole(film.bytes()));
    }

    fn tracks(&mut self, answer: Answer, name: &str, tracks: &[Track]) {
        self.node(answer, name, &movie(tracks).file_of(LARGE));
    }

    /// A film of one track, with ID 1, that breaks that rule, 0 for none.
    fn one(&mut self, rule: u64, name: &str, track: Track) {
        self.tracks(of_rule(rule), name, &[track]);
    }

    /// A moov alone of two chunks at those offsets.
    fn wide(&mut self, answer: Answer, name: &str, length: u64, offsets: [u64; 2]) {
        let mut lent = movie(&[quay_track(1)]).file();
        lent.replace(STCO, co64(&offsets));
        self.lent(answer, name, Lent::Alone(MoovAlone { moov: lent.bytes(), length }));
    }

    pub fn all(&mut self) {
        self.kept();
        self.of_the_repository();
        self.first_rule();
        self.each_rule();
        self.limits();
        self.syncs();
        self.chunks();
        self.frames();
        self.wide_offsets();
        self.refused();
    }

    fn kept(&mut self) {
        self.one(0, "one-track", quay_track(1));
        self.tracks(Answer::Yes, "two-tracks", &[quay_track(9), quay_track(4)]);
        self.one(0, "another-mdhd-duration", Track { duration: 97, ..quay_track(1) });
        let mut lent = movie(&[quay_track(1)]).file();
        let length = 4096;
        self.lent(Answer::Yes, "moov-alone", Lent::Alone(MoovAlone { moov: lent.bytes(), length }));
        lent.double("moov trak");
        self.lent(Answer::Refused(7), "moov-alone-id-twice", Lent::Alone(MoovAlone { moov: lent.bytes(), length }));
    }

    /// The films in films/. W has a size of 0, and its second chunk lies before the first.
    fn of_the_repository(&mut self) {
        self.node(of_rule(6), "w", &w());
        let edited = Track { edits: edits(&[(60, -1), (60, 24)]), ..w_track() };
        self.node(of_rule(2), "w-edits", &movie(&[edited]).file_of(4096));
        self.node(Answer::Yes, "two-hoses", &two_hoses());
    }

    /// "one or two vide tracks and no others"; "(0 for the first rule)"
    fn first_rule(&mut self) {
        let of = |id, subtype: &[u8; 4]| Track { subtype: *subtype, ..quay_track(id) };
        for (name, tracks) in [
            ("no-track", vec![]),
            ("three-tracks", vec![quay_track(1), quay_track(2), quay_track(3)]),
            ("sound", vec![of(1, b"soun")]),
            ("another-case", vec![of(1, b"VIDE")]),
            ("sound-second", vec![quay_track(1), of(2, b"soun")]),
            ("sound-first", vec![of(1, b"soun"), quay_track(2)]),
            ("sound-and-every-other-rule", vec![(2..=9).fold(of(1, b"soun"), breaking)]),
        ] {
            self.tracks(Answer::Breaks(1, 0), name, &tracks);
        }
    }

    /// Each of the others, alone and with the next, in either track.
    fn each_rule(&mut self) {
        for rule in 2..=9 {
            let bad = |id| breaking(quay_track(id), rule);
            self.tracks(Answer::Breaks(rule, 7), "first-track", &[bad(7), quay_track(3)]);
            self.tracks(Answer::Breaks(rule, 3), "second-track", &[quay_track(7), bad(3)]);
            self.tracks(Answer::Breaks(rule, 7), "both-tracks", &[bad(7), bad(3)]);
        }
        for rule in 2..=8 {
            let [low, high] = [rule, rule + 1].map(|rule| move |id| breaking(quay_track(id), rule));
            self.tracks(Answer::Breaks(rule, 3), "second-track-lower", &[high(7), low(3)]);
            self.tracks(Answer::Breaks(rule, 7), "first-track-lower", &[low(7), high(3)]);
        }
        self.one(2, "every-rule-from-the-second", (2..=9).fold(quay_track(1), breaking));
    }

    fn limits(&mut self) {
        self.one(0, "one-edit", Track { edits: edits(&[(96, 0)]), ..quay_track(1) });
        self.one(0, "one-empty-edit", Track { edits: edits(&[(1, -1)]), ..quay_track(1) });
        self.one(3, "64-descriptions", Track { descriptions: vec![picture(1, 1); 64], ..quay_track(1) });
        let none = || Track { descriptions: vec![picture(1, 1)], ..empty_track(1) };
        self.one(5, "no-samples", none());
        let second = [quay_track(7), Track { id: 3, ..none() }];
        self.tracks(Answer::Breaks(5, 3), "no-samples-in-the-second-track", &second);
        self.one(5, "no-samples-and-an-empty-stss", Track { stss: Some(vec![]), ..none() });
        self.one(3, "no-samples-and-no-description", empty_track(1));
        self.one(4, "empty-ctts", Track { ctts: Some(vec![]), ..none() });
        self.one(0, "common-size", Track { stsz: Sizes::Common(1, 4), ..quay_track(1) });
        self.one(6, "last-size", Track { stsz: Sizes::Each(vec![1, 1, 1, 0]), ..quay_track(1) });
        self.one(6, "common-size-0", Track { stsz: Sizes::Each(vec![0; 4]), ..quay_track(1) });
        for (name, stts) in [
            ("first-duration", vec![(1, 0), (3, 24)]),
            ("last-duration", vec![(3, 24), (1, 0)]),
            ("every-duration", vec![(4, 0)]),
        ] {
            self.one(7, name, Track { stts, ..quay_track(1) });
        }
    }

    /// "a sync sample and those after it before the next sync one, or to the end, at most 250 samples"
    fn syncs(&mut self) {
        self.one(0, "every-sample-sync", quay_syncs(1000, None));
        for (samples, stss, rule) in sync_groups() {
            let numbers: Vec<String> = stss.iter().map(u32::to_string).collect();
            let name = format!("{samples}-samples-sync-{}", numbers.join("-"));
            self.one(rule, &name, quay_syncs(samples, Some(stss)));
        }
    }

    /// "chunks in rising order of offset with none overlapping the one before": 180 bytes, then 70.
    fn chunks(&mut self) {
        for (stco, rule) in [
            ([2600, 2781], 0),
            ([2600, 2779], 8),
            ([2600, 2600], 8),
            ([2600, 2599], 8),
            ([2600, 2530], 8),
            ([0, 180], 0),
        ] {
            let name = format!("chunks-at-{}-and-{}", stco[0], stco[1]);
            self.one(rule, &name, Track { stco: stco.to_vec(), ..quay_track(1) });
        }
        let four = |last| Track { stsc: vec![(1, 1, 1)], stco: vec![2600, 2700, 2750, last], ..quay_track(1) };
        self.one(0, "last-of-four-chunks-at-the-end", four(2780));
        self.one(8, "last-of-four-chunks-before-the-end", four(2779));
        let common = |second| Track { stsz: Sizes::Common(10, 4), stco: vec![2600, second], ..quay_track(1) };
        self.one(0, "common-sizes-at-the-end", common(2630));
        self.one(8, "common-sizes-before-the-end", common(2629));
        let two = |stsc| Track { stsc, stco: vec![2600, 2700, 2780], ..quay_track(1) };
        self.one(0, "two-runs-of-chunks", two(vec![(1, 1, 1), (2, 2, 1), (3, 1, 1)]));
        self.one(8, "two-runs-of-chunks", two(vec![(1, 2, 1), (2, 1, 1)]));
    }

    /// "vfps at most 30.0"; "A vfps refused 18 breaks the last rule."
    fn frames(&mut self) {
        for (scale, least, rule) in [
            (600, 20, 0),
            (601, 20, 9),
            (600, 19, 9),
            (30_000, 1001, 0),
            (30, 1, 0),
            (31, 1, 9),
            (u32::MAX, 143_165_577, 0),
            (u32::MAX, 143_165_576, 9),
            (u32::MAX, 1, 9),
        ] {
            let stts = vec![(1, least + 1), (1, least), (2, least + 1)];
            self.one(rule, &format!("scale-{scale}-duration-{least}"), Track { scale, stts, ..quay_track(1) });
        }
    }

    /// Offsets of 64 bits, by the moov alone.
    fn wide_offsets(&mut self) {
        let last = LONGEST - 70;
        self.wide(Answer::Yes, "offset-above-2-32", 1 << 40, [1 << 32, (1 << 32) + 180]);
        self.wide(Answer::Breaks(8, 1), "overlap-above-2-32", 1 << 40, [1 << 32, (1 << 32) + 179]);
        self.wide(Answer::Breaks(8, 1), "falling-in-the-high-word", 1 << 40, [1 << 33, (1 << 32) + 180]);
        self.wide(Answer::Yes, "rising-in-the-high-word", 1 << 40, [2000, 1 << 32]);
        self.wide(Answer::Yes, "chunks-at-the-longest-end", LONGEST, [last - 180, last]);
        self.wide(Answer::Breaks(8, 1), "overlap-at-the-longest-end", LONGEST, [last - 179, last]);
        self.wide(Answer::Refused(12), "offset-2-64-less-one", LONGEST, [1000, u64::MAX]);
        self.wide(Answer::Refused(1), "file-of-2-63", LONGEST + 1, [1000, 2000]);
    }

    /// "Refusals: those of the file." The edits are those that spoil W, here of a track whose durations add up to 96.
    fn refused(&mut self) {
        for (number, name, film) in spoiled(&quay_track(1), |track| movie(&[track]).file_of(LARGE)) {
            let name = if number == 13 { "edits-60-empty-and-60-from-61-of-96" } else { name };
            self.node(Answer::Refused(number), name, &film);
        }
    }
}
