//! The sets: each has a name that says what it is, and begins with the number with which a film of these tables is refused.
use reference::film::*;

pub struct Set {
    pub number: u32,
    pub name: &'static str,
    pub movie: u32,
    pub track: Track,
    /// Whether the set has no atom but those that ask.
    pub bare: bool,
}

pub struct Sets {
    pub list: Vec<Set>,
}

/// So many samples in one chunk, each of one byte, with those durations.
fn many(samples: u32, duration: u32) -> Track {
    let stsz = Sizes::Common(1, samples);
    Track { stts: vec![(samples, duration)], stsc: vec![(1, samples, 1)], stsz, stco: vec![100], ..w_track() }
}

/// Samples with those durations in one chunk, each of another size.
fn timed(stts: &[(u32, u32)]) -> Track {
    let samples = stts.iter().map(|entry| entry.0).sum();
    let stsz = Sizes::Each((1..=samples).collect());
    Track { stts: stts.to_vec(), stsc: vec![(1, samples, 1)], stsz, stco: vec![100], ..w_track() }
}

fn empty() -> Track {
    Track { stts: vec![], stsc: vec![], stsz: Sizes::Each(vec![]), stco: vec![], descriptions: vec![], ..w_track() }
}

fn dealt(stsc: &[(u32, u32, u32)]) -> Track {
    Track { stsc: stsc.to_vec(), ..w_track() }
}

fn synced(stss: &[u32]) -> Track {
    Track { stss: Some(stss.to_vec()), ..w_track() }
}

fn shifted(ctts: &[(u32, i32)]) -> Track {
    Track { ctts: Some(ctts.to_vec()), ..w_track() }
}

fn edited(edits: &[(u32, i32)]) -> Track {
    Track { edits: Some(edits.iter().map(|(duration, media)| (*duration, *media, 65536)).collect()), ..w_track() }
}

impl Sets {
    pub fn new() -> Sets {
        let mut sets = Sets { list: Vec::new() };
        sets.put(0, "film-w", w_track());
        sets.times();
        sets.totals();
        sets.samples();
        sets.chunks();
        sets.wrong_runs();
        sets.wrong_deals();
        sets.wrong_syncs();
        sets.edits();
        sets.scales();
        sets.put(0, "empty-tables", Track { ctts: Some(vec![]), stss: Some(vec![]), ..empty() });
        sets.put(0, "no-tables", empty());
        sets.list.last_mut().unwrap().bare = true;
        sets
    }

    fn put(&mut self, number: u32, name: &'static str, track: Track) {
        self.list.push(Set { number, name, movie: 600, track, bare: false });
    }

    fn times(&mut self) {
        self.put(0, "zero-durations-at-the-start", timed(&[(2, 0), (2, 10)]));
        self.put(0, "zero-duration-first-alone", timed(&[(1, 0), (1, 1)]));
        self.put(0, "zero-durations-in-the-middle", timed(&[(1, 10), (3, 0), (2, 10)]));
        self.put(0, "zero-durations-in-entries-in-a-row", timed(&[(1, 10), (1, 0), (2, 0), (1, 5), (1, 0), (1, 7)]));
        self.put(0, "zero-durations-at-the-end", timed(&[(2, 10), (1, 0), (2, 0)]));
        self.put(0, "zero-durations-only", timed(&[(3, 0), (1, 0)]));
        self.put(0, "least-duration-last", timed(&[(2, 9), (1, 0), (1, 12), (1, 3)]));
        self.put(0, "ctts-negative", shifted(&[(1, -1), (1, -2147483648), (1, 2147483647), (1, 5)]));
        self.put(0, "ctts-of-one-entry", shifted(&[(4, -24)]));
    }

    fn totals(&mut self) {
        self.put(0, "durations-total-4294967295", timed(&[(1, 4294967294), (1, 1)]));
        self.put(10, "durations-total-4294967296", timed(&[(1, 4294967295), (1, 1)]));
        self.put(0, "one-entry-totals-4294967295", many(65537, 65535));
        self.put(10, "one-entry-totals-4294967296", many(65536, 65536));
        self.put(0, "1048576-samples-in-one-entry", many(1048576, 4095));
        self.put(10, "1048576-samples-of-the-largest-duration", many(1048576, 4294967295));
        self.put(0, "edits-total-4294967295", edited(&[(4294967294, -1), (1, 0)]));
        self.put(10, "edits-total-4294967296", edited(&[(4294967295, -1), (1, 0)]));
    }

    fn samples(&mut self) {
        self.put(0, "zero-sizes", Track { stsz: Sizes::Each(vec![0, 0, 5, 0]), ..w_track() });
        self.put(0, "zero-sizes-only", Track { stsz: Sizes::Each(vec![0; 4]), ..w_track() });
        self.put(0, "common-size", Track { stsz: Sizes::Common(7, 4), ..w_track() });
        self.put(12, "common-size-4294967295", Track { stsz: Sizes::Common(4294967295, 4), ..w_track() });
        self.put(12, "sizes-4294967295", Track { stsz: Sizes::Each(vec![4294967295; 4]), ..w_track() });
        self.put(12, "offset-4294967295", Track { stco: vec![1000, 4294967295], ..w_track() });
        self.put(12, "first-chunk-passes-2-32-to-5", Track { stco: vec![4294967151, 900], ..w_track() });
        self.put(0, "stss-empty", synced(&[]));
        self.put(0, "stss-of-the-second-and-the-last", synced(&[2, 4]));
        self.put(0, "stss-of-all", synced(&[1, 2, 3, 4]));
        self.put(0, "common-size-without-samples", Track { stsz: Sizes::Common(7, 0), ..empty() });
    }

    fn chunks(&mut self) {
        let offsets = |count: u32| (0..count).map(|i| 2000 - 100 * i).collect::<Vec<u32>>();
        let each = |count: u32| Sizes::Each((1..=count).collect());
        let two = vec![picture(1, 1), picture(2, 2)];
        let base = Track { descriptions: two, stco: offsets(12), ..w_track() };
        let stts = vec![(14, 10)];
        let stsc = vec![(1, 2, 2), (3, 1, 1)];
        self.put(0, "last-entry-for-ten-chunks", Track { stts, stsc, stsz: each(14), ..base.clone() });
        let (stts, stsc) = (vec![(24, 10)], vec![(1, 2, 2)]);
        self.put(0, "one-entry-for-twelve-chunks", Track { stts, stsc, stsz: each(24), ..base.clone() });
        let (stts, stsc) = (vec![(19, 10)], vec![(1, 1, 2), (2, 3, 1), (5, 1, 1), (11, 1, 2), (12, 2, 1)]);
        self.put(0, "last-entry-for-one-chunk", Track { stts, stsc, stsz: each(19), ..base.clone() });
        let (stts, stsc, stco) = (vec![(8, 10)], vec![(1, 2, 1)], vec![10, 20, 30, 40]);
        self.put(0, "last-chunk-ends-last", Track { stts, stsc, stsz: each(8), stco, ..w_track() });
        let (stts, stsc, stco) = (vec![(4, 10)], vec![(1, 1, 2)], vec![10, 20, 30, 40]);
        self.put(0, "id-above-the-samples-of-a-chunk", Track { stts, stsc, stsz: each(4), stco, ..base.clone() });
        self.put(0, "chunks-of-one-offset", Track { stco: vec![7, 7], ..w_track() });
    }

    fn wrong_runs(&mut self) {
        let stts = |stts: &[(u32, u32)]| Track { stts: stts.to_vec(), ..w_track() };
        self.put(9, "stts-entry-counts-0", stts(&[(3, 24), (0, 7), (1, 48)]));
        self.put(9, "stts-last-entry-counts-0", stts(&[(4, 24), (0, 7)]));
        self.put(9, "stts-counts-3-of-4", stts(&[(3, 24)]));
        self.put(9, "stts-counts-5-of-4", stts(&[(3, 24), (2, 48)]));
        self.put(9, "stts-counts-2-32-and-4", stts(&[(4294967295, 24), (5, 48)]));
        self.put(9, "stts-empty", stts(&[]));
        self.put(9, "ctts-entry-counts-0", shifted(&[(0, 7), (4, -1)]));
        self.put(9, "ctts-counts-3-of-4", shifted(&[(2, 7), (1, -1)]));
        self.put(9, "ctts-counts-5-of-4", shifted(&[(2, 7), (3, -1)]));
        self.put(9, "ctts-empty", shifted(&[]));
    }

    fn wrong_deals(&mut self) {
        self.put(9, "stsc-not-rising", dealt(&[(1, 3, 1), (1, 1, 1)]));
        self.put(9, "stsc-falling", Track { stco: vec![1, 2, 3], ..dealt(&[(1, 2, 1), (3, 1, 1), (2, 1, 1)]) });
        self.put(9, "stsc-passes-c", dealt(&[(1, 2, 1), (3, 1, 1)]));
        self.put(9, "stsc-starts-at-0", dealt(&[(0, 3, 1), (2, 1, 1)]));
        self.put(9, "stsc-starts-at-2", dealt(&[(2, 4, 1)]));
        self.put(9, "stsc-id-0", dealt(&[(1, 3, 1), (2, 1, 0)]));
        self.put(9, "stsc-id-2-of-1", dealt(&[(1, 3, 2), (2, 1, 1)]));
        self.put(9, "stsc-0-samples-in-a-chunk", dealt(&[(1, 4, 1), (2, 0, 1)]));
        self.put(9, "stsc-empty", dealt(&[]));
        self.put(9, "stsc-without-chunks", Track { stco: vec![], ..w_track() });
        self.put(9, "samples-without-chunks", Track { stco: vec![], ..dealt(&[]) });
        self.put(9, "dealt-3-of-4", dealt(&[(1, 2, 1), (2, 1, 1)]));
        self.put(9, "dealt-5-of-4", dealt(&[(1, 3, 1), (2, 2, 1)]));
        self.put(9, "dealt-4294967295", dealt(&[(1, 2147483648, 1), (2, 2147483647, 1)]));
        self.put(9, "dealt-4294967296", dealt(&[(1, 2147483648, 1)]));
        self.put(9, "dealt-2-32-and-4", dealt(&[(1, 4294967295, 1), (2, 5, 1)]));
    }

    fn wrong_syncs(&mut self) {
        self.put(9, "stss-not-rising", synced(&[1, 3, 3]));
        self.put(9, "stss-falling", synced(&[3, 2]));
        self.put(9, "stss-0", synced(&[0, 2]));
        self.put(9, "stss-5-of-4", synced(&[2, 5]));
    }

    fn edits(&mut self) {
        self.put(0, "edits", edited(&[(60, -1), (60, 24)]));
        self.put(0, "edits-media-time-60", edited(&[(60, -1), (60, 60)]));
        self.put(13, "edits-media-time-61", edited(&[(60, -1), (60, 61)]));
        self.put(13, "edits-media-time-minus-2", edited(&[(60, -2), (60, 24)]));
        self.put(13, "edits-media-time-least", edited(&[(60, -2147483648)]));
        self.put(13, "edits-media-time-largest", edited(&[(1, 2147483647)]));
        self.put(13, "edits-duration-0", edited(&[(60, -1), (0, 24)]));
        self.put(13, "edits-duration-0-without-media", edited(&[(0, -1), (60, 24)]));
        let rate = |rate| Track { edits: Some(vec![(60, -1, 65536), (60, 24, rate)]), ..w_track() };
        self.put(13, "edits-rate-0", rate(0));
        self.put(13, "edits-rate-65537", rate(65537));
        self.put(13, "edits-none", edited(&[]));
        self.put(0, "edits-of-the-whole-twice", edited(&[(120, 0), (1, -1), (120, 0)]));
    }

    /// Media scales other than the movie's.
    fn scales(&mut self) {
        let scaled = |edits: &[(u32, i32)], scale| Track { scale, ..edited(edits) };
        let with = |number, name, movie, track| Set { number, name, movie, track, bare: false };
        self.list.push(with(0, "scale-of-three-fifths", 1000, scaled(&[(2, 118), (200, 0)], 600)));
        self.list.push(with(13, "scale-of-three-fifths-one-longer", 1000, scaled(&[(201, 0)], 600)));
        self.list.push(with(0, "scale-of-seven-halves", 2, scaled(&[(1, -1), (3, 1), (35, 0)], 7)));
        self.list.push(with(0, "scale-without-edits", 7, Track { scale: 3, ..w_track() }));
        self.list.push(with(13, "scale-largest", 1, scaled(&[(4294967295, 2147483647)], 4294967295)));
        self.list.push(with(0, "scale-largest-without-edits", 4294967295, Track { scale: 4294967295, ..w_track() }));
    }
}
