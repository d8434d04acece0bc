//! The questions put to a set and their answers, from the tables written out. Of tables that contradict each other only that is asked, and of
//! edits that are refused no media time: document 01 says nothing else of them.
use crate::lists::*;
use crate::rules::*;
use reference::film::{atom, Node, Track};

/// A line: the number of the question, the numbers that belong to the whole line, those of the answers, and the text.
pub struct Line {
    question: u32,
    head: [u32; 3],
    numbers: Vec<u32>,
    pub text: String,
}

impl Line {
    /// The atom that puts the question.
    pub fn node(&self) -> Node {
        let mut numbers = vec![self.question];
        numbers.extend(self.head);
        numbers.extend(&self.numbers);
        atom("asks", &numbers.iter().flat_map(|n| n.to_be_bytes()).collect::<Vec<u8>>())
    }
}

/// The lines of a set, as they are made.
pub struct Lines<'a> {
    track: &'a Track,
    movie: u32,
    pub list: Vec<Line>,
}

/// Those that fit 32 bits, in order, none twice.
fn in_order(numbers: &[u64]) -> Vec<u32> {
    let mut kept: Vec<u32> = numbers.iter().filter_map(|n| u32::try_from(*n).ok()).collect();
    kept.sort_unstable();
    kept.dedup();
    kept
}

/// A number, that before it and that after it.
fn around(n: u64) -> Vec<u64> {
    (n.saturating_sub(1)..=n + 1).collect()
}

fn truth(b: bool) -> String {
    if b { "yes" } else { "no" }.to_string()
}

fn total(sum: u64) -> String {
    if sum > 4_294_967_295 {
        "over".to_string()
    } else {
        sum.to_string()
    }
}

fn numbered(name: &str, numbers: &[u32], answer: impl Fn(u64) -> String) -> String {
    let each: Vec<String> = numbers.iter().map(|n| format!(" {n}:{}", answer(u64::from(*n)))).collect();
    format!("  {name}{}", each.concat())
}

fn at<T: Copy>(list: &[T], index: u64) -> Option<T> {
    list.get(usize::try_from(index).unwrap()).copied()
}

impl<'a> Lines<'a> {
    pub fn new(track: &'a Track, movie: u32) -> Lines<'a> {
        let mut lines = Lines { track, movie, list: Vec::new() };
        lines.agreement();
        if !contradict(track) {
            lines.times();
            lines.samples();
            lines.chunks();
            lines.edits();
        }
        lines
    }

    fn put(&mut self, question: u32, head: [u32; 3], name: &str, asked: &[u64], answer: impl Fn(u64) -> String) {
        let numbers = in_order(asked);
        let text = numbered(name, &numbers, answer);
        self.list.push(Line { question, head, numbers, text });
    }

    fn n(&self) -> u64 {
        long(sizes(self.track).len())
    }

    /// Sample indices.
    fn indices(&self) -> Vec<u64> {
        let n = self.n();
        vec![0, 1, 2, 3, n.saturating_sub(1), n, 4_294_967_295]
    }

    /// Whether the tables agree.
    fn agreement(&mut self) {
        let (track, n) = (self.track, self.n());
        self.put(1, [0; 3], "counts in stts", &around(n), |n| truth(counts(&stts_counts(track), n)));
        if let Some(each) = ctts_counts(track) {
            self.put(2, [0; 3], "counts in ctts", &around(n), |n| truth(counts(&each, n)));
        }
        self.put(9, [0; 3], "syncs_agree", &around(n), |n| truth(syncs_agree(track, n)));
        let descriptions = long(track.descriptions.len());
        let samples = if deals_agree(track, descriptions) { dealt(track) } else { n };
        let head = |n| [u32::try_from(n).unwrap_or(u32::MAX), 0, 0];
        let name = format!("deals_samples samples {}", head(samples)[0]);
        self.put(11, head(samples), &name, &around(descriptions), |n| {
            truth(deals_samples(track, n, u64::from(head(samples)[0])))
        });
        let name = format!("deals_samples descriptions {descriptions}");
        self.put(12, head(descriptions), &name, &around(samples), |n| truth(deals_samples(track, descriptions, n)));
    }

    /// Media times: for a small table the start of each sample and the time before it.
    fn media_times(&self) -> Vec<u64> {
        let (durations, mut times) = (durations(self.track), starts(self.track));
        times.truncate(12);
        times.push(durations.iter().sum());
        let before: Vec<u64> = times.iter().filter_map(|t| t.checked_sub(1)).collect();
        times.extend(before);
        times.extend([0, 4_294_967_295]);
        times
    }

    /// Of stts and ctts.
    fn times(&mut self) {
        let (durations, starts, shifts) = (durations(self.track), starts(self.track), shifts(self.track));
        let sum: u64 = durations.iter().sum();
        let least = durations.iter().filter(|d| **d > 0).min().unwrap_or(&0);
        let bytes: u64 = sizes(self.track).iter().sum();
        let name = format!("total_duration {}, least_duration {least}, all_bytes {bytes}", total(sum));
        self.put(3, [0; 3], &name, &[], |_| String::new());
        let indices = self.indices();
        // past the last sample the sum of all durations, and 0
        let timing = |i| format!("{}+{}", at(&starts, i).unwrap_or(sum), at(&durations, i).unwrap_or(0));
        self.put(4, [0; 3], "timing_of", &indices, timing);
        // "the n with decode time ≤ t < decode time plus duration"
        let held = |t: u64| (0..starts.len()).find(|i| starts[*i] <= t && t < starts[*i] + durations[*i]);
        let found = |t| held(t).map_or("outside".to_string(), |i| i.to_string());
        self.put(5, [0; 3], "sample_at", &self.media_times(), found);
        // "signed offset, 0 without ctts"
        self.put(6, [0; 3], "composition_offset", &indices, |i| at(&shifts, i).unwrap_or(0).to_string());
    }

    /// Of stsz and stss.
    fn samples(&mut self) {
        let (track, sizes, indices, n) = (self.track, sizes(self.track), self.indices(), self.n());
        self.put(7, [0; 3], "size_of", &indices, |i| at(&sizes, i).unwrap_or(0).to_string());
        for from in [0, 2] {
            let between = |to: u64| (u64::from(from)..to.min(n)).map(|i| at(&sizes, i).unwrap()).sum::<u64>();
            let name = format!("bytes_between from {from}");
            self.put(8, [from, 0, 0], &name, &indices, |to| between(to).to_string());
        }
        // "whether sync (all are, without stss)"
        let sync = |i: u64| track.stss.as_ref().is_none_or(|stss| stss.iter().any(|number| u64::from(*number) == i));
        let numbers: Vec<u64> = [1, 2, 3, 4, 5, n].into_iter().filter(|i| 1 <= *i && *i <= n).collect();
        self.put(10, [0; 3], "is_sync", &numbers, |i| truth(sync(i)));
    }

    /// Of stsc, stsz and stco.
    fn chunks(&mut self) {
        let (track, places, indices, n) = (self.track, places(self.track), self.indices(), self.n());
        let c = long(track.stco.len());
        // past the last sample one past the last chunk, and what the index has over
        let past = |i: u64| Place { chunk: c, within: i - n, description: 0, offset: 0 };
        let place = |i| at(&places, i).unwrap_or_else(|| past(i));
        let located = |i| format!("{}/{}/{}", place(i).chunk, place(i).within, place(i).description);
        self.put(13, [0; 3], "locate", &indices, located);
        self.put(14, [0; 3], "located_offset", &indices, |i| place(i).offset.to_string());
        let offsets = [0, 1, c.saturating_sub(1), c, 4_294_967_295];
        self.put(15, [0; 3], "chunk_offset", &offsets, |i| at(&track.stco, i).unwrap_or(0).to_string());
        let ends = ends(track);
        let last = ends.iter().max().copied().unwrap_or(0);
        let limits = [0, last.saturating_sub(1), last, 4_294_967_295];
        let within = |limit: u64| ends.iter().all(|end| *end <= limit);
        self.put(16, [0; 3], "chunks_end_within", &limits, |limit| truth(within(limit)));
    }

    /// Of elst.
    fn edits(&mut self) {
        let (track, movie) = (self.track, self.movie);
        let edits = track.edits.clone().unwrap_or_default();
        let sum = *edit_starts(&edits).last().unwrap();
        self.put(17, [0; 3], &format!("edits_total {}", total(sum)), &[], |_| String::new());
        let all: u64 = durations(track).iter().sum();
        let Ok(media) = u32::try_from(all) else {
            return;
        };
        let scales = format!("scale {} movie {movie}", track.scale);
        let ok = |total| truth(edits_ok(track, movie, total));
        self.put(18, [track.scale, movie, 0], &format!("edits_ok {scales}"), &around(all), ok);
        if sum > 4_294_967_295 || !edits_ok(track, movie, all) {
            return;
        }
        let mut times = edit_starts(&edits);
        times.extend([0, 1, 59, 60, all.saturating_sub(1), all, 4_294_967_295]);
        let before: Vec<u64> = times.iter().filter_map(|t| t.checked_sub(1)).collect();
        times.extend(before);
        let name = format!("media_at {scales} total {all}");
        self.put(19, [track.scale, movie, media], &name, &times, |t| shown(track, movie, all, t));
    }
}

/// "Movie time t to media time", in edits that are not refused.
fn shown(track: &Track, movie: u32, total: u64, t: u64) -> String {
    let Some(edits) = &track.edits else {
        // "Without an edit list the media starts at 0. Refused 15 ... where the media time isn't below the media total."
        let media = in_media(t, track.scale, movie);
        return if media < u128::from(total) { media.to_string() } else { "outside".to_string() };
    };
    for (start, (duration, media, _)) in edit_starts(edits).iter().zip(edits) {
        if *start <= t && t < start + u64::from(*duration) {
            // "nothing shown if its media time is -1, else that plus floor((t-S) × media scale / movie scale)"
            return match u128::try_from(*media) {
                Ok(m) => (m + in_media(t - start, track.scale, movie)).to_string(),
                Err(_) => "nothing".to_string(),
            };
        }
    }
    // "Refused 15 at or past the last entry's end"
    "outside".to_string()
}
