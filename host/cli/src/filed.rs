//! Film time that is filed: stretches of a track's media time put together, with the gaps and overlaps that they leave.
use chaldoref::MediaTime;
use std::ops::Range;

/// What some stretches file of a track.
#[derive(Debug, PartialEq)]
pub struct Filed {
    /// The film time that is in one of them at least, counted once.
    pub units: u32,
    /// What is in none of them, from 0 up to the track's total.
    pub gaps: Vec<Range<MediaTime>>,
    /// What is in more than one of them.
    pub overlaps: Vec<Range<MediaTime>>,
}

impl Filed {
    /// The stretches may come in any order. None is empty, and none ends past the total.
    pub fn of(mut stretches: Vec<Range<MediaTime>>, total: MediaTime) -> Filed {
        stretches.sort_by_key(|stretch| stretch.start);
        let mut filed = Filed { units: 0, gaps: Vec::new(), overlaps: Vec::new() };
        // All before it is accounted for.
        let mut reached = MediaTime(0);
        for stretch in stretches {
            filed.add(stretch.clone(), reached);
            reached = reached.max(stretch.end);
        }
        if reached < total {
            filed.gaps.push(reached..total);
        }
        filed
    }

    /// Adds a stretch that starts no earlier than any added before. The one of these that ends last, ends there.
    fn add(&mut self, stretch: Range<MediaTime>, reached: MediaTime) {
        if reached < stretch.start {
            self.gaps.push(reached..stretch.start);
        }
        if stretch.start < reached {
            self.overlap(stretch.start..stretch.end.min(reached));
        }
        self.units += stretch.end.0.saturating_sub(stretch.start.max(reached).0);
    }

    /// Adds an overlap, or makes the last one longer where they meet.
    fn overlap(&mut self, time: Range<MediaTime>) {
        match self.overlaps.last_mut() {
            Some(last) if time.start <= last.end => last.end = last.end.max(time.end),
            _ => self.overlaps.push(time),
        }
    }

    /// Whether the whole of the track is filed, and all of it once.
    pub fn adds_up(&self) -> bool {
        self.gaps.is_empty() && self.overlaps.is_empty()
    }
}

#[cfg(test)]
mod tests {
    use super::*;

    type Times<'a> = &'a [(u32, u32)];

    fn ranges(times: Times) -> Vec<Range<MediaTime>> {
        times.iter().map(|(a, b)| MediaTime(*a)..MediaTime(*b)).collect()
    }

    #[track_caller]
    fn files(stretches: Times, total: u32, units: u32, gaps: Times, overlaps: Times) {
        let expected = Filed { units, gaps: ranges(gaps), overlaps: ranges(overlaps) };
        let filed = Filed::of(ranges(stretches), MediaTime(total));
        assert_eq!(filed, expected, "{stretches:?}");
        assert_eq!(filed.adds_up(), gaps.is_empty() && overlaps.is_empty());
    }

    #[test]
    fn the_whole() {
        files(&[(0, 9)], 9, 9, &[], &[]);
        files(&[(0, 4), (4, 9)], 9, 9, &[], &[]);
        files(&[(8, 9), (0, 4), (4, 8)], 9, 9, &[], &[]);
        files(&[(0, u32::MAX)], u32::MAX, u32::MAX, &[], &[]);
        files(&[], 0, 0, &[], &[]);
    }

    #[test]
    fn gaps() {
        files(&[], 9, 0, &[(0, 9)], &[]);
        files(&[(2, 4), (5, 8)], 9, 5, &[(0, 2), (4, 5), (8, 9)], &[]);
        files(&[(u32::MAX - 1, u32::MAX)], u32::MAX, 1, &[(0, u32::MAX - 1)], &[]);
    }

    #[test]
    fn overlaps() {
        files(&[(0, 5), (4, 9)], 9, 9, &[], &[(4, 5)]);
        // The same twice, and three times.
        files(&[(0, 9), (0, 9)], 9, 9, &[], &[(0, 9)]);
        files(&[(0, 9), (0, 9), (0, 9)], 9, 9, &[], &[(0, 9)]);
        // One inside another, after which the outer one still lasts.
        files(&[(0, 9), (2, 3), (5, 7)], 9, 9, &[], &[(2, 3), (5, 7)]);
        // Overlaps that meet are one.
        files(&[(0, 5), (4, 9), (5, 6)], 9, 9, &[], &[(4, 6)]);
        files(&[(0, 4), (3, 6), (8, 9)], 9, 7, &[(6, 8)], &[(3, 4)]);
        files(&[(0, u32::MAX), (0, u32::MAX)], u32::MAX, u32::MAX, &[], &[(0, u32::MAX)]);
    }

    /// The runs of places at which so many stretches lie as are wanted.
    fn runs(counts: &[usize], wanted: impl Fn(usize) -> bool) -> Vec<Range<MediaTime>> {
        let place = |i: usize| MediaTime(u32::try_from(i).unwrap());
        let mut runs: Vec<Range<MediaTime>> = Vec::new();
        for i in (0..counts.len()).filter(|i| wanted(counts[*i])) {
            match runs.last_mut() {
                Some(last) if last.end == place(i) => last.end = place(i + 1),
                _ => runs.push(place(i)..place(i + 1)),
            }
        }
        runs
    }

    #[track_caller]
    fn as_counted(stretches: Times, total: u32) {
        let within = |t: u32| stretches.iter().filter(|(a, b)| (*a..*b).contains(&t)).count();
        let counts: Vec<usize> = (0..total).map(within).collect();
        let expected = Filed {
            units: u32::try_from(counts.iter().filter(|count| **count > 0).count()).unwrap(),
            gaps: runs(&counts, |count| count == 0),
            overlaps: runs(&counts, |count| count > 1),
        };
        assert_eq!(Filed::of(ranges(stretches), MediaTime(total)), expected, "{stretches:?}");
    }

    /// Every three stretches, in every order, in a track of six units.
    #[test]
    fn as_counted_unit_by_unit() {
        const TOTAL: u32 = 6;
        let all: Vec<(u32, u32)> = (0..TOTAL).flat_map(|a| (a + 1..=TOTAL).map(move |b| (a, b))).collect();
        for one in &all {
            for two in &all {
                as_counted(&[*one, *two], TOTAL);
                for three in &all {
                    as_counted(&[*one, *two, *three], TOTAL);
                }
            }
        }
    }
}
