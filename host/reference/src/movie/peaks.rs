//! Document 02, "Highest rate over a second": the runs of a track, their rates, and the first run that has the greatest.
use super::features::quotient;
use super::tables::Track;
use std::ops::Range;

/// The run with the greatest rate: the number of its first sample, from 1, how many samples it has, and its rate.
#[derive(Clone, Copy, Debug, PartialEq)]
pub struct Peak {
    pub first: u64,
    pub samples: u64,
    pub rate: u32,
}

/// The durations or the sizes of the first 0, 1, 2 .. samples, added.
fn sums(numbers: impl Iterator<Item = u64>) -> Vec<u64> {
    let mut sums = vec![0];
    for n in numbers {
        sums.push(sums[sums.len() - 1] + n);
    }
    sums
}

/// "take the shortest run starting there whose durations total at least the time scale". Longer runs total no less, so that the shortest is found
/// by halving; one after another would take hours where a million samples last a second.
fn shortest_run(durations: &[u64], first: usize, scale: u64) -> Option<Range<usize>> {
    let past = durations.partition_point(|sum| *sum < durations[first] + scale);
    (past < durations.len()).then_some(first..past)
}

/// "For each sample ... Runs that never get there are left out; if no run gets there, the whole track is the only run."
fn runs(durations: &[u64], samples: usize, scale: u64) -> Vec<Range<usize>> {
    let mut runs: Vec<Range<usize>> = (0..samples).filter_map(|first| shortest_run(durations, first, scale)).collect();
    if runs.is_empty() {
        runs.push(0..samples);
    }
    runs
}

/// "The rate of a run is 8 × its sizes × scale / its durations, rounded up, and the feature is the greatest." Nothing where a run's rate cannot be
/// computed: "18 on the grounds 01 has for the averages, judged for any run".
pub fn peak(track: &Track) -> Option<Peak> {
    let scale = track.tables.scale;
    let durations = sums(track.samples.iter().map(|sample| sample.duration));
    let sizes = sums(track.samples.iter().map(|sample| sample.size));
    let total = |sums: &[u64], run: &Range<usize>| sums[run.end] - sums[run.start];
    let mut peak: Option<Peak> = None;
    for run in runs(&durations, track.samples.len(), scale) {
        let bits = 8 * u128::from(total(&sizes, &run)) * u128::from(scale);
        let rate = quotient(bits, Some(total(&durations, &run)))?;
        if peak.is_none_or(|peak| rate > peak.rate) {
            let [first, samples] = [run.start + 1, run.len()].map(|n| u64::try_from(n).unwrap());
            peak = Some(Peak { first, samples, rate });
        }
    }
    peak
}
