//! Sample tables that agree with each other. Offsets of chunks are 0 until the film is laid out.
use super::random::Random;
use crate::film::*;

/// The bytes of a track's samples stay near this, so that films stay small.
const BYTES_OF_A_TRACK: u32 = 3000;

const SCALES: [u32; 12] = [1, 2, 3, 24, 25, 600, 600, 1000, 30_000, 44_100, 1 << 31, u32::MAX];

pub fn scale(random: &mut Random) -> u32 {
    if random.once_in(8) {
        random.number().max(1)
    } else {
        random.one(&SCALES)
    }
}

/// A time scale that a run of samples just reaches, or just doesn't: the total of some durations, or one less or more.
fn scale_of_a_run(random: &mut Random, durations: &[u32]) -> u32 {
    let first = random.below(durations.len());
    let samples = 1 + random.below(durations.len() - first);
    let total: u32 = durations[first..first + samples].iter().sum();
    random.one(&[total.saturating_sub(1), total, total, total.saturating_add(1)]).max(1)
}

/// How many samples a track has.
pub fn sample_count(random: &mut Random) -> usize {
    match random.below(100) {
        0..=7 => 0,
        8..=61 => 1 + random.below(5),
        62..=91 => 6 + random.below(25),
        92..=98 => 31 + random.below(270),
        _ => 300 + random.below(3000),
    }
}

pub fn count(n: usize) -> u32 {
    u32::try_from(n).unwrap()
}

/// How many samples each chunk has.
pub fn deal(random: &mut Random, samples: usize) -> Vec<u32> {
    let most = random.one(&[1, 2, 3, 3, 5, 17, samples.max(1)]);
    let even = random.once_in(2);
    let mut left = samples;
    let mut dealt = Vec::new();
    while left > 0 {
        let next = if even { most } else { 1 + random.below(most) }.min(left);
        dealt.push(count(next));
        left -= next;
    }
    dealt
}

/// A value for each sample as entries of a count and a value: one entry a sample, runs as long as they can be, or something between.
pub fn entries<T: Copy + PartialEq>(random: &mut Random, each: &[T]) -> Vec<(u32, T)> {
    let joined_of_four = random.one(&[0, 2, 4]);
    let mut entries: Vec<(u32, T)> = Vec::new();
    for value in each {
        match entries.last_mut() {
            Some((count, last)) if last == value && random.below(4) < joined_of_four => *count += 1,
            _ => entries.push((1, *value)),
        }
    }
    entries
}

/// The stsc entries of chunks with so many samples each: as few as can be, or more than are needed. They use descriptions up to that number.
fn stsc_entries(random: &mut Random, dealt: &[u32], descriptions: usize) -> Vec<(u32, u32, u32)> {
    let change_of_four = random.one(&[0, 0, 1, 4]);
    let mut entries: Vec<(u32, u32, u32)> = Vec::new();
    for (i, samples) in dealt.iter().enumerate() {
        let goes_on = entries.last().is_some_and(|last| last.1 == *samples) && random.below(4) >= change_of_four;
        if !goes_on {
            entries.push((count(i) + 1, *samples, 1 + count(random.below(descriptions))));
        }
    }
    entries
}

/// Makes some durations 0: at the beginning, at the end, in the middle, a whole chunk, or all.
fn zero_some(random: &mut Random, durations: &mut [u32], dealt: &[u32]) {
    if durations.is_empty() {
        return;
    }
    let n = durations.len();
    let some = 1 + random.below(n.min(4));
    let (begin, end) = match random.below(10) {
        0 => (0, some),
        1 => (n - some, n),
        2 => {
            let begin = random.below(n);
            (begin, (begin + some).min(n))
        }
        3 => {
            let chunk = random.below(dealt.len());
            let before: u32 = dealt[..chunk].iter().sum();
            let begin = usize::try_from(before).unwrap();
            (begin, begin + usize::try_from(dealt[chunk]).unwrap())
        }
        4 if random.once_in(3) => (0, n),
        _ => (0, 0),
    };
    durations[begin..end].fill(0);
}

/// One duration for each sample; they total 4,294,967,295 at most, and sometimes just that or one less.
fn durations(random: &mut Random, dealt: &[u32]) -> Vec<u32> {
    let n: u32 = dealt.iter().sum();
    let most = random.one(&[1, 3, 24, 100, 3000, u32::MAX / n.max(1)]);
    let same = random.up_to(most).max(1);
    let is_same = random.once_in(3);
    let mut each: Vec<u32> = (0..n).map(|_| if is_same { same } else { random.up_to(most) }).collect();
    zero_some(random, &mut each, dealt);
    if n > 0 && random.once_in(12) {
        let total: u32 = each.iter().sum();
        let place = random.below(each.len());
        each[place] += (u32::MAX - total).saturating_sub(random.up_to(1));
    }
    each
}

fn sizes(random: &mut Random, samples: usize) -> Sizes {
    let most = BYTES_OF_A_TRACK / count(samples.max(1));
    if random.once_in(4) {
        return Sizes::Common(1 + random.up_to(most), count(samples));
    }
    let most = random.one(&[0, 1, 9, most, most]);
    let zeros_of_four = random.one(&[0, 1, 3]);
    let size = |_| if random.below(4) < zeros_of_four { 0 } else { random.up_to(most) };
    Sizes::Each((0..samples).map(size).collect())
}

fn shift(random: &mut Random) -> i32 {
    let small = i32::try_from(random.below(2001)).unwrap() - 1000;
    random.one(&[0, 1, -1, small, small, i32::MIN, i32::MAX])
}

fn ctts_entries(random: &mut Random, samples: usize) -> Option<Vec<(u32, i32)>> {
    if random.once_in(2) {
        return None;
    }
    let few = [shift(random), shift(random)];
    let each: Vec<i32> = (0..samples).map(|_| random.one(&few)).collect();
    Some(entries(random, &each))
}

fn sync_samples(random: &mut Random, samples: usize) -> Option<Vec<u32>> {
    let kept_of_four = match random.below(6) {
        0..=2 => return None,
        3 => random.one(&[0, 4]),
        _ => 1,
    };
    Some((1..=count(samples)).filter(|_| random.below(4) < kept_of_four).collect())
}

/// A description of at least the least size for that subtype.
pub fn described(random: &mut Random, subtype: &[u8; 4]) -> Vec<u8> {
    let more = random.one(&[0, 0, 1, 50]);
    if subtype != b"vide" {
        return description(b"twos", random.one(&[16, 35, 36]) + more);
    }
    let mut bytes = description(b"jpeg", 36 + more);
    for place in [32, 34] {
        let length = u16::try_from(random.one(&[0, 1, 240, 320, 65_535])).unwrap();
        bytes[place..place + 2].copy_from_slice(&length.to_be_bytes());
    }
    bytes
}

fn descriptions(random: &mut Random, subtype: &[u8; 4], samples: usize) -> Vec<Vec<u8>> {
    let least = usize::from(samples > 0);
    let many = if random.once_in(40) { 64 } else { 3 };
    let number = random.one(&[least, 1, 1, 1, 2, many]);
    (0..number).map(|_| described(random, subtype)).collect()
}

/// Data references, of which the first means this file. Other flags and the version play no part, nor does what follows.
fn references(random: &mut Random) -> Vec<Vec<u8>> {
    let many = if random.once_in(40) { 64 } else { 3 };
    let number = random.one(&[1, 1, 1, 2, many]);
    (0..number)
        .map(|i| {
            let flags = if i == 0 { random.number() | 1 } else { random.number() };
            let length = random.one(&[0, 0, 1, 30]);
            let rest = random.bytes(length);
            reference(random.one(&[b"alis", b"url ", b"rsrc", &[0; 4]]), flags, &rest)
        })
        .collect()
}

/// Gives each description an index of a reference to this file.
fn refer(random: &mut Random, descriptions: &mut [Vec<u8>], references: &[Vec<u8>]) {
    let here: Vec<usize> = (0..references.len()).filter(|i| references[*i][11] % 2 == 1).collect();
    for bytes in descriptions {
        let index = u16::try_from(random.one(&here) + 1).unwrap();
        bytes[14..16].copy_from_slice(&index.to_be_bytes());
    }
}

fn subtype(random: &mut Random) -> [u8; 4] {
    random.one(&[*b"vide", *b"vide", *b"vide", *b"soun", *b"soun", *b"text", *b"VIDE", [0; 4]])
}

/// A track of so many samples without edits and profile.
pub fn track_of(random: &mut Random, id: u32, samples: usize) -> Track {
    let subtype = subtype(random);
    let references = references(random);
    let mut descriptions = descriptions(random, &subtype, samples);
    refer(random, &mut descriptions, &references);
    let dealt = deal(random, samples);
    let durations = durations(random, &dealt);
    let by_a_run = !durations.is_empty() && random.once_in(3);
    Track {
        id,
        subtype,
        scale: if by_a_run { scale_of_a_run(random, &durations) } else { scale(random) },
        duration: durations.iter().sum(),
        stts: entries(random, &durations),
        ctts: ctts_entries(random, samples),
        stsc: stsc_entries(random, &dealt, descriptions.len()),
        stsz: sizes(random, samples),
        stco: vec![0; dealt.len()],
        stss: sync_samples(random, samples),
        descriptions,
        references,
        edits: None,
        profile: None,
    }
}

/// The sizes of a track's samples.
pub fn each_size(track: &Track) -> Vec<u64> {
    match &track.stsz {
        Sizes::Common(size, n) => vec![u64::from(*size); usize::try_from(*n).unwrap()],
        Sizes::Each(sizes) => sizes.iter().map(|size| u64::from(*size)).collect(),
    }
}

/// How many bytes each chunk of a track has whose tables agree.
pub fn chunk_bytes(track: &Track) -> Vec<u64> {
    let sizes = each_size(track);
    let ends = track.stsc.iter().skip(1).map(|next| next.0).chain([count(track.stco.len()) + 1]);
    let mut bytes = Vec::new();
    let mut begin = 0;
    for ((first, samples, _), past) in track.stsc.iter().zip(ends) {
        for _ in *first..past {
            let end = begin + usize::try_from(*samples).unwrap();
            bytes.push(sizes[begin..end].iter().sum());
            begin = end;
        }
    }
    bytes
}
