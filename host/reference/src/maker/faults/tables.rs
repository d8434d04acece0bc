//! Tables just across the rules of refusals 5 to 11, 13 and 19, or just not: each function takes both sides, and the reference says which it was.
use crate::film::*;
use crate::made::empty_track;
use crate::maker::edits::{longest, RATE};
use crate::maker::random::Random;
use crate::maker::tables::{count, described, each_size};

type Fault = fn(&mut Random, &mut Movie);

const FAULTS: [Fault; 22] = [
    tracks,
    samples,
    edit_count,
    descriptions,
    description_sizes,
    reference_count,
    reference_sizes,
    reference_indices,
    record_count,
    ids,
    scales,
    duration_counts,
    shift_counts,
    chunk_runs,
    chunk_runs,
    chunk_count,
    size_count,
    sync_samples,
    total,
    edit_total,
    stored_duration,
    edit_list,
];

/// Spoils the tables of a movie in one place, or nearly so.
pub fn spoil(random: &mut Random, movie: &mut Movie) {
    if movie.tracks.is_empty() {
        movie.tracks.push(empty_track(1));
    }
    let fault = random.one(&FAULTS);
    fault(random, movie);
}

fn any_track<'a>(random: &mut Random, movie: &'a mut Movie) -> &'a mut Track {
    let place = random.below(movie.tracks.len());
    &mut movie.tracks[place]
}

/// "over 16 tracks"
fn tracks(random: &mut Random, movie: &mut Movie) {
    let number = random.one(&[16, 17]);
    let taken: Vec<u32> = movie.tracks.iter().map(|track| track.id).collect();
    for id in (1..).filter(|id| !taken.contains(id)).take(number - movie.tracks.len().min(number)) {
        movie.tracks.push(empty_track(id));
    }
}

/// "over 1,048,576 samples", by the stored count; that many are made seldom, since they are written out before another rule refuses them.
fn samples(random: &mut Random, movie: &mut Movie) {
    let number = if random.once_in(20) { 1_048_576 } else { 1_048_577 };
    any_track(random, movie).stsz = Sizes::Common(random.one(&[1, u32::MAX]), number);
}

/// "256 edits"
fn edit_count(random: &mut Random, movie: &mut Movie) {
    any_track(random, movie).edits = Some(vec![(random.up_to(2), -1, RATE); random.one(&[0, 255, 256, 257])]);
}

/// "64 descriptions"
fn descriptions(random: &mut Random, movie: &mut Movie) {
    let track = any_track(random, movie);
    let number = random.one(&[64, 65]);
    while track.descriptions.len() < number {
        track.descriptions.push(described(random, &track.subtype));
    }
}

/// "each: size (at least 16)"; "In a track of subtype 'vide' a description is at least 36 bytes (else refused 5)"
fn description_sizes(random: &mut Random, movie: &mut Movie) {
    let track = any_track(random, movie);
    let place = random.below(track.descriptions.len() + 1);
    track.descriptions.insert(place, description(b"jpeg", random.one(&[8, 15, 15, 16, 35, 35, 36])));
}

/// "6 over 64 references"
fn reference_count(random: &mut Random, movie: &mut Movie) {
    let number = random.one(&[64, 65]);
    any_track(random, movie).references.resize(number, this_file());
}

/// "entries of size at least 12": one more, of a size just too small or just enough
fn reference_sizes(random: &mut Random, movie: &mut Movie) {
    let size = random.one(&[8, 11, 11, 12, 13]);
    let mut bytes = this_file();
    bytes.resize(size, 0);
    bytes[..4].copy_from_slice(&count(size).to_be_bytes());
    any_track(random, movie).references.push(bytes);
}

/// "data elsewhere or no such entry": an index just past the last or 0, a reference without the lowest flag bit, or none at all. Another fault may have
/// left no reference, or cut one or a description short.
fn reference_indices(random: &mut Random, movie: &mut Movie) {
    let track = any_track(random, movie);
    let number = track.references.len();
    match random.below(4) {
        0 => track.references.clear(),
        1 if number > 0 => {
            let place = random.below(number);
            let flags = random.one(&[0, 1, 2, 254, 255]);
            // Another fault may have cut it short.
            track.references[place].get_mut(11).into_iter().for_each(|byte| *byte = flags);
        }
        _ => {
            let index = u16::try_from(random.one(&[0, number, number + 1, 256, 65_535])).unwrap();
            if let Some(field) = track.descriptions.last_mut().and_then(|last| last.get_mut(14..16)) {
                field.copy_from_slice(&index.to_be_bytes());
            }
        }
    }
}

/// "in one profile over 64 records"
fn record_count(random: &mut Random, movie: &mut Movie) {
    let records = Some(vec![[0, 1, random.up_to(1), 3]; random.one(&[64, 65])]);
    if random.once_in(2) {
        movie.profile = records;
    } else {
        any_track(random, movie).profile = records;
    }
}

/// "a track ID is 0 or occurs twice"
fn ids(random: &mut Random, movie: &mut Movie) {
    let id = any_track(random, movie).id;
    if random.once_in(2) {
        any_track(random, movie).id = random.one(&[0, 1, id, u32::MAX]);
    } else {
        movie.tracks.push(empty_track(random.one(&[id, id, id ^ 1, id ^ (1 << 31)])));
    }
}

/// "a movie or media time scale is 0"
fn scales(random: &mut Random, movie: &mut Movie) {
    let scale = random.one(&[0, 0, 1, 1 << 31]);
    if random.once_in(2) {
        movie.scale = scale;
    } else {
        any_track(random, movie).scale = scale;
    }
}

/// Counts of stts or ctts: "an entry counts 0 samples"; the total is not N, or is N only modulo 2^32.
fn spoil_counts<T: Copy + Default>(random: &mut Random, entries: &mut Vec<(u32, T)>) {
    let place = random.below(entries.len() + 1);
    let value = entries.first().map_or_else(T::default, |entry| entry.1);
    let which = random.below(7);
    match entries.get_mut(place) {
        Some((count, _)) if which < 3 => *count = [0, count.wrapping_add(1), count.wrapping_sub(1)][which],
        Some((count, _)) if which < 4 => {
            *count = count.wrapping_add(1 << 31);
            entries.push((1 << 31, value));
        }
        _ if which < 5 => entries.insert(place, (0, value)),
        _ if which < 6 => drop(entries.pop()),
        _ => entries.extend([(u32::MAX, value), (1, value)]),
    }
}

fn duration_counts(random: &mut Random, movie: &mut Movie) {
    let track = any_track(random, movie);
    spoil_counts(random, &mut track.stts);
}

fn shift_counts(random: &mut Random, movie: &mut Movie) {
    let track = any_track(random, movie);
    let all = vec![(count(each_size(track).len()), 1)];
    spoil_counts(random, track.ctts.get_or_insert(all));
}

/// The rules of stsc: where entries begin, samples per chunk and description IDs.
fn chunk_runs(random: &mut Random, movie: &mut Movie) {
    let track = any_track(random, movie);
    let (chunks, descriptions) = (count(track.stco.len()), count(track.descriptions.len()));
    let place = random.below(track.stsc.len() + 1);
    let before = if place > 0 { track.stsc[place - 1].0 } else { 0 };
    let which = random.below(8);
    let Some(entry) = track.stsc.get_mut(place) else {
        match which {
            0 => track.stsc.clear(),
            1 => drop(track.stsc.pop()),
            _ => track.stsc.push((random.one(&[before, before.wrapping_add(1), chunks, chunks + 1]), 1, descriptions)),
        }
        return;
    };
    match which {
        0 => entry.0 = random.one(&[0, 1, 2, u32::MAX]),
        1 => entry.0 = random.one(&[before, before.wrapping_add(1), before.saturating_sub(1)]),
        2 => entry.0 = random.one(&[chunks, chunks + 1]),
        3 => entry.1 = random.one(&[0, 1]),
        4 => entry.1 = random.one(&[entry.1.wrapping_add(1), entry.1.wrapping_sub(1)]),
        // With an even number of chunks the samples dealt are N again modulo 2^32.
        5 => entry.1 ^= 1 << 31,
        6 => entry.2 = random.one(&[0, descriptions, descriptions + 1]),
        _ => drop(track.descriptions.pop()),
    }
}

/// More or fewer chunks than samples are dealt to, or none.
fn chunk_count(random: &mut Random, movie: &mut Movie) {
    let track = any_track(random, movie);
    match random.below(5) {
        0 => track.stco.push(0),
        1 => drop(track.stco.pop()),
        2 => track.stco.clear(),
        // "C is 0 with stsc not empty", without samples.
        3 => {
            *track = Track { stsc: vec![(1, 1, 1)], descriptions: track.descriptions.clone(), ..empty_track(track.id) }
        }
        _ => *track = Track { stco: vec![0], ..empty_track(track.id) },
    }
}

/// N, the number of samples.
fn size_count(random: &mut Random, movie: &mut Movie) {
    match &mut any_track(random, movie).stsz {
        Sizes::Common(size, n) => {
            *n = random.one(&[0, *n + 1, n.saturating_sub(1)]);
            *size = random.one(&[*size, u32::MAX]);
        }
        Sizes::Each(sizes) if random.once_in(2) => drop(sizes.pop()),
        Sizes::Each(sizes) => sizes.push(0),
    }
}

/// "stss isn't strictly rising within 1 to N"
fn sync_samples(random: &mut Random, movie: &mut Movie) {
    let track = any_track(random, movie);
    let n = count(each_size(track).len());
    let stss = track.stss.get_or_insert_with(Vec::new);
    match random.below(5) {
        0 => stss.insert(0, random.one(&[0, 1])),
        1 => stss.push(random.one(&[n, n + 1, u32::MAX])),
        2 => *stss = (1..=n).collect(),
        3 => stss.extend(stss.last().copied()),
        _ => stss.reverse(),
    }
}

/// The last sample gets what the total lacks up to a number, and so many more.
fn fill_up(track: &mut Track, more: u32) {
    let total: u64 = track.stts.iter().map(|(count, duration)| u64::from(*count) * u64::from(*duration)).sum();
    let Some((count, duration)) = track.stts.pop() else {
        return;
    };
    if count > 1 {
        track.stts.push((count - 1, duration));
    }
    let missing = u64::from(u32::MAX).saturating_sub(total) + u64::from(more);
    let last = u32::try_from(u64::from(duration) + missing).unwrap_or(u32::MAX);
    track.stts.push((1, last));
    // What the total would be if it were kept in 32 bits.
    track.duration = u32::MAX.wrapping_add(more);
}

/// "the sample durations ... total over 4,294,967,295"
fn total(random: &mut Random, movie: &mut Movie) {
    let track = any_track(random, movie);
    fill_up(track, random.one(&[0, 1, 2]));
    if random.once_in(2) {
        track.edits = None;
    }
}

/// "or a track's edit durations"
fn edit_total(random: &mut Random, movie: &mut Movie) {
    let edits = any_track(random, movie).edits.get_or_insert_with(Vec::new);
    let total: u32 = edits.iter().map(|edit| edit.0).fold(0, u32::saturating_add);
    let missing = u32::MAX - total;
    edits.push((missing.max(1), -1, RATE));
    if random.once_in(2) {
        edits.push((random.one(&[1, u32::MAX]), -1, RATE));
    }
}

/// "the mdhd duration is not the total of the sample durations"
fn stored_duration(random: &mut Random, movie: &mut Movie) {
    let track = any_track(random, movie);
    let duration = track.duration;
    track.duration =
        random.one(&[duration.wrapping_add(1), duration.wrapping_sub(1), 0, u32::MAX, duration ^ (1 << 31)]);
}

/// An edit whose last place is the last of the media, or the first past it.
fn last_place(random: &mut Random, track: &Track, movie_scale: u32) -> (u32, i32, u32) {
    let Some(last) = track.duration.checked_sub(1) else {
        return (1, 0, RATE);
    };
    let m = random.up_to(last.min(i32::MAX.unsigned_abs() - 1));
    let scales = (track.scale.max(1), movie_scale.max(1));
    let longest = longest(track.duration, m, scales.0, scales.1) + u64::from(random.up_to(1));
    (u32::try_from(longest).unwrap_or(u32::MAX), i32::try_from(m + random.up_to(1)).unwrap(), RATE)
}

/// "no entry; a duration 0; a rate other than 65536 (1.0); a media time below -1", or a last place not below the total.
fn edit_list(random: &mut Random, movie: &mut Movie) {
    let movie_scale = movie.scale;
    let track = any_track(random, movie);
    let last = last_place(random, track, movie_scale);
    let edits = track.edits.get_or_insert_with(Vec::new);
    if edits.is_empty() || random.once_in(3) {
        edits.insert(random.below(edits.len() + 1), last);
    }
    let place = random.below(edits.len());
    let edit = &mut edits[place];
    match random.below(8) {
        0 => edits.clear(),
        1 => edit.0 = 0,
        2 => edit.2 = random.one(&[0, 1, 65_535, 65_537, 1 << 31, u32::MAX, RATE]),
        3 => edit.1 = random.one(&[-1, -2, i32::MIN, i32::MAX]),
        4 => edit.0 = edit.0.saturating_add(1),
        _ => *edit = last,
    }
}
