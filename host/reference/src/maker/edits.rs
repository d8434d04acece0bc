//! Edit lists that no rule refuses.
use super::random::Random;

/// 1.0.
pub const RATE: u32 = 65536;

/// The greatest duration of an edit that shows the media from m on, in a movie's scale: its last place is below the total.
/// m + floor((d-1) × media scale / movie scale) < total, so (d-1) × media scale < (total - m) × movie scale.
pub fn longest(total: u32, m: u32, media_scale: u32, movie_scale: u32) -> u64 {
    let room = u128::from(total - m) * u128::from(movie_scale);
    u64::try_from((room - 1) / u128::from(media_scale) + 1).unwrap()
}

/// An edit that shows nothing.
fn empty(random: &mut Random) -> (u32, i32, u32) {
    (1 + random.up_to(99), -1, RATE)
}

/// An edit that shows media, often up to the very last place; or nothing, where the media has no time.
fn shown(random: &mut Random, total: u32, media_scale: u32, movie_scale: u32) -> Option<(u32, i32, u32)> {
    let most = total.checked_sub(1)?.min(i32::MAX.unsigned_abs());
    let m = random.up_to(most);
    let m = random.one(&[0, m, m, most]);
    let longest = u32::try_from(longest(total, m, media_scale, movie_scale).min(1 << 31)).unwrap();
    let some = 1 + random.up_to(longest - 1);
    Some((random.one(&[1, some, longest, longest]), i32::try_from(m).unwrap(), RATE))
}

/// An edit list for media of that total, or none. Durations that would total too much are cut.
pub fn edits(random: &mut Random, total: u32, media_scale: u32, movie_scale: u32) -> Option<Vec<(u32, i32, u32)>> {
    if random.once_in(2) {
        return None;
    }
    let number = if random.once_in(60) { 256 } else { random.one(&[1, 1, 2, 3, 5]) };
    let mut left = u32::MAX;
    let mut list = Vec::new();
    for _ in 0..number {
        let is_empty = random.once_in(3);
        let found = if is_empty { None } else { shown(random, total, media_scale, movie_scale) };
        let (duration, media_time, rate) = found.unwrap_or_else(|| empty(random));
        let duration = duration.min(left);
        if duration > 0 {
            list.push((duration, media_time, rate));
        }
        left -= duration;
    }
    Some(list)
}
