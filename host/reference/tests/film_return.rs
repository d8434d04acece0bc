//! Document 02, "The quarter's film return": the totals, refusals 20 and 21, and the program's text.
use reference::film::*;
use reference::film_return::{printed, FilmReturn, NUMBERS, TOO_GREAT, TOO_MANY_SCALES};
use reference::made::{empty_track, movie, sound_track, spoiled, SMALL};
use reference::maker::{self, Random};
use reference::movie::refusals::read;
use reference::movie::{refusal, track_list};

/// The greatest that a total may be.
const MOST: u128 = (1 << 64) - 1;

fn filed(films: &[Vec<u8>]) -> FilmReturn {
    let mut all = FilmReturn::default();
    for film in films {
        assert_eq!(all.file(film), 0);
    }
    all
}

/// W's track with that scale.
fn of_scale(id: u32, scale: u32) -> Track {
    Track { id, scale, ..w_track() }
}

fn film(tracks: &[Track]) -> Vec<u8> {
    movie(tracks).file_of(4096).bytes()
}

/// A film of tracks with those scales.
fn scales(list: impl IntoIterator<Item = u32>) -> Vec<u8> {
    let tracks: Vec<Track> = (1..).zip(list).map(|(id, scale)| of_scale(id, scale)).collect();
    film(&tracks)
}

/// How many files are refused with that number.
fn refused(all: &FilmReturn, number: u32) -> u128 {
    all.refused[NUMBERS.iter().position(|refusal| *refusal == number).unwrap()]
}

#[test]
fn w_and_others() {
    let w_alone = filed(&[w().bytes()]);
    let expected = FilmReturn {
        accepted: 1,
        tracks: 1,
        samples: 4,
        bytes: 220,
        scales: vec![(600, 120)],
        ..FilmReturn::default()
    };
    assert_eq!(w_alone, expected);
    // Two tracks with W's scale, and one with another that is met between them.
    let three = film(&[of_scale(1, 600), sound_track(7, [3000, 3000, 3012]), of_scale(2, 600)]);
    let all = filed(&[w().bytes(), three]);
    assert_eq!((all.accepted, all.tracks, all.samples, all.bytes), (2, 4, 21, 696));
    assert_eq!(all.scales, [(600, 360), (44_100, 9)]);
}

#[test]
fn equal_files_are_both_counted() {
    let all = filed(&[w().bytes(), w().bytes(), w().bytes()]);
    assert_eq!((all.accepted, all.tracks, all.samples, all.bytes), (3, 3, 12, 660));
    assert_eq!(all.scales, [(600, 360)]);
    let twice = filed(&[vec![], vec![]]);
    assert_eq!((twice.accepted, refused(&twice, 3)), (0, 2));
}

#[test]
fn films_without_tracks_or_samples() {
    let all = filed(&[film(&[])]);
    assert_eq!(all, FilmReturn { accepted: 1, ..FilmReturn::default() });
    // "for each media time scale met": also by a track whose total is 0
    let all = filed(&[film(&[Track { scale: 25, ..empty_track(1) }])]);
    assert_eq!((all.tracks, all.samples, all.bytes), (1, 0, 0));
    assert_eq!(all.scales, [(25, 0)]);
}

#[test]
fn refused_under_each_number() {
    for (number, name, film) in spoiled(&w_track(), |track| movie(&[track]).file_of(SMALL)) {
        let all = filed(&[film.bytes()]);
        assert_eq!(refused(&all, number), 1, "{name}");
        assert_eq!(all.refused.iter().sum::<u128>(), 1, "{name}");
        assert_eq!(all, FilmReturn { refused: all.refused, ..FilmReturn::default() }, "{name}");
    }
    // "11 stays 0 by Ask 7's default"
    let all = filed(&[film(&[Track { duration: 121, ..w_track() }])]);
    assert_eq!((all.accepted, refused(&all, 11), &all.scales[..]), (1, 0, &[(600, 120)][..]));
    let all = filed(&[vec![0; 1 << 31]]);
    assert_eq!((all.accepted, refused(&all, 1)), (0, 1));
}

#[test]
fn each_total_is_the_sum_over_the_files() {
    let films: Vec<Vec<u8>> = (0..200).map(|index| maker::film(&mut Random::of(10, index))).collect();
    let mut all = FilmReturn::default();
    let mut counted = Vec::new();
    for film in &films {
        if all.file(film) == 0 {
            counted.push(film);
        }
    }
    let lists: Vec<Vec<u32>> = counted
        .iter()
        .map(|film| {
            let mut room = [0; 8 * 16];
            let (_, tracks) = track_list(film, &mut room);
            room[..8 * usize::try_from(tracks).unwrap()].to_vec()
        })
        .collect();
    let tracks: Vec<&[u32]> = lists.iter().flat_map(|list| list.chunks(8)).collect();
    assert_eq!(all.tracks, u128::try_from(tracks.len()).unwrap());
    assert_eq!(all.samples, tracks.iter().map(|track| u128::from(track[4])).sum());
    let sizes =
        |film: &Vec<u8>| read(film).map_or(0, |movie| movie.tracks.iter().flat_map(|track| &track.tables.sizes).sum());
    assert_eq!(all.bytes, counted.iter().map(|film| u128::from(sizes(film))).sum());
    for (scale, total) in &all.scales {
        let of_it = tracks.iter().filter(|track| u64::from(track[2]) == *scale);
        assert_eq!(*total, of_it.map(|track| u128::from(track[3])).sum());
    }
    let files = |number: u32| u128::try_from(counted.iter().filter(|film| refusal(film) == number).count()).unwrap();
    assert_eq!(all.accepted, files(0));
    assert!(NUMBERS.iter().all(|number| refused(&all, *number) == files(*number)));
    // Some were accepted, some refused, and some not counted.
    assert!(all.accepted > 10 && all.refused.iter().sum::<u128>() > 10 && counted.len() < films.len());
}

#[test]
fn any_order_of_filing() {
    let mut random = Random::new(10);
    for index in 0..20 {
        let mut films: Vec<Vec<u8>> = (0..8).map(|i| maker::film(&mut Random::of(100 + index, i))).collect();
        films.push(films[0].clone());
        let sorted = |films: &[Vec<u8>]| {
            let mut all = filed(films);
            all.scales.sort();
            all
        };
        let before = sorted(&films);
        random.shuffle(&mut films);
        assert_eq!(sorted(&films), before, "films {index}");
    }
}

#[test]
fn scales_in_order_of_first_meeting() {
    let met = |films: &[Vec<u8>]| filed(films).scales.iter().map(|(scale, _)| *scale).collect::<Vec<u64>>();
    assert_eq!(met(&[scales([9, 3, 9, 5]), scales([4, 3, 1])]), [9, 3, 5, 4, 1]);
    assert_eq!(met(&[scales([4, 3, 1]), scales([9, 3, 9, 5])]), [4, 3, 1, 9, 5]);
    // A refused film meets none.
    let refused = film(&[Track { stco: vec![9999, 0], ..of_scale(1, 7) }]);
    assert_eq!(met(&[refused, scales([4])]), [4]);
}

#[test]
fn number_20() {
    let mut all = filed(&[scales(1..=16), scales(17..=32)]);
    assert_eq!(all.scales.len(), 32);
    let before = all.clone();
    // One more alone, with others, before them, and two more.
    for more in [vec![33], vec![1, 2, 33], vec![600, 1], vec![40, 41]] {
        assert_eq!(all.file(&scales(more)), TOO_MANY_SCALES);
        assert_eq!(all, before);
    }
    // Those that are held go on, and refused films.
    assert_eq!((all.file(&scales([32, 1])), all.file(&[])), (0, 0));
    assert_eq!((all.scales[0], all.scales[31]), ((1, 240), (32, 240)));
    // Where there is room for one of two, neither is taken.
    let mut all = filed(&[scales(1..=16), scales(17..=31)]);
    let before = all.clone();
    assert_eq!(all.file(&scales([40, 41])), TOO_MANY_SCALES);
    assert_eq!(all, before);
    assert_eq!(all.file(&scales([40, 40])), 0);
    assert_eq!(all.scales[31], (40, 240));
}

/// A return with one total as it is given, by its place among those of which W adds so many, and W's scale met.
fn near_the_end(place: usize, total: u128) -> FilmReturn {
    let mut all = FilmReturn { scales: vec![(600, 0)], ..FilmReturn::default() };
    let totals = [&mut all.accepted, &mut all.tracks, &mut all.samples, &mut all.bytes, &mut all.scales[0].1];
    *totals[place] = total;
    all
}

#[test]
fn number_21() {
    for (place, adds) in [1, 1, 4, 220, 120].into_iter().enumerate() {
        let mut all = near_the_end(place, MOST - adds);
        assert_eq!(all.file(&w().bytes()), 0, "{place}");
        assert!(all.lines().contains(" 18446744073709551615\n"));
        let before = all.clone();
        assert_eq!(all.file(&w().bytes()), TOO_GREAT, "{place}");
        assert_eq!(all, before);
        let mut all = near_the_end(place, MOST - adds + 1);
        assert_eq!(all.file(&w().bytes()), TOO_GREAT, "{place}");
        assert_eq!(all, near_the_end(place, MOST - adds + 1));
        // A refused film adds to none of them.
        assert_eq!(all.file(&[]), 0);
    }
    // Another scale's total does not matter, nor do the tracks of a film that has none.
    let mut all = near_the_end(4, MOST);
    assert_eq!(all.file(&scales([25])), 0);
    let mut all = near_the_end(1, MOST);
    assert_eq!(all.file(&film(&[])), 0);
}

#[test]
fn files_refused_count_as_totals() {
    for (number, name, film) in spoiled(&w_track(), |track| movie(&[track]).file_of(SMALL)) {
        let place = NUMBERS.iter().position(|refusal| *refusal == number).unwrap();
        let mut all = FilmReturn::default();
        all.refused[place] = MOST - 1;
        assert_eq!(all.file(&film.bytes()), 0, "{name}");
        let before = all.clone();
        assert_eq!(all.file(&film.bytes()), TOO_GREAT, "{name}");
        assert_eq!(all, before);
        assert_eq!(all.file(&w().bytes()), 0);
    }
}

#[test]
fn number_20_before_21() {
    let mut all = filed(&[scales(1..=16), scales(17..=32)]);
    all.bytes = MOST;
    let before = all.clone();
    assert_eq!(all.file(&scales([33])), TOO_MANY_SCALES);
    assert_eq!(all.file(&scales([32])), TOO_GREAT);
    assert_eq!(all, before);
}

#[test]
fn returns_joined() {
    let films = [w().bytes(), scales([44_100, 600, 25]), vec![], scales([25, 1000])];
    let whole = filed(&films);
    for cut in 0..=films.len() {
        let (mut first, second) = (filed(&films[..cut]), filed(&films[cut..]));
        assert_eq!((first.join(&second), first), (0, whole.clone()), "{cut}");
    }
    // The scales of the first come first.
    let (first, second) = (filed(&films[..1]), filed(&films[1..2]));
    let mut other = second.clone();
    assert_eq!(other.join(&first), 0);
    assert_eq!(other.scales, [(44_100, 120), (600, 240), (25, 120)]);
}

#[test]
fn joins_refused() {
    let met = |from, to| FilmReturn { scales: (from..=to).map(|scale| (scale, 1)).collect(), ..FilmReturn::default() };
    let joined = |first: &FilmReturn, second: &FilmReturn| {
        let mut all = first.clone();
        let refusal = all.join(second);
        assert!(refusal == 0 || all == *first);
        refusal
    };
    assert_eq!((joined(&met(1, 31), &met(20, 32)), joined(&met(1, 31), &met(20, 33))), (0, TOO_MANY_SCALES));
    let bytes = |bytes| FilmReturn { bytes, ..FilmReturn::default() };
    assert_eq!((joined(&bytes(MOST - 5), &bytes(5)), joined(&bytes(MOST - 5), &bytes(6))), (0, TOO_GREAT));
    let (full, over) = (FilmReturn { bytes: MOST, ..met(1, 32) }, FilmReturn { bytes: 1, ..met(33, 33) });
    assert_eq!(joined(&full, &over), TOO_MANY_SCALES);
}

/// The files that the program finds in these tests.
fn contents(name: &[u8]) -> Option<Vec<u8>> {
    match name {
        b"w" => Some(w().bytes()),
        b"empty" => Some(vec![]),
        b"65536" => Some(movie(&[]).file_of(65_536).bytes()),
        b"65537" => Some(movie(&[]).file_of(65_537).bytes()),
        b"1 to 16" => Some(scales(1..=16)),
        b"17 to 32" => Some(scales(17..=32)),
        b"33" => Some(scales([33, 1])),
        b"w\r" | b" w" | b"\xff\xfe" => Some(scales([44_100])),
        // Were it not for their names these could be read.
        b"" | b"w\0" | b"\0" => Some(w().bytes()),
        _ => None,
    }
}

fn text(input: &[u8]) -> String {
    String::from_utf8(printed(input, contents)).unwrap()
}

/// The text without the lines of refused files, which are all 0.
fn short(input: &[u8]) -> String {
    let text = text(input);
    let is_kept = |line: &&str| !(line.starts_with("refused ") && line.ends_with(" 0"));
    text.lines().filter(is_kept).map(|line| format!("{line}\n")).collect()
}

#[test]
fn the_lines_in_their_order() {
    let expected = "skipped nowhere\naccepted 1\nrefused 1 0\nrefused 2 0\nrefused 3 2\nrefused 4 0\nrefused 5 0\nrefused 6 0\nrefused 7 0\n\
        refused 8 0\nrefused 9 0\nrefused 10 0\nrefused 11 0\nrefused 12 0\nrefused 13 0\nrefused 19 0\ntracks 1\nsamples 4\nbytes 220\n\
        scale 600 120\n";
    assert_eq!(text(b"empty\nw\nnowhere\nempty\n"), expected);
    assert_eq!(text(b"empty\nw\nnowhere\nempty"), expected);
}

#[test]
fn names_are_one_to_a_line() {
    let none = "accepted 0\ntracks 0\nsamples 0\nbytes 0\n";
    assert_eq!(short(b""), none);
    assert_eq!(short(b"\n"), format!("skipped \n{none}"));
    assert_eq!(short(b"\n\n"), format!("skipped \nskipped \n{none}"));
    let one = "accepted 1\ntracks 1\nsamples 4\nbytes 220\nscale 600 120\n";
    assert_eq!(short(b"w"), one);
    assert_eq!(short(b"w\n"), one);
    assert_eq!(short(b"w\n\n"), format!("skipped \n{one}"));
    assert_eq!(short(b"\nw"), format!("skipped \n{one}"));
    // A carriage return and blanks belong to the name, which need not be text.
    let sound = "accepted 1\ntracks 1\nsamples 4\nbytes 220\nscale 44100 120\n";
    for name in [&b"w\r\n"[..], b" w", b"\xff\xfe"] {
        assert_eq!(short(name), sound);
    }
    assert!(printed(b"\xff\n\xfe", contents).starts_with(b"skipped \xff\nskipped \xfe\naccepted 0\n"));
}

#[test]
fn what_is_skipped() {
    let none = "accepted 0\ntracks 0\nsamples 0\nbytes 0\n";
    assert_eq!(short(b"w\0\n\0"), format!("skipped w\0\nskipped \0\n{none}"));
    assert_eq!(short(b"65537"), format!("skipped 65537\n{none}"));
    assert_eq!(short(b"65536"), "accepted 1\ntracks 0\nsamples 0\nbytes 0\n");
    // Refused 20, and what comes after it goes on.
    let met: String = (1..=32).map(|scale| format!("scale {scale} {}\n", if scale < 17 { 240 } else { 120 })).collect();
    let all = "accepted 3\ntracks 48\nsamples 192\nbytes 10560\n";
    assert_eq!(short(b"1 to 16\n17 to 32\n33\n1 to 16\nw"), format!("skipped 33\nskipped w\n{all}{met}"));
}

#[test]
fn too_long() {
    let names = |length| vec![b'\n'; length];
    assert_eq!(text(&names(65_537)), "too long\n");
    assert_eq!(text(&names(65_536)).lines().filter(|line| *line == "skipped ").count(), 65_536);
    assert_eq!(text(&[b'w'; 65_537]), "too long\n");
    assert!(text(&[b'w'; 65_536]).starts_with("skipped www"));
}
