//! `chaldoref film-return` with several jobs, and joined returns: the same bytes as one job of all films.
mod common;

use chaldoref::Movie;
use common::{run, run_in, Folder, Ran, HOSES, W};
use reference::film::{atom, w_track, Track};
use reference::made::movie;
use reference::maker::{self, Random};
use std::fs;

/// A film of one track of a scale.
fn of_scale(scale: u32) -> Vec<u8> {
    movie(&[Track { scale, ..w_track() }]).file_of(4096).bytes()
}

/// Films with their scales in different orders, 35 scales in all, refused and damaged ones, one that has fragments, and one that is not there.
fn films(folder: &Folder) -> Vec<String> {
    let mut names = Vec::new();
    let mut put = |bytes: &[u8]| {
        let name = format!("{:03}.mov", names.len());
        folder.file(&name, bytes);
        names.push(name);
    };
    for i in 0..60 {
        put(&maker::valid(&mut Random::of(381, i)));
        put(&of_scale(1000 + u32::try_from(i * 7 % 35).unwrap()));
    }
    put(&fs::read("../../films/w.mov").unwrap()[..1000]);
    put(b"no film");
    let mut fragmented = reference::hoses::two_hoses();
    fragmented.push("", atom("moof", &[]));
    put(&fragmented.bytes());
    (0..40).for_each(|i| put(&of_scale(1034 - i)));
    names.insert(50, "missing.mov".into());
    names
}

#[test]
fn jobs_give_the_same_bytes() {
    let folder = Folder::new("jobs");
    let names = films(&folder).join(" ");
    for form in ["", "--json", "--csv", "--all"] {
        let one = run_in(&folder, &format!("film-return --jobs 1 {form} {names}"));
        assert_eq!(one.status, 2);
        assert!(one.err.contains("refused 20") && one.err.contains("refused 2:"), "{}", one.err);
        for jobs in ["--jobs 2", "--jobs 7", "--jobs 1024", ""] {
            assert_eq!(run_in(&folder, &format!("film-return {jobs} {form} {names}")), one, "{jobs} {form}");
        }
    }
    for (jobs, films) in [("0", W), ("1025", W), ("x", W), ("-1", W)] {
        let ran = run(&["film-return", "--jobs", jobs, films]);
        let words = format!("chaldoref: --jobs takes a number from 1 to 1024, and not '{jobs}'\n");
        assert!(ran.err.starts_with(&words) && ran.status == 2, "{ran:?}");
    }
}

/// Parts of the films that fit a return, joined in order, are the return of all.
#[test]
fn joined_returns() {
    let folder = Folder::new("joined");
    let mut names = films(&folder);
    let is_taken = |name: &String| {
        let bytes = fs::read(folder.path(name)).unwrap_or_default();
        let scales = Movie::open(&bytes[..]).map(|movie| movie.tracks().iter().map(|track| track.scale).collect());
        scales.unwrap_or_else(|_| Vec::new()).iter().all(|scale| (1000..1020).contains(scale) || *scale == 600)
    };
    names.retain(is_taken);
    assert!(names.len() > 60);
    let whole = |form: &str| run_in(&folder, &format!("film-return {form} {}", names.join(" ")));
    for cuts in [vec![0], vec![1, 2], vec![10, 40, 41], vec![30, names.len()]] {
        let ends = cuts.iter().copied().chain([names.len()]);
        let starts = [0].into_iter().chain(cuts.iter().copied());
        let mut parts = Vec::new();
        for (i, (start, end)) in starts.zip(ends).enumerate() {
            let part = names[start..end].join("\n");
            folder.file("list", part.as_bytes());
            let made = run_in(&folder, "film-return --files-from list --json");
            folder.file(format!("{i}.json"), made.out.as_bytes());
            parts.push(format!("{i}.json"));
        }
        for form in ["", "--json", "--all"] {
            let (joined, whole) =
                (run_in(&folder, &format!("film-return --join {form} {}", parts.join(" "))), whole(form));
            assert_eq!((joined.out, joined.status), (whole.out, whole.status), "{cuts:?} {form}");
            assert_eq!(joined.err, "");
        }
    }
}

/// A return with some of its text replaced.
fn changed(from: &str, to: &str) -> String {
    let made = run(&["film-return", "--json", W, HOSES]).out;
    assert!(made.contains(from), "{from}");
    made.replacen(from, to, 1)
}

#[test]
fn what_is_no_return_is_not_joined() {
    let folder = Folder::new("no-return");
    folder.file("good.json", changed("", "").as_bytes());
    let scales = |count: u32| {
        let one = |scale: u32| format!("{{\"scale\":{scale},\"total\":1,\"total_seconds\":1}}");
        changed(
            "{\"scale\":600,\"total\":408,\"total_seconds\":0.68}",
            &(1..=count).map(one).collect::<Vec<_>>().join(","),
        )
    };
    for (bytes, why) in [
        (String::new(), "it is not one JSON document"),
        ("[1,2".into(), "it is not one JSON document"),
        ("[]".into(), "'format' is no number from 0 to 2^64 - 1"),
        (changed("\"format\":1", "\"format\":2"), "its format is 2, and 1 is read"),
        (run(&["tracks", "--json", W]).out, "'accepted' is no number from 0 to 2^64 - 1"),
        (changed("{\"refusal\":1,\"films\":0},", ""), "'refused' has 13 places, and a return has 14"),
        (changed("\"refusal\":19", "\"refusal\":20"), "'refused' has not refusal 19 in its place"),
        (changed("\"bytes\":412", "\"bytes\":18446744073709551616"), "'bytes' is no number from 0 to 2^64 - 1"),
        (changed("\"tracks\":3,", ""), "'tracks' is no number from 0 to 2^64 - 1"),
        (scales(33), "it has 33 scales, and a return has at most 32"),
        (scales(2).replace("\"scale\":2", "\"scale\":1"), "scale 1 is there twice"),
        (scales(1).replace("\"scale\":1", "\"scale\":4294967296"), "a scale is 2^32 or more"),
        (changed("\"skipped\":[]", "\"skipped\":1"), "'skipped' is no list"),
    ] {
        folder.file("x.json", bytes.as_bytes());
        let ran = run_in(&folder, "film-return --join good.json x.json");
        let err =
            format!("chaldoref: x.json: this is no return that film-return --json wrote: {why}; nothing is joined\n");
        assert_eq!(ran, Ran { out: String::new(), err, status: 2 });
        assert_eq!(run_in(&folder, "film-return --join --json good.json x.json").out.matches("\"error\"").count(), 1);
    }
    // What does not fit: a thirty-third scale comes before a total.
    folder.file("x.json", scales(32).replace("\"bytes\":412", "\"bytes\":18446744073709551615").as_bytes());
    let refused = |line: &str| run_in(&folder, line).err;
    let words = "chaldoref: x.json: refused 20: with it there are more than 32 scales; nothing is joined\n";
    assert_eq!(refused("film-return --join good.json x.json"), words);
    folder.file("y.json", changed("\"bytes\":412", "\"bytes\":18446744073709551203").as_bytes());
    assert_eq!(refused("film-return --join y.json good.json"), "");
    let ran = run_in(&folder, "film-return --join good.json y.json good.json");
    assert!(
        ran.err.starts_with("chaldoref: good.json: refused 21: ") && ran.out.is_empty() && ran.status == 2,
        "{ran:?}"
    );
    for line in
        ["--join good.json --csv", "--join good.json --jobs 2", "--join good.json --files-from x.json", "--join"]
    {
        assert_eq!(run_in(&folder, &format!("film-return {line}")).status, 2, "{line}");
    }
    assert!(refused("film-return --join missing.json").contains("No such file or directory"));
}
