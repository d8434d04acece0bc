//! Refused 5: "a read leaf or profile hasn't its size"; and films whose leaves have the least or the greatest size that is their own.
use super::base::*;
use reference::film::*;

/// The read leaves with a number of entries, where it stands, and what added to it makes no difference modulo 2^32.
const TABLES: [(&str, usize, u32); 7] = [
    ("elst", 12, 1 << 30),
    ("stts", 12, 1 << 29),
    ("ctts", 12, 1 << 29),
    ("stsc", 12, 1 << 30),
    ("stsz", 16, 1 << 30),
    ("stco", 12, 1 << 30),
    ("stss", 12, 1 << 30),
];

fn bodies(films: &mut Films) {
    for (name, path) in LEAVES {
        films.full(5, &format!("{name}-empty"), |film| film.resize(path, 0));
        films.full(5, &format!("{name}-of-one-byte-zero"), |film| film.resize(path, 1));
        films.full(5, &format!("{name}-of-seven-bytes"), |film| film.resize(path, 7));
        let length = full().at(path).body.len();
        films.full(5, &format!("{name}-one-byte-short"), |film| film.resize(path, length - 1));
        let number = if name == "hdlr" { 0 } else { 5 };
        films.full(number, &format!("{name}-one-byte-long"), |film| film.resize(path, length + 1));
    }
    films.full(5, "mvhd-of-120-bytes", |film| film.resize(path("mvhd"), 112));
    films.full(5, "tkhd-of-104-bytes", |film| film.resize(path("tkhd"), 96));
    films.full(5, "mdhd-of-44-bytes", |film| film.resize(path("mdhd"), 36));
    for (number, size) in [(5, 19), (5, 20), (5, 31), (0, 32), (0, 60)] {
        films.small(number, &format!("hdlr-of-{size}-bytes"), |film| film.resize(path("hdlr"), size - 8));
    }
    for (number, size) in [(5, 19), (0, 20), (5, 21)] {
        let mut film = movie(&[empty_track(1)]);
        film.resize(path("stsz"), size - 8);
        films.node(number, &format!("stsz-of-{size}-bytes-without-samples"), film);
    }
}

fn counts(films: &mut Films) {
    for (name, offset, round) in TABLES {
        let path = path(name);
        let body = full().at(path).body.clone();
        let count = u32::from_be_bytes(body[offset - 8..offset - 4].try_into().unwrap());
        films.full(5, &format!("{name}-count-one-more"), |film| film.set(path, offset, count + 1));
        films.full(5, &format!("{name}-count-one-less"), |film| film.set(path, offset, count - 1));
        films.full(5, &format!("{name}-count-wraps"), |film| film.set(path, offset, count + round));
        films.full(5, &format!("{name}-count-2-32-less-one"), |film| film.set(path, offset, u32::MAX));
    }
    films.full(5, "stsc-of-four-bytes-over", |film| film.resize(path("stsc"), 8 + 24 + 4));
    films.full(5, "elst-of-an-entry-less-four-bytes", |film| film.resize(path("elst"), 8 + 24 - 4));
}

fn stsz_forms(films: &mut Films) {
    let with = |common, count, sizes: &[u32]| {
        let mut film = small();
        film.replace(path("stsz"), stsz_fields(common, count, sizes));
        film
    };
    films.node(0, "stsz-common-without-table", with(50, 4, &[]));
    films.node(5, "stsz-common-and-table", with(50, 4, &[50; 4]));
    films.node(5, "stsz-common-and-one-byte", {
        let mut film = with(50, 4, &[]);
        film.resize(path("stsz"), 13);
        film
    });
    films.node(5, "stsz-common-one-and-table", with(1, 4, &[1; 4]));
    films.node(5, "stsz-common-2-31-and-table", with(1 << 31, 4, &[1; 4]));
    films.node(5, "stsz-no-common-and-no-table", with(0, 4, &[]));
    films.node(5, "stsz-table-too-short-by-one", with(0, 4, &[50; 3]));
    films.node(5, "stsz-table-too-long-by-one", with(0, 4, &[50; 5]));
    films.node(0, "stsz-table", with(0, 4, &[50; 4]));
    films.track(0, "no-samples", empty_track(1));
    films.track(0, "no-samples-common-size", Track { stsz: Sizes::Common(7, 0), ..empty_track(1) });
    films.track(
        0,
        "no-samples-empty-ctts-and-stss",
        Track { ctts: Some(vec![]), stss: Some(vec![]), ..empty_track(1) },
    );
    films.node(5, "no-samples-common-size-and-table", {
        let mut film = movie(&[empty_track(1)]);
        film.replace(path("stsz"), stsz_fields(7, 0, &[7]));
        film
    });
}

/// A film whose one track has that subtype and that stsd.
fn described(subtype: &[u8; 4], stsd: Node) -> Node {
    let mut film = movie(&[Track { subtype: *subtype, ..small_track() }]);
    film.replace(path("stsd"), stsd);
    film
}

fn descriptions(films: &mut Films) {
    let of = |sizes: &[usize]| stsd(&sizes.iter().map(|size| description(b"form", *size)).collect::<Vec<_>>());
    for (name, subtype, least) in [("vide", b"vide", 36), ("soun", b"soun", 16), ("upper-case-vide", b"VIDE", 16)] {
        for size in [15, 16, 35, 36] {
            let number = if size < least { 5 } else { 0 };
            films.node(number, &format!("description-of-{size}-in-{name}"), described(subtype, of(&[size])));
        }
    }
    films.node(5, "second-description-of-35-in-vide", described(b"vide", of(&[36, 35])));
    films.node(5, "first-description-of-35-in-vide", described(b"vide", of(&[35, 36])));
    films.node(5, "second-description-of-15-in-soun", described(b"soun", of(&[16, 15])));
    films.node(0, "two-descriptions-in-vide", described(b"vide", of(&[36, 86])));
    films.node(0, "two-descriptions-in-soun", described(b"soun", of(&[36, 16])));
    films.node(5, "first-description-of-15-in-soun", described(b"soun", of(&[15, 17])));
    films.node(5, "first-description-of-8-in-soun", described(b"soun", of(&[8, 24])));
    films.node(5, "description-of-8-in-soun", described(b"soun", of(&[8])));
    let counted = |count: u32, sizes: &[usize]| {
        let mut stsd = of(sizes);
        stsd.set("", 12, count);
        described(b"soun", stsd)
    };
    films.node(5, "stsd-count-one-more", counted(3, &[16, 16]));
    films.node(5, "stsd-count-one-less", counted(1, &[16, 16]));
    films.node(5, "stsd-count-zero-with-a-description", counted(0, &[16]));
    films.node(5, "stsd-count-one-without-description", counted(1, &[]));
    films.node(5, "stsd-count-2-32-less-one", counted(u32::MAX, &[16, 16]));
    films.node(5, "stsd-count-2-28-and-one", counted((1 << 28) + 1, &[16]));
    films.node(0, "stsd-count-two", counted(2, &[16, 16]));
    let says = |sizes: &[(u32, usize)]| {
        let of = |(size, length): &(u32, usize)| {
            let mut bytes = description(b"form", *length);
            bytes[..4].copy_from_slice(&size.to_be_bytes());
            bytes
        };
        described(b"soun", stsd(&sizes.iter().map(of).collect::<Vec<_>>()))
    };
    for size in [0, 15, 17, u32::MAX - 15, u32::MAX] {
        films.node(5, &format!("description-of-16-says-{size}"), says(&[(size, 16)]));
    }
    films.node(5, "first-description-takes-a-part-of-the-second", says(&[(20, 16), (16, 16)]));
    films.node(5, "first-description-takes-both", says(&[(32, 16), (16, 16)]));
    films.node(5, "description-says-0-before-another", says(&[(0, 16), (16, 16)]));
    films.node(5, "second-description-passes-the-end", says(&[(16, 16), (17, 16)]));
    films.node(5, "second-description-wraps", says(&[(16, 16), (u32::MAX - 15, 16)]));
    // 40 bytes from 16 to 56, then 2^32 - 16 back to 40 in the first, where 32 leads to the end.
    let mut back = stsd(&[description(b"form", 40), description(b"form", 16)]);
    for (at, n) in [(12, 3), (40, 32), (56, u32::MAX - 15)] {
        back.set("", at, n);
    }
    films.node(5, "second-description-wraps-into-the-first", described(b"soun", back));
    for over in [1, 15] {
        let mut stsd = of(&[16]);
        stsd.body.extend(vec![0; over]);
        films.node(5, &format!("stsd-of-a-description-and-{}", bytes(over)), described(b"soun", stsd));
        let mut stsd = of(&[16]);
        stsd.set("", 12, 2);
        stsd.body.extend(&description(b"form", 16)[..over]);
        films.node(5, &format!("stsd-of-a-description-and-{}-of-the-second", bytes(over)), described(b"soun", stsd));
    }
    let two = [
        Track { id: 1, ..sound_track() },
        Track { id: 2, descriptions: vec![description(b"form", 35)], ..small_track() },
    ];
    films.node(5, "description-of-35-in-vide-after-a-sound-track", movie(&two));
    let two = [small_track(), Track { descriptions: vec![description(b"form", 35)], ..sound_track() }];
    films.node(0, "description-of-35-in-soun-after-a-video-track", movie(&two));
}

/// A data reference of so many bytes that says a size.
fn saying(size: u32, length: usize) -> Vec<u8> {
    let mut bytes = this_file();
    bytes.resize(length, 9);
    bytes[..4].copy_from_slice(&size.to_be_bytes());
    bytes
}

fn references(films: &mut Films) {
    let of = |references: Vec<Vec<u8>>| Track { references, ..small_track() };
    for (number, size) in [(5, 8), (5, 11), (0, 12), (0, 13), (0, 100)] {
        let entry = saying(size, usize::try_from(size).unwrap());
        films.track(number, &format!("reference-of-{size}"), of(vec![entry.clone()]));
        films.track(number, &format!("second-reference-of-{size}"), of(vec![this_file(), entry]));
    }
    for size in [0, 11, 13, u32::MAX - 11, u32::MAX] {
        films.track(5, &format!("reference-of-12-says-{size}"), of(vec![saying(size, 12)]));
    }
    films.track(5, "first-reference-takes-both", of(vec![saying(24, 12), this_file()]));
    for (number, count, entries) in [(5, 0, 1), (5, 1, 0), (5, 3, 2), (5, 1, 2), (5, u32::MAX, 2), (0, 2, 2)] {
        let mut film = movie(&[of(vec![this_file(); entries])]);
        film.set(path("dref"), 12, count);
        films.node(number, &format!("dref-count-{count}-of-{entries}"), film);
    }
    for over in [1, 11] {
        films.small(5, &format!("dref-of-a-reference-and-{}", bytes(over)), |film| {
            film.at(path("dref")).body.extend(vec![0; over]);
        });
    }
}

fn profiles(films: &mut Films) {
    let first = |name: &str, body: &[u8]| {
        let mut film = if name == "moov" { tiny() } else { small() };
        film.insert_before(if name == "moov" { "moov mvhd" } else { "moov trak tkhd" }, atom("prfl", body));
        film
    };
    for name in ["moov", "trak"] {
        films.node(5, &format!("prfl-empty-in-{name}"), first(name, &[]));
        for n in 1..8 {
            films.node(5, &format!("prfl-of-{}-in-{name}", bytes(n)), first(name, &vec![0; n]));
        }
        for n in [1, 2, 7] {
            let mut body = vec![0; n];
            body[0] = 1;
            films.node(0, &format!("prfl-of-{}-version-one-in-{name}", bytes(n)), first(name, &body));
        }
        films.node(0, &format!("prfl-without-records-in-{name}"), first(name, &[0; 8]));
        films.node(0, &format!("prfl-version-255-in-{name}"), first(name, &[255; 30]));
        let one = prfl(&[[9, 0, 0, 0]]).body;
        films.node(0, &format!("prfl-of-a-record-with-code-zero-in-{name}"), first(name, &one));
        films.node(5, &format!("prfl-one-byte-short-in-{name}"), first(name, &one[..23]));
        films.node(5, &format!("prfl-one-byte-long-in-{name}"), first(name, &[&one[..], &[0]].concat()));
        for (words, count) in [("zero", 0), ("two", 2), ("wraps", (1 << 28) + 1), ("2-32-less-one", u32::MAX)] {
            let mut film = first(name, &one);
            film.set(if name == "moov" { "moov prfl" } else { "moov trak prfl" }, 12, count);
            films.node(5, &format!("prfl-count-{words}-in-{name}"), film);
        }
    }
    films.small(0, "prfl-empty-after-mvhd", |film| film.insert_after("moov mvhd", atom("prfl", &[])));
    films.small(0, "prfl-empty-after-tkhd", |film| film.insert_after("moov trak tkhd", atom("prfl", &[])));
    films.small(0, "prfl-short-last-in-moov", |film| film.push("moov", atom("prfl", &[0; 5])));
    films.small(0, "prfl-empty-elsewhere", |film| {
        for path in ["", "moov trak mdia", "moov trak mdia minf", STBL] {
            film.at(path).children.insert(0, atom("prfl", &[]));
        }
    });
    let two = |first: &[u8], second: &[u8]| {
        let mut film = small();
        for path in ["moov mvhd", "moov trak tkhd"] {
            film.insert_before(path, atom("prfl", first));
            film.insert_before(path, atom("prfl", second));
        }
        film
    };
    films.node(0, "two-prfl-the-first-version-one-the-second-empty", two(&[1], &[]));
    films.node(0, "two-prfl-the-first-version-one-the-second-good", two(&[1], &[0; 8]));
    films.node(0, "two-prfl-the-first-good-the-second-empty", two(&[0; 8], &[]));
    films.node(5, "two-prfl-the-first-empty-the-second-good", two(&[], &[0; 8]));
    films.node(5, "two-prfl-the-first-short-the-second-good", two(&[0; 7], &[0; 8]));
    films.small(5, "prfl-empty-before-tkhd-of-the-last", |film| {
        let mut second = sound_track().trak();
        second.insert_before("tkhd", atom("free", &[9]));
        second.insert_before("tkhd", atom("prfl", &[]));
        film.push("moov", second);
    });
    films.small(5, "prfl-empty-after-a-trak-and-before-mvhd", |film| {
        film.at("moov").children.reverse();
        film.insert_before("moov mvhd", atom("prfl", &[]));
    });
    films.small(0, "prfl-empty-before-a-trak-and-after-mvhd", |film| {
        film.insert_before("moov trak", atom("prfl", &[]));
    });
}

pub fn films(films: &mut Films) {
    bodies(films);
    counts(films);
    stsz_forms(films);
    descriptions(films);
    references(films);
    profiles(films);
}
