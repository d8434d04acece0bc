//! Refused 2: "an atom's size is wrong, passes its parent's end, or 1 to 7 bytes (under 16 for a 64-bit size) remain".
use super::base::*;
use reference::film::*;

fn says(size: u32) -> Node {
    Node { size: Size::Says(size), ..atom("free", &[9; 8]) }
}

/// An atom that says 4 to 7, and where that would end another that is good.
fn overlapping(size: u8) -> Node {
    let mut bytes = vec![0, 0, 0, size];
    bytes.resize(usize::from(size), b'e');
    bytes.extend([0, 0, 0, 8]);
    bytes.extend(b"free");
    raw(&bytes)
}

fn sizes(films: &mut Films) {
    for n in 2..8u8 {
        let word = WORDS[usize::from(n)];
        let wrong = if n < 4 { says(u32::from(n)) } else { overlapping(n) };
        films.tiny(2, &format!("size-{word}"), |film| film.push("", wrong.clone()));
        films.tiny(2, &format!("size-{word}-in-moov"), |film| film.push("moov", wrong));
    }
    films.tiny(2, "size-zero-in-moov", |film| film.push("moov", says(0)));
    films.tiny(2, "size-one-in-moov", |film| film.push("moov", says(1)));
    for (name, path) in CONTAINERS {
        films.full(2, &format!("size-zero-last-in-{name}"), |film| film.push(path, says(0)));
        let wide = Node { size: Size::Wide, ..atom("free", &[9; 8]) };
        films.full(2, &format!("wide-free-in-{name}"), |film| film.push(path, wide));
    }
    films.tiny(2, "eight-zero-bytes-last-in-moov", |film| film.at("moov").tail = vec![0; 8]);
    films.tiny(2, "size-seven-first", |film| film.insert_before("moov", says(7)));
    films.small(2, "size-zero-trak", |film| film.at("moov trak").size = Size::Says(0));
    films.small(2, "wide-trak", |film| film.at("moov trak").size = Size::Wide);
    films.small(2, "size-zero-stco", |film| film.at(path("stco")).size = Size::Says(0));
}

/// The length of an atom of the full film.
fn length(path: &str) -> u32 {
    u32::try_from(full().at(path).bytes().len()).unwrap()
}

fn passing(films: &mut Films) {
    films.full(2, "moov-passes-file-by-one", |film| film.at("moov").size = Size::Says(length("moov") + 1));
    films.full(2, "moov-one-short", |film| film.at("moov").size = Size::Says(length("moov") - 1));
    films.full(2, "moov-eight-short", |film| film.at("moov").size = Size::Says(length("moov") - 8));
    for (parent, child) in [
        ("moov", "moov trak"),
        ("trak", "moov trak mdia"),
        ("edts", "moov trak edts elst"),
        ("mdia", "moov trak mdia minf"),
        ("minf", "moov trak mdia minf stbl"),
        ("dinf", "moov trak mdia minf dinf dref"),
        ("stbl", "moov trak mdia minf stbl stco"),
    ] {
        let name = child.rsplit(' ').next().unwrap();
        films.full(2, &format!("{name}-passes-{parent}-by-one"), |film| {
            film.at(child).size = Size::Says(length(child) + 1)
        });
    }
    // The container's end is passed, and the file's is not.
    films.full(2, "edts-takes-a-part-of-mdia", |film| {
        film.at("moov trak edts").size = Size::Says(length("moov trak edts") + 8)
    });
    films.full(2, "elst-passes-edts-into-mdia", |film| {
        film.at(path("elst")).size = Size::Says(length(path("elst")) + 8)
    });
    for (name, size) in [
        ("2-31", 1 << 31),
        ("2-31-less-one", (1 << 31) - 1),
        ("2-32-less-one", u32::MAX),
        ("2-32-less-eight", u32::MAX - 7),
    ] {
        films.tiny(2, &format!("size-{name}"), |film| film.push("", says(size)));
        films.tiny(2, &format!("size-{name}-in-moov"), |film| film.push("moov", says(size)));
    }
    films.tiny(2, "size-of-last-too-large-by-one", |film| film.push("", says(17)));
}

fn wide(films: &mut Films) {
    let says = |size: u64| Node { size: Size::WideSays(size), ..atom("free", &[9; 8]) };
    for n in [0, 1, 7, 8, 15] {
        films.tiny(2, &format!("wide-size-{}", WORDS[usize::try_from(n).unwrap()]), |film| film.push("", says(n)));
    }
    // Of the 24 bytes that are there.
    let at = u64::try_from(tiny().bytes().len()).unwrap();
    for (name, size) in [
        ("25", 25),
        ("2-32", 1 << 32),
        ("2-32-and-24", (1 << 32) + 24),
        ("2-63", 1 << 63),
        ("2-63-and-24", (1 << 63) + 24),
        ("2-64-less-one", u64::MAX),
        ("2-64-less-eight", u64::MAX - 7),
        ("2-64-less-sixteen", u64::MAX - 15),
        ("back-to-the-start", 0u64.wrapping_sub(at)),
        ("back-to-eight", 8u64.wrapping_sub(at)),
    ] {
        films.tiny(2, &format!("wide-size-{name}"), |film| film.push("", says(size)));
    }
    for left in 8..16 {
        let header = [0, 0, 0, 1, b'f', b'r', b'e', b'e', 0, 0, 0, 0, 0, 0, 0, 16];
        films.tiny(2, &format!("wide-header-with-{}-left", WORDS[left]), |film| film.push("", raw(&header[..left])));
    }
    let moov = u64::try_from(tiny().at("moov").bytes().len()).unwrap() + 8;
    films.tiny(2, "wide-moov-one-short", |film| film.at("moov").size = Size::WideSays(moov - 1));
    films.tiny(2, "wide-moov-one-long", |film| film.at("moov").size = Size::WideSays(moov + 1));
    films.tiny(2, "wide-moov-of-fifteen", |film| film.at("moov").size = Size::WideSays(15));
    // The children begin after 16 bytes, and these begin after 8.
    films.tiny(2, "wide-moov-without-its-wide-size", |film| film.at("moov").size = Size::Says(1));
}

fn remaining(films: &mut Films) {
    for n in 1..8 {
        films.tiny(2, &format!("{}-left", bytes(n)), |film| film.tail = vec![9; n]);
        films.bytes(2, &format!("file-of-{}", bytes(n)), vec![0; n]);
    }
    films.tiny(2, "seven-zero-bytes-left", |film| film.tail = vec![0; 7]);
    for (name, path) in CONTAINERS {
        for n in [1, 7] {
            films.full(2, &format!("{}-left-in-{name}", bytes(n)), |film| film.at(path).tail = vec![0; n]);
        }
    }
    let whole = tiny().bytes();
    for n in [8, 9, 15, 16, whole.len() - 1] {
        films.bytes(2, &format!("first-{n}-bytes"), whole[..n].to_vec());
    }
    films.bytes(2, "all-but-the-first-byte", whole[1..].to_vec());
}

/// Containers that are walked though they are too many.
fn surplus(films: &mut Films) {
    for (name, path) in CONTAINERS {
        films.full(2, &format!("second-{name}-broken"), |film| {
            let mut second = container(name, vec![]);
            second.tail = vec![0; 3];
            film.insert_after(path, second);
        });
    }
    films.full(2, "first-moov-broken", |film| {
        film.double("moov");
        film.at("moov").tail = vec![0; 3];
    });
    films.node(2, "last-of-two-traks-broken", {
        let mut film = movie(&[small_track(), sound_track()]);
        film.at("moov trak:1 mdia").tail = vec![0; 3];
        film
    });
    films.bytes(2, "empty-trak-in-moov-of-cmov-broken", {
        let film = file(vec![container("moov", vec![atom("cmov", &[9]), container("trak", vec![raw(&[0; 5])])])]);
        film.bytes()
    });
}

pub fn films(films: &mut Films) {
    sizes(films);
    passing(films);
    wide(films);
    remaining(films);
    surplus(films);
}
