//! Films with tables that are compact, that are not, and that are refused.
use reference::film::*;
use reference::made::*;
use reference::maker::alone::moov_of;
use reference::movie::{compact, MoovAlone};

const STBL: &str = "moov trak mdia minf stbl";

pub enum Lent {
    Whole(Vec<u8>),
    Alone(MoovAlone<Vec<u8>>),
}

/// A film, the room that it is compacted into, and what is meant to come of it: a refusal, 0 for none, or a moov that differs from the film's.
pub struct Case {
    pub name: String,
    pub lent: Lent,
    pub room: usize,
    pub refused: u32,
    pub freed: bool,
}

impl Case {
    pub fn file_name(&self) -> String {
        match self.refused {
            0 => format!("{}.film", self.name),
            number => format!("{number}-{}.film", self.name),
        }
    }

    /// The moov as it is lent; nothing of a film that has none.
    pub fn moov(&self) -> Vec<u8> {
        match &self.lent {
            Lent::Whole(film) => moov_of(film).map(|film| film.moov.to_vec()).unwrap_or_default(),
            Lent::Alone(film) => film.moov.clone(),
        }
    }

    pub fn bytes(&self) -> Vec<u8> {
        let (length, bytes) = match &self.lent {
            Lent::Whole(film) => (0, film),
            Lent::Alone(film) => (film.length, &film.moov),
        };
        [&length.to_be_bytes()[..], &u32::try_from(self.room).unwrap().to_be_bytes(), bytes].concat()
    }
}

/// W's samples with a run for each, in three chunks: two entries of stts are too many, and one of stsc.
fn wasteful(id: u32) -> Track {
    track(id, |track| {
        track.stts = vec![(1, 24), (1, 24), (1, 24), (1, 48)];
        track.stsc = vec![(1, 1, 1), (2, 1, 1), (3, 2, 1)];
        track.stco = vec![2600, 2700, 2750];
    })
}

fn film(tracks: &[Track]) -> Node {
    movie(tracks).file_of(LARGE)
}

fn changed(mut film: Node, change: impl FnOnce(&mut Node)) -> Node {
    change(&mut film);
    film
}

fn alone(film: &Node) -> MoovAlone<Vec<u8>> {
    let bytes = film.bytes();
    let found = moov_of(&bytes).unwrap();
    MoovAlone { moov: found.moov.to_vec(), length: found.length }
}

#[derive(Default)]
pub struct Films {
    list: Vec<Case>,
}

impl Films {
    pub fn all() -> Vec<Case> {
        let mut films = Films::default();
        films.entries();
        films.atoms();
        films.headers();
        films.moovs_alone();
        films.rooms();
        films.refused();
        films.list
    }

    fn case(&mut self, name: &str, lent: Lent, room: usize, refused: u32, freed: bool) {
        assert!(!self.list.iter().any(|case| case.refused == refused && case.name == name), "{name} twice");
        self.list.push(Case { name: name.to_string(), lent, room, refused, freed });
    }

    /// A film with just the room that it needs; `freed` where something of it is freed.
    fn whole(&mut self, name: &str, film: &Node, freed: bool) {
        self.case(name, Lent::Whole(film.bytes()), alone(film).moov.len(), 0, freed);
    }

    fn track(&mut self, name: &str, freed: bool, change: impl FnOnce(&mut Track)) {
        self.whole(name, &film(&[track(1, change)]), freed);
    }

    /// Which entries are too many.
    fn entries(&mut self) {
        self.whole("w", &w(), false);
        self.whole("a-run-for-each-sample-and-two-equal-chunks", &film(&[wasteful(1)]), true);
        self.track("a-run-for-each-sample", true, |track| track.stts = vec![(1, 24), (1, 24), (1, 24), (1, 48)]);
        self.track("two-runs-of-one-duration", true, |track| track.stts = vec![(2, 24), (1, 24), (1, 48)]);
        self.track("another-duration-between", false, |track| track.stts = vec![(1, 24), (1, 0), (1, 24), (1, 48)]);
        self.track("two-runs-without-duration", true, |track| track.stts = vec![(1, 0), (1, 0), (2, 24)]);
        self.track("one-run-twice", true, |track| track.stts = vec![(2, 30), (2, 30)]);
        self.track("two-chunks-in-two-entries", true, |track| track.stsc = vec![(1, 2, 1), (2, 2, 1)]);
        self.track("two-chunks-of-two-descriptions", false, |track| {
            track.descriptions = vec![picture(1, 1); 2];
            track.stsc = vec![(1, 2, 1), (2, 2, 2)];
        });
        self.track("four-chunks-the-second-of-another-description", true, |track| {
            track.descriptions = vec![picture(1, 1); 2];
            track.stsc = vec![(1, 1, 1), (2, 1, 2), (3, 1, 1), (4, 1, 1)];
            track.stco = vec![2600, 2700, 2750, 2800];
        });
        self.track("other-tables-with-equal-entries", false, |track| {
            track.ctts = Some(vec![(1, 5), (1, 5), (2, 5)]);
            track.edits = edits(&[(1, -1), (1, -1)]);
            track.stsz = Sizes::Each(vec![7; 4]);
        });
        self.track("a-stored-duration-that-is-none", true, |track| {
            track.stts = vec![(1, 24), (1, 24), (2, 24)];
            track.duration = 1;
        });
        self.whole("no-samples", &film(&[empty_track(1)]), false);
        self.whole("no-tracks", &film(&[]), false);
        self.whole("the-second-of-two-tracks", &film(&[track(2, |_| ()), wasteful(1)]), true);
        self.whole("both-of-two-tracks", &film(&[wasteful(2), wasteful(1)]), true);
    }

    /// What stands in and around an stbl.
    fn atoms(&mut self) {
        let of = |change: &dyn Fn(&mut Node)| changed(film(&[wasteful(1)]), |film| change(film));
        self.whole(
            "free-first-in-stbl",
            &of(&|film| film.insert_before(&format!("{STBL} stsd"), atom("free", &[7; 5]))),
            true,
        );
        self.whole("free-last-in-stbl", &of(&|film| film.push(STBL, atom("free", &[0; 9]))), true);
        self.whole(
            "two-free-last-in-stbl",
            &of(&|film| {
                film.push(STBL, atom("free", &[]));
                film.push(STBL, atom("free", &[1; 4]));
            }),
            true,
        );
        self.whole(
            "others-between-the-tables",
            &of(&|film| {
                film.insert_after(&format!("{STBL} stts"), atom("udta", &[8; 3]));
                film.insert_after(&format!("{STBL} stsc"), atom("stt2", &[9; 4]));
            }),
            true,
        );
        self.whole("tables-in-the-other-order", &of(&|film| film.at(STBL).children.reverse()), true);
        self.whole(
            "flags-of-the-tables",
            &of(&|film| {
                film.at(&format!("{STBL} stts")).body[1..4].copy_from_slice(&[1, 2, 3]);
                film.at(&format!("{STBL} stsc")).body[1..4].copy_from_slice(&[4, 5, 6]);
            }),
            true,
        );
        let tables = [stts(&[(1, 24), (1, 24)]), stsc(&[(1, 1, 1), (2, 1, 1)])];
        self.whole(
            "tables-and-an-stbl-elsewhere",
            &changed(w(), |film| {
                film.push("moov trak mdia minf", tables[0].clone());
                film.push("moov trak", container("stbl", tables.to_vec()));
                film.push("moov", tables[1].clone());
            }),
            false,
        );
    }

    /// How the moov's size is written, and where it stands.
    fn headers(&mut self) {
        let of = |size: Size| changed(film(&[wasteful(1)]), |film| film.at("moov").size = size);
        self.whole("moov-with-a-64-bit-size", &of(Size::Wide), true);
        let last = |size: Size| {
            changed(of(size), |film| {
                let place = film.children.iter().position(|child| child.kind == *b"moov").unwrap();
                let moov = film.children.remove(place);
                film.children.push(moov);
                film.at("moov trak mdia minf stbl stco").body[8..].copy_from_slice(&[0; 12]);
            })
        };
        self.whole("moov-last", &last(Size::True), true);
        self.whole("moov-last-with-size-0", &last(Size::Says(0)), true);
        self.whole("w-last-with-a-64-bit-size", &moov_last(), false);
    }

    fn moovs_alone(&mut self) {
        let mut of = |name: &str, film: MoovAlone<Vec<u8>>, freed: bool| {
            let room = film.moov.len();
            self.case(&format!("moov-alone-{name}"), Lent::Alone(film), room, 0, freed);
        };
        of("w", alone(&w()), false);
        let one = alone(&film(&[wasteful(1)]));
        of("a-run-for-each-sample", one.clone(), true);
        of("of-the-longest-file", MoovAlone { length: (1 << 63) - 1, ..one.clone() }, true);
        let mut moov = vec![0; one.moov.len()];
        compact(&one, &mut moov);
        of("compact-again", MoovAlone { moov, ..one }, false);
        of("with-a-64-bit-size", alone(&changed(film(&[wasteful(1)]), |film| film.at("moov").size = Size::Wide)), true);
        let long = changed(film(&[wasteful(1)]), |film| {
            let offsets: Vec<u32> = [2600, 2700, 2750].into_iter().flat_map(|low| [1, low]).collect();
            film.replace(&format!("{STBL} stco"), table("co64", 3, &offsets));
        });
        of("with-64-bit-offsets", MoovAlone { length: 1 << 40, ..alone(&long) }, true);
    }

    /// "Refusals: the file's, then 16."
    fn rooms(&mut self) {
        let film = film(&[wasteful(1)]);
        let exact = alone(&film).moov.len();
        let mut of = |name: &str, room: usize, refused: u32| {
            self.case(name, Lent::Whole(film.bytes()), room, refused, refused == 0)
        };
        of("room-of-one-byte-less", exact - 1, 16);
        of("room-for-the-body-alone", exact - 8, 16);
        of("no-room", 0, 16);
        of("room-of-one-byte-more", exact + 1, 0);
        of("room-of-60-bytes-more", exact + 60, 0);
    }

    fn refused(&mut self) {
        for (number, name, film) in spoiled(&wasteful(1), |track| film(&[track])) {
            self.case(name, Lent::Whole(film.bytes()), 16, number, false);
        }
        let one = alone(&film(&[wasteful(1)]));
        self.case("file-shorter-than-its-moov", Lent::Alone(MoovAlone { length: 1, ..one.clone() }), 16, 1, false);
        self.case(
            "byte-past-the-moov",
            Lent::Alone(MoovAlone { moov: [&one.moov[..], &[0]].concat(), ..one }),
            16,
            2,
            false,
        );
    }
}
