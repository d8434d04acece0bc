//! The questions that a film is asked.
use super::base::Film;
use reference::movie::track_list;

/// A question: what is asked, of which track, and the number asked. For a feature and a peak that is the code, for a profile the length of the room lent.
#[derive(Clone, Copy, PartialEq)]
pub struct Ask {
    pub kind: Kind,
    pub id: u32,
    pub n: u32,
}

#[derive(Clone, Copy, PartialEq)]
pub enum Kind {
    Sample = 1,
    At = 2,
    Map = 3,
    Feature = 4,
    Profile = 5,
    Peak = 6,
}

/// The features of documents 01 and 02.
pub const CODES: [&[u8; 4]; 6] = [b"avvb", b"avab", b"tvsz", b"vfps", b"mvbr", b"mabr"];

/// Those that a run of samples gives its value.
pub const PEAKS: [&[u8; 4]; 2] = [b"mvbr", b"mabr"];

/// The places of the longest room.
pub const PLACES: u32 = 64;

/// An ID that no film has.
const STRANGER: u32 = 999;

fn numbers(codes: &[&[u8; 4]]) -> Vec<u32> {
    codes.iter().map(|code| u32::from_be_bytes(**code)).collect()
}

/// What the file of questions has of a question.
impl Ask {
    pub fn bytes(&self) -> Vec<u8> {
        [self.kind as u32, self.id, self.n].iter().flat_map(|n| n.to_be_bytes()).collect()
    }
}

impl Film {
    /// The same question of a track with each number; none is put twice.
    fn ask(&mut self, kind: Kind, id: u32, numbers: &[u32]) -> &mut Film {
        for n in numbers {
            let ask = Ask { kind, id, n: *n };
            if !self.asks.contains(&ask) {
                self.asks.push(ask);
            }
        }
        self
    }

    pub fn sample(&mut self, id: u32, numbers: &[u32]) -> &mut Film {
        self.ask(Kind::Sample, id, numbers)
    }

    pub fn at(&mut self, id: u32, times: &[u32]) -> &mut Film {
        self.ask(Kind::At, id, times)
    }

    pub fn map(&mut self, id: u32, times: &[u32]) -> &mut Film {
        self.ask(Kind::Map, id, times)
    }

    pub fn features(&mut self, id: u32, codes: &[&[u8; 4]]) -> &mut Film {
        self.ask(Kind::Feature, id, &numbers(codes))
    }

    pub fn peaks(&mut self, id: u32, codes: &[&[u8; 4]]) -> &mut Film {
        self.ask(Kind::Peak, id, &numbers(codes))
    }

    pub fn profile(&mut self, id: u32, rooms: &[u32]) -> &mut Film {
        assert!(rooms.iter().all(|length| *length <= PLACES));
        self.ask(Kind::Profile, id, rooms)
    }

    /// Each question of each track at the ends: 0, 1, the last that is answered, the first that is not, and 2^32 - 1.
    pub fn ends(&mut self) -> &mut Film {
        let mut room = [0; 128];
        let (_, count) = track_list(&self.bytes, &mut room);
        for track in room.chunks(8).take(usize::try_from(count).unwrap()) {
            let (id, total, n) = (track[0], track[3], track[4]);
            self.sample(id, &[0, 1, n, n + 1, u32::MAX]);
            self.at(id, &[0, 1, n, n + 1, total.saturating_sub(1), total, u32::MAX]);
            self.map(id, &[0, 1, n, n + 1, total.saturating_sub(1), total, u32::MAX]);
            self.features(id, &CODES).peaks(id, &PEAKS).profile(id, &[0]);
        }
        self.profile(0, &[0])
    }

    /// Each question of one track, whatever it is answered.
    pub fn each(&mut self, id: u32) -> &mut Film {
        self.sample(id, &[1, 0]).at(id, &[0, u32::MAX]).map(id, &[0, u32::MAX]);
        self.features(id, &[b"avvb", b"mvbr", &[0; 4]]).peaks(id, &[b"mvbr", b"mabr", b"avvb"]).profile(id, &[3, 0])
    }

    /// Each question of IDs that are no track's.
    pub fn strangers(&mut self) -> &mut Film {
        self.each(0).each(STRANGER).each(u32::MAX)
    }

    /// Lines that are known without the reference.
    pub fn says(&mut self, lines: &[&str]) -> &mut Film {
        self.said.extend(lines.iter().map(|line| line.to_string()));
        self
    }
}
