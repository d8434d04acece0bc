//! The questions that a film is asked.
use super::base::Film;
use reference::movie::tables::Sample;

/// A question: what is asked, of which track, from which media time to which, and the length of the room lent: places for a stretch, bytes for
/// a slip.
#[derive(Clone, Copy, PartialEq)]
pub struct Ask {
    pub kind: Kind,
    pub id: u32,
    pub times: Times,
    pub room: u32,
}

#[derive(Clone, Copy, PartialEq)]
pub enum Kind {
    Stretch = 1,
    Slip = 2,
}

/// The media times a and b.
pub type Times = (u32, u32);

/// The places of the longest room, and the bytes of the longest. The first are those of two pairs more than 2^15.
pub const PLACES: u32 = 65_540;
pub const BYTES: u32 = 1024;

/// The room lent where no answer says how much is needed.
const SOME_PLACES: u32 = 4;
const SOME_BYTES: u32 = 16;

/// An ID that no film has.
const STRANGER: u32 = 999;

/// The most places at which a stretch is cut.
const CUTS: usize = 8;

/// What the file of questions has of a question.
impl Ask {
    pub fn bytes(&self) -> Vec<u8> {
        let (a, b) = self.times;
        [self.kind as u32, self.id, a, b, self.room].iter().flat_map(|n| n.to_be_bytes()).collect()
    }
}

fn short(n: usize) -> u32 {
    u32::try_from(n).unwrap()
}

impl Film {
    /// No question is put twice.
    fn ask(&mut self, kind: Kind, id: u32, times: Times, room: u32) {
        let ask = Ask { kind, id, times, room };
        if !self.asks.contains(&ask) {
            self.asks.push(ask);
        }
    }

    /// A stretch with each of the rooms.
    pub fn stretch(&mut self, id: u32, times: Times, rooms: &[u32]) -> &mut Film {
        for room in rooms {
            assert!(*room <= PLACES);
            self.ask(Kind::Stretch, id, times, *room);
        }
        self
    }

    /// A slip with each of the rooms.
    pub fn slip(&mut self, id: u32, times: Times, rooms: &[u32]) -> &mut Film {
        for room in rooms {
            assert!(*room <= BYTES);
            self.ask(Kind::Slip, id, times, *room);
        }
        self
    }

    /// The places that a stretch needs, and the bytes that its slip needs.
    fn needs(&self, id: u32, (a, b): Times) -> Option<(u32, u32)> {
        let movie = self.movie.as_ref()?;
        let pairs = movie.stretch(id, u64::from(a), u64::from(b)).ok()?.pairs;
        let slip = movie.slip(id, a, b).unwrap();
        Some((2 * short(pairs.len()), short(slip.len())))
    }

    /// The stretch and its slip, with just as much room as they need.
    pub fn exact(&mut self, id: u32, list: &[Times]) -> &mut Film {
        for times in list {
            let (places, bytes) = self.needs(id, *times).unwrap_or((SOME_PLACES, SOME_BYTES));
            self.stretch(id, *times, &[places]).slip(id, *times, &[bytes]);
        }
        self
    }

    /// The stretch and its slip with just as much room, with less, with none and with more.
    pub fn tight(&mut self, id: u32, list: &[Times]) -> &mut Film {
        for times in list {
            let (places, bytes) = self.needs(id, *times).unwrap();
            self.stretch(id, *times, &[places, places - 1, places - 2, 1, 0, places + 1, places + 2, 256]);
            self.slip(id, *times, &[bytes, bytes - 1, bytes / 2, 1, 0, bytes + 1, BYTES]);
        }
        self
    }

    fn samples(&self, id: u32) -> &[Sample] {
        &self.movie.as_ref().unwrap().track(id).unwrap().samples
    }

    fn bytes_between(&self, id: u32, a: u64, b: u64) -> u64 {
        self.movie.as_ref().unwrap().stretch(id, a, b).unwrap().bytes
    }

    /// Where samples start within a stretch; of many the first, the middle one and the last.
    fn starts(&self, id: u32, (a, b): Times) -> Vec<u32> {
        let within = |sample: &&Sample| u64::from(a) < sample.decode_time && sample.decode_time < u64::from(b);
        let mut starts: Vec<u32> = self.samples(id).iter().filter(within).map(|s| s.decode_time as u32).collect();
        starts.dedup();
        if starts.len() <= CUTS {
            return starts;
        }
        vec![starts[0], starts[starts.len() / 2], starts[starts.len() - 1]]
    }

    /// Two stretches that meet have the bytes of the whole, but for the samples of no duration where they meet.
    fn halves_hold_the_whole(&self, id: u32, (a, b): Times, cut: u32) {
        let (a, b, cut) = (u64::from(a), u64::from(b), u64::from(cut));
        let lost = self.samples(id).iter().filter(|sample| sample.decode_time == cut && sample.duration == 0);
        let lost: u64 = lost.map(|sample| sample.size).sum();
        let halves = self.bytes_between(id, a, cut) + self.bytes_between(id, cut, b);
        assert_eq!(self.bytes_between(id, a, b), halves + lost, "{} {id} {a} {cut} {b}", self.name);
    }

    /// The stretch, and its two halves for each start of a sample within it.
    pub fn cut(&mut self, id: u32, list: &[Times]) -> &mut Film {
        for times in list {
            self.exact(id, &[*times]);
            for cut in self.starts(id, *times) {
                self.halves_hold_the_whole(id, *times, cut);
                self.exact(id, &[(times.0, cut), (cut, times.1)]);
            }
        }
        self
    }

    /// The stretch from each time to each later one.
    pub fn grid(&mut self, id: u32, times: &[u32]) -> &mut Film {
        for (i, a) in times.iter().enumerate() {
            for b in &times[i + 1..] {
                let places = self.needs(id, (*a, *b)).unwrap().0;
                self.stretch(id, (*a, *b), &[places]);
            }
        }
        self
    }

    /// Each track at the ends of its media: its whole, its first unit, its last, and the times that lie outside.
    pub fn ends(&mut self) -> &mut Film {
        for [id, _, _, total, ..] in self.movie.as_ref().unwrap().track_list() {
            let (id, total) = (u32::try_from(id).unwrap(), u32::try_from(total).unwrap());
            self.exact(id, &[(0, total), (0, 1), (total.saturating_sub(1), total)]);
            self.outside(id, total);
        }
        self
    }

    /// "the time or stretch lies outside"
    fn outside(&mut self, id: u32, total: u32) {
        let middle = total / 2;
        self.exact(id, &[(0, 0), (middle, middle), (total, total), (u32::MAX, u32::MAX)]);
        self.exact(id, &[(1, 0), (total, 0), (total, middle), (u32::MAX, 0), (u32::MAX, total)]);
        if total < u32::MAX {
            let past = total + 1;
            self.exact(id, &[(0, past), (middle, past), (total, past), (0, u32::MAX), (total, u32::MAX)]);
        }
        // 15 is given before 16.
        self.stretch(id, (0, 0), &[0]).slip(id, (0, 0), &[0]);
    }

    /// A stretch and a slip of one track, whatever they are answered, with some room and with none.
    pub fn each(&mut self, id: u32) -> &mut Film {
        for times in [(24, 73), (0, 0), (u32::MAX, 0)] {
            self.stretch(id, times, &[SOME_PLACES, 0]).slip(id, times, &[SOME_BYTES, 0]);
        }
        self
    }

    /// The same of IDs that are no track's.
    pub fn strangers(&mut self) -> &mut Film {
        self.each(0).each(STRANGER).each(u32::MAX)
    }

    /// Lines that are known without the reference.
    pub fn says(&mut self, lines: &[&str]) -> &mut Film {
        self.said.extend(lines.iter().map(|line| line.to_string()));
        self
    }
}
