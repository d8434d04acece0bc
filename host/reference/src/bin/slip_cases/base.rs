//! A case: what the program is asked, how that is stored, and the line that answers it.
use reference::slip::*;

/// What every byte and every place lent holds before.
const BYTE: u8 = 0xee;
const PLACE: u32 = 9;

/// What is put to the program.
pub enum Case {
    ReadNumber { width: Width, bytes: Vec<u8>, from: Cursor },
    ReadSlip { bytes: Vec<u8>, room: usize },
    ReadAnySlip { bytes: Vec<u8>, room: usize },
    WriteNumber { n: u64, at: usize, room: usize },
    WriteSlip { head: Head<u64>, wide: bool, pairs: Vec<u64>, room: usize },
}

/// The cases, each with its name.
#[derive(Default)]
pub struct Cases {
    pub list: Vec<(String, Case)>,
}

impl Cases {
    /// A slip that is read, with that many places; it is accepted.
    pub fn good(&mut self, name: &str, bytes: &[u8], room: usize) {
        self.slip(name, bytes, room, (0, 0));
    }

    /// A slip that is malformed at that place.
    pub fn malformed(&mut self, name: &str, bytes: &[u8], place: usize) {
        self.slip(name, bytes, 4, (MALFORMED, place));
    }

    /// A slip, the places lent, and the refusal and the place that its maker means.
    pub fn slip(&mut self, name: &str, bytes: &[u8], room: usize, meant: (u32, usize)) {
        let (refusal, _, place) = read_slip(bytes, &mut vec![PLACE; room]);
        assert_eq!((refusal, place), meant, "{name}");
        let at = if refusal == MALFORMED { format!("-at-{place}") } else { String::new() };
        let case = Case::ReadSlip { bytes: bytes.to_vec(), room };
        self.list.push((format!("{refusal}{at}-{name}"), case));
    }

    /// A slip that the reader of both forms reads, the places lent, and the refusal and the place that its maker means.
    pub fn any_slip(&mut self, name: &str, bytes: &[u8], room: usize, meant: (u32, usize)) {
        let (refusal, _, place) = read_any_slip(bytes, &mut vec![u64::from(PLACE); room]);
        assert_eq!((refusal, place), meant, "{name}");
        let at = if refusal == MALFORMED { format!("-at-{place}") } else { String::new() };
        let case = Case::ReadAnySlip { bytes: bytes.to_vec(), room };
        self.list.push((format!("any-{refusal}{at}-{name}"), case));
    }

    /// A number of form 1 at a place, and what its maker means that stands there.
    pub fn number(&mut self, name: &str, bytes: &[u8], from: Cursor, meant: Number) {
        self.number_of(FORM_1, name, bytes, from, meant);
    }

    /// The same for a number of that width.
    pub fn number_of(&mut self, width: Width, name: &str, bytes: &[u8], from: Cursor, meant: Number) {
        assert_eq!(number_within(width, bytes, from.at), meant, "{name}");
        let begin = match meant {
            Number::Good(n, _) => format!("good-{n}"),
            Number::Broken(at) => format!("broken-at-{at}"),
            Number::Short(at) => format!("short-at-{at}"),
        };
        let wide = if width == FORM_2 { "wide-" } else { "" };
        self.list.push((format!("{wide}{begin}-{name}"), Case::ReadNumber { width, bytes: bytes.to_vec(), from }));
    }

    pub fn write_number(&mut self, name: &str, n: u64, at: usize, room: usize) {
        self.list.push((format!("number-{name}"), Case::WriteNumber { n, at, room }));
    }

    /// A slip that is written with form 2 where wide, else with form 1.
    pub fn write_slip(&mut self, name: &str, head: Head<u64>, wide: bool, pairs: &[u64], room: usize) {
        self.list.push((format!("slip-{name}"), Case::WriteSlip { head, wide, pairs: pairs.to_vec(), room }));
    }
}

fn short(n: usize) -> u32 {
    u32::try_from(n).unwrap()
}

fn long(n: usize) -> u64 {
    u64::try_from(n).unwrap()
}

fn numbers_of<N>(head: Head<N>) -> [N; 5] {
    [head.id, head.scale, head.a, head.b, head.pairs]
}

impl Case {
    /// As it is stored: its kind, the length of the room, a count or a number, a place, and what is read or written, all big-endian.
    pub fn bytes(&self) -> Vec<u8> {
        let stored = |kind: u32, room: usize, n: u64, at: usize, body: &[u8]| {
            [&kind.to_be_bytes()[..], &short(room).to_be_bytes(), &n.to_be_bytes(), &long(at).to_be_bytes(), body]
                .concat()
        };
        match self {
            Case::ReadNumber { width, bytes, from } => {
                stored(if *width == FORM_2 { 6 } else { 1 }, 0, from.count, from.at, bytes)
            }
            Case::ReadSlip { bytes, room } => stored(2, *room, 0, 0, bytes),
            Case::ReadAnySlip { bytes, room } => stored(5, *room, 0, 0, bytes),
            Case::WriteNumber { n, at, room } => stored(3, *room, *n, *at, &[]),
            Case::WriteSlip { head, wide, pairs, room } => {
                let numbers: Vec<u8> = numbers_of(*head).iter().chain(pairs).flat_map(|n| n.to_be_bytes()).collect();
                stored(4, *room, u64::from(*wide), 0, &numbers)
            }
        }
    }

    /// What the program writes after the case's name.
    pub fn line(&self) -> String {
        match self {
            Case::ReadNumber { width, bytes, from } => number_line(*width, bytes, *from),
            Case::ReadSlip { bytes, room } => {
                let mut places = vec![PLACE; *room];
                let answer = read_slip(bytes, &mut places);
                slip_line(bytes, answer, &places)
            }
            Case::ReadAnySlip { bytes, room } => {
                let mut places = vec![u64::from(PLACE); *room];
                let answer = read_any_slip(bytes, &mut places);
                slip_line(bytes, answer, &places)
            }
            Case::WriteNumber { n, at, room } => written_number_line(*n, *at, *room),
            Case::WriteSlip { head, wide, pairs, room } => written_slip_line(*head, *wide, pairs, *room),
        }
    }
}

fn shown(bytes: &[u8]) -> String {
    bytes.iter().map(|byte| format!(" {byte:02x}")).collect()
}

fn listed<N: std::fmt::Display>(numbers: &[N]) -> String {
    numbers.iter().map(|n| format!(" {n}")).collect()
}

fn said(read: Number) -> String {
    match read {
        Number::Good(n, past) => format!("good {n} past {past}"),
        Number::Broken(at) => format!("broken at {at}"),
        Number::Short(at) => format!("short at {at}"),
    }
}

fn number_line(width: Width, bytes: &[u8], from: Cursor) -> String {
    let (read, to) = next_within(width, bytes, from);
    format!(
        ":{} from {} count {}: number_at {} next_number {} to {} count {}",
        shown(bytes),
        from.at,
        from.count,
        said(number_within(width, bytes, from.at)),
        said(read),
        to.at,
        to.count
    )
}

fn slip_line<N: std::fmt::Display>(bytes: &[u8], answer: (u32, Head<N>, usize), places: &[N]) -> String {
    let answer = match answer {
        (0, head, _) => format!("accepted{}", listed(&numbers_of(head))),
        (MALFORMED, _, place) => format!("refused 17 at {place}"),
        (refusal, _, _) => format!("refused {refusal}"),
    };
    format!(":{}: {answer} room{}", shown(bytes), listed(places))
}

fn written_number_line(n: u64, at: usize, room: usize) -> String {
    let mut out = vec![BYTE; room];
    let place = put_number(&mut out, at, n);
    format!(": number_len {} place {place} bytes{}", number_len(n), shown(&out))
}

fn written_slip_line(head: Head<u64>, wide: bool, pairs: &[u64], room: usize) -> String {
    let mut out = vec![BYTE; room];
    let mut at = put_head(&mut out, head, wide);
    let mut places = format!(" {at}");
    for n in pairs {
        at = put_number(&mut out, at, *n);
        places += &format!(" {at}");
    }
    format!(": head_len {} places{places} bytes{}", head_len(head), shown(&out))
}
