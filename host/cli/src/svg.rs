//! Pictures: axes, bands and lines, as inline SVG. Every picture is as wide as the others, so that times stand under each other.
use crate::html::escaped;
use crate::time::clock_of;
use std::fmt::Write;
use std::ops::Range;

/// The width of a picture, and where its drawing begins and ends.
const ALL: u32 = 1040;
const LEFT: f64 = 96.0;
const RIGHT: f64 = 1020.0;

/// As many columns are drawn.
pub const COLUMNS: usize = 924;

/// About as wide is a letter.
const LETTER: f64 = 7.2;

/// As many times larger words are on a page that is as narrow as a telephone; those that do not fit then are left out there.
const NARROW: f64 = 1.9;

/// At most as many ticks an axis has.
const TICKS: u64 = 7;

/// A thousandth of a second, a hundredth.. up to an hour, in milliseconds. Above it steps are whole hours.
const STEPS: [u64; 21] = [
    1, 2, 5, 10, 20, 50, 100, 200, 500, 1_000, 2_000, 5_000, 10_000, 15_000, 30_000, 60_000, 120_000, 300_000, 600_000,
    900_000, 1_800_000,
];

/// What lies along the axis below a picture.
#[derive(Clone, Copy)]
pub enum Axis {
    /// So many units of time of a scale.
    Time(u64, u64),
    /// So many bytes.
    Bytes(u64),
}

impl Axis {
    fn all(self) -> u64 {
        match self {
            Axis::Time(total, _) => total,
            Axis::Bytes(length) => length,
        }
    }

    /// Where a value lies.
    pub fn x(self, at: u64) -> f64 {
        LEFT + (RIGHT - LEFT) * at as f64 / self.all().max(1) as f64
    }

    /// Which column a value lies in.
    pub fn column(self, at: u64) -> usize {
        let column = u128::from(at) * COLUMNS as u128 / u128::from(self.all().max(1));
        usize::try_from(column).map_or(COLUMNS - 1, |column| column.min(COLUMNS - 1))
    }

    /// The places of ticks, each with its words.
    fn ticks(self) -> Vec<(f64, String)> {
        match self {
            Axis::Time(total, scale) => {
                let all = u128::from(total) * 1000 / u128::from(scale.max(1));
                let all = u64::try_from(all).unwrap_or(u64::MAX);
                let step = time_step(all);
                let words = |at: u64| {
                    let clock = clock_of(at, 1000);
                    if step >= 1000 {
                        clock[..clock.len() - 4].to_string()
                    } else {
                        clock
                    }
                };
                let x = |at: u64| LEFT + (RIGHT - LEFT) * (at as f64 / 1000.0 * scale as f64) / total.max(1) as f64;
                (0..=all / step).map(|i| (x(i * step), words(i * step))).collect()
            }
            Axis::Bytes(length) => {
                let step = round_step(length);
                (0..=length / step).map(|i| (self.x(i * step), grouped(i * step))).collect()
            }
        }
    }
}

/// How far ticks of time lie apart, in milliseconds.
fn time_step(all: u64) -> u64 {
    let fits = |step: &u64| all / step <= TICKS;
    STEPS.into_iter().find(fits).unwrap_or_else(|| round_step(all.div_ceil(3_600_000)).saturating_mul(3_600_000))
}

/// The least of 1, 2, 5, 10, 20.. that makes few steps of a value.
pub fn round_step(all: u64) -> u64 {
    let steps = (0..19).flat_map(|power| [1, 2, 5].map(|digit| digit * 10_u64.pow(power)));
    steps.into_iter().find(|step| all / step <= TICKS).unwrap_or(u64::MAX)
}

/// A number with a comma before each three digits.
pub fn grouped(n: u64) -> String {
    let digits = n.to_string();
    let mut out = String::new();
    for (i, digit) in digits.chars().enumerate() {
        if i > 0 && (digits.len() - i) % 3 == 0 {
            out.push(',');
        }
        out.push(digit);
    }
    out
}

/// Where the words of a tick stand: below it, but not past the picture's end, on a narrow page neither.
fn below(x: f64, words: &str) -> (f64, &'static str) {
    let (half, all) = (words.chars().count() as f64 * LETTER / 2.0, f64::from(ALL));
    if x + half * NARROW < all {
        return (x, "middle");
    }
    ((x + half).min(all - 4.0), "end")
}

/// A picture that is being drawn.
pub struct Picture {
    axis: Axis,
    height: f64,
    about: String,
    body: String,
    /// Whether all of it is shown on a narrow page; others scroll there.
    fits: bool,
}

impl Picture {
    /// A picture of so many pixels above its axis; and what it shows, for those who do not see it.
    pub fn new(axis: Axis, height: f64, about: &str) -> Picture {
        let fits = matches!(axis, Axis::Time(..));
        let mut picture = Picture { axis, height, about: escaped(about), body: String::new(), fits };
        for (i, (x, words)) in axis.ticks().into_iter().enumerate() {
            let (y, class) = (height, if i % 2 == 0 { "tick" } else { "tick odd" });
            picture.put(format_args!("<line class=\"grid\" x1=\"{x:.1}\" x2=\"{x:.1}\" y1=\"8\" y2=\"{y}\"/>"));
            let (x, anchor) = below(x, &words);
            picture.put(format_args!(
                "<text class=\"{class}\" x=\"{x:.1}\" y=\"{:.0}\" text-anchor=\"{anchor}\">{words}</text>",
                y + 18.0
            ));
        }
        picture
    }

    fn put(&mut self, part: std::fmt::Arguments) {
        // Writing to a text does not fail.
        let _ = self.body.write_fmt(part);
    }

    /// The name of a row, left of the drawing.
    pub fn row(&mut self, y: f64, words: &str) {
        self.left("left", y, words);
    }

    fn left(&mut self, class: &str, y: f64, words: &str) {
        self.put(format_args!(
            "<text class=\"tick {class}\" x=\"{:.0}\" y=\"{:.0}\" text-anchor=\"end\">{}</text>",
            LEFT - 8.0,
            y,
            escaped(words)
        ));
    }

    /// A band from one value to another, with its words inside if they fit, and always where a reader points at it.
    pub fn band(&mut self, class: &str, of: Range<u64>, (y, high): (f64, f64), (words, all): (&str, &str)) {
        let (x, end) = (self.axis.x(of.start), self.axis.x(of.end));
        let width = (end - x).max(1.0);
        let title = escaped(all);
        self.put(format_args!(
            "<g><title>{title}</title><rect class=\"{class}\" x=\"{x:.1}\" y=\"{y:.0}\" width=\"{width:.1}\" height=\"{high:.0}\"/>"
        ));
        let needed = words.chars().count() as f64 * LETTER + 8.0;
        if needed < width {
            let tight = if needed * NARROW < width { "" } else { " tight" };
            self.put(format_args!(
                "<text class=\"on-{class}{tight}\" x=\"{:.1}\" y=\"{:.0}\" text-anchor=\"middle\">{}</text>",
                x + width / 2.0,
                y + high / 2.0 + 4.5,
                escaped(words)
            ));
        }
        self.put(format_args!("</g>"));
    }

    /// The columns that are marked, as one band of pieces.
    pub fn columns(&mut self, class: &str, marked: &[bool], (y, high): (f64, f64)) {
        let (mut path, mut at) = (String::new(), 0);
        while let Some(from) = marked[at..].iter().position(|is| *is).map(|i| at + i) {
            let end = marked[from..].iter().position(|is| !*is).map_or(marked.len(), |i| from + i);
            let _ = match path.is_empty() {
                true => write!(path, "M{} {:.0}h{}", LEFT + from as f64, y + high / 2.0, end - from),
                false => write!(path, "m{} 0h{}", from - at, end - from),
            };
            at = end;
        }
        if !path.is_empty() {
            self.put(format_args!("<path class=\"all-{class}\" stroke-width=\"{high:.0}\" d=\"{path}\"/>"));
        }
    }

    /// An area under steps: a value for each column that has one, which holds up to the next; `top` is the value at the top. The greatest value drawn
    /// stands beside it. Heights are in tenths of a pixel.
    pub fn area(&mut self, class: &str, columns: &[Option<u64>], top: u64) {
        let tenths = |y: f64| (y * 10.0).round() as i64;
        let Some(first) = columns.iter().position(Option::is_some) else { return };
        let mut path = format!("M{:.0} {:.0}", LEFT + first as f64, self.height);
        let (mut x, mut y) = (first, tenths(self.height));
        for (i, value) in columns.iter().enumerate() {
            let Some(now) = value.map(|value| tenths(self.y(value, top))).filter(|now| *now != y) else { continue };
            let along = if i == x { String::new() } else { format!("h{}", i - x) };
            let _ = write!(path, "{along}v{}", (now - y) as f64 / 10.0);
            (x, y) = (i, now);
        }
        let _ = write!(path, "H{RIGHT}V{:.0}z", self.height);
        let greatest = columns.iter().flatten().max().unwrap_or(&0);
        self.put(format_args!("<path class=\"{class}\" data-greatest=\"{greatest}\" d=\"{path}\"/>"));
    }

    fn y(&self, value: u64, top: u64) -> f64 {
        let high = self.height - 16.0;
        self.height - high * value as f64 / top.max(1) as f64
    }

    /// A level line across the picture, with its words above it at the left or at the right.
    pub fn level(&mut self, class: &str, value: u64, top: u64, words: &str, at_left: bool) {
        let y = self.y(value, top);
        let (x, anchor) = if at_left { (LEFT + 6.0, "start") } else { (RIGHT - 4.0, "end") };
        self.put(format_args!("<line class=\"{class}\" x1=\"{LEFT}\" x2=\"{RIGHT}\" y1=\"{y:.1}\" y2=\"{y:.1}\"/>"));
        self.put(format_args!(
            "<text class=\"on-{class}\" x=\"{x}\" y=\"{:.1}\" text-anchor=\"{anchor}\">{}</text>",
            y - 5.0,
            escaped(words)
        ));
    }

    /// A level of the axis at the left.
    pub fn level_tick(&mut self, value: u64, top: u64, words: &str) {
        let y = self.y(value, top);
        self.put(format_args!("<line class=\"grid\" x1=\"{LEFT}\" x2=\"{RIGHT}\" y1=\"{y:.1}\" y2=\"{y:.1}\"/>"));
        // That of 0 stands beside the ticks below.
        self.left(if value == 0 { "odd" } else { "left" }, y + 4.0, words);
    }

    /// Words at a value of the axis, on the side where there is room.
    pub fn note(&mut self, class: &str, at: u64, y: f64, words: &str) {
        let x = self.axis.x(at);
        let (x, anchor) = if x > (LEFT + RIGHT) / 2.0 { (x - 6.0, "end") } else { (x + 6.0, "start") };
        self.put(format_args!(
            "<text class=\"{class}\" x=\"{x:.1}\" y=\"{y:.0}\" text-anchor=\"{anchor}\">{}</text>",
            escaped(words)
        ));
    }

    pub fn finish(self) -> String {
        let Picture { about, body, height, fits, .. } = self;
        let class = if fits { " class=\"fit\"" } else { "" };
        format!(
            "<div class=\"frame\"><svg xmlns=\"http://www.w3.org/2000/svg\"{class} viewBox=\"0 0 {ALL} {:.0}\" role=\"img\" \
             aria-label=\"{about}\">{body}</svg></div>\n",
            height + 28.0
        )
    }
}

#[cfg(test)]
mod tests {
    use super::*;

    #[test]
    fn steps_are_few_and_round() {
        for all in [0, 1, 7, 8, 240, 75_000, 3_600_000, 86_400_000, u64::MAX / 3_600_000] {
            assert!(all / time_step(all) <= TICKS, "{all}");
            assert!(all / round_step(all) <= TICKS, "{all}");
        }
        assert_eq!([time_step(75_000), time_step(240), round_step(3_982_144)], [10_000, 50, 500_000]);
        assert_eq!(
            [grouped(0), grouped(999), grouped(1_000), grouped(19_204_411)],
            ["0", "999", "1,000", "19,204,411"]
        );
    }

    #[test]
    fn the_last_column_is_the_last() {
        let axis = Axis::Time(u64::from(u32::MAX), 600);
        assert_eq!([axis.column(0), axis.column(u32::MAX.into())], [0, COLUMNS - 1]);
        assert_eq!(Axis::Bytes(0).column(5), COLUMNS - 1);
    }
}
